#!/usr/bin/env python3
"""Measures `tau run` from start to end: steps, milliseconds by the clock, steps a second, and the peak of the memory.

It has `bin/tau prove` build the program, and prints a table. Each program is run several times, and the
median is shown. The aim is 50 ms for 1,000 steps, and two seconds for a text of 16 MiB. Its arguments are numbers of
generated programs that are run besides, 1 without any.
"""

import os
import statistics
import subprocess
import sys
import tempfile
import time

import programs

PROGRAM = programs.place("tau")
LIMIT = 16 * 1024 * 1024
RUNS = 7


def ring(count, body):
    """Transactors that send to the next one, with `body` for what is done before; NEXT stands for the next one's name."""
    lines = ["(nodes 1)"]
    for number in range(count):
        following = f"(name t{(number + 1) % count})"
        lines.append(f"(behaviour b{number} {body.replace('NEXT', following)})")
    lines += [f"(start t{number} b{number} 0 0)" for number in range(count)]
    return "\n".join(lines + ["(post t0 1)"]) + "\n"


def long_text(limit):
    """A small program behind comments that fill the text."""
    head = "(nodes 1)\n(behaviour b unit)\n(start a b 0 0)\n"
    comment = "; " + "x" * 77 + "\n"
    text = head + comment * ((limit - len(head) - 20) // len(comment))
    return text + "(post a 1)\n"


SET = "(seq (set msg) (send NEXT msg))"
SAVE = "(seq (set msg) (stabilize) (send NEXT msg) (checkpoint))"

PROGRAMS = [
    ("one that sends to itself", ring(1, "(send NEXT msg)")),
    ("one that sends to itself and checkpoints", ring(1, SAVE)),
    ("a ring of 64", ring(64, SET)),
    ("a ring of 64 that checkpoints", ring(64, SAVE)),
    ("a ring of 200", ring(200, SET)),
]


def generated(number):
    """The generated program of a number."""
    made = subprocess.run([PROGRAM, "gen", number], stdout=subprocess.PIPE, check=True)
    return made.stdout.decode("utf-8")


def texts(numbers):
    """Each program with its name. The large one comes last, and is made there: a peak of memory is no less than this process has."""
    yield from PROGRAMS
    for number in numbers:
        yield f"the generated program {number}", generated(number)
    yield "a text of 16 MiB, nearly all comment", long_text(LIMIT)


def measured(path):
    """Seconds by the clock, peak memory in MB, and the text, of one run."""
    with open(path, "rb") as source, tempfile.TemporaryFile() as sink:
        begun = time.monotonic()
        process = subprocess.Popen([PROGRAM, "run", "--workers", "1"], stdin=source, stdout=sink, stderr=subprocess.DEVNULL)
        _, _, usage = os.wait4(process.pid, 0)
        seconds = time.monotonic() - begun
        sink.seek(0)
        return seconds, usage.ru_maxrss / 1024, sink.read()


def steps_of(text):
    """How many steps a run text has."""
    lines = text.split(b"\n")
    if b"(trace)" not in lines:
        return 0
    return lines.index(b"(report)") - lines.index(b"(trace)") - 1


def main():
    programs.prove()
    print(f"{'program':44} {'steps':>6} {'ms':>9} {'steps/s':>10} {'MB':>7}")
    with tempfile.TemporaryDirectory() as folder:
        for name, text in texts(sys.argv[1:] or ["1"]):
            path = os.path.join(folder, "program.tau")
            with open(path, "w", encoding="utf-8") as file:
                file.write(text)
            runs = [measured(path) for _ in range(RUNS)]
            seconds = statistics.median(run[0] for run in runs)
            steps = steps_of(runs[0][2])
            print(f"{name:44} {steps:6} {seconds * 1000:9.1f} {steps / seconds:10.0f} {max(run[1] for run in runs):7.0f}")


if __name__ == "__main__":
    sys.exit(main())
