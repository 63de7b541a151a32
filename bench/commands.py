#!/usr/bin/env python3
"""Measures `tau run` and the commands that read a run text on runs of up to 200,000 steps: seconds of the processor, and the peak of the
memory.

The runs are those of `tau run` with one worker. It builds the program by bin/tau where it isn't built, and prints a table; each
command is run several times, and the median is shown. The aims are, for `check`, 0.3 seconds for a ring of 64, and one second and
150 MB for the ring of 2,000; 0.1 seconds for `run` of the chain; for `why` of the last Hold, and for `cut` of 40,000 checkpoints,
all In or all Out, twice the time of `report`; for `draw`, which draws the first 2,000 steps, one second; for `migrate` the time of
`check` and `print` together; for a message that is repeated a time by how often; and two seconds for each.
"""

import os
import statistics
import subprocess
import sys
import tempfile

import programs
from run import SAVE, SET, ring
from steps import chain, created_ring

PROGRAM = programs.place("tau")
RUNS = 5


def behind(count, source):
    """A source that never checkpoints, and a ring that hands its message round: each depends on the source.

    A source that doesn't stabilize either has each of them held, and one that does has each checkpoint of theirs marked Out."""
    lines = ["(nodes 1)", f"(behaviour b0 (seq {source} (send (name t1) msg)))"]
    for number in range(1, count + 1):
        following = f"(name t{number % count + 1})"
        lines.append(f"(behaviour b{number} {SAVE.replace('NEXT', following)})")
    lines += [f"(start t{number} b{number} 0 0)" for number in range(count + 1)]
    return "\n".join(lines + ["(post t0 1)"]) + "\n"


def repeated(count, copies):
    """A chain of transactors, each created by the one before, of which the last sends to a sink, in version 2: the script repeats that
    message so many times. What it carries depends on the states of all."""
    body = "(seq (set msg) (if (< 1 msg) (send (new c 0 0) (- msg 1)) (send (name sink) 0)))"
    place = 5 * count - 2
    program = f"(version 2)\n(nodes 1)\n(behaviour c {body})\n(behaviour s unit)\n(start t c 0 0)\n(start sink s 0 0)\n(post t {count})\n"
    return program + f"(at {place} (repeat {count}))\n" * copies


PROGRAMS = [
    ("one that sends to itself", ring(1, "(send NEXT msg)")),
    ("one that sends to itself and checkpoints", ring(1, SAVE)),
    ("a ring of 16 that forwards", ring(16, "(send NEXT msg)")),
    ("a ring of 64", ring(64, SET)),
    ("a ring of 64 that checkpoints", ring(64, SAVE)),
    ("a ring of 63 that is held", behind(63, "(set msg)")),
    ("a ring of 63 whose checkpoints are Out", behind(63, "(set msg) (stabilize)")),
    ("a ring of 2,000 created, each sets", created_ring(2_000)),
    ("a chain of 1,000 created", chain(1_000)),
    ("a chain of 1,000, a message repeated 512 times", repeated(1_000, 512)),
    ("a chain of 1,000, repeated 4,096 times", repeated(1_000, 4_096)),
]
COMMANDS = ["run", "check", "audit", "report", "print", "migrate", "why", "cut", "draw"]


def words_of(command, text):
    """The words of a command for the run text in a file: `run` reads a program, and `why` asks for the last Hold, where there is one."""
    if command == "run":
        return ["run", "--workers", "1", "--steps", "200000"]
    if command != "why":
        return [command]
    with open(text, encoding="utf-8") as file:
        steps = file.read().split("(trace)\n", 1)[1].split("(report)\n", 1)[0].splitlines()
    holds = [place for place, step in enumerate(steps) if step.startswith("(hold ")]
    return ["why", str(holds[-1])] if holds else []


def measured(given, taken, words):
    """Seconds, memory in MB and status of a command on a text in a file."""
    call = [sys.executable, os.path.join(os.path.dirname(os.path.abspath(__file__)), "measure.py"), given, taken, PROGRAM, *words]
    seconds, memory, status = subprocess.run(call, stdout=subprocess.PIPE, check=True).stdout.split()
    return float(seconds), float(memory), int(status)


def main():
    programs.prove()
    print(f"{'program':46} {'command':8} {'processor':>9} {'MB':>6} {'status':>6}  last line")
    with tempfile.TemporaryDirectory() as folder:
        program, text, answer = (os.path.join(folder, name) for name in ("program", "text", "answer"))
        for name, spelled in PROGRAMS:
            with open(program, "w", encoding="utf-8") as file:
                file.write(spelled)
            for command in COMMANDS:
                given, taken = (program, text) if command == "run" else (text, answer)
                words = words_of(command, text)
                if not words:
                    continue
                runs = [measured(given, taken, words) for _ in range(RUNS)]
                with open(taken, "rb") as file:
                    last = file.read().decode().strip().split("\n")[-1]
                seconds, memory = statistics.median(run[0] for run in runs), max(run[1] for run in runs)
                print(f"{name:46} {command:8} {seconds:9.3f} {memory:6.0f} {runs[0][2]:6}  {last[:40]}", flush=True)


if __name__ == "__main__":
    main()
