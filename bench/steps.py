#!/usr/bin/env python3
"""Measures long runs of the system over numbers of versions: processor seconds, steps a second, the peak of the memory, and
how much a step costs in the long run against the short one.

It has the program show_system built, behind `bin/tau prove`, and prints a table. The median of several runs is shown, less what the
program takes without a step; the peak is at least that of the measuring process. The aims are 1,500,000 steps a second for a
transactor that sends to itself, 600,000 for a ring of 64, 0.1 seconds for the chain, and a growth of 1.2 at most; two seconds for the turn
of 30,000 Gets; and, with 2,000 notices, as many steps a second as the same program makes in version 1.
"""

import os
import statistics
import subprocess
import sys

import programs
from run import SAVE, SET, ring

PROGRAM = programs.place("show_system")
RUNS = 5


def created_ring(count):
    """A start that creates the others of a ring, each of which sets its state, the next one's name, and sends on."""
    turn = "(let next (get) (seq (set next) (send next 1)))"
    make = "(let last (fold msg self (k i) (new b 0 k)) (seq (set last) (send last 1)))"
    zeros = " 0" * (count - 1)
    return (
        f"(nodes 1)\n(behaviour a (if (= msg 1) {turn} {make}))\n(behaviour b {turn})\n(start t a 0 0)\n(post t (list{zeros}))\n"
    )


def chain(count):
    """Transactors each of which sets its state and creates the next one."""
    body = "(seq (set msg) (if (< 1 msg) (send (new c 0 0) (- msg 1)) unit))"
    return f"(nodes 1)\n(behaviour c {body})\n(start t c 0 0)\n(post t {count})\n"


def beside(text, count, body):
    """The program with one more transactor, whose behaviour has this body, and so many messages for it, behind those of the program."""
    lines = text.rstrip("\n").split("\n")
    first = next(at for at, line in enumerate(lines) if line.startswith("(behaviour"))
    lines.insert(first, f"(behaviour r {body})")
    last = max(at for at, line in enumerate(lines) if line.startswith("(start"))
    lines.insert(last + 1, "(start r r 0 0)")
    return "\n".join(lines + ["(post r 1)"] * count) + "\n"


def ended(count):
    """A start that creates so many, one a turn, and writes to each twice: each ends in its first turn, and the second message comes then."""
    turn = "(let c (new q 0 0) (seq (send c 1) (send c 2) (send self (- msg 1))))"
    return f"(nodes 1)\n(behaviour p (if (< 0 msg) {turn} unit))\n(behaviour q (rollback))\n(start p p 0 0)\n(post p {count})\n"


ROLLBACK = "(rollback)"
SENT_AND_LOST = "(seq (send (name t0) 1) (rollback))"

GETS = "(nodes 1)\n(behaviour a (fold msg unit (k i) (get)))\n(start a a 0 0)\n(post a (list" + ' "x"' * 30_000 + "))\n"
NEWS = (
    "(nodes 1)\n(behaviour p (fold msg unit (k i) (new q 0 0)))\n(behaviour q unit)\n(start p p 0 0)\n(post p (list"
    + " 0" * 2_048
    + "))\n"
)

LONG = (5_000, 200_000)

# Each program with the lengths of its runs. A run that is complete earlier has fewer steps.
PROGRAMS = [
    ("one that sends to itself", ring(1, "(send NEXT msg)"), LONG),
    ("one that sends to itself and checkpoints", ring(1, SAVE), LONG),
    ("a ring of 64", ring(64, SET), LONG),
    ("a ring of 64 that checkpoints", ring(64, SAVE), LONG),
    ("a ring of 2,000 created, each sets", created_ring(2_000), (20_000, 200_000)),
    ("the ring of 64 after one rollback", beside(ring(64, SET), 1, ROLLBACK), LONG),
    ("the ring of 2,000 after one rollback", beside(created_ring(2_000), 1, ROLLBACK), (20_000, 200_000)),
    ("a ring of 250", ring(250, SET), (20_000, 200_000)),
    ("the ring of 250, 4,000 sends rolled back", beside(ring(250, SET), 4_000, SENT_AND_LOST), (20_000, 200_000)),
    ("a chain of 1,000 created", chain(1_000), (200_000,)),
    ("2,000 created that end, written to once more", ended(2_000), (200_000,)),
    ("the same in version 2, which makes 2,000 notices", "(version 2)\n" + ended(2_000), (200_000,)),
    ("a turn of 30,000 Gets, message of 60,001 parts", GETS, (200_000,)),
    ("a turn that makes 2,047 transactors", NEWS, (200_000,)),
]


def measured(text, steps):
    """Processor seconds, peak memory in MB, and the steps made."""
    process = subprocess.Popen([PROGRAM], stdin=subprocess.PIPE, stdout=subprocess.PIPE)
    process.stdin.write(f"# hearing\n{text}(calls)\nrun {steps}\n".encode())
    process.stdin.close()
    told = process.stdout.read().decode().split("\n")
    _, _, usage = os.wait4(process.pid, 0)
    if len(told) != 4 or not told[2].startswith("(steps "):
        sys.exit(f"show_system wrote {told!r}")
    return usage.ru_utime + usage.ru_stime, usage.ru_maxrss / 1024, int(told[2][7:-1])


def seconds_of(runs):
    """The median of the seconds of some runs."""
    return statistics.median(run[0] for run in runs)


def main():
    programs.prove("show_system")
    print(f"{'program':50} {'steps':>7} {'seconds':>8} {'steps/s':>9} {'MB':>6} {'growth':>7}")
    for name, text, lengths in PROGRAMS:
        nothing = seconds_of([measured(text, 0) for _ in range(RUNS)])
        first = None
        for length in lengths:
            runs = [measured(text, length) for _ in range(RUNS)]
            seconds = max(seconds_of(runs) - nothing, 0.0001)
            memory, steps = max(run[1] for run in runs), runs[0][2]
            first = first or seconds / steps
            growth = seconds / steps / first
            print(f"{name:50} {steps:7} {seconds:8.3f} {steps / seconds:9.0f} {memory:6.0f} {growth:7.2f}", flush=True)


if __name__ == "__main__":
    sys.exit(main())
