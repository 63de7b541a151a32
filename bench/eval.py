#!/usr/bin/env python3
"""Measures the evaluation of behaviours by `tau run`: evaluations, seconds by the clock, and evaluations a second.

It has `bin/tau prove` build the program, and prints a table. Each program is run several times, and the
median is shown; the time of an empty program is taken off. The aim is 40 million simple evaluations a second, and a
second for each of the loads: 1,000 turns of some 90,000 evaluations, a body that reads a message of 65,536 parts 90,000
times, and a fold that pushes 20,000 items.
"""

import os
import statistics
import subprocess
import sys
import tempfile
import time

import programs

PROGRAM = programs.place("tau")
RUNS = 5


def numbers(count):
    """A list of small integers, as a value."""
    return "(list " + " ".join(str(number % 7) for number in range(count)) + ")"


def program(body, message, turns):
    """A program whose transactor gets the message so many times: a turn is a Take and a Done."""
    posts = f"(post t {message})\n" * turns
    return f"(nodes 1)\n(behaviour b {body})\n(start t b 0 0)\n{posts}"


def nested(list_, body):
    """Two folds over a list, one in the other: the body has the sum `c` and the item `d`."""
    return f"(fold {list_} 0 (a b) (fold {list_} a (c d) {body}))"


def in_nested(count, each):
    """Evaluations of two folds over lists of `count` items that are at hand, with `each` in the body."""
    return 3 + count * (3 + count * each)


READS = "(seq " + " ".join(["msg"] * 10) + ")"
MANY = "(let l (list " + " ".join(["0"] * 95) + f") {nested('l', READS)})"
MIXED = "(if (< d 3) (seq unit (+ c 1)) (let x d (- c x)))"

# Name, body, message, turns, and evaluations of a turn.
LOADS = [
    ("sums of two variables, 500 turns", nested("msg", "(+ c d)"), numbers(172), 500, in_nested(172, 3)),
    ("operations in operations, 500 turns", nested("msg", "(% (+ (* c 3) d) 1000)"), numbers(112), 500, in_nested(112, 7)),
    ("a test, a let and a seq, 500 turns", nested("msg", MIXED), numbers(105), 500, in_nested(105, 8)),
    ("90,000 reads of 65,536 parts", MANY, numbers(65535), 1, 97 + in_nested(95, 11)),
    ("20,000 pushes", "(len (fold msg (list) (s i) (push s i)))", numbers(20000), 1, 60004),
]


def seconds_of(text, folder):
    """Seconds by the clock of one run, the median of several."""
    path = os.path.join(folder, "program.tau")
    with open(path, "w", encoding="utf-8") as file:
        file.write(text)
    taken = []
    for _ in range(RUNS):
        with open(path, "rb") as source:
            begun = time.monotonic()
            subprocess.run([PROGRAM, "run", "--workers", "1"], stdin=source, stdout=subprocess.DEVNULL, check=True)
            taken.append(time.monotonic() - begun)
    return statistics.median(taken)


def main():
    programs.prove()
    print(f"{'load':40} {'evaluations':>12} {'seconds':>8} {'millions a second':>18}")
    with tempfile.TemporaryDirectory() as folder:
        for name, body, message, turns, each in LOADS:
            # The same program with a body that does nothing shows what the rest costs.
            idle = seconds_of(program("unit", message, turns), folder)
            seconds = seconds_of(program(body, message, turns), folder)
            count = turns * each
            print(f"{name:40} {count:12} {seconds:8.3f} {count / max(seconds - idle, 1e-6) / 1e6:18.1f}")


if __name__ == "__main__":
    sys.exit(main())
