#!/usr/bin/env python3
"""Measures `tau print` on large texts: seconds by the clock and by the processor, and the peak of the memory.

It has `bin/tau prove` build the program, and prints a table. Nothing is compared: what was aimed at stands in
bench/README.md.
"""

import os
import random
import subprocess
import sys
import tempfile
import time

import programs

PROGRAM = programs.place("tau")
LIMIT = 16 * 1024 * 1024
BEHAVIOURS = 256


# Expressions with places for others; the last shape, an operation, is drawn apart.
SHAPES = [
    "(if {} {} {})",
    "(let x {} {})",
    "(fold {} {} (x y) {})",
    "(send (name t1) {})",
    "(seq {} {} {})",
    "(list {} {} {} {})",
    "(set {})",
]
LEAVES = ["msg", "self", "unit", "true", "x", "y", "7", "-12345", '"text"', "(get)", "(name t0)"]


def expression(draw, depth):
    """An expression in which the variables `x` and `y` are bound."""
    if depth == 0:
        return draw.choice(LEAVES)
    number = draw.randrange(len(SHAPES) + 1)
    shape = SHAPES[number] if number < len(SHAPES) else f"({draw.choice('+-*/%<=')} {{}} {{}})"
    return shape.format(*[expression(draw, depth - 1) for _ in range(shape.count("{}"))])


def behaviours(size):
    """A program of at most `size` bytes, nearly all of them in the bodies of its behaviours."""
    draw = random.Random(1)
    head = "(nodes 4)\n"
    tail = "(start t0 b0 0 0)\n(start t1 b1 3 (list 1 2 3))\n(post t0 (list (name t1) unit))\n(at 5 (fail 1))\n"
    room = (size - len(head) - len(tail)) // BEHAVIOURS
    texts = [head]
    for number in range(BEHAVIOURS):
        begin = f"(behaviour b{number} (let x 1 (let y 2 (seq"
        end = " unit))))\n"
        left = room - len(begin) - len(end)
        parts = [begin]
        while True:
            part = " " + expression(draw, draw.randrange(1, 7))
            if len(part) > left:
                break
            parts.append(part)
            left -= len(part)
        texts.append("".join(parts) + end)
    return "".join(texts) + tail


def texts():
    yield "16 MiB of ()", "()" * (LIMIT // 2)
    yield "16 MiB of behaviours", behaviours(LIMIT)
    yield "16 MiB of 200 open brackets, closed", ("(" * 200 + ")" * 200) * (LIMIT // 400)
    yield "16 MiB of a(a)", "a(a)" * (LIMIT // 4)
    yield "200 open brackets", "(" * 200


def measure(path):
    """Prints the row of the text in a file: this process is small, so the peak is that of the program."""
    with open(path, "rb") as source, tempfile.TemporaryFile() as errors:
        begin = time.monotonic()
        process = subprocess.Popen([PROGRAM, "print"], stdin=source, stdout=subprocess.DEVNULL, stderr=errors)
        _, status, usage = os.wait4(process.pid, 0)
        seconds = time.monotonic() - begin
        process.returncode = os.waitstatus_to_exitcode(status)
        errors.seek(0)
        line = errors.read().decode().strip()
    processor = usage.ru_utime + usage.ru_stime
    print(f"{seconds:8.2f} {processor:9.2f} {usage.ru_maxrss / 1024:6.0f} {process.returncode:6}  {line}", flush=True)


def main():
    if len(sys.argv) == 2:
        measure(sys.argv[1])
        return
    programs.prove()
    print(f"{'text':36} {'bytes':>10} {'seconds':>8} {'processor':>9} {'MB':>6} {'status':>6}  line")
    for name, text in texts():
        with tempfile.NamedTemporaryFile() as source:
            source.write(text.encode())
            source.flush()
            print(f"{name:36} {len(text):10} ", end="", flush=True)
            subprocess.run([sys.executable, os.path.abspath(__file__), source.name], check=True)


if __name__ == "__main__":
    main()
