#!/usr/bin/env python3
"""Measures `tau keep` beside `tau run`, and `tau resume` beside `tau check`, in seconds of processor time.

It has `bin/tau prove` build the program, and prints a table. A row is a program and a number of steps; its journal stands in a
folder in memory where the system has one, and once in a folder of the disk, where only the clock tells what a step costs.
`keep` makes two syncs a step. Of `resume --steps 0` nothing but the finding of the run is left, its revival and its text. The aim is
3 microseconds a step more than `run`, and the time of two checks and a second for `resume`. The last lines are of a journal of 20,000
steps to which the script adds marks, as 1,000 and 2,000 calls of `resume --steps 0` would: the aim is 0.1 seconds.
"""

import os
import shutil
import sys
import tempfile
import time

import programs
import run

PROGRAM = programs.place("tau")
MEMORY = "/dev/shm" if os.path.isdir("/dev/shm") else None
SIZES = [1_000, 20_000, 200_000]
ON_DISK = 1_000
MARKED = 20_000
MARKS = [0, 1_000, 2_000]
MARK = b"(resumed)\n"

PROGRAMS = [
    ("one that sends to itself", run.ring(1, "(send NEXT msg)")),
    ("a ring of 64", run.ring(64, run.SET)),
]


def called(folder, words, given, made):
    """Seconds of processor time and seconds by the clock of a call in a folder, which reads and writes these files."""
    with open(f"{folder}/{given}", "rb") as source, open(f"{folder}/{made}", "wb") as sink:
        begun = time.monotonic()
        pid = os.posix_spawn(
            "/bin/sh",
            ["sh", "-c", 'cd "$1" && shift && exec "$@"', "sh", folder, PROGRAM, *words],
            os.environ,
            file_actions=[(os.POSIX_SPAWN_DUP2, source.fileno(), 0), (os.POSIX_SPAWN_DUP2, sink.fileno(), 1), (os.POSIX_SPAWN_OPEN, 2, "/dev/null", os.O_WRONLY, 0)],
        )
        _, _, usage = os.wait4(pid, 0)
        return usage.ru_utime + usage.ru_stime, time.monotonic() - begun


def measured(text, steps, where):
    """What the calls take, and how many bytes the journal has."""
    folder = tempfile.mkdtemp(dir=where)
    try:
        with open(f"{folder}/program.tau", "w", encoding="utf-8") as file:
            file.write(text)
        words = ["--workers", "1", "--steps", str(steps)]
        ran = called(folder, ["run", *words], "program.tau", "run")
        kept = called(folder, ["keep", *words], "program.tau", "kept")
        size = os.path.getsize(f"{folder}/tau.journal")
        checked = called(folder, ["check"], "run", "line")
        resumed = called(folder, ["resume", "--steps", "0"], "program.tau", "resumed")
        return ran, kept, size, checked, resumed
    finally:
        shutil.rmtree(folder)


def row(name, text, steps, where, clock):
    """A row of the table, by the clock or in processor time."""
    ran, kept, size, checked, resumed = measured(text, steps, where)
    more = (kept[clock] - ran[clock]) / steps * 1_000_000
    print(
        f"{name:38} {steps:7} {ran[clock]:7.2f} {kept[clock]:7.2f} {more:9.1f} {size / steps:7.1f} {checked[clock]:7.2f} {resumed[clock]:7.2f}",
        flush=True,
    )


def with_marks(held, count):
    """The bytes of a journal with so many marks more behind its records."""
    end = 0
    while held[end] == 1:
        end += 5 + int.from_bytes(held[end + 1 : end + 5], "little")
    return held[:end] + (b"\x01" + len(MARK).to_bytes(4, "little") + MARK) * count + b"\x00"


def marked_row(name, text, count, where):
    """Prints what `resume --steps 0` takes with so many marks behind the steps."""
    folder = tempfile.mkdtemp(dir=where)
    try:
        with open(f"{folder}/program.tau", "w", encoding="utf-8") as file:
            file.write(text)
        called(folder, ["keep", "--steps", str(MARKED)], "program.tau", "kept")
        with open(f"{folder}/tau.journal", "r+b") as file:
            marked = with_marks(file.read(), count)
            file.seek(0)
            file.write(marked)
            file.truncate()
        seconds, _ = called(folder, ["resume", "--steps", "0"], "program.tau", "resumed")
        print(f"{name}, {MARKED} steps and {count} marks: resume {seconds:.2f}", flush=True)
    finally:
        shutil.rmtree(folder)


def main():
    programs.prove()
    print(f"{'program':38} {'steps':>7} {'run':>7} {'keep':>7} {'µs more':>9} {'bytes':>7} {'check':>7} {'resume':>7}")
    for name, text in PROGRAMS:
        for steps in SIZES:
            row(name, text, steps, MEMORY, 0)
    name, text = PROGRAMS[0]
    row(f"{name}, on a disk", text, ON_DISK, programs.ROOT, 1)
    for count in MARKS:
        marked_row(name, text, count, MEMORY)


if __name__ == "__main__":
    sys.exit(main())
