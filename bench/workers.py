#!/usr/bin/env python3
"""Measures `tau run` by 1, 2, 4 and 32 workers: seconds by the clock, and how many times as long as by one worker.

It has `bin/tau prove` build the program, and prints a table. Each run is repeated, the numbers of workers in turn, and
the least time is shown, since other work on the machine only adds to it. The aims, on four processors: with heavy turns, of 90,000
evaluations each, at most 0.55 of the time of one worker by two and 0.35 by four; with small turns at most 1.2 of it by two and four,
and twice by 32.
Then, with the program show_runs, the same programs by workers on seats and by workers on a book under a lock, the two in turn, with
the aim that seats take at most a tenth more; what a turn of one seat takes, where nobody else waits, with the aim of a microsecond;
and 1,000 runs by 32 workers on seats, each of which must end.

    bench/workers.py [PROGRAM WORD..]    measures PROGRAM alone with the words, which is told the number of workers by `--workers W` behind them
"""

import os
import subprocess
import sys
import tempfile
import time

import programs

PROGRAM = programs.place("tau")
SHOWN = programs.place("show_runs")
RUNS = 15
TURNS = 1_000_000
ENDING = 1_000


def heavy(receivers, turns):
    """Turns without an effect that fold over a list of lists."""
    items = " ".join(["0"] * 172)
    body = f"(let xs (list {items}) (fold xs 0 (s i) (fold xs s (t j) (+ t 1))))"
    lines = ["(nodes 1)", f"(behaviour b {body})"]
    lines += [f"(start t{number} b 0 0)" for number in range(receivers)]
    lines += [f"(post t{number % receivers} 0)" for number in range(turns)]
    return "\n".join(lines) + "\n"


def small(count, posts, number):
    """A ring that hands on numbers, each one less than before, until they are 0."""
    lines = ["(nodes 1)"]
    for place in range(count):
        following = f"(name t{(place + 1) % count})"
        lines.append(f"(behaviour b{place} (seq (set msg) (if (= msg 0) unit (send {following} (- msg 1)))))")
    lines += [f"(start t{place} b{place} 0 0)" for place in range(count)]
    lines += [f"(post t{place} {number})" for place in range(count) for _ in range(posts)]
    return "\n".join(lines) + "\n"


# Each program with the numbers of workers, and the aim for each: the greatest share of the time of one worker.
PROGRAMS = [
    ("heavy: 1,000 turns of 90,000 evaluations", heavy(16, 1_000), {2: 0.55, 4: 0.35}),
    ("small: 80 messages at a time, 3,760 steps", small(16, 5, 11), {2: 1.2, 4: 1.2, 32: 2.0}),
    ("small: 1 message at a time, 3,999 steps", small(1, 1, 999), {2: 1.2, 4: 1.2, 32: 2.0}),
]


def shown_of(text):
    """Seconds by the clock of show_runs on this input, and the lines that it writes."""
    began = time.monotonic()
    done = subprocess.run([SHOWN], input=text.encode(), stdout=subprocess.PIPE, check=False)
    spent = time.monotonic() - began
    if done.returncode != 0:
        sys.exit(f"show_runs ended with status {done.returncode}")
    return spent, done.stdout.decode().splitlines()


def show_beside_the_lock():
    """Prints the times of workers on seats beside those of workers on a book under a lock."""
    print(f"\n{'program':44} {'workers':>7} {'seats':>8} {'lock':>8} {'share':>7} {'aim':>5}")
    for name, text, aims in PROGRAMS:
        for workers in aims:
            rounds = [[shown_of(f"# {way} {workers}\n{text}")[0] for way in ("seats", "lock")] for _ in range(RUNS)]
            seats, lock = (min(each[way] for each in rounds) for way in (0, 1))
            print(f"{name:44} {workers:7} {seats:8.3f} {lock:8.3f} {seats / lock:7.2f}  1.10", flush=True)


def show_turns():
    """Prints what a turn of one seat takes."""
    idle = "(nodes 1)\n(behaviour a unit)\n(start a a 0 0)\n"
    times = {turns: min(shown_of(f"# turns {turns}\n{idle}")[0] for _ in range(RUNS)) for turns in (1, TURNS)}
    each = (times[TURNS] - times[1]) / TURNS * 1e6
    print(f"\na turn of one seat, of {TURNS:,}: {each:.3f} microseconds, aim 1", flush=True)


def show_endings():
    """Prints how many of the runs by 32 workers ended with a legal and complete trace."""
    text = "# checked" + " 32" * ENDING + "\n" + small(16, 5, 2)
    spent, lines = shown_of(text)
    well = lines.count("32 workers: ended, legal, complete: true, told so: true")
    print(f"\nruns by 32 workers: {well} of {ENDING} ended, legal and complete, in {spent:.1f} s", flush=True)
    return 0 if well == ENDING else 1


def seconds_of(command, path, workers):
    """Seconds by the clock of one run."""
    with open(path, "rb") as source:
        began = time.monotonic()
        done = subprocess.run([*command, "--workers", str(workers)], stdin=source, stdout=subprocess.DEVNULL, check=False)
        spent = time.monotonic() - began
    if done.returncode != 0:
        sys.exit(f"{command} ended with status {done.returncode}")
    return spent


def main():
    command = sys.argv[1:] or [PROGRAM, "run", "--steps", "4000"]
    if not sys.argv[1:]:
        programs.prove("show_runs")
    print(f"{'program':44} {'workers':>7} {'seconds':>8} {'of one':>7} {'aim':>5}")
    with tempfile.TemporaryDirectory() as folder:
        for name, text, aims in PROGRAMS:
            path = os.path.join(folder, "program.tau")
            with open(path, "w", encoding="utf-8") as file:
                file.write(text)
            numbers = [1, *aims]
            rounds = [{workers: seconds_of(command, path, workers) for workers in numbers} for _ in range(RUNS)]
            least = {workers: min(each[workers] for each in rounds) for workers in numbers}
            for workers in numbers:
                aim = f"{aims[workers]:5.2f}" if workers in aims else ""
                print(f"{name:44} {workers:7} {least[workers]:8.3f} {least[workers] / least[1]:7.2f} {aim}", flush=True)
    if sys.argv[1:]:
        return 0
    show_beside_the_lock()
    show_turns()
    return show_endings()


if __name__ == "__main__":
    sys.exit(main())
