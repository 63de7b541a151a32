#!/usr/bin/env python3
"""Measures what large values cost: seconds of the processor, and the peak of the memory.

It has `bin/tau prove` build the program, and prints a table: of each program `run` with 1, 2 and 4 workers, and `check` of what the
first wrote; each several times, and the median is shown. The aims are half a second and twice the text for 65 MB of steps; 0.05
seconds for 30,000 Gets in one turn.
"""

import os
import statistics
import tempfile

import programs
from commands import measured

RUNS = 5


def doubled():
    """A list that is doubled until it has 16,384 items, and sent at each turn."""
    body = "(send self (if (< (len msg) 16384) (cat msg msg) msg))"
    return f"(nodes 1)\n(behaviour b {body})\n(start t b 0 0)\n(post t (list 0))\n"


def many_gets(count):
    """One turn that gets its state as often as one half of its message has items."""
    half = f"(list {' '.join(['0'] * count)})"
    body = "(fold (at msg 0) 0 (sum item) (seq (get) sum))"
    return f"(nodes 1)\n(behaviour b {body})\n(start t b 0 0)\n(post t (list {half} {half}))\n"


def large_state(gets):
    """A state that is doubled until it has 32,768 items, and then got many times in each turn."""
    body = (
        "(seq (if (< (len (get)) 32768) (set (cat (get) (get)))"
        f" (fold (list {' '.join(['0'] * gets)}) 0 (sum item) (seq (get) sum))) (send self msg))"
    )
    return f"(nodes 1)\n(behaviour b {body})\n(start t b 0 (list 0))\n(post t 0)\n"


# Each program with the limit of its steps.
PROGRAMS = [
    ("2,000 sends of 16,384 items", doubled(), 6_000),
    ("30,000 Gets, a message of 60,000 parts", many_gets(30_000), 200_000),
    ("997 Gets a turn, a state of 32,768 items", large_state(997), 20_000),
]


def main():
    programs.prove()
    print(f"{'program':42} {'command':16} {'processor':>9} {'MB':>6} {'status':>6} {'bytes written':>14}")
    with tempfile.TemporaryDirectory() as folder:
        program, text, answer = (os.path.join(folder, name) for name in ("program", "text", "answer"))
        for name, spelled, steps in PROGRAMS:
            with open(program, "w", encoding="utf-8") as file:
                file.write(spelled)
            calls = [(program, text if workers == 1 else answer, ["run", "--workers", str(workers), "--steps", str(steps)]) for workers in (1, 2, 4)]
            for given, taken, words in [*calls, (text, answer, ["check"])]:
                runs = [measured(given, taken, words) for _ in range(RUNS)]
                seconds, memory = statistics.median(run[0] for run in runs), max(run[1] for run in runs)
                shown = " ".join(words[:3])
                print(f"{name:42} {shown:16} {seconds:9.3f} {memory:6.0f} {runs[0][2]:6} {os.path.getsize(taken):14,}", flush=True)


if __name__ == "__main__":
    main()
