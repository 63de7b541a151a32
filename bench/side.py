#!/usr/bin/env python3
"""Sets `tau` beside another program that takes the same words, and prints what share of the other's time and memory `tau` takes.

    bench/side.py OTHER [WORD..]

OTHER and its words stand in the place of `tau`: a command and its options follow them, and a text is read from standard input. The two
run in turn, so that both meet the same minute of the machine. A row shows the share that the least of `tau`'s runs has of the least
of the other's, and in brackets the least and the greatest share of a pair: shares are kept, not seconds, which differ from machine
to machine. Processor time is user and system time; of memory it is the peak. The last column tells whether both ended with the same status and wrote the same bytes; where they didn't, the
shares compare different work. `bin/tau prove` builds what is measured. The aims are 2.0 in time and 1.3 in memory, against a program
of the same rules that proves nothing.
"""

import filecmp
import os
import subprocess
import sys
import tempfile

import programs
from run import SAVE, SET, ring
from steps import created_ring
from text import texts

OURS = [programs.place("tau")]
ROUNDS = 5
MEASURE = [sys.executable, os.path.join(os.path.dirname(os.path.abspath(__file__)), "measure.py")]
RUN = ["run", "--workers", "1", "--steps", "200000"]
COMMANDS = ("check", "audit", "report", "cut", "migrate", "print")


def reading_ring(count):
    """A ring of created transactors that read their state, which is the next one's name, and don't set it again."""
    return created_ring(count).replace("(behaviour b (let next (get) (seq (set next) (send next 1))))", "(behaviour b (send (get) 1))")


PROGRAMS = [
    ("one that sends to itself", ring(1, "(send NEXT msg)")),
    ("a ring of 64", ring(64, SET)),
    ("a ring of 64 that checkpoints", ring(64, SAVE)),
    ("a ring of 2,000 created, each sets", created_ring(2_000)),
    ("a ring of 2,000 created, each gets", reading_ring(2_000)),
]


def measured(given, taken, words):
    """Seconds, memory in MB and status of these words on the text in a file."""
    told = subprocess.run([*MEASURE, given, taken, *words], stdout=subprocess.PIPE, check=True).stdout.split()
    return float(told[0]), float(told[1]), int(told[2])


def share(pairs, column):
    """The share of the least of both, and in brackets the least and the greatest of the pairs."""
    ours, others = ([max(each[column], 0.001) for each in runs] for runs in zip(*pairs))
    shares = sorted(one / other for one, other in zip(ours, others))
    return f"{min(ours) / min(others):5.2f} ({shares[0]:.2f} to {shares[-1]:.2f})"


def compare(name, words, given, other, folder):
    """Prints the row of a command on the text in a file; where `tau`'s answer is."""
    answers = [os.path.join(folder, which) for which in ("ours", "other")]
    pairs = []
    for _ in range(ROUNDS):
        pairs.append((measured(given, answers[0], [*OURS, *words]), measured(given, answers[1], [*other, *words])))
    is_same = pairs[0][0][2] == pairs[0][1][2] and filecmp.cmp(*answers, shallow=False)
    told = "the same" if is_same else f"not the same, statuses {pairs[0][0][2]} and {pairs[0][1][2]}"
    print(f"{name:36} {words[0]:8} {share(pairs, 0):>22} {share(pairs, 1):>22}  {told}", flush=True)
    return answers[0]


def main():
    programs.prove()
    if len(sys.argv) < 2:
        sys.exit("bench/side.py: which other program?")
    other = sys.argv[1:]
    print(f"{'text':36} {'command':8} {'processor':>22} {'memory':>22}  answers")
    with tempfile.TemporaryDirectory() as folder:
        given, run_text = os.path.join(folder, "given"), os.path.join(folder, "run")
        for name, spelled in PROGRAMS:
            with open(given, "w", encoding="utf-8") as file:
                file.write(spelled)
            os.replace(compare(name, RUN, given, other, folder), run_text)
            for command in COMMANDS:
                compare(name, [command], run_text, other, folder)
        for name, spelled in texts():
            with open(given, "w", encoding="utf-8") as file:
                file.write(spelled)
            compare(name, ["print"], given, other, folder)


if __name__ == "__main__":
    main()
