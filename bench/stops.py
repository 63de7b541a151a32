#!/usr/bin/env python3
"""Kills `tau keep` and `tau resume` at random moments, and looks whether anything is lost.

It has `bin/tau prove` build the program. The programs are those of examples/ and examples/tutorial/, and generated ones. Each is kept, with
random jobs and a random seed, and killed by SIGKILL; then it is resumed in a row, and some of these calls are killed too, until one ends by itself.
What is read in the journal after each kill, by a reader of this script's own, must hold

- the program, as `tau print` gives it, or nothing at all: then `resume` must tell fault 1 at 0, and `keep` must make the whole run;
- whole records, the steps of which begin with those of the journal before, and are at first a beginning of what `tau run` makes;

and of the text that comes at last `check` and `audit` must say that it is legal and safe; its steps must be those of the journal and its script
must have an entry more for each node and each mark there; and `resume` once more must write it again and leave the file. It prints a table, and
ends with 1 where anything was lost. A kill leaves what the system has in its memory: what a power cut leaves isn't tried.

    bench/stops.py [--stops N] [--seed N]    kills of `keep`, 500 without it, and the seed of what is chosen
"""

import argparse
import contextlib
import dataclasses
import glob
import os
import random
import subprocess
import sys
import tempfile
import time

import programs

PROGRAM = programs.place("tau")
GENERATED = range(1, 9)
MARK = b"(resumed)\n"
BLANK = "tau: journal fault 1 at 0"

# The limit of a run, and the seconds after which a call that isn't to be killed is.
STEPS = "300"
PATIENCE = 60

# How many calls of `resume` in a row may be killed, and the share of them that are to be.
ROUNDS = 5
SHARE = 0.6

# How often a kill may come too late, for each one that comes in time.
ATTEMPTS = 20


class Lost(Exception):
    """What isn't as it should be."""


@dataclasses.dataclass
class Found:
    """What came of a call: its status, which is negative where it was killed, its text and its line on standard error."""

    status: int
    text: bytes
    line: str


@dataclasses.dataclass
class Row:
    """What was counted of one program."""

    name: str
    text: bytes
    seconds: float = 0.0
    kills: int = 0
    blank: int = 0
    resumes: int = 0
    marks: int = 0
    least: int = -1
    most: int = 0
    lost: int = 0


def call(words, given=b"", folder=None, kill_after=None):
    """Runs the program with these words in a folder, and kills it after so many seconds, if any are given."""
    with tempfile.TemporaryFile() as source, tempfile.TemporaryFile() as sink, tempfile.TemporaryFile() as lines:
        source.write(given)
        source.seek(0)
        process = subprocess.Popen([PROGRAM, *words], cwd=folder, stdin=source, stdout=sink, stderr=lines)
        try:
            if kill_after is not None:
                time.sleep(kill_after)
                process.kill()
            process.wait(PATIENCE)
        finally:
            process.kill()
            process.wait()
        sink.seek(0)
        lines.seek(0)
        return Found(process.returncode, sink.read(), lines.read().decode().strip())


def demand(is_so, what):
    if not is_so:
        raise Lost(what)


# Journals and run texts.


def bytes_of(folder):
    """The bytes of the journal in a folder; none where there is no file."""
    with contextlib.suppress(FileNotFoundError), open(os.path.join(folder, "tau.journal"), "rb") as file:
        return file.read()
    return b""


def records_of(data):
    """The records of a journal, or None where it is blank (docs/journal.md, "Records on a disk")."""
    if len(data) < 6 or data[0] != 1:
        return None
    records = []
    gate = 0
    while data[gate] == 1:
        begin = gate + 5
        end = begin + int.from_bytes(data[gate + 1 : begin], "little")
        demand(begin <= len(data) and end < len(data), f"the record at {gate} isn't whole")
        records.append(data[begin:end])
        gate = end
    return records


def steps_in(records):
    """The steps of the records."""
    return [record for record in records[1:] if record != MARK]


def halves_of(text):
    """The program of a run text, and its steps, line by line."""
    program, rest = text.split(b"(trace)\n", 1)
    steps = rest.split(b"(report)\n", 1)[0]
    return program, steps.splitlines(keepends=True)


def nodes_of(program):
    """How many nodes a printed program has."""
    line = next(line for line in program.splitlines() if line.startswith(b"(nodes "))
    return int(line[len(b"(nodes ") : -1])


# One run that is stopped.


class Stopped:
    """A run in a folder of its own, with what its journal had after the last kill."""

    def __init__(self, row, folder, words):
        self.row = row
        self.folder = folder
        self.words = words
        self.whole = call(["run", "--workers", "1", *words], row.text)
        self.program, self.expected = halves_of(self.whole.text)
        self.steps = []

    def look(self):
        """Looks at the journal after a kill, and tells whether it is blank."""
        records = records_of(bytes_of(self.folder))
        if records is None:
            demand(not self.steps, "the journal is blank again")
            return True
        demand(records[0] == self.program, "the first record isn't the program")
        steps = steps_in(records)
        demand(steps[: len(self.steps)] == self.steps, "a step that was there is gone, or another")
        self.steps = steps
        return False

    def keep_again(self):
        """What must come where the journal was left blank."""
        found = call(["resume", *self.words], folder=self.folder)
        demand((found.status, found.line, found.text) == (9, BLANK, b""), f"resume of a blank journal: {found.status} {found.line}")
        found = call(["keep", *self.words], self.row.text, self.folder)
        demand((found.status, found.text) == (self.whole.status, self.whole.text), f"keep behind a blank journal: {found.status} {found.line}")

    def resume(self, chance):
        """Resumes until a call ends by itself, and gives what it wrote."""
        for number in range(ROUNDS + 1):
            is_killed = number < ROUNDS and chance.random() < SHARE
            found = call(["resume", *self.words], folder=self.folder, kill_after=chance.random() * self.row.seconds if is_killed else None)
            demand(not self.look(), "the journal is blank after a resume")
            if found.status >= 0:
                return found
            self.row.resumes += 1
        raise Lost("resume was killed each time")

    def judge(self, found):
        """What must hold of the text that came at last."""
        demand(found.status in (0, 1), f"resume ended with {found.status} {found.line}")
        program, steps = halves_of(found.text)
        demand(steps == self.steps, "the steps written aren't those of the journal")
        data = bytes_of(self.folder)
        marks = records_of(data).count(MARK)
        self.row.marks += marks
        entries = program.count(b"(at ") - self.program.count(b"(at ")
        demand(entries == marks * nodes_of(program), f"{entries} entries more for {marks} marks")
        for command in ("check", "audit"):
            judged = call([command], found.text)
            demand(judged.status == 0, f"{command} ends with {judged.status}: {judged.text.decode().strip()}")
        if found.status == 0:
            again = call(["resume", *self.words], folder=self.folder)
            demand((again.status, again.text) == (0, found.text), "another text comes by one resume more")
            demand(bytes_of(self.folder) == data, "a resume of a complete run changes the file")


def stop(row, chance, folder):
    """Keeps a program, kills that, and goes on. A kill that comes too late isn't counted."""
    words = ["--jobs", str(chance.randint(1, 3)), "--seed", str(chance.randrange(1000)), "--steps", STEPS]
    run = Stopped(row, folder, words)
    found = call(["keep", *words], row.text, folder, chance.random() * row.seconds)
    if found.status >= 0:
        demand((found.status, found.text) == (run.whole.status, run.whole.text), f"keep ended with {found.status} {found.line}")
        run.look()
        demand(run.steps == run.expected, "keep ended, and the journal hasn't all of its steps")
        return
    row.kills += 1
    if run.look():
        row.blank += 1
        run.keep_again()
        return
    demand(run.expected[: len(run.steps)] == run.steps, "the steps kept aren't those of tau run")
    row.least = len(run.steps) if row.least < 0 else min(row.least, len(run.steps))
    row.most = max(row.most, len(run.steps))
    run.judge(run.resume(chance))


# All.


def rows():
    """The programs, each with the seconds by the clock that it is kept in: the most of three calls."""
    made = []
    paths = sorted(glob.glob(os.path.join(programs.ROOT, "examples", "**", "*.tau"), recursive=True))
    for path in paths:
        with open(path, "rb") as file:
            text = file.read()
        # (some examples are run texts, and one has a fault)
        if call(["run", "--steps", "0"], text).status in (0, 1):
            made.append(Row(os.path.relpath(path, os.path.join(programs.ROOT, "examples")), text))
    made += [Row(f"gen {number}", call(["gen", str(number)]).text) for number in GENERATED]
    for row in made:
        for _ in range(3):
            with tempfile.TemporaryDirectory() as folder:
                begun = time.monotonic()
                call(["keep", "--steps", STEPS], row.text, folder)
                row.seconds = max(row.seconds, time.monotonic() - begun)
    return made


def stop_all(made, count, chance):
    """Stops random programs until so many calls of `keep` were killed."""
    attempts = 0
    while sum(row.kills for row in made) < count and attempts < count * ATTEMPTS:
        attempts += 1
        row = chance.choice(made)
        with tempfile.TemporaryDirectory() as folder:
            try:
                stop(row, chance, folder)
            except (Lost, subprocess.TimeoutExpired) as lost:
                row.lost += 1
                print(f"{row.name}: {lost}", flush=True)


def show(made):
    """Prints the table, and gives the number of losses."""
    print(f"{'program':32} {'ms':>7} {'kills':>6} {'blank':>6} {'resumes':>8} {'marks':>6} {'steps left':>11} {'lost':>5}")
    for row in made:
        left = f"{row.least} to {row.most}" if row.least >= 0 else ""
        counts = f"{row.kills:6} {row.blank:6} {row.resumes:8} {row.marks:6} {left:>11} {row.lost:5}"
        print(f"{row.name:32} {row.seconds * 1000:7.1f} {counts}")
    kills, blank, resumes, lost = (sum(getattr(row, name) for row in made) for name in ("kills", "blank", "resumes", "lost"))
    print(f"{kills} kills of keep, {blank} of them before the program was kept, and {resumes} of resume: {lost} with something lost")
    return lost


def main():
    parser = argparse.ArgumentParser(add_help=False)
    parser.add_argument("-h", "--help", action="store_true")
    parser.add_argument("--stops", type=int, default=500)
    parser.add_argument("--seed", type=int, default=0)
    words = parser.parse_args()
    programs.prove()
    made = rows()
    stop_all(made, words.stops, random.Random(words.seed))
    lost = show(made)
    return 1 if lost or sum(row.kills for row in made) < words.stops else 0


if __name__ == "__main__":
    sys.exit(main())
