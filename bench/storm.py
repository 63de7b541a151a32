#!/usr/bin/env python3
"""What `storm` takes, and whether it tells what a plain recursion over the definitions tells.

    bench/storm.py              the figures, each the median of five runs, beside `run`, `report` and `cut` of the same program, and by how
                                many workers a storm takes how long
    bench/storm.py --check [N]  compares the text of `storm` with that of the recursion, on N random programs (20)

The recursion makes each run by `run --workers 1` of the program with the faults in its script, and reads what can come at a place
off the steps (docs/rules.md, "Storm").
"""

import os
import random
import statistics
import subprocess
import sys
import tempfile
import time

import programs

TAU = programs.place("tau")
MEASURE = os.path.join(programs.ROOT, "bench", "measure.py")
PURCHASE = os.path.join(programs.ROOT, "examples", "purchase.tau")


def tau(text, *words):
    """What the program writes for a text."""
    done = subprocess.run([TAU, *words], input=text.encode(), stdout=subprocess.PIPE, stderr=subprocess.PIPE, check=False)
    if done.returncode not in (0, 1):
        sys.exit(f"tau {' '.join(words)}: {done.stderr.decode()}{text}")
    return done.stdout.decode(), done.returncode


def without_script(text):
    """The printed forms of a program, its script taken away."""
    return [line for line in tau(text, "print")[0].splitlines() if not line.startswith("(at ")]


class Sweep:
    """Who lives, what is in flight, and where the cursor of a script stands, step by step."""

    def __init__(self, forms, script):
        words = [line[1:-1].split() for line in forms]
        starts = [it for it in words if it[0] == "start"]
        self.names = {it[1]: number for number, it in enumerate(starts)}
        self.homes = [int(it[3]) for it in starts]
        self.intervals = [1] * len(starts)
        self.stable = [False] * len(starts)
        self.ended = [False] * len(starts)
        self.flight = list(range(sum(it[0] == "post" for it in words)))
        self.sent = len(self.flight)
        self.nodes = next(int(it[1]) for it in words if it[0] == "nodes")
        self.script, self.entry, self.who = script, 0, 0

    def lives(self, node, start=0):
        """The least transactor from a number on that lives on a node."""
        return next((it for it in range(start, len(self.homes)) if self.homes[it] == node and not self.ended[it]), None)

    def due(self, place):
        """Passes over entries, and tells whether one is due."""
        while self.entry < len(self.script):
            at, kind, number = self.script[self.entry]
            if at > place:
                return False
            if self.lives(number, self.who) is not None if kind == "fail" else number in self.flight:
                return True
            self.entry, self.who = self.entry + 1, 0
        return False

    def fall(self, who):
        self.ended[who] |= self.intervals[who] == 0
        self.stable[who] = False

    def note(self, step, was_due):
        """Goes on behind a step."""
        kind, *rest = step[1:-1].split()
        who = self.names.get(rest[0], rest[0])
        who = int(who)
        if kind in ("take", "drop", "fall", "void", "heed"):
            self.flight.remove(int(rest[1]))
        if kind == "lose":
            self.flight.remove(who)
        if kind == "echo":
            self.flight.remove(int(rest[2]))
        if kind in ("send", "echo", "repeat"):
            self.flight.append(self.sent)
            self.sent += 1
        if kind == "new":
            self.homes.append(int(rest[3]))
            for it, value in ((self.intervals, 0), (self.stable, False), (self.ended, False)):
                it.append(value)
        if kind == "stabilize":
            self.stable[who] = True
        if kind == "checkpoint":
            self.intervals[who] += 1
            self.stable[who] = False
        if kind in ("fall", "rollback") or kind in ("trap", "fail") and not self.stable[who]:
            self.fall(who)
        if was_due:
            self.entry, self.who = (self.entry, who + 1) if kind == "fail" else (self.entry + 1, 0)


def faults_at(sweep, left, version):
    """The faults that can come at a place, in their order."""
    found = [("fail", it) for it in range(sweep.nodes) if left["fail"] and sweep.lives(it) is not None]
    found += [("lose", it) for it in sweep.flight if left["lose"]]
    return found + [("repeat", it) for it in sweep.flight if left["repeat"] and version == 2]


def run(forms, script, seed, options):
    """Steps, whether the run is complete, and the lines by which it ends."""
    text = "\n".join(forms + [f"(at {at} ({kind} {number}))" for at, kind, number in script]) + "\n"
    out, status = tau(text, "run", "--workers", "1", "--jobs", str(options["jobs"]), "--seed", str(seed), "--steps", str(options["steps"]))
    lines = out.splitlines()
    steps = lines[lines.index("(trace)") + 1 : lines.index("(report)")]
    saved = [it for it in lines[lines.index("(report)") :] if it.startswith("(saved ")]
    kept = [it for it in tau(out, "cut")[0].splitlines() if it.startswith("(state ")]
    return steps, status == 0, "".join(it + "\n" for it in (["(open)"] if status else []) + saved + kept)


def ends(forms, script, seed, left, start, faults, options):
    """The ends of a storm, in their order: faults, steps, whether complete, and lines."""
    steps, complete, lines = run(forms, script, seed, options)
    yield faults, len(steps), complete, lines
    version = 2 if "(version 2)" in forms else 1
    sweep = Sweep(forms, script)
    for place, step in enumerate(steps):
        was_due = sweep.due(place)
        if place >= start and place % options["every"] == 0 and not was_due and len(script) < 4096:
            for kind, number in faults_at(sweep, left, version):
                more = script[: sweep.entry] + [(place, kind, number)] + script[sweep.entry :]
                yield from ends(forms, more, seed, {**left, kind: left[kind] - 1}, place + 1, faults + 1, options)
        sweep.note(step, was_due)


def told(text, options):
    """The text of `storm` by the plain recursion."""
    printed = tau(text, "print")[0].splitlines()
    forms = [it for it in printed if not it.startswith("(at ")]
    script = [it[1:-2].replace("(", "").split() for it in printed if it.startswith("(at ")]
    script = [(int(at), kind, int(number)) for _, at, kind, number in script]
    left = {"fail": options["fails"], "lose": options["losses"], "repeat": options["repeats"]}
    runs = complete = steps = 0
    rows = {}
    for number in range(options["seeds"]):
        seed = (options["seed"] + number) % 2**64
        for faults, count, is_complete, lines in ends(forms, script, seed, left, 0, 0, options):
            runs, complete, steps = runs + 1, complete + is_complete, steps + count
            row = rows.setdefault(lines, [0, faults, count, seed])
            row[0] += 1
            if (faults, count) < (row[1], row[2]):
                row[1:] = faults, count, seed
    out = f"(storm (seeds {options['seeds']}) (runs {runs}) (complete {complete}) (open {runs - complete}) (steps {steps}) (outcomes {len(rows)}))\n"
    for number, (lines, row) in enumerate(sorted(rows.items(), key=lambda it: (it[1][1], it[1][2], it[0].encode()))):
        out += f"(outcome {number} (runs {row[0]}) (seed {row[3]}) (faults {row[1]}) (steps {row[2]}))\n{lines}"
    return out


def words_of(options):
    return [word for name, value in options.items() for word in (f"--{name}", str(value))]


def check(count):
    """Compares storms of generated programs, of which every other one is in version 2."""
    chosen = random.Random(7)
    bad = 0
    for number in range(count):
        text = tau("", "gen", str(number))[0]
        if number % 3:
            text = "\n".join(without_script(text)) + "\n"
        if number % 2:
            text = "(version 2)\n" + text
        options = {
            "jobs": chosen.choice([1, 1, 2, 3]),
            "seed": chosen.choice([0, 5, 2**64 - 1]),
            "seeds": chosen.choice([1, 2]),
            "fails": chosen.choice([0, 1, 1]),
            "losses": chosen.choice([0, 0, 1]),
            "repeats": chosen.choice([0, 1]),
            "every": chosen.choice([3, 5, 9]),
            "steps": chosen.choice([10, 25, 40]),
            "workers": chosen.choice([1, 2, 3, 32]),
        }
        same = tau(text, "storm", *words_of(options))[0] == told(text, options)
        bad += not same
        print(f"gen {number}{', version 2' if number % 2 else ''}: {' '.join(words_of(options))}: {'the same' if same else 'DIFFERENT'}", flush=True)
    print(f"{count} compared, {bad} bad")
    return bad


def measured(text, words):
    """Seconds of the processor and MB, as the median of five runs, and the first line that was written."""
    with tempfile.TemporaryDirectory() as room:
        given, taken = os.path.join(room, "given"), os.path.join(room, "taken")
        with open(given, "w", encoding="utf-8") as it:
            it.write(text)
        found = []
        for _ in range(5):
            done = subprocess.run([sys.executable, MEASURE, given, taken, TAU, *words], stdout=subprocess.PIPE, check=True)
            found.append([float(it) for it in done.stdout.split()])
        with open(taken, encoding="utf-8") as it:
            first = it.readline().strip()
    return statistics.median(it[0] for it in found), max(it[1] for it in found), first


def figures():
    """The table of bench/README.md."""
    with open(PURCHASE, encoding="utf-8") as it:
        text = "\n".join(without_script(it.read())) + "\n"
    print("| words | seconds | MB | runs a second | steps a second | first line |")
    print("|---|---|---|---|---|---|")
    for options in ("", "--fails 2 --seeds 3", "--losses 1 --seeds 10", "--fails 2 --losses 1 --seeds 3", "--fails 2 --seeds 100"):
        seconds, memory, first = measured(text, ["storm", "--workers", "1", *options.split()])
        runs = int(first.split("(runs ")[1].split(")")[0])
        steps = int(first.split("(steps ")[1].split(")")[0])
        print(f"| `storm {options}` | {seconds:.3f} | {memory:.0f} | {runs / seconds:,.0f} | {steps / seconds:,.0f} | `{first}` |", flush=True)
    ring = tau("", "gen", "1")[0]
    alone = [measured(ring, ["run", "--workers", "1", "--steps", "20000"])[0]]
    trace = tau(ring, "run", "--workers", "1", "--steps", "20000")[0]
    alone += [measured(trace, [it])[0] for it in ("report", "cut")]
    one = measured(ring, ["storm", "--workers", "1", "--fails", "0", "--seeds", "1", "--steps", "20000"])[0]
    print(f"\none run of 20,000 steps: `run` {alone[0]:.3f}, `report` {alone[1]:.3f}, `cut` {alone[2]:.3f}, `storm` of it {one:.3f} seconds")
    by_workers(text, ["storm", "--fails", "2", "--seeds", "100"])


def by_workers(text, words):
    """The seconds that pass, as the median of five storms by so many workers, and as a part of those of one."""
    print(f"\n| workers, `{' '.join(words)}` | seconds | of one worker's |\n|---|---|---|")
    alone = None
    for workers in (1, 2, 4):
        found = []
        for _ in range(5):
            begun = time.monotonic()
            tau(text, *words, "--workers", str(workers))
            found.append(time.monotonic() - begun)
        seconds = statistics.median(found)
        alone = alone or seconds
        print(f"| {workers} | {seconds:.2f} | {seconds / alone:.2f} |", flush=True)


if __name__ == "__main__":
    programs.prove()
    if sys.argv[1:2] == ["--check"]:
        sys.exit(check(int(sys.argv[2]) if sys.argv[2:] else 20) > 0)
    figures()
