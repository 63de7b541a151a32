#!/usr/bin/env python3
"""Tells where the processor time of the gate goes: in each crate its proof, its tests and its edits.

    bench/gate.py [COMMAND WORD..]    runs the command, or without one the whole gate from nothing, and looks at the provers that it starts
    bench/gate.py --yardstick         takes the yardstick alone, three times

The gate from nothing is `rt ci`, and `rt ci --anew` where the kit keeps what has passed. The command is run at the top of the
repository; `rt must-fail NAME` is another that shows what a change costs.
At its end the table of docs/gate.md is printed: minutes of processor time, the number of edits that were tried, and the most memory
that one prover took, in MB. The proof of a program has its builds by both compilers in it. Edits have the check in it over which
they are tried. What a prover does in its last half second isn't seen, nor is what isn't a prover, so the sum is less than
the user and system time of the whole, which is told below it. The status is the command's.

A minute of a processor isn't the same on two machines, nor on one at two hours. So the whole gate is told in yardsticks too: one
yardstick is the processor time that the proof of three crates at the bottom takes from nothing, alone and by one job. It is taken once
before the gate and twice behind it, and the median counts. `rt selftest` would be none: what it proves is a few lines, so most of its
time is that of reading the kit and of two compilers.
"""

import os
import re
import shutil
import statistics
import subprocess
import sys
import tempfile
import time
from collections import defaultdict
from dataclasses import dataclass, field

ROOT = os.path.dirname(os.path.dirname(os.path.abspath(__file__)))
TICKS = os.sysconf("SC_CLK_TCK")
PAGE = os.sysconf("SC_PAGE_SIZE")
PAUSE = 0.5
# The crates of the yardstick stand on no others of the repository.
YARDSTICK = ("tau_lists", "tau_history", "tau_sexpr")
# Where `rt` checks an edited copy of a crate, and over what: a check of the crate as it stands, or a copy of that for each edit.
EDITED = re.compile(r"/rt-edit-[^/]*$")
OVER = re.compile(r"/rt-edits-[^/]*/(seed|\d+)$")


@dataclass
class Cost:
    """Seconds of a crate's provers, by what they do, the edits, and the most memory."""

    seconds: dict = field(default_factory=lambda: defaultdict(float))
    edits: set = field(default_factory=set)
    memory: int = 0


@dataclass
class Prover:
    """A process that proves: its crate, what it does, the edit that it tries, and what it has taken so far."""

    crate: str
    work: str
    edit: str | None
    seconds: float = 0
    memory: int = 0


def stat_of(process):
    """The fields of a process behind its name: its parent is field 1, ticks 11 and 12, its start 19, pages in memory 21."""
    with open(f"/proc/{process}/stat", encoding="utf-8", errors="replace") as file:
        return file.read().rsplit(")", 1)[1].split()


def prover_of(process):
    """What a process proves, or None where it is no prover."""
    with open(f"/proc/{process}/cmdline", encoding="utf-8", errors="replace") as file:
        words = file.read().split("\0")
    if not words[0].endswith("/rattle") or "--crate-name" not in words:
        return None
    crate = words[words.index("--crate-name") + 1]
    if not EDITED.search(os.readlink(f"/proc/{process}/cwd")):
        return Prover(crate, "tests" if "--test" in words else "proof", None)
    over = OVER.search(words[words.index("--incremental") + 1]) if "--incremental" in words else None
    return Prover(crate, "edits", over[1] if over and over[1] != "seed" else None)


def below(top, parents):
    """The processes that a process has started, and it itself."""
    children = defaultdict(list)
    for process, parent in parents.items():
        children[parent].append(process)
    found = [top]
    for process in found:
        found += children[process]
    return found


def look(top, provers):
    """Notes what each prover below the process `top` has taken so far. A process is known by its number and its start."""
    stats = {}
    for name in filter(str.isdigit, os.listdir("/proc")):
        try:
            stats[int(name)] = stat_of(name)
        except OSError:
            continue
    for process in below(top, {number: int(stat[1]) for number, stat in stats.items()}):
        try:
            stat = stats[process]
            prover = provers.get((process, stat[19])) or prover_of(process)
        except (OSError, KeyError, ValueError, IndexError):
            continue
        if prover:
            provers[process, stat[19]] = prover
            prover.seconds = (int(stat[11]) + int(stat[12])) / TICKS
            prover.memory = max(prover.memory, int(stat[21]) * PAGE)


def costs_of(provers):
    """What each crate costs, the dearest first."""
    costs = defaultdict(Cost)
    for prover in provers:
        cost = costs[prover.crate]
        cost.seconds[prover.work] += prover.seconds
        cost.edits |= {prover.edit} - {None}
        cost.memory = max(cost.memory, prover.memory)
    return sorted(costs.items(), key=lambda each: -sum(each[1].seconds.values()))


def row(name, seconds, edits, memory):
    """A row of the table: minutes of each kind of work and of all."""
    kinds = [seconds[work] for work in ("proof", "tests", "edits")]
    minutes = " | ".join(f"{each / 60:.1f}" for each in [*kinds, sum(kinds)])
    return f"| {name} | {minutes} | {edits} | {memory >> 20} |"


def table(provers):
    """The table as it stands in docs/gate.md."""
    costs = costs_of(provers)
    lines = ["| crate | proof | tests | edits | sum | number of edits | MB |", "|---|---|---|---|---|---|---|"]
    lines += [row(name, cost.seconds, len(cost.edits), cost.memory) for name, cost in costs]
    whole = defaultdict(float)
    for _, cost in costs:
        for work, seconds in cost.seconds.items():
            whole[work] += seconds
    most = max((cost.memory for _, cost in costs), default=0)
    return [*lines, row("all", whole, sum(len(cost.edits) for _, cost in costs), most)]


def yardstick():
    """Minutes of user and system time for the proof of the yardstick's crates in a copy, one after another by one job each."""
    with open(f"{ROOT}/crates.txt", encoding="utf-8") as file:
        lines = [line for line in file if line.partition(":")[0] in YARDSTICK]
    seconds = 0
    with tempfile.TemporaryDirectory() as room:
        shutil.copy(f"{ROOT}/HANDLES", room)
        with open(f"{room}/crates.txt", "w", encoding="utf-8") as file:
            file.writelines(lines)
        for name in YARDSTICK:
            shutil.copytree(f"{ROOT}/crates/{name}", f"{room}/crates/{name}", ignore=shutil.ignore_patterns("out", "must-fail"))
        for name in YARDSTICK:
            # A verdict takes nothing from what was kept.
            words = ["rt", "verdict", "--jobs", "1"]
            run = subprocess.Popen(words, cwd=f"{room}/crates/{name}", stdout=subprocess.DEVNULL, stderr=subprocess.DEVNULL)
            _, status, usage = os.wait4(run.pid, 0)
            run.returncode = os.waitstatus_to_exitcode(status)
            if run.returncode:
                sys.exit(f"bench/gate.py: {name} isn't proved, so there is no yardstick")
            seconds += usage.ru_utime + usage.ru_stime
    return seconds / 60


def told(yardsticks, minutes=None):
    """The line on the yardstick, and on how many of them the whole took."""
    median = statistics.median(yardsticks)
    whole = f"; the whole took {minutes / median:.0f} yardsticks" if minutes else ""
    return f"yardstick: {', '.join(f'{each:.2f}' for each in yardsticks)} minutes, median {median:.2f}{whole}"


def whole_gate():
    """The command that proves everything from nothing: with `--anew` where the kit's help has that word."""
    said = subprocess.run(["rt", "help"], stdout=subprocess.PIPE, stderr=subprocess.STDOUT, text=True, check=False).stdout
    return ["rt", "ci", *(["--anew"] if "--anew" in said else [])]


def main():
    if sys.argv[1:] == ["--yardstick"]:
        print(told([yardstick() for _ in range(3)]))
        return 0
    words = sys.argv[1:] or whole_gate()
    yardsticks = [] if sys.argv[1:] else [yardstick()]
    provers = {}
    begun = time.monotonic()
    run = subprocess.Popen(words, cwd=ROOT)
    ended, status, usage = 0, 0, None
    while not ended:
        try:
            look(run.pid, provers)
            time.sleep(PAUSE)
            ended, status, usage = os.wait4(run.pid, os.WNOHANG)
        except KeyboardInterrupt:
            # The command has got it too, and ends.
            continue
    run.returncode = os.waitstatus_to_exitcode(status)
    print(*table(provers.values()), sep="\n")
    spent = usage.ru_utime + usage.ru_stime
    clock = time.monotonic() - begun
    print(f"\n{' '.join(words)}: {spent / 60:.1f} minutes of user and system time, {clock / 60:.1f} by the clock", flush=True)
    if yardsticks:
        yardsticks += [yardstick(), yardstick()]
        print(told(yardsticks, spent / 60))
    return run.returncode


if __name__ == "__main__":
    sys.exit(main())
