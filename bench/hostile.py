#!/usr/bin/env python3
"""Runs `tau` on hostile inputs, over ends that fail, and under limits of the system.

It has `bin/tau prove` build the program. For each row it prints the status, the line on standard error, seconds of the processor and
the peak of the memory, and it ends with 1 where a row isn't what docs/manual.md says, or takes more than 5 seconds or 1.2 GB. The rows are

- the cases of crates/show_commands, each by a process of its own, of which those are printed that take longest;
- texts of 16 MiB, and what is one past a limit and no case;
- small programs that ask again and again what the past of many points holds;
- standard input, output and error that are closed, full, at their end, no file, or not ready yet;
- limits on memory, threads, the stack and the size of a file.

    bench/hostile.py [WORD..]    only the rows whose name has one of the words
"""

import contextlib
import dataclasses
import os
import re
import resource
import shutil
import signal
import subprocess
import sys
import tempfile
import threading
import time

import programs

PROGRAM = programs.place("tau")
CASES = ["show_commands"]
LIMIT = 16 * 1024 * 1024

# The most that a row may take, and the seconds after which its process is killed.
SECONDS = 5
MEGABYTES = 1200
PATIENCE = 60

# What a pipe holds.
ROOM = 65_536

# How many of the cases are printed, and the marks of those that are left out.
LONGEST = 8
LEFT_OUT = ["!", "?", "@", "*", "&", "+"]

NOBODY = 65534

# In a line `@COUNT TEXT` of the cases, a byte. `{}` there is the number of the time.
BYTE = re.compile(rb"\{([0-9A-F]{2})\}")

# The lines on standard error, with their statuses (docs/manual.md, "Statuses").
STOPPED = "tau: stopped at the step limit"
READING = "tau: reading failed"
WRITING = "tau: writing failed"
MEMORY = "tau: out of memory"
ILLEGAL = "tau: a step is not legal"
STATUSES = {"": 0, STOPPED: 1, ILLEGAL: 4, READING: 5, WRITING: 6, MEMORY: 7, "tau: a checkpoint is not safe": 8}

# The last line of what the program of the cases writes, which is of no case.
LAST = f"; 7 {MEMORY}\n"

COPY = b"(nodes 1)\n(behaviour copy (seq (get) (set msg)))\n(start a copy 0 0)\n(post a 5)\n"
SAVED = b"(saved a 1 0)\n(counts (checkpoints 0) (holds 0) (drops 0) (falls 0) (losses 0))\n"
RUN_TEXT = COPY + b"(trace)\n(take a 0)\n(get a)\n(set a 5)\n(done a)\n(report)\n" + SAVED


def picture(name):
    """The bytes of a picture of docs/pictures."""
    with open(os.path.join(programs.ROOT, "docs", "pictures", name), "rb") as file:
        return file.read()


# A run text with a checkpoint that was held, at place 8, since the sink k has set its state by that of the source s.
HELD = (
    b"(nodes 1)\n(behaviour src (seq (set msg) (send (name k) (get))))\n(behaviour sink (seq (set msg) (stabilize) (checkpoint)))\n"
    b"(start s src 0 0)\n(start k sink 0 0)\n(post s 7)\n"
    b"(trace)\n(take s 0)\n(set s 7)\n(get s)\n(send s 1 k 7)\n(done s)\n(take k 1)\n(set k 7)\n(stabilize k)\n(hold k)\n"
)
CHAIN = b"(point k 1 0)\n(point s 1 0 6)\n"

# Each command on a small input that has no fault, and the text that it writes; that of `gen 1` isn't told.
COMMANDS = [
    (["run"], COPY, RUN_TEXT),
    (["run", "--workers", "1"], COPY, RUN_TEXT),
    (["check"], RUN_TEXT, b"legal complete\n"),
    (["audit"], RUN_TEXT, b"safe\n"),
    (["report"], RUN_TEXT, SAVED),
    (["print"], RUN_TEXT, COPY),
    (["migrate"], RUN_TEXT, b"(version 2)\n" + RUN_TEXT),
    (["why", "8"], HELD, CHAIN),
    (["cut"], RUN_TEXT, b"(state a 1 0)\n"),
    (["draw", "8"], HELD, picture("volatile-source.svg")),
    (["gen", "1"], b"", None),
]


def input_fault(fault, at):
    """The line for a fault of an input."""
    return f"tau: input fault {fault} at {at}"


def no_decision(place):
    """The line for a place of which `why` or `draw` has nothing to tell."""
    return f"tau: no such decision at {place}"


def status_of(line):
    """The status with which this line comes."""
    if line.startswith("tau: input fault "):
        return 3
    if line.startswith("tau: no such decision at "):
        return 11
    return 2 if line.startswith("tau: usage: ") else STATUSES[line]


@dataclasses.dataclass
class Found:
    """What came of one process: seconds of the processor, peak of the memory in MB, and where they were kept, the line and the text."""

    status: int
    seconds: float
    megabytes: float
    line: str
    text: bytes


def run(words, given, taken=None, errors=None, before=None, program=PROGRAM):
    """Runs the program with these words.

    `given` makes the bytes of standard input, or is a file; `taken` and `errors` are files in place of those that are kept. The peak of
    the memory holds what this process has when the other one begins, so no large text is kept meanwhile.
    """
    with tempfile.TemporaryFile() as source, tempfile.TemporaryFile() as sink, tempfile.TemporaryFile() as lines:
        if callable(given):
            source.write(given())
            source.seek(0)
            given = source
        process = subprocess.Popen(
            [program, *words],
            stdin=given,
            stdout=sink if taken is None else taken,
            stderr=lines if errors is None else errors,
            preexec_fn=before or (lambda: None),
        )
        timer = threading.Timer(PATIENCE, process.kill)
        timer.start()
        _, status, usage = os.wait4(process.pid, 0)
        seconds = usage.ru_utime + usage.ru_stime
        timer.cancel()
        process.returncode = os.waitstatus_to_exitcode(status)
        sink.seek(0)
        lines.seek(0)
        line = lines.read().decode().strip()
        return Found(process.returncode, seconds, usage.ru_maxrss / 1024, line, sink.read())


class Rows:
    """Prints rows, and counts those that aren't as they should be."""

    def __init__(self, chosen):
        self.chosen = chosen
        self.count = 0
        self.bad = 0
        print(f"{'row':64} {'status':>6} {'seconds':>8} {'MB':>6}  line on standard error")

    def wants(self, name):
        return not self.chosen or any(word in name for word in self.chosen)

    def judge(self, found, lines, is_right=True, statuses=None):
        """What is wrong with a row that should end with one of these lines, or of these statuses where the line isn't kept."""
        wanted = statuses or [status_of(line) for line in lines]
        if found.status not in wanted:
            return f"the status should be {' or '.join(str(status) for status in wanted)}"
        if statuses is None and (found.line not in lines or status_of(found.line) != found.status):
            return f"the line should be {' or '.join(repr(line) for line in lines)}"
        if not is_right:
            return "another text was written"
        if found.seconds > SECONDS or found.megabytes > MEGABYTES:
            return f"it takes more than {SECONDS} seconds or {MEGABYTES} MB"
        return None

    def show(self, name, found, wrong):
        self.count += 1
        self.bad += wrong is not None
        told = found.line if wrong is None else f"{found.line}  WRONG: {wrong}"
        print(f"{name[:64]:64} {found.status:6} {found.seconds:8.2f} {found.megabytes:6.0f}  {told}", flush=True)

    def add(self, name, found, *lines, text=None, statuses=None):
        """Adds a row: what was found, the lines that may come, and what makes the text that should be written where the status is 0."""
        is_right = text is None or found.status != 0 or found.text == text()
        self.show(name, found, self.judge(found, lines, is_right, statuses))


# The cases.


def spelled(section):
    """The input that a section of the cases spells: a line `@COUNT TEXT` stands for the text so many times."""
    parts = []
    for line in section.splitlines(keepends=True):
        if not line.startswith(b"@"):
            parts.append(line)
            continue
        count, text = line[1:-1].split(b" ", 1)
        text = BYTE.sub(lambda found: bytes([int(found[1], 16)]), text)
        if b"{}" in text:
            parts += [text.replace(b"{}", b"%d" % number) for number in range(int(count))]
        else:
            parts.append(text * int(count))
    return b"".join(parts)


def sections_of(crate, name):
    """The lines that begin with `#` in a file of the cases, each with what follows it."""
    with open(os.path.join(programs.ROOT, "crates", crate, name), "rb") as file:
        text = file.read()
    return [part.split(b"\n", 1) for part in re.split(rb"^#", text, flags=re.MULTILINE)[1:]]


def shown(shows, section, found):
    """What the program of the cases writes of a command. Behind the first `#` of its section stands a number, `#`, `=`, or nothing."""
    text = found.text.decode()
    lines = text.splitlines(keepends=True)
    if shows == "=":
        wanted = [line[3:] for line in section.decode().split("\n") if line.startswith(";? ")]
        text = "".join(f"{sum(each in line for line in lines)} {each}\n" for each in wanted)
    elif shows == "#":
        steps = lines[lines.index("(trace)\n") + 1 : lines.index("(report)\n")]
        text = f"; {len(steps)} steps, and the last two are\n" + "".join(steps[-2:])
    elif shows:
        text = f"; lines: {len(lines)}\n" + "".join(lines[len(lines) - int(shows) :])
    ended = f"{text}; {found.status} {found.line}".rstrip() + "\n"
    if shows != "#":
        return ended
    checked = run(["check"], lambda: found.text)
    return f"{ended}; check {checked.status}\n{checked.text.decode()}"


def found_of_cases(rows, crate):
    """The name of each case of a crate, what was found, and what is wrong. With `run` there is one worker. Cases whose reads or writes
    fail, and those over a disk in memory or with gates, are left out.
    """
    for (line, section), (_, wanted) in zip(sections_of(crate, "stdin"), sections_of(crate, "stdout"), strict=True):
        command, _, title = line.decode().partition(" ; ")
        shows, *words = command.split(" ")
        if shows in LEFT_OUT:
            continue
        title = title or section.split(b"\n", 1)[0].decode(errors="replace").lstrip("; ")
        if words[:1] == ["run"] and not any(word.startswith("--workers") for word in words):
            words += ["--workers", "1"]
        found = run([word for word in words if word], lambda section=section: spelled(section))
        wanted = wanted.decode().replace("; with threads the same\n", "").removesuffix(LAST)
        is_right = shown(shows, section, found) == wanted
        yield f"{' '.join(words)}: {title}", found, rows.judge(found, [found.line], is_right, [found.status])


def add_cases(rows):
    """The cases, of which those that take longest are printed, and those that aren't right."""
    for crate in CASES:
        if not rows.wants(f"cases of {crate}"):
            continue
        all_found = sorted(found_of_cases(rows, crate), key=lambda each: (each[2] is None, -each[1].seconds))
        bad = sum(wrong is not None for _, _, wrong in all_found)
        for name, found, wrong in all_found[: max(LONGEST, bad)]:
            rows.show(name, found, wrong)
        print(f"  .. and {len(all_found) - max(LONGEST, bad)} more cases of {crate}, which are right and shorter")


# Texts of 16 MiB, and what is one past a limit.


def behaviours():
    """Behaviours of many nodes, which are printed as they stand."""
    head, tail = b"(nodes 1)\n", b"(start a b0 0 0)\n(post a 0)\n"
    units = b" unit" * ((LIMIT - len(head) - len(tail)) // 256 // len(" unit") - 8)
    return head + b"".join(b"(behaviour b%d (seq%s))\n" % (number, units) for number in range(256)) + tail


def messages():
    """Messages of many parts, which are printed as they stand."""
    head = b"(nodes 1)\n(behaviour b (set msg))\n(start a b 0 0)\n"
    zeros = b" 0" * ((LIMIT - len(head)) // 4096 // len(" 0") - 10)
    return head + b"(post a (list%s))\n" % zeros * 4096


def long_trace():
    """A run text of 16 MB with as many steps as a trace may have, none of them legal."""
    return COPY + b"(trace)\n" + b'(set a "xxxxx")\n' * 1_000_000


def repeated(part):
    """The text of 16 MiB or a little less that repeats this part."""
    return part * (LIMIT // len(part))


TEXTS = [
    ("print", "a word of 16 MiB", lambda: repeated(b"a"), input_fault(6, 0), None),
    ("print", "a number of 16 MiB", lambda: b"(nodes " + b"9" * (LIMIT - 8) + b")", input_fault(6, 2), None),
    ("print", "a text in quotes of 16 MiB", lambda: b'"' + b"x" * (LIMIT - 2) + b'"', input_fault(6, 0), None),
    ("print", "16 MiB of a(a)", lambda: repeated(b"a(a)"), input_fault(6, 0), None),
    ("print", "16 MiB of 200 lists in one another", lambda: repeated(b"(" * 200 + b")" * 200), input_fault(6, 0), None),
    ("print", "16 MiB of ) behind a program", lambda: COPY + b")" * (LIMIT - len(COPY)), input_fault(2, len(COPY)), None),
    ("print", "16 MiB of behaviours", behaviours, "", behaviours),
    ("run", "16 MiB of behaviours, without a step", behaviours, STOPPED, None),
    ("print", "16 MiB of messages", messages, "", messages),
    ("run", "16 MiB of messages, without a step", messages, STOPPED, None),
    ("print", "16 MB of 1,000,000 steps", long_trace, "", lambda: COPY),
    ("audit", "16 MB of 1,000,000 steps", long_trace, "", lambda: b"safe\n"),
    ("report", "16 MB of 1,000,000 steps", long_trace, "", lambda: SAVED),
    ("check", "16 MB of 1,000,000 steps", long_trace, ILLEGAL, None),
    ("why 999999", "16 MB of 1,000,000 steps", long_trace, no_decision(999_999), None),
    ("draw", "16 MB of 1,000,000 steps", long_trace, "", None),
    ("draw 999999", "16 MB of 1,000,000 steps", long_trace, no_decision(999_999), None),
]


def add_texts(rows):
    """Texts of 16 MiB."""
    for command, title, text, line, written in TEXTS:
        name = f"{command}: {title}"
        if rows.wants(name):
            words = ["run", "--steps", "0"] if command == "run" else command.split(" ")
            rows.add(name, run(words, text), line, text=written)


def add_long_run(rows):
    """A run text of 65 MB is written whole, and isn't read."""
    name = "run: a run text of 65 MB"
    if not rows.wants(name):
        return
    large = b"x" * 65_533
    program = b'(nodes 1)\n(behaviour b (seq (set "%s") (send self 0)))\n(start a b 0 0)\n(post a 0)\n' % large
    found = run(["run", "--workers", "1", "--steps", "4000"], lambda: program)
    turns = [b'(take a %d)\n(set a "%s")\n(send a %d a 0)\n(done a)\n' % (turn, large, turn + 1) for turn in range(1000)]
    is_right = found.text == program + b"(trace)\n" + b"".join(turns) + b"(report)\n" + SAVED
    rows.show(name, found, rows.judge(found, [STOPPED], is_right))
    rows.add("check: the same text", run(["check"], lambda: found.text), input_fault(10, LIMIT))


def add_past(rows):
    """A step New behind 2,048 transactors, which isn't legal, and a place past the last one that can be asked of, which is no number."""
    name = "check: a step New behind 2,048 transactors"
    if rows.wants(name):
        program = b"(nodes 1)\n(behaviour par (fold msg unit (k i) (new kid 0 0)))\n(behaviour kid unit)\n(start p par 0 0)\n"
        post = b"(post p (list%s))\n" % (b" 0" * 2048)
        steps = [b"(new p %d kid 0 0)\n" % number for number in range(1, 2049)]
        found = run(["check"], lambda: program + post + b"(trace)\n(take p 0)\n" + b"".join(steps))
        rows.show(name, found, rows.judge(found, [ILLEGAL], found.text == b"bad step 2048\n"))
    for command in ["why", "draw"]:
        for number, status in [(2**64 - 1, 11), (2**64, 2)]:
            name = f"{command}: the place {number}"
            if rows.wants(name):
                rows.add(name, run([command, str(number)], lambda: HELD), statuses=[status])


# Small programs that ask again and again what the past of many points holds.

# Each creates the next one, and tells one that rolls back each time: no search, since none of these points is doomed.
FALLS = (
    b"(nodes 1)\n(behaviour k (let x (new k 0 (get)) (seq (send (name s) 0) (send x 3))))\n(behaviour r (rollback))\n"
    b"(start a k 0 0)\n(start s r 0 0)\n(post a 3)\n"
)

# A chain of 1,000 stable ones, of which the last asks in each turn whether it depends on one that isn't firm.
ASKS = (
    b"(nodes 1)\n(behaviour k (if (< msg 1000) (seq (stabilize) (let x (new k 0 (get)) (send x (+ msg 1))))"
    b" (seq (set msg) (stabilize) (dependent) (send self msg))))\n(start a k 0 0)\n(post a 1)\n"
)
PASTS = [
    ("transactors that create one another, and one that rolls back each time", FALLS, 17_000, ""),
    ("a chain of stable transactors, of which the last asks in each turn", ASKS, 20_000, STOPPED),
]


def add_pasts(rows):
    """Programs of a few bytes, and their steps checked."""
    for title, program, steps, line in PASTS:
        if not rows.wants(f"run: {title}") and not rows.wants(f"check: {title}"):
            continue
        found = run(["run", "--workers", "1", "--steps", str(steps)], lambda program=program: program)
        rows.add(f"run: {title}", found, line)
        rows.add(f"check: {title}", run(["check"], lambda found=found: found.text), "")


# Ends.


def closes(number):
    """What closes an end of a process before it begins."""
    return lambda: os.close(number)


@contextlib.contextmanager
def opened(path, flags):
    """A file of the system that is opened by these flags, which a folder can be, too."""
    number = os.open(path, flags)
    yield number
    os.close(number)


def pipe(held=b"", waits=True):
    """The two ends of a pipe that holds these bytes."""
    out, into = (open(number, mode, buffering=0) for number, mode in zip(os.pipe(), ["rb", "wb"], strict=True))
    into.write(held)
    os.set_blocking(out.fileno(), waits)
    os.set_blocking(into.fileno(), waits)
    return out, into


def writes_late(into, data):
    """Writes the bytes into a pipe one after another, 2 ms apart, and closes it."""

    def write():
        with contextlib.suppress(BrokenPipeError), into:
            for number in range(len(data)):
                time.sleep(0.002)
                into.write(data[number : number + 1])

    threading.Thread(target=write).start()


def add_inputs(rows):
    """Standard input that is closed, a folder, open for writing alone, empty, late, or not ready."""
    for words, given, text in COMMANDS:
        written = (lambda: text) if text is not None else None
        told = " ".join(words)
        if not rows.wants(f"{told}: standard input"):
            continue
        line = "" if words[0] == "gen" else READING
        rows.add(f"{told}: standard input is closed", run(words, None, before=closes(0)), line)
        for what, path, flags in [("a folder", "/", os.O_RDONLY), ("open for writing alone", os.devnull, os.O_WRONLY)]:
            with opened(path, flags) as file:
                rows.add(f"{told}: standard input is {what}", run(words, file), line)
        out, into = pipe(waits=False)
        with out, into:
            rows.add(f"{told}: standard input is a nonblocking pipe, empty", run(words, out), line)
        out, into = pipe(given, waits=False)
        with out:
            into.close()
            rows.add(f"{told}: the same, with all bytes and closed", run(words, out), "", text=written)
        out, into = pipe()
        with out:
            writes_late(into, given)
            rows.add(f"{told}: standard input is a pipe that comes late", run(words, out), "", text=written)


def add_outputs(rows):
    """Standard output that is closed, full, open for reading alone, at its end, or not ready."""
    for words, given, text in COMMANDS:
        written = (lambda: text) if text is not None else None
        told = " ".join(words)
        if not rows.wants(f"{told}: standard output"):
            continue
        rows.add(f"{told}: standard output is closed", run(words, lambda: given, before=closes(1)), WRITING)
        for what, path, flags in [("full", "/dev/full", os.O_WRONLY), ("open for reading alone", os.devnull, os.O_RDONLY)]:
            with opened(path, flags) as file:
                rows.add(f"{told}: standard output is {what}", run(words, lambda: given, taken=file), WRITING)
        out, into = pipe()
        out.close()
        with into:
            rows.add(f"{told}: standard output is a pipe that nobody reads", run(words, lambda: given, taken=into), WRITING)
        out, into = pipe(b"x" * ROOM, waits=False)
        with out, into:
            rows.add(f"{told}: standard output is a nonblocking pipe, full", run(words, lambda: given, taken=into), WRITING)
        out, into = pipe(waits=False)
        with out, into:
            found = run(words, lambda: given, taken=into)
            found.text = out.read(ROOM) or b""
            rows.add(f"{told}: the same, with room for the text", found, "", text=written)


def add_fronts(rows):
    """A text that is longer than what its reader takes, of which the front is written."""
    text = b"(nodes 1)\n(behaviour b (list%s))\n" % (b" 0" * ROOM)
    name = "print: standard output is a nonblocking pipe, too small"
    if rows.wants(name):
        out, into = pipe(waits=False)
        with out, into:
            found = run(["print"], lambda: text, taken=into)
            rows.show(name, found, rows.judge(found, [WRITING], out.read(2 * ROOM) == text[:ROOM]))
    name = "print: standard output is a pipe whose reader ends early"
    if rows.wants(name):
        out, into = pipe()
        reader = threading.Thread(target=lambda: (out.read(1000), out.close()))
        reader.start()
        with into:
            rows.add(name, run(["print"], lambda: text, taken=into), WRITING)
        reader.join()


def add_errors(rows):
    """Standard error that is closed or full, which changes no status, and several ends that are closed."""
    if not rows.wants("standard error"):
        return
    for words, given, status in [(["print"], b"(nodes 0)", 3), (["print"], COPY, 0), (["fly"], b"", 2)]:
        told = " ".join(words)
        found = run(words, lambda: given, before=closes(2))
        rows.add(f"{told}: standard error is closed, status {status}", found, statuses=[status])
        with opened("/dev/full", os.O_WRONLY) as file:
            found = run(words, lambda: given, errors=file)
            rows.add(f"{told}: standard error is full, status {status}", found, statuses=[status])
    for words, numbers, status in [(["print"], [0, 1, 2], 5), (["print"], [1, 2], 6), (["gen", "1"], [0, 1, 2], 6), (["fly"], [0, 1, 2], 2)]:
        found = run(words, lambda: COPY, before=lambda: [os.close(number) for number in numbers])
        rows.add(f"{' '.join(words)}: standard error is closed with {len(numbers)} ends in all", found, statuses=[status])


# Limits.


def limited(*limits, user=None):
    """What sets limits of the system, each to its number, before a process begins, which then belongs to this user."""

    def set_limits():
        for limit, number in limits:
            resource.setrlimit(limit, (number, number))
        if user is not None:
            os.setgid(user)
            os.setuid(user)

    return set_limits


def add_memory(rows):
    """Limits on memory: a command is done, or tells that memory ran out; then nothing or a front of the text is written."""
    cases = [("run", lambda: COPY, lambda: RUN_TEXT), ("check", lambda: RUN_TEXT, lambda: b"legal complete\n")]
    for command, given, text in [*cases, ("print", behaviours, behaviours)]:
        for megabytes in [12, 16, 20, 24, 32, 64, 128, 256, 512]:
            name = f"{command}: memory of {megabytes} MB for a text of {len(given())} bytes"
            if rows.wants(name):
                found = run([command], given, before=limited((resource.RLIMIT_AS, megabytes * 1_000_000)))
                wrong = rows.judge(found, ["", MEMORY], text().startswith(found.text))
                rows.show(name, found, wrong)


def add_threads(rows):
    """Limits on threads: the workers that get none work one after another. The superuser has no such limit, so another user runs the program."""
    if not rows.wants("run: limits on threads"):
        return
    user = NOBODY if os.geteuid() == 0 else None
    words = ["run", "--workers", "32"]
    with tempfile.TemporaryDirectory() as folder:
        os.chmod(folder, 0o755)
        program = shutil.copy(PROGRAM, folder)
        for number in [1, 2, 8]:
            before = limited((resource.RLIMIT_NPROC, number), user=user)
            found = run(words, lambda: COPY, before=before, program=program)
            rows.add(f"run: limits on threads, {number} for 32 workers", found, "", text=lambda: RUN_TEXT)
    for megabytes in [64, 128, 256]:
        found = run(words, lambda: COPY, before=limited((resource.RLIMIT_AS, megabytes * 1_000_000)))
        rows.add(f"run: limits on threads by memory, {megabytes} MB for 32 workers", found, "", MEMORY, text=lambda: RUN_TEXT)


def add_others(rows):
    """Limits on the stack, on open files and on the size of a file."""
    deep = b"(nodes 1)\n(behaviour b %sunit%s)\n(start a b 0 0)\n(post a 0)\n" % (b"(seq " * 199, b")" * 199)
    done = b"(trace)\n(take a 0)\n(done a)\n(report)\n" + SAVED
    if rows.wants("run: a stack"):
        for kilobytes in [512, 1024]:
            found = run(["run"], lambda: deep, before=limited((resource.RLIMIT_STACK, kilobytes * 1024)))
            rows.add(f"run: a stack of {kilobytes} KB for lists in 200 lists", found, "", text=lambda: deep + done)
    if rows.wants("run: one more open file"):
        # The loader of the C library needs it.
        found = run(["run"], lambda: COPY, before=limited((resource.RLIMIT_NOFILE, 4)))
        rows.add("run: one more open file", found, "", text=lambda: RUN_TEXT)
    if rows.wants("run: a file of at most 100 bytes"):

        def before():
            signal.signal(signal.SIGXFSZ, signal.SIG_IGN)
            resource.setrlimit(resource.RLIMIT_FSIZE, (100, 100))

        with tempfile.TemporaryFile() as file:
            found = run(["run"], lambda: COPY, taken=file, before=before)
            file.seek(0)
            wrong = rows.judge(found, [WRITING], file.read() == RUN_TEXT[:100])
            rows.show("run: a file of at most 100 bytes", found, wrong)


def main():
    programs.prove()
    rows = Rows(sys.argv[1:])
    for add in [
        add_cases,
        add_texts,
        add_long_run,
        add_past,
        add_pasts,
        add_inputs,
        add_outputs,
        add_fronts,
        add_errors,
        add_memory,
        add_threads,
        add_others,
    ]:
        add(rows)
    print(f"{rows.count} rows, {rows.bad} of them not as they should be")
    return 1 if rows.bad else 0


if __name__ == "__main__":
    sys.exit(main())
