#!/usr/bin/env python3
"""Runs the cases of crates/show_commands with the Nth request for memory refused, one N at a time.

It has `bin/tau prove` build the program, and compiles by `cc` a library that is loaded before the C library: it counts the requests for
memory, and refuses those with the numbers N to N + K - 1. Each case is run once without a refusal, then for N = 1, 2, .. until the run
makes fewer than N requests; of a run of more than 3,000 requests the first 1,000 are tried, and then every 97th, or fewer, so that no
more than about 2,000 are tried. With several workers it is a fifth of these numbers, and with `keep` and `resume` two fifths, since each
end is judged by other commands.

- Each case whose text is shown, with an input of at most 65,536 bytes, by the command that it names, `run` with one worker, and K = 1. A
  run ends with status 7, nothing on standard output and the line of that status, or as the run without a refusal.
- The programs of the cases of `run`, with 2 and with 4 workers, with K = 1 and with K the number of workers, which can make all of them
  short of memory. A run that doesn't end with status 7 writes a run text of the same program, which `check` calls legal, and complete
  exactly with status 0, and which `audit` calls safe.
- The cases of `storm`, with 2 and with 4 workers and the same K. A run ends with status 7 and nothing written, or as the run without a
  refusal, which is that of one worker.
- The same programs by `keep`, each time without a file, and by `resume` of a journal with half of the steps, and with all where the run is
  complete; K = 1. An end is one of the first kind. Without status 7 the journal is that of the run without a refusal. With it, it is blank
  or has the first records of that one, and for `resume` at least those from before; then `resume` without a refusal says that it is
  blank, or writes a run text that `check` and `audit` accept. That of a complete run stays byte for byte.

Each run ends within 10 seconds and by no signal. Some runs must end with status 7. Where 4 requests are refused, in some runs all workers
must have been refused one, and the run must be finished all the same: then the caller has gone on alone (docs/rules.md, "Workers").
It prints a line for each case and command, with how many N were tried and which statuses were seen, and ends with 1 where a run isn't as
it should be.

    bench/refused.py [WORD..]    only the rows whose name has one of the words
"""

import collections
import contextlib
import dataclasses
import hashlib
import itertools
import mmap
import os
import re
import shutil
import struct
import subprocess
import sys
import tempfile

import programs
from hostile import MEMORY, STOPPED, sections_of, spelled
from stops import BLANK, Lost, halves_of, records_of, steps_in

PROGRAM = programs.place("tau")
CASES = "show_commands"

# The seconds after which a run is given up.
PATIENCE = 10

# Of a run of more than 3 * FIRST requests, the first FIRST numbers are tried, and then every STEP-th, or so many fewer that they are
# FIRST; with several workers, and with `keep` and `resume`, with a FIRST of their own.
FIRST, FIRST_TOGETHER, FIRST_KEPT, STEP = 1_000, 200, 400, 97

# Cases whose input has more bytes are left out.
LARGE = 65_536

# How many wrong runs of a row are told.
TOLD = 3

WORKERS = [2, 4]

# Where the journals of kept runs lie: in memory, where the system has such a folder.
IN_MEMORY = "/dev/shm" if os.path.isdir("/dev/shm") else None

LIBRARY = r"""
#include <errno.h>
#include <fcntl.h>
#include <stdlib.h>
#include <sys/mman.h>
#include <unistd.h>

extern void *__libc_malloc(size_t), *__libc_calloc(size_t, size_t), *__libc_realloc(void *, size_t), *__libc_memalign(size_t, size_t);

// How many requests there were, how many were refused, and to how many threads; a file that the script reads.
static unsigned long *counts;
static unsigned long first, last;
static __thread int is_counted __attribute__((tls_model("initial-exec")));

static unsigned long number_in(const char *name) {
    const char *text = getenv(name);
    return text ? strtoul(text, 0, 10) : 0;
}

__attribute__((constructor)) static void begin(void) {
    const char *path = getenv("REFUSED_COUNTS");
    int file = path ? open(path, O_RDWR) : -1;
    if (file < 0) return;
    void *page = mmap(0, 3 * sizeof *counts, PROT_READ | PROT_WRITE, MAP_SHARED, file, 0);
    close(file);
    first = number_in("REFUSED_FIRST");
    last = number_in("REFUSED_LAST");
    if (page != MAP_FAILED) counts = page;
}

static int is_refused(void) {
    if (!counts) return 0;
    unsigned long number = __atomic_add_fetch(&counts[0], 1, __ATOMIC_SEQ_CST);
    if (number < first || number > last) return 0;
    __atomic_add_fetch(&counts[1], 1, __ATOMIC_SEQ_CST);
    if (!is_counted) {
        is_counted = 1;
        __atomic_add_fetch(&counts[2], 1, __ATOMIC_SEQ_CST);
    }
    errno = ENOMEM;
    return 1;
}

void *malloc(size_t size) { return is_refused() ? 0 : __libc_malloc(size); }
void *calloc(size_t count, size_t size) { return is_refused() ? 0 : __libc_calloc(count, size); }
void *realloc(void *old, size_t size) { return is_refused() ? 0 : __libc_realloc(old, size); }
void *memalign(size_t alignment, size_t size) { return is_refused() ? 0 : __libc_memalign(alignment, size); }
void *aligned_alloc(size_t alignment, size_t size) { return is_refused() ? 0 : __libc_memalign(alignment, size); }

int posix_memalign(void **made, size_t alignment, size_t size) {
    void *memory = is_refused() ? 0 : __libc_memalign(alignment, size);
    if (!memory) return ENOMEM;
    *made = memory;
    return 0;
}
"""


@dataclasses.dataclass(frozen=True)
class Ended:
    """How a run has ended, and how many requests it made, how many were refused, and to how many threads. The status is None where it
    was given up."""

    status: int | None
    line: str
    text: bytes
    requests: int = 0
    refused: int = 0
    threads: int = 0

    def as_seen(self):
        """What is seen from outside."""
        return self.status, self.line, self.text


class Refuser:
    """Runs the program, with requests for memory refused. Its journal lies in a folder of its own."""

    def __init__(self, folder, kept):
        if shutil.which("cc") is None:
            sys.exit("cc isn't found, by which the library that refuses requests is compiled")
        source = os.path.join(folder, "refused.c")
        with open(source, "w", encoding="utf-8") as file:
            file.write(LIBRARY)
        self.library = os.path.join(folder, "refused.so")
        subprocess.run(["cc", "-O2", "-shared", "-fPIC", "-o", self.library, source], check=True)
        self.kept = kept
        self.journal = os.path.join(kept, "tau.journal")
        self.path = os.path.join(folder, "counts")
        with open(self.path, "wb") as file:
            file.write(bytes(24))
        with open(self.path, "r+b") as file:
            self.counts = mmap.mmap(file.fileno(), 24)

    def run(self, words, given, first=0, many=0):
        """Runs the program with these words and this input, with so many requests refused from the one with a number on."""
        self.counts[:] = bytes(24)
        settings = {
            "LD_PRELOAD": self.library,
            "REFUSED_COUNTS": self.path,
            "REFUSED_FIRST": str(first),
            "REFUSED_LAST": str(first + many - 1 if many else 0),
        }
        try:
            done = subprocess.run(
                [PROGRAM, *words],
                input=given,
                capture_output=True,
                cwd=self.kept,
                env={**os.environ, **settings},
                timeout=PATIENCE,
                check=False,
            )
        except subprocess.TimeoutExpired:
            return Ended(None, "", b"", *struct.unpack("3L", self.counts[:]))
        line = done.stderr.decode(errors="replace").rstrip("\n")
        return Ended(done.returncode, line, done.stdout, *struct.unpack("3L", self.counts[:]))

    def run_over(self, journal, words, given, first=0, many=0):
        """Runs the program so over a journal of these bytes, and gives the bytes of the journal then too; None is no file."""
        with contextlib.suppress(FileNotFoundError):
            os.remove(self.journal)
        if journal is not None:
            with open(self.journal, "wb") as file:
                file.write(journal)
        ended = self.run(words, given, first, many)
        left = None
        with contextlib.suppress(FileNotFoundError), open(self.journal, "rb") as file:
            left = file.read()
        return ended, left


@dataclasses.dataclass
class Tally:
    """What was seen of several runs: how many rows they are of, how many N were tried, how often each status came, and how many runs were
    finished though all workers had been refused a request."""

    rows: int = 0
    tried: int = 0
    statuses: collections.Counter = dataclasses.field(default_factory=collections.Counter)
    alone: int = 0
    wrong: int = 0

    def add(self, other):
        self.rows += other.rows
        self.tried += other.tried
        self.statuses += other.statuses
        self.alone += other.alone
        self.wrong += other.wrong

    def seen(self):
        statuses = sorted(self.statuses.items(), key=lambda each: str(each[0]))
        return ", ".join(f"{status} {count} times" for status, count in statuses)


class Judge:
    """Makes the runs of one row, and judges them."""

    first = FIRST

    def __init__(self, refuser, words, given, program=None):
        self.refuser = refuser
        self.words = words
        self.given = given
        self.program = program
        self.texts = {}
        self.plain = self.run()

    def run(self, first=0, many=0):
        """A run with so many requests refused from the one with a number on."""
        return self.refuser.run(self.words, self.given, first, many)

    def wrong(self, ended):
        """What is wrong with a run, or None."""
        if ended.status is None:
            return f"it takes more than {PATIENCE} seconds"
        if ended.status < 0:
            return f"it ends by signal {-ended.status}"
        if ended.status == 7:
            if ended.text:
                return f"status 7, and {len(ended.text)} bytes were written"
            return None if ended.line == MEMORY else f"status 7, and the line is {ended.line!r}"
        if self.program is None:
            is_same = ended.as_seen() == self.plain.as_seen()
            return None if is_same else f"status {ended.status}, another end than without a refusal"
        return self.wrong_text(ended)

    def wrong_text(self, ended):
        """What is wrong with the run text of a run that another one may come in place of, or None."""
        if (ended.status, ended.line) not in [(0, ""), (1, STOPPED)]:
            return f"status {ended.status}, and the line is {ended.line!r}"
        wanted = b"legal complete\n" if ended.status == 0 else b"legal open\n"
        key = wanted + hashlib.sha256(ended.text).digest()
        if key not in self.texts:
            self.texts[key] = self.wrong_by_others(ended.text, wanted)
        return self.texts[key]

    def wrong_by_others(self, text, wanted):
        """What is wrong with a run text by the other commands, of which `check` should say what is wanted, or None."""
        checked = self.refuser.run(["check"], text).text
        if checked != wanted:
            return f"check says {checked.decode(errors='replace').rstrip()!r}, and not {wanted.decode().rstrip()!r}"
        audited = self.refuser.run(["audit"], text).text
        if audited != b"safe\n":
            return f"audit says {audited.decode(errors='replace').rstrip()!r}"
        if self.program is None or self.refuser.run(["print"], text).text == self.program:
            return None
        return "the run text is of another program"


class TogetherJudge(Judge):
    """Makes and judges runs of several workers, which differ from one another."""

    first = FIRST_TOGETHER


class KeptJudge(Judge):
    """Makes and judges runs of `keep`, or of `resume` over a journal, each on a file of its own."""

    first = FIRST_KEPT

    def __init__(self, refuser, words, given, before=None):
        self.before = before
        self.left = None
        self.judged = {}
        super().__init__(refuser, words, given)
        self.whole = self.left

    def run(self, first=0, many=0):
        ended, self.left = self.refuser.run_over(self.before, self.words, self.given, first, many)
        return ended

    def wrong(self, ended):
        wrong = super().wrong(ended)
        if wrong is not None:
            return wrong
        if ended.status != 7 or self.whole == self.before:
            return None if self.left == self.whole else f"status {ended.status}, and another journal than without a refusal"
        key = hashlib.sha256(self.left or b"").digest()
        if key not in self.judged:
            self.judged[key] = self.wrong_journal()
        return self.judged[key]

    def wrong_journal(self):
        """What is wrong with the journal that a run with status 7 has left, or None."""
        again, _ = self.refuser.run_over(self.left, ["resume", *self.words[1:]], b"")
        try:
            old, left, whole = (records_of(journal or b"") or [] for journal in [self.before, self.left, self.whole])
        except Lost as lost:
            return f"status 7, and of the journal {lost}"
        if left[: len(old)] != old or whole[: len(left)] != left:
            return f"status 7, and the {len(left)} records of the journal aren't those that should be there"
        if left:
            wrong = self.wrong_text(again)
            steps = steps_in(left)
            if wrong is None and halves_of(again.text)[1][: len(steps)] != steps:
                wrong = "its text doesn't begin with the steps that were left"
            return wrong and f"status 7, and resume behind it: {wrong}"
        return None if again.as_seen() == (9, BLANK, b"") else f"status 7, and resume behind it: {again.status} {again.line}"


def numbers(requests, first):
    """The numbers of requests that are tried, where a run without a refusal makes so many. Runs of several workers differ, so some more
    follow."""
    if requests > 3 * first:
        yield from range(1, first + 1)
        step = max(STEP, (requests - first) // first + 1)
        yield from range(first + step, requests + 1, step)
    else:
        yield from range(1, requests + 1)
    yield from itertools.count(requests + 1)


def tried(judge, name, many=1, workers=0):
    """The tally of a row, each N in turn."""
    tally = Tally(rows=1)
    for number in numbers(judge.plain.requests, judge.first):
        ended = judge.run(number, many)
        if ended.refused == 0 and ended.status is not None:
            break
        tally.tried += 1
        tally.statuses[ended.status] += 1
        if workers and ended.status in (0, 1) and ended.threads == workers:
            tally.alone += 1
        wrong = judge.wrong(ended)
        if wrong is not None:
            tally.wrong += 1
            if tally.wrong <= TOLD:
                print(f"WRONG {name}: N = {number}, K = {many}: {wrong}")
        if tally.wrong > TOLD:
            break
    alone = f"; finished though all were short: {tally.alone}" if workers else ""
    print(f"{name[:90]:90} {judge.plain.requests:7} requests, {tally.tried:5} tried: {tally.seen()}{alone}", flush=True)
    return tally


def cases():
    """The name, the words and the input of each case whose text is shown, but for large inputs. `run` and `storm` without a number of
    workers have one."""
    for line, section in sections_of(CASES, "stdin"):
        command, _, title = line.decode().partition(" ; ")
        shows, *words = command.split(" ")
        if shows not in ("", "#"):
            continue
        words = [word for word in words if word]
        if words[:1] in (["run"], ["storm"]) and not any(word.startswith("--workers") for word in words):
            words += ["--workers", "1"]
        given = spelled(section)
        if len(given) > LARGE:
            continue
        title = title or given.split(b"\n", 1)[0].decode(errors="replace").lstrip("; ")
        yield f"{' '.join(words)}: {title}", words, given


def workers_of(words):
    """How many workers the words of `run` ask for, or None."""
    found = re.search(r"^run\b.*--workers[ =](\d+)\b", " ".join(words))
    return int(found[1]) if found else None


def serial_rows(refuser, chosen):
    """Tries each case with its words, and yields the command with the tally. Cases of several workers are left to the other rows."""
    for name, words, given in cases():
        if not chosen(name) or (workers_of(words) or 1) > 1:
            continue
        yield words[0] if words else "", tried(Judge(refuser, words, given), name)


def with_workers(words, workers):
    """The words of `run` with another number of workers."""
    place = words.index("--workers") + 1
    return [*words[:place], str(workers), *words[place + 1 :]]


def programs_run(refuser):
    """Each case of `run` with one worker that has no fault, once for each input, with the program's forms as they are printed."""
    done = set()
    for name, words, given in cases():
        if workers_of(words) != 1 or "--workers" not in words or given in done:
            continue
        printed = refuser.run(["print"], given)
        if printed.status == 0 and refuser.run(words, given).status in (0, 1):
            done.add(given)
            yield name, words, given, printed.text


def together_rows(refuser, chosen):
    """Tries the program of each case of `run` with several workers, and yields their number and K with the tally."""
    for name, words, given, program in programs_run(refuser):
        for workers, many in [(workers, many) for workers in WORKERS for many in [1, workers]]:
            together = with_workers(words, workers)
            row = f"{' '.join(together)}, K = {many}: {name.partition(': ')[2]}"
            if chosen(row):
                judge = TogetherJudge(refuser, together, given, program)
                yield f"run --workers {workers}, K = {many}", tried(judge, row, many, workers)


def stormed_rows(refuser, chosen):
    """Tries each case of `storm` with several workers, and yields their number and K with the tally."""
    for name, words, given in cases():
        if words[:1] != ["storm"] or "--workers" not in words:
            continue
        for workers, many in [(workers, many) for workers in WORKERS for many in [1, workers]]:
            together = with_workers(words, workers)
            row = f"{' '.join(together)}, K = {many}: {name.partition(': ')[2]}"
            if chosen(row):
                yield f"storm --workers {workers}, K = {many}", tried(TogetherJudge(refuser, together, given), row, many)


def with_steps(options, steps):
    """Options with another limit of steps."""
    rest = re.sub(r"--steps[ =]\S+", "", " ".join(options)).split()
    return [*rest, "--steps", str(steps)]


def kept_judges(refuser, options, given):
    """What makes and judges the runs of `keep` with a program, of `resume` behind the first half of its steps, and behind all of them where
    the run is complete then."""
    kept = KeptJudge(refuser, ["keep", *options], given)
    yield "keep", kept
    if kept.plain.status not in (0, 1):
        return
    steps = halves_of(kept.plain.text)[1]
    if steps:
        _, journal = refuser.run_over(None, ["keep", *with_steps(options, len(steps) // 2)], given)
        yield "resume of half", KeptJudge(refuser, ["resume", *options], b"", journal)
    if kept.plain.status == 0:
        yield "resume of all", KeptJudge(refuser, ["resume", *options], b"", kept.whole)


def kept_rows(refuser, chosen):
    """Tries `keep` and `resume` with the program of each case of `run`, and yields which of them with the tally."""
    for name, words, given, _ in programs_run(refuser):
        for command, judge in kept_judges(refuser, words[1:], given):
            row = f"{command} {' '.join(words[1:])}: {name.partition(': ')[2]}"
            if chosen(row):
                yield command, tried(judge, row)


def main():
    programs.prove()
    words = sys.argv[1:]
    sums = collections.defaultdict(Tally)
    with tempfile.TemporaryDirectory() as folder, tempfile.TemporaryDirectory(dir=IN_MEMORY) as kept:
        refuser = Refuser(folder, kept)
        if refuser.run(["gen", "1"], b"").requests == 0:
            sys.exit("no request for memory is seen: the program doesn't ask the C library for memory")

        def chosen(name):
            return not words or any(word in name for word in words)

        for rows in [serial_rows, together_rows, stormed_rows, kept_rows]:
            for command, tally in rows(refuser, chosen):
                sums[command].add(tally)
    print()
    print(f"{'command':30} {'rows':>5} {'N tried':>8}  statuses seen")
    for command, tally in sums.items():
        alone = f"; finished though all were short: {tally.alone}" if command.startswith("run --workers") else ""
        print(f"{command:30} {tally.rows:5} {tally.tried:8}  {tally.seen()}{alone}")
    whole = Tally()
    for tally in sums.values():
        whole.add(tally)
    faults = [f"{whole.wrong} runs aren't as they should be"] if whole.wrong else []
    if not words:
        if whole.statuses[7] == 0:
            faults.append("no run ended with status 7")
        if sums["run --workers 4, K = 4"].alone == 0:
            faults.append("no run was finished whose 4 workers were all short")
    for fault in faults:
        print(f"WRONG: {fault}")
    return 1 if faults else 0


if __name__ == "__main__":
    sys.exit(main())
