#!/usr/bin/env python3
"""Measures what is asked of long traces: reading them, copying, auditing, checking and reporting them.

It makes each trace itself and asks one question of it by the program of crates/show_system, which it has built behind
`bin/tau prove`. Each row has the steps, the bytes of the text, the question, processor time in ms, that without the
reading of the text, and the peak of the memory. Each trace is made in two lengths, so that the growth is seen. Nothing
is compared. The program has 2.5 GB; where it wants more it ends with status 7.
"""

import argparse
import os
import resource
import statistics
import subprocess
import sys
import tempfile

import programs

PROGRAM = programs.place("show_system")
LENGTHS = (100_000, 200_000)
CHAIN = 2_000
MEMORY = 2_500_000_000

SET = "(let next (get) (seq (set next) (send next msg)))"
SAVE = "(let next (get) (seq (set next) (stabilize) (send next msg) (checkpoint)))"


def ring(count, body, turn, steps):
    """Transactors that send a 1 to the next one, whose name is their state; `turn` gives the forms of a turn."""
    program = ["(nodes 1)", f"(behaviour link {body})"]
    program += [f"(start t{number} link 0 (name t{(number + 1) % count}))" for number in range(count)]
    program.append("(post t0 1)")
    forms = []
    message = 0
    while len(forms) < steps:
        who = message % count
        forms += turn(f"t{who}", message, f"t{(who + 1) % count}")
        message += 1
    return program, forms[:steps]


def setting(who, message, to):
    """A turn in which a transactor gets and sets its state, and sends on what it took."""
    turn = [f"(take {who} {message})", f"(get {who})", f"(set {who} (name {to}))"]
    return [*turn, f"(send {who} {message + 1} {to} 1)", f"(done {who})"]


def saving(who, message, to):
    """The same, and it saves its state."""
    turn = [f"(take {who} {message})", f"(get {who})", f"(set {who} (name {to}))", f"(stabilize {who})"]
    return [*turn, f"(send {who} {message + 1} {to} 1)", f"(checkpoint {who})"]


def chain(count, steps):
    """A message that goes round through `count` transactors, each made by the first, that get and set. At the end one of
    them has a Checkpoint that isn't legal, so that an audit looks at its past."""
    items = " ".join(["0"] * count)
    program = [
        "(nodes 1)",
        "(behaviour first (if (= msg 7) (send (get) 7)"
        " (let last (fold msg self (next item) (new link 0 next)) (seq (set last) (send last 7)))))",
        "(behaviour link (let next (get) (seq (set next) (send next msg))))",
        "(start p first 0 0)",
        f"(post p (list {items}))",
    ]
    forms = ["(take p 0)"]
    for number in range(1, count + 1):
        before = "p" if number == 1 else number - 1
        forms.append(f"(new p {number} link 0 (name {before}))")
    forms += [f"(set p (name {count}))", f"(send p 1 {count} 7)", "(done p)"]
    message = 1
    while len(forms) < steps:
        for number in range(count, 0, -1):
            to = "p" if number == 1 else number - 1
            forms += [f"(take {number} {message})", f"(get {number})", f"(set {number} (name {to}))"]
            forms += [f"(send {number} {message + 1} {to} 7)", f"(done {number})"]
            message += 1
        forms += [f"(take p {message})", "(get p)", f"(send p {message + 1} {count} 7)", "(done p)"]
        message += 1
    return program, [*forms[: steps - 1], "(checkpoint 1)"]


def many(count, steps, are_copies):
    """A message of a source that set its state, to a sink that sets its state by it, and so many more of them, as copies or as Sends; then
    one that sends to itself. At the end the sink has a Checkpoint that isn't legal, so that an audit looks at its past."""
    program = [
        "(version 2)",
        "(nodes 1)",
        "(behaviour src (seq (set msg) (send (name k) msg)))",
        "(behaviour sink (set msg))",
        "(behaviour round (send self 0))",
        "(start s src 0 0)",
        "(start k sink 0 0)",
        "(start f round 0 0)",
        "(post s 1)",
        "(post f 0)",
    ]
    forms = ["(take s 0)", "(set s 1)", "(send s 2 k 1)"]
    forms += [f"(repeat {message} 2)" if are_copies else f"(send s {message} k 1)" for message in range(3, count + 3)]
    forms.append("(done s)")
    for message in range(2, count + 3):
        forms += [f"(take k {message})", "(set k 1)", "(done k)"]
    last, message = 1, count + 3
    while len(forms) < steps:
        forms += [f"(take f {last})", f"(send f {message} f 0)", "(done f)"]
        last, message = message, message + 1
    return program, [*forms[: steps - 1], "(checkpoint k)"]


def traces(steps):
    """Each trace with the questions that are asked of it."""
    yield "one that sets and sends to itself", ring(1, SET, setting, steps), ["copied", "audit", "check", "report"]
    yield "one that saves each turn", ring(1, SAVE, saving, steps), ["copied", "audit", "check", "report"]
    yield "a ring of 64 that saves", ring(64, SAVE, saving, steps), ["audit", "check", "report"]
    yield "a ring of 1,000 that saves", ring(1000, SAVE, saving, steps), ["audit", "report"]
    yield f"a message through {CHAIN:,} again and again", chain(CHAIN, steps), ["audit", "report", "past 1 0 0"]
    yield "4,096 copies of a message, each set by", many(4_096, steps, True), ["audit", "report"]
    yield "the same with Sends in place of copies", many(4_096, steps, False), ["audit", "report"]
    # Each of them keeps a view with all dependences among those before it.
    short = steps // 400
    yield f"a message through {short:,} once", chain(short, 6 * short + 5), ["audit", "check", "report", "past 1 0 0"]


def bound():
    """Bounds the memory of the program."""
    resource.setrlimit(resource.RLIMIT_AS, (MEMORY, MEMORY))


def measured(path):
    """Processor time in ms, peak memory in MB, and the last line, of one run."""
    with open(path, "rb") as source, tempfile.TemporaryFile() as sink:
        process = subprocess.Popen([PROGRAM], stdin=source, stdout=sink, stderr=subprocess.DEVNULL, preexec_fn=bound)
        _, status, usage = os.wait4(process.pid, 0)
        process.returncode = os.waitstatus_to_exitcode(status)
        sink.seek(0)
        lines = sink.read().decode().splitlines()
        answer = lines[-1] if lines else f"status {process.returncode}"
        return (usage.ru_utime + usage.ru_stime) * 1000, usage.ru_maxrss / 1024, answer


def asked(folder, program, forms, question, runs):
    """The text's bytes, the median of the times, the peak in MB and the answer, of one question."""
    path = os.path.join(folder, "facts")
    parts = ["# facts", *program, "(trace)", *forms, "(facts)", question]
    text = "\n".join(parts) + "\n"
    with open(path, "w", encoding="utf-8") as file:
        file.write(text)
    found = [measured(path) for _ in range(runs)]
    return len(text), statistics.median(run[0] for run in found), max(run[1] for run in found), found[0][2]


def main():
    words = argparse.ArgumentParser(description="Measures what is asked of long traces.")
    words.add_argument("--only", default="", help="only traces whose name has this text")
    words.add_argument("--runs", type=int, default=3, help="how often each question is asked")
    chosen = words.parse_args()
    programs.prove("show_system")
    print(f"{'trace':40} {'steps':>7} {'bytes':>9} {'question':12} {'ms':>7} {'alone':>7} {'MB':>6}  answer")
    with tempfile.TemporaryDirectory() as folder:
        for steps in LENGTHS:
            for name, (program, forms), questions in traces(steps):
                if chosen.only not in name:
                    continue
                reading = None
                for question in ["length", *questions]:
                    size, time, peak, answer = asked(folder, program, forms, question, chosen.runs)
                    reading = time if reading is None else reading
                    alone = time - reading
                    told = answer.split(": ", 1)[-1][:40]
                    print(
                        f"{name:40} {len(forms):7} {size:9} {question:12} {time:7.0f} {alone:7.0f} {peak:6.0f}  {told}",
                        flush=True,
                    )


if __name__ == "__main__":
    sys.exit(main())
