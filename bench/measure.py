#!/usr/bin/env python3
"""Runs a program once on a text in a file, writes what it writes into another, and prints its seconds of the processor, the peak of its
memory in MB, and its status.

    bench/measure.py TEXT ANSWER PROGRAM [WORD..]

It loads nothing large: the peak that the system tells of a process is no less than the memory of the one that started it.
"""

import os
import subprocess
import sys


def measure(given, taken, words):
    """Seconds, memory and status of these words on the text in a file."""
    with open(given, "rb") as source, open(taken, "wb") as sink:
        process = subprocess.Popen(words, stdin=source, stdout=sink, stderr=subprocess.DEVNULL)
        _, status, usage = os.wait4(process.pid, 0)
        process.returncode = os.waitstatus_to_exitcode(status)
    return usage.ru_utime + usage.ru_stime, usage.ru_maxrss / 1024, process.returncode


if __name__ == "__main__":
    print(*measure(sys.argv[1], sys.argv[2], sys.argv[3:]))
