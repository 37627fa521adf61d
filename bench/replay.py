#!/usr/bin/env python3
"""Measures `cfix replay` of 10, 100 and 1,000 thousand entries, by hand: replay.py

The program counts for ever; each entry is a step of main. Prints seconds, the greatest memory and the
status of each run. The trace goes nowhere.
"""
import os
import subprocess
import sys
import tempfile
import time

ROOT = os.path.dirname(os.path.dirname(os.path.abspath(__file__)))
CFIX = os.path.join(ROOT, "cfix")
LOOP = "int x;\nint main(void) {\n    while (1) x++;\n}\n"


def measure(words):
    """The seconds, the memory in MiB and the status of a run."""
    start = time.monotonic()
    with open(os.devnull, "w") as out:
        child = subprocess.Popen([CFIX] + words, stdout=out)
        _, status, usage = os.wait4(child.pid, 0)
    return time.monotonic() - start, usage.ru_maxrss / 1024, os.waitstatus_to_exitcode(status)


def write(folder, name, text):
    path = os.path.join(folder, name)
    with open(path, "w") as file:
        file.write(text)
    return path


def main():
    failed = 0
    with tempfile.TemporaryDirectory() as folder:
        loop, empty = write(folder, "loop.c", LOOP), write(folder, "input", "")
        for entries in (10_000, 100_000, 1_000_000):
            schedule = write(folder, "schedule", "0\n" * entries)
            seconds, memory, status = measure(["replay", loop, empty, schedule])
            print(f"{entries:8} entries {seconds:8.2f} s {memory:8.1f} MiB  status {status}")
            failed |= status
    sys.exit(failed)


main()
