#!/usr/bin/env python3
"""Measures `cfix show` on sources of 10, 100 and 1,000 thousand tokens: show.py [ROUNDS [PROGRAM..]].

Of each source it prints the tokens, the bytes read and written, the seconds of the fastest of so many
rounds (3 if not said), the least seconds of processor time and the same for a million tokens, and the
most memory that was in use, of which some 14 MiB are this script's own, before the command begins.
Where programs are named, each is measured in place of this tree's: they run in turn, so that other
work on the machine meets them alike, and each has a line of its own, in their order."""

import os
import subprocess
import sys
import tempfile
import time

ROOT = os.path.dirname(os.path.dirname(os.path.abspath(__file__)))
SIZES = [10_000, 100_000, 1_000_000]


def show(program, file, written):
    """Runs the command once: its seconds, its seconds of processor time, and its most kibibytes."""
    with open(written, "wb") as out:
        began = time.monotonic()
        started = subprocess.Popen([program, "show", file], stdin=subprocess.DEVNULL, stdout=out)
        _, status, used = os.wait4(started.pid, 0)
        took = time.monotonic() - began
    started.returncode = os.waitstatus_to_exitcode(status)
    if started.returncode != 0:
        sys.exit(f"show.py: cfix show ended with status {started.returncode}")
    return took, used.ru_utime + used.ru_stime, used.ru_maxrss


def measure(room, count, rounds, programs):
    """The lines of one size, one for each program."""
    file, written = f"{room}/source.c", f"{room}/written.c"
    with open(file, "wb") as out:
        subprocess.run([sys.executable, f"{ROOT}/bench/make_source.py", str(count)], stdout=out, check=True)
    turns = [[show(program, file, written) for program in programs] for _ in range(rounds)]
    sizes = f"{count:>9} {os.path.getsize(file):>9} {os.path.getsize(written):>9}"
    return "\n".join(line(sizes, count, runs) for runs in zip(*turns))


def line(sizes, count, runs):
    """The line of one program."""
    seconds, processor = min(run[0] for run in runs), min(run[1] for run in runs)
    memory = max(run[2] for run in runs) / 1024
    return f"{sizes} {seconds:>9.3f} {processor:>9.3f} {processor * 1_000_000 / count:>9.2f} {memory:>9.1f}"


def main():
    if not all(word.isdigit() and int(word) > 0 for word in sys.argv[1:2]):
        sys.exit("show.py [ROUNDS [PROGRAM..]]")
    rounds = int(sys.argv[1]) if len(sys.argv) > 1 else 3
    programs = [os.path.abspath(program) for program in sys.argv[2:]] or [f"{ROOT}/cfix"]
    with tempfile.TemporaryDirectory(prefix="cfix-show-") as room:
        measure(room, 1_000, 1, programs)  # the program is built here, where it is missing
        print("   tokens      read   written   seconds processor s/million       MiB")
        for count in SIZES:
            print(measure(room, count, rounds, programs), flush=True)


if __name__ == "__main__":
    main()
