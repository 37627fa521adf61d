#!/usr/bin/env python3
"""Measures `cfix show` on sources of one kind of statement: parse.py [PROGRAM]

PROGRAM is the built program, or `cfix` of the folder above if not said. Each source is read five times; the least
time of the processor counts, and the largest memory. A source may be refused for its names or limits (status 6): its
tokens and its whole tree are read before.
"""
import os
import subprocess
import sys
import tempfile

HERE = os.path.dirname(os.path.abspath(__file__))
SHAPES = ["ordinary", "empty", "step", "sum", "names"]
SIZES = [100_000, 500_000, 1_000_000]
GRAMMAR_FAULTS = [b"token", b"nested", b"bad ", b"comment"]
RUNS = 5


def run(program, name):
    """The status, the processor's seconds and the bytes of memory of one run."""
    process = subprocess.Popen([program, "show", name], stdin=subprocess.DEVNULL, stdout=subprocess.DEVNULL,
                               stderr=subprocess.PIPE)
    note = process.stderr.read()
    _, status, usage = os.wait4(process.pid, 0)
    process.returncode = os.waitstatus_to_exitcode(status)
    assert process.returncode in (0, 6), (name, process.returncode)
    assert not any(fault in note for fault in GRAMMAR_FAULTS), note
    return process.returncode, usage.ru_utime + usage.ru_stime, usage.ru_maxrss * 1024


def source(shape, tokens):
    words = ["make_source.py"] if shape == "ordinary" else ["dense_source.py", shape]
    maker = [sys.executable, os.path.join(HERE, words[0]), *words[1:], str(tokens)]
    return subprocess.run(maker, check=True, capture_output=True).stdout


def best(program, text):
    with tempfile.NamedTemporaryFile(suffix=".c") as file:
        file.write(text)
        file.flush()
        runs = [run(program, file.name) for _ in range(RUNS)]
    return runs[0][0], min(seconds for _, seconds, _ in runs), max(memory for _, _, memory in runs)


def main():
    program = os.path.abspath(sys.argv[1] if len(sys.argv) > 1 else os.path.join(HERE, "..", "cfix"))
    print("| source | tokens | status | seconds | memory | bytes a token |")
    print("|---|---|---|---|---|---|")
    for shape in SHAPES:
        for tokens in SIZES:
            status, seconds, memory = best(program, source(shape, tokens))
            print(f"| {shape} | {tokens:,} | {status} | {seconds:.3f} s"
                  f" | {memory / 1e6:.1f} MB | {memory / tokens:.0f} |", flush=True)


main()
