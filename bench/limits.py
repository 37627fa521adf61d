#!/usr/bin/env python3
"""Measures `cfix` on inputs at its limits, each beside the same at half its size: limits.py [ROUNDS]

Prints for each the least seconds of processor time of so many rounds (3 if not said) and the most
memory, of which some 27 MiB are this script's own, before the command begins. The output of the
command goes nowhere."""

import os
import subprocess
import sys
import tempfile

HERE = os.path.dirname(os.path.abspath(__file__))
ROOT = os.path.dirname(HERE)
PROGRAM = os.path.join(ROOT, "crates", "cfix_cli", "out", "cfix_cli")


def ordinary(tokens):
    """The source of `make_source.py` with so many tokens."""
    maker = [sys.executable, os.path.join(HERE, "make_source.py"), str(tokens)]
    return subprocess.run(maker, stdout=subprocess.PIPE, check=True, text=True).stdout


def long_source(size):
    """An ordinary source, filled up with a comment to so many bytes."""
    text = ordinary(size * 1_000_000 // 4_194_304)
    return text + "/*" + "-" * (size - len(text) - 5) + "*/\n"


def one_line(nodes):
    """A source of one line, with so many nodes."""
    return "int x; int main(void) { " + "x = 1; " * nodes + "}\n"


def nested(depth):
    """A hundred statements, nested so deep: each `if` and each of its blocks is one level."""
    nest = "if (x) { x = 1; " * (depth // 2) + "}" * (depth // 2)
    return "int x;\nint main(void) {\n" + (nest + "\n") * 100 + "}\n"


def blocks(depth):
    """Five hundred functions, each with so many blocks inside each other."""
    body = "{ " * depth + "x = 1; " + "} " * depth
    functions = "".join(f"void f{number}(void) {{ {body}}}\n" for number in range(499))
    return f"int x;\n{functions}int main(void) {{ {body}}}\n"


COUNT = "int x;\nint main(void) {\n    while (1) x++;\n}\n"
RECURSE = "void deeper(int n) { if (n) deeper(n - 1); }\nint main(void) { deeper(LEVELS); }\n"
CREATE = """int x;
void *worker(void *arg) { while (1) x++; }
int main(void) {
    pthread_t t[THREADS];
    for (int i = 0; i < THREADS; i++) pthread_create(&t[i], NULL, worker, NULL);
    while (1) x++;
}
"""


def turns(threads, entries):
    """Main makes its threads, and then each thread makes a step in turn."""
    first = 20 * threads
    rest = "".join(f"{thread}\n" for thread in range(threads + 1))
    return "0\n" * first + rest * ((entries - first) // (threads + 1))


def shown(name, size, text):
    return name, size, ["show", "source.c"], {"source.c": text}


def replayed(name, size, text, schedule):
    files = {"source.c": text, "input": "", "schedule": schedule}
    return name, size, ["replay", "source.c", "input", "schedule"], files


def cases():
    for size in (2_097_152, 4_194_304):
        yield shown("`show` of bytes", size, long_source(size))
    for tokens in (500_000, 1_000_000):
        yield shown("`show` of tokens", tokens, ordinary(tokens))
    for nodes in (10_000, 20_000):
        yield shown("`show` of nodes on one line", nodes, one_line(nodes))
    for depth in (100, 200):
        yield shown("`show` of 500 functions, blocks nested", depth, blocks(depth))
    for depth in (100, 200):
        yield shown("`show` of 100 statements nested", depth, nested(depth))
    for nodes in (10_000, 20_000):
        yield replayed("`replay` of one step, nodes on one line", nodes, one_line(nodes), "0\n")
    for depth in (100, 200):
        yield replayed("`replay` of one step, 100 statements nested", depth, nested(depth), "0\n")
    for entries in (500_000, 1_000_000):
        yield replayed("`replay` of entries", entries, COUNT, "0\n" * entries)
    for threads in (100, 200):
        text = CREATE.replace("THREADS", str(threads))
        yield replayed("`replay` of 5,000 entries a thread, threads", threads, text, turns(threads, 5_000 * threads))
    for levels in (50_000, 100_000):
        text = RECURSE.replace("LEVELS", str(levels))
        yield replayed("`replay` of a recursion, deep", levels, text, "0\n" * (10 * levels))


def measure(words, files, rounds):
    """The least seconds of processor time, and the most memory in MiB."""
    with tempfile.TemporaryDirectory(prefix="cfix-limits-") as room, open(os.devnull, "w") as out:
        for name, text in files.items():
            with open(os.path.join(room, name), "w") as file:
                file.write(text)
        seconds, memory = [], []
        for _ in range(rounds):
            started = subprocess.Popen([PROGRAM, *words], cwd=room, stdout=out)
            _, status, used = os.wait4(started.pid, 0)
            started.returncode = os.waitstatus_to_exitcode(status)
            if started.returncode != 0:
                sys.exit(f"limits.py: {words} ended with status {started.returncode}")
            seconds.append(used.ru_utime + used.ru_stime)
            memory.append(used.ru_maxrss / 1024)
        return min(seconds), max(memory)


def main():
    if len(sys.argv) > 2 or not all(word.isdigit() and int(word) > 0 for word in sys.argv[1:]):
        sys.exit("limits.py [ROUNDS]")
    rounds = int(sys.argv[1]) if len(sys.argv) == 2 else 3
    example = os.path.join(ROOT, "examples", "counter", "counter.c")
    # The program is built here, where it is missing or old.
    subprocess.run([os.path.join(ROOT, "cfix"), "show", example], stdout=subprocess.DEVNULL, check=True)
    print("| what | how much | seconds | MiB |\n|---|---|---|---|")
    for name, size, words, files in cases():
        seconds, memory = measure(words, files, rounds)
        print(f"| {name} | {size:,} | {seconds:.3f} | {memory:.1f} |", flush=True)


if __name__ == "__main__":
    main()
