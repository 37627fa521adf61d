#!/usr/bin/env python3
"""Writes a source with a given number of tokens: make_source.py TOKENS > FILE.

The source is an ordinary program: int functions with loops, branches, nested blocks, calls and long
expressions, a thread's function with a mutex, and main. It keeps the limits of a source from 1,000 up
to 1,000,000 tokens. The same number gives the same source."""

import random
import re
import sys

TOKEN = re.compile(r'"(?:[^"\\]|\\.)*"|\w+|\+\+|--|&&|\|\||[-+*/%<>=!]=|[^\s]', re.ASCII)
OPERATORS = ["+", "-", "*", "<", "<=", ">", "==", "!=", "&&", "||"]
FUNCTION_TOKENS = 2_500
DEPTH = 3

HEAD = """#include <pthread.h>
#include <stdio.h>
int counter, balance, measured[8];
pthread_mutex_t guard = PTHREAD_MUTEX_INITIALIZER;
int function0(int lowest, int highest) {
    return lowest - highest;
}
void *worker(void *argument) {
    pthread_mutex_lock(&guard);
    counter += (int)(long)argument;
    pthread_mutex_unlock(&guard);
    return NULL;
}
"""

MAIN = """int main(void) {
    pthread_t threads[4];
    int position;
    for (position = 0; position < 4; position++) pthread_create(&threads[position], NULL, worker, (void *)(long)position);
    for (position = 0; position < 4; position++) pthread_join(threads[position], NULL);
    balance = LAST(counter, 4);
    printf("%d %d\\n", counter, balance);
"""


def tokens(text):
    """The number of tokens in a text without comments."""
    return len(TOKEN.findall(text))


def operand(draw):
    """A small operand of an expression."""
    names = ["lowest", "highest", "position", "result", "counter", "balance"]
    number = str(draw.randrange(1_000_000_000))
    return draw.choice([*names, number, f"measured[{draw.randrange(8)}]", "-result", "!highest"])


def expression(draw, operators):
    """An expression with so many binary operators, some of its parts in parentheses."""
    parts = [operand(draw)]
    while operators > 0:
        inside = min(draw.choice([0, 0, 0, 1, 2, 3]), operators - 1)
        right = operand(draw) if inside == 0 else f"({expression(draw, inside)})"
        parts += [draw.choice(OPERATORS), right]
        operators -= inside + 1
    return " ".join(parts)


def simple(draw, indent, callee):
    """A line with an assignment, the value of a call, or a change in place."""
    value = expression(draw, draw.randrange(20, 32))
    target = draw.choice(["result", "counter", "balance", "measured[position]"])
    forms = [f"{target} = {value};", f"{target} += {value};", f"result = {callee}({value}, position);"]
    return "    " * indent + draw.choice(forms)


def nested(draw, depth, indent, callee):
    """The lines of an `if`, a `for` or a `while`."""
    pad = "    " * indent
    inner = statements(draw, depth - 1, indent + 1, callee)
    form = draw.randrange(3)
    if form == 0:
        head = f"{pad}if ({expression(draw, draw.randrange(8, 20))}) {{"
        return [head, *inner, pad + "} else {", *statements(draw, depth - 1, indent + 1, callee), pad + "}"]
    if form == 1:
        return [f"{pad}for (position = 0; position < {draw.randrange(1, 9)}; position++) {{", *inner, pad + "}"]
    return [f"{pad}while ({expression(draw, draw.randrange(8, 20))}) {{", *inner, pad + "}"]


def statements(draw, depth, indent, callee):
    """The lines of two or three statements, nested up to this depth."""
    lines = []
    for _ in range(draw.randrange(2, 4)):
        if depth > 0 and draw.randrange(3) == 0:
            lines += nested(draw, depth, indent, callee)
        else:
            lines.append(simple(draw, indent, callee))
    return lines


def function(draw, number, most):
    """A function with at most so many tokens, which calls the one before it."""
    callee = f"function{number - 1}"
    lines = [f"int function{number}(int lowest, int highest) {{", "    int position, result = 0;"]
    ending = ["    return result;", "}", ""]
    left = most - tokens("\n".join(lines + ending))
    misses = 0
    while misses < 8:
        more = statements(draw, DEPTH, 1, callee) if misses < 4 else [simple(draw, 1, callee)]
        size = tokens("\n".join(more))
        if size > left:
            misses += 1
            continue
        left -= size
        lines += more
    return "\n".join(lines + ending)


def source(count):
    """A source with exactly so many tokens, of which at most a few hundred are empty statements."""
    draw = random.Random(count)
    parts = [HEAD]
    left = count - tokens(HEAD) - tokens(MAIN) - 1
    number = 0
    while left >= 300:
        number += 1
        parts.append(function(draw, number, min(FUNCTION_TOKENS, left)))
        left -= tokens(parts[-1])
    parts.append(MAIN.replace("LAST", f"function{number}"))
    parts.append("    " + ";" * left + "\n}\n")
    return "".join(parts)


if __name__ == "__main__":
    if len(sys.argv) != 2 or not sys.argv[1].isdigit() or not 1_000 <= int(sys.argv[1]) <= 1_000_000:
        sys.exit("make_source.py TOKENS, from 1000 to 1000000")
    sys.stdout.write(source(int(sys.argv[1])))
