#!/usr/bin/env python3
"""Writes a source of one kind of statement: dense_source.py SHAPE TOKENS > FILE

SHAPE is one of
  empty    empty statements, the densest list of statements
  step     statements `x++;`
  sum      assignments of sums of 100 operands
  names    declarations of many names
Each source has exactly TOKENS tokens; what is left over is filled up with empty statements.
"""
import re
import sys

# Numbers, names and words, strings, signs of two bytes, and signs of one.
TOKEN = re.compile(r'\d+|\w+|"[^"]*"|\+\+|--|[-+*/%<>=!]=|&&|\|\||[^\s]')

PIECES = {
    "empty": ";" * 64,
    "step": "x++;",
    "sum": "x=" + "+".join(["a"] * 100) + ";",
    "names": "int " + ",".join(["a"] * 50) + ";",
}


def count(text):
    return len(TOKEN.findall(text))


def source(shape, tokens):
    piece = PIECES[shape]
    left = tokens - count("int main(void){}")
    pieces = left // count(piece)
    left -= pieces * count(piece)
    return "int main(void){" + piece * pieces + ";" * left + "}\n"


def main():
    shape, tokens = sys.argv[1], int(sys.argv[2])
    text = source(shape, tokens)
    assert count(text) == tokens
    sys.stdout.write(text)


main()
