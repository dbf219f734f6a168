"""Writes notebooks into the folder that is given whose cells nest as deep as cells may while they
run: 32 functions are active, each in the midst of 32 open brackets or blocks, with a dozen levels of
the grammar round each bracket; the innermost one writes and compares values that nest 64 deep."""

import json
import pathlib
import sys

# What stands round the next level.
BRACKETS = {
    "brackets": "(X)",
    "lists": "[X][0]",
    "dicts": "{0: X}[0]",
    "calls of built-in functions": "int(X)",
    "arguments": "same(X)",
    "named arguments": "same(n=X)",
    "indexes": "numbers[X]",
    "slices": "numbers[X:][0]",
    "methods": "pairs.get(X, 7)",
    "comprehensions of lists": "[X for i in one][0]",
    "comprehensions of dicts": "{0: X for i in one}[0]",
    "conditions of comprehensions": "[7 for i in one if X][0]",
}

# What the innermost function does with values that nest 64 deep.
INNERMOST = {
    "a tuple written": "str(tuples)",
    "tuples compared": "tuples == others",
    "tuples in order": "tuples <= others",
    "a list written": "str(lists)",
    "lists compared": "lists == more",
    "a dict written": "str(dicts)",
    "dicts compared": "dicts == further",
}

VALUES = """def same(n):
    return n
one = [0]
numbers = list(range(20))
pairs = {7: 7, 8: 8}
tuples = ()
others = ()
lists = []
more = []
dicts = {}
further = {}
for i in range(63):
    tuples = (tuples,)
    others = (others,)
    lists = [lists]
    more = [more]
    dicts = {0: dicts}
    further = {0: further}
"""


def condition(inner):
    return "0 or 1 and not 0 == 0 | 0 ^ -1 & 0 + 1 * -" + inner


def nested(bracket, inner, levels):
    """An expression that gives 7 or 8. A clause takes no conditional without brackets."""
    text = condition(bracket.replace("X", inner))
    for _ in range(levels - 1):
        next_one = text if " if X" in bracket else "7 if " + text + " else 8"
        text = condition(bracket.replace("X", next_one))
    return "7 if " + text + " else 8"


def cells(functions):
    """Cells of at most 60,000 bytes that define these functions, the innermost first."""
    part = ""
    for function in functions:
        if len(part) + len(function) > 60_000:
            yield part
            part = ""
        part += function
    yield part + "print(f1())\n"


def by_brackets(bracket, innermost):
    last = 31 if "same(" in bracket else 32
    yield "def f%d(): return %s\n" % (last, nested(bracket, "int(bool(" + innermost + "))", 29))
    for number in range(last - 1, 0, -1):
        yield "def f%d(): return %s\n" % (number, nested(bracket, "f%d()" % (number + 1), 31))


def by_blocks(header):
    for number in range(32, 0, -1):
        last = "len(str(tuples))" if number == 32 else "f%d()" % (number + 1)
        levels = 29 if number == 32 else 30
        lines = ["def f%d():\n" % number]
        lines += [" " * (1 + level) + header for level in range(levels)]
        yield "".join(lines) + " " * (1 + levels) + "return " + last + "\n"


def notebooks():
    for name, bracket in BRACKETS.items():
        yield name, by_brackets(bracket, INNERMOST["a tuple written"])
    for name, innermost in INNERMOST.items():
        yield name, by_brackets("(X)", innermost)
    yield "branches", by_blocks("if 1:\n")
    yield "loops", by_blocks("for i in one:\n")


def main():
    folder = pathlib.Path(sys.argv[1])
    for name, functions in notebooks():
        sources = [VALUES, *cells(functions)]
        code = [{"cell_type": "code", "metadata": {}, "execution_count": None, "outputs": [], "source": source} for source in sources]
        notebook = {"nbformat": 4, "nbformat_minor": 5, "metadata": {}, "cells": code}
        (folder / (name + ".ipynb")).write_text(json.dumps(notebook))


main()
