"""Writes notebooks of one cell each into the folder that is given: chains of 65,000 bytes, and
nests of 32 levels."""

import json
import pathlib
import sys

# What stands before the piece that is repeated, the piece, and what stands after it.
CHAINS = {
    "or": ("x = a", " or a", "\n"),
    "and": ("x = a", " and a", "\n"),
    "bit or": ("x = a", " | a", "\n"),
    "bit xor": ("x = a", " ^ a", "\n"),
    "bit and": ("x = a", " & a", "\n"),
    "sum": ("x = 1", "+1", "\nprint(x)\n"),
    "difference": ("x = a", "-a", "\n"),
    "product": ("x = a", "*a", "\n"),
    "quotient": ("x = a", "//a", "\n"),
    "remainder": ("x = a", "%a", "\n"),
    "minus": ("x = ", "-", "1\n"),
    "invert": ("x = ", "~", "1\n"),
    "not": ("x = ", "not ", "a\n"),
    "conditional of brackets": ("x = ", "()if()else", "()\n"),
    "conditional": ("x = ", "a if b else ", "c\n"),
    "calls": ("a", "()", "\n"),
    "indexes": ("a", "[0]", "\n"),
    "slices": ("a", "[:]", "\n"),
    "methods": ("a", ".b()", "\n"),
    "tests": ("x = a", ",a", "\n"),
    "targets": ("a", ",a", " = 1\n"),
    "list": ("x = [", "1,", "]\n"),
    "tuple": ("x = (1,", "1,", ")\n"),
    "dict": ("x = {", "1:1,", "}\n"),
    "arguments": ("f(", "1,", ")\n"),
    "named arguments": ("f(", "a=1,", ")\n"),
    "inputs": ("f(", "input('a'),", ")\n"),
    "for clauses": ("x = [a", " for a in b", "]\n"),
    "if clauses": ("x = [a for a in b", " if a", "]\n"),
    "targets of a loop": ("for a", ",a", " in b: pass\n"),
    "statements": ("", "x = 1\n", ""),
    "small statements": ("x = 1", ";x = 1", "\n"),
    "elif": ("if a: pass\n", "elif a: pass\n", "else: pass\n"),
    "functions": ("", "def f(): return\n", ""),
    "loops": ("", "for a in b:\n  break\n", ""),
    "comments": ("", "# a\n", "x = 1\n"),
    "text": ("x = '", "a", "'\n"),
    "assignments, which are no chain": ("a", "=a", "\n"),
    "comparisons, which are no chain": ("x = a", "<a", "\n"),
}

# What opens a level, what stands in the last one, and what closes a level.
NESTS = {
    "round brackets": ("(", "1", ")"),
    "square brackets": ("[", "", "]"),
    "curly brackets": ("{1:", "1", "}"),
    "nested calls": ("f(", "", ")"),
    "nested indexes": ("a[", "0", "]"),
    "nested operators": ("-(not a or ", "b", ")"),
    "nested conditionals": ("(a if b else ", "c", ",)"),
    "nested comprehensions": ("[a for a in ", "b", "]"),
}


def blocks(header):
    lines = [" " * level + header for level in range(32)]
    return "".join(lines) + " " * 32 + "pass\n"


def sources():
    for name, (before, piece, after) in CHAINS.items():
        yield name, before + piece * (65_000 // len(piece)) + after
    for name, (before, inner, after) in NESTS.items():
        yield name, before * 32 + inner + after * 32 + "\n"
    yield "branches", blocks("if a:\n")
    yield "nested loops", blocks("for a in b:\n")


def main():
    folder = pathlib.Path(sys.argv[1])
    for name, source in sources():
        cell = {"cell_type": "code", "metadata": {}, "execution_count": None, "outputs": [], "source": source}
        notebook = {"nbformat": 4, "nbformat_minor": 5, "metadata": {}, "cells": [cell]}
        (folder / (name + ".ipynb")).write_text(json.dumps(notebook))


main()
