#!/usr/bin/env python3
"""Times `chex solo` beside another program on the cells of this folder, in one run.

  speed.py PEER [PROGRAM] [--runs 5]

Each file is cut at its lines `# %%` into the cells of a notebook; PEER is given the file as it stands. Both must print
the same text. Times are medians, with the start of the program in them, and the last column is chex / PEER. The last
line has the geometric mean.
"""
import argparse
import json
import math
import pathlib
import statistics
import subprocess
import sys
import tempfile
import time

HERE = pathlib.Path(__file__).resolve().parent


def timed(words):
    start = time.perf_counter()
    done = subprocess.run(words, stdout=subprocess.PIPE, check=False)
    return time.perf_counter() - start, done.stdout


def notebook(path, room):
    cells = path.read_text().split("# %%\n")
    code = [{"cell_type": "code", "source": cell.rstrip("\n")} for cell in cells]
    book = pathlib.Path(room) / (path.stem + ".ipynb")
    book.write_text(json.dumps({"cells": code, "nbformat": 4}))
    return str(book)


def main():
    parser = argparse.ArgumentParser()
    parser.add_argument("peer")
    parser.add_argument("program", nargs="?", default=str(HERE.parent.parent / "crates/chex_cli/out/chex_cli"))
    parser.add_argument("--runs", type=int, default=5)
    options = parser.parse_args()
    ratios = []
    with tempfile.TemporaryDirectory() as room:
        for path in sorted(HERE.glob("*.star")):
            ours, theirs = [options.program, "solo", notebook(path, room)], [options.peer, str(path)]
            if timed(ours)[1] != timed(theirs)[1]:
                sys.exit(path.stem + ": the two programs print different texts")
            times = [(timed(ours)[0], timed(theirs)[0]) for _ in range(options.runs)]
            mine, other = (statistics.median(column) for column in zip(*times))
            ratios.append(mine / other)
            print("%-8s %7.3f s %7.3f s %6.2f" % (path.stem, mine, other, mine / other))
    print("geometric mean %.2f" % math.exp(sum(map(math.log, ratios)) / len(ratios)))


main()
