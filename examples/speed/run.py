#!/usr/bin/env python3
"""Times `chex run` beside its versions alone: run.py [--runs N]. It makes versions in a folder of its own: those of
examples/orders with 200 times as many orders, and a tree of eight versions of eight cells that share their beginnings.

A version alone takes half of what `run` takes for a manifest of that version with no budget, since that runs it twice.
The bound is the time of all versions alone, and the replay's share of it by its steps."""
import argparse
import json
import os
import random
import re
import statistics
import subprocess
import tempfile
import time

HERE = os.path.dirname(os.path.abspath(__file__))
TOP = os.path.dirname(os.path.dirname(HERE))
PROGRAM = os.path.join(TOP, "crates/chex_cli/out/chex_cli")
BUDGET = "1073741824"


def notebook(cells):
    return json.dumps({"cells": [{"cell_type": "code", "source": cell} for cell in cells], "nbformat": 4})


def sources(name):
    with open(os.path.join(TOP, "examples/orders", name)) as file:
        return ["".join(cell["source"]) for cell in json.load(file)["cells"] if cell["cell_type"] == "code"]


def orders():
    versions = []
    for name, inputs in [("total", None), ("discount", 10), ("discount", 15), ("months", None)]:
        cells = sources(name + ".ipynb")
        start, end = cells[0].index('"""') + 3, cells[0].rindex('"""')
        text = cells[0][start:end]
        cells[0] = cells[0][:start] + "\n".join([text] * 200) + cells[0][end:]
        if name == "months":
            cells[2] = cells[2].replace('"*" * months[month]', "months[month]")
        versions.append((cells, inputs))
    return versions


def tree():
    draw = random.Random(7)
    versions, fresh = [], 0
    for number in range(8):
        shared = draw.randrange(2, 7) if number else 0
        cells = list(versions[draw.randrange(number)][0][:shared]) if number else []
        while len(cells) < 8:
            fresh += 1
            cells.append("t%d = 0\nfor i in range(60000):\n    t%d += i %% 7\nprint(t%d)" % (fresh, fresh, fresh))
        versions.append((cells, None))
    return versions


def timed(words, folder, runs):
    times, text = [], ""
    for _ in range(runs):
        start = time.monotonic()
        done = subprocess.run([PROGRAM] + words, cwd=folder, stdout=subprocess.PIPE, check=True)
        times.append(time.monotonic() - start)
        text = done.stdout.decode()
    return statistics.median(times), text


def measure(title, versions, runs):
    with tempfile.TemporaryDirectory() as folder:
        entries = []
        for number, (cells, inputs) in enumerate(versions):
            entry = {"name": "v%d" % number, "notebook": "v%d.ipynb" % number}
            with open(os.path.join(folder, entry["notebook"]), "w") as file:
                file.write(notebook(cells))
            if inputs is not None:
                entry["inputs"] = "v%d.json" % number
                with open(os.path.join(folder, entry["inputs"]), "w") as file:
                    json.dump({"percent": inputs}, file)
            entries.append(entry)
        alone = 0.0
        for number, entry in enumerate(entries + [None]):
            with open(os.path.join(folder, "m%d.json" % number), "w") as file:
                json.dump({"versions": [entry] if entry else entries}, file)
            if entry:
                alone += timed(["run", "m%d.json" % number, "--budget", "0"], folder, runs)[0] / 2
        took, text = timed(["run", "m%d.json" % len(entries), "--budget", BUDGET], folder, runs)
    numbers = re.search(r"alone (\d+) steps, replayed (\d+) steps, peak (\d+)", text.splitlines()[-1])
    own, replayed, peak = (int(word) for word in numbers.groups())
    bound = alone * (1 + replayed / own)
    print("%s: %d steps alone in %.2f s, %d replayed with %d blocks at most; run %.2f s, bound %.2f s, ratio %.2f"
          % (title, own, alone, replayed, peak, took, bound, took / bound))


def main():
    parser = argparse.ArgumentParser()
    parser.add_argument("--runs", type=int, default=5)
    runs = parser.parse_args().runs
    measure("orders", orders(), runs)
    measure("tree", tree(), runs)


if __name__ == "__main__":
    main()
