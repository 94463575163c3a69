#!/usr/bin/env python3
"""How long the Python package takes from a CSV file to the ten best rows, beside pandas, which reads, scales and sorts
the same.

Use, with a built program or library:
  bench/package.py [--rows 200000] [--rounds 5] [--python /usr/bin/python3] [--command]

With `--command` it is `python3 -m topk rank` that is measured, to its table. `--python` is a Python that has pandas.
Each is a process of its own, and they take turns. Seconds are those of the processor, of the process and of those that
it started, the least of the rounds: with its start and its imports, and without them. pandas rounds nothing and gives
no certificate.
"""
from __future__ import annotations

import argparse
import os
import pathlib
import random
import subprocess
import sys
import tempfile

PYTHON = pathlib.Path(__file__).resolve().parent.parent / "python"
SECONDS = """
import resource, sys
def seconds():
    both = [resource.getrusage(it) for it in (resource.RUSAGE_SELF, resource.RUSAGE_CHILDREN)]
    return sum(it.ru_utime + it.ru_stime for it in both)
"""
OURS = """
from topk import Table, criterion
began = seconds()
table = Table.from_csv(sys.argv[1], "name", criteria=[
    criterion("price", best="low"), criterion("rating"), criterion("distance", best="low"), criterion("stars")])
answer = table.top(10, {"price": 2, "rating": 1, "distance": 1, "stars": 1})
for row in answer:
    print(row.place, row.key, row.score, *row.values.values())
print(seconds(), seconds() - began, file=sys.stderr)
"""
COMMAND = """
began = seconds()
from topk.commands import main
criteria = ["price:low*2", "rating", "distance:low", "stars"]
main(["rank", sys.argv[1], "--key", "name", *(word for it in criteria for word in ("--by", it))])
print(seconds(), seconds() - began, file=sys.stderr)
"""
PANDAS = """
import pandas
began = seconds()
table = pandas.read_csv(sys.argv[1])
columns = {name: table[name] for name in table.columns[1:]}
scaled = {name: (it - it.min()) / (it.max() - it.min()) for name, it in columns.items()}
table["score"] = 2 * (1 - scaled["price"]) + scaled["rating"] + (1 - scaled["distance"]) + scaled["stars"]
print(table.sort_values("score", ascending=False).head(10).to_string())
print(seconds(), seconds() - began, file=sys.stderr)
"""


def write_table(path: pathlib.Path, rows: int) -> None:
    """Writes hotels with made prices, ratings, distances and stars."""
    made = random.Random(5)
    lines = (
        f"hotel number {it},{made.randrange(20, 900)},{made.random() * 5:.3f},{made.expovariate(0.2):.4f},"
        f"{made.randrange(1, 6)}\n"
        for it in range(rows)
    )
    path.write_text("name,price,rating,distance,stars\n" + "".join(lines), encoding="utf-8")


def measured(python: str, code: str, path: pathlib.Path) -> tuple[float, float]:
    """The seconds of a process, all of them and those after its imports."""
    there = {**os.environ, "PYTHONPATH": str(PYTHON)}
    done = subprocess.run(
        [python, "-c", SECONDS + code, path], stdout=subprocess.DEVNULL, stderr=subprocess.PIPE, env=there, check=True
    )
    whole, work = done.stderr.split()[-2:]
    return float(whole), float(work)


def main() -> None:
    """Measures both in turn and prints the least of each."""
    words = argparse.ArgumentParser(description="From a CSV file to ten rows, beside pandas.")
    words.add_argument("--rows", type=int, default=200_000)
    words.add_argument("--rounds", type=int, default=5)
    words.add_argument("--python", default=sys.executable)
    words.add_argument("--command", action="store_true")
    given = words.parse_args()
    ours = COMMAND if given.command else OURS
    with tempfile.TemporaryDirectory() as place:
        path = pathlib.Path(place) / "hotels.csv"
        write_table(path, given.rows)
        rounds = [
            (measured(given.python, ours, path), measured(given.python, PANDAS, path)) for _ in range(given.rounds)
        ]
    for number, name in enumerate(("whole process", "without imports")):
        least, theirs = (min(it[side][number] for it in rounds) for side in (0, 1))
        print(f"{name}: package {least:.2f} s, pandas {theirs:.2f} s, {least / theirs:.1f} times")


if __name__ == "__main__":
    main()
