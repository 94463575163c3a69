#!/usr/bin/env python3
"""How long `run` over list files takes, beside `one` over a bundle of the same lists and sqlite3's import and join of
the files.

Use, from anywhere, with the program at ./topk (`make topk`) or the place given: bench/files.py [PROGRAM] [--counts
20000,200000] [--lists 4] [--queries 32] [--workers 1,2,4,8] [--rounds 5] [--busy 0]

The first table has one line `top 10 by sum(..)` of each algorithm with one worker: milliseconds by the clock, the least
of the rounds in turn. The second has so many lines by `ta` with some numbers of workers, and with one of them how often
threads slept or were woken (where tests/sharing.c can be built). `--busy 4` has four busy loops beside it all. It needs
sqlite3 for its column.
"""
from __future__ import annotations

import argparse
import contextlib
import functools
import os
import pathlib
import shutil
import subprocess
import sys
import tempfile
import time
from collections.abc import Callable, Iterator, Mapping, Sequence
from typing import Any

from parts import numbers, row

HERE = pathlib.Path(__file__).resolve().parent
START, K = 7, 10
ALGORITHMS = ("ta", "nra", "ca cost 1 10")


def timed(words: Sequence[str], data: bytes = b"", **how: Any) -> tuple[float, bytes]:
    """The seconds that a program takes by the clock, and what it writes."""
    began = time.monotonic()
    done = subprocess.run(words, input=data, stdout=subprocess.PIPE, check=True, **how)
    return time.monotonic() - began, done.stdout


def least(rounds: int, ways: Mapping[Any, Callable[[], tuple[float, bytes]]]) -> dict[Any, str]:
    """The least milliseconds of each way, one after another in each round."""
    best: dict[Any, list[float]] = {name: [] for name in ways}
    for _ in range(rounds):
        for name, once in ways.items():
            best[name].append(once()[0])
    return {name: f"{1000 * min(seconds):.1f}" for name, seconds in best.items()}


@contextlib.contextmanager
def busy(count: int) -> Iterator[None]:
    """So many busy loops beside."""
    loops = [subprocess.Popen([sys.executable, "-c", "while True: pass"]) for _ in range(count)]
    try:
        yield
    finally:
        for loop in loops:
            loop.kill()
            loop.wait()


def fill(program: str, place: pathlib.Path, lists: int, count: int) -> list[str]:
    """Writes the lists and their catalog, and a bundle without its query; the lists' names."""
    made = timed([program, "make", "--start", str(START), "--count", str(count), "--lists", str(lists)])[1].decode()
    sections = dict(section.split("\n", 1) for section in made.split("list ")[1:])
    for name, text in sections.items():
        (place / f"{name}.csv").write_text(text)
    (place / "catalog.csv").write_text("name,place,random\n" + "".join(f"{name},{name}.csv,yes\n" for name in sections))
    (place / "bundle").write_text(made)
    return list(sections)


def join(names: Sequence[str]) -> bytes:
    """What sqlite3 is told: to read the files, and to add their grades up."""
    table = "create table {0} (object integer primary key, grade integer);\n.import {0}.csv {0}\n".format
    tables = "".join(map(table, names))
    sums = " + ".join(f"{name}.grade" for name in names)
    joined = " ".join(f"join {name} using (object)" for name in names[1:])
    select = f"select object, {sums} as worth from {names[0]} {joined} order by worth desc, object limit {K};\n"
    return f".mode csv\n{tables}{select}".encode()


def one_line(program: str, place: pathlib.Path, names: Sequence[str],
             given: argparse.Namespace) -> list[tuple[str, ...]]:
    """The milliseconds of one line of each algorithm."""
    bundle, cells = (place / "bundle").read_bytes(), []
    for algorithm in ALGORITHMS:
        line = f"top {K} by sum({','.join(names)}) using {algorithm}\n".encode()
        ways = {"run": lambda: timed([program, "run", "catalog.csv", "--workers", "1"], line, cwd=place),
                "one": lambda: timed([program, "one"], bundle + b"query " + line)}
        if shutil.which("sqlite3"):
            ways["sqlite3"] = lambda: timed(["sqlite3", ":memory:"], join(names), cwd=place)
        best = least(given.rounds, ways)
        cells.append((algorithm, best["run"], best["one"], best.get("sqlite3", "")))
    return cells


def calls(program: str, place: pathlib.Path, lines: bytes, workers: int) -> int | str:
    """How often threads slept or were woken, or nothing where it can't be counted."""
    before, count = place / "sharing.so", place / "count"
    source = HERE.parent / "tests" / "sharing.c"
    compiler = ["cc", "-shared", "-fPIC", "-O2", "-o", before, source, "-ldl"]
    built = subprocess.run(compiler, stderr=subprocess.DEVNULL, check=False)
    if built.returncode != 0:
        return ""
    count.write_bytes(bytes(8))
    env = dict(os.environ, LD_PRELOAD=str(before), SHARING_COUNT=str(count))
    timed([program, "run", "catalog.csv", "--workers", str(workers)], lines, cwd=place, env=env)
    return int.from_bytes(count.read_bytes(), "little")


def many_lines(program: str, place: pathlib.Path, names: Sequence[str],
               given: argparse.Namespace) -> list[tuple[int, str, int | str]]:
    """The milliseconds of many lines with each number of workers, and the calls by which threads slept or were
    woken."""
    lines = f"top {K} by sum({','.join(names)}) using ta\n".encode() * given.queries
    def by(workers: int) -> tuple[float, bytes]:
        return timed([program, "run", "catalog.csv", "--workers", str(workers)], lines, cwd=place)

    best = least(given.rounds, {it: functools.partial(by, it) for it in given.workers})
    return [(it, best[it], calls(program, place, lines, it)) for it in given.workers]


def main() -> None:
    """Prints both tables."""
    words = argparse.ArgumentParser(description="How long `run` over list files takes.")
    words.add_argument("program", nargs="?", default="topk")
    words.add_argument("--counts", type=numbers, default=[20_000, 200_000])
    words.add_argument("--lists", type=int, default=4)
    words.add_argument("--queries", type=int, default=32)
    words.add_argument("--workers", type=numbers, default=[1, 2, 4, 8])
    words.add_argument("--rounds", type=int, default=5)
    words.add_argument("--busy", type=int, default=0)
    given = words.parse_args()
    program, shared = str(pathlib.Path(given.program).resolve()), []
    row("rows of a list", "algorithm", "run, ms", "one, ms", "sqlite3, ms")
    row(*["---"] * 5)
    with busy(given.busy):
        for count in given.counts:
            with tempfile.TemporaryDirectory() as place:
                place = pathlib.Path(place)
                names = fill(program, place, given.lists, count)
                for cells in one_line(program, place, names, given):
                    row(count, *cells)
                shared += [(count, *cells) for cells in many_lines(program, place, names, given)]
    row("rows of a list", "workers", f"{given.queries} lines by ta, ms", "sleeps and wakes")
    row(*["---"] * 4)
    for cells in shared:
        row(*cells)


if __name__ == "__main__":
    main()
