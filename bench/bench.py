#!/usr/bin/env python3
"""How long queries over made tables take: a table of accesses, seconds, and seconds per million accesses.

Use, with a built ./topk:  bench/bench.py [--lists 2,4,8] [--counts 2000,20000,200000]
    [--operators sum,min,median] [--algorithms ta,nra,ca] [--costs 1,10] [--rounds 3] [--timeout 120]
    [--parts one,bulk] [--bulk-lists 4] [--queries 64] [--workers 1,4]

Each table is made by `topk make` from the same number, and each query asks by `topk one` for the first 10
objects; the combined algorithm, `ca`, follows the costs of a sorted and of a random access. Seconds are those
of the processor, the least of the rounds, without the time that reading the bundle takes, which is measured by
a query that names no list of it. Tables of fewer than 20,000 rows get as many more rounds as they are smaller.
The memory is the process's at its most, by GNU time; where that isn't installed its column is empty. Of an algorithm
the greater tables are left out once a query took longer than the timeout.

The second table is of `topk bulk`, which makes such a table and so many queries over it and runs them all: for each
number of rows and of workers the accesses of all queries, the seconds of the processor and of the clock, and the
memory, beside 16 bytes for each access, which is what the transcripts need at the least.
"""

from __future__ import annotations

import argparse
import os
import resource
import shutil
import subprocess
import sys
import tempfile
import time
from collections.abc import Callable, Sequence
from dataclasses import dataclass
from typing import IO, Optional, Union

from parts import numbers, row

PROGRAM = "./topk"
START = 1
BULK_START = 7
K = 10
# A list, an object, a grade and the kind of an access.
ACCESS_BYTES = 16
# A process begins with the memory of who starts it, as the system counts, and Python has more than a small table takes:
# so GNU time, which is small, starts the program. It ends as the program does, and above this where that was ended from
# outside.
TIME = shutil.which("time")
LAST_STATUS = 128


@dataclass
class Run:
    """What became of one run of the program."""

    seconds: float
    clock: float
    megabytes: str
    status: int
    text: bytes


def run(words: Sequence[str], source: Union[int, IO[bytes]], timeout: int) -> Optional[Run]:
    """Runs the program on an input, or gives None where it takes longer than the timeout."""
    with tempfile.TemporaryFile() as out, tempfile.NamedTemporaryFile() as counted:
        starter = [TIME, "-f", "%M", "-o", counted.name] if TIME else []
        began = time.monotonic()
        child = subprocess.Popen(
            [*starter, PROGRAM, *words],
            stdin=source,
            stdout=out,
            preexec_fn=lambda: resource.setrlimit(resource.RLIMIT_CPU, (timeout, timeout)),
        )
        _, ended, used = os.wait4(child.pid, 0)
        clock = time.monotonic() - began
        child.returncode = os.waitstatus_to_exitcode(ended)
        if not 0 <= child.returncode <= LAST_STATUS:
            return None
        out.seek(0)
        text = out.read()
        megabytes = f"{int(counted.read().split()[-1]) / 1024:.1f}" if TIME else ""
    return Run(used.ru_utime + used.ru_stime, clock, megabytes, child.returncode, text)


def run_one(bundle: str, timeout: int) -> Optional[Run]:
    """Runs `topk one` over a bundle."""
    with open(bundle, "rb") as source:
        return run(["one"], source, timeout)


def least(once: Callable[[], Optional[Run]], rounds: int) -> Optional[Run]:
    """The run that took the least time, or None where one took longer than the timeout."""
    best = None
    for _ in range(rounds):
        one = once()
        if one is None:
            return None
        if best is None or one.seconds < best.seconds:
            best = one
    return best


def fastest(bundle: str, rounds: int, timeout: int) -> Optional[Run]:
    """The run over a bundle that took the least time."""
    return least(lambda: run_one(bundle, timeout), rounds)


def accesses(text: bytes) -> int:
    """The accesses of `stop depth D sorted S random R cost C`, or of `bulk .. sorted S random R values V`."""
    words = text.split()
    return int(words[words.index(b"sorted") + 1]) + int(words[words.index(b"random") + 1])


def write_bundle(path: str, table: bytes, text: str) -> None:
    """Writes a bundle of a table and a query."""
    with open(path, "wb") as bundle:
        bundle.write(table + f"query {text}\n".encode())


def made_table(count: int, lists: int) -> bytes:
    """A made table, as the lists of a bundle."""
    words = [PROGRAM, "make", "--start", str(START), "--count", str(count), "--lists", str(lists)]
    return subprocess.run(words, stdout=subprocess.PIPE, check=True).stdout


def query(k: int, expression: str, algorithm: str, costs: Sequence[int]) -> str:
    """A query's text. Only the combined algorithm follows the costs."""
    told = f" cost {costs[0]} {costs[1]}" if algorithm == "ca" else ""
    return f"top {k} by {expression} using {algorithm}{told}"


def measure(arguments: argparse.Namespace, folder: str, lists: int, count: int,
            slow: set[tuple[str, str, int]]) -> None:
    """A row for each query over one table."""
    path = os.path.join(folder, "bundle")
    rounds = arguments.rounds * max(1, 20_000 // count)
    table = made_table(count, lists)
    write_bundle(path, table, "top 1 by none using ta")
    reading = fastest(path, rounds, arguments.timeout).seconds
    names = ",".join(f"l{number + 1}" for number in range(lists))
    for algorithm in arguments.algorithms:
        for operator in arguments.operators:
            if (algorithm, operator, lists) in slow:
                continue
            write_bundle(path, table, query(min(K, count), f"{operator}({names})", algorithm, arguments.costs))
            best = fastest(path, rounds, arguments.timeout)
            cells = (algorithm, operator, lists, count)
            if best is None:
                slow.add((algorithm, operator, lists))
                row(*cells, "", f"over {arguments.timeout}", "", "")
                continue
            if best.status != 0:
                sys.exit(f"{cells} ended with {best.status}: {best.text[:80]}")
            made = accesses(best.text)
            seconds = max(best.seconds - reading, 0.0)
            each = f"{seconds * 1_000_000 / made:.2f}"
            row(*cells, made, f"{seconds:.3f}", each, best.megabytes)


def measure_bulk(arguments: argparse.Namespace, count: int, workers: int) -> None:
    """A row for the made queries over one table."""
    words = ["bulk", "--start", str(BULK_START), "--count", str(count), "--lists", str(arguments.bulk_lists)]
    words += ["--queries", str(arguments.queries), "--workers", str(workers)]
    rounds = arguments.rounds * max(1, 20_000 // count)
    best = least(lambda: run(words, subprocess.DEVNULL, arguments.timeout), rounds)
    cells = (arguments.queries, arguments.bulk_lists, count, workers)
    if best is None:
        row(*cells, "", f"over {arguments.timeout}", "", "", "", "")
        return
    if best.status != 0:
        sys.exit(f"{cells} ended with {best.status}: {best.text[:80]}")
    made = accesses(best.text)
    needs = made * ACCESS_BYTES // 1_000_000
    each = f"{best.seconds * 1_000_000 / made:.2f}"
    row(*cells, made, f"{best.seconds:.2f}", f"{best.clock:.2f}", each, best.megabytes, needs)


def words(text: str) -> list[str]:
    """Words with commas between them."""
    return text.split(",")


def table_of_one(arguments: argparse.Namespace) -> None:
    """A row for each algorithm, operator, number of lists and number of rows."""
    row("algorithm", "operator", "lists", "rows of a list", "accesses", "seconds", "seconds for a million", "MB")
    row(*["---"] * 8)
    slow: set[tuple[str, str, int]] = set()
    with tempfile.TemporaryDirectory() as folder:
        for lists in arguments.lists:
            for count in sorted(arguments.counts):
                measure(arguments, folder, lists, count, slow)


def table_of_bulk(arguments: argparse.Namespace) -> None:
    """A row for each number of rows and of workers."""
    heads = ["queries", "lists", "rows of a list", "workers", "accesses", "seconds", "seconds of the clock"]
    row(*heads, "seconds for a million", "MB", "MB of accesses")
    row(*["---"] * 10)
    for count in sorted(arguments.counts):
        for workers in arguments.workers:
            measure_bulk(arguments, count, workers)


def main() -> None:
    """Prints the tables that are asked for."""
    parser = argparse.ArgumentParser(description=__doc__, formatter_class=argparse.RawDescriptionHelpFormatter)
    parser.add_argument("--lists", type=numbers, default=[2, 4, 8])
    parser.add_argument("--counts", type=numbers, default=[2_000, 20_000, 200_000])
    parser.add_argument("--operators", type=words, default=["sum", "min", "median"])
    parser.add_argument("--algorithms", type=words, default=["ta", "nra", "ca"])
    parser.add_argument("--costs", type=numbers, default=[1, 10])
    parser.add_argument("--rounds", type=int, default=3)
    parser.add_argument("--timeout", type=int, default=120)
    parser.add_argument("--parts", type=words, default=["one", "bulk"])
    parser.add_argument("--bulk-lists", type=int, default=4)
    parser.add_argument("--queries", type=int, default=64)
    parser.add_argument("--workers", type=numbers, default=[1, 4])
    arguments = parser.parse_args()
    began = time.monotonic()
    if "one" in arguments.parts:
        table_of_one(arguments)
    if "bulk" in arguments.parts:
        table_of_bulk(arguments)
    print(f"in all {time.monotonic() - began:.0f} s", file=sys.stderr)


if __name__ == "__main__":
    main()
