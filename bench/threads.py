#!/usr/bin/env python3
"""Whether `topk bulk` writes the same bytes however many workers it has, and how long it takes with some numbers of
them.

Use, with a built ./topk:  bench/threads.py [--counts 2000,20000] [--lists 4] [--queries 64] [--workers 1,8]
    [--times 50] [--timed 1,2,4] [--rounds 3] [--timeout 120]

For each number of rows `bulk` is run so many times with each number of workers; each run has to end with the status 0
and the bytes of the first one. Then it is timed: seconds are those of the clock, the least of the rounds, since workers
are there to use several processors at once. The status is 1 where a run differs or takes longer than the timeout.
"""

from __future__ import annotations

import argparse
import os
import subprocess
import sys
import time

from parts import numbers, row

PROGRAM = "./topk"
START = 7


def bulk(arguments: argparse.Namespace, count: int, workers: int) -> tuple[bytes, float]:
    """What `topk bulk` writes, and the seconds that it takes."""
    words = [PROGRAM, "bulk", "--start", str(START), "--count", str(count), "--lists", str(arguments.lists)]
    words += ["--queries", str(arguments.queries), "--workers", str(workers)]
    began = time.monotonic()
    try:
        ended = subprocess.run(words, stdout=subprocess.PIPE, timeout=arguments.timeout)
    except subprocess.TimeoutExpired:
        sys.exit(f"{' '.join(words)}: over {arguments.timeout} s")
    seconds = time.monotonic() - began
    if ended.returncode != 0:
        sys.exit(f"{' '.join(words)}: ended with {ended.returncode}: {ended.stdout[:80]}")
    return ended.stdout, seconds


def compare(arguments: argparse.Namespace, count: int) -> None:
    """Runs `bulk` over and over, and ends where a run writes anything else than the first one."""
    first, _ = bulk(arguments, count, arguments.workers[0])
    for turn in range(arguments.times):
        for workers in arguments.workers:
            text, _ = bulk(arguments, count, workers)
            if text != first:
                sys.exit(f"{count} rows, {workers} workers, run {turn + 1}: {text} and not {first}")
    ways = f"{arguments.times} runs each with {arguments.workers} workers"
    print(f"{count} rows: {ways} wrote {first.decode().strip()}", flush=True)


def measure(arguments: argparse.Namespace, count: int) -> None:
    """A row of the seconds with each number of workers."""
    best = [min(bulk(arguments, count, workers)[1] for _ in range(arguments.rounds)) for workers in arguments.timed]
    row(count, *(f"{seconds:.3f}" for seconds in best))


def main() -> None:
    """Compares, then times."""
    parser = argparse.ArgumentParser(description=__doc__, formatter_class=argparse.RawDescriptionHelpFormatter)
    parser.add_argument("--counts", type=numbers, default=[2_000, 20_000])
    parser.add_argument("--lists", type=int, default=4)
    parser.add_argument("--queries", type=int, default=64)
    parser.add_argument("--workers", type=numbers, default=[1, 8])
    parser.add_argument("--times", type=int, default=50)
    parser.add_argument("--timed", type=numbers, default=[1, 2, 4])
    parser.add_argument("--rounds", type=int, default=3)
    parser.add_argument("--timeout", type=int, default=120)
    arguments = parser.parse_args()
    for count in arguments.counts:
        compare(arguments, count)
    row("rows of a list", *(f"{workers} worker" + "s" * (workers > 1) for workers in arguments.timed))
    row(*["---"] * (1 + len(arguments.timed)))
    for count in arguments.counts:
        measure(arguments, count)
    print(f"on {os.cpu_count()} processors", file=sys.stderr)


if __name__ == "__main__":
    main()
