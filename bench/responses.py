#!/usr/bin/env python3
"""How long a response with a page of rows takes to be read and taken apart: by what topk reads lists over HTTP with,
and by httparse and serde_json alone.

Use, with the program that `rt ci` built or `cd crates/bench_http && rt run < stdin` builds:
    bench/responses.py [--rows 10000] [--rounds 5]

The program reads the same response a hundred times. Milliseconds are those of the processor for one reading, the least
of the rounds in turn, with the time of a process that reads a page of one row taken away. Both ways are the kit's
crates under the same compiler, so the ratio is what the links, the framing by RFC 9112 and the checks of a page cost.
"""

from __future__ import annotations

import argparse
import os
import pathlib
import subprocess
from collections.abc import Sequence

PROGRAM = pathlib.Path(__file__).resolve().parent.parent / "crates" / "bench_http" / "out" / "bench_http"
TIMES = 100


def response(rows: int) -> bytes:
    """A response whose body says so many rows, as a list node writes it."""
    body = '{"rows":[' + ",".join(f"[{place},{1_000_000 - place}]" for place in range(rows)) + "]}"
    return (
        "HTTP/1.1 200 OK\r\nContent-Type: application/json\r\n"
        f"Content-Length: {len(body)}\r\nConnection: close\r\n\r\n{body}"
    ).encode()


def seconds(words: Sequence[str], text: bytes, rows: int) -> float:
    """The seconds of the processor that the program takes."""
    before = os.times()
    done = subprocess.run([PROGRAM, *words], input=text, stdout=subprocess.PIPE, check=True)
    after = os.times()
    assert done.stdout == f"{rows} rows\n".encode(), done.stdout
    return after.children_user + after.children_system - before.children_user - before.children_system


def main() -> None:
    """Prints the milliseconds of both ways."""
    parser = argparse.ArgumentParser(description="How long a response takes to be read.")
    parser.add_argument("--rows", type=int, default=10_000)
    parser.add_argument("--rounds", type=int, default=5)
    arguments = parser.parse_args()
    page, single = response(arguments.rows), response(1)
    ways: dict[str, list[str]] = {"topk": [], "bare": ["bare"]}
    least: dict[str, float] = {}
    for _ in range(arguments.rounds):
        for name, words in ways.items():
            took = seconds(words, page, arguments.rows) - seconds(words, single, 1)
            least[name] = min(took, least.get(name, took))
    print(f"{arguments.rows} rows, {len(page)} bytes")
    for name, took in least.items():
        print(f"{name}: {1000 * took / TIMES:.2f} ms")
    if least["bare"] > 0:
        print(f"ratio {least['topk'] / least['bare']:.2f}")
    else:
        print("ratio: too few rows to tell")


if __name__ == "__main__":
    main()
