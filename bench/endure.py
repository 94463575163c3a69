#!/usr/bin/env python3
"""How `topk serve` holds out: 512 clients at once for a minute, and the memory after a thousand requests and after
nearly a million, the most that a server takes. By ab, one request a connection.

Use, from anywhere, with the program at ./topk (`make topk`) or the place given:
    bench/endure.py [PROGRAM] [--seconds 60] [--requests 999000]

It needs ab (apache2-utils), and takes some minutes. Ends with the status 1 where a request failed.
"""
from __future__ import annotations

import argparse
import pathlib
import subprocess
import sys
import urllib.parse

from parts import row
from serve import HOTELS, by_ab, memory, serving

LINE = "top 2 by sum(price,rating,centre) using ta"
FIRST = 1000


def asked(what: str, requests: int, clients: int, seconds: float, served: tuple[int, subprocess.Popen[bytes]]) -> int:
    """Prints the row of so many requests, or of those of so many seconds: how many failed."""
    port, process = served
    rate = by_ab(requests, clients, f"http://127.0.0.1:{port}/top?q={urllib.parse.quote(LINE)}", seconds)
    row(what, clients, rate.answered, rate.failed, f"{rate.a_second:.0f}", f"{rate.late:.1f}", f"{memory(process):.2f}")
    return rate.failed


def main() -> int:
    """Prints a row for each kind of endurance, and answers the status."""
    parser = argparse.ArgumentParser(description=__doc__, formatter_class=argparse.RawDescriptionHelpFormatter)
    parser.add_argument("program", nargs="?", type=pathlib.Path, default="topk")
    parser.add_argument("--seconds", type=float, default=60, help="for which 512 clients ask")
    parser.add_argument("--requests", type=int, default=999_000, help="after which the memory is told again")
    given = parser.parse_args()
    program = str(given.program.resolve())
    row("what", "clients", "requests", "failed", "a second", "99 of 100 within, ms", "memory, MB")
    row(*["---"] * 7)
    with serving(program, HOTELS, 4) as served:
        failed = asked("many at once", 999_000, 512, given.seconds, served)
    with serving(program, HOTELS, 4) as served:
        failed += asked("the first thousand", FIRST, 8, 600, served)
        failed += asked("all others", given.requests - FIRST, 8, 3600, served)
    return 1 if failed else 0


if __name__ == "__main__":
    sys.exit(main())
