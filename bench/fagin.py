#!/usr/bin/env python3
"""How long Fagin's algorithm and `compare` take, beside a plain program of the algorithm (fagin.rs) over the same
bundle.

Use, with a built program, and rustc:  bench/fagin.py [--program ./topk] [--lists 4] [--count 200000] [--rounds 5]

Seconds are those of the processor, the least of the rounds in turn, reading the bundle included. Both certificates must
be equal.
"""

from __future__ import annotations

import argparse
import os
import pathlib
import subprocess
import tempfile
from collections.abc import Sequence

HERE = pathlib.Path(__file__).resolve().parent


def timed(words: Sequence[str], bundle: str) -> tuple[float, bytes]:
    """The seconds of the processor that a program takes over a bundle, and what it writes."""
    with open(bundle, "rb") as source, tempfile.TemporaryFile() as out:
        child = subprocess.Popen(words, stdin=source, stdout=out)
        _, _, used = os.wait4(child.pid, 0)
        child.returncode = 0
        out.seek(0)
        return used.ru_utime + used.ru_stime, out.read()


def main() -> None:
    """Prints a line of seconds, and what `compare` wrote."""
    parser = argparse.ArgumentParser(description="How long Fagin's algorithm and `compare` take.")
    parser.add_argument("--program", default="./topk")
    parser.add_argument("--lists", type=int, default=4)
    parser.add_argument("--count", type=int, default=200_000)
    parser.add_argument("--rounds", type=int, default=5)
    given = parser.parse_args()
    with tempfile.TemporaryDirectory() as place:
        plain, bundle = os.path.join(place, "plain"), os.path.join(place, "bundle")
        subprocess.run(["rustc", "-O", str(HERE / "fagin.rs"), "-o", plain], check=True)
        made = [given.program, "make", "--start", "1", "--count", str(given.count), "--lists", str(given.lists)]
        sections = subprocess.run(made, check=True, stdout=subprocess.PIPE).stdout
        names = ",".join(line.split()[1].decode() for line in sections.splitlines() if line.startswith(b"list "))
        pathlib.Path(bundle).write_bytes(sections + f"query top 10 by sum({names}) using fa\n".encode())
        rows = []
        for _ in range(given.rounds):
            ways = ([given.program, "one"], [plain], [given.program, "compare"])
            rows.append([timed(words, bundle) for words in ways])
        one, beside, compared = (min(row[place][0] for row in rows) for place in range(3))
        same = "" if rows[0][0][1] == rows[0][1][1] else "  TEXTS DIFFER"
        ratio = one / beside if beside else float("nan")
        print(f"fa {given.count} x {given.lists}: one {one:.2f} s, plain {beside:.2f} s, ratio {ratio:.2f}; "
              f"compare {compared:.2f} s{same}")
        print(rows[0][2][1].decode(), end="")


if __name__ == "__main__":
    main()
