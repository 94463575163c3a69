#!/usr/bin/env python3
"""Queries over four nodes on this machine, beside reading the four lists whole over the same wire: rows and grades
asked for, and seconds.

Use, from anywhere, with the program at ./topk (`make topk`) or the place given: bench/nodes.py [PROGRAM [ROWS]]

The lists are a made table of 200,000 objects, each served by `topk node` from its list file. A plain client reads them
whole in pages of 10,000 rows, joins them and takes the best; another one makes the random accesses of a certificate
again, one connection after another.
"""
from __future__ import annotations

import argparse
import contextlib
import heapq
import json
import pathlib
import socket
import subprocess
import tempfile
import time
from collections.abc import Iterator, Mapping, Sequence
from typing import Any

from parts import free_port, wait_for

LISTS = 4
PAGE = 10_000


def asked(port: int, target: str) -> tuple[Any, int]:
    """The body of a reply, and how many bytes came."""
    with socket.create_connection(("127.0.0.1", port)) as link:
        link.sendall(f"GET {target} HTTP/1.1\r\nHost: 127.0.0.1:{port}\r\nConnection: close\r\n\r\n".encode())
        came = bytearray()
        while piece := link.recv(1 << 16):
            came += piece
    return json.loads(bytes(came).split(b"\r\n\r\n", 1)[1]), len(came)


def whole(ports: Mapping[str, int]) -> tuple[float, int, list[int]]:
    """Seconds and bytes of reading all lists and adding the grades up, and the ten best."""
    begun, taken = time.monotonic(), 0
    sums: dict[int, int] = {}
    for number, port in ports.items():
        body, size = asked(port, f"/lists/{number}/size")
        taken += size
        for start in range(0, body["count"], PAGE):
            page, size = asked(port, f"/lists/{number}/page?from={start}&count={PAGE}")
            taken += size
            for item, grade in page["rows"]:
                sums[item] = sums.get(item, 0) + grade
    best = heapq.nsmallest(10, sums.items(), key=lambda pair: (-pair[1], pair[0]))
    return time.monotonic() - begun, taken, [item for item, _ in best]


def again(ports: Mapping[str, int], text: str) -> tuple[float, int]:
    """Seconds of the random accesses of a certificate, made one after another."""
    lines = [line.split() for line in text.splitlines() if line.startswith("r ")]
    begun = time.monotonic()
    for _, name, item, grade in lines:
        body, _ = asked(ports[name], f"/lists/{name}/grade?object={item}")
        assert body["grade"] == int(grade)
    return time.monotonic() - begun, len(lines)


def run(program: str, catalog: pathlib.Path, line: str, page: int, *words: str) -> tuple[float, str]:
    """The seconds that a run of a line takes, and what it writes."""
    begun = time.monotonic()
    command = [program, "run", str(catalog), "--page", str(page), "--workers", "1", *words]
    said = subprocess.run(command, input=line, capture_output=True, text=True, check=False)
    assert said.returncode == 0, (said.returncode, said.stdout[:200])
    return time.monotonic() - begun, said.stdout


def at_port(port: int, name: str) -> str:
    """The place of a list that a host at a port serves."""
    return f"http://127.0.0.1:{port}/lists/{name}"


def catalog_of(places: Mapping[str, str]) -> str:
    """The text of a catalog of lists at these places, each of which can be asked for one grade."""
    return "name,place,random\n" + "".join(f"{name},{place},yes\n" for name, place in places.items())


def made_table(program: str, rows: int, folder: pathlib.Path) -> list[str]:
    """Writes the lists of a made table, each into a file of its name, and a catalog of them. The names."""
    command = [program, "make", "--start", "7", "--count", str(rows), "--lists", str(LISTS)]
    made = subprocess.run(command, capture_output=True, text=True, check=True).stdout
    names = []
    for section in made.split("list ")[1:]:
        name, _, text = section.partition("\n")
        (folder / f"{name}.csv").write_text(text)
        names.append(name)
    (folder / "files.csv").write_text(catalog_of({name: f"{folder}/{name}.csv" for name in names}))
    return names


@contextlib.contextmanager
def served(program: str, names: Sequence[str], folder: pathlib.Path) -> Iterator[dict[str, int]]:
    """Nodes of the lists, which listen at the ports that are given by their names."""
    with contextlib.ExitStack() as nodes:
        ports = {name: free_port() for name in names}
        for name, port in ports.items():
            words = [program, "node", str(folder / "files.csv"), name, "--at", str(port)]
            node = subprocess.Popen(words, stdout=subprocess.DEVNULL)
            nodes.callback(node.wait)
            nodes.callback(node.kill)
        for port in ports.values():
            wait_for(port)
        yield ports


def main() -> None:
    """Prints a line for each query."""
    parser = argparse.ArgumentParser(description=__doc__, formatter_class=argparse.RawDescriptionHelpFormatter)
    parser.add_argument("program", nargs="?", type=pathlib.Path, default="topk")
    parser.add_argument("rows", nargs="?", type=int, default=200_000)
    given = parser.parse_args()
    program, rows = str(given.program.resolve()), given.rows
    with tempfile.TemporaryDirectory() as place, contextlib.ExitStack() as nodes:
        folder = pathlib.Path(place)
        ports = nodes.enter_context(served(program, made_table(program, rows, folder), folder))
        catalog = folder / "hosts.csv"
        catalog.write_text(catalog_of({name: at_port(port, name) for name, port in ports.items()}))
        seconds, taken, best = whole(ports)
        print(f"whole lists: {LISTS * rows} rows, {taken / 1e6:.1f} MB, {seconds:.2f} s")
        of_all = f"top 10 by sum({','.join(ports)})"
        for algorithm, page in (("nra", 1000), ("ca cost 1 100", 1000), ("ta", 1000)):
            took, text = run(program, catalog, f"{of_all} using {algorithm}\n", page)
            found = [int(line.split()[1]) for line in text.splitlines() if line.startswith("answer ")]
            assert sorted(found) == sorted(best), (found, best)
            stop = next(line for line in text.splitlines() if line.startswith("stop "))
            print(f"{algorithm}: {stop}, {took:.2f} s")
        for line in (f"top 1 by min({','.join(ports)}) using early {min(90, rows)}\n", f"{of_all} using ta\n"):
            took, text = run(program, catalog, line, 100)
            plain, count = again(ports, text)
            print(f"{count} random accesses: the query {took:.2f} s, a plain client {plain:.2f} s")


if __name__ == "__main__":
    main()
