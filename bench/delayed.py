#!/usr/bin/env python3
"""Queries over four nodes that are far: each connection to one comes to it only after some milliseconds.

Use, from anywhere, with the program at ./topk (`make topk`) or the place given: bench/delayed.py [PROGRAM [ROWS
[MILLISECONDS]]]

The lists are a made table of 20,000 objects, each served by `topk node`. Of each query it prints how many calls each
list had, the most calls of which each came after the one before it, and the seconds beside those of a plain client that
makes the calls of the busiest list again.
"""
from __future__ import annotations

import argparse
import contextlib
import pathlib
import socket
import socketserver
import tempfile
import threading
import time
from collections.abc import Iterable, Iterator

from nodes import asked, at_port, catalog_of, made_table, run, served



@contextlib.contextmanager
def delayed(port: int, seconds: float) -> Iterator[tuple[int, list[tuple[float, float, str]]]]:
    """A port behind which a node is so far away, and what it was asked for with the moments at which each call came and
    went."""
    calls: list[tuple[float, float, str]] = []

    class Link(socketserver.StreamRequestHandler):
        def handle(self) -> None:
            came, head = time.monotonic(), self.rfile.readline()
            while (line := self.rfile.readline()) not in (b"\r\n", b""):
                head += line
            time.sleep(seconds)
            with socket.create_connection(("127.0.0.1", port)) as node:
                node.sendall(head + b"\r\n")
                while piece := node.recv(1 << 16):
                    self.wfile.write(piece)
            calls.append((came, time.monotonic(), head.split(b" ")[1].decode()))

    class Server(socketserver.ThreadingTCPServer):
        request_queue_size = 128

    with Server(("127.0.0.1", 0), Link) as server:
        threading.Thread(target=server.serve_forever, args=(0.01,), daemon=True).start()
        yield server.server_address[1], calls
        server.shutdown()


def one_after_another(calls: Iterable[tuple[float, float, str]]) -> int:
    """The most calls of which each came when the one before it had gone."""
    count, last = 0, 0.0
    for came, gone, _ in sorted(calls, key=lambda call: call[1]):
        if came >= last:
            count, last = count + 1, gone
    return count


def again(port: int, targets: Iterable[str]) -> float:
    """Seconds of calls that are made one after another."""
    begun = time.monotonic()
    for target in targets:
        asked(port, target)
    return time.monotonic() - begun


def main() -> None:
    """Prints a line for each query."""
    parser = argparse.ArgumentParser(description=__doc__, formatter_class=argparse.RawDescriptionHelpFormatter)
    parser.add_argument("program", nargs="?", type=pathlib.Path, default="topk")
    parser.add_argument("rows", nargs="?", type=int, default=20_000)
    parser.add_argument("milliseconds", nargs="?", type=float, default=10)
    given = parser.parse_args()
    program, rows, seconds = str(given.program.resolve()), given.rows, given.milliseconds / 1000
    with tempfile.TemporaryDirectory() as folder, contextlib.ExitStack() as nodes:
        names = made_table(program, rows, pathlib.Path(folder))
        near = nodes.enter_context(served(program, names, pathlib.Path(folder)))
        far = {name: nodes.enter_context(delayed(port, seconds)) for name, port in near.items()}
        catalog = pathlib.Path(folder) / "far.csv"
        catalog.write_text(catalog_of({name: at_port(port, name) for name, (port, _) in far.items()}))
        for algorithm, words in (("ta", ()), ("nra", ()), ("nra", ("--ahead", "0")), ("ca cost 1 5", ())):
            for _, calls in far.values():
                calls.clear()
            took, text = run(program, catalog, f"top 10 by sum({','.join(near)}) using {algorithm}\n", 100, *words)
            stop = next(line for line in text.splitlines() if line.startswith("stop "))
            counts = {name: len(calls) for name, (_, calls) in far.items()}
            in_turn = one_after_another([call for _, calls in far.values() for call in calls])
            port, calls = far[max(counts, key=counts.get)]
            plain = again(port, [target for _, _, target in list(calls)])
            print(f"{' '.join([algorithm, *words])}: {stop}; calls {list(counts.values())}, "
                  f"{in_turn} one after another; {took:.2f} s, "
                  f"the busiest list's alone {plain:.2f} s, ratio {took / plain:.2f}")


if __name__ == "__main__":
    main()
