"""Tests of `node` as processes on free ports of 127.0.0.1: what `run` reads of them, what each request of
requests/node.txt gets, versions, and clients that misbehave.

Each node takes so many connections as its test needs and ends by itself; one that doesn't is ended at the test's end,
and the test fails.
"""
from __future__ import annotations

import contextlib
import socket
import tempfile
from collections.abc import Callable, Iterator

from hosts import LISTS
from machine import SECONDS, free_port, over_network
from support import (DATA, HOTELS, MANY, answer, begun, differs, ended, first_difference, hotel_lists, node, reply, run,
                     run_at, worked_out, write_lists, wrong_replies)

QUERIES = ("top 2 by sum(price,rating,centre) using ta", "top 3 by min(price,rating) using nra",
           "top 1 by median(price,rating,centre) using ca", "top 2 by max(rating,centre) using fa")
SIZE = b"GET /lists/price/size HTTP/1.1\r\nHost: h\r\n\r\n"


def run_of_nodes(program: str) -> str | None:
    """What `run` writes over three nodes is what it writes over their files: what these lists come to."""
    lines = "".join(f"{line}\n" for line in QUERIES).encode()
    wanted = worked_out(QUERIES, hotel_lists())
    wrong = differs(run(program, ["run", "catalog.csv"], lines, DATA), 0, wanted)
    if wrong is not None:
        return f"over the files: {wrong}"
    with contextlib.ExitStack() as nodes:
        ports = {name: nodes.enter_context(node(program, name))[0] for name in HOTELS}
        for settings in ((), ("--workers", "1", "--page", "1", "--ahead", "0")):
            wrong = differs(run_at(program, ports, lines, *settings), 0, wanted)
            if wrong is not None:
                return f"{' '.join(settings)}: {wrong}"
    return None


def requests(program: str) -> str | None:
    """Each request gets its reply."""
    with tempfile.TemporaryDirectory() as place:
        write_lists(place, {"A": LISTS["A"]})
        with begun([program, "node", "catalog.csv", "A"], place) as (port, _):
            return wrong_replies(port, "node", b"GET /lists/A/size", answer)


def versions(program: str) -> str | None:
    """A node states the version that it is told, and a certificate says it."""
    line = "top 1 by price using ta"
    wanted = worked_out([line], hotel_lists()).replace(b"\ncount 24\n", b"\ncount 24\nversion price 7\n")
    with node(program, "price", MANY, "--version", "7") as (port, _):
        wrong = differs(run_at(program, {"price": port}, f"{line}\n".encode()), 0, wanted)
        return wrong or first_difference(reply(port, SIZE), answer('{"count":24,"version":7}'))


def counted(program: str) -> str | None:
    """A node ends behind its last connection and says how many there were: those that send nothing and one that leaves
    in its request are of them."""
    with node(program, "price", 5) as (port, process):
        first = reply(port, SIZE)
        if not first.startswith(b"HTTP/1.1 200 OK\r\n") or not first.endswith(b'\r\n\r\n{"count":24}'):
            return f"replied {first!r}"
        nothing = reply(port, b"")
        if not nothing.startswith(b"HTTP/1.1 400 "):
            return f"replied {nothing!r} to nothing"
        with socket.create_connection(("127.0.0.1", port), SECONDS) as link:
            link.sendall(SIZE[:9])
        second = reply(port, SIZE)
        if second != first:
            return f"replied {second!r} at the end"
        return ended(process, 0, b"served 5\n")


def refused(program: str) -> str | None:
    """A name that the catalog lacks is refused, and a list whose file is missing; both without listening."""
    with free_port() as port:
        at = ["--at", str(port)]
        unknown = run(program, ["node", "catalog.csv", "nothing", *at], b"", DATA)
        missing = run(program, ["node", "catalog.csv", "stars", *at], b"", DATA)
        return differs(unknown, 1, b"refused node UnknownList nothing\n") or differs(missing, 6, b"")


def taken_port(program: str) -> str | None:
    """A port at which another listens is a fault of its own."""
    with socket.socket() as other:
        other.bind(("0.0.0.0", 0))
        other.listen()
        port = str(other.getsockname()[1])
        return differs(run(program, ["node", "catalog.csv", "price", "--at", port], b"", DATA), 7, b"")


def tests() -> Iterator[tuple[str, Callable[[str], str | None]]]:
    """Each test with its name."""
    for test in (run_of_nodes, requests, versions, counted, refused, taken_port):
        yield f"nodes_{test.__name__}", over_network(test)
