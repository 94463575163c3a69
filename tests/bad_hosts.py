"""Tests of `run` and `serve` over hosts that misbehave: each call ends in a refusal by name within the limits, and
nothing else is held up.

The lists are those of hosts.py. A is served by a host that misbehaves, B by one that answers well.
"""
from __future__ import annotations

import concurrent.futures
import contextlib
import os
import socket
import tempfile
import threading
import time
from collections.abc import Callable, Iterable, Iterator, Mapping

import hosts
from hosts import ALONE, B_ENDS, LINE, LISTS, QUERY, answered
from machine import SECONDS, needs, no_memory, over_network
from support import (MANY, Reset, asked, break_off, catalog, differs, host, hosting, raw_host, reply, request, run_at,
                     server, whole, worked_out, write)

LINES = b"top 1 by A using nra\ntop 3 by B using nra\n"
A_ENDS = b"""certificate 1
query top 1 by A using nra
count 3
answer 1 900 900
stop depth 1 sorted 1 random 0 cost 1
s A 1 900
end
"""
# The most bytes that a body may have.
MAX_BODY = 16_777_216


def beside(program: str, ports: Mapping[str, int], a_ends: bytes, *words: str) -> str | None:
    """What is wrong with a run of a line over A and one over B, or None: A's ends so, and B's is answered."""
    return differs(run_at(program, ports, LINES, *words), 1, a_ends + B_ENDS)


def at_once(program: str) -> str | None:
    """A host that closes or breaks off each connection at once, and one that speaks something else, serve no list."""
    rows: dict[str, Callable[[socket.socket, socket.socket], None]] = {
        "closes": lambda link, _: None, "breaks off": lambda link, _: break_off(link),
        "speaks something else": lambda link, _: link.sendall(b"SSH-2.0-x\r\n")}
    with hosting(LISTS) as good:
        for name, behaves in rows.items():
            with raw_host(behaves) as bad:
                wrong = beside(program, {"A": bad, "B": good.port}, b"refused 1 NotOpened A\n")
                if wrong is not None:
                    return f"{name}: {wrong}"
    return None


def gone(program: str) -> str | None:
    """A host at which nobody listens any more after so many calls fails the next one: a page, a grade, the second
    page."""
    for calls in (1, 2, 3):
        left = [calls]

        def leaves(link: socket.socket, listening: socket.socket) -> None:
            target = asked(link)
            left[0] -= 1
            if left[0] == 0:
                listening.close()
            link.sendall(answered(target or ""))

        with hosting(LISTS) as good, raw_host(leaves) as bad:
            done = run_at(program, {"A": bad, "B": good.port}, QUERY, *ALONE)
            wrong = differs(done, 1, b"refused 1 Failed A\n")
            if wrong is not None:
                return f"after {calls} calls: {wrong}"
    return None


def breaks_off(program: str) -> str | None:
    """A host that breaks off each connection of a call in place of its reply fails that call."""
    for call in (hosts.ROW, hosts.GRADE):
        def breaks(target: str, number: int) -> bytes:
            if target == call:
                raise Reset
            return answered(target)

        with host(breaks) as served:
            wrong = differs(hosts.run_over(program, served.port, *ALONE), 1, b"refused 1 Failed A\n")
            if wrong is not None:
                return f"call {call}: {wrong}"
    return None


def byte_by_byte(program: str) -> str | None:
    """A host that sends one byte after another is read to the end."""
    def drips(target: str, number: int) -> Iterable[bytes]:
        for byte in answered(target):
            yield bytes([byte])
            time.sleep(0.002)

    with host(drips) as served:
        return differs(hosts.run_over(program, served.port), 0, worked_out([LINE], LISTS))


def sized(length: int) -> dict[str, bytes]:
    """Replies to a call for the size of A, each with a body of this length: its end is stated, in chunks, and that of
    the connection."""
    body = b'{"count":3' + b" " * (length - 11) + b"}"
    half = length // 2
    chunks = b"%x\r\n%s\r\n%x\r\n%s\r\n0\r\n\r\n" % (half, body[:half], length - half, body[half:])
    ok = b"HTTP/1.1 200 OK\r\n"
    return {"a stated length": ok + b"Content-Length: %d\r\n\r\n" % length + body,
            "chunks": ok + b"Transfer-Encoding: chunked\r\n\r\n" + chunks, "no stated length": ok + b"\r\n" + body}


def sixteen_megabytes(program: str) -> str | None:
    """A body of 16 MB is read, and one with a byte more isn't, however its end is told."""
    needs(no_memory(500))
    for length, status, a_ends in ((MAX_BODY, 0, A_ENDS), (MAX_BODY + 1, 1, b"refused 1 NotOpened A\n")):
        for name, said in sized(length).items():
            with host(lambda target, number: said if target == hosts.SIZE else answered(target)) as served:
                wrong = differs(run_at(program, dict.fromkeys(LISTS, served.port), LINES), status, a_ends + B_ENDS)
                if wrong is not None:
                    return f"{length} bytes, {name}: {wrong}"
    return None


def without_end(program: str) -> str | None:
    """A reply whose head, body or trailer never ends is left after the most bytes that each may have."""
    ok = b"HTTP/1.1 200 OK\r\n"
    chunked = ok + b"Transfer-Encoding: chunked\r\n\r\n"
    fronts = {
        "a head": (ok + b"X: ", b"a"), "header lines": (ok, b"X: y\r\n"), "a body": (ok + b"\r\n{", b" "),
        "a body in chunks": (chunked, b"1\r\n \r\n"), "a chunk line": (chunked + b"1;", b"a"),
        "trailer lines": (chunked + b"0\r\n", b"X: y\r\n"),
    }
    for name, (front, more) in fronts.items():
        def endless(target: str, number: int) -> Iterable[bytes]:
            if target[7] != "A":
                yield answered(target)
                return
            yield front
            while True:
                yield more * 10_000

        with host(endless) as served:
            wrong = beside(program, dict.fromkeys(LISTS, served.port), b"refused 1 NotOpened A\n")
            if wrong is not None:
                return f"{name}: {wrong}"
    return None


def silent(program: str) -> str | None:
    """A host that never answers a call refuses the line that needs it after a while, and no other: B is read to its end
    meanwhile."""
    lines = b"top 2 by A using nra\n" + LINES.partition(b"\n")[2]

    def over(call: int, a_ends: bytes) -> str | None:
        calls: list[str] = []
        pages: list[int] = []
        left = threading.Event()

        def falls_silent(link: socket.socket, _: socket.socket) -> None:
            calls.append(asked(link) or "")
            if len(calls) != call:
                link.sendall(answered(calls[-1]))
            elif link.recv(1) == b"":
                pages.append(len(good.calls("B", "page")))
                left.set()

        with hosting(LISTS) as good, raw_host(falls_silent) as bad:
            done = run_at(program, {"A": bad, "B": good.port}, lines, "--workers", "2", "--page", "1", "--ahead", "0")
            wrong = differs(done, 1, a_ends + B_ENDS) or (None if left.wait(SECONDS) else "stays in the call")
        return wrong or (f"call {call}: read {pages} pages of B meanwhile" if call > 1 and pages != [3] else None)

    rows = {1: b"refused 1 NotOpened A\n", 2: b"refused 1 Failed A\n", 3: b"refused 1 Failed A\n"}
    with concurrent.futures.ThreadPoolExecutor(len(rows)) as runs:
        return next(filter(None, runs.map(over, rows, rows.values())), None)


def threads_of(pid: int) -> int | None:
    """How many threads a process has once they are as many for a second, where the system says it."""
    counts: list[int] = []
    with contextlib.suppress(OSError):
        while len(counts) < 11 or len(set(counts[-11:])) > 1:
            counts.append(len(os.listdir(f"/proc/{pid}/task")))
            time.sleep(0.1)
    return counts[-1] if counts else None


def server_over_silence(program: str) -> str | None:
    """While a worker of a server waits for a host that doesn't answer, another one replies; and then the line is
    answered too, by as many threads."""
    ended = threading.Event()

    def waits(target: str, number: int) -> bytes:
        if target == hosts.ROW:
            ended.wait(SECONDS)
        return answered(target)

    with host(waits) as served, tempfile.TemporaryDirectory() as place:
        write(place, "catalog.csv", catalog(dict.fromkeys(LISTS, served.port), no_random=LISTS))
        with server(program, MANY, "--workers", "2", "--page", "1", "--ahead", "0", place=place) as (at, process):
            return wrong_over_silence(at, process.pid, ended)


def wrong_over_silence(port: int, pid: int, ended: threading.Event) -> str | None:
    """What is wrong with the replies of a server of which one list falls silent until this event, or None."""
    line_a, line_b = "top 1 by A using nra", "top 3 by B using nra"
    with concurrent.futures.ThreadPoolExecutor(1) as clients:
        try:
            first_b = reply(port, request(line_b))
            threads = threads_of(pid)
            waiting = clients.submit(reply, port, request(line_a))
            others = {first_b, *(reply(port, request(line_b)) for _ in range(3))}
            held_up, first = waiting.done(), waiting.result()
        finally:
            ended.set()
        then = reply(port, request(line_a))
    wanted = (False, {whole(worked_out([line_b], LISTS))}, whole(b"refused 1 Failed A\n"), whole(A_ENDS))
    if (held_up, others, first, then) != wanted:
        return f"replied {others!r}{' late' if held_up else ''}, {first!r}, and then {then!r}"
    left = threads_of(pid)
    return None if left == threads else f"had {threads} threads first and {left} then"


def tests() -> Iterator[tuple[str, Callable[[str], str | None]]]:
    """Each test with its name."""
    for test in (at_once, gone, breaks_off, byte_by_byte, sixteen_megabytes, without_end, silent, server_over_silence):
        yield f"bad_hosts_{test.__name__}", over_network(test)
