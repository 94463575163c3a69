"""Tests of the program's edge: which host is dialled, how often a file is read, what a connection may take, and
connections whose calls fail, by what edges.c puts before the program; and want of memory in `serve` and `node`.
"""
from __future__ import annotations

import contextlib
import mmap
import os
import socket
import struct
import subprocess
import tempfile
import threading
import time
from collections.abc import Callable, Iterator, Sequence

import nodes
from hosts import FOUR, LINE, LISTS, PATIENCE, answered
from machine import SECONDS, free_port, needs, no_memory, no_room, over_network
from servers import LINES, LONG, OF_LONG, body, server_over
from support import (DATA, MANY, begun, built, catalog, differs, first_difference, host, hosting, replied, reply,
                     request, run, run_at, shown, stop, taken_apart, wait_for, whole, worked_out, write, write_lists)

LINK_CALLS, FAILS, OPENED, FILE_READS, AHEAD = range(5)
# The most seconds that the reads of a connection may take, and those that a connection may take to come about.
LINK_SECONDS, DIAL_SECONDS = 300, 10
# The seconds after which a server asks again for the size of a list that isn't open, and of one that states versions.
PAUSE, AGE = 30, 600


class Edges:
    """The numbers that edges.c counts and heeds, in a folder, and the settings of a program that has it before it."""

    def __init__(self, place: str) -> None:
        before, path = built(place, "edges"), os.path.join(place, "edges")
        with open(path, "w+b") as file:
            file.write(bytes(40))
            file.flush()
            self._numbers = mmap.mmap(file.fileno(), 40)
        self.env = dict(os.environ, LD_PRELOAD=before, EDGES=path)

    def __getitem__(self, number: int) -> int:
        return int(struct.unpack_from("q", self._numbers, 8 * number)[0])

    def __setitem__(self, number: int, value: int) -> None:
        struct.pack_into("q", self._numbers, 8 * number, value)


def other_address(program: str) -> str | None:
    """A dial connects to the address that the place names: 127.0.0.2, while another host is at the same port of
    127.0.0.1."""
    others = {name: [(item, grade + 1) for item, grade in rows] for name, rows in LISTS.items()}
    with hosting(LISTS) as near, hosting(others, address="127.0.0.2", port=near.port) as far, \
            tempfile.TemporaryDirectory() as place:
        places = {name: f"http://127.0.0.2:{far.port}/lists/{name}" for name in LISTS}
        write(place, "catalog.csv", catalog(places))
        done = run(program, ["run", "catalog.csv"], f"{LINE}\n".encode(), place)
        wrong = differs(done, 0, worked_out([LINE], others))
        return wrong or (f"asked 127.0.0.1 for {near.targets}" if near.targets else None)


def sizes_side_by_side(program: str) -> str | None:
    """Four hosts are asked for their sizes side by side: each holds its reply back until all four were asked."""
    line = "top 1 by sum(A,B,C,D) using nra"
    for workers in ("1", "4"):
        all_asked = threading.Barrier(len(FOUR))

        def holds_back(target: str, _: int) -> bytes:
            if taken_apart(target)[1] == "size":
                try:
                    all_asked.wait(PATIENCE)
                except threading.BrokenBarrierError:
                    return b""
            return answered(target, lists=FOUR)

        with contextlib.ExitStack() as held:
            ports = {name: held.enter_context(host(holds_back)).port for name in FOUR}
            done = run_at(program, ports, f"{line}\n".encode(), "--workers", workers)
        wrong = differs(done, 0, worked_out([line], FOUR))
        if wrong is not None:
            return f"{workers} workers: {wrong}"
    return None


def repeat_without_host(program: str) -> str | None:
    """A server answers a line again while the host of its list is down."""
    wanted = worked_out([OF_LONG], LONG).replace(b"\ncount 300\n", b"\ncount 300\nversion A 7\n")
    with server_over(program, moves_at=MANY) as (port, served):
        first = reply(port, request(OF_LONG))
        stop(served.listening)
        second = reply(port, request(OF_LONG))
    return first_difference(first, whole(wanted)) or first_difference(second, whole(wanted))


def read_once(program: str) -> str | None:
    """A small file is opened once and read at once: each list that the catalog names, and the catalog."""
    with tempfile.TemporaryDirectory() as place:
        edges = Edges(place)
        write_lists(place, LISTS)
        done = run(program, ["run", "catalog.csv"], f"{LINE}\n{LINE}\n".encode(), place, env=edges.env)
        wrong = differs(done, 0)
        found = (edges[OPENED], edges[FILE_READS])
    return wrong or (None if found == (3, 3) else f"opened {found[0]} files and read {found[1]} times, and not 3 and 3")


def seconds_of(program: str, place: str, line: str) -> float:
    """The seconds of the processor that a run of a line takes."""
    write(place, "line", f"{line}\n")
    with open(os.path.join(place, "line"), "rb") as source:
        command = [program, "run", "catalog.csv", "--workers", "1"]
        child = subprocess.Popen(command, cwd=place, stdin=source, stdout=subprocess.DEVNULL)
        _, ended, used = os.wait4(child.pid, 0)
    child.returncode = os.waitstatus_to_exitcode(ended)
    if child.returncode != 0:
        raise AssertionError(f"{line} ended with {child.returncode}")
    return used.ru_utime + used.ru_stime


def grades_of_file(program: str) -> str | None:
    """20,000 grades of objects that stand at the ends of files of 200,000 rows take less than a second beside the
    reading of the files, in one of some tries."""
    needs(no_memory(500), no_room(100))
    count = 200_000
    falling = [(it, 1_000_000 - it) for it in range(count)]
    lists = {"A": falling, "B": [(count - 1 - it, grade) for it, grade in falling]}
    with tempfile.TemporaryDirectory() as place:
        write_lists(place, lists)
        took = []
        for _ in range(5):
            few, many = (seconds_of(program, place, f"top 1 by sum(A,B) using early {it}") for it in (1, 10_000))
            took.append(many - few)
            if took[-1] < 1:
                return None
    return f"took {', '.join(f'{it:.1f}' for it in took)} s of the processor"


@contextlib.contextmanager
def full_port(port: int = 0) -> Iterator[int]:
    """A port that takes no connection any more, and refuses none."""
    with contextlib.ExitStack() as held:
        full = held.enter_context(socket.socket())
        full.setsockopt(socket.SOL_SOCKET, socket.SO_REUSEADDR, 1)
        full.bind(("127.0.0.1", port))
        full.listen(0)
        for _ in range(8):
            waiting = held.enter_context(socket.socket())
            waiting.setblocking(False)
            waiting.connect_ex(full.getsockname())
        yield full.getsockname()[1]


def dial_gives_up(program: str) -> str | None:
    """A host whose port takes no connection any more, and refuses none, isn't waited for longer than ten seconds, and
    the other list is answered."""
    with hosting(LISTS) as good, full_port() as full:
        began = time.monotonic()
        done = run_at(program, {"A": full, "B": good.port}, b"top 1 by A using nra\ntop 1 by B using nra\n")
        took = time.monotonic() - began
    wanted = b"refused 1 NotOpened A\n" + worked_out(["top 1 by B using nra"], LISTS).replace(b"ate 1\n", b"ate 2\n")
    late = took < DIAL_SECONDS - 1 or took > 4 * DIAL_SECONDS
    return differs(done, 1, wanted) or (f"took {took:.1f} s" if late else None)


def link_gives_up(program: str) -> str | None:
    """A client that sends a byte now and then keeps a worker for five minutes, and no longer."""
    with tempfile.TemporaryDirectory() as place:
        edges = Edges(place)
        command = [program, "serve", "catalog.csv", "--conns", str(MANY), "--workers", "1"]
        with begun(command, DATA, env=edges.env) as (port, _), \
                socket.create_connection(("127.0.0.1", port), SECONDS) as slow:
            for ahead in (0, LINK_SECONDS - 20):
                edges[AHEAD], calls = ahead, edges[LINK_CALLS]
                slow.sendall(b"GET /top?q="[:7] if ahead == 0 else b"a")
                until(lambda: edges[LINK_CALLS] > calls)
            slow.settimeout(0.2)
            with contextlib.suppress(TimeoutError, socket.timeout):
                return f"is left at {LINK_SECONDS - 20} s: {slow.recv(100)!r}"
            edges[AHEAD] = LINK_SECONDS + 1
            slow.sendall(b"a")
            return first_difference(reply(port, request(LINES[0])), whole(body(LINES[0])))


def lists_come_back(program: str) -> str | None:
    """A server asks a list for its size again ten minutes after it asked last: it is answered at the version of then,
    is NotOpened where its host is down, and is asked again half a minute later, and a minute after that."""
    line, has = "top 1 by A using nra", {"version": 7}
    closed = b"refused 1 NotOpened A\n"

    def replies(target: str, _: int) -> bytes:
        return answered(target, has["version"])

    def at(version: int) -> bytes:
        return worked_out([line], LISTS).replace(b"\ncount 3\n", b"\ncount 3\nversion A %d\n" % version)

    with contextlib.ExitStack() as held, tempfile.TemporaryDirectory() as place:
        edges, served = Edges(place), held.enter_context(host(replies))
        write(place, "catalog.csv", catalog({"A": served.port}))
        command = [program, "serve", "catalog.csv", "--conns", str(MANY)]
        port, _ = held.enter_context(begun(command, place, env=edges.env))
        # What happens, the seconds that have passed, and what the line becomes.
        course = (("", 0, at(7)), ("replaced", AGE - 10, at(7)), ("", AGE, at(8)), ("down", 2 * AGE - 10, at(8)),
                  ("", 2 * AGE, closed), ("", 2 * AGE + PAUSE, closed), ("back", 2 * AGE + 3 * PAUSE - 10, closed),
                  ("", 2 * AGE + 3 * PAUSE, at(8)))
        for happens, seconds, wanted in course:
            has["version"] += happens == "replaced"
            if happens == "down":
                stop(served.listening)
            if happens == "back":
                held.enter_context(host(replies, port=served.port))
            edges[AHEAD] = seconds
            wrong = first_difference(reply(port, request(line)), whole(wanted))
            if wrong is not None:
                return f"after {seconds} s: {wrong}"
    return None


def until(holds: Callable[[], bool]) -> None:
    """Waits until something holds."""
    late = time.monotonic() + SECONDS
    while not holds():
        if time.monotonic() > late:
            raise TimeoutError("what has to come doesn't")
        time.sleep(0.01)


def failing_links(program: str, command: Sequence[str], asked: bytes, wanted: bytes) -> str | None:
    """What is wrong with the replies of a program of which one read or write of a connection after another fails, or
    None: that connection gets a front of its reply, and the next one all."""
    with tempfile.TemporaryDirectory() as place:
        edges = Edges(place)
        with begun([program, *command, "--conns", str(MANY)], DATA, env=edges.env) as (port, _):
            for number in range(1, 1000):
                calls = edges[LINK_CALLS]
                edges[FAILS] = calls + number
                given = reply(port, asked)
                failed = edges[LINK_CALLS] >= calls + number
                edges[FAILS] = 0
                if not wanted.startswith(given):
                    return f"call {number} failed: {first_difference(given, wanted)}"
                wrong = first_difference(reply(port, asked), wanted)
                if wrong is not None:
                    return f"behind the failed call {number}: {wrong}"
                if not failed:
                    return None if number > 2 else "no call failed"
    return "more than 1000 calls"


def each_call_of_server(program: str) -> str | None:
    """A connection of `serve` that fails at each of its calls takes nothing of the next one's reply."""
    return failing_links(program, ["serve", "catalog.csv", "--workers", "1"], request(LINES[0]), whole(body(LINES[0])))


def each_call_of_node(program: str) -> str | None:
    """The same of `node`."""
    wanted = replied("200 OK", "application/json", '{"count":24}')
    return failing_links(program, ["node", "catalog.csv", "price"], nodes.SIZE, wanted)


def starved_program(program: str, command: Sequence[str], asked: bytes, wanted: bytes) -> str | None:
    """What is wrong with the ends of a program of which one allocation after another is refused, or None: it ends with
    the status of want of memory, or replies 503, or nothing, and behind that all."""
    unavailable = replied("503 Service Unavailable", "text/plain", "Service Unavailable\n")
    with tempfile.TemporaryDirectory() as place:
        before = built(place, "starved")
        told = {"ended": 0, "unavailable": 0}
        for number in range(1, 5000):
            reading, writing = os.pipe()
            env = dict(os.environ, LD_PRELOAD=before, STARVED_AT=str(number), STARVED_SAYS=str(writing))
            with free_port() as port, subprocess.Popen(
                    [program, *command, "--conns", "3", "--at", str(port)], cwd=DATA, env=env, pass_fds=(writing,),
                    stdout=subprocess.PIPE, stderr=subprocess.PIPE) as process:
                os.close(writing)
                try:
                    wrong = wrong_when_starved(port, process, asked, (wanted, unavailable), told)
                finally:
                    process.kill()
            with os.fdopen(reading, "rb") as says:
                refused = says.read() != b""
            if wrong is not None:
                return f"allocation {number}: {wrong}"
            if not refused:
                return None if all(told.values()) else f"was told {told}"
    return "more than 5000 allocations"


def wrong_when_starved(port: int, process: subprocess.Popen[bytes], asked: bytes, allowed: tuple[bytes, bytes],
                       told: dict[str, int]) -> str | None:
    """What is wrong with the replies and the end of one such program, or None."""
    replies = []
    try:
        wait_for(port, process)
        replies = [reply(port, asked) for _ in range(2)]
    except (AssertionError, ConnectionError):
        pass  # It ended before, as its status has to say.
    out, said = process.communicate(timeout=SECONDS)
    if process.returncode == 8 and b"served 3\n".startswith(out) and not said:
        told["ended"] += 1
        return None
    whole_reply, unavailable = allowed
    told["unavailable"] += unavailable in replies
    if process.returncode != 0 or out != b"served 3\n" or said:
        return f"ended with {process.returncode}, wrote {shown(out)} and {shown(said)}"
    if any(it not in (whole_reply, unavailable, b"") for it in replies) or replies.count(whole_reply) == 0:
        return f"replied {shown(replies[0])} and {shown(replies[1])}"
    return None


def memory_of_node(program: str) -> str | None:
    """Each allocation of `node` refused in turn."""
    wanted = replied("200 OK", "application/json", '{"count":24}')
    return starved_program(program, ["node", "catalog.csv", "price"], nodes.SIZE, wanted)


def memory_of_server(program: str) -> str | None:
    """Each allocation of `serve` refused in turn."""
    command = ["serve", "catalog.csv", "--workers", "1"]
    return starved_program(program, command, request(LINES[0]), whole(body(LINES[0])))


def replies_of_the_page(program: str) -> str | None:
    """`serve` and `node` over the lists of the certificate's page: each reply to the byte."""
    head = " HTTP/1.1\r\nHost: h\r\n\r\n"
    text = worked_out([LINE], LISTS)
    target = "/top?q=top+1+by+sum%28A%2CB%29+using+ta"
    not_there = {"POST " + target: ("405 Method Not Allowed", "Method Not Allowed\n", "Allow: GET"),
                 "GET /other": ("404 Not Found", "Not Found\n"), "GET /top": ("400 Bad Request", "Bad Request\n")}
    rows = {f"GET {target}": whole(text)}
    rows.update({it: replied(status, "text/plain", said, *more) for it, (status, said, *more) in not_there.items()})
    of_node = {"GET /lists/A/page?from=1&count=1": replied("200 OK", "application/json", '{"rows":[[2,800]]}')}
    if len(text) != 186:
        return f"the text has {len(text)} bytes"
    with tempfile.TemporaryDirectory() as place:
        write_lists(place, LISTS)
        for command, wanted in ((["serve", "catalog.csv"], rows), (["node", "catalog.csv", "A"], of_node)):
            with begun([program, *command], place) as (port, _):
                for sent, said in wanted.items():
                    wrong = first_difference(reply(port, f"{sent}{head}".encode()), said)
                    if wrong is not None:
                        return f"{sent}: {wrong}"
    return None


def cut_certificate(program: str) -> str | None:
    """A certificate that is cut after one of its lines is refused at the next line."""
    lines = worked_out([LINE], LISTS).splitlines(keepends=True)
    for kept in range(len(lines)):
        wanted = b"refused BadLine %d\n" % (kept + 1)
        wrong = differs(run(program, ["judge"], b"".join(lines[:kept])), 1, wanted)
        if wrong is not None:
            return f"after {kept} lines: {wrong}"
    return None


def tests() -> Iterator[tuple[str, Callable[[str], str | None]]]:
    """Each test with its name."""
    for test in (other_address, sizes_side_by_side, repeat_without_host, dial_gives_up, link_gives_up,
                 lists_come_back, each_call_of_server, each_call_of_node, memory_of_node, memory_of_server,
                 replies_of_the_page):
        yield f"edges_{test.__name__}", over_network(test)
    for test in (read_once, grades_of_file, cut_certificate):
        yield f"edges_{test.__name__}", test
