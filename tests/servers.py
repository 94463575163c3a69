"""Tests of `serve` as a process on a free port of 127.0.0.1: the replies to requests good and bad, many clients at
once, and clients that misbehave.

Each server takes so many connections as its test needs and ends by itself; one that doesn't is ended at the test's end,
and the test fails.
"""
from __future__ import annotations

import concurrent.futures
import contextlib
import os
import random
import resource
import shutil
import socket
import tempfile
import threading
from collections.abc import Callable, Iterator

import nodes
from hosts import LISTS
from machine import SECONDS, needs, no_files, no_memory, no_room, over_network
from support import (DATA, HOTELS, MANY, Host, answer, catalog, differs, ended, first_difference, host, hotel_lists,
                     list_text, node, received, reply, request, run, server, taken_apart, whole, worked_out, write,
                     write_lists, wrong_replies)

# Lines over the hotels, and what becomes of those that are refused.
LINES = (
    "top 2 by sum(price,rating,centre) using ta",
    "top 3 by min(price,rating) using nra",
    "top 1 by median(price,rating,centre) using ca cost 1 10",
    "top 2 by max(rating,centre) using fa",
    "top 3 by sum(price,rating) using theta 8/7",
    "top 3 by sum(price,rating) using early 2",
    "top 1 by sum(price,quiet) using ta",
    "top 1 by comfort using ta",
    "top 1 by",
)
REFUSED = {LINES[6]: b"refused 1 NoRandom quiet\n", LINES[7]: b"refused 1 UnknownList comfort\n",
           LINES[8]: b"refused 1 Syntax 8\n"}


def body(line: str) -> bytes:
    """What becomes of a line as the first one."""
    return REFUSED.get(line) or worked_out([line], hotel_lists())


def lines(program: str) -> str | None:
    """The reply to a line is what `run` writes of it as its first line, answered or refused, whatever the settings
    are."""
    for line in LINES:
        done = run(program, ["run", "catalog.csv"], f"{line}\n".encode(), DATA)
        wrong = differs(done, int(line in REFUSED), body(line))
        if wrong is not None:
            return f"`run` of {line}: {wrong}"
    for settings in ((), ("--workers", "1", "--page", "1", "--ahead", "0")):
        with server(program, len(LINES) + 1, *settings) as (port, process):
            for line in LINES:
                wrong = first_difference(reply(port, request(line)), whole(body(line)))
                if wrong is not None:
                    return f"{line}: {wrong}"
            wrong = ended(process, 0, b"served %d\n" % (len(LINES) + 1))
            if wrong is not None:
                return wrong
    return None


def requests(program: str) -> str | None:
    """Each request gets its reply; of two that come one behind the other the first alone is answered."""
    with tempfile.TemporaryDirectory() as place:
        write_lists(place, LISTS)
        with server(program, place=place) as (port, _):
            return wrong_replies(port, "server", b"GET /top?q=", lambda text: whole(text.encode()))


def at_once(program: str) -> str | None:
    """64 clients at once get what one after another would get, in any order of the requests."""
    wanted = {line: whole(body(line)) for line in LINES}
    made = random.Random(5)
    asked = [made.choice(LINES) for _ in range(256)]
    with server(program, len(asked) + 1) as (port, process), concurrent.futures.ThreadPoolExecutor(64) as clients:
        for line, given in zip(asked, clients.map(lambda line: reply(port, request(line)), asked)):
            if given != wanted[line]:
                return f"{line}: {first_difference(given, wanted[line])}"
        return ended(process, 0, b"served %d\n" % (len(asked) + 1))


@contextlib.contextmanager
def slow_clients(port: int, count: int, silent: bool = False) -> Iterator[list[socket.socket]]:
    """Clients that have sent the front of a request, and send a byte more every now and then, so that each holds a
    worker as long as this lasts; or that send nothing."""
    ended, links = threading.Event(), list[socket.socket]()

    def feed() -> None:
        while not silent and not ended.wait(0.5):
            for link in links:
                with contextlib.suppress(OSError):  # This one was broken off.
                    link.sendall(b"a")

    with contextlib.ExitStack() as held:
        for _ in range(count):
            links.append(held.enter_context(socket.create_connection(("127.0.0.1", port), SECONDS)))
            links[-1].sendall(b"" if silent else b"GET /top?q=")
        feeding = threading.Thread(target=feed, daemon=True)
        feeding.start()
        try:
            yield links
        finally:
            ended.set()
            feeding.join()


def words(program: str) -> str | None:
    """Words of `serve` and `node` that are no command are refused, each for one word alone, before anything is read or
    listened at."""
    serve, of_node = ("serve", "nothing.csv"), ("node", "nothing.csv", "price")
    numbers = {"--at": ("0", "65536", "08000", "+8000", "-1", "", "x"), "--conns": ("0", "1000001"),
               "--workers": ("0", "33"), "--page": ("0", "10001"), "--ahead": ("101",),
               "--version": ("9223372036854775808",)}
    at = ("--at", "8000")
    rows = [serve, of_node, ("serve", *at), (*of_node[:2], *at), (*serve, "price", *at), (*of_node, "price", *at),
            (*serve, *at, *at), (*serve, *at, "--version", "1"), (*of_node, *at, "--workers", "1"), (*serve, "--at")]
    for option, given in numbers.items():
        command = of_node if option == "--version" else serve
        rows += [(*command, *(() if option == "--at" else at), option, word) for word in given]
    for row in rows:
        wrong = differs(run(program, row), 2, b"refused words\n")
        if wrong is not None:
            return f"{' '.join(row)}: {wrong}"
    for row in ((*serve, "--at", "65535", "--conns", "1000000", "--workers", "32", "--page", "10000", "--ahead", "100"),
                (*serve, "--at=1", "--workers=1"), ("node", "--at", "1", *of_node[1:]),
                (*of_node, "--at", "1", "--version", "9223372036854775807", "--conns", "1")):
        wrong = differs(run(program, row), 6, b"")  # There is no such catalog.
        if wrong is not None:
            return f"{' '.join(row)}: {wrong}"
    return None


def misbehaving(program: str) -> str | None:
    """While one client sends nothing, one a byte now and then, and one has left in the middle, the others get whole
    replies."""
    line = LINES[0]
    wanted = whole(body(line))
    with server(program, 16, "--workers", "4") as (port, process):
        with slow_clients(port, 1), socket.create_connection(("127.0.0.1", port), SECONDS):
            with socket.create_connection(("127.0.0.1", port), SECONDS) as gone:
                gone.sendall(request(line)[:20])
            for _ in range(12):
                if reply(port, request(line)) != wanted:
                    return "another reply while a client is slow"
        return ended(process, 0, b"served 16\n")


def workers(program: str) -> str | None:
    """As many clients are served at the same time as there are workers: beside seven slow ones the eighth gets its
    reply."""
    wanted = whole(body(LINES[0]))
    with server(program, 9, "--workers", "8") as (port, process):
        with slow_clients(port, 7):
            if reply(port, request(LINES[0]), SECONDS / 3) != wanted:
                return "another reply while seven clients are slow"
        return ended(process, 0, b"served 9\n")


def megabytes(program: str) -> str | None:
    """A head of a megabyte, and a line of one, are refused before they are read to their end, and the next client is
    served."""
    head = b" HTTP/1.1\r\nHost: h\r\n"
    rows = {"a head": b"GET /top?q=" + head + b"X: " + b"y" * 1_000_000 + b"\r\n\r\n",
            "a line": b"GET /top?q=" + b"a" * 1_000_000 + head + b"\r\n", "no end of a line": b"G" * 1_000_000}
    wanted = whole(body(LINES[0]))
    with server(program, 2 * len(rows) + 1, "--workers", "1") as (port, process):
        for name, sent in rows.items():
            given = reply(port, sent)
            # The reply may be lost where the connection is broken off before all was sent.
            if given != b"" and not given.startswith((b"HTTP/1.1 431 ", b"HTTP/1.1 400 ")):
                return f"{name} of a megabyte: replied {given[:200]!r}"
            if reply(port, request(LINES[0])) != wanted:
                return f"behind {name} of a megabyte: another reply"
        return ended(process, 0, b"served %d\n" % (2 * len(rows) + 1))


def silent_ones(port: int, count: int, held: contextlib.ExitStack, now_and_then: Callable[[], object]) -> None:
    """So many clients that send nothing. Those for which the port has no room yet go on trying."""
    for number in range(count):
        link = held.enter_context(socket.socket())
        link.setblocking(False)
        link.connect_ex(("127.0.0.1", port))
        if number % 100 == 0:
            now_and_then()


def many_silent(program: str) -> str | None:
    """Thousands of clients that send nothing: whoever has a worker is served meanwhile, the process holds few of them,
    and once they leave all is as before."""
    needs(no_files(2000))
    most = resource.getrlimit(resource.RLIMIT_NOFILE)[0]
    count = 10_000 if most == resource.RLIM_INFINITY else min(10_000, most - 1000)
    line, wanted = request(LINES[0]), whole(body(LINES[0]))
    with server(program, MANY, "--workers", "4") as (port, process), \
            socket.create_connection(("127.0.0.1", port), SECONDS) as first:
        with contextlib.ExitStack() as held:
            first.sendall(line[:-2] + b"X: ")
            silent_ones(port, count, held, lambda: first.sendall(b"y"))
            first.sendall(b"\r\n\r\n")
            if received(first) != wanted:
                return f"another reply among {count} silent clients"
            if os.path.exists("/proc/self/fd") and len(os.listdir(f"/proc/{process.pid}/fd")) > 64:
                return f"the process holds {len(os.listdir(f'/proc/{process.pid}/fd'))} files"
        if reply(port, line) != wanted:
            return f"another reply after {count} silent clients"
        return None if process.poll() is None else f"ended with {process.returncode}"


def given_up(program: str) -> str | None:
    """Who sends nothing, or doesn't read the reply, holds a node or a worker for a while, and not for ever: the next
    one is served."""
    needs(no_memory(500), no_room(100))
    count, wanted = 200_000, whole(body(LINES[0]))
    with tempfile.TemporaryDirectory() as place, contextlib.ExitStack() as held:
        shutil.copytree(DATA, place, dirs_exist_ok=True)
        for name in "AB":
            write(place, f"{name}.csv", list_text((it, 1_000_000 - it) for it in range(count)))
        write(place, "catalog.csv", catalog({**{it: f"hotels/{it}.csv" for it in HOTELS}, "A": "A.csv", "B": "B.csv"}))
        lent, _ = held.enter_context(node(program, "price"))
        silent, _ = held.enter_context(server(program, MANY, "--workers", "1"))
        deaf, _ = held.enter_context(server(program, MANY, "--workers", "1", place=place))
        for port in (lent, silent):
            held.enter_context(socket.create_connection(("127.0.0.1", port), SECONDS))
        link = held.enter_context(socket.socket())
        link.setsockopt(socket.SOL_SOCKET, socket.SO_RCVBUF, 4096)
        link.connect(("127.0.0.1", deaf))
        link.sendall(request(f"top {count} by min(A,B) using nra"))
        asked = [(lent, nodes.SIZE), (silent, request(LINES[0])), (deaf, request(LINES[0]))]
        with concurrent.futures.ThreadPoolExecutor(len(asked)) as clients:
            first, *others = clients.map(lambda it: reply(*it), asked)
    if not first.endswith(b'{"count":24}'):
        return f"a node replied {first[:200]!r} behind a silent client"
    ways = zip(others, ("is silent", "doesn't read"))
    return next((f"replied {it[:200]!r} behind a client that {what}" for it, what in ways if it != wanted), None)


def over_nodes(program: str) -> str | None:
    """A server over nodes replies as one over their files."""
    with contextlib.ExitStack() as held, tempfile.TemporaryDirectory() as place:
        write(place, "catalog.csv", catalog({name: held.enter_context(node(program, name))[0] for name in HOTELS}))
        port, _ = held.enter_context(server(program, MANY, place=place))
        for line in LINES[:4]:
            wrong = first_difference(reply(port, request(line)), whole(body(line)))
            if wrong is not None:
                return f"{line}: {wrong}"
    return None


# A list of 300 objects, and a line that reads two of its pages of 100.
LONG = {"A": [(it, 1000 - it) for it in range(300)]}
OF_LONG = "top 150 by A using nra"


@contextlib.contextmanager
def server_over(program: str, moves_at: int) -> Iterator[tuple[int, Host]]:
    """A server with one worker over the long list of a host, read in pages of 100 rows and not ahead, and the host. The
    list's version is 7, and 8 from a call on."""
    with host(lambda target, number: long_answer(target, 8 if number >= moves_at else 7)) as served, \
            tempfile.TemporaryDirectory() as place:
        write(place, "catalog.csv", catalog({"A": served.port}, no_random=["A"]))
        with server(program, MANY, "--page", "100", "--ahead", "0", "--workers", "1", place=place) as (port, _):
            yield port, served


def long_answer(target: str, version: int) -> bytes:
    """What the host of the long list replies."""
    _name, call, numbers = taken_apart(target)
    if call == "size":
        return answer(f'{{"count":300,"version":{version}}}')
    rows = LONG["A"][numbers["from"]:][:numbers["count"]]
    return answer(f'{{"rows":{[list(row) for row in rows]},"version":{version}}}')


def generations(program: str) -> str | None:
    """A list that is replaced while it is read refuses a line as moved, and the next connection is answered by the new
    one."""
    wanted = worked_out([OF_LONG], LONG).replace(b"\ncount 300\n", b"\ncount 300\nversion A 8\n")
    with server_over(program, moves_at=3) as (port, _):
        first, second = (reply(port, request(OF_LONG)) for _ in range(2))
    return first_difference(first, whole(b"refused 1 Moved A 7 8\n")) or first_difference(second, whole(wanted))


def read_once(program: str) -> str | None:
    """A line that was answered before is answered again without a call of the host: its size and two pages are read
    once."""
    wanted = worked_out([OF_LONG], LONG).replace(b"\ncount 300\n", b"\ncount 300\nversion A 7\n")
    with server_over(program, moves_at=MANY) as (port, served):
        for number in range(3):
            wrong = first_difference(reply(port, request(OF_LONG)), whole(wanted))
            if wrong is not None:
                return f"reply {number + 1}: {wrong}"
        return None if len(served.targets) == 3 else f"called {served.targets}"


def refused(program: str) -> str | None:
    """A port at which another listens is a fault of its own, and a catalog that is none is refused before."""
    with socket.socket() as other, tempfile.TemporaryDirectory() as place:
        other.bind(("0.0.0.0", 0))
        other.listen()
        port = str(other.getsockname()[1])
        write(place, "catalog.csv", "name,place\n")
        ends = ((str(DATA), "catalog.csv", 7, b""), (place, "catalog.csv", 3, b"refused catalog CatalogLine 1\n"),
                (place, "nothing.csv", 6, b""))
        for where, name, status, text in ends:
            wrong = differs(run(program, ["serve", name, "--at", port], b"", where), status, text)
            if wrong is not None:
                return f"{name}: {wrong}"
    return None


def tests() -> Iterator[tuple[str, Callable[[str], str | None]]]:
    """Each test with its name."""
    yield "servers_words", words
    for test in (lines, requests, at_once, misbehaving, workers, megabytes, many_silent, given_up, over_nodes,
                 generations, read_once, refused):
        yield f"servers_{test.__name__}", over_network(test)
