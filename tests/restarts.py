"""What docs/RUNNING.md says of the life of a server and of a node: how one tells that they are alive, lists that are
replaced, hosts that are asked again, and how they end."""
from __future__ import annotations

import contextlib
import os
import re
import shlex
import signal
import socket
import tempfile
import time
from collections.abc import Callable, Iterator

from edges import AGE, AHEAD, DIAL_SECONDS, PAUSE, Edges, full_port
from hosts import LISTS, answered
from machine import SECONDS, free_port, over_network, path_of, peer
from running import listening_at
from servers import LINES, body
from support import (DATA, REPOSITORY, Lists, begun, catalog, ended, first_difference, first_wrong, host, list_text,
                     received, reply, request, server, shown, stop, whole, worked_out, write, write_lists)

PAGE = REPOSITORY / "docs" / "RUNNING.md"
LINE = "top 3 by A using nra"
CLOSED = whole(b"refused 1 NotOpened A\n")


def certificate(version: int = 0, lists: Lists = LISTS) -> bytes:
    """The reply to the line over lists of a version."""
    stated = b"\ncount 3\nversion A %d\n" % version if version else b"\ncount 3\n"
    return whole(worked_out([LINE], lists).replace(b"\ncount 3\n", stated))


def alive(program: str) -> str | None:
    """By the commands of the page a server and a node are alive. A line names the list whose host is down, and is
    answered once the host was up and the server was started again."""
    text, curl, line = PAGE.read_text(encoding="utf-8"), path_of("curl"), "top 1 by price using nra"
    of_server = next(iter(re.findall(r"`curl (.*?)`", text)))
    of_node = next(iter(re.findall(r"`(http://HOST:8001.*?)`", text))).replace("NAME", "price")

    def says(words: str, port: int) -> tuple[int, bytes]:
        done = peer([curl, *shlex.split(re.sub("HOST:800.", f"127.0.0.1:{port}", words))])
        return done.returncode, done.stdout

    with tempfile.TemporaryDirectory() as place, free_port() as at:
        write(place, "catalog.csv", catalog({"price": at}))
        with server(program, place=place) as (port, _):
            told = [says(of_server, port), reply(port, request(line))]
        with listening_at(program, at, "node", "catalog.csv", "price"), server(program, place=place) as (port, _):
            told += [says(f"-fs {of_node}", at), says(of_server, port), reply(port, request(line))]
    lives, closed = (0, b"refused 1 Syntax 0\n"), whole(b"refused 1 NotOpened price\n")
    wanted = [lives, closed, (0, b'{"count":24}'), lives, whole(body(line))]
    return first_wrong(zip(("server", "line", "node", "server anew", "line anew"), told, wanted))


def file_replaced(program: str) -> str | None:
    """A file that was renamed over a list's is answered once the list's node was started anew, with a greater version,
    and then the server. Before, each goes on with what it read, also where the file is away."""
    new = {"A": [(3, 950), (1, 900), (2, 800)]}
    words, told = ("node", "catalog.csv", "A", "--version"), list[bytes]()
    with tempfile.TemporaryDirectory() as place, free_port() as at:
        write_lists(place, {"A": LISTS["A"]})
        write(place, "far.csv", catalog({"A": at}))
        for version in ("1", "2"):
            with listening_at(program, at, *words, version, place=place):
                for goes in (True, False):
                    with begun([program, "serve", "far.csv"], place) as (port, _):
                        if goes:
                            os.remove(f"{place}/A.csv")
                        else:
                            write(place, "new", list_text(new["A"]))
                        told.append(reply(port, request(LINE)))
                os.replace(f"{place}/new", f"{place}/A.csv")
    wanted = [certificate(1)] * 2 + [certificate(2, new)] * 2
    return next(filter(None, map(first_difference, told, wanted)), None)


def ends(program: str) -> str | None:
    """SIGTERM ends a server and a node at once, without a word, and breaks off the connection that is being served."""
    for command in (("serve", "catalog.csv"), ("node", "catalog.csv", "price")):
        with begun([program, *command], DATA) as (port, process), \
                socket.create_connection(("127.0.0.1", port), SECONDS) as link:
            link.sendall(b"GET /")
            time.sleep(0.2)
            process.send_signal(signal.SIGTERM)
            out, said = process.communicate(timeout=SECONDS)
            given = received(link)
        if (process.returncode, out, said, given) != (-signal.SIGTERM, b"", b"", b""):
            return f"{command[0]} ended with {process.returncode}, {shown(out + said)}; a client had {shown(given)}"
    return None


def last_connection(program: str) -> str | None:
    """After its last connection a server says how many it served, and breaks off those that wait in the port's queue
    alone: of four clients, the first of them slow, three are answered."""
    with server(program, 4, "--workers", "1") as (port, process), contextlib.ExitStack() as held:
        links = [held.enter_context(socket.create_connection(("127.0.0.1", port), SECONDS)) for _ in range(4)]
        for link in reversed(links):
            link.sendall(request(LINES[0]))
        told = [received(link) for link in links]
        return ended(process, 0, b"served 4\n") or first_wrong(
            zip(("first", "second", "third", "fourth"), told, [whole(body(LINES[0]))] * 3 + [b""]))


def unversioned(program: str) -> str | None:
    """A list that states no version and was read whole is answered for ever, and its host isn't asked again."""
    with contextlib.ExitStack() as held, tempfile.TemporaryDirectory() as place:
        edges, served = Edges(place), held.enter_context(host(lambda target, _: answered(target)))
        write(place, "catalog.csv", catalog({"A": served.port}))
        port, _ = held.enter_context(begun([program, "serve", "catalog.csv"], place, env=edges.env))
        first, calls = reply(port, request(LINE)), len(served.targets)
        edges[AHEAD] = 100 * AGE
        wrong = first_difference(first, certificate()) or first_difference(reply(port, request(LINE)), first)
        return wrong or (None if len(served.targets) == calls else f"called {served.targets}")


def asked_again(program: str) -> str | None:
    """A list that can't be opened any more is asked again after 30 seconds, and then after twice as long each time, up
    to 600."""
    has = {"version": 7}

    def replies(target: str, _: int) -> bytes:
        return answered(target, has["version"]) if has["version"] else b""

    with contextlib.ExitStack() as held, tempfile.TemporaryDirectory() as place:
        edges, served = Edges(place), held.enter_context(host(replies))
        write(place, "catalog.csv", catalog({"A": served.port}))
        port, _ = held.enter_context(begun([program, "serve", "catalog.csv"], place, env=edges.env))
        first, has["version"], seconds = reply(port, request(LINE)), 0, 0
        for pause in (AGE, PAUSE, 2 * PAUSE, 4 * PAUSE, 8 * PAUSE, 16 * PAUSE, AGE, AGE):
            for ahead, asks in ((pause - 5, 0), (pause + 1, 1)):
                edges[AHEAD], sizes = seconds + ahead, len(served.calls("A", "size"))
                given = reply(port, request(LINE))
                made = len(served.calls("A", "size")) - sizes
                if made != asks or given != (first if seconds == 0 and asks == 0 else CLOSED):
                    return f"{ahead} s after {seconds} s it made {made} calls, and replied {shown(given)}"
            seconds += pause + 1
    return first_difference(first, certificate(7))


def gone_host(program: str) -> str | None:
    """A host that is gone when it is asked again takes a server ten seconds, in which no other line is answered
    either."""
    with contextlib.ExitStack() as held, tempfile.TemporaryDirectory() as place:
        edges, served = Edges(place), held.enter_context(host(lambda target, _: answered(target, 7)))
        write_lists(place, {"B": LISTS["B"]})
        write(place, "catalog.csv", catalog({"A": served.port, "B": "B.csv"}))
        port, _ = held.enter_context(begun([program, "serve", "catalog.csv"], place, env=edges.env))
        line = LINE.replace("A", "B")
        before = reply(port, request(line))
        stop(served.listening)
        held.enter_context(full_port(served.port))
        edges[AHEAD], began = AGE, time.monotonic()
        told = [reply(port, request(it)) for it in (line, line, LINE)]
        took = time.monotonic() - began
    late = took < DIAL_SECONDS - 1 or took > 2 * DIAL_SECONDS
    wrong = next(filter(None, map(first_difference, told, (before, before, CLOSED))), None)
    return wrong or (f"took {took:.1f} s" if late else None)


def tests() -> Iterator[tuple[str, Callable[[str], str | None]]]:
    """Each test with its name."""
    for test in (alive, file_replaced, ends, last_connection, unversioned, asked_again, gone_host):
        yield f"restarts_{test.__name__}", over_network(test)
