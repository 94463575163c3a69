"""The edge of the port: `node` and `serve` where the system has an error, few descriptors or a slow client for them.

Each process listens at a free port, takes so many connections as its test makes, and is ended at the test's end. The
errors of `accept` are made by strace.
"""
from __future__ import annotations

import contextlib
import functools
import os
import pathlib
import re
import socket
import subprocess
import tempfile
import threading
import time
from collections.abc import Callable, Iterator

from edges import until
from machine import SECONDS, free_port, needs, no_files, number_in, over_network, path_of
from support import Listening, catalog, ended, received, run, write, write_lists

ROWS = 10_000
# What the system may say of one connection, or of the network, and what it says where it wants something for a while.
PASSING = ("EINTR", "EPERM", "ENONET", "EPROTO", "ENOPROTOOPT", "EOPNOTSUPP", "ENETDOWN", "ENETUNREACH",
           "ECONNABORTED", "ETIMEDOUT", "EHOSTDOWN", "EHOSTUNREACH")
WANTING = ("EMFILE", "ENFILE", "ENOBUFS", "ENOMEM")
# What it says where nobody listens any more.
ENDING = ("EBADF", "EINVAL", "ENOTSOCK")
QUERY = f"top {ROWS} by sum(A,B) using nra"
LINE = f"GET /top?q={QUERY.replace(' ', '+').replace(',', '%2C')} HTTP/1.1\r\nHost: h\r\n"
PAGE = f"GET /lists/A/page?from=1&count={ROWS} HTTP/1.1\r\nHost: h\r\n"
SIZE = b"GET /lists/A/size HTTP/1.1\r\nHost: h\r\n\r\n"
BODY = b"b" * 300_000
# Two lists of 10,000 rows, whose orders are opposite.
LISTS = {name: [(4_000_000_000 + number, 1_000_000 - rank) for rank, number in enumerate(objects)]
         for name, objects in (("A", range(ROWS)), ("B", range(ROWS - 1, -1, -1)))}


@contextlib.contextmanager
def begun(program: str, words: list[str], conns: int, before: tuple[str, ...] = (),
          files: int | None = None) -> Iterator[tuple[int, subprocess.Popen[bytes]]]:
    """A process that listens at a free port, behind a tracer's words, with so many descriptors: its port, and it."""
    with tempfile.TemporaryDirectory() as place, free_port() as port:
        write_lists(place, LISTS)
        command = [*before, program, *words, "--conns", str(conns), "--at", str(port)]
        if files is not None:
            command = ["sh", "-c", f'ulimit -n {files}; exec "$@"', "sh", *command]
        with subprocess.Popen(command, stdout=subprocess.PIPE, stderr=subprocess.DEVNULL, cwd=place) as process:
            try:
                yield port, process
            finally:
                process.kill()


def node(program: str, conns: int, before: tuple[str, ...] = ()) -> Listening:
    """A node of list A."""
    return begun(program, ["node", "catalog.csv", "A"], conns, before)


def server(program: str, conns: int, before: tuple[str, ...] = ()) -> Listening:
    """A server over both lists."""
    return begun(program, ["serve", "catalog.csv"], conns, before)


def connected(port: int, host: str = "127.0.0.1") -> socket.socket:
    """A connection to a port as soon as something listens at it."""
    end = time.monotonic() + SECONDS
    while True:
        try:
            return socket.create_connection((host, port), SECONDS)
        except ConnectionRefusedError:
            if time.monotonic() > end:
                raise
            time.sleep(0.02)


def asked(port: int, request: bytes, host: str = "127.0.0.1") -> bytes:
    """The reply to a request."""
    with connected(port, host) as link:
        link.sendall(request)
        return received(link)


def injected(error: str, when: str = "1..3") -> tuple[str, ...]:
    """The words of a tracer by which these calls of `accept` have this error."""
    path = path_of("strace")
    what = f"inject=accept4:error={error}:when={when}"
    return (path, "-f", "-qq", "-o", "/dev/null", "-e", "trace=accept4", "-e", what)


def passed_over(program: str, error: str) -> str | None:
    """A node and a server go on behind an error of three calls, and answer."""
    for kind, request in ((node, SIZE), (server, LINE.encode() + b"\r\n")):
        with kind(program, 1, before=injected(error)) as (port, process):
            given = asked(port, request)
            if not given.startswith(b"HTTP/1.1 200 OK\r\n"):
                return f"{kind.__name__}: replied {given[:200]!r}"
            wrong = ended(process, 0, b"served 1\n")
            if wrong is not None:
                return f"{kind.__name__}: {wrong}"
    return None


def gives_up(program: str, error: str) -> str | None:
    """A node and a server end where nobody listens any more."""
    for kind in (node, server):
        with kind(program, 1, before=injected(error, "1")) as (_, process):
            wrong = ended(process, 7, b"")
            if wrong is not None:
                return f"{kind.__name__}: {wrong}"
    return None


def few_descriptors(program: str) -> str | None:
    """A server whose 24 descriptors are all taken answers each of 100 clients that have all connected before the first
    one asks."""
    count, files = 100, 24
    with begun(program, ["serve", "catalog.csv", "--workers", "16"], count, files=files) as (port, process):
        links = [connected(port) for _ in range(count)]
        until(lambda: len(os.listdir(f"/proc/{process.pid}/fd")) == files)
        for link in links:
            link.sendall(b"GET /top?q= HTTP/1.1\r\nHost: h\r\n\r\n")
        replies = []
        for link in links:
            replies.append(received(link))
            link.close()
        wrong = ended(process, 0, b"served %d\n" % count)
    bad = next((number for number, given in enumerate(replies) if not given.startswith(b"HTTP/1.1 200 OK\r\n")), None)
    return wrong if bad is None else f"client {bad}: {replies[bad][:200]!r}"


def long_queue(program: str) -> str | None:
    """A thousand clients that come at once have each a place at a server that is busy, or as many as the system
    allows."""
    count = min(1000, number_in("/proc/sys/net/core/somaxconn") or 0)
    needs(no_files(2 * count))
    with begun(program, ["serve", "catalog.csv", "--workers", "1"], 2 * count) as (port, _), \
            contextlib.ExitStack() as held:
        held.enter_context(connected(port))
        for number in range(count):
            try:
                held.enter_context(socket.create_connection(("127.0.0.1", port), 0.9))
            except (TimeoutError, socket.timeout):
                return f"client {number} of {count} has no place"
    return None


def slowly(port: int, head: str) -> bytes:
    """The reply to a request with a body, read slowly through a small buffer, while the body is still being sent."""
    with socket.socket() as link:
        link.setsockopt(socket.SOL_SOCKET, socket.SO_RCVBUF, 4096)
        link.settimeout(SECONDS)
        link.connect(("127.0.0.1", port))

        def send() -> None:
            with contextlib.suppress(OSError):
                link.sendall(f"{head}Content-Length: {len(BODY)}\r\n\r\n".encode() + BODY)

        sender = threading.Thread(target=send)
        sender.start()
        given = received(link, 8192, 0.001)
        sender.join()
        return given


def whole_replies(program: str) -> str | None:
    """Clients that send a body and read slowly have the whole reply, each of 100 times."""
    for kind, head in ((node, PAGE), (server, LINE)):
        with kind(program, 101) as (port, process):
            wanted = asked(port, head.encode() + b"\r\n")
            if len(wanted) < 200_000 or not wanted.startswith(b"HTTP/1.1 200 OK\r\n"):
                return f"{kind.__name__}: replied {len(wanted)} bytes, {wanted[:100]!r}"
            for number in range(100):
                given = slowly(port, head)
                if given != wanted:
                    return f"{kind.__name__}: client {number} had {len(given)} of {len(wanted)} bytes"
            wrong = ended(process, 0, b"served 101\n")
            if wrong is not None:
                return f"{kind.__name__}: {wrong}"
    return None


def client_that_stays(program: str) -> str | None:
    """A client that stays connected after its reply, and one that goes on sending, hold a node for a bounded time."""
    for sends, most in ((False, 8), (True, 20)):
        with node(program, 2) as (port, process), connected(port) as link:
            link.sendall(SIZE)
            given, start, done = received(link), time.monotonic(), threading.Event()

            def drip() -> None:
                with contextlib.suppress(OSError):
                    while sends and not done.wait(0.2):
                        link.sendall(b"x")

            dripping = threading.Thread(target=drip)
            dripping.start()
            other = asked(port, SIZE)
            took = time.monotonic() - start
            done.set()
            dripping.join()
            if other != given or took > most:
                return f"the next client had {other[:100]!r} after {took:.1f} s"
            wrong = ended(process, 0, b"served 2\n")
            if wrong is not None:
                return wrong
    return None


def both_families(program: str) -> str | None:
    """A node and a server are reached by IPv4, and by IPv6 where the machine has it, and a port that is taken is
    refused."""
    try:
        socket.create_server(("::1", 0), family=socket.AF_INET6).close()
        hosts = [(socket.AF_INET, "127.0.0.1"), (socket.AF_INET6, "::1")]
    except OSError:
        hosts = [(socket.AF_INET, "127.0.0.1")]
    for kind, sent in ((node, SIZE), (server, b"GET /top?q= HTTP/1.1\r\nHost: h\r\n\r\n")):
        with kind(program, len(hosts) + 1) as (port, process):
            replies = [asked(port, sent, host) for _, host in [*hosts, hosts[0]]]
            if len(set(replies)) != 1 or not replies[0].startswith(b"HTTP/1.1 200 OK\r\n"):
                return f"{kind.__name__}: replied {replies!r}"
            wrong = ended(process, 0, b"served %d\n" % len(replies))
            if wrong is not None:
                return f"{kind.__name__}: {wrong}"
    for family, host in hosts:
        address, both = ("::", True) if host == "::1" else (host, False)
        listening = socket.create_server((address, 0), family=family, dualstack_ipv6=both)
        with listening as taken, tempfile.TemporaryDirectory() as place:
            write_lists(place, LISTS)
            words = ["node", "catalog.csv", "A", "--at", str(taken.getsockname()[1])]
            status = run(program, words, place=place).returncode
            if status != 7:
                return f"a port that is taken at {host} gave status {status}"
    return None


def host_looked_up_once(program: str) -> str | None:
    """A run over a list of a host asks for the host's address once, however many calls it makes."""
    strace = path_of("strace")
    found = socket.getaddrinfo("localhost", 80, type=socket.SOCK_STREAM)
    needs("" if any(it[4][0] == "127.0.0.1" for it in found) else "localhost isn't 127.0.0.1")
    with node(program, 1_000_000) as (port, _), tempfile.TemporaryDirectory() as place:
        connected(port).close()
        write(place, "catalog.csv", catalog({"A": f"http://localhost:{port}/lists/A"}))
        words = ["-f", "-qq", "-o", "trace", "-e", "trace=openat,connect", program, "run", "--page", "1", "catalog.csv"]
        done = run(strace, words, b"top 9 by A using nra\n", place)
        trace = (pathlib.Path(place) / "trace").read_text(encoding="utf8", errors="replace")
        dials, lookups = len(re.findall(rf"connect\(.*htons\({port}\)", trace)), trace.count('"/etc/hosts"')
        if done.returncode != 0 or dials < 9 or lookups != 1:
            return f"ended with {done.returncode}; {dials} connections, {lookups} looks at the hosts"
    return None


def tests() -> Iterator[tuple[str, Callable[[str], str | None]]]:
    """Each test with its name."""
    for error in PASSING + WANTING:
        yield f"port_edge_passes_{error}", over_network(functools.partial(passed_over, error=error))
    for error in ENDING:
        yield f"port_edge_ends_{error}", over_network(functools.partial(gives_up, error=error))
    for test in (few_descriptors, long_queue, whole_replies, client_that_stays, both_families, host_looked_up_once):
        yield f"port_edge_{test.__name__}", over_network(test)
