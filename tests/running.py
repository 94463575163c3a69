"""What docs/RUNNING.md says of a server that is left alone: the settings that stand beside it, a restart without a gap,
a list that was replaced, slow clients behind a proxy, many clients at once, and what memory many requests take.
`python3 tests/running.py PROGRAM` measures the page's table of slow clients.
"""
from __future__ import annotations

import asyncio
import collections
import concurrent.futures
import contextlib
import itertools
import os
import re
import socket
import ssl
import subprocess
import sys
import tempfile
import threading
import time
from collections.abc import Callable, Iterator, Sequence

from edges import until
from machine import SECONDS, free_port, needs, no_files, number_in, over_network, path_of, peer, settle
from peers import from_example, nginx, said
from servers import LINES, LONG, body, server_over, slow_clients
from support import (DATA, MANY, REPOSITORY, Place, begun, built, catalog, differs, first_difference, list_text,
                     received, reply, request, run, server, wait_for, whole, worked_out, write)

UNIT = REPOSITORY / "examples" / "topk-serve@.service"
LIMITS = ("TasksMax", "LimitNOFILE")
CLIENTS = 512
SLOW = 500


def unit(program: str) -> str | None:
    """systemd takes the unit as it stands, and its words are a command: without a catalog it ends with status 6."""
    with tempfile.TemporaryDirectory() as place:
        text = UNIT.read_text(encoding="utf-8").replace("/usr/local/bin/topk", program)
        write(place, UNIT.name, text)
        done = peer([path_of("systemd-analyze"), "verify", "--man=no", os.path.join(place, UNIT.name)])
        if done.returncode != 0 or b"topk-serve@" in done.stderr:
            return f"ended with {done.returncode}: {done.stderr[-500:]!r}"
        command = next(iter(re.findall(r"^ExecStart=\S+ (.*)$", text, re.MULTILINE)))
        return differs(run(program, command.replace("%i", "8000").split(), place=place), 6, b"")


def limits_of_unit(program: str) -> str | None:
    """The greatest server, which has 64 lists and 32 workers, each with a client and another one waiting, has as many
    threads and descriptors as the page says, and the unit has room for twice as many."""
    text, names = UNIT.read_text(encoding="utf-8"), [f"L{number}" for number in range(64)]
    threads_may, files_may = (int(re.findall(rf"^{it}=(\d+)$", text, re.MULTILINE)[0]) for it in LIMITS)
    with tempfile.TemporaryDirectory() as place:
        for name in names:
            write(place, f"{name}.csv", list_text([(1, 2), (2, 1)]))
        write(place, "catalog.csv", catalog(names))
        with server(program, MANY, "--workers", "32", place=place) as (port, process), slow_clients(port, 64):
            until(lambda: len(os.listdir(f"/proc/{process.pid}/fd")) > 64
                  and len(os.listdir(f"/proc/{process.pid}/task")) >= 32 + 64 + 1)
            files, threads = (len(os.listdir(f"/proc/{process.pid}/{it}")) for it in ("fd", "task"))
    says = threads == 32 + 64 + 1 and files <= 2 * 32 + 10
    fits = 2 * threads <= threads_may and 2 * files <= files_may
    return None if says and fits else f"{threads} threads and {files} descriptors"


@contextlib.contextmanager
def listening_at(program: str, port: int, *words: str, place: Place = DATA) -> Iterator[subprocess.Popen[bytes]]:
    """A server over the catalog of the hotels, or of a place, at this port, or what else these words start there, until
    it is ended as systemd ends it."""
    command = [program, *(words or ("serve", "catalog.csv")), "--at", str(port)]
    with subprocess.Popen(command, cwd=place, stdout=subprocess.PIPE, stderr=subprocess.PIPE) as process:
        try:
            wait_for(port, process)
            yield process
        finally:
            process.terminate()


def asking(front: int, over: threading.Event) -> tuple[int, bytes]:
    """How many requests were answered until this is over, and the first reply that was another."""
    count = 0
    while not over.is_set():
        given = said(front, request(LINES[0]))
        if not given.startswith(b"HTTP/1.1 200 OK\r\n") or not given.endswith(b"\r\n\r\n" + body(LINES[0])):
            return count, given
        count += 1
    return count, b""


def restart(program: str) -> str | None:
    """Of two servers behind the nginx of examples/nginx.conf each is started anew, three times, while eight clients go
    on asking: each of their requests is answered."""
    over = threading.Event()
    with free_port() as one, free_port() as other, nginx(from_example(one, other)) as front, \
            concurrent.futures.ThreadPoolExecutor(8) as clients, contextlib.ExitStack() as held:
        running = {port: held.enter_context(contextlib.ExitStack()) for port in (one, other)}
        for port, process in running.items():
            process.enter_context(listening_at(program, port))
        told = [clients.submit(asking, front, over) for _ in range(8)]
        try:
            for port in (one, other) * 3:
                running[port].close()
                time.sleep(0.2)
                running[port].enter_context(listening_at(program, port))
                time.sleep(0.2)
        finally:
            over.set()
        counts, bad = zip(*(it.result() for it in told))
    return next((f"a client had {it[:300]!r}" for it in bad if it), None if min(counts) > 0 else f"answered {counts}")


def few_threads(program: str) -> str | None:
    """A server that gets no thread, or no further one after one of the first eleven, answers each line with one worker
    and with four: its workers fetch for themselves, and where there is no thread for them the server takes one link and
    serves it. No clause says that a thread gets on, so a worker that only sleeps until a fetcher told it, or a port that
    waits for workers who come after it, would be proved as well: this test refuses them."""
    with tempfile.TemporaryDirectory() as place:
        before = built(place, "sharing")
        # Threads are counted over all: opening the four lists makes four, and the fifth is that of the workers' side.
        for threads, workers in itertools.product(range(1, 13), ("1", "4")):
            env = dict(os.environ, LD_PRELOAD=before, SHARING_THREADS=str(threads))
            command = [program, "serve", "catalog.csv", "--conns", str(MANY), "--workers", workers]
            with begun(command, DATA, env=env) as (port, _):
                for line in LINES:
                    wrong = first_difference(reply(port, request(line), 10), whole(body(line)))
                    if wrong is not None:
                        return f"{threads} threads, {workers} workers, {line}: {wrong}"
    return None


def replaced(program: str) -> str | None:
    """A list that was read whole is answered at the version that was read, with no further call, also once it was
    replaced."""
    lines = [f"top {count} by A using nra" for count in (300, 2, 1)]
    with server_over(program, moves_at=5) as (port, served):
        for line in lines:
            wanted = worked_out([line], LONG).replace(b"\ncount 300\n", b"\ncount 300\nversion A 7\n")
            wrong = first_difference(reply(port, request(line)), whole(wanted))
            if wrong is not None:
                return f"{line}: {wrong}"
        return None if len(served.targets) == 4 else f"called {served.targets}"


def node_back(program: str) -> str | None:
    """While a node is down what was read of its list is answered, and a line that needs more is refused as failed; once
    it is back that line is answered."""
    with contextlib.ExitStack() as held, tempfile.TemporaryDirectory() as place:
        at = held.enter_context(free_port())
        write(place, "catalog.csv", catalog({"price": at}))
        few, more = (f"top {count} by price using nra" for count in (1, 9))
        words = ("--page", "1", "--ahead", "0")
        with listening_at(program, at, "node", "catalog.csv", "price"):
            port, _ = held.enter_context(server(program, MANY, *words, place=place))
            told = [reply(port, request(few))]
        told += [reply(port, request(line)) for line in (few, more)]
        with listening_at(program, at, "node", "catalog.csv", "price"):
            told.append(reply(port, request(more)))
    wanted = [body(few), body(few), b"refused 1 Failed price\n", body(more)]
    return next(filter(None, map(first_difference, told, map(whole, wanted))), None)


@contextlib.contextmanager
def beside_slow(program: str, silent: int, dripping: int, proxied: bool) -> Iterator[tuple[int, list[socket.socket]]]:
    """A server with four workers, or the nginx of examples/nginx.conf before it, which so many clients hold that send
    nothing, and so many that send a byte now and then: its port, and the connections of these."""
    with contextlib.ExitStack() as held:
        front, _ = held.enter_context(server(program, MANY, "--workers", "4"))
        if proxied:
            front = held.enter_context(nginx(from_example(front)))
        slow = held.enter_context(slow_clients(front, silent, silent=True))
        yield front, slow + held.enter_context(slow_clients(front, dripping))


def seconds_of(front: int) -> float:
    """The seconds after which a request is answered."""
    began = time.monotonic()
    given = said(front, request(LINES[0]))
    if not given.startswith(b"HTTP/1.1 200 OK\r\n") or not given.endswith(b"\r\n\r\n" + body(LINES[0])):
        raise AssertionError(f"replied {given[:200]!r}")
    return time.monotonic() - began


def slow_behind_nginx(program: str) -> str | None:
    """Behind the nginx of examples/nginx.conf 500 clients that send nothing and 500 that send a byte now and then hold
    no worker: a request beside them is answered within two seconds by a server with four. The slow ones are broken off
    after ten seconds."""
    needs(no_files(8 * SLOW))
    with beside_slow(program, SLOW, SLOW, proxied=True) as (front, slow):
        took, answered = seconds_of(front), time.monotonic()
        for link in slow:
            received(link)
        lasted = time.monotonic() - answered
    return None if took < 2 and lasted < 15 else f"answered after {took:.1f} s, and broken off {lasted:.1f} s later"


def limits_of_nginx(_program: str) -> str | None:
    """The nginx of examples/nginx.conf has at most 16 requests of a client's address with its servers, and 128 in all:
    one more is refused with 503."""
    def asked(address: int) -> socket.socket:
        link = socket.create_connection(("127.0.0.1", front), SECONDS, (f"127.0.0.{address}", 0))
        link.sendall(request(LINES[0]))
        return held.enter_context(link)

    with socket.create_server(("127.0.0.1", 0), backlog=128) as deaf, contextlib.ExitStack() as held, \
            nginx(from_example(deaf.getsockname()[1])) as front:
        deaf.settimeout(SECONDS)
        for address in range(2, 10):
            for _ in range(16):
                asked(address)
                held.enter_context(deaf.accept()[0])
            given = asked(address).recv(100)
            if not given.startswith(b"HTTP/1.1 503 "):
                return f"the 17th of 127.0.0.{address} had {given!r}"
        given = asked(10).recv(100)
        return None if given.startswith(b"HTTP/1.1 503 ") else f"the 129th had {given!r}"


def nginx_with_tls(program: str) -> str | None:
    """nginx takes examples/nginx.conf as it stands, but for its ports and the folder of its certificate, and answers
    over TLS."""
    name, openssl = "topk.example", path_of("openssl")
    with tempfile.TemporaryDirectory() as place, server(program) as (port, _):
        files = ("-keyout", f"{place}/{name}.key", "-out", f"{place}/{name}.pem")
        done = peer([openssl, "req", "-x509", "-newkey", "rsa:2048", "-nodes", "-days", "1", "-subj", f"/CN={name}",
                     "-addext", f"subjectAltName=DNS:{name}", *files])
        if done.returncode != 0:
            raise AssertionError(f"openssl makes no certificate: {done.stderr[-200:]!r}")
        with nginx(from_example(port, certificates=place)) as front, \
                socket.create_connection(("127.0.0.1", front), SECONDS) as plain, \
                ssl.create_default_context(cafile=files[3]).wrap_socket(plain, server_hostname=name) as link:
            link.sendall(request(LINES[0]).replace(b"\r\n\r\n", b"\r\nConnection: close\r\n\r\n"))
            given = received(link)
    return first_difference(given.partition(b"\r\n\r\n")[2], body(LINES[0]))


async def answer_to(port: int, asked: bytes) -> bytes:
    """The reply to a request. Where the port's queue has no room for a connection the system may break it off: then it
    is asked for again."""
    while True:
        with contextlib.suppress(ConnectionResetError):
            reader, writer = await asyncio.open_connection("127.0.0.1", port)
            with contextlib.closing(writer):
                writer.write(asked)
                given = await reader.read()
                if given:
                    return given


async def ask_on(port: int, asked: Sequence[bytes], end: float, most: int, told: collections.Counter[bytes]) -> None:
    """Asks in turn, a connection each, until this time or until so many were asked, and counts the replies."""
    for number in range(most):
        if time.monotonic() > end:
            return
        told[await answer_to(port, asked[number % len(asked)])] += 1


def replies(port: int, clients: int, asked: Sequence[bytes], seconds: float = SECONDS,
            most: int = MANY) -> collections.Counter[bytes]:
    """How often each reply came to so many clients at once, each of which asks for so long, or so often."""
    async def of_all() -> collections.Counter[bytes]:
        told = collections.Counter[bytes]()
        end = time.monotonic() + seconds
        await asyncio.wait_for(asyncio.gather(*(ask_on(port, asked, end, most, told) for _ in range(clients))), SECONDS)
        return told

    return asyncio.run(of_all())


def many_clients(program: str) -> str | None:
    """512 clients at once ask for five seconds, and each of them is answered."""
    needs(no_files(4 * CLIENTS))
    with server(program) as (port, _):
        told = replies(port, CLIENTS, [request(LINES[0])], 5)
    others = [it[:200] for it in told if it != whole(body(LINES[0]))]
    return f"replied {others[0]!r}" if others else None if sum(told.values()) >= CLIENTS else f"only {told}"


def memory(program: str) -> str | None:
    """After 10,000 requests a server holds as much memory as after 1,000, but for half a megabyte."""
    asked = [request(f"top {1 + count % 24} by {operator}(price,rating,centre) using {algorithm}")
             for count in range(24) for operator in ("min", "sum") for algorithm in ("ta", "nra")]
    with server(program) as (port, process):
        held = []
        for each in (125, 1125):
            told = replies(port, 8, asked, most=each)
            bad = next((it[:200] for it in told if not it.startswith(b"HTTP/1.1 200 OK\r\n")), None)
            if bad is not None:
                return f"replied {bad!r}"
            held.append(number_in(f"/proc/{process.pid}/status", "VmRSS:") or 0)
    return None if held[1] - held[0] < 512 else f"held {held[0]} kB and then {held[1]} kB"


def tests() -> Iterator[tuple[str, Callable[[str], str | None]]]:
    """Each test with its name."""
    yield "running_unit", unit
    for test in (limits_of_unit, restart, few_threads, replaced, node_back, slow_behind_nginx, limits_of_nginx,
                 nginx_with_tls, many_clients, memory):
        yield f"running_{test.__name__}", over_network(test)


def beside(program: str, count: int, silent: bool, proxied: bool) -> str:
    """After how long a client is answered beside so many slow ones."""
    with beside_slow(program, count * silent, count * (not silent), proxied) as (front, _):
        try:
            return f"{seconds_of(front):.2f} s"
        except (TimeoutError, socket.timeout):
            return f"more than {SECONDS:.0f} s"


def main() -> None:
    """Prints the table of slow clients of docs/RUNNING.md over a program. An answer is waited for as long as
    TOPK_TEST_SECONDS says."""
    settle()
    program, kinds = sys.argv[1], list(itertools.product((4, 16, SLOW), (True, False)))
    with concurrent.futures.ThreadPoolExecutor(len(kinds)) as at_once:
        direct = [at_once.submit(beside, program, count, silent, False) for count, silent in kinds]
    for (count, silent), took in zip(kinds, direct):
        what = f"{count} that send {'nothing' if silent else 'a byte now and then'}"
        print(f"| {what} | {took.result()} | {beside(program, count, silent, True)} |", flush=True)


if __name__ == "__main__":
    main()
