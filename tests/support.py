"""What tests share: running the program, catalogs and list files for it, hosts that count and fail on demand, programs
that listen, and how texts differ.

No test stands here. What the machine has says machine.py.
"""
from __future__ import annotations

import contextlib
import importlib.util
import os
import pathlib
import re
import socket
import struct
import subprocess
import sys
import tempfile
import threading
import time
import urllib.parse
from collections.abc import Callable, Collection, Iterable, Iterator, Mapping, Sequence
from types import ModuleType
from typing import Any, Union

from machine import SECONDS, path_of, peer, free_port

REPOSITORY = pathlib.Path(__file__).resolve().parent.parent
# The folder of the Python package.
PYTHON = REPOSITORY / "python"
# The catalog of the hotels, and their lists that can be opened and asked for one grade.
DATA = REPOSITORY / "crates" / "topk" / "data"
HOTELS = ("price", "rating", "centre")
# As many connections as a program takes that is ended by its test.
MANY = 1_000_000
# The most bytes of a text that a failure shows.
SHOWN = 200

Place = Union[str, "os.PathLike[str]"]
Done = subprocess.CompletedProcess
Lists = Mapping[str, Sequence["tuple[int, int]"]]


# Running the program.

def run(program: str, words: Sequence[str | bytes], data: bytes = b"", place: Place | None = None,
        **more: Any) -> Done[bytes]:
    """How the program ends with these words, this input and this working folder, and what it writes."""
    return subprocess.run([program, *words], input=data, stdout=subprocess.PIPE, stderr=subprocess.PIPE, cwd=place,
                          timeout=SECONDS, **more)


def shown(text: bytes | str) -> str:
    """A text in a failure: its front, where it is long."""
    return repr(text) if len(text) <= SHOWN else f"{text[:SHOWN]!r} and {len(text) - SHOWN} more"


def first_difference(found: bytes, wanted: bytes) -> str | None:
    """The first line in which two texts differ, with its number, or None."""
    if found == wanted:
        return None
    ours, theirs = found.split(b"\n"), wanted.split(b"\n")
    for number, (one, other) in enumerate(zip(ours, theirs), 1):
        if one != other:
            return f"line {number} is {shown(one)} in place of {shown(other)}"
    shorter = min(len(ours), len(theirs))
    if len(ours) < len(theirs):
        return f"ends with line {shorter}; {shown(theirs[shorter])} is wanted then"
    return f"goes on behind line {shorter} with {shown(ours[shorter])}"


def differs(done: Done[bytes], status: int, output: bytes | None = None) -> str | None:
    """What is wrong with how a process ended, or None."""
    wrong = None if output is None else first_difference(done.stdout, output)
    if done.returncode != status:
        return f"ended with {done.returncode} in place of {status}; {wrong or 'wrote ' + shown(done.stdout)}"
    return wrong


def first_wrong(rows: Iterable[tuple[str, Any, Any]]) -> str | None:
    """The first of some labelled values that isn't what is wanted, or None."""
    wrong = (f"{label}: {found!r} in place of {wanted!r}" for label, found, wanted in rows if found != wanted)
    return next(wrong, None)


def wrong_examples(program: str, files: Iterable[pathlib.Path]) -> str | None:
    """What the examples in files and pages of the Python package give in place of what is stated, or None."""
    there = {**os.environ, "PYTHONPATH": str(PYTHON), "TOPK_PROGRAM": program}
    done = subprocess.run([sys.executable, "-m", "doctest", *map(str, files)], stdout=subprocess.PIPE,
                          stderr=subprocess.STDOUT, env=there, timeout=SECONDS, check=False)
    return None if done.returncode == 0 and not done.stdout else done.stdout.decode()[:2000]


# Catalogs and list files.

def write(place: Place, name: str, text: str) -> None:
    """Writes a file, its line ends as they are."""
    with open(os.path.join(place, name), "w", encoding="utf-8", newline="") as file:
        file.write(text)


def catalog(places: Mapping[str, str | int] | Iterable[str], no_random: Collection[str] = (),
            no_sorted: Collection[str] | None = None) -> str:
    """The text of a catalog: of each list its file, or the port of 127.0.0.1 at which it is served; without places each
    has a file of its name. All can be asked for one object's grade but those of `no_random`. With `no_sorted` there is
    a fourth field: those can't be read from the top."""
    named = places if isinstance(places, Mapping) else {name: f"{name}.csv" for name in places}
    lines = ["name,place,random" + ("" if no_sorted is None else ",sorted")]
    for name, place in named.items():
        at = place if isinstance(place, str) else f"http://127.0.0.1:{place}/lists/{name}"
        fields = [name, at, "no" if name in no_random else "yes"]
        lines.append(",".join(fields if no_sorted is None else [*fields, "no" if name in no_sorted else "yes"]))
    return "\n".join(lines) + "\n"


def list_text(rows: Iterable[tuple[int, int]]) -> str:
    """The text of a list file, or of a section of a bundle."""
    return "".join(f"{item},{grade}\n" for item, grade in rows)


def write_lists(place: Place, lists: Lists) -> None:
    """Writes a file for each list, and a catalog of them."""
    for name, rows in lists.items():
        write(place, f"{name}.csv", list_text(rows))
    write(place, "catalog.csv", catalog(list(lists)))


def ranked(grades: Mapping[int, int]) -> list[tuple[int, int]]:
    """The rows of a list, best first."""
    return sorted(grades.items(), key=lambda row: (-row[1], row[0]))


def hotel_lists() -> dict[str, list[tuple[int, int]]]:
    """The rows of the hotels' lists."""
    return {path.stem: rows_in(path.read_text(encoding="utf-8")) for path in sorted((DATA / "hotels").glob("*.csv"))}


def rows_in(text: str) -> list[tuple[int, int]]:
    """The rows of a list file, or of a section of a bundle. What is none has its place too."""
    records = text.lstrip("\ufeff").replace('"', "").split()
    found = (re.fullmatch(r"(\d+),(\d+)", it) for it in records[records[:1] == ["object,grade"]:])
    return [(int(row[1]), int(row[2])) if row else (-1, -1) for row in found]


def run_at(program: str, ports: Mapping[str, int], lines: bytes, *words: str) -> Done[bytes]:
    """A run of query lines over lists that hosts at these ports serve."""
    with tempfile.TemporaryDirectory() as place:
        write(place, "catalog.csv", catalog(ports))
        return run(program, ["run", *words, "catalog.csv"], lines, place)


def module_at(path: pathlib.Path, name: str | None = None) -> ModuleType:
    """The Python of a file, as a module of its own."""
    found = importlib.util.spec_from_file_location(name or path.stem, path)
    if found is None or found.loader is None:
        raise AssertionError(f"{path} is no module")
    made = importlib.util.module_from_spec(found)
    sys.modules[made.__name__] = made
    found.loader.exec_module(made)
    return made


_LOADING = threading.Lock()


def worked_out(lines: Iterable[str], lists: Lists, no_sorted: Collection[str] = ()) -> bytes:
    """What becomes of lines that are admitted, worked out by bench/reference.py, which shares no code with the
    program."""
    with _LOADING:
        reference = sys.modules.get("reference") or module_at(REPOSITORY / "bench" / "reference.py")
    known: dict[str, str] = {}
    text = []
    for number, line in enumerate(lines, 1):
        first = known.setdefault(line, "") or reference.outcome(1, line, lists, no_sorted)
        known[line] = first
        text.append(re.sub(r"^(certificate|refused) 1", rf"\1 {number}", first))
    return "".join(text).encode()


# Hosts of this process.

class Reset(Exception):
    """Raised for a reply in place of which the connection is broken off."""


def break_off(link: socket.socket) -> None:
    """Ends a connection so that the other end's next call fails."""
    link.setsockopt(socket.SOL_SOCKET, socket.SO_LINGER, struct.pack("ii", 1, 0))
    link.close()


def replied(status: str, kind: str, text: str, *more: str) -> bytes:
    """A whole reply as the programs here write it."""
    lines = (f"HTTP/1.1 {status}", f"Content-Type: {kind}", *more, f"Content-Length: {len(text)}", "Connection: close")
    return ("\r\n".join(lines) + f"\r\n\r\n{text}").encode()


def answer(text: str) -> bytes:
    """The reply with this body."""
    return replied("200 OK", "application/json", text)


def refusal(status: int, reason: str) -> bytes:
    """The reply without an answer."""
    return replied(f"{status} {reason}", "text/plain", f"{reason}\n", *(["Allow: GET"] if status == 405 else []))


# The reasons beside the statuses that refuse a request.
REASONS = {400: "Bad Request", 404: "Not Found", 405: "Method Not Allowed", 431: "Request Header Fields Too Large"}


def exchange(line: str, good: Callable[[str], bytes]) -> tuple[bytes, bytes]:
    """A request of a file of requests/, and the reply that it gets. Who asks for the head alone gets no body, whose
    length isn't said then."""
    told, _, body = line.encode("ascii").decode("unicode_escape").partition(" => ")
    status, _, request = told.partition(" ")
    request += "\r\n\r\n" if " HTTP/" in request else " HTTP/1.1\r\nHost: h\r\n\r\n"
    wanted = good(body) if status == "200" else refusal(int(status), REASONS[int(status)])
    if request.startswith("HEAD ") and status == "405":
        wanted = re.sub(rb"Content-Length: \d+\r\n", b"", wanted[:wanted.index(b"\r\n\r\n") + 4])
    return request.encode("latin-1"), wanted


def longest(request: bytes) -> Iterator[bytes]:
    """A request whose head has the most bytes, one with a byte more, one with the most lines, and one with a line
    more."""
    head = request[:-2]
    for length in (16_384, 16_385):
        yield (head + b"X: ").ljust(length - 4, b"x") + b"\r\n\r\n"
    for lines in (63, 64):
        yield head + lines * b"X: x\r\n" + b"\r\n"


def wrong_replies(port: int, name: str, first: bytes, good: Callable[[str], bytes]) -> str | None:
    """What is wrong with the replies to the requests of requests/NAME.txt, and to the first of these, which begins so,
    where nothing of it comes, where its end doesn't, and where its head is as long as it may be, or longer; or None."""
    text = (pathlib.Path(__file__).with_name("requests") / f"{name}.txt").read_text(encoding="ascii")
    sent = [exchange(line, good) for line in text.splitlines() if not line.startswith("#")]
    request, replied_well = sent[0]
    assert request.startswith(first)
    bad, too_long = refusal(400, REASONS[400]), refusal(431, REASONS[431])
    sent += [(b"", bad), (request[:-2], bad), *zip(longest(request), (replied_well, too_long) * 2)]
    found = [(it, first_difference(reply(port, it), wanted)) for it, wanted in sent]
    return "\n    ".join(f"{it[:99]!r}: {wrong}" for it, wrong in found if wrong is not None) or None


def taken_apart(target: str) -> tuple[str, str, dict[str, int]]:
    """The list, the call and its numbers of a request for `/lists/NAME/CALL?..`."""
    path, _, query = target.partition("?")
    name, call = path.split("/")[-2:]
    return name, call, {key: int(value) for key, value in urllib.parse.parse_qsl(query)}


def answered(target: str, lists: Lists, version: int = 0) -> bytes:
    """What a node of these lists replies to a call that it knows."""
    name, call, numbers = taken_apart(target)
    stated, rows = f',"version":{version}' if version else "", lists[name]
    if call == "size":
        return answer(f'{{"count":{len(rows)}{stated}}}')
    if call == "page":
        page = rows[numbers["from"]:][:numbers["count"]]
        return answer('{"rows":[' + ",".join(f"[{item},{grade}]" for item, grade in page) + f"]{stated}}}")
    grade = next((grade for item, grade in rows if item == numbers["object"]), None)
    return answer(f'{{"grade":{"null" if grade is None else grade}{stated}}}')


# What a host replies to the target of a request and to its number among those of its list, from 1: at once or piece by
# piece.
Reply = Callable[[str, int], Union[bytes, Iterable[bytes]]]


class Host:
    """A host at a port of 127.0.0.1, or of another address of this machine. It keeps the targets of all requests, in
    their order; `listening` may be closed before it ends."""

    def __init__(self, reply: Reply, listening: socket.socket) -> None:
        self.reply, self.listening, self.targets = reply, listening, list[str]()
        self.port: int = listening.getsockname()[1]
        self._turn = threading.Lock()

    def calls(self, name: str, call: str) -> list[dict[str, int]]:
        """The numbers of each call of a kind of a list, in their order."""
        parts = map(taken_apart, list(self.targets))
        return [numbers for of, kind, numbers in parts if (of, kind) == (name, call)]

    def take_links(self) -> None:
        """Takes one connection after another, each on a thread of its own, until nobody listens any more."""
        with contextlib.suppress(OSError):
            while True:
                link, _ = self.listening.accept()
                threading.Thread(target=self.serve, args=(link,), daemon=True).start()

    def serve(self, link: socket.socket) -> None:
        """Replies to the request of a connection. A client that leaves before all is said is its own affair."""
        link.settimeout(SECONDS)
        with link, contextlib.suppress(OSError):
            target = asked(link)
            if target is None:
                return
            with self._turn:
                self.targets.append(target)
                named = target[:target.rfind("/") + 1]
                number = sum(it.startswith(named) for it in self.targets)
            try:
                said = self.reply(target, number)
                for piece in [said] if isinstance(said, bytes) else said:
                    link.sendall(piece)
            except Reset:
                break_off(link)


def asked(link: socket.socket) -> str | None:
    """The target of the request that comes of a connection, which is read to its end, or None where the client leaves
    before."""
    sent = b""
    while b"\r\n\r\n" not in sent:
        part = link.recv(4096)
        if part == b"":
            return None
        sent += part
    return sent.split(b" ")[1].decode()


def stop(listening: socket.socket) -> None:
    """Ends a socket that listens, also for the thread that waits in it."""
    with contextlib.suppress(OSError):
        listening.shutdown(socket.SHUT_RDWR)
    listening.close()


@contextlib.contextmanager
def host(reply: Reply, address: str = "127.0.0.1", port: int = 0) -> Iterator[Host]:
    """A host that replies so."""
    with socket.create_server((address, port), backlog=128) as listening:
        made = Host(reply, listening)
        threading.Thread(target=made.take_links, daemon=True).start()
        try:
            yield made
        finally:
            stop(listening)


def hosting(lists: Lists, failing: Mapping[tuple[str, str, int], bytes | type[Reset]] | None = None,
            address: str = "127.0.0.1", port: int = 0) -> contextlib.AbstractContextManager[Host]:
    """A host of lists. The call of a list of a kind with a number, from 1, gets what `failing` has for it, as ("A",
    "page", 2) its second page."""
    made: dict[tuple[str, str], int] = {}
    turn = threading.Lock()

    def reply(target: str, _: int) -> bytes:
        name, call, _numbers = taken_apart(target)
        with turn:
            made[name, call] = number = made.get((name, call), 0) + 1
        bad = (failing or {}).get((name, call, number))
        if isinstance(bad, type):
            raise bad
        return answered(target, lists) if bad is None else bad
    return host(reply, address, port)


@contextlib.contextmanager
def raw_host(behaves: Callable[[socket.socket, socket.socket], None]) -> Iterator[int]:
    """A port at which one connection after another is treated so, the socket that listens beside it, and then
    closed."""
    def take_links() -> None:
        with contextlib.suppress(OSError):
            while True:
                link, _ = listening.accept()
                with link, contextlib.suppress(OSError):
                    link.settimeout(SECONDS)
                    behaves(link, listening)

    with socket.create_server(("127.0.0.1", 0)) as listening:
        threading.Thread(target=take_links, daemon=True).start()
        try:
            yield listening.getsockname()[1]
        finally:
            stop(listening)


# Programs that listen.

# The port of a program that listens, and its process.
Listening = contextlib.AbstractContextManager["tuple[int, subprocess.Popen[bytes]]"]


def wait_for(port: int, process: subprocess.Popen[bytes]) -> None:
    """Waits until a process listens, which a connection tells that sends nothing and leaves: it is the first of those
    that the process takes."""
    end = time.monotonic() + SECONDS
    while process.poll() is None:
        try:
            with socket.create_connection(("127.0.0.1", port), SECONDS):
                return
        except ConnectionRefusedError:
            if time.monotonic() > end:
                raise TimeoutError(f"{process.args!r} doesn't listen") from None
            time.sleep(0.02)  # It may not listen yet; nothing rests on how long this takes.
    raise AssertionError(f"{process.args!r} doesn't listen, but ended with {process.returncode}")


@contextlib.contextmanager
def begun(command: Sequence[str], place: Place, **more: Any) -> Iterator[tuple[int, subprocess.Popen[bytes]]]:
    """A process that listens at a free port, which it is told as the last of its options: its port, and the process."""
    with free_port() as port, subprocess.Popen([*command, "--at", str(port)], stdout=subprocess.PIPE,
                                               stderr=subprocess.PIPE, cwd=place, **more) as process:
        try:
            wait_for(port, process)
            yield port, process
        finally:
            process.kill()


def node(program: str, name: str, conns: int = MANY, *words: str) -> Listening:
    """A node of a list of the hotels, which has taken one of its connections: its port, and the process."""
    return begun([program, "node", "catalog.csv", name, "--conns", str(conns), *words], DATA)


def server(program: str, conns: int = MANY, *words: str, place: Place | None = None) -> Listening:
    """A server over the catalog of the hotels, or of a place, which has taken one of its connections: its port, and the
    process."""
    return begun([program, "serve", "catalog.csv", "--conns", str(conns), *words], place or DATA)


def ended(process: subprocess.Popen[bytes], status: int, output: bytes) -> str | None:
    """What is wrong with how a program that listened ended, or None."""
    out, _ = process.communicate(timeout=SECONDS)
    return differs(subprocess.CompletedProcess([], process.returncode, out), status, output)


def reply(port: int, request: bytes, seconds: float = SECONDS) -> bytes:
    """What a program at a port replies to these bytes, which it needn't read to their end."""
    with socket.create_connection(("127.0.0.1", port), seconds) as link:
        with contextlib.suppress(OSError):  # It may break the connection off before it has read all.
            link.sendall(request)
            link.shutdown(socket.SHUT_WR)
        return received(link)


def received(link: socket.socket, at_once: int = 65536, pause: float = 0) -> bytes:
    """What comes of a connection until it is closed, or broken off where the other end had bytes that it didn't read;
    with a pause after each piece."""
    parts = []
    with contextlib.suppress(ConnectionError):
        while part := link.recv(at_once):
            parts.append(part)
            time.sleep(pause)
    return b"".join(parts)


def request(line: str) -> bytes:
    """The request of a server for what becomes of a line."""
    return f"GET /top?q={urllib.parse.quote(line, safe='')} HTTP/1.1\r\nHost: h\r\n\r\n".encode()


def whole(text: bytes) -> bytes:
    """The reply of a server with this text."""
    return replied("200 OK", "text/plain", text.decode())


# What goes before the program.

def built(place: Place, name: str) -> str:
    """The path of what goes before the program, as this file of C beside the tests has it."""
    path = os.path.join(place, f"{name}.so")
    source = REPOSITORY / "tests" / f"{name}.c"
    done = peer([path_of("cc", "gcc", "clang"), "-shared", "-fPIC", "-O2", "-o", path, source, "-ldl"])
    if done.returncode != 0:
        raise AssertionError(f"{source.name} isn't built: {done.stderr[-SHOWN:]!r}")
    return path


def numbers_in(text: bytes, word: str) -> list[list[int]]:
    """The numbers of each line of a text that begins with a word."""
    lines = re.findall(rb"^" + word.encode() + rb" (.*)$", text, re.MULTILINE)
    return [[int(it) for it in line.split()] for line in lines]
