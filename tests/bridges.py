"""Tests of the bridges in examples/bridges: list nodes over tables of SQLite and PostgreSQL, and over sorted sets of
Redis, as processes on free ports of 127.0.0.1.

Each test of tables runs for both databases. That of PostgreSQL is a cluster of its own in a temporary folder, behind a
socket there, which runs as another user where this process is root; it is stopped when this process ends.
"""
from __future__ import annotations

import atexit
import concurrent.futures
import contextlib
import functools
import itertools
import json
import math
import os
import pathlib
import pwd
import re
import shutil
import socket
import sqlite3
import subprocess
import sys
import tempfile
import threading
import time
from collections.abc import Callable, Iterable, Iterator
from typing import Any, Protocol

from machine import SECONDS, Skipped, free_port, needs, no_memory, no_room, over_network, path_of, peer
from support import answer, received, refusal

EXAMPLES = pathlib.Path(__file__).resolve().parent.parent / "examples"
BRIDGES = EXAMPLES / "bridges"
# A name of which each character but the first would do harm where it isn't quoted.
TABLE = "l `x` \"y\" 'z' %s :a ?; drop table l --"
WORDS = ("--table", TABLE, "--object", "the object", "--grade", "A", "--grade", "B=%(second) \"grade\"", "--version",
         "0")
ROWS = [(0, 0, 1_000_000), (1, 900, 500), (2, 800, 700), (3, 100, 600), (4_294_967_295, 800, 700)]
ANSWERS = {
    "/lists/A/size": '{"count":5}',
    "/lists/B/size?from=x": '{"count":5}',
    "/lists/A/page?from=0&count=10000": '{"rows":[[1,900],[2,800],[4294967295,800],[3,100],[0,0]]}',
    "/lists/A/page?from=1&count=2": '{"rows":[[2,800],[4294967295,800]]}',
    "/lists/A/page?from=2&count=1": '{"rows":[[4294967295,800]]}',
    "/lists/B/page?count=3&from=0": '{"rows":[[0,1000000],[2,700],[4294967295,700]]}',
    "/lists/A/page?from=4&count=2": '{"rows":[[0,0]]}',
    "/lists/A/page?from=5&count=1": '{"rows":[]}',
    "/lists/A/page?from=4294967295&count=10000": '{"rows":[]}',
    "/lists/A/page?from=3&count=1&from=0&count=0&order=x": '{"rows":[[3,100]]}',
    "/lists/A/page?f%72om=%33&&count=1": '{"rows":[[3,100]]}',
    "/lists/A/grade?object=2": '{"grade":800}',
    "/lists/A/grade?object=0": '{"grade":0}',
    "/lists/B/grade?object=4294967295": '{"grade":700}',
    "/lists/B/grade?object=4": '{"grade":null}',
    "http://elsewhere:81/lists/A/grade?object=3": '{"grade":100}',
    "HTTP://elsewhere/lists/B/size": '{"count":5}',
}
NO_ROUTES = ("/", "/?", "/lists/A", "/lists/A/", "/lists/A/size/", "//lists/A/size", "/lists/C/size", "/lists/a/size",
             "/lists/A/rows",
             "/lists/%41/size", "/lists/C/page?from=x", "/lists/C/grade", "http://elsewhere", "http://elsewhere?q")
BAD_TARGETS = (
    "lists/A/size", "*", "http://", "http:///lists/A/size", "http://?q", "ftp://elsewhere/lists/A/size",
    "/lists/A/page", "/lists/A/page?from=0", "/lists/A/page?count=1", "/lists/A/page?from=&count=1",
               "/lists/A/page?from=-1&count=1",
    "/lists/A/page?from=+1&count=1", "/lists/A/page?from=01&count=1", "/lists/A/page?from=1.0&count=1",
               "/lists/A/page?from=4294967296&count=1",
    "/lists/A/page?from=0&count=0", "/lists/A/page?from=0&count=10001", "/lists/A/page?from=0&count=1%20or%201",
               "/lists/A/page?From=0&count=1",
    "/lists/A/page?from=%D9%A3&count=1", "/lists/A/page?from=x&from=0&count=1", "/lists/A/grade",
               "/lists/A/grade?object=",
    "/lists/A/grade?object=4294967296", "/lists/A/grade?object=1%3Bdrop+table+l", f"/lists/A/grade?object={'9' * 5000}",
)
HOST = b"Host: 127.0.0.1\r\n"
HEADS = {
    b"POST /lists/A/size HTTP/1.1\r\n" + HOST + b"Content-Length: 3\r\n\r\nx=1": (405, "Method Not Allowed"),
    b"DELETE /nothing HTTP/1.0\r\n\r\n": (405, "Method Not Allowed"),
    b"get /lists/A/size HTTP/1.1\r\n" + HOST + b"\r\n": (405, "Method Not Allowed"),
    b"GET /lists/A/size HTTP/1.1\r\n\r\n": (400, "Bad Request"),
    b"POST /lists/A/size HTTP/1.1\r\n\r\n": (400, "Bad Request"),
    b"GET /lists/A/size HTTP/1.1\r\n" + HOST + HOST + b"\r\n": (400, "Bad Request"),
    b"GET /lists/A/size HTTP/1.0\r\n" + HOST + HOST + b"\r\n": (400, "Bad Request"),
    b"GET /lists/A/size HTTP/1.1\r\nHost: a/b\r\n\r\n": (400, "Bad Request"),
    b"GET /lists/A/size HTTP/2.0\r\n" + HOST + b"\r\n": (400, "Bad Request"),
    b"GET /lists/A/size HTTP/1.9\r\n" + HOST + b"\r\n": (400, "Bad Request"),
    b"GET /lists/A/size\r\n\r\n": (400, "Bad Request"),
    b"hello\r\n\r\n": (400, "Bad Request"),
    b"GET /lists/A/size HTTP/1.1\r\n" + HOST + b"a: b\r\n" * 200 + b"\r\n": (431, "Request Header Fields Too Large"),
    b"GET /" + b"a" * 70_000 + b" HTTP/1.1\r\n" + HOST + b"\r\n": (431, "Request Header Fields Too Large"),
}


class Base(Protocol):
    """A database for one test."""

    name: str
    words: tuple[str, ...]

    def do(self, script: str) -> None:
        """Runs statements, each of them a transaction but where the script says otherwise."""

    def fill(self, table: str, rows: Iterable[tuple[int, ...]]) -> None:
        """Adds rows to a table."""

    def forget(self) -> None:
        """Ends all connections, where there are any."""

    def indexes(self) -> list[str]:
        """The names of the indexes, but those that the database makes of its own."""


class Sqlite:
    """A file."""

    name = "sqlite"

    def __init__(self, place: str) -> None:
        self.path = os.path.join(place, "a b%20?#.db")
        self.words = (sys.executable, str(BRIDGES / "sqlite.py"), self.path)
        with contextlib.closing(sqlite3.connect(self.path, timeout=SECONDS)) as connection:
            if connection.execute("pragma journal_mode = wal").fetchone() != ("wal",):
                raise AssertionError(f"SQLite {sqlite3.sqlite_version} keeps no log beside a file here")

    def do(self, script: str) -> None:
        with contextlib.closing(sqlite3.connect(self.path, timeout=SECONDS)) as connection:
            connection.executescript(script)

    def fill(self, table: str, rows: Iterable[tuple[int, ...]]) -> None:
        given = list(rows)
        with contextlib.closing(sqlite3.connect(self.path)) as connection, connection:
            connection.executemany(f"insert into {quoted(table)} values ({','.join('?' * len(given[0]))})", given)

    def forget(self) -> None:
        pass

    def indexes(self) -> list[str]:
        with contextlib.closing(sqlite3.connect(self.path)) as connection:
            asked = "select name from sqlite_master where type = 'index' and sql is not null order by name"
            return [name for name, in connection.execute(asked)]


class Cluster:
    """A server of PostgreSQL in a temporary folder."""

    def __init__(self) -> None:
        self._programs = next((it.parent for it in programs("initdb")), None)
        if self._programs is None or shutil.which("psql") is None:
            raise Skipped("there is no initdb, or no psql")
        self.python = next(filter(has_psycopg2, dict.fromkeys((sys.executable, "/usr/bin/python3"))), None)
        if self.python is None:
            raise Skipped("there is no psycopg2")
        needs(no_room(400))
        self._folder = tempfile.TemporaryDirectory()
        self.place = self._folder.name
        self._as: dict[str, Any] = {}
        if os.geteuid() == 0:
            user = next((it for it in pwd.getpwall() if it.pw_name in ("postgres", "nobody")), None)
            if user is None:
                raise AssertionError("there is no user postgres, and no nobody")
            os.chown(self.place, user.pw_uid, user.pw_gid)
            self._as = {"user": user.pw_uid, "group": user.pw_gid, "extra_groups": []}
        atexit.register(self._stop)
        self._run("initdb", "-D", "data", "-U", "topk", "-A", "trust", "-E", "UTF8", "--locale=C", "--no-sync")
        self._run("pg_ctl", "-D", "data", "-l", "log", "-w", "-t", str(SECONDS), "-o",
                  f"-k {self.place} -c listen_addresses= -F", "start")
        self.bases = itertools.count(1)

    def _run(self, program: str, *words: str) -> None:
        done = self._ended(program, *words)
        if done.returncode != 0:
            raise AssertionError(f"{program} ended with {done.returncode}: {done.stderr[-300:]!r}")

    def _ended(self, program: str, *words: str) -> subprocess.CompletedProcess[bytes]:
        return peer([self._programs / program, *words], cwd=self.place, stdout=subprocess.DEVNULL, **self._as)

    def _stop(self) -> None:
        self._ended("pg_ctl", "-D", "data", "-m", "immediate", "stop")
        self._folder.cleanup()


class Postgres:
    """A database of the cluster."""

    name = "postgres"

    def __init__(self, cluster: Cluster) -> None:
        self._reached = ("psql", "-X", "-q", "-v", "ON_ERROR_STOP=1", "-h", cluster.place, "-U", "topk")
        self._base = "postgres"
        name = f"base{next(cluster.bases)}"
        self.do(f"create database {name}")
        self._base = name
        self.words = (cluster.python, str(BRIDGES / "postgres.py"),
                      f"host={cluster.place} user=topk dbname={self._base}")

    def do(self, script: str) -> None:
        subprocess.run([*self._reached, self._base], input=script, text=True, stdout=subprocess.DEVNULL,
                       timeout=SECONDS, check=True)

    def fill(self, table: str, rows: Iterable[tuple[int, ...]]) -> None:
        text = "".join("\t".join(map(str, row)) + "\n" for row in rows)
        self.do(f"copy {quoted(table)} from stdin;\n{text}\\.\nvacuum analyze {quoted(table)};\n")

    def forget(self) -> None:
        others = "pg_stat_activity where backend_type = 'client backend' and pid <> pg_backend_pid()"
        self.do(f"select pg_terminate_backend(pid) from {others}; do $$ begin while exists (select from {others}) loop "
                "perform pg_sleep(0.01), pg_stat_clear_snapshot(); end loop; end $$;")

    def indexes(self) -> list[str]:
        asked = ("select indexname from pg_indexes where schemaname = 'public' and indexname not like '%pkey' "
                 "order by indexname collate \"C\"")
        words = [*self._reached, "-At", "-c", asked, self._base]
        return subprocess.run(words, capture_output=True, text=True, timeout=SECONDS, check=True).stdout.split()


def programs(name: str) -> Iterator[pathlib.Path]:
    """Where a program of PostgreSQL may be; Debian keeps them out of the path."""
    found = shutil.which(name)
    if found:
        yield pathlib.Path(found)
    yield from sorted(pathlib.Path("/usr/lib/postgresql").glob(f"*/bin/{name}"), reverse=True)


def has_psycopg2(python: str) -> bool:
    """Whether a Python is there and has psycopg2."""
    code = "import sys, psycopg2; sys.exit(sys.version_info < (3, 9))"
    return os.path.exists(python) and peer([python, "-c", code]).returncode == 0


def quoted(name: str) -> str:
    """A name of a table as both databases have it."""
    return '"' + name.replace('"', '""') + '"'


@contextlib.contextmanager
def sqlite() -> Iterator[Base]:
    """A file of its own."""
    needs(no_room(200))
    with tempfile.TemporaryDirectory() as place:
        yield Sqlite(place)


_CLUSTER = threading.Lock()


@functools.lru_cache(None)
def cluster() -> Cluster | Skipped:
    """The one cluster of all tests, or why there is none."""
    try:
        return Cluster()
    except Skipped as why:
        return why


@contextlib.contextmanager
def postgres() -> Iterator[Base]:
    """A database of its own. One test at a time has the cluster, since a test may end all connections there."""
    with _CLUSTER:
        found = cluster()
        if isinstance(found, Skipped):
            raise found
        yield Postgres(found)


@contextlib.contextmanager
def node(base: Base, *words: str) -> Iterator[int]:
    """A bridge that runs meanwhile, by its port."""
    with tempfile.TemporaryFile("w+") as noise:
        with subprocess.Popen([*base.words, *words, "--at", "0"], stdout=subprocess.PIPE, stderr=noise,
                              text=True) as process:
            late = threading.Timer(SECONDS, process.kill)
            late.start()
            try:
                line = process.stdout.readline()
                late.cancel()
                found = re.fullmatch(r"http://127\.0\.0\.1:([0-9]+)/lists/[A-Za-z]+\n", line)
                if found is None:
                    process.kill()
                    noise.seek(0)
                    raise AssertionError(f"printed {line!r} in place of its address: {noise.read()[-500:]}")
                yield int(found[1])
            finally:
                late.cancel()
                process.kill()


def said(port: int, request: bytes) -> bytes:
    """The whole reply to a request."""
    with socket.create_connection(("127.0.0.1", port), timeout=SECONDS) as link:
        with contextlib.suppress(ConnectionError):  # A node needn't read a request to its end.
            link.sendall(request)
        return received(link)


def got(port: int, target: str) -> bytes:
    """The whole reply to GET."""
    return said(port, b"GET " + target.encode() + b" HTTP/1.1\r\n" + HOST + b"Connection: close\r\n\r\n")


def body(port: int, target: str) -> Any:
    """What an answer says, or the line of its status."""
    head, _, text = got(port, target).partition(b"\r\n\r\n")
    return json.loads(text) if head.startswith(b"HTTP/1.1 200 OK\r\n") else head.split(b"\r\n")[0].decode()


def first_difference(rows: Iterable[tuple[str, Any, Any]]) -> str | None:
    """What is wrong with the first row whose values differ, or None."""
    for what, found, wanted in rows:
        if found != wanted:
            return f"{what}: {str(found)[:300]} in place of {str(wanted)[:300]}"
    return None


def make_small(base: Base) -> None:
    """The table of ROWS under names that have to be quoted."""
    columns = 'bigint primary key, "A" integer not null, "%(second) ""grade""" integer not null'
    base.do(f'create table {quoted(TABLE)} ("the object" {columns});')
    base.fill(TABLE, ROWS)


def requests(base: Base) -> str | None:
    """Each route, to the byte; so are answers over HTTP/1.0, and the reply to HEAD, which has neither a body nor its
    length."""
    make_small(base)
    with node(base, *WORDS) as port:
        rows = [(target, got(port, target), answer(text)) for target, text in ANSWERS.items()]
        rows.append(("HTTP/1.0", said(port, b"GET /lists/A/size HTTP/1.0\r\n\r\n"), answer('{"count":5}')))
        rows.append(("HEAD", said(port, b"HEAD /lists/A/size HTTP/1.1\r\n" + HOST + b"\r\n"),
                     b"HTTP/1.1 405 Method Not Allowed\r\nContent-Type: text/plain\r\n"
                      b"Allow: GET\r\nConnection: close\r\n\r\n"))
    return first_difference(rows)


def refusals(base: Base) -> str | None:
    """Each request that has no answer, to the byte, and afterwards the table is as it was."""
    make_small(base)
    with node(base, *WORDS) as port:
        rows = [(target, got(port, target), refusal(404, "Not Found")) for target in NO_ROUTES]
        rows += [(target[:60], got(port, target), refusal(400, "Bad Request")) for target in BAD_TARGETS]
        rows += [(str(head[:60]), said(port, head), refusal(*reply)) for head, reply in HEADS.items()]
        rows.append(("afterwards", got(port, "/lists/A/size"), answer('{"count":5}')))
    return first_difference(rows)


def starts(base: Base) -> str | None:
    """A bridge that couldn't answer doesn't start, and says why."""
    base.do("create table t (object bigint, good integer, great integer, part real, none integer);")
    base.do("insert into t values (1, 5, 1000001, 4.5, null); create table other (object bigint, grade integer); "
            "insert into other values (-1, 5);")
    table = ("--table", "t", "--grade")
    cases = [(1, "good", ("--table", "nothing", "--grade", "good")), (1, "nothing", (*table, "nothing")),
             (1, "great", (*table, "great")),
             (1, "part", (*table, "part")), (1, "gradeless", (*table, "gradeless=none")),
             (1, "grade", ("--table", "other", "--grade", "grade")),
             (1, "good", (*table, "good", "--version-query", "select 'x'")), (2, "usage", (*table, "1st")),
             (2, "usage", (*table, "good", "--version", "-1")),
             (2, "usage", (*table, "good", "--version", "1", "--version-query", "select 1")),
             (2, "usage", ("--table", "t")),
             (2, "usage", (*table, "a=good", "--grade", "a=good")),
             (2, "usage", (*table, "good", "--grade", "other", "--grade", "good=other"))]
    with socket.create_server(("127.0.0.1", 0)) as taken:
        port = taken.getsockname()[1]
        cases.append((1, f"port {port}", (*table, "good", "--at", str(port))))
        for status, word, words in cases:
            at = () if "--at" in words else ("--at", "0")
            done = subprocess.run([*base.words, *words, *at], capture_output=True, text=True, timeout=SECONDS,
                                  check=False)
            if done.returncode != status or not done.stderr.startswith(word) or done.stdout:
                return f"{words}: ended with {done.returncode} and wrote {done.stdout!r}, {done.stderr[-300:]!r}"
    return None


def faults(base: Base) -> str | None:
    """What the database can't answer is a 500, and what it can again afterwards is answered; so is what it can on a new
    connection."""
    base.do("create table t (object bigint, grade integer); insert into t values (1, 5);")
    page, size, grade = "/lists/grade/page?from=0&count=9", "/lists/grade/size", "/lists/grade/grade?object=1"
    wrong, rows = refusal(500, "Internal Server Error"), []
    with node(base, "--table", "t", "--grade", "grade", "--version", "0") as port:
        rows.append(("at first", got(port, page), answer('{"rows":[[1,5]]}')))
        base.do("alter table t rename to away;")
        rows += [(f"without the table, {it}", got(port, it), wrong) for it in (size, page, grade)]
        base.do("alter table away rename to t;")
        rows.append(("with the table", got(port, page), answer('{"rows":[[1,5]]}')))
        base.do("update t set grade = null;")
        rows += [(f"without a grade, {it}", got(port, it), wrong) for it in (size, page, grade)]
        base.do("update t set grade = 7;")
        base.forget()
        rows += [(f"on a new connection, {it}", got(port, it), answer(text)) for it,
                 text in ((grade, '{"grade":7}'), (size, '{"count":1}'))]
    return first_difference(rows)


def versions(base: Base) -> str | None:
    """A version that is given, one that a statement gives, and no version: then whoever asks for the size sees the
    table that is there."""
    base.do("create table t (object bigint primary key, grade integer not null); "
            "create table versions (number bigint); insert into versions values (7);")
    base.fill("t", ((it, 1000 - it) for it in range(1000)))
    change = ("begin; insert into t select object + 1000, grade + 1000 from t where object < 5; "
              "update versions set number = 8; commit;")
    table, asked = ("--table", "t", "--grade", "grade"), "/lists/grade/page?from=600&count=1"
    with node(base, *table, "--version", "0") as plain, node(base, *table, "--version-query",
                                                             "select number from versions") as told, \
            node(base, *table, "--version", "9223372036854775807") as stated:
        rows = [
            ("size, version stated", got(stated, "/lists/grade/size"),
             answer('{"count":1000,"version":9223372036854775807}')),
            ("size", got(told, "/lists/grade/size"), answer('{"count":1000,"version":7}')),
            ("page", got(told, asked), answer('{"rows":[[600,400]],"version":7}')),
            ("page, no version", got(plain, asked), answer('{"rows":[[600,400]]}')),
            ("no grade", got(told, "/lists/grade/grade?object=1000"), answer('{"grade":null,"version":7}')),
        ]
        base.do(change)
        rows += [
            ("page of the changed table", got(told, asked), answer('{"rows":[[595,405]],"version":8}')),
            ("grade of the changed table", got(told, "/lists/grade/grade?object=1000"),
             answer('{"grade":2000,"version":8}')),
            ("size of the changed table", got(told, "/lists/grade/size"), answer('{"count":1005,"version":8}')),
            ("size, no version", got(plain, "/lists/grade/size"), answer('{"count":1005}')),
            ("page behind it, no version", got(plain, asked), answer('{"rows":[[595,405]]}')),
        ]
        base.do("update versions set number = -1;")
        rows.append(("version that is none", got(told, asked), refusal(500, "Internal Server Error")))
    return first_difference(rows)


def changes(base: Base) -> str | None:
    """While the table changes over and over, each reply has the rows of the version that it states: n grades of n at
    version n."""
    base.do("create table t (object bigint primary key, grade integer not null); "
            "create table versions (number bigint);")
    base.do("insert into versions values (1); insert into t values (1, 1), (2, 1);")
    step = "begin; update versions set number = number + 1; update t set grade = grade + 1; commit;\n"
    seen, reads, ended, late = set(), 0, threading.Event(), time.monotonic() + SECONDS / 2

    def change() -> None:
        while not ended.is_set():
            base.do(step * 50)

    with node(base, "--table", "t", "--grade", "grade", "--version-query", "select number from versions") as port:
        with concurrent.futures.ThreadPoolExecutor(1) as pool:
            changing = pool.submit(change)
            try:
                while (reads < 150 or len(seen) < 5) and time.monotonic() < late:
                    found = body(port, "/lists/grade/page?from=0&count=2")
                    version = found["rows"][0][1] if isinstance(found, dict) and found["rows"] else None
                    if found != {"rows": [[1, version], [2, version]], "version": version}:
                        return f"read {found}"
                    seen.add(version)
                    reads += 1
            finally:
                ended.set()
            changing.result(SECONDS)
    return None if len(seen) >= 5 else f"saw {len(seen)} versions"


def great_list(base: Base) -> str | None:
    """200,000 rows: a page at the end has its rows and comes as fast as one at the front, with grades that differ and
    with equal ones."""
    needs(no_memory(500))
    count = 200_000
    grades = [it * 7919 % 1_000_001 for it in range(count)]
    base.do("create table t (object bigint primary key, many integer not null, one integer not null);")
    base.fill("t", ((it, grade, 5) for it, grade in enumerate(grades)))
    base.do("create index t_many on t (many desc, object); create index t_one on t (one desc, object);")
    wanted = {"many": sorted(([it, grade] for it, grade in enumerate(grades)), key=lambda row: (-row[1], row[0])),
              "one": [[it, 5] for it in range(count)]}
    with node(base, "--table", "t", "--grade", "many", "--grade", "one", "--version", "0") as port:
        for name, rows in wanted.items():
            asked = functools.partial("/lists/{}/page?from={}&count={}".format, name)
            places = [(199_900, 200), (0, 100), (255, 3), (256, 1), (511, 1000), (99_999, 10_000), (190_000, 10_000),
                      (count, 1)]
            wrong = first_difference((asked(*it), body(port, asked(*it)), {"rows": rows[it[0]:it[0] + it[1]]})
                                     for it in places)
            if wrong is not None:
                return wrong
            if not as_quick(port, asked(199_990, 10), asked(0, 10)):
                return f"a page of {name} takes more than three times as long at the end as at the front"
    return None


def as_quick(port: int, one: str, other: str) -> bool:
    """Whether the least time of a reply to one target is at most three times that of the other, over as many rounds as
    show it, for a minute at most."""
    least, late = {one: math.inf, other: math.inf}, time.monotonic() + 60
    while time.monotonic() < late:
        for target in least:
            began = time.perf_counter()
            got(port, target)
            least[target] = min(least[target], time.perf_counter() - began)
        if least[one] <= 3 * least[other]:
            return True
    return False


def clients(base: Base) -> str | None:
    """Eight clients at once, while one says nothing, one says a part, and one leaves: each gets its own answers."""
    base.do("create table t (object bigint primary key, grade integer not null);")
    base.fill("t", ((it, 5000 - it) for it in range(5000)))

    def client(number: int, port: int) -> str | None:
        for it in range(number, 5000, 157):
            wrong = first_difference([(f"page {it}", body(port, f"/lists/grade/page?from={it}&count=1"),
                                       {"rows": [[it, 5000 - it]]}),
                                      (f"grade {it}", body(port, f"/lists/grade/grade?object={it}"),
                                       {"grade": 5000 - it})])
            if wrong is not None:
                return wrong
        return None

    words = ("--table", "t", "--grade", "grade", "--version", "0")
    with node(base, *words) as port, contextlib.ExitStack() as links, concurrent.futures.ThreadPoolExecutor(8) as pool:
        for part in (b"", b"GET /lists/grade/si"):
            links.enter_context(socket.create_connection(("127.0.0.1", port), timeout=SECONDS)).sendall(part)
        with socket.create_connection(("127.0.0.1", port), timeout=SECONDS) as left:
            left.sendall(b"GET /lists/grade/page?from=0&count=5000 HTTP/1.0\r\n\r\n")
        return next(filter(None, pool.map(client, range(8), [port] * 8)), None)


def hotels(base: Base) -> str | None:
    """The table of examples/bridges has the hotels' lists row by row, at the places of examples/catalog_http.csv."""
    base.do((BRIDGES / "hotels.sql").read_text(encoding="utf-8"))
    files = EXAMPLES.parent / "crates" / "topk" / "data" / "hotels"
    names = re.findall(r"^(\w+),http://127\.0\.0\.1:8001/lists/\1,(?:yes|no)$",
                       (EXAMPLES / "catalog_http.csv").read_text(encoding="utf-8"), re.M)
    if len(names) != 4:
        return f"the catalog names {names}"
    with node(base, "--table", "hotels", "--object", "id", *[word for name in names for word in ("--grade", name)],
              "--version", "0") as port:
        rows = []
        for name in names:
            lines = (files / f"{name}.csv").read_text(encoding="utf-8").split()[1:]
            rows.append((name, body(port, f"/lists/{name}/page?from=0&count=100"),
                         {"rows": [[int(it) for it in line.split(",")] for line in lines]}))
    return first_difference(rows)


def kinds(base: Base) -> str | None:
    """A column that isn't of whole numbers is refused at the start, with its row, its kind and the way out."""
    base.do("create table t (object bigint, good integer, part real, word text); "
            "insert into t values (7, 5, 4.5, 'x');")
    base.do("create table named (object text, grade integer); insert into named values ('adler', 5);")
    base.do("create table high (object bigint, grade integer); insert into high values (1, 5), (2, 1000001), (3, 6);")
    cases = [("t", "part", "the row of the object 7 has 4.5 in the column part, which is real", "round(part"),
             ("t", "word", "the row of the object 7 has 'x' in the column word, which is text", "whole grades"),
             ("named", "grade", "the row of the object 'adler' has 'adler' in the column object, which is text",
              "--object"),
             ("high", "grade", "the row of the object 2 has 1000001 in the column grade", "from 0 to 1000000")]
    for table, column, said, cure in cases:
        words = [*base.words, "--table", table, "--grade", column, "--at", "0"]
        done = subprocess.run(words, capture_output=True, text=True, timeout=SECONDS, check=False)
        told = done.stderr.startswith(f"{column}: {said}") and cure in done.stderr
        if done.returncode != 1 or done.stdout or not told:
            return f"{table}.{column}: ended with {done.returncode} and wrote {done.stdout!r}, {done.stderr[-400:]!r}"
    return None


def makes_indexes(base: Base) -> str | None:
    """`--make-index` makes the index of each column of grades, and that of the objects where they are no key; a second
    start finds them."""
    base.do("create table t (object bigint, one integer, two integer); insert into t values (1, 5, 6), (2, 4, 7); "
            "create table keyed (object bigint primary key, one integer); insert into keyed values (1, 5); "
            "create table twice (object bigint, one integer);")
    base.do("insert into twice values (1, 5), (1, 4);")
    for _ in range(2):
        with node(base, "--table", "t", "--grade", "one", "--grade", "two", "--make-index", "--version", "0") as port:
            found = body(port, "/lists/two/page?from=0&count=2")
    with node(base, "--table", "keyed", "--grade", "one", "--make-index"):
        pass
    words = [*base.words, "--table", "twice", "--grade", "one", "--make-index", "--at", "0"]
    twice = subprocess.run(words, capture_output=True, text=True, timeout=SECONDS, check=False)
    return first_difference([("a page", found, {"rows": [[2, 7], [1, 6]]}),
                             ("an object twice", (twice.returncode, twice.stderr[:5]), (1, "one: ")),
                             ("the indexes", base.indexes(),
                              ["keyed_by_one", "t_by_object", "t_by_one", "t_by_two", "twice_by_one"])])


def own_versions(base: Base) -> str | None:
    """Where no version is named, the database's own is stated: one while nothing changes, a greater one behind a change
    and a new start."""
    base.do("create table t (object bigint primary key, grade integer not null); insert into t values (1, 5), (2, 4);")
    words, targets = ("--table", "t", "--grade", "grade"), ("size", "page?from=0&count=2", "grade?object=1")
    with node(base, *words) as port:
        still = {body(port, f"/lists/grade/{it}")["version"] for it in targets * 3}
        base.do("update t set grade = 6 where object = 2;")
        page = body(port, "/lists/grade/page?from=0&count=2")
    with node(base, *words) as port:
        later = body(port, "/lists/grade/size")["version"]
    return first_difference([("versions while nothing changes", len(still), 1),
                             ("a page behind a change", page["rows"], [[2, 6], [1, 5]]),
                             ("versions that rise", 0 < max(still) < page["version"] < later < 2**63, True)])


def own_changes(base: Base) -> str | None:
    """While the table changes over and over, replies of several clients that state one version have the same rows."""
    base.do("create table t (object bigint primary key, grade integer not null); insert into t values (1, 1), (2, 1);")
    ended, seen = threading.Event(), {}

    def change() -> None:
        while not ended.is_set():
            base.do("update t set grade = grade + 1;\n" * 3)
            time.sleep(0.02)

    def read(port: int) -> str | None:
        for _ in range(60):
            found = body(port, "/lists/grade/page?from=0&count=2")
            if not isinstance(found, dict) or seen.setdefault(found["version"], found["rows"]) != found["rows"]:
                return f"read {found}"
        return None

    with node(base, "--table", "t", "--grade", "grade") as port, concurrent.futures.ThreadPoolExecutor(5) as pool:
        changing = pool.submit(change)
        try:
            wrong = next(filter(None, pool.map(read, [port] * 4)), None)
        finally:
            ended.set()
        changing.result(SECONDS)
    return wrong or (None if len({str(it) for it in seen.values()}) > 2 else f"saw {len(seen)} versions")


# Run where sqlite.py stands: a change just before the first read of a transaction that was begun already.
WATCHED = """
import sqlite3, sys
import sqlite
place = sys.argv[1]
other = sqlite3.connect(place, isolation_level=None)
other.executescript("pragma journal_mode = wal; create table t (n); insert into t values (1);")
watch = sqlite.Watch(f"file:{place}?mode=ro")


class Late:
    def execute(self, statement):
        other.execute("update t set n = n + 1")
        return reader.execute(statement)


def seen(through):
    reader.execute("begin")
    state = watch(through)
    reader.execute("rollback")
    return state


reader = sqlite3.connect(place, isolation_level=None)
before, same, late = seen(reader.cursor()), seen(reader.cursor()), seen(Late())
print(before == same, late in (before, seen(reader.cursor())), seen(reader.cursor()) == before)
"""


def sqlite_watch(_: str) -> str | None:
    """A change between the begin of a transaction and its first read leaves no state that another one has too."""
    needs(no_room(200))
    with tempfile.TemporaryDirectory() as place:
        words = [sys.executable, "-c", WATCHED, os.path.join(place, "t.db")]
        done = subprocess.run(words, cwd=BRIDGES, capture_output=True, text=True, timeout=SECONDS, check=False)
    return first_difference([("what is seen", done.stdout + done.stderr[-500:], "True False False\n")])


class Redis:
    """A server of Redis, on a port of its own."""

    name = "redis"

    def __init__(self, port: int, python: str) -> None:
        self._cli = (path_of("redis-cli"), "-p", str(port))
        self.words = (python, str(BRIDGES / "redis.py"), f"redis://127.0.0.1:{port}/0")

    def do(self, commands: str) -> None:
        """Sends commands, a line each."""
        done = subprocess.run(self._cli, input=commands, capture_output=True, text=True, timeout=SECONDS, check=True)
        if "ERR" in done.stdout or "WRONGTYPE" in done.stdout:
            raise AssertionError(done.stdout[-300:])

    def fill(self, key: str, rows: Iterable[tuple[int, int]]) -> None:
        """Adds rows to a sorted set."""
        parts = [f"{grade} {item}" for item, grade in rows]
        self.do("".join(f"ZADD {key} {' '.join(parts[at:at + 500])}\n" for at in range(0, len(parts), 500)))


def has_redis(python: str) -> bool:
    """Whether a Python is there and has the client library."""
    code = "import sys, redis; sys.exit(sys.version_info < (3, 9))"
    return os.path.exists(python) and peer([python, "-c", code]).returncode == 0


@contextlib.contextmanager
def redis() -> Iterator[Redis]:
    """A server with nothing in it, which is ended afterwards."""
    python = next(filter(has_redis, dict.fromkeys((sys.executable, "/usr/bin/python3"))), None)
    if python is None:
        raise Skipped("there is no client library for Redis")
    words = [path_of("redis-server"), "--bind", "127.0.0.1", "--save", "", "--appendonly", "no", "--port"]
    with free_port() as port, tempfile.TemporaryDirectory() as place:
        with subprocess.Popen([*words, str(port), "--dir", place], stdout=subprocess.DEVNULL,
                              stderr=subprocess.DEVNULL) as process:
            try:
                late = time.monotonic() + SECONDS
                while not is_up(port):
                    if process.poll() is not None or time.monotonic() > late:
                        raise AssertionError(f"redis-server doesn't listen, but ended with {process.poll()}")
                    time.sleep(0.02)
                yield Redis(port, python)
            finally:
                process.kill()


def is_up(port: int) -> bool:
    """Whether something listens at a port."""
    with contextlib.suppress(ConnectionRefusedError), socket.create_connection(("127.0.0.1", port), SECONDS):
        return True
    return False


def redis_requests(base: Redis) -> str | None:
    """Each route, to the byte. Of equal grades the member that is last by its bytes stands first."""
    base.fill("of:A", ((item, grade) for item, grade, _ in ROWS))
    base.fill("of:B", ((item, grade) for item, _, grade in ROWS))
    with node(base, "--grade", "A=of:A", "--grade", "B=of:B") as port:
        swapped = {"/lists/A/page?from=0&count=10000": '{"rows":[[1,900],[4294967295,800],[2,800],[3,100],[0,0]]}',
                   "/lists/A/page?from=1&count=2": '{"rows":[[4294967295,800],[2,800]]}',
                   "/lists/A/page?from=2&count=1": '{"rows":[[2,800]]}',
                   "/lists/B/page?count=3&from=0": '{"rows":[[0,1000000],[4294967295,700],[2,700]]}'}
        rows = [(target, got(port, target), answer(text)) for target, text in {**ANSWERS, **swapped}.items()]
        rows += [(target, got(port, target), refusal(404, "Not Found")) for target in NO_ROUTES]
        rows += [(target[:60], got(port, target), refusal(400, "Bad Request")) for target in BAD_TARGETS]
        rows += [(str(head[:60]), said(port, head), refusal(*reply)) for head, reply in HEADS.items()]
        base.do("ZADD of:A 4.5 9\n")
        rows += [(it, got(port, it), refusal(500, "Internal Server Error"))
                 for it in ("/lists/A/page?from=0&count=9", "/lists/A/grade?object=9")]
        rows.append(("what is whole", got(port, "/lists/A/grade?object=1"), answer('{"grade":900}')))
    return first_difference(rows)


def redis_starts(base: Redis) -> str | None:
    """What is no list is refused at the start, with its row and the way out."""
    base.do("ZADD part 5 1 4.5 2\nZADD high 1000001 7\nZADD word 5 adler\n"
            "ZADD zeros 5 007\nZADD good 5 1\nSET text x\n")
    cases = [("part", "row 1 of part, the member '2' with the score 4.5: each score has to be a whole number"),
             ("high", "row 0 of high, the member '7' with the score 1000001.0: each score"),
             ("word", "row 0 of word, the member 'adler' with the score 5.0: each member has to be a whole number"),
             ("zeros", "row 0 of zeros"),
             ("nothing", "there is no sorted set 'nothing'"), ("text", "WRONGTYPE")]
    for key, wanted in cases:
        done = subprocess.run([*base.words, "--grade", key, "--at", "0"], capture_output=True, text=True,
                              timeout=SECONDS, check=False)
        told = wanted in done.stderr and done.stderr.startswith(f"{key}: ") and "Traceback" not in done.stderr
        if done.returncode != 1 or done.stdout or not told:
            return f"{key}: ended with {done.returncode} and wrote {done.stdout!r}, {done.stderr[-400:]!r}"
    nowhere = [*base.words[:2], "redis://127.0.0.1:1/0", "--grade", "good", "--at", "0"]
    done = subprocess.run(nowhere, capture_output=True, text=True, timeout=SECONDS, check=False)
    return first_difference([("without a server", (done.returncode, done.stderr[:6], "Traceback" in done.stderr),
                              (1, "good: ", False))])


def redis_versions(base: Redis) -> str | None:
    """A version that is named, and one that a key has, which is read with the rows."""
    base.do("ZADD A 5 1\nSET version 7\n")
    with node(base, "--grade", "A", "--version", "3") as stated, node(base, "--grade", "A", "--version-key",
                                                                      "version") as told:
        rows = [("stated", got(stated, "/lists/A/size"), answer('{"count":1,"version":3}')),
                ("told", got(told, "/lists/A/page?from=0&count=1"), answer('{"rows":[[1,5]],"version":7}'))]
        base.do("MULTI\nZADD A 6 1\nINCR version\nEXEC\n")
        rows.append(("changed", got(told, "/lists/A/grade?object=1"), answer('{"grade":6,"version":8}')))
        base.do("DEL version\n")
        rows.append(("without the key", got(told, "/lists/A/size"), refusal(500, "Internal Server Error")))
    return first_difference(rows)


def redis_great_list(base: Redis) -> str | None:
    """100,000 members: a page at the end has its rows and comes as fast as one at the front; eight clients at once get
    their own."""
    count = 100_000
    base.fill("A", ((it, it * 7919 % 1_000_001) for it in range(count)))
    wanted = sorted(([it, it * 7919 % 1_000_001] for it in range(count)), key=lambda row: -row[1])
    asked = "/lists/A/page?from={}&count={}".format
    with node(base, "--grade", "A") as port, concurrent.futures.ThreadPoolExecutor(8) as pool:
        places = [(0, 100), (511, 1000), (count - 10_000, 10_000), (count - 1, 5), (count, 1)] * 4
        for it, found in zip(places, pool.map(lambda it: body(port, asked(*it)), places)):
            if found != {"rows": wanted[it[0]:it[0] + it[1]]}:
                return f"{it}: {str(found)[:300]}"
        quick = as_quick(port, asked(count - 10, 10), asked(0, 10))
    return None if quick else "a page takes more than three times as long at the end as at the front"


def redis_hotels(base: Redis, program: str) -> str | None:
    """Over the sorted sets of the hotels `run` has the scores that it has over their files."""
    files, names = EXAMPLES.parent / "crates" / "topk" / "data", ("price", "rating", "centre")
    for name in names:
        lines = (files / "hotels" / f"{name}.csv").read_text(encoding="utf-8").split()[1:]
        base.fill(f"hotels:{name}", (tuple(map(int, line.split(","))) for line in lines))
    query = b"top 3 by sum(price,rating,centre) using ta\n"

    def scores(place: str) -> list[bytes]:
        done = subprocess.run([program, "run", "catalog.csv"], input=query, stdout=subprocess.PIPE, cwd=place,
                              timeout=SECONDS, check=True)
        return [line for line in done.stdout.split(b"\n") if line.startswith((b"answer", b"count", b"refused"))]

    with node(base,
              *[word for name in names
                for word in ("--grade", f"{name}=hotels:{name}")]) as port, tempfile.TemporaryDirectory() as place:
        lines = "".join(f"{name},http://127.0.0.1:{port}/lists/{name},yes\n" for name in names)
        pathlib.Path(place, "catalog.csv").write_text(f"name,place,random\n{lines}", encoding="utf-8")
        return first_difference([("the answer", scores(place), scores(str(files)))])


def tests() -> Iterator[tuple[str, Callable[[str], str | None]]]:
    """Each test with its name, for each database."""
    def over(opened: Callable[[], Any], test: Callable[..., str | None], *more: str) -> str | None:
        with opened() as base:
            return test(base, *more)
    for opened in (sqlite, postgres):
        for test in (requests, refusals, starts, kinds, makes_indexes, faults, versions, changes, own_versions,
                     own_changes, great_list, clients, hotels):
            yield f"bridge_{opened.__name__}_{test.__name__}", over_network(lambda _, opened=opened,
                                                                            test=test: over(opened, test))
    for test in (redis_requests, redis_starts, redis_versions, redis_great_list):
        yield f"bridge_{test.__name__}", over_network(lambda _, test=test: over(redis, test))
    yield "bridge_sqlite_watch", sqlite_watch
    yield "bridge_redis_hotels", over_network(lambda program: over(redis, redis_hotels, program))
