"""What the bridges share: their words, the routes of a list node, and its replies."""
from __future__ import annotations

import argparse
import contextlib
import http
import http.server
import json
import re
import sys
import urllib.parse
from collections.abc import Callable, Mapping
from typing import Any, Protocol

from ranked_table import MAX_NUMBER, MAX_VERSION, Database, Pool, RankedTable, States

MAX_ROWS = 10_000
MAX_PORT = 65_535
SECONDS = 30

LIST_NAME = re.compile(r"[A-Za-z][A-Za-z0-9_]{0,31}")
NUMBER = re.compile(r"0|[1-9][0-9]{0,9}")
ROUTE = re.compile(r"/lists/([A-Za-z0-9_]+)/(size|page|grade)")
AUTHORITY = re.compile(r"http://[^/?]+/?", re.IGNORECASE)
HOST = re.compile(r"[ \t]*[A-Za-z0-9\-._~%!$&'()*+,;=:\[\]]*[ \t]*")

# `http.server` calls these statuses otherwise than a list node does.
STATUSES = {501: 405, 505: 400, 414: 431}


class Refused(Exception):
    """A request that gets the status `status` in place of an answer."""

    def __init__(self, status: int) -> None:
        super().__init__(status)
        self.status = status


class RankedList(Protocol):
    """A list. Each call answers the body of a reply."""

    def check(self) -> None:
        """Raises an error where a row is none of a list."""

    def size(self) -> dict[str, Any]:
        """How many rows there are."""

    def page(self, first: int, count: int) -> dict[str, Any]:
        """The rows from a place on."""

    def grade(self, item: int) -> dict[str, Any]:
        """The grade of an object, or None."""


def answer(lists: Mapping[str, RankedList], target: str) -> dict[str, Any]:
    """The body of the reply to GET of this target."""
    if AUTHORITY.match(target):
        target = AUTHORITY.sub("/", target, count=1)
    if not target.startswith("/"):
        raise Refused(400)
    path, _, query = target.partition("?")
    route = ROUTE.fullmatch(path)
    if route is None or route[1] not in lists:
        raise Refused(404)
    asked, pairs = lists[route[1]], urllib.parse.parse_qsl(query, keep_blank_values=True)
    if route[2] == "size":
        return asked.size()
    if route[2] == "page":
        return asked.page(number_of(pairs, "from"), number_of(pairs, "count", 1, MAX_ROWS))
    return asked.grade(number_of(pairs, "object"))


def number_of(pairs: list[tuple[str, str]], name: str, least: int = 0, most: int = MAX_NUMBER) -> int:
    """The number that the first pair of this name has."""
    text = next((value for key, value in pairs if key == name), "")
    if not NUMBER.fullmatch(text) or not least <= int(text) <= most:
        raise Refused(400)
    return int(text)


class Conversation(http.server.BaseHTTPRequestHandler):
    """One request and its reply. Then the connection is closed."""

    timeout = SECONDS
    server: Node

    def parse_request(self) -> bool:
        """Refuses versions other than 1.0 and 1.1, and what RFC 9112, section 3.2, refuses of Host lines."""
        if not super().parse_request():
            return False
        hosts = self.headers.get_all("Host", [])
        counts = {"HTTP/1.0": (0, 1), "HTTP/1.1": (1,)}.get(self.request_version, ())
        if len(hosts) in counts and all(map(HOST.fullmatch, hosts)):
            return True
        self.send_error(400)
        return False

    def do_GET(self) -> None:
        """Answers. There is no function for other methods, so that they are refused."""
        try:
            body = answer(self.server.lists, self.requestline.split()[1])
        except Refused as refused:
            self.send_error(refused.status)
        except Exception as fault:  # Whatever the database says.
            print(f"{self.requestline}: {fault}", file=sys.stderr, flush=True)
            self.send_error(500)
        else:
            self._reply(200, "application/json", json.dumps(body, separators=(",", ":")))

    def send_error(self, code: int, message: str | None = None, explain: str | None = None) -> None:
        """Replies that there is no answer."""
        status = STATUSES.get(code, code)
        self._reply(status, "text/plain", http.HTTPStatus(status).phrase + "\n")

    def _reply(self, status: int, kind: str, body: str) -> None:
        head = f"HTTP/1.1 {status} {http.HTTPStatus(status).phrase}\r\nContent-Type: {kind}\r\n"
        if status == 405:
            head += "Allow: GET\r\n"
        if status == 405 and self.command == "HEAD":
            body = ""
        else:
            head += f"Content-Length: {len(body)}\r\n"
        self.wfile.write(f"{head}Connection: close\r\n\r\n{body}".encode())


class Node(http.server.ThreadingHTTPServer):
    """Answers for lists by their names, each connection on a thread of its own."""

    request_queue_size = 128

    def __init__(self, address: tuple[str, int], lists: Mapping[str, RankedList]) -> None:
        super().__init__(address, Conversation)
        self.lists = lists

    def handle_error(self, request: Any, client_address: Any) -> None:
        """A client that leaves in the middle is no fault of the node."""
        if not isinstance(sys.exc_info()[1], OSError):
            super().handle_error(request, client_address)


def number_up_to(limit: int) -> Callable[[str], int]:
    """Reads a word that is a number."""
    def number(word: str) -> int:
        if not re.fullmatch("[0-9]{1,19}", word) or int(word) > limit:
            raise argparse.ArgumentTypeError(f"{word!r} is no number from 0 to {limit}")
        return int(word)
    return number


def named_column(word: str) -> tuple[str, str]:
    """Reads NAME=COLUMN, or a column whose name is the list's name too."""
    name, equals, column = word.partition("=")
    if not LIST_NAME.fullmatch(name):
        raise argparse.ArgumentTypeError(
            f"{name!r} is no name of a list, which is a letter, then letters, digits and _, at most 32 in all")
    return name, column if equals else name


class NewList(argparse.Action):
    """Takes a list with a name that none before it has."""

    def __call__(self, parser: argparse.ArgumentParser, namespace: argparse.Namespace, values: Any,
                 option_string: str | None = None) -> None:
        before = getattr(namespace, self.dest) or []
        if values[0] in dict(before):
            raise argparse.ArgumentError(self, f"there are two lists {values[0]}")
        setattr(namespace, self.dest, [*before, values])


def words(description: str, database: str) -> tuple[argparse.ArgumentParser, Any]:
    """The words that all bridges have, of which the first says where the database is; and those of versions, of which
    one may be there.
    """
    made = argparse.ArgumentParser(description=description, allow_abbrev=False)
    made.add_argument("database", help=database)
    made.add_argument("--grade", type=named_column, action=NewList, required=True, metavar="[NAME=]COLUMN",
                      help="a column of grades, which is the list NAME; once for each list")
    made.add_argument("--at", type=number_up_to(MAX_PORT), required=True, metavar="PORT",
                      help="the port to listen on; 0 is a free one")
    made.add_argument("--host", default="127.0.0.1", metavar="ADDRESS", help="the address to listen on (127.0.0.1)")
    version = made.add_mutually_exclusive_group()
    version.add_argument("--version", type=number_up_to(MAX_VERSION), metavar="N",
                         help="the version of the lists; 0 states none")
    return made, version


def table_words(description: str, database: str) -> argparse.ArgumentParser:
    """The words of a bridge over a table."""
    made, version = words(description, database)
    made.add_argument("--table", required=True, help="the table or view; a dot parts a schema from it")
    made.add_argument("--object", default="object", metavar="COLUMN", help="the column of objects (object)")
    made.add_argument("--make-index", action="store_true", help="make those of the indexes that are missing")
    version.add_argument("--version-query", metavar="SQL",
                         help="a statement that gives the version, asked in each reply's transaction")
    return made


def serve_table(given: argparse.Namespace, database: Database) -> str | None:
    """Serves columns of a table until the process is ended, or says why it can't."""
    pool, version = Pool(database), given.version_query or given.version
    if version is None:
        version = States() if database.state else 0
    lists = {name: RankedTable(database, pool, given.table, (given.object, column), version)
             for name, column in given.grade}
    for name, it in lists.items() if given.make_index else ():
        try:
            it.make_indexes()
        except Exception as fault:  # Whatever the database says.
            return f"{name}: {fault}"
    return serve(given, lists)


def serve(given: argparse.Namespace, lists: Mapping[str, RankedList]) -> str | None:
    """Serves lists until the process is ended, or says why it can't."""
    for name, it in lists.items():
        try:
            it.check()
            it.size()
        except Exception as fault:  # Whatever the database says.
            return f"{name}: {fault}"
    try:
        node = Node((given.host, given.at), lists)
    except OSError as fault:
        return f"port {given.at} of {given.host}: {fault}"
    with node, contextlib.suppress(KeyboardInterrupt):
        for name in lists:
            print(f"http://{given.host}:{node.server_address[1]}/lists/{name}", flush=True)
        node.serve_forever()
    return None
