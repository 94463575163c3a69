#!/usr/bin/env python3
"""A list node over a table of SQLite: columns of grades are lists that topk reads, without an export.

Each such column needs an index on (grade desc, object), and the objects one of their own. Standard library alone.
"""
from __future__ import annotations

import contextlib
import pathlib
import sqlite3
import sys
import threading
from typing import Any

import bridge
from ranked_table import Database


WRONG = """select {object}, {grade}, typeof({object}), typeof({grade}) from {table}
    where typeof({object}) <> 'integer' or typeof({grade}) <> 'integer'
    or {object} not between 0 and 4294967295 or {grade} not between 0 and 1000000 limit 1"""


def quoted(name: str) -> str:
    """A name in backticks, since SQLite takes one in double quotes that it doesn't know for a text."""
    return "`" + name.replace("`", "``") + "`"


def index(table: str, column: str) -> str:
    """The name of an index, with its table's schema."""
    schema, dot, name = table.rpartition(".")
    return (quoted(schema) + dot if dot else "") + quoted(f"{name}_by_{column}")


def is_keyed(cursor: sqlite3.Cursor, table: str, column: str) -> bool:
    """Whether a column alone is the key of a table."""
    found = cursor.execute("select name from pragma_table_info(?) where pk > 0", (table.rpartition(".")[2],)).fetchall()
    return found == [(column,)]


class Watch:
    """A connection of its own that sees whether the file was changed. It waits for no writer, since one may wait for
    the transaction itself.
    """

    def __init__(self, place: str) -> None:
        self._lock = threading.Lock()
        self._connection = sqlite3.connect(place, uri=True, isolation_level=None, check_same_thread=False, timeout=0)

    def __call__(self, cursor: sqlite3.Cursor) -> Any:
        """What a transaction sees: how often the file was changed, where that is the same before its first read and
        behind it.
        """
        before = self._changes()
        cursor.execute("select 1 from sqlite_master limit 1").fetchone()
        return before if self._changes() == before else object()

    def _changes(self) -> Any:
        """The count of changes; while a writer is at work what equals nothing."""
        with self._lock, contextlib.suppress(sqlite3.OperationalError):
            return self._connection.execute("pragma data_version").fetchone()[0]
        return object()


def main() -> str | None:
    """What the process ends with: nothing, or why it can't serve."""
    given = bridge.table_words(__doc__.splitlines()[0], "the file of the database").parse_args()
    file = pathlib.Path(given.database).resolve().as_uri()

    def connect(mode: str = "ro") -> sqlite3.Connection:
        return sqlite3.connect(f"{file}?mode={mode}", uri=True, isolation_level=None, check_same_thread=False)

    try:
        watch = Watch(f"{file}?mode=ro")
    except sqlite3.Error as fault:
        return f"{given.database}: {fault}"
    return bridge.serve_table(
        given, Database(connect, "begin", "?", quoted, (WRONG,), is_keyed, index, watch, lambda: connect("rw")))


if __name__ == "__main__":
    sys.exit(main())
