"""A column of a table as a ranked list: its size, its rows from a place on, the grade of an object.

The rows of a list are (object, grade), by grade falling and then by object rising. An index on (grade desc, object)
has them in this order, so that no statement here sorts a table. A page that begins far down isn't counted off from the
top either: the rows before the places `STEP`, 2 * `STEP` and so on are remembered, as marks, and a page begins from the
last of them above it.
"""
from __future__ import annotations

import contextlib
import queue
import threading
import time
from collections.abc import Callable, Iterator, Sequence
from typing import Any, NamedTuple

MAX_NUMBER = 4_294_967_295
MAX_GRADE = 1_000_000
MAX_VERSION = 2**63 - 1
STEP = 256
CONNECTIONS = 8

SIZE = """select (select count(*) from {table}), (select count(*) from {table} where {grade} is null),
    (select max({grade}) from {table}), (select min({grade}) from {table}),
    (select max({object}) from {table}), (select min({object}) from {table})"""
TOP = "select {object}, {grade} from {table} order by {grade} desc, {object} limit {mark} offset {mark}"
# Two searches of the index, since databases don't search it for `grade < g or grade = g and object > o`.
BELOW = """select * from (select {object}, {grade} from {table} where {grade} = {mark} and {object} > {mark}
        order by {grade} desc, {object} limit {mark}) as equal_ones
    union all select * from (select {object}, {grade} from {table} where {grade} < {mark}
        order by {grade} desc, {object} limit {mark}) as lower_ones
    order by 2 desc, 1 limit {mark} offset {mark}"""
GRADE = "select {grade} from {table} where {object} = {mark}"
INDEX = "create index if not exists {index} on {table} ({grade} desc, {object})"
KEY = "create unique index if not exists {index} on {table} ({object})"
# What columns of whole numbers are called.
WHOLE = {"smallint", "integer", "bigint", "numeric"}

Row = tuple[Any, Any]


class Database(NamedTuple):
    """What databases differ in."""

    connect: Callable[[], Any]
    """Opens a connection, on which no transaction begins by itself. Any thread may use it, one at a time."""
    begin: str
    """Begins a transaction that sees one state of the database, whoever changes it meanwhile."""
    mark: str
    """What stands in a statement for a number that is given with it."""
    quote: Callable[[str], str]
    """A name as statements have it, so that each character in it is part of the name."""
    wrong: Sequence[str] = ()
    """Statements of which each gives a row that may be wrong, or none: object, grade, and what kinds they are of."""
    is_keyed: Callable[[Any, str, str], bool] | None = None
    """Whether a column of a table is its key, by a cursor."""
    index: Callable[[str, str], str] | None = None
    """The name of an index over a table and a column, as the statement that makes it has it."""
    state: Callable[[Any], Any] | None = None
    """What a transaction sees, by its cursor: two are equal only where nothing was changed between them. None where
    nothing cheap tells.
    """
    change: Callable[[], Any] | None = None
    """Opens a connection that may make an index."""


class Pool:
    """Connections to a database, at most `CONNECTIONS`, which stay open from one transaction to the next."""

    def __init__(self, database: Database) -> None:
        self._database = database
        self._room = threading.BoundedSemaphore(CONNECTIONS)
        self._idle: queue.SimpleQueue[Any] = queue.SimpleQueue()

    @contextlib.contextmanager
    def transaction(self) -> Iterator[Any]:
        """A cursor on one state of the database. Waits where all connections are in use."""
        with self._room:
            connection = self._begun()
            try:
                cursor = connection.cursor()
                yield cursor
                cursor.execute("rollback")
            except BaseException:
                connection.close()
                raise
            self._idle.put(connection)

    def _begun(self) -> Any:
        """A connection in a transaction: an idle one, where its database hasn't been restarted, or else a new one."""
        with contextlib.suppress(queue.Empty):
            while True:
                connection = self._idle.get_nowait()
                try:
                    return self._begin(connection)
                except Exception:  # Whatever the database says.
                    connection.close()
        return self._begin(self._database.connect())

    def _begin(self, connection: Any) -> Any:
        connection.cursor().execute(self._database.begin)
        return connection


class States:
    """Numbers for the states of a database. They rise, and begin with the clock's microseconds, so that they do from
    one start to the next.
    """

    def __init__(self) -> None:
        self._lock = threading.Lock()
        self._state: Any = None
        self._number = time.time_ns() // 1000

    def number(self, state: Any) -> int:
        """The number of a state: that of the one before, where it is the same, and else a new one."""
        with self._lock:
            if state != self._state:
                self._state, self._number = state, self._number + 1
            return self._number


class Known(NamedTuple):
    """The marks of one version of a list that were met so far."""

    version: int
    marks: tuple[Row, ...] = ()


class RankedTable:
    """A list of a table. Each call sees one state of the database, and answers the body of a reply."""

    def __init__(
        self, database: Database, pool: Pool, table: str, columns: tuple[str, str], version: int | str | States
    ) -> None:
        """The columns are those of objects and of grades; the version is a number, a statement that gives it, or that
        of the state.
        """
        self._database, self._table, self._columns = database, table, columns
        self._names = {
            "table": ".".join(map(database.quote, table.split("."))),
            "object": database.quote(columns[0]),
            "grade": database.quote(columns[1]),
            "mark": database.mark,
        }
        self._size, self._top, self._below, self._grade = (it.format(**self._names) for it in (SIZE, TOP, BELOW, GRADE))
        self._pool, self._version = pool, version
        self._known = Known(0)

    def make_indexes(self) -> None:
        """Makes the index of the grades, and that of the objects where they aren't the table's key."""
        with contextlib.closing(self._database.change()) as connection:
            cursor = connection.cursor()
            cursor.execute(INDEX.format(index=self._database.index(self._table, self._columns[1]), **self._names), ())
            if not self._database.is_keyed(cursor, self._table, self._columns[0]):
                cursor.execute(KEY.format(index=self._database.index(self._table, self._columns[0]), **self._names), ())

    def check(self) -> None:
        """Raises ValueError with the first row whose object or grade isn't of its kind. Reads the table once."""
        with self._pool.transaction() as cursor:
            for statement in self._database.wrong:
                cursor.execute(statement.format(**self._names), ())
                found = cursor.fetchone()
                if found is not None:
                    checked(found, self._table, self._columns)

    def size(self) -> dict[str, Any]:
        """Counts the rows, by an index. The marks are forgotten: a table whose version isn't stated may be another one
        by now.
        """
        with self._reading() as (cursor, version):
            cursor.execute(self._size, ())
            count, gradeless, *ends = cursor.fetchone()
            self._known = Known(version)
        if gradeless:
            raise ValueError(f"{gradeless} rows have no grade")
        if count:
            for number, limit in zip(ends, (MAX_GRADE, MAX_GRADE, MAX_NUMBER, MAX_NUMBER)):
                whole(number, limit)
        return stated({"count": count}, version)

    def page(self, first: int, count: int) -> dict[str, Any]:
        """The rows from a place on. Where the marks above it are known, two ranges of at most count + STEP - 1 rows are
        read.
        """
        with self._reading() as (cursor, version):
            marks = self._marks(cursor, version, first // STEP)
            rows = self._rows(cursor, marks, first - STEP * len(marks), count)
        return stated({"rows": [(whole(item), whole(grade)) for item, grade in rows]}, version)

    def grade(self, item: int) -> dict[str, Any]:
        """The grade of an object, or None."""
        with self._reading() as (cursor, version):
            cursor.execute(self._grade, (item,))
            found = cursor.fetchone()
        return stated({"grade": found and whole(found[0])}, version)

    @contextlib.contextmanager
    def _reading(self) -> Iterator[tuple[Any, int]]:
        """A cursor on one state of the database, and the version of this state."""
        with self._pool.transaction() as cursor:
            version = self._version
            if isinstance(version, States):
                version = version.number(self._database.state(cursor))
            elif isinstance(version, str):
                cursor.execute(version)
                found = cursor.fetchone()
                version = whole(found and found[0], MAX_VERSION)
            yield cursor, version

    def _marks(self, cursor: Any, version: int, count: int) -> Sequence[Row]:
        """The first marks, as many as the list has. Those that are met here are remembered."""
        known = self._known
        marks = list(known.marks) if known.version == version else []
        while len(marks) < count:
            met = self._rows(cursor, marks, STEP - 1, 1)
            if not met:
                break
            marks += met
        if self._known is known:
            self._known = Known(version, tuple(marks))
        return marks[:count]

    def _rows(self, cursor: Any, marks: Sequence[Row], skipped: int, count: int) -> list[Row]:
        """So many rows below the last mark, or from the top, after so many that are skipped."""
        if marks:
            item, grade = marks[-1]
            cursor.execute(self._below, (grade, item, skipped + count, grade, skipped + count, count, skipped))
        else:
            cursor.execute(self._top, (count, skipped))
        return cursor.fetchall()


def whole(value: Any, limit: int = MAX_NUMBER) -> int:
    """What a database gives for a number, where it is a whole one up to the limit."""
    try:
        number = int(value)
    except (TypeError, ValueError, OverflowError):
        number = -1
    if number != value or not 0 <= number <= limit:
        raise ValueError(f"{value!r} is no whole number from 0 to {limit}")
    return number


def checked(row: Sequence[Any], table: str, columns: tuple[str, str]) -> None:
    """Raises ValueError where a row's object or grade is none, with the way out."""
    item, grade, *kinds = row
    cures = (
        "give the rows whole numbers, in a column that --object names",
        f"make a column of whole grades, as by: alter table {table} add column {columns[1]}_grade integer "
        f"generated always as (round({columns[1]} * 1000)) stored; in SQLite virtual in place of stored",
    )
    for what, value, kind, limit, column, cure in zip(
            ("object", "grade"), (item, grade), kinds, (MAX_NUMBER, MAX_GRADE), columns, cures):
        try:
            if kind in WHOLE:
                whole(value, limit)
                continue
        except ValueError:
            pass
        raise ValueError(f"the row of the object {item!r} has {value!r} in the column {column}, which is {kind}: "
                         f"each {what} is a whole number from 0 to {limit}; {cure}")


def stated(body: dict[str, Any], version: int) -> dict[str, Any]:
    """A body with its version; version 0 isn't written."""
    return {**body, "version": version} if version else body
