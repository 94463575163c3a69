"""Where tables come from: files, rows, frames and databases, as columns by their names."""
from __future__ import annotations

import csv
import io
import itertools
import os
import pathlib
import sqlite3
from collections.abc import Iterable, Mapping, Sequence
from typing import Any

from topk.faults import TableError

__all__ = [
    "columns_of_csv",
    "columns_of_frame",
    "columns_of_lists",
    "columns_of_mapping",
    "columns_of_rows",
    "columns_of_sqlite",
]


def columns_of_csv(path: str | os.PathLike[str], delimiter: str, encoding: str) -> dict[str, Sequence[Any]]:
    """The columns of a CSV file, whose first record has their names. All cells are texts; empty lines are no rows."""
    with open(path, newline="", encoding=encoding) as file:
        text = file.read()
    names, cells = _plain_records(text, delimiter) or _records(text, delimiter, str(path))
    _distinct(names, str(path))
    return {name: cells[place :: len(names)] for place, name in enumerate(names)}


def _plain_records(text: str, delimiter: str) -> tuple[list[str], list[str]] | None:
    """The header and the cells, row after row, of a text in which each line is a record; None of another, as one with
    quotes or empty lines.
    """
    head, _, rest = text.replace("\r\n", "\n").rstrip("\n").partition("\n")
    names = head.split(delimiter)
    if (
        not rest
        or '"' in text
        or "\r" in rest
        or set(map(str.count, rest.split("\n"), itertools.repeat(delimiter))) != {len(names) - 1}
    ):
        return None
    return names, rest.replace("\n", delimiter).split(delimiter)


def _records(text: str, delimiter: str, path: str) -> tuple[list[str], list[str]]:
    """The same of any text."""
    reader = csv.reader(io.StringIO(text, newline=""), delimiter=delimiter)
    try:
        names: list[str] = next(reader, [])
        rows = [row for row in reader if row]
    except csv.Error as fault:
        raise TableError(f"{path}, line {reader.line_num}: {fault}") from None
    if not names:
        raise TableError(f"{path} has no header: its first line has to name the columns")
    for number, row in enumerate(rows, 1):
        if len(row) != len(names):
            raise TableError(
                f"{path}: row {number} has {len(row)} fields, and the header has {len(names)}: "
                f"{delimiter.join(row)[:80]!r}, where {delimiter!r} is the delimiter"
            )
    return names, list(itertools.chain.from_iterable(rows))


def columns_of_rows(rows: Iterable[Any], columns: Sequence[str] | None) -> dict[str, Sequence[Any]]:
    """The columns of rows: mappings, of which each may lack columns, or sequences with the names of their columns."""
    rows = list(rows)
    if columns is None and not all(isinstance(row, Mapping) for row in rows):
        raise TableError("rows that aren't mappings need columns=, the names of their columns")
    names = list(columns) if columns is not None else list(dict.fromkeys(name for row in rows for name in row))
    _distinct(names, "the rows")
    if all(isinstance(row, Mapping) for row in rows):
        return {name: [row.get(name) for row in rows] for name in names}
    for number, row in enumerate(rows, 1):
        if len(row) != len(names):
            raise TableError(f"row {number} has {len(row)} values, and there are {len(names)} columns")
    return {name: [row[place] for row in rows] for place, name in enumerate(names)}


def columns_of_mapping(mapping: Mapping[Any, Mapping[str, Any]], key: str) -> dict[str, Sequence[Any]]:
    """The columns of a mapping of keys to rows, of which `key` has the keys."""
    found = columns_of_rows(list(mapping.values()), None)
    if key in found:
        raise TableError(f"the rows have a column {key!r} themselves: name the keys otherwise by key=")
    return {key: list(mapping), **found}


def columns_of_lists(lists: Mapping[str, Any], key: str) -> dict[str, Sequence[Any]]:
    """The columns of lists, each a mapping of keys to values or pairs of both: a key that a list hasn't has no value
    there.
    """
    tables = {}
    for name, pairs in lists.items():
        pairs = list(pairs.items()) if isinstance(pairs, Mapping) else [(item, value) for item, value in pairs]
        tables[name] = dict(pairs)
        if len(tables[name]) < len(pairs):
            raise TableError(f"a key comes twice in the list {name!r}")
    if key in tables:
        raise TableError(f"a list is called {key!r}: name the keys otherwise by key=")
    keys = list(dict.fromkeys(itertools.chain.from_iterable(tables.values())))
    return {key: keys, **{name: list(map(table.get, keys)) for name, table in tables.items()}}


def columns_of_frame(frame: Any, key: str | None) -> dict[str, Sequence[Any]]:
    """The columns of a frame of pandas or polars, or of a mapping of names to columns; a pandas index counts as a
    column where `key` is its name.
    """
    names = list(frame) if isinstance(frame, Mapping) else list(frame.columns)
    if any(not isinstance(name, str) for name in names):
        raise TableError(f"the names of columns have to be texts: {names!r}")
    _distinct(names, "the frame")
    found = {name: _cells(frame[name]) for name in names}
    index = getattr(frame, "index", None)
    if key is not None and key not in found and getattr(index, "name", None) == key:
        found[key] = _cells(index)
    return found


def columns_of_sqlite(path: str | os.PathLike[str], select: str, parameters: Any) -> dict[str, Sequence[Any]]:
    """The columns of what a database of SQLite selects. It is opened for reading alone."""
    place = pathlib.Path(path).resolve()
    if not place.is_file():
        raise FileNotFoundError(f"there is no database at {path}")
    connection = sqlite3.connect(f"{place.as_uri()}?mode=ro", uri=True)
    try:
        cursor = connection.execute(select, parameters)
        if cursor.description is None:
            raise TableError(f"{select!r} selects nothing")
        names = [column[0] for column in cursor.description]
        _distinct(names, repr(select))
        rows = cursor.fetchall()
    finally:
        connection.close()
    cells = list(itertools.chain.from_iterable(rows))
    return {name: cells[place :: len(names)] for place, name in enumerate(names)}


def _cells(column: Any) -> Sequence[Any]:
    """A column's cells as plain values: of pandas, polars, numpy, or any sequence."""
    for call in ("to_list", "tolist"):
        if hasattr(column, call):
            found: Sequence[Any] = getattr(column, call)()
            return found
    return list(column)


def _distinct(names: Sequence[str], where: str) -> None:
    twice = [name for name in names if names.count(name) > 1]
    if twice:
        raise TableError(f"{where}: two columns are called {twice[0]!r}")
