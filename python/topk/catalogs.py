"""Folders of list files: a catalog, the lists that it names, and the keys beside them, for the program's commands
`run`, `node` and `serve`.

    FOLDER/catalog.csv       name,place,random and a line for each list
    FOLDER/lists/NAME.csv    object,grade and a line for each row, from the top down
    FOLDER/keys.csv          object,key,NAME,.. and a line for each row of the table: its key, and its own values

Places are relative to the folder, so the program runs in it.
"""
from __future__ import annotations

import array
import csv
import dataclasses
import io
import os
import pathlib
from collections.abc import Callable, Iterable, Mapping, Sequence
from typing import Any, NamedTuple

from topk.answers import NamedAnswer, named_answer
from topk.certificates import Answer, Certificate
from topk.cores import core as found_core
from topk.expressions import names_in
from topk.faults import LimitPassed, NoCore, TableError, unknown
from topk.library import Library
from topk.limits import MAX_CATALOG, MAX_GRADE, MAX_ROWS, NAME
from topk.program import Program, find_program
from topk.questions import Question, question

__all__ = ["CATALOG", "Catalog", "Entry", "KEYS", "KeyFile", "read_keys", "write_keys", "write_lists"]

CATALOG, KEYS, LISTS = "catalog.csv", "keys.csv", "lists"


@dataclasses.dataclass(frozen=True)
class Entry:
    """A line of a catalog."""

    name: str
    place: str
    """The path of a list file, or the address of a node."""
    random: bool
    """Whether it can be asked for one object's grade."""
    sorted: bool
    """Whether it can be read from the top."""

    @property
    def is_far(self) -> bool:
        """Whether the list is at a host."""
        return self.place.startswith("http://")


class KeyFile(NamedTuple):
    """What a file of keys has for the numbers of objects, as texts."""

    keys: dict[int, str] = {}
    values: dict[str, dict[int, str]] = {}
    """The table's own values, by the names of lists."""


class Catalog:
    """The lists of a catalog, with the keys that stand beside it."""

    def __init__(self, path: str | os.PathLike[str], entries: Iterable[Entry], keys: Mapping[int, Any]) -> None:
        self.path = pathlib.Path(path)
        """The catalog's file."""
        self.entries = {entry.name: entry for entry in entries}
        """The lists by their names."""
        self.keys = keys
        """The key of each object; an object without one stands for itself. Keys that were read from a file are texts.
        """

    @classmethod
    def read(cls, path: str | os.PathLike[str]) -> Catalog:
        """Reads a catalog, given by its file or its folder, and the file keys.csv beside it, where there is one.
        Lists are read when they are asked.
        """
        place = pathlib.Path(path)
        place = place / CATALOG if place.is_dir() else place
        keys = place.parent / KEYS
        return cls(place, _entries(place), read_keys(keys).keys if keys.exists() else {})

    def __repr__(self) -> str:
        return f"Catalog({os.fspath(self.path)!r}), with the lists {', '.join(self.entries)}"

    def key_of(self, item: int) -> Any:
        """The key of an object."""
        return self.keys.get(item, item)

    def place_of(self, name: str) -> pathlib.Path:
        """The file of a list, whose place in the catalog is relative to its folder."""
        if name not in self.entries:
            raise unknown("list", name, self.entries)
        return self.path.parent / self.entries[name].place

    def rows(self, name: str) -> array.array[int]:
        """The rows of a list file: objects and grades in turn, in the order in which they stand there."""
        return _rows(self.place_of(name))

    def top(
        self,
        k: int,
        by: Any,
        *,
        how: str = "sum",
        algorithm: str | None = None,
        cost: tuple[int, int] | None = None,
        room: int | None = None,
        core: Library | Program | None = None,
    ) -> NamedAnswer:
        """The best k objects, as `Table.top`, by the program's `run`; or by the library, where all lists are files
        that can be read from the top.

        The answer's grades are those that the certificate has, and stand for values. Where it has too few for a score,
        as `nra` may leave it, the score is the least that is possible.
        """
        asked = question(
            k,
            by,
            how,
            self._name,
            rows=k,
            algorithm=algorithm,
            cost=cost,
            room=room,
            without_grades=[it.name for it in self.entries.values() if not it.random],
            without_order=[it.name for it in self.entries.values() if not it.sorted],
        )
        asks = core or found_core()
        used = [self.entries[name] for name in names_in(asked.expression)]
        if isinstance(asks, Library) and any(it.is_far or not it.sorted for it in used):
            asks = _needed_program()
        return self._named(asked, self._asked(asks, asked, used), asks)

    def _asked(self, asks: Library | Program, asked: Question, used: Iterable[Entry]) -> Answer:
        """The core's answer."""
        if isinstance(asks, Program):
            return asks.run(self.path, asked.query)
        return asks.answer_rows({it.name: self.rows(it.name) for it in used}, asked.query)

    def _named(self, asked: Question, given: Answer, asks: Library | Program) -> NamedAnswer:
        """The answer with keys, and with the grades that its certificate has."""
        wanted = {it.object for it in given.objects}
        accesses = Certificate.parse(given.certificate).accesses()
        grades = {(it.list, it.object): it.grade for it in accesses if it.object in wanted}
        return named_answer(
            asked,
            given,
            asks,
            self.key_of,
            lambda name, item: grades.get((name, item)),
            lambda name, item: grades.get((name, item)),
        )

    def _name(self, given: Any) -> str:
        if given not in self.entries:
            raise unknown("list", str(given), self.entries)
        return str(given)


def _needed_program() -> Program:
    """The program, for what the library can't do."""
    program = find_program()
    if program is None:
        raise NoCore(
            "lists of hosts, and such that can't be read from the top, need the program topk: TOPK_PROGRAM may name it"
        )
    return program


def write_lists(
    folder: str | os.PathLike[str],
    objects: Iterable[int],
    keys: Iterable[Any],
    lists: Mapping[str, tuple[array.array[int], bool, Sequence[Any]]],
    progress: Callable[[str], None] = lambda file: None,
) -> Catalog:
    """Writes lists, each as its rows, whether it gives grades, and the values that the grades stand for, with a catalog
    and the keys, and gives the catalog.

    A file of the same name is replaced whole. `progress` is called with the name of each file before it is written.
    """
    place = pathlib.Path(folder)
    (place / LISTS).mkdir(parents=True, exist_ok=True)
    entries = [Entry(name, f"{LISTS}/{name}.csv", random, True) for name, (_, random, _) in lists.items()]
    for entry in entries:
        rows = lists[entry.name][0]
        progress(entry.place)
        _replace(place / entry.place, "object,grade\n" + "%d,%d\n" * (len(rows) // 2) % tuple(rows))
    made = dict(zip(objects, keys))
    progress(KEYS)
    write_keys(place / KEYS, made, made.values(), {name: values for name, (_, _, values) in lists.items()})
    progress(CATALOG)
    _replace(
        place / CATALOG,
        _csv([("name", "place", "random"), *((it.name, it.place, "yes" if it.random else "no") for it in entries)]),
    )
    return Catalog(place / CATALOG, entries, made)


def write_keys(
    path: str | os.PathLike[str], objects: Iterable[int], keys: Iterable[Any], values: Mapping[str, Sequence[Any]]
) -> None:
    """Writes a file of keys: which number stands for which key, and the values of the lists by their names."""
    _replace(pathlib.Path(path), _csv([("object", "key", *values), *zip(objects, keys, *values.values())]))


def _replace(path: pathlib.Path, text: str) -> None:
    """Writes a file whole, or leaves it as it was."""
    beside = path.with_name(f".{path.name}.{os.getpid()}")
    try:
        beside.write_bytes(text.encode())
        os.replace(beside, path)
    finally:
        beside.unlink(missing_ok=True)


def _csv(records: Iterable[Iterable[Any]]) -> str:
    text = io.StringIO()
    csv.writer(text, lineterminator="\n").writerows(records)
    return text.getvalue()


def _records(path: pathlib.Path, header: tuple[str, ...]) -> list[list[str]]:
    """The records of a CSV file, of which the first begins with this header."""
    with open(path, newline="", encoding="utf-8") as file:
        records = [record for record in csv.reader(file) if record]
    if not records or tuple(records[0][: len(header)]) != header:
        raise TableError(f"{path} has to begin with the line {','.join(header)}")
    return records


def _entries(path: pathlib.Path) -> list[Entry]:
    """The lines of a catalog."""
    entries: list[Entry] = []
    for number, record in enumerate(_records(path, ("name", "place", "random"))[1:], 2):
        if (
            len(record) not in (3, 4)
            or not NAME.fullmatch(record[0])
            or any(it not in ("yes", "no") for it in record[2:])
        ):
            raise TableError(f"record {number} of {path} is no line of a catalog: {','.join(record)!r}")
        if record[0] in {it.name for it in entries}:
            raise TableError(f"record {number} of {path} names the list {record[0]} again")
        entries.append(Entry(record[0], record[1], record[2] == "yes", record[3:] != ["no"]))
    if len(entries) > MAX_CATALOG:
        raise LimitPassed(f"a catalog has at most {MAX_CATALOG} lists, and {path} has {len(entries)}")
    return entries


def read_keys(path: pathlib.Path) -> KeyFile:
    """Reads a file of keys."""
    (_, *names), *records = _records(path, ("object", "key"))
    for number, record in enumerate(records, 2):
        if len(record) != len(names) + 1:
            raise TableError(f"{path} is no file of keys: record {number} has {len(record)} fields")
    try:
        items = [int(record[0]) for record in records]
    except ValueError as fault:
        raise TableError(f"{path} is no file of keys: {fault}") from None
    keys, *values = (dict(zip(items, (record[place] for record in records))) for place in range(1, len(names) + 1))
    return KeyFile(keys, dict(zip(names[1:], values)))


def _rows(path: pathlib.Path) -> array.array[int]:
    """The rows of a list file."""
    lines = path.read_text(encoding="utf-8").split()
    if lines and lines[0] == "object,grade":
        del lines[0]
    try:
        rows = array.array("I", map(int, ",".join(lines).split(","))) if lines else array.array("I")
    except (ValueError, OverflowError):
        rows = array.array("I")
    if (
        len(rows) != 2 * len(lines)
        or set(map(str.count, lines, [","] * len(lines))) - {1}
        or (rows and max(rows[1::2]) > MAX_GRADE)
    ):
        raise TableError(
            f"{path} is no list file: each line has to be an object's number, a comma and a grade from 0 to {MAX_GRADE}"
        )
    if len(lines) > MAX_ROWS:
        raise LimitPassed(f"a list has at most {MAX_ROWS} rows, and {path} has {len(lines)}")
    return rows
