"""Tables: rows with keys of any kind, ranked by criteria."""
from __future__ import annotations

import array
import os
from collections.abc import Callable, Iterable, Mapping, Sequence
from fractions import Fraction
from typing import Any, NamedTuple

from topk.answers import NamedAnswer, named_answer, rounding_of
from topk.catalogs import Catalog, write_lists
from topk.cores import Core, core as found_core
from topk.criteria import Criterion
from topk.faults import LimitPassed, TableError, unknown
from topk.keys import checked_keys, objects_of
from topk.limits import MAX_CATALOG, MAX_ROWS
from topk.questions import Question, question
from topk.ranking import ranked_rows
from topk.reading import (
    columns_of_csv,
    columns_of_frame,
    columns_of_lists,
    columns_of_mapping,
    columns_of_rows,
    columns_of_sqlite,
)

__all__ = ["RankedList", "Table"]

Condition = Any
"""A filter: a function of a row, which is a mapping of columns to cells; or a mapping of columns to the value or the
function of a value that lets a row through.
"""


class RankedList(NamedTuple):
    """A criterion's list over a table."""

    grades: Sequence[int]
    """The grades, in the order of the table's rows."""
    rows: array.array[int]
    """Objects and grades in turn, from the top down; of equal grades the row that stands first in the table."""
    error: Fraction
    """How far a grade is off at most, by its rounding."""
    outside: int
    """How many values stood beyond the ends of the scale."""


class Table:
    """Rows with a key each, and the criteria by which they are ranked. A table doesn't change; what changes one gives
    another.

    >>> from topk import Table, criterion
    >>> hotels = Table.from_rows([{"name": "Adler", "price": 120, "rating": 4.5},
    ...                           {"name": "Krone", "price": 80, "rating": 4.1},
    ...                           {"name": "Post", "price": 95, "rating": None}], key="name",
    ...                          criteria=[criterion("price", best="low", scale=(0, 200)),
    ...                                    criterion("rating", scale=(0, 5))])
    >>> answer = hotels.top(2, {"price": 2, "rating": 1})
    >>> for row in answer:
    ...     print(row.place, row.key, row.score, row["price"], row["rating"])
    1 Krone 2020000 80 4.1
    2 Adler 1700000 120 4.5
    >>> answer.algorithm, answer.why
    ('ta', 'each list gives grades, and a grade costs no more than a row')
    >>> answer.check()
    Fixes()
    """

    def __init__(
        self, columns: Mapping[str, Sequence[Any]], *, key: str | None = None, criteria: Iterable[Criterion] = ()
    ) -> None:
        """A table of columns of equal lengths. `key` names the column of the keys; where none is named, a row's number
        from 1 is its key.

        Raises TableError where a key is missing or comes twice, or a criterion's column isn't there.
        """
        self._columns = dict(columns)
        lengths = {len(column) for column in self._columns.values()}
        if len(lengths) > 1:
            raise TableError(
                "the columns have different lengths: "
                + ", ".join(f"{name} {len(it)}" for name, it in self._columns.items())
            )
        self._count = max(lengths, default=0)
        if key is not None and key not in self._columns:
            raise unknown("column", key, self._columns)
        self.key = key
        self._keys: Sequence[Any] = range(1, self._count + 1) if key is None else checked_keys(self._columns[key], key)
        self._criteria: dict[str, Criterion] = {}
        self._lists: dict[Criterion, RankedList] = {}
        self._objects: Sequence[int] | None = None
        self._rows: Mapping[int, int] | None = None
        for it in criteria:
            self._add(it)

    @classmethod
    def from_csv(
        cls,
        path: str | os.PathLike[str],
        key: str | None = None,
        *,
        criteria: Iterable[Criterion] = (),
        delimiter: str = ",",
        encoding: str = "utf-8-sig",
    ) -> Table:
        """The table of a CSV file whose first record names the columns. Keys and other cells are texts, and criteria
        read numbers from them.
        """
        return cls(columns_of_csv(path, delimiter, encoding), key=key, criteria=criteria)

    @classmethod
    def from_rows(
        cls,
        rows: Iterable[Any],
        key: str | None = None,
        *,
        columns: Sequence[str] | None = None,
        criteria: Iterable[Criterion] = (),
    ) -> Table:
        """The table of rows: mappings, of which each may lack columns, or sequences with the names of their
        `columns`.
        """
        return cls(columns_of_rows(rows, columns), key=key, criteria=criteria)

    @classmethod
    def from_mapping(
        cls, mapping: Mapping[Any, Mapping[str, Any]], key: str = "key", *, criteria: Iterable[Criterion] = ()
    ) -> Table:
        """The table of a mapping of keys to rows, which are mappings; `key` names the column of the keys."""
        return cls(columns_of_mapping(mapping, key), key=key, criteria=criteria)

    @classmethod
    def from_lists(cls, lists: Mapping[str, Any], key: str = "key", *, criteria: Iterable[Criterion] = ()) -> Table:
        """The table over all keys of lists, each a mapping of keys to values or pairs of both; what a list hasn't is
        missing there.

        >>> from topk import Table, criterion
        >>> found = Table.from_lists({"words": {"a": 3.1, "b": 2.0}, "vectors": [("b", 0.9), ("c", 0.8)]},
        ...                          criteria=[criterion(it, scale="reciprocal-rank") for it in ("words", "vectors")])
        >>> found.top(1, ["words", "vectors"]).keys
        ['b']
        """
        return cls(columns_of_lists(lists, key), key=key, criteria=criteria)

    @classmethod
    def from_frame(cls, frame: Any, key: str | None = None, *, criteria: Iterable[Criterion] = ()) -> Table:
        """The table of a frame of pandas or polars, or of a mapping of names to columns of numpy or any others.

        `key` names a column, or the index of a pandas frame.
        """
        return cls(columns_of_frame(frame, key), key=key, criteria=criteria)

    @classmethod
    def from_sqlite(
        cls,
        path: str | os.PathLike[str],
        select: str,
        key: str | None = None,
        *,
        parameters: Any = (),
        criteria: Iterable[Criterion] = (),
    ) -> Table:
        """The table of what a database of SQLite selects. The database is opened for reading alone."""
        return cls(columns_of_sqlite(path, select, parameters), key=key, criteria=criteria)

    def __len__(self) -> int:
        return self._count

    def __repr__(self) -> str:
        return f"Table of {self._count} rows, with the columns {', '.join(self._columns)}"

    @property
    def columns(self) -> list[str]:
        """The names of the columns."""
        return list(self._columns)

    @property
    def criteria(self) -> dict[str, Criterion]:
        """The criteria by their names."""
        return dict(self._criteria)

    @property
    def keys(self) -> Sequence[Any]:
        """The keys, in the order of the rows."""
        return self._keys

    @property
    def objects(self) -> Sequence[int]:
        """The number that stands for each key, in the order of the rows."""
        if self._objects is None:
            self._objects = objects_of(self._keys)
        return self._objects

    def column(self, name: str) -> Sequence[Any]:
        """The cells of a column."""
        if name not in self._columns:
            raise unknown("column", name, self._columns)
        return self._columns[name]

    def row(self, number: int) -> dict[str, Any]:
        """The row of a number from 0, by its columns."""
        return {name: column[number] for name, column in self._columns.items()}

    def with_criteria(self, *criteria: Criterion) -> Table:
        """The same table with further criteria. One of a name that is there takes its place."""
        made = self._with_rows(None)
        for it in criteria:
            made._add(it)
        return made

    def where(self, condition: Condition) -> Table:
        """The table of the rows that a condition lets through: a function of a row, as `lambda row: row["stars"] ==
        "4"`, or a mapping of columns to the value that is wanted or a function of it, as `{"city": "Rome", "price":
        lambda price: float(price) < 90}`.

        Scales that go by what is there, as min-max and ranks, go by the rows that are left.
        """
        if isinstance(condition, Mapping):
            tests = [(self.column(name), wanted) for name, wanted in condition.items()]
            kept = [
                row
                for row in range(self._count)
                if all(wanted(it[row]) if callable(wanted) else it[row] == wanted for it, wanted in tests)
            ]
        else:
            names = list(self._columns)
            kept = [row for row, cells in enumerate(zip(*self._columns.values())) if condition(dict(zip(names, cells)))]
        return self._with_rows(kept)

    def ranked_list(self, name: Any) -> RankedList:
        """The list of a criterion, given by its name or itself. Raises TableError where a cell is no number, or a
        limit is passed.
        """
        it = self._criterion(name)
        if it not in self._lists:
            self._fits()
            graded = it.graded(self.column(it.column), self._where)
            self._lists[it] = RankedList(
                graded.grades, ranked_rows(self.objects, graded.grades), graded.error, graded.outside
            )
        return self._lists[it]

    def top(
        self,
        k: int,
        by: Any,
        *,
        how: str = "sum",
        where: Condition = None,
        algorithm: str | None = None,
        cost: tuple[int, int] | None = None,
        room: int | None = None,
        core: Core | None = None,
    ) -> NamedAnswer:
        """The best k rows, or all where there are fewer.

        `by` has the criteria: a mapping of names to weights, as `{"price": 2, "rating": 0.5}`; names alone; or an
        expression as text, as `"min(price, wsum(2*rating))"`. A criterion itself may stand in the place of its name.
        `how` puts the grades together: "sum", "min", "max" or "median". `where` is a filter, as in `where`.
        `algorithm` is as in a query line, as "ta" or "theta 11/10"; where none is named it is chosen, and the answer
        says why. `cost` is what a sorted and a random access cost, `room` how many objects may be seen at most. `core`
        is what answers, as `Program(path)`; where none is named, it is `core()`.

        Raises TableError before anything is asked, and Refused where the core refuses the question.
        """
        if where is not None:
            return self.where(where).top(k, by, how=how, algorithm=algorithm, cost=cost, room=room, core=core)
        self._fits()
        used: dict[str, Criterion] = {}
        asked = question(
            k,
            by,
            how,
            lambda name: self._used(name, used),
            rows=self._count,
            algorithm=algorithm,
            cost=cost,
            room=room,
            without_grades=[name for name, it in self._criteria.items() if not it.grades],
        )
        return self._answered(asked, used, core or found_core())

    def write_lists(
        self,
        folder: str | os.PathLike[str],
        names: Iterable[str] | None = None,
        progress: Callable[[str], None] = lambda file: None,
    ) -> Catalog:
        """Writes the lists of all criteria, or of these, to a folder, with a catalog, the keys and the values, for the
        program's `run`, `node` and `serve`.

        Nothing is written where a cell is no number or a limit is passed. `progress` is called with the name of each
        file before it is written.
        """
        wanted = [self._criterion(name) for name in (self._criteria if names is None else names)]
        if not wanted:
            raise TableError("the table has no criterion, so there is no list to write: criteria= names some")
        if len(wanted) > MAX_CATALOG:
            raise LimitPassed(f"a catalog has at most {MAX_CATALOG} lists, and not {len(wanted)}")
        lists = {it.name: (self.ranked_list(it).rows, it.grades, self._columns[it.column]) for it in wanted}
        return write_lists(folder, self.objects, self._keys, lists, progress)

    def _answered(self, asked: Question, used: Mapping[str, Criterion], core: Core) -> NamedAnswer:
        """The core's answer to a question that uses these criteria, with keys, values and grades."""
        lists = {name: self.ranked_list(it) for name, it in used.items()}
        given = core.answer_rows({name: it.rows for name, it in lists.items()}, asked.query)
        rounding = rounding_of(
            asked, {name: it.error for name, it in lists.items()}, {name: it.outside for name, it in lists.items()}
        )
        return named_answer(
            asked,
            given,
            core,
            lambda item: self._cell(self._keys, item),
            lambda name, item: self._cell(lists[name].grades, item) if name in lists else None,
            lambda name, item: self._cell(self._columns[used[name].column], item),
            rounding,
        )

    def _add(self, it: Criterion) -> None:
        if it.column not in self._columns:
            raise unknown("column", it.column, self._columns)
        self._criteria[it.name] = it

    def _criterion(self, given: Any) -> Criterion:
        """The criterion that a name, the name of its column or it itself means."""
        if isinstance(given, Criterion):
            self.column(given.column)
            return given
        if given in self._criteria:
            return self._criteria[given]
        of_column = [it for it in self._criteria.values() if it.column == given]
        if len(of_column) == 1:
            return of_column[0]
        if given in self._columns:
            raise TableError(
                f'{given!r} is a column and no criterion yet: criterion({given!r}, best="high" or "low") '
                "in criteria= says which of its "
                "values are best"
            )
        raise unknown("criterion", str(given), [*self._criteria, *self._columns])

    def _used(self, given: Any, used: dict[str, Criterion]) -> str:
        """The name of a criterion that a question uses."""
        it = self._criterion(given)
        if used.setdefault(it.name, it) != it:
            raise TableError(f"two criteria of the question are called {it.name!r}: give one another name by name=")
        return it.name

    def _fits(self) -> None:
        """Raises an error where the table has no row, or more than the core takes."""
        if self._count == 0:
            raise TableError("the table has no row to rank")
        if self._count > MAX_ROWS:
            raise LimitPassed(
                f"the table has {self._count} rows, and topk ranks at most {MAX_ROWS}: leave some out by where="
            )

    def _where(self, row: int) -> str:
        """How errors call a row, from 0."""
        return f"row {row + 1}" if self.key is None else f"row {row + 1} ({self._keys[row]!r})"

    def _with_rows(self, kept: list[int] | None) -> Table:
        """The table of these rows, or of all."""
        made = Table.__new__(Table)
        columns = (
            self._columns
            if kept is None
            else {name: list(map(column.__getitem__, kept)) for name, column in self._columns.items()}
        )
        made._columns, made._count, made.key = columns, self._count if kept is None else len(kept), self.key
        made._keys = self._keys if kept is None else list(map(self._keys.__getitem__, kept))
        made._criteria, made._lists = dict(self._criteria), dict(self._lists) if kept is None else {}
        made._objects, made._rows = (self._objects, self._rows) if kept is None else (None, None)
        return made

    def _cell(self, column: Sequence[Any], item: int) -> Any:
        """What a column has for an object's number; None where no row has it."""
        if isinstance(self.objects, range):
            return column[self.objects.index(item)] if item in self.objects else None
        if self._rows is None:
            self._rows = {it: row for row, it in enumerate(self.objects)}
        return column[self._rows[item]] if item in self._rows else None
