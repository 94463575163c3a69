"""Criteria: which column counts, which of its values are best, and how they become grades."""
from __future__ import annotations

import dataclasses
import math
import re
from collections.abc import Callable, Sequence
from decimal import Decimal
from fractions import Fraction
from typing import Any

from topk.faults import MissingValue, TableError
from topk.limits import MAX_GRADE, NAME
from topk.scales import EXACT, Graded, Number, Scale, scale_of

__all__ = ["Criterion", "criterion", "is_missing", "list_name", "numbers_in"]


@dataclasses.dataclass(frozen=True)
class Criterion:
    """A column that counts. `criterion` makes it."""

    column: str
    name: str
    """What questions and lists call it."""
    best: str
    """Which values are best: `high` or `low`."""
    scale: Scale
    missing: int | None
    """The grade of a missing value; None refuses it."""
    value: Callable[[Any], Any] | None
    """What makes a number of what stands in the column; None where that is one as it stands."""
    grades: bool
    """Whether the list can be asked for one object's grade."""

    def graded(self, cells: Sequence[Any], where: Callable[[int], str]) -> Graded:
        """The grades of a column's cells. `where` names a row, from 0, for errors."""
        numbers = numbers_in(cells, self.column, self.value, where)
        present = [it for it in numbers if it is not None]
        if len(present) == len(numbers):
            return self.scale.graded(present, self.best == "low") if present else Graded([], EXACT)
        if self.missing is None:
            raise MissingValue(
                f"{where(numbers.index(None))} has no {self.column}, and the criterion refuses that: "
                "give missing= a grade from 0 to 1000000, or leave such rows out by where="
            )
        found = self.scale.graded(present, self.best == "low") if present else Graded([], EXACT)
        rest = iter(found.grades)
        return found._replace(grades=[self.missing if it is None else next(rest) for it in numbers])


def criterion(
    column: str,
    *,
    best: str = "high",
    scale: Any = "min-max",
    missing: int | str = 0,
    name: str | None = None,
    value: Callable[[Any], Any] | None = None,
    grades: bool = True,
) -> Criterion:
    """A criterion: the column whose values count.

    `best` says which values are best: "high" or "low". `scale` is "min-max" (from the worst value that is there to the
    best), two ends as `(0, 900)`, "rank", "reciprocal-rank", `reciprocal_rank(60)`, or a function that says how good a
    value is, from 0 to 1. `missing` is the grade of a missing value, from 0 to 1,000,000, or "refuse". `name` is what
    questions call it; it is the column's, where that is a name of a list. `value` makes a number of what stands in the
    column, as `lambda text: date.fromisoformat(text).toordinal()`. With `grades=False` nobody may ask the list for the
    grade of one object, and questions are answered by reading from the top alone.

    >>> criterion("price per night", best="low", scale=(0, 900)).name
    'price_per_night'
    """
    if best not in ("high", "low"):
        raise TableError(f"best is 'high' or 'low', and not {best!r}")
    if missing != "refuse" and (type(missing) is not int or not 0 <= missing <= MAX_GRADE):
        raise TableError(f"missing is a grade from 0 to {MAX_GRADE} or 'refuse', and not {missing!r}")
    if name is not None and not NAME.fullmatch(name):
        raise TableError(
            f"{name!r} is no name of a criterion: a letter, and at most 31 letters, digits and underscores"
        )
    grade = missing if isinstance(missing, int) else None
    return Criterion(column, name or list_name(column), best, scale_of(scale), grade, value, grades)


def list_name(column: str) -> str:
    """A column's name as the name of a list: a letter, and at most 31 letters, digits and underscores.

    >>> list_name("price"), list_name("Größe (cm)"), list_name("2020")
    ('price', 'Gr_e_cm', 'c_2020')
    """
    made = re.sub(r"[^A-Za-z0-9]+", "_", column, flags=re.ASCII).strip("_") if not NAME.fullmatch(column) else column
    return (made if made[:1].isalpha() else f"c_{made}")[:32]


def is_missing(cell: Any) -> bool:
    """Whether a cell has no value: None, a blank text, NaN, or what pandas has in its place."""
    if cell is None or type(cell).__name__ in ("NAType", "NaTType"):
        return True
    return not cell.strip() if isinstance(cell, str) else bool(cell != cell)


def numbers_in(
    cells: Sequence[Any], column: str, value: Callable[[Any], Any] | None, where: Callable[[int], str]
) -> list[Number | None]:
    """The numbers of a column's cells, None where one is missing. A text is a number where it is written as one.

    >>> numbers_in(["7", "", "8.5"], "price", None, str)
    [7.0, None, 8.5]
    """
    if value is not None:
        cells = [None if is_missing(cell) else value(cell) for cell in cells]
    quick = _quick(cells) or _quick_with_gaps(cells)
    return quick if quick is not None else [_number(cell, row, column, where) for row, cell in enumerate(cells)]


def _quick(cells: Sequence[Any]) -> list[Any] | None:
    """The numbers of cells that are all whole numbers, all floats, or all texts of one of these; None of others."""
    kinds = set(map(type, cells))
    try:
        if kinds == {str}:
            try:
                return list(map(int, cells))
            except ValueError:
                cells = list(map(float, cells))
        elif kinds == {int}:
            return list(cells)
        elif kinds != {float}:
            return None
    except ValueError:
        return None
    return list(cells) if math.isfinite(sum(cells)) else None


def _quick_with_gaps(cells: Sequence[Any]) -> list[Any] | None:
    """The same, where some cells are None, empty or NaN."""
    try:
        present = [cell for cell in cells if not (cell is None or cell == "" or cell != cell)]
    except (TypeError, ValueError):
        return None
    quick = _quick(present) if len(present) < len(cells) else None
    if quick is None:
        return None
    rest = iter(quick)
    return [None if cell is None or cell == "" or cell != cell else next(rest) for cell in cells]


def _number(cell: Any, row: int, column: str, where: Callable[[int], str]) -> Number | None:
    """The number of one cell."""
    if is_missing(cell):
        return None
    found = _number_in_text(cell) if isinstance(cell, str) else _plain(cell)
    if found is None:
        raise TableError(
            f"{where(row)} has {cell!r} in the column {column}, which is no number, as 1234.5 is; "
            "in Python criterion(.., value=) says how to read it"
        )
    if found != found:
        return None
    if not math.isfinite(found):
        raise TableError(f"{where(row)} has {cell!r} in the column {column}, which is not finite")
    return found


def _number_in_text(text: str) -> Number | None:
    try:
        return int(text)
    except ValueError:
        pass
    try:
        return float(text)
    except ValueError:
        return None


def _plain(cell: Any) -> Number | None:
    """The plain number that a number is, as one of numpy; None of anything else."""
    plain: object = cell.item() if hasattr(cell, "item") else cell
    return plain if isinstance(plain, (int, float, Fraction, Decimal)) else None
