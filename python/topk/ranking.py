"""Lists as the core takes them: the objects and the grades of a list in turn, from the top down, as numbers of 32
bits.
"""
from __future__ import annotations

import array
import itertools
import operator
from collections.abc import Iterable, Mapping, Sequence
from typing import Any, Union

from topk.limits import MAX_OBJECT, NAME

__all__ = ["Pairs", "bundle_of", "bundle_text", "line_of", "place_of", "ranked", "ranked_rows", "rows_of"]

Pairs = Union[Iterable[Iterable[int]], "tuple[Any, Any]"]
"""A list: pairs of an object and its grade, or a tuple of two arrays (of numpy, or of the module array), of the
objects and of their grades.

The rows of a list may come in any order: where the grades rise, the rows are ranked, the greatest grade first, of
equal grades the smaller object. Rows whose grades never rise stay as they are, so that whoever has an order among
equal grades keeps it.
"""


def ranked(pairs: Pairs) -> list[tuple[int, int]]:
    """The pairs in the order of their grades, the greatest first; of equal grades the smaller object stands first.

    >>> ranked([(3, 850), (7, 900), (1, 850)])
    [(7, 900), (1, 850), (3, 850)]
    """
    rows = _numbers(pairs)
    return sorted(zip(rows[0::2], rows[1::2]), key=lambda row: (-row[1], row[0]))


def bundle_of(lists: Mapping[str, Pairs], query: str) -> bytes:
    """The text of a bundle: the lists, each under its name and in the order of its grades, and the query.

    Raises ValueError where a name is none, an object or a grade isn't from 0 to 4294967295, or the query has more than
    one line, TypeError where an object or a grade is no integer.

    >>> print(bundle_of({"price": [(7, 900)]}, "top 1 by price using ta").decode(), end="")
    list price
    7,900
    query top 1 by price using ta
    """
    return bundle_text(rows_of(lists), line_of(query))


def bundle_text(rows: Mapping[str, array.array[int]], query: str) -> bytes:
    """The text of a bundle of these lists, in the order in which they stand."""
    parts = [f"list {name}\n" + "%d,%d\n" * (len(numbers) // 2) % tuple(numbers) for name, numbers in rows.items()]
    return "".join([*parts, f"query {query}\n"]).encode()


def rows_of(lists: Mapping[str, Pairs]) -> dict[str, array.array[int]]:
    """The rows of each list by its name, from the top down."""
    rows = {}
    for name, pairs in lists.items():
        if not NAME.fullmatch(name):
            raise ValueError(f"{name!r} is no name of a list: a letter, and at most 31 letters, digits and underscores")
        try:
            rows[name] = _ranked_columns(*pairs) if _are_columns(pairs, "dtype") else _in_order(_numbers(pairs))
        except OverflowError:
            raise ValueError(f"an object or a grade of the list {name} isn't from 0 to {MAX_OBJECT}") from None
    return rows


def ranked_rows(objects: Sequence[int], grades: Sequence[int]) -> array.array[int]:
    """The rows of two columns, the greatest grade first; of equal grades the one that stands first in the columns.

    >>> ranked_rows([3, 7, 1], [850, 900, 850]), ranked_rows(range(1, 4), [850, 900, 850])
    (array('I', [7, 900, 3, 850, 1, 850]), array('I', [2, 900, 1, 850, 3, 850]))
    """
    places = objects if isinstance(objects, range) else range(len(grades))
    by_place = [0] * places.start + list(grades)
    order = sorted(places, key=by_place.__getitem__, reverse=True)
    rows = array.array("I", bytes(8 * len(order)))
    rows[0::2] = array.array("I", order if places is objects else _picked(objects, order))
    rows[1::2] = array.array("I", _picked(by_place, order))
    return rows


def _picked(column: Sequence[int], places: list[int]) -> list[int]:
    """The numbers of a column at these places."""
    numbers = array.array("I", column)  # An array is small, so that going about in it is quicker than in a list.
    return [numbers[place] for place in places]


def line_of(query: str) -> str:
    """The query, which has to be one line."""
    if "\n" in query or "\r" in query:
        raise ValueError("a query is one line")
    return query


def place_of(rows: Mapping[str, array.array[int]], query: str, line: int) -> str:
    """Which row of which list a line of the bundle is that these print as, for whoever made the lists and not the
    text.
    """
    start = 1
    for name, numbers in rows.items():
        row = line - start
        if row == 0:
            return f"the line 'list {name}'"
        if row <= len(numbers) // 2:
            return (
                f"row {row} of the list {name}, the object {numbers[2 * row - 2]} with the grade {numbers[2 * row - 1]}"
            )
        start += 1 + len(numbers) // 2
    return f"the line {'query ' + query!r}" if line == start else ""


def _are_columns(pairs: Pairs, having: str) -> bool:
    return isinstance(pairs, tuple) and len(pairs) == 2 and all(hasattr(column, having) for column in pairs)


def _numbers(pairs: Pairs) -> array.array[int]:
    """Pairs or two columns as an object and its grade in turn."""
    if not _are_columns(pairs, "tolist"):
        return array.array("I", [number for item, grade in pairs for number in (item, grade)])
    objects, grades = map(_column, pairs)
    if len(objects) != len(grades):
        raise ValueError(f"{len(objects)} objects have {len(grades)} grades")
    numbers = array.array("I", bytes(8 * len(objects)))
    numbers[0::2], numbers[1::2] = objects, grades
    return numbers


def _column(column: Any) -> array.array[int]:
    """A column of numbers of 32 bits."""
    return array.array("I", _checked(column).tobytes() if hasattr(column, "dtype") else column.tolist())


def _checked(column: Any) -> Any:
    """A column of numpy as numbers of 32 bits."""
    if column.dtype.kind not in "iu":
        raise TypeError(f"objects and grades are integers, and not {column.dtype}")
    if column.ndim != 1:
        raise ValueError("objects and grades are arrays of one dimension")
    if column.size and not 0 <= column.min() <= column.max() <= MAX_OBJECT:
        raise OverflowError
    return column.astype("=u4")


def _ranked_columns(objects: Any, grades: Any) -> array.array[int]:
    """The rows of two columns of numpy as they are, where no grade rises, else ranked."""
    import numpy

    objects, grades = _checked(objects), _checked(grades)
    if len(objects) != len(grades):
        raise ValueError(f"{len(objects)} objects have {len(grades)} grades")
    if (grades[1:] > grades[:-1]).any():
        order = numpy.lexsort((objects, MAX_OBJECT - grades))
        objects, grades = objects[order], grades[order]
    return array.array("I", numpy.stack((objects, grades), axis=1).tobytes())


def _in_order(numbers: array.array[int]) -> array.array[int]:
    """The rows as they are, where no grade rises, else ranked."""
    grades = numbers[1::2]
    if all(map(operator.ge, grades, itertools.islice(grades, 1, None))):
        return numbers
    rows = sorted((-grade, item) for item, grade in zip(numbers[0::2], grades))
    return array.array("I", [number for grade, item in rows for number in (item, -grade)])
