"""What goes wrong: refusals of the core, and what the package finds before it asks the core."""
from __future__ import annotations

import difflib
from collections.abc import Iterable

__all__ = ["LimitPassed", "MissingValue", "NoCore", "Refused", "TableError", "UnknownName", "unknown"]


class Refused(Exception):
    """Why there is no answer or no verdict.

    `name` and `fields` are those of the core's text, as `KAboveCount` and `(3, 2)`: a number is an int, a list stands
    by its name. Where the bytes are no bundle, `name` is `NoBundle` and the field is the first line with which none
    begins. Where they are more than `MAX_INPUT`, it is `LongInput`, and the field is that number.
    """

    def __init__(self, name: str, fields: Iterable[int | str] = (), hint: str = "") -> None:
        self.name = name
        self.fields = tuple(fields)
        self.hint = hint
        super().__init__(name, self.fields, hint)

    def __str__(self) -> str:
        text = " ".join([self.name, *map(str, self.fields)])
        return f"{text} ({self.hint})" if self.hint else text


class NoCore(OSError):
    """Neither the library nor the program was found, or what was found isn't topk."""


class TableError(ValueError):
    """What is wrong with a table, a criterion or a question. Nothing was asked and nothing was written."""


class UnknownName(TableError):
    """A column, a criterion or a list that isn't there."""


class MissingValue(TableError):
    """A value is missing where the criterion refuses that."""


class LimitPassed(TableError):
    """A limit of topk is passed."""


def unknown(kind: str, name: str, known: Iterable[str]) -> UnknownName:
    """The error for a name that isn't there, with the nearest one that is.

    >>> print(unknown("column", "prize", ["price", "rating"]))
    there is no column 'prize': did you mean 'price'?
    >>> print(unknown("column", "x", ["price", "rating"]))
    there is no column 'x', but price, rating
    """
    names = list(dict.fromkeys(known))
    near = difflib.get_close_matches(name, names, 1)
    hint = f": did you mean {near[0]!r}?" if near else f", but {', '.join(names)}" if names else ""
    return UnknownName(f"there is no {kind} {name!r}{hint}")


for _public in (Refused, NoCore, TableError, UnknownName, MissingValue, LimitPassed):
    _public.__module__ = "topk"
