"""Questions: what is asked of lists, and the query line that it becomes."""
from __future__ import annotations

import dataclasses
from collections.abc import Callable, Iterable, Mapping
from decimal import Decimal
from fractions import Fraction
from typing import Any

from topk.choices import Choice, chosen
from topk.expressions import (
    Combined,
    Expression,
    Named,
    Weighted,
    checked,
    names_in,
    operators_in,
    parsed,
    renamed,
    text_of,
    whole,
)
from topk.faults import LimitPassed, TableError
from topk.limits import MAX_COUNT, MAX_QUERY

__all__ = ["Question", "question", "weight_of"]


@dataclasses.dataclass(frozen=True)
class Question:
    """A question over lists."""

    k: int
    expression: Expression
    """How grades become scores, with whole weights."""
    factor: int
    """How many times the score is what the stated, perhaps decimal, weights give."""
    choice: Choice
    cost: tuple[int, int] | None
    room: int | None

    @property
    def query(self) -> str:
        """The query line."""
        cost = "" if self.cost is None else " cost {} {}".format(*self.cost)
        room = "" if self.room is None else f" room {self.room}"
        return f"top {self.k} by {text_of(self.expression)} using {self.choice.algorithm}{cost}{room}"


def question(
    k: int,
    by: Any,
    how: str,
    name_of: Callable[[Any], str],
    *,
    rows: int,
    algorithm: str | None,
    cost: tuple[int, int] | None,
    room: int | None,
    without_grades: Iterable[str] = (),
    without_order: Iterable[str] = (),
) -> Question:
    """The question for the best k of so many rows. `name_of` says which list a name or a criterion means, or raises
    UnknownName.

    Raises TableError where it is none that the core takes.
    """
    for name, number in (("k", k), ("room", 1 if room is None else room), *(("cost", it) for it in cost or ())):
        if type(number) is not int or number < 1:
            raise TableError(f"{name} is a whole number from 1 on, and not {number!r}")
        if number > MAX_COUNT:
            raise LimitPassed(f"{name} is at most {MAX_COUNT}, and not {number}")
    made, factor = whole(
        renamed(_expression(by, how), name_of) if isinstance(by, str) else _expression(by, how, name_of)
    )
    checked(made)
    found = chosen(names_in(made), list(without_grades), list(without_order), operators_in(made), cost or (1, 1))
    choice = found if algorithm is None else Choice(algorithm, "it was named")
    asked = Question(min(k, rows), made, factor, choice, cost, room)
    if len(asked.query) > MAX_QUERY:
        raise LimitPassed(f"a query has at most {MAX_QUERY} bytes, and this one has {len(asked.query)}")
    return asked


def weight_of(given: Any) -> Fraction:
    """A weight as a fraction. A float counts as the shortest decimal number that is this float.

    >>> weight_of(0.7), weight_of("2.50")
    (Fraction(7, 10), Fraction(5, 2))
    """
    try:
        made = Fraction(Decimal(repr(float(given)))) if isinstance(given, float) else Fraction(given)
    except (TypeError, ValueError, OverflowError):
        raise TableError(f"a weight is a number from 0 on, and not {given!r}") from None
    if made < 0:
        raise TableError(f"a weight is a number from 0 on, and not {given!r}: best='low' turns a criterion round")
    return made


def _expression(by: Any, how: str, name_of: Callable[[Any], str] = str) -> Expression:
    """The expression of a text, of names with their weights, or of names alone."""
    if isinstance(by, str):
        return parsed(by)
    if not isinstance(by, (Mapping, Iterable)):
        by = [by]
    weights = (
        {name: weight_of(weight) for name, weight in by.items()}
        if isinstance(by, Mapping)
        else dict.fromkeys(by, Fraction(1))
    )
    if not any(weights.values()):
        raise TableError("no criterion counts: name one, with a weight above 0")
    if how not in ("sum", "min", "max", "median"):
        raise TableError(
            f"{how!r} is no way to put grades together: sum, min, max, median, or an expression as the second argument"
        )
    parts: list[tuple[Fraction, Expression]] = [(weight, Named(name_of(name))) for name, weight in weights.items()]
    if how == "sum" and any(weight != 1 for weight, _ in parts):
        return Weighted(tuple(parts))
    if len({weight for weight, _ in parts}) > 1:
        raise TableError(f"{how} takes no weights: write an expression as '{how}(price,wsum(2*rating))'")
    return parts[0][1] if len(parts) == 1 else Combined(how, tuple(part for _, part in parts))
