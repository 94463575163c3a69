"""Scales: how the values of a criterion become grades, whole numbers from 0 to 1,000,000.

**How grades are rounded.** A scale says where a value stands between the worst, 0, and the best, 1. Its grade is a
million times that, rounded to the nearest whole number, and upwards from the middle between two. So a grade is off by
at most half a part of a million of the criterion's span. Whole numbers, decimals and fractions are computed exactly.
Floats are computed as floats, which adds less than a billionth of a part.
"""
from __future__ import annotations

import dataclasses
import math
from collections.abc import Callable, Sequence
from decimal import Decimal
from fractions import Fraction
from typing import Any, NamedTuple, Protocol, Union

from topk.faults import TableError
from topk.limits import MAX_GRADE

__all__ = [
    "Between",
    "ByRank",
    "Graded",
    "MinMax",
    "Number",
    "OwnScale",
    "ReciprocalRank",
    "Scale",
    "reciprocal_rank",
    "scale_of",
]

Number = Union[int, float, Fraction, Decimal]
"""What values of a criterion are."""

EXACT, HALF, FLOAT = Fraction(0), Fraction(1, 2), Fraction(1, 2) + Fraction(1, 10**9)
"""How far a grade may be off: not at all; by the rounding; by the rounding and the arithmetic of floats."""
_MOST_OF_FLOAT = 2**53


class Graded(NamedTuple):
    """Grades in the order of the values, and what became of the values."""

    grades: list[int]
    error: Fraction
    """How far a grade may be off at most."""
    outside: int = 0
    """How many values stood beyond the ends of the scale, and have the grade of the nearer end."""


class Scale(Protocol):
    """A way from values to grades."""

    def graded(self, values: Sequence[Any], low_is_best: bool) -> Graded:
        """The grades of values, of which none is missing and there is at least one."""


@dataclasses.dataclass(frozen=True)
class MinMax:
    """From the worst value that is there, which gets 0, to the best one, which gets 1,000,000. Where all are equal,
    each gets 1,000,000.

    >>> MinMax().graded([10, 30, 20], low_is_best=False).grades
    [0, 1000000, 500000]
    """

    def graded(self, values: Sequence[Any], low_is_best: bool) -> Graded:
        """The grades of values."""
        low, high = min(values), max(values)
        if low == high:
            return Graded([MAX_GRADE] * len(values), EXACT)
        return _linear(values, *((high, low) if low_is_best else (low, high)))


@dataclasses.dataclass(frozen=True)
class Between:
    """From one end to the other, whatever values are there. Those beyond an end get the grade of that end.

    >>> Between(0, 900).graded([0, 300, 1000], low_is_best=True)
    Graded(grades=[1000000, 666667, 0], error=Fraction(1, 2), outside=1)
    """

    low: Number
    high: Number

    def __post_init__(self) -> None:
        if not (math.isfinite(self.low) and math.isfinite(self.high) and self.low < self.high):
            raise TableError(f"a scale goes from a number to a greater one, and not from {self.low} to {self.high}")

    def graded(self, values: Sequence[Any], low_is_best: bool) -> Graded:
        """The grades of values."""
        low, high = self.low, self.high
        outside = 0
        if min(values) < low or max(values) > high:
            outside = sum(1 for value in values if value < low or value > high)
            values = [low if value < low else high if value > high else value for value in values]
        return _linear(values, *((high, low) if low_is_best else (low, high)))._replace(outside=outside)


@dataclasses.dataclass(frozen=True)
class ByRank:
    """By place: the best value gets 1,000,000, the last place 0, and each place between them its share. Equal values
    share the first of their places.

    >>> ByRank().graded([5, 9, 9, 7], low_is_best=False).grades
    [0, 1000000, 1000000, 333333]
    """

    def graded(self, values: Sequence[Any], low_is_best: bool) -> Graded:
        """The grades of values."""
        places, last = _places(values, low_is_best), len(values) - 1
        if last == 0:
            return Graded([MAX_GRADE], EXACT)
        by_place = [(2 * MAX_GRADE * (last - above) + last) // (2 * last) for above in range(len(values))]
        return Graded([by_place[place] for place in places], EXACT if MAX_GRADE % last == 0 else HALF)


@dataclasses.dataclass(frozen=True)
class ReciprocalRank:
    """By 1 / (constant + place), for reciprocal rank fusion: the first place gets 1,000,000, so place p gets 1,000,000
    (constant + 1) / (constant + p).

    Sums of such grades rank as sums of the reciprocals do, where all criteria have the same constant. Equal values
    share the first of their places.

    >>> ReciprocalRank(60).graded([0.9, 0.5, 0.7], low_is_best=False).grades
    [1000000, 968254, 983871]
    """

    constant: int = 60

    def __post_init__(self) -> None:
        if not isinstance(self.constant, int) or self.constant < 0:
            raise TableError(
                f"the constant of a reciprocal rank is a whole number from 0 on, and not {self.constant!r}"
            )

    def graded(self, values: Sequence[Any], low_is_best: bool) -> Graded:
        """The grades of values."""
        first = self.constant + 1
        by_place = [(2 * MAX_GRADE * first + first + above) // (2 * (first + above)) for above in range(len(values))]
        return Graded([by_place[place] for place in _places(values, low_is_best)], HALF if len(values) > 1 else EXACT)


@dataclasses.dataclass(frozen=True)
class OwnScale:
    """By a function of the value, which says how good it is: from 0, the worst, to 1, the best.

    >>> OwnScale(lambda stars: stars / 5).graded([5, 2.5], low_is_best=False).grades
    [1000000, 500000]
    """

    share: Callable[[Any], Number]

    def graded(self, values: Sequence[Any], low_is_best: bool) -> Graded:
        """The grades of values."""
        if low_is_best:
            raise TableError("a scale of one's own says itself which values are best: leave best='low' out")
        shares = [self.share(value) for value in values]
        for value, share in zip(values, shares):
            if not 0 <= share <= 1:
                raise TableError(
                    f"the scale gives {share!r} for the value {value!r}: "
                    "it has to give a number from 0, the worst, to 1, the best"
                )
        return _linear(shares, 0, 1)


def reciprocal_rank(constant: int = 60) -> ReciprocalRank:
    """The scale of reciprocal rank fusion, with its constant."""
    return ReciprocalRank(constant)


def scale_of(given: Any) -> Scale:
    """The scale that is meant: "min-max", "rank", "reciprocal-rank", two ends, a function of the value, or a scale
    itself.

    >>> scale_of((0, 900)), scale_of("rank")
    (Between(low=0, high=900), ByRank())
    """
    if isinstance(given, str):
        names: dict[str, Scale] = {"min-max": MinMax(), "rank": ByRank(), "reciprocal-rank": ReciprocalRank()}
        if given not in names:
            raise TableError(
                f"there is no scale {given!r}, but {', '.join(names)}, two ends as (0, 900), or a function of the value"
            )
        return names[given]
    if hasattr(given, "graded"):
        found: Scale = given
        return found
    if callable(given):
        return OwnScale(given)
    if isinstance(given, (tuple, list)) and len(given) == 2:
        return Between(*given)
    raise TableError(
        f'{given!r} is no scale: "min-max", "rank", "reciprocal-rank", two ends as (0, 900), or a function of the value'
    )


def _linear(values: Sequence[Any], worst: Any, best: Any) -> Graded:
    """The grades of values that stand between the worst and the best one."""
    kinds = set(map(type, values)) | {type(worst), type(best)}
    if kinds <= {int, bool}:
        return _linear_whole(values, worst, best)
    span = float(best) - float(worst) if kinds <= {int, float, bool} else math.inf
    if math.isinf(span) or (int in kinds and any(abs(value) > _MOST_OF_FLOAT for value in values)):
        exact = Fraction(worst), Fraction(best) - Fraction(worst)
        return Graded(
            [math.floor((Fraction(value) - exact[0]) / exact[1] * MAX_GRADE + HALF) for value in values], HALF
        )
    return Graded([int((value - worst) / span * 1e6 + 0.5) for value in values], FLOAT)


def _linear_whole(values: Sequence[int], worst: int, best: int) -> Graded:
    """The same of whole numbers."""
    span = best - worst
    if MAX_GRADE % span == 0:
        step = MAX_GRADE // span
        return Graded([(value - worst) * step for value in values], EXACT)
    sign = 1 if span > 0 else -1
    times, divisor = 2 * MAX_GRADE * sign, 2 * abs(span)
    plus = abs(span) - worst * times
    return Graded([(value * times + plus) // divisor for value in values], HALF)


def _places(values: Sequence[Any], low_is_best: bool) -> list[int]:
    """How many values are better than each."""
    order = sorted(range(len(values)), key=values.__getitem__, reverse=not low_is_best)
    places = [0] * len(values)
    place, before = 0, values[order[0]]
    for number, it in enumerate(order):
        value = values[it]
        if value != before:
            place, before = number, value
        places[it] = place
    return places
