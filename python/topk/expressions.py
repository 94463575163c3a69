"""Expressions: how the grades of a row become its score.

    expression = name | operator "(" part { "," part } ")"
    part       = [ weight "*" ] expression
    operator   = "sum" | "wsum" | "min" | "max" | "median"

Blanks may stand anywhere. Weights are whole or decimal numbers, and stand in `sum` and `wsum` alone. The core takes
whole weights, so decimal ones are multiplied by a common factor: of an expression with the factor F the core's value
is F times the stated one.
"""
from __future__ import annotations

import dataclasses
import math
import re
from collections.abc import Callable, Iterator, Mapping
from fractions import Fraction
from typing import Union

from topk.faults import LimitPassed, TableError
from topk.limits import MAX_GRADE, MAX_LISTS, MAX_NESTING, MAX_NODES, MAX_VALUE

__all__ = [
    "Combined",
    "Expression",
    "Named",
    "Weighted",
    "checked",
    "names_in",
    "operators_in",
    "parsed",
    "renamed",
    "spread",
    "text_of",
    "value_of",
    "whole",
]


@dataclasses.dataclass(frozen=True)
class Named:
    """The grade in the list of this name."""

    name: str


@dataclasses.dataclass(frozen=True)
class Combined:
    """`min`, `max`, `sum` or `median` of the values of the parts. Of an even number of values the median is the lower
    one in the middle.
    """

    operator: str
    parts: tuple[Expression, ...]


@dataclasses.dataclass(frozen=True)
class Weighted:
    """The sum of each weight times the value of its part."""

    parts: tuple[tuple[Fraction, Expression], ...]


Expression = Union[Named, Combined, Weighted]
_TOKEN = re.compile(r"\s*(?:([A-Za-z_][A-Za-z0-9_]*)|(\d+(?:\.\d*)?(?:[eE][+-]?\d+)?|\.\d+)|([(),*]))", re.ASCII)
_OPERATORS = ("min", "max", "sum", "median", "wsum")


def parsed(text: str) -> Expression:
    """The expression that a text is.

    >>> text_of(parsed("min( price, sum(2*rating, stars) )"))
    'min(price,wsum(2*rating,1*stars))'
    >>> parsed("sum(price")
    Traceback (most recent call last):
    topk.TableError: 'sum(price' is no expression: ',' or ')' is missing behind 'sum(price'
    """
    reader = _Reader(text)
    found = reader.expression()
    if reader.token != "":
        raise reader.fault("it goes on where it should end")
    return found


def text_of(expression: Expression) -> str:
    """An expression of whole weights, as a query has it."""
    if isinstance(expression, Named):
        return expression.name
    if isinstance(expression, Combined):
        return f"{expression.operator}({','.join(map(text_of, expression.parts))})"
    return f"wsum({','.join(f'{weight}*{text_of(part)}' for weight, part in expression.parts)})"


def whole(expression: Expression) -> tuple[Expression, int]:
    """The expression with whole weights, and the factor by which its value is greater.

    >>> made, factor = whole(parsed("sum(0.7*price, 0.25*rating)"))
    >>> text_of(made), factor
    ('wsum(14*price,5*rating)', 20)
    >>> made, factor = whole(parsed("min(price, wsum(0.5*rating, 0.5*stars))"))
    >>> text_of(made), factor
    ('min(wsum(2*price),wsum(1*rating,1*stars))', 2)
    """
    if isinstance(expression, Named):
        return expression, 1
    if isinstance(expression, Weighted):
        made = [(weight, *whole(part)) for weight, part in expression.parts]
        factor = math.lcm(*((weight / above).denominator for weight, _, above in made))
        return Weighted(tuple((weight * factor / above, part) for weight, part, above in made)), factor
    parts = [whole(part) for part in expression.parts]
    factor = math.lcm(*(above for _, above in parts))
    return Combined(expression.operator, tuple(_times(part, factor // above) for part, above in parts)), factor


def value_of(expression: Expression, grades: Mapping[str, int]) -> int:
    """The value of an expression of whole weights, where the lists give these grades.

    >>> value_of(parsed("median(a, b, max(a, b), wsum(2*a))"), {"a": 5, "b": 7})
    7
    """
    if isinstance(expression, Named):
        return grades[expression.name]
    if isinstance(expression, Weighted):
        return sum(int(weight) * value_of(part, grades) for weight, part in expression.parts)
    values = [value_of(part, grades) for part in expression.parts]
    return _CALLS[expression.operator](values)


def spread(expression: Expression, errors: Mapping[str, Fraction]) -> Fraction:
    """How far the value may be off at most, where each list's grades are off by so much.

    >>> spread(parsed("sum(min(a, b), wsum(3*a))"), {"a": Fraction(1, 2), "b": Fraction(0)})
    Fraction(2, 1)
    """
    if isinstance(expression, Named):
        return errors[expression.name]
    if isinstance(expression, Weighted):
        return sum((weight * spread(part, errors) for weight, part in expression.parts), Fraction(0))
    parts = [spread(part, errors) for part in expression.parts]
    return sum(parts, Fraction(0)) if expression.operator == "sum" else max(parts)


def names_in(expression: Expression) -> tuple[str, ...]:
    """The names of its lists, each once, in the order in which they come."""
    return tuple(dict.fromkeys(it.name for it, _ in _nodes(expression) if isinstance(it, Named)))


def operators_in(expression: Expression) -> set[str]:
    """Its operators, of which a weighted sum is `wsum`."""
    return {
        it.operator if isinstance(it, Combined) else "wsum" for it, _ in _nodes(expression) if not isinstance(it, Named)
    }


def renamed(expression: Expression, name: Callable[[str], str]) -> Expression:
    """The expression with each name of a list replaced."""
    if isinstance(expression, Named):
        return Named(name(expression.name))
    if isinstance(expression, Weighted):
        return Weighted(tuple((weight, renamed(part, name)) for weight, part in expression.parts))
    return Combined(expression.operator, tuple(renamed(part, name) for part in expression.parts))


def checked(expression: Expression) -> Expression:
    """An expression of whole weights, where it keeps the limits of the core. Raises LimitPassed where it doesn't."""
    nodes = list(_nodes(expression))
    lists, nesting = names_in(expression), max(depth for _, depth in nodes)
    if len(lists) > MAX_LISTS:
        raise LimitPassed(
            f"a question names at most {MAX_LISTS} criteria, and this one names {len(lists)}: {', '.join(lists)}"
        )
    if len(nodes) > MAX_NODES:
        raise LimitPassed(f"an expression has at most {MAX_NODES} parts, and this one has {len(nodes)}")
    if nesting > MAX_NESTING:
        raise LimitPassed(f"an expression nests at most {MAX_NESTING} deep, and this one nests {nesting} deep")
    best = dict.fromkeys(lists, MAX_GRADE)
    if any(value_of(it, best) > MAX_VALUE for it, _ in nodes):
        raise LimitPassed(
            f"a value of the expression may pass {MAX_VALUE}: its weights, as whole numbers, are too great: "
            f"{text_of(expression)}"
        )
    return expression


class _Reader:
    """An expression's text, read token by token."""

    def __init__(self, text: str) -> None:
        self.text, self.at, self.end, self.token = text, 0, 0, ""
        self.next()

    def next(self) -> None:
        """Goes on to the next token, which is empty at the end."""
        self.end = self.at
        found = _TOKEN.match(self.text, self.at)
        if found is None:
            self.token = ""
            if self.text[self.at :].strip():
                raise self.fault(f"{self.text[self.at:].strip()[0]!r} has no meaning here")
            return
        self.token, self.at = found.group().strip(), found.end()

    def expression(self) -> Expression:
        """The expression that begins here."""
        name = self.token
        if not name[:1].isalpha() and name[:1] != "_":
            raise self.fault("a name or an operator is missing")
        self.next()
        if self.token != "(" or name not in _OPERATORS:
            return Named(name)
        parts = []
        while self.token in ("(", ","):
            self.next()
            parts.append(self.part())
        if self.token != ")":
            raise self.fault("',' or ')' is missing")
        self.next()
        return self.combined(name, parts)

    def part(self) -> tuple[Fraction | None, Expression]:
        """A part of an operator, with its weight where one is written."""
        if not (self.token[:1].isdigit() or self.token[:1] == "."):
            return None, self.expression()
        weight = Fraction(self.token)
        self.next()
        if self.token != "*":
            raise self.fault("'*' is missing")
        self.next()
        return weight, self.expression()

    def combined(self, operator: str, parts: list[tuple[Fraction | None, Expression]]) -> Expression:
        """An operator over its parts: a weighted sum where it is one."""
        weighted = any(weight is not None for weight, _ in parts)
        if operator == "wsum" or (operator == "sum" and weighted):
            return Weighted(tuple((Fraction(1) if weight is None else weight, part) for weight, part in parts))
        if weighted:
            raise self.fault(f"{operator} takes no weights; wsum(2*NAME) is twice the grade")
        return Combined(operator, tuple(part for _, part in parts))

    def fault(self, why: str) -> TableError:
        """The error at this place of the text."""
        before = self.text[: self.end].strip()
        return TableError(f"{self.text!r} is no expression: {why}" + (f" behind {before!r}" if before else ""))


def _nodes(expression: Expression, depth: int = 1) -> Iterator[tuple[Expression, int]]:
    """Each node, with how deep it stands."""
    yield expression, depth
    if isinstance(expression, Combined):
        for part in expression.parts:
            yield from _nodes(part, depth + 1)
    elif isinstance(expression, Weighted):
        for _, part in expression.parts:
            yield from _nodes(part, depth + 1)


def _times(expression: Expression, factor: int) -> Expression:
    """An expression whose value is so many times that of another."""
    if factor == 1:
        return expression
    if isinstance(expression, Weighted):
        return Weighted(tuple((weight * factor, part) for weight, part in expression.parts))
    return Weighted(((Fraction(factor), expression),))


def _median(values: list[int]) -> int:
    return sorted(values)[(len(values) - 1) // 2]


_CALLS: dict[str, Callable[[list[int]], int]] = {"min": min, "max": max, "sum": sum, "median": _median}
