"""Answers with names: the rows of a table, the evidence, and what the rounding may do."""
from __future__ import annotations

import dataclasses
from collections.abc import Callable, Iterator, Mapping
from fractions import Fraction
from typing import Any, Optional

from topk.certificates import Answer, Certificate, Verdict
from topk.cores import Core
from topk.expressions import names_in, spread, value_of
from topk.faults import NoCore
from topk.limits import MAX_GRADE
from topk.questions import Question

__all__ = ["Disagrees", "NamedAnswer", "Rounding", "Row", "named_answer", "rounding_of"]

GradeOf = Callable[[str, int], Optional[int]]
"""The grade that a list has for an object; None where nobody knows, or there is none."""
ValueOf = Callable[[str, int], Any]


@dataclasses.dataclass(frozen=True)
class Row:
    """A row of an answer."""

    place: int
    """1 for the best."""
    key: Any
    """The row's key, as the table has it."""
    score: int
    """The value of the question's expression over the grades, by its whole weights. Where a grade isn't known, the
    least that is possible.
    """
    values: Mapping[str, Any]
    """What the table has for each criterion of the question, by the criterion's name, as it stands there."""
    grades: Mapping[str, int | None]
    """The grade of each criterion of the question. Over list files alone it is None where the certificate hasn't it."""
    object: int
    """The number that stands for the key in the certificate."""
    low: int
    """The least score that the accesses of the certificate leave."""
    high: int
    """The greatest score that they leave."""

    def __getitem__(self, name: str) -> Any:
        """The criterion's own value."""
        return self.values[name]


@dataclasses.dataclass(frozen=True)
class Rounding:
    """What the rounding of values to whole grades may do to the order: by the values themselves no row outside the
    answer is better than one inside by more than `score`, beside what the algorithm's guarantee leaves.
    """

    score: Fraction
    """The bound, in the unit of the rows' scores."""
    parts: Mapping[str, Fraction]
    """The bound for each criterion alone, in parts of a million of its span. 0 where its grades are exact."""
    outside: Mapping[str, int]
    """How many values of each criterion stood beyond the ends of its scale, and have the grade of the nearer end."""

    @property
    def exact(self) -> bool:
        """Whether the grades rank the rows just as the values do."""
        return self.score == 0

    def __str__(self) -> str:
        return self.in_words(f"{float(self.score):g} in score")

    def in_words(self, bound: str) -> str:
        """What it may do, in a sentence, with the bound as these words have it."""
        if self.exact:
            return "No grade was rounded: the order is that of the values."
        most = float(max(self.parts.values()))
        return (
            f"Values were rounded to grades, by at most {most / 2:g} parts of a million of a criterion's span: "
            f"by the values no row outside is better than one inside by more than {bound}."
        )


@dataclasses.dataclass(frozen=True)
class Disagrees:
    """An access of the certificate isn't what the table has."""

    access: tuple[str, str, int, int]
    grade: int | None
    """The grade that the table has; None where it has no such object or list."""


@dataclasses.dataclass(frozen=True)
class NamedAnswer:
    """The answer to a question over a table: its rows, best first, and the certificate that shows them.

    Of rows with equal scores at the last place any may be in the answer. It is a sequence of its rows.
    """

    rows: tuple[Row, ...]
    query: str
    """The query line that was asked."""
    algorithm: str
    why: str
    """Why this algorithm was chosen."""
    count: int
    """How many rows were ranked."""
    factor: int
    """How many times a score is what the question's own weights give: above 1 where these were decimal."""
    most: int
    """The score of a row that is best by each criterion."""
    guarantee: tuple[int, int] | None
    """P and Q: Q times the score of a row outside is at most P times that of one inside. None where the answer is the
    best.
    """
    rounding: Rounding | None
    """What the rounding of values may do to the order. None over list files, as nobody knows what their grades were
    made of.
    """
    depth: int
    """The deepest row that was read of a list."""
    sorted: int
    """How many sorted accesses were made."""
    random: int
    """How many random accesses were made."""
    cost: int
    """What the accesses cost, by the question's costs."""
    certificate: str
    """The evidence, as text: each access that was made, with the numbers of objects."""
    core: Core = dataclasses.field(compare=False, repr=False)
    grade_of: GradeOf | None = dataclasses.field(compare=False, repr=False)
    """What the table has; None over list files, where there is nothing beside the certificate."""

    def __len__(self) -> int:
        return len(self.rows)

    def __iter__(self) -> Iterator[Row]:
        return iter(self.rows)

    def __getitem__(self, place: int) -> Row:
        return self.rows[place]

    @property
    def keys(self) -> list[Any]:
        """The keys of the rows, best first."""
        return [row.key for row in self.rows]

    def check(self) -> Verdict | Disagrees:
        """Whether the certificate fixes the answer, by the core's `judge`, and whether each of its accesses is what
        the table has.

        `Fixes()` says both: the answer is right on each table that agrees with the accesses, and this table does.
        """
        for access in Certificate.parse(self.certificate).accesses() if self.grade_of else ():
            grade = self.grade_of(access.list, access.object) if self.grade_of else None
            if grade != access.grade:
                return Disagrees(access, grade)
        return self.core.judge(self.certificate.encode())


def named_answer(
    asked: Question,
    given: Answer,
    core: Core,
    key_of: Callable[[int], Any],
    grade_of: GradeOf,
    value_of_object: ValueOf,
    rounding: Rounding | None = None,
) -> NamedAnswer:
    """The core's answer to a question with keys, grades and values. Without a rounding the grades are those of the
    certificate alone.
    """
    names = names_in(asked.expression)
    rows = []
    for item, low, high in given.objects:
        grades = {name: grade_of(name, item) for name in names}
        values = {name: value_of_object(name, item) for name in names}
        rows.append(Row(0, key_of(item), _score(asked, grades, low, high), values, grades, item, low, high))
    rows.sort(key=lambda row: -row.score)
    return NamedAnswer(
        tuple(dataclasses.replace(row, place=place) for place, row in enumerate(rows, 1)),
        given.query,
        asked.choice.algorithm,
        asked.choice.why,
        given.count,
        asked.factor,
        value_of(asked.expression, dict.fromkeys(names, MAX_GRADE)),
        Certificate.parse(given.certificate).guarantee,
        rounding,
        given.depth,
        given.sorted,
        given.random,
        given.cost,
        given.certificate,
        core,
        grade_of if rounding else None,
    )


def _score(asked: Question, grades: Mapping[str, int | None], low: int, high: int) -> int:
    """The score of a row with these grades, or the least that is possible where one isn't known."""
    known = {name: grade for name, grade in grades.items() if grade is not None}
    score = value_of(asked.expression, known) if len(known) == len(grades) else low
    if not low <= score <= high:
        raise NoCore(f"what answered isn't topk: it states {low} and {high} for a row with the score {score}")
    return score


def rounding_of(asked: Question, errors: Mapping[str, Fraction], outside: Mapping[str, int]) -> Rounding:
    """What the rounding may do to the order of an answer, where each list's grades are off by so much at most."""
    return Rounding(2 * spread(asked.expression, errors), {name: 2 * error for name, error in errors.items()}, outside)
