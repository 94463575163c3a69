"""Certificates and verdicts, taken apart."""
from __future__ import annotations

import dataclasses
from collections.abc import Iterable, Iterator
from typing import NamedTuple, Union

from topk.faults import NoCore, Refused

__all__ = [
    "Access",
    "Answer",
    "Beaten",
    "Certificate",
    "Fixes",
    "Ranked",
    "Verdict",
    "answer_in",
    "fields_of",
    "verdict_in",
]


class Ranked(NamedTuple):
    """An object of an answer, with the least and the greatest aggregate that it may have."""

    object: int
    low: int
    high: int


class Access(NamedTuple):
    """An access that was charged for."""

    kind: str
    """`s`, a sorted access: the next row of the list; or `r`, a random access: the grade of a named object."""
    list: str
    object: int
    grade: int


@dataclasses.dataclass(frozen=True)
class Answer:
    """The answer to a query: its objects, best first, what it took to find them, and the text that shows it."""

    objects: tuple[Ranked, ...]
    """The k best objects."""
    query: str
    """The query, as it was read."""
    count: int
    """How many objects each list has."""
    depth: int
    """The deepest row that was read."""
    sorted: int
    """How many sorted accesses were made: the next row of a list."""
    random: int
    """How many random accesses were made: the grade of a named object."""
    cost: int
    """What the accesses cost, by the query's costs."""
    certificate: str
    """The certificate, with every access: `judge` and the program's command `judge` take it."""


@dataclasses.dataclass(frozen=True)
class Certificate:
    """A certificate, taken apart: what the lines before the accesses say, and the accesses.

    >>> made = Certificate.parse('''certificate 1
    ... query top 1 by A using ta
    ... count 2
    ... answer 7 900 900
    ... stop depth 1 sorted 1 random 0 cost 1
    ... s A 7 900
    ... end
    ... ''')
    >>> made.answer.objects, list(made.accesses())
    ((Ranked(object=7, low=900, high=900),), [Access(kind='s', list='A', object=7, grade=900)])
    """

    line: int
    """The number of the query line that it answers."""
    answer: Answer
    versions: dict[str, int]
    """The versions that lists stated, by their names; a list without one isn't in here."""
    guarantee: tuple[int, int] | None
    """P and Q: Q times the aggregate of an object outside is at most P times that of one inside. None where the
    answer is the best.
    """

    @classmethod
    def parse(cls, text: str) -> Certificate:
        """The parts of a certificate that the core wrote. Raises ValueError where it is none; `judge` says more of
        such a text.
        """
        head = _Head()
        for line in _lines(text):
            if head.takes(line):
                return cls(head.line, head.answer(text), head.versions, head.guarantee)
        raise ValueError("the text is no certificate: it has no line that begins with 'stop'")

    def accesses(self) -> Iterator[Access]:
        """The accesses, in the order in which they were made."""
        for line in _lines(self.answer.certificate):
            if line.startswith(("s ", "r ")):
                kind, name, item, grade = line.split(" ")
                yield Access(kind, name, int(item), int(grade))


@dataclasses.dataclass(frozen=True)
class Fixes:
    """The accesses of the certificate fix its answer: it is right on every table that agrees with them."""


@dataclasses.dataclass(frozen=True)
class Beaten:
    """The answer is wrong on some table that agrees with the accesses."""

    inside: int
    """An object of the answer."""
    low: int
    """Its aggregate on that table."""
    outside: int
    """An object outside the answer that has more there."""
    high: int
    """Its aggregate on that table."""
    counter: str
    """The table, with the query, as the text of a bundle."""


Verdict = Union[Fixes, Beaten]


class _Head:
    """The lines before the accesses, one after another."""

    def __init__(self) -> None:
        self.line, self.query, self.count = 0, "", 0
        self.versions: dict[str, int] = {}
        self.objects: list[Ranked] = []
        self.guarantee: tuple[int, int] | None = None
        self.figures: dict[str, int] = {}

    def takes(self, line: str) -> bool:
        """Takes a line in; whether it was the last one of the head."""
        word, _, tail = line.partition(" ")
        if word == "certificate":
            self.line = int(tail)
        elif word == "query":
            self.query = tail
        elif word == "count":
            self.count = int(tail)
        elif word == "version":
            name, _, version = tail.partition(" ")
            self.versions[name] = int(version)
        elif word == "answer":
            item, low, high = tail.split(" ")
            self.objects.append(Ranked(int(item), int(low), int(high)))
        elif word == "guarantee":
            above, _, below = tail.partition(" ")
            self.guarantee = int(above), int(below)
        elif word == "stop":
            words = tail.split(" ")
            self.figures = {name: int(figure) for name, figure in zip(words[::2], words[1::2])}
            return True
        else:
            raise ValueError(f"the text is no certificate: {line!r} stands before its accesses")
        return False

    def answer(self, text: str) -> Answer:
        """What these lines say, with the whole text."""
        return Answer(tuple(self.objects), self.query, self.count, certificate=text, **self.figures)


def _lines(text: str) -> Iterator[str]:
    """The lines of a text, without a list of them all."""
    start = 0
    while start < len(text):
        end = text.find("\n", start)
        end = len(text) if end < 0 else end
        yield text[start:end]
        start = end + 1


def fields_of(words: Iterable[str]) -> list[int | str]:
    """The fields of a refusal: numbers, and names of lists."""
    return [int(word) if word.isdecimal() else word for word in words]


def answer_in(text: str) -> Answer:
    """The answer of what `one` and `run` write for a query. Raises Refused where it is a refusal, NoCore where it is
    neither.
    """
    words = text.split("\n", 1)[0].split(" ")
    if words[0] == "refused" and len(words) > 2:
        raise Refused(words[2], fields_of(words[3:]))
    try:
        return Certificate.parse(text).answer
    except (TypeError, ValueError):
        raise NoCore(f"what answered isn't topk: it wrote {text[:100]!r}") from None


def verdict_in(text: str) -> Verdict:
    """The verdict that `judge` writes. Raises Refused where it is a refusal, NoCore where it is neither."""
    head, _, counter = text.partition("\n")
    words = head.split(" ")
    if words == ["fixes"]:
        return Fixes()
    if words[0] == "refused" and len(words) > 1:
        raise Refused(words[1], fields_of(words[2:]))
    if words[0] == "beaten" and len(words) == 9:
        return Beaten(int(words[2]), int(words[4]), int(words[6]), int(words[8]), counter)
    raise NoCore(f"what judged isn't topk: it wrote {text[:100]!r}")
