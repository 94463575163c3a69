"""What a call of the library and a process of the program end with: the same statuses and texts."""
from __future__ import annotations

from collections.abc import Callable

from topk.certificates import Answer, Verdict, answer_in, fields_of, verdict_in
from topk.faults import NoCore, Refused
from topk.limits import MAX_INPUT

__all__ = ["MEMORY", "answered", "judged"]

DONE, REFUSED, MEMORY, LONG, NO_BUNDLE = 0, 1, 8, 9, 10


def answered(status: int, text: str, place: Callable[[int], str] = lambda line: "") -> Answer:
    """The answer to a query. `place` says which row a line of the bundle is, where no text of the bundle was at hand.

    Raises Refused where there is no answer, MemoryError where memory was refused.
    """
    _ended(status)
    if status == NO_BUNDLE:
        fields = fields_of(text.split()[2:])
        raise Refused("NoBundle", fields, place(int(fields[0])))
    return answer_in(text)


def judged(status: int, text: str) -> Verdict:
    """The verdict on a certificate. Raises Refused where there is none, MemoryError where memory was refused."""
    _ended(status)
    return verdict_in(text)


def _ended(status: int) -> None:
    """Raises the error of a status without a text."""
    if status == MEMORY:
        raise MemoryError("topk was refused memory")
    if status == LONG:
        raise Refused("LongInput", (MAX_INPUT,))
    if status not in (DONE, REFUSED, NO_BUNDLE):
        raise NoCore(f"what was asked isn't topk, or was ended from outside: it ended with {status}")
