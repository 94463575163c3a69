"""Which algorithm answers a question, where none is named."""
from __future__ import annotations

from collections.abc import Collection
from typing import NamedTuple

from topk.faults import TableError

__all__ = ["Choice", "chosen"]


class Choice(NamedTuple):
    """An algorithm, and why it is the one."""

    algorithm: str
    why: str


def chosen(
    lists: Collection[str],
    without_grades: Collection[str],
    without_order: Collection[str],
    operators: Collection[str],
    cost: tuple[int, int],
) -> Choice:
    """The algorithm for lists, of which some can't be asked for one object's grade and some can't be read from the
    top, by the costs of a sorted and a random access.

    >>> chosen(["a", "b"], [], [], ["sum"], (1, 1))
    Choice(algorithm='ta', why='each list gives grades, and a grade costs no more than a row')
    >>> chosen(["a", "b"], ["b"], [], ["sum"], (1, 1))
    Choice(algorithm='nra', why='the list b gives no grades')
    >>> chosen(["a", "b"], [], [], ["sum"], (1, 10)).algorithm, chosen(["a", "b"], [], [], ["min"], (1, 10)).algorithm
    ('ca', 'nra')
    """
    named, unordered = sorted(set(without_grades) & set(lists)), sorted(set(without_order) & set(lists))
    if named and unordered:
        raise TableError(
            f"no algorithm reads these lists: {', '.join(named)} can't be asked for grades, and "
            f"{', '.join(unordered)} can't be read in order"
        )
    if unordered:
        return Choice("taz", f"{_lists(unordered)} can't be read in order")
    if named:
        return Choice("nra", f"{_lists(named)} {'gives' if len(named) == 1 else 'give'} no grades")
    if cost[1] <= cost[0]:
        return Choice("ta", "each list gives grades, and a grade costs no more than a row")
    if {"min", "median"} & set(operators):
        return Choice("nra", "a grade costs more than a row, and by min or median ca may take long")
    return Choice("ca", "a grade costs more than a row")


def _lists(names: Collection[str]) -> str:
    return f"the list{'s' if len(names) > 1 else ''} {', '.join(names)}"
