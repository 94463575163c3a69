"""Keys of any kind as the numbers that the core calls objects."""
from __future__ import annotations

import array
from collections.abc import Callable, Sequence
from typing import Any

from topk.criteria import is_missing
from topk.faults import TableError
from topk.limits import MAX_OBJECT

__all__ = ["checked_keys", "objects_of"]


def objects_of(keys: Sequence[Any]) -> Sequence[int]:
    """The number of each key. Whole numbers up to 4294967295, and texts that are such numbers, stand for themselves
    where all keys are so; else the keys are numbered from 1, in the order of the rows.

    >>> list(objects_of(["7", "12"])), list(objects_of(["7", "twelve"])), list(objects_of([2**40, 5]))
    ([7, 12], [1, 2], [1, 2])
    """
    kinds = set(map(type, keys))
    if kinds == {int} and 0 <= min(keys) and max(keys) <= MAX_OBJECT:
        return array.array("I", keys)
    if kinds == {str}:
        try:
            numbers = list(map(int, keys))
        except ValueError:
            numbers = []
        if numbers and 0 <= min(numbers) and max(numbers) <= MAX_OBJECT and list(map(str, numbers)) == list(keys):
            return array.array("I", numbers)
    return range(1, len(keys) + 1)


def checked_keys(
    keys: Sequence[Any], column: str, where: Callable[[int], str] = lambda row: f"row {row + 1}"
) -> Sequence[Any]:
    """The keys, where each row has one and no two have the same. Raises TableError else."""
    try:
        if len(set(keys)) == len(keys) and not _has_gaps(keys):
            return keys
    except TypeError:
        raise TableError(f"a key of the column {column} can't be told from others: keys have to be hashable") from None
    places: dict[Any, int] = {}
    for row, key in enumerate(keys):
        if is_missing(key):
            raise TableError(f"{where(row)} has no {column}, which is the key")
        if places.setdefault(key, row) != row:
            raise TableError(
                f"{where(row)} has the key {key!r} of {where(places[key])}: each row needs a key of its own"
            )
    return keys


def _has_gaps(keys: Sequence[Any]) -> bool:
    """Whether some key is missing."""
    kinds = set(map(type, keys))
    if kinds == {int}:
        return False
    return not all(map(str.strip, keys)) if kinds == {str} else any(map(is_missing, keys))
