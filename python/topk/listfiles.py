"""What is wrong with list files: rows out of order, twice, without numbers or too high, and objects that other lists
lack, each with its file and its line.
"""
from __future__ import annotations

import pathlib
import re
from collections.abc import Iterator, Mapping
from typing import NamedTuple

from topk.limits import MAX_GRADE, MAX_OBJECT, MAX_ROWS

__all__ = ["ListFile", "missing", "read_list"]

MAX_BYTES = 16_777_216
HEADER = "object,grade"
_ROW = re.compile(r"([0-9]+),([0-9]+)", re.ASCII)


class ListFile(NamedTuple):
    """A list file: the line of each object, and what is wrong."""

    path: pathlib.Path
    lines: dict[int, int]
    """The line of each object, where it stands first."""
    faults: list[str]


def read_list(path: pathlib.Path) -> ListFile:
    """Reads a list file whose rows may be anything."""
    try:
        size = path.stat().st_size
        text = path.read_text(encoding="utf-8", errors="replace")
    except OSError as fault:
        return ListFile(path, {}, [f"{path}: {fault.strerror}"])
    lines: dict[int, int] = {}
    faults = [f"{path}, line {number}: {what}" for number, what in _faults(text, lines)]
    if size > MAX_BYTES:
        faults.insert(0, f"{path}: it has {size} bytes, and a list file has at most {MAX_BYTES}")
    if len(lines) > MAX_ROWS:
        faults.insert(0, f"{path}: it has {len(lines)} rows, and a list has at most {MAX_ROWS}")
    return ListFile(path, lines, faults)


def _faults(text: str, places: dict[int, int]) -> Iterator[tuple[int, str]]:
    """The lines at fault, each with what is wrong; notes where each object stands."""
    last = MAX_GRADE
    for number, line in enumerate(text.split("\n"), 1):
        line = line[:-1] if line.endswith("\r") else line
        if not line or (number == 1 and line == HEADER):
            continue
        found = _ROW.fullmatch(line)
        if found is None or len(line) > 40:
            yield number, f"{line[:60]!r} is no object and grade, two whole numbers with a comma between them"
            continue
        item, grade = int(found[1]), int(found[2])
        if item > MAX_OBJECT:
            yield number, f"the object {item} is above {MAX_OBJECT}"
        elif places.setdefault(item, number) != number:
            yield number, f"the object {item} stands in line {places[item]} already"
        if grade > MAX_GRADE:
            yield number, f"the object {item} has the grade {grade}, which is above {MAX_GRADE}"
        elif grade > last:
            yield number, f"the object {item} has the grade {grade}, which is above the {last} of the row over it"
        last = min(grade, MAX_GRADE)


def missing(files: Mapping[str, ListFile]) -> Iterator[str]:
    """Objects that a list has and another one lacks, which each have to be in all, with the line of one."""
    every: dict[int, str] = {}
    for name, file in files.items():
        for item in file.lines.keys() - every.keys():
            every[item] = name
    for name, file in files.items():
        lacks = sorted(every.keys() - file.lines.keys())
        if lacks:
            other = files[every[lacks[0]]]
            more = f", and {len(lacks) - 1} more that other lists have" if len(lacks) > 1 else ""
            yield (
                f"{file.path}: it lacks the object {lacks[0]} of line {other.lines[lacks[0]]} of {other.path}{more}"
            )
