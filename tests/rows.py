"""The runs of a folder of cases/, and tables of runs as text: the `rows` of such a folder. No test stands here.

    === LABEL                   begins a run, which without a label has what it is given for one. The text behind this
                                line is put behind the folder's `input`
    --- change: OLD => NEW      puts NEW in the place of OLD in the folder's `input`, which has it
    --- words: WORD ..          in the place of the folder's `words`
    --- file: NAME              the text behind this line is a file where the program runs
    --- ends: STATUS            the text behind this line is what the program has to write

Texts and what is changed are as in a string of Python: `\\r`, `\\xff`, and at a line's end `\\` takes the end away.
"""
from __future__ import annotations

import os
import pathlib
import re
from collections.abc import Mapping, Sequence
from typing import NamedTuple


class Row(NamedTuple):
    """A run: what the program is given, and how it has to end."""

    label: str
    words: Sequence[str]
    input: bytes
    files: Mapping[str, bytes]
    status: int
    output: bytes


def spelled(text: str) -> bytes:
    """The bytes that a text spells."""
    return text.encode("ascii").decode("unicode_escape").encode("latin-1")


def changed(given: bytes, change: str) -> bytes:
    """An input with a change made."""
    old, arrow, new = change.partition(" =>")
    if arrow == "" or spelled(old) not in given:
        raise ValueError(f"the input has nothing to change by {change!r}")
    return given.replace(spelled(old), spelled(new[1:]))


def row(text: str, shared: Row) -> Row:
    """The run of a row, from its label on, beside what its folder has."""
    head, *parts = re.split(r"^--- ", text, flags=re.MULTILINE)
    label, _, behind = head.partition("\n")
    label = label or (behind + "".join(parts[:-1])).rstrip("\n").replace("\n", "\\n")
    words, given, files = shared.words, shared.input, dict(shared.files)
    ends: tuple[int, bytes] | None = None
    for part in parts:
        line, _, rest = part.partition("\n")
        kind, _, told = line.partition(": ")
        if kind == "change":
            given = changed(given, told)
        elif kind == "words":
            words = told.split()
        elif kind == "file":
            files[told] = spelled(rest)
        elif kind == "ends":
            ends = int(told), spelled(rest)
        else:
            raise ValueError(f"the row {label!r} has a line {line!r}")
    if ends is None:
        raise ValueError(f"the row {label!r} doesn't end")
    return Row(label, words, given + spelled(behind), files, *ends)


def table(text: str, shared: Row) -> list[Row]:
    """The runs of a table, beside what its folder has. No two have the same label."""
    before, *texts = re.split(r"^=== ?", text, flags=re.MULTILINE)
    found = [row(it, shared) for it in texts]
    labels = [it.label for it in found]
    if before or not found or len(set(labels)) < len(labels):
        raise ValueError(f"no rows, or two of a label: {[it for it in labels if labels.count(it) > 1]}")
    return found


def read(path: pathlib.Path, default: bytes = b"") -> bytes:
    """A file's bytes, or these where there is none."""
    return path.read_bytes() if path.exists() else default


def runs_of(folder: pathlib.Path) -> list[Row]:
    """The runs of a folder: the one that it is, which has no label, or those of its table."""
    below = folder / "files"
    files = {str(it.relative_to(below)): it.read_bytes() for it in below.rglob("*") if it.is_file()}
    words = os.fsdecode(read(folder / "words")).splitlines()
    one = Row("", words, read(folder / "input"), files, int(read(folder / "status", b"0")), read(folder / "output"))
    rows = folder / "rows"
    return table(rows.read_text(encoding="ascii"), one) if rows.exists() else [one]
