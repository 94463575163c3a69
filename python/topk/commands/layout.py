"""Tables as texts: in columns for readers, as CSV and as JSON for programs."""
from __future__ import annotations

import csv
import io
import unicodedata
from collections.abc import Iterable, Sequence

__all__ = ["csv_text", "in_columns"]


def in_columns(header: Sequence[str], rows: Iterable[Sequence[str]]) -> str:
    """Lines of columns: numbers to the right, texts to the left.

    >>> print(in_columns(["place", "name"], [["1", "Adler"], ["10", "Krone"]]))
    place  name
        1  Adler
       10  Krone
    """
    cells = [list(map(_plain, row)) for row in rows]
    columns = list(zip(*cells)) if cells else [()] * len(header)
    right = [bool(column) and all(map(_is_number, column)) for column in columns]
    widths = [max(map(_width, [name, *column])) for name, column in zip(header, columns)]
    lines = []
    for row in [list(header), *cells]:
        parts = [
            " " * (width - _width(cell)) + cell if is_right else cell + " " * (width - _width(cell))
            for cell, width, is_right in zip(row, widths, right)
        ]
        lines.append("  ".join(parts).rstrip())
    return "\n".join(lines)


def csv_text(header: Sequence[str], rows: Iterable[Sequence[object]]) -> str:
    """The same as CSV."""
    text = io.StringIO()
    csv.writer(text, lineterminator="\n").writerows([header, *rows])
    return text.getvalue()


def _plain(cell: str) -> str:
    """A cell without what would move the cursor."""
    return "".join(it if it.isprintable() else "?" for it in cell)


def _width(cell: str) -> int:
    """How many places a text takes on a terminal."""
    return sum(
        0 if unicodedata.combining(it) else 2 if unicodedata.east_asian_width(it) in "WF" else 1 for it in cell
    )


def _is_number(cell: str) -> bool:
    try:
        float(cell or "0")
    except ValueError:
        return False
    return True
