"""Words that commands share: the table, its criteria and its filters, as they are typed."""
from __future__ import annotations

import argparse
import operator
import re
from collections.abc import Callable, Iterable
from fractions import Fraction
from typing import Any, NamedTuple

from topk.criteria import Criterion, criterion, numbers_in
from topk.faults import TableError, unknown
from topk.questions import weight_of
from topk.scales import reciprocal_rank
from topk.tables import Table
from topk.commands.progress import Progress

__all__ = ["BY", "By", "add_command", "add_table", "by_of", "criteria_of", "table_of"]

BY = """criteria, one after each --by:
  COLUMN[:SETTING ..][*WEIGHT]   as price:low*2, rating:high, metres:low:0..5000

  high, low            which values are best (high)
  min-max              from the worst value there is to the best (the scale, where none is named)
  0..900               from one end to the other; values beyond an end count as the end
  rank                 by place
  reciprocal-rank[=60] by 1 / (60 + place), for reciprocal rank fusion
  missing=GRADE        the grade of a missing value, from 0 to 1000000 (0); missing=refuse refuses it
  name=NAME            what queries and list files call it (the column's name)
  no-grades            nobody may ask its list for the grade of one object

  Quote a criterion with * or blanks for the shell."""
_WEIGHT = re.compile(r"(.+)\*([0-9]+(?:\.[0-9]+)?|\.[0-9]+)")
_ENDS = re.compile(r"([-+0-9.eE]+?)\.\.([-+0-9.eE]+)")
_CONDITION = re.compile(r"(.+?)(<=|>=|!=|=|<|>)(.*)")
_TESTS: dict[str, Callable[[Any, Any], bool]] = {
    "<=": operator.le, ">=": operator.ge, "!=": operator.ne, "=": operator.eq, "<": operator.lt, ">": operator.gt
}  # fmt: skip


class By(NamedTuple):
    """A criterion as it is typed."""

    column: str
    settings: dict[str, Any]
    weight: Fraction


def by_of(word: str) -> By:
    """The criterion that a word says.

    >>> by_of("price:low:0..900*2")
    By(column='price', settings={'scale': (0, 900), 'best': 'low'}, weight=Fraction(2, 1))
    >>> by_of("way:home")
    By(column='way:home', settings={}, weight=Fraction(1, 1))
    """
    found = _WEIGHT.fullmatch(word)
    column, weight = (found[1], weight_of(found[2])) if found else (word, Fraction(1))
    settings: dict[str, Any] = {}
    while ":" in column:
        rest, _, last = column.rpartition(":")
        setting = _setting(last)
        if setting is None or not rest:
            break
        if setting[0] in settings:
            raise argparse.ArgumentTypeError(f"{word!r} has two settings of one kind: {last!r} is one of them")
        settings[setting[0]], column = setting[1], rest
    return By(column, settings, weight)


def _setting(word: str) -> tuple[str, Any] | None:
    """What a word after a colon sets; None where it sets nothing, and so is part of a column's name."""
    name, equals, value = word.partition("=")
    ends = _ENDS.fullmatch(word)
    if word in ("high", "low"):
        return "best", word
    if word in ("min-max", "rank", "reciprocal-rank"):
        return "scale", word
    if ends:
        return "scale", (_number(ends[1]), _number(ends[2]))
    if name == "reciprocal-rank" and value.isdecimal():
        return "scale", reciprocal_rank(int(value))
    if name == "missing" and equals:
        return name, int(value) if value.isdecimal() else value
    if name == "name" and equals:
        return name, value
    return ("grades", False) if word == "no-grades" else None


def _number(text: str) -> int | float:
    try:
        return float(text) if re.search("[.eE]", text) else int(text)
    except ValueError:
        raise argparse.ArgumentTypeError(f"{text!r} is no number") from None


def add_command(
    commands: Any, name: str, run: Callable[[argparse.Namespace], int], does: str, example: str, more: str = ""
) -> argparse.ArgumentParser:
    """Adds a command with an example in its help."""
    made: argparse.ArgumentParser = commands.add_parser(
        name,
        help=does,
        description=does[:1].upper() + does[1:] + ".",
        epilog=f"{more}{more and chr(10) * 2}example:\n{example}",
        formatter_class=argparse.RawDescriptionHelpFormatter,
        allow_abbrev=False,
    )
    made.set_defaults(command=run)
    return made


def add_table(to: argparse.ArgumentParser) -> None:
    """Adds the words of a table and its criteria."""
    to.add_argument("table", metavar="FILE.csv", help="the table: CSV whose first line names the columns")
    to.add_argument("--key", metavar="COLUMN", help="the column that names a row (the row's number)")
    to.add_argument(
        "--by", type=by_of, action="append", required=True, metavar="CRITERION", help="a criterion, as below; repeat it"
    )
    to.add_argument(
        "--where", action="append", default=[], metavar="CONDITION",
        help="rows that count, as 'city=Rome' or 'price<90'; repeat it",
    )  # fmt: skip
    to.add_argument("--delimiter", default=",", metavar="C", help="what parts the fields of a line (,)")
    to.add_argument("--encoding", default="utf-8-sig", metavar="NAME", help="of the file (utf-8)")


def table_of(given: argparse.Namespace, progress: Progress) -> Table:
    """The table that the words name, with its criteria, whose lists are made."""
    if len(given.delimiter) != 1:
        raise TableError(f"a delimiter is one character, and not {given.delimiter!r}")
    progress(f"reading {given.table}")
    table = Table.from_csv(given.table, given.key, delimiter=given.delimiter, encoding=given.encoding)
    for condition in given.where:
        progress(f"keeping the rows with {condition}")
        table = _kept(table, condition)
    table = table.with_criteria(*criteria_of(given.by, table))
    for number, name in enumerate(table.criteria, 1):
        progress(f"ranking by {name}, {number} of {len(table.criteria)}")
        table.ranked_list(name)
    return table


def criteria_of(by: Iterable[By], table: Table) -> list[Criterion]:
    """The criteria, whose columns are there and whose names differ."""
    made: dict[str, Criterion] = {}
    for column, settings, _ in by:
        table.column(column)
        it = criterion(column, **settings)
        if it.name in made:
            raise TableError(f"two criteria are called {it.name!r}: give one another name, as {column}:name=other")
        made[it.name] = it
    return list(made.values())


def _kept(table: Table, condition: str) -> Table:
    """The rows of a table that a condition lets through: by numbers where the cells are numbers, else as texts."""
    found = _CONDITION.fullmatch(condition)
    if found is None:
        raise TableError(f"{condition!r} is no condition: write a column, then =, !=, <, <=, > or >=, then a value")
    column, sign, wanted = found[1].strip(), found[2], found[3].strip()
    if column not in table.columns:
        raise unknown("column", column, table.columns)
    test = _TESTS[sign]
    try:
        bound = float(wanted)
        cells: list[Any] = numbers_in(table.column(column), column, None, str)
    except (TableError, ValueError):
        if sign not in ("=", "!="):
            raise TableError(f"{sign} compares numbers, and {condition!r} hasn't such on both sides") from None
        return table.where({column: lambda cell: test(cell.strip(), wanted)})
    kept = iter([cell is not None and test(cell, bound) for cell in cells])
    return table.where(lambda row: next(kept))
