"""`rank`: the best rows of a table, on the screen or for programs."""
from __future__ import annotations

import argparse
import json
import pathlib
from fractions import Fraction
from typing import Any

from topk.answers import Disagrees, NamedAnswer
from topk.catalogs import write_keys
from topk.certificates import Beaten
from topk.commands.layout import csv_text, in_columns
from topk.commands.progress import Progress
from topk.commands.words import BY, add_command, add_table, criteria_of, table_of
from topk.faults import TableError
from topk.tables import Table

__all__ = ["add_to"]

EXAMPLE = """  python3 -m topk rank hotels.csv --key name --by price:low --by 'rating:high*2' --top 5

  With --certificate hotels.txt the evidence is written, and `topk judge < hotels.txt` judges it. --keys keys.csv lets
  `python3 -m topk explain hotels.txt --keys keys.csv` name its objects."""


def add_to(commands: Any) -> None:
    """Adds the command."""
    made = add_command(commands, "rank", rank, "print the best rows of a table by several criteria", EXAMPLE, BY)
    add_table(made)
    made.add_argument("--top", type=int, default=10, metavar="K", help="how many rows (10)")
    ways = ("sum", "min", "max", "median")
    made.add_argument("--how", default="sum", choices=ways, help="puts grades together (sum)")
    made.add_argument("--score", metavar="EXPRESSION", help="in place of these, as 'min(price,wsum(2*rating))'")
    made.add_argument("--using", metavar="ALGORITHM", help="as in a query line (chosen, and said)")
    made.add_argument("--cost", nargs=2, type=int, metavar=("ROW", "GRADE"), help="what a row and a grade cost (1 1)")
    made.add_argument("--room", type=int, metavar="N", help="how many objects may be seen at most")
    made.add_argument("--check", action="store_true", help="let the core judge the certificate")
    made.add_argument("--certificate", metavar="FILE", help="write the certificate there")
    made.add_argument("--keys", metavar="FILE", help="write there which number stands for which key, and the values")
    form = made.add_mutually_exclusive_group()
    form.add_argument("--json", action="store_true", help="as one JSON object")
    form.add_argument("--csv", action="store_true", help="as CSV, the rows alone")


def rank(given: argparse.Namespace) -> int:
    """Prints the best rows."""
    with Progress() as progress:
        table = table_of(given, progress)
        progress("asking")
        answer = _asked(table, given)
        verdict = None
        if given.check:
            progress("judging")
            verdict = _verdict(answer)
        if given.certificate:
            pathlib.Path(given.certificate).write_text(answer.certificate, encoding="utf-8")
        if given.keys:
            values = {it.name: table.column(it.column) for it in table.criteria.values()}
            write_keys(given.keys, table.objects, table.keys, values)
    names = {it.name: it.column for it in table.criteria.values() if it.name in answer[0].values}
    if given.json:
        print(json.dumps(_as_json(answer, names, verdict), ensure_ascii=False, indent=1))
    elif given.csv:
        print(csv_text(*_as_rows(answer, names, table.key or "row")), end="")
    else:
        print("\n".join(_as_lines(answer, names, table.key or "row", verdict)))
    return 0 if verdict is None or verdict == "fixes" else 1


def _asked(table: Table, given: argparse.Namespace) -> NamedAnswer:
    weights = [it.weight for it in given.by]
    by: Any = given.score or dict(zip([it.name for it in criteria_of(given.by, table)], weights))
    if given.score and (given.how != "sum" or set(weights) != {Fraction(1)}):
        raise TableError("--score says how grades become scores, so that --how and weights have no place beside it")
    cost = None if given.cost is None else (given.cost[0], given.cost[1])
    return table.top(given.top, by, how=given.how, algorithm=given.using, cost=cost, room=given.room)


def _verdict(answer: NamedAnswer) -> str:
    """What became of the check, in a word or a sentence."""
    found = answer.check()
    if isinstance(found, Disagrees):
        return f"the access {' '.join(map(str, found.access))} isn't what the table has"
    if isinstance(found, Beaten):
        return f"beaten by the object {found.outside}"
    return "fixes"


def _as_rows(answer: NamedAnswer, names: dict[str, str], key: str) -> tuple[list[str], list[list[Any]]]:
    """The header and the rows: place, key, the criteria's own values, and the score."""
    header = ["place", key, *names.values(), "score"]
    rows = [[row.place, row.key, *(row.values[name] for name in names), _score(row.score, answer)] for row in answer]
    return header, rows


def _score(score: int, answer: NamedAnswer) -> str:
    """A score as a part of the best that is possible, rounded to six digits behind the point.

    >>> from types import SimpleNamespace
    >>> _score(2, SimpleNamespace(most=3))
    '0.666667'
    """
    return f"{score / answer.most if answer.most else 0:.6f}"


def _as_lines(answer: NamedAnswer, names: dict[str, str], key: str, verdict: str | None) -> list[str]:
    """The rows in columns, and what has to be known of them."""
    header, rows = _as_rows(answer, names, key)
    lines = [in_columns(header, [["" if it is None else str(it) for it in row] for row in rows]), ""]
    lines.append(f"Of {answer.count} rows. A score of 1 would be best by each criterion.")
    lines.append(f"Asked: {answer.query}")
    lines.append(f"The algorithm {answer.algorithm} was taken, since {answer.why}.")
    lines.append(f"It read {answer.depth} rows deep: {answer.sorted} rows and {answer.random} single grades.")
    if answer.guarantee:
        above, below = answer.guarantee
        lines.append(f"No row outside has more than {above}/{below} times the score of one inside.")
    if answer.rounding:
        parts = float(1_000_000 * answer.rounding.score / (answer.most or 1))  # As the scores are shown.
        lines.append(answer.rounding.in_words(f"{parts:g} in 1,000,000 of the best score"))
        for name, count in answer.rounding.outside.items():
            lines += [f"{count} values of {names[name]} are beyond the ends of the scale."] if count else []
    if verdict is not None:
        lines.append("Judged: the accesses fix the answer." if verdict == "fixes" else f"Judged: {verdict}.")
    return lines


def _as_json(answer: NamedAnswer, names: dict[str, str], verdict: str | None) -> dict[str, Any]:
    """The whole answer but its certificate."""
    rows = [
        {
            "place": row.place,
            "key": row.key,
            "score": row.score,
            "object": row.object,
            "values": {names[name]: value for name, value in row.values.items()},
            "grades": dict(row.grades),
        }
        for row in answer
    ]
    found: dict[str, Any] = {
        "rows": rows,
        "query": answer.query,
        "algorithm": answer.algorithm,
        "why": answer.why,
        "count": answer.count,
        "most": answer.most,
        "depth": answer.depth,
        "sorted": answer.sorted,
        "random": answer.random,
        "cost": answer.cost,
        "guarantee": answer.guarantee,
        "rounding": float(answer.rounding.score) if answer.rounding else None,
    }
    return found if verdict is None else {**found, "verdict": verdict}
