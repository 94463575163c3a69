"""`lists`: a table's criteria as list files, with a catalog and the keys."""
from __future__ import annotations

import argparse
import shlex
from fractions import Fraction
from typing import Any

from topk.catalogs import Catalog
from topk.commands.progress import Progress
from topk.commands.words import BY, add_command, add_table, criteria_of, table_of
from topk.questions import question

__all__ = ["add_to"]

EXAMPLE = """  python3 -m topk lists hotels.csv --key name --by price:low --by 'rating:high*2' --out hotels

  writes hotels/catalog.csv, hotels/keys.csv and hotels/lists/*.csv. In the folder hotels the program's `run`, `node`
  and `serve` take catalog.csv, and `python3 -m topk explain` finds keys.csv."""


def add_to(commands: Any) -> None:
    """Adds the command."""
    does = "write list files, a catalog and the keys for topk's commands run, node and serve"
    made = add_command(commands, "lists", lists, does, EXAMPLE, BY)
    add_table(made)
    made.add_argument("--out", required=True, metavar="FOLDER", help="the folder, which is made where it isn't there")


def lists(given: argparse.Namespace) -> int:
    """Writes the lists, and prints what may be done with them."""
    with Progress() as progress:
        table = table_of(given, progress)
        made = table.write_lists(given.out, progress=lambda file: progress(f"writing {file}"))
    names = [it.name for it in criteria_of(given.by, table)]
    print(f"{made.path}: {len(names)} lists of {len(table)} rows, {', '.join(names)}. Ask them, in that folder:")
    print(f"  echo {shlex.quote(_query(made, dict(zip(names, (it.weight for it in given.by)))))} \\")
    print(f"    | topk run {made.path.name} | python3 -m topk explain")
    return 0


def _query(made: Catalog, weights: dict[str, Fraction]) -> str:
    """A query over the lists: of the first eight, as many as a query takes."""
    by = dict(list(weights.items())[:8])
    without = [name for name, entry in made.entries.items() if not entry.random]
    return question(
        5, by, "sum", str, rows=max(1, len(made.keys)), algorithm=None, cost=None, room=None, without_grades=without
    ).query
