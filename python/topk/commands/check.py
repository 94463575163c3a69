"""`check`: what is wrong with list files, before a query meets it."""
from __future__ import annotations

import argparse
import pathlib
from collections.abc import Iterator
from typing import Any

from topk.catalogs import KEYS, Catalog
from topk.commands.progress import Progress
from topk.commands.words import add_command
from topk.listfiles import ListFile, missing, read_list

__all__ = ["add_to"]

EXAMPLE = """  python3 -m topk check hotels/catalog.csv

  Places of a catalog are relative to its folder. Lists at hosts aren't asked. Ends with 1 where something is wrong."""
SHOWN = 10


def add_to(commands: Any) -> None:
    """Adds the command."""
    does = "say which row of which list file is out of order, twice, no number, too high, or missing elsewhere"
    made = add_command(commands, "check", check, does, EXAMPLE)
    made.add_argument("catalog", metavar="CATALOG", help="a catalog, or the folder in which catalog.csv stands")
    made.add_argument("--all", action="store_true", help=f"print each fault, and not just the first {SHOWN} of a file")


def check(given: argparse.Namespace) -> int:
    """Prints what is wrong with the files of a catalog."""
    catalog = Catalog.read(given.catalog)
    files: dict[str, ListFile] = {}
    with Progress() as progress:
        for name, entry in catalog.entries.items():
            if not entry.is_far:
                progress(f"reading {entry.place}")
                files[name] = read_list(catalog.place_of(name))
        progress("comparing the lists")
        faults = [file.faults for file in files.values()]
        faults.append(list(missing({name: it for name, it in files.items() if it.lines})))
        faults.append(list(_nameless(catalog, files)))
    lines = [line for group in faults for line in _shown(group, given.all)]
    print("\n".join(lines or [_right(catalog, files)]))
    return 1 if lines else 0


def _nameless(catalog: Catalog, files: dict[str, ListFile]) -> Iterator[str]:
    """The first object without a key, where there are keys."""
    for file in files.values() if catalog.keys else ():
        for item, line in file.lines.items():
            if item not in catalog.keys:
                yield f"{catalog.path.parent / KEYS}: it has no key for the object {item} of line {line} of {file.path}"
                return


def _shown(faults: list[str], whole: bool) -> list[str]:
    """The first faults of a file, and how many more there are."""
    left = 0 if whole else max(0, len(faults) - SHOWN)
    return faults if left == 0 else [*faults[:SHOWN], f"  and {left} more there (--all prints them)"]


def _right(catalog: Catalog, files: dict[str, ListFile]) -> str:
    """That nothing is wrong."""
    rows = max((len(it.lines) for it in files.values()), default=0)
    far = len(catalog.entries) - len(files)
    return f"{catalog.path}: {len(files)} list files of {rows} objects, in order." + (
        f" {far} lists are at hosts, which weren't asked." if far else ""
    )
