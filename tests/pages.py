"""Tests of the pages: what they link is there, and so is each page of definitions or proofs, and each file of code, that
they name as `CRATE/PLACE`."""
from __future__ import annotations

import pathlib
import re
from collections.abc import Callable, Iterator

from support import REPOSITORY

CRATES = REPOSITORY / "crates"
# Where a name as `CRATE/PLACE` may stand below its crate.
FORMS = ("{}", "{}.antt", "{}.rt", "specs/{}.antt", "src/{}.rt")


def pages() -> list[pathlib.Path]:
    """The pages of the repository."""
    folders = (REPOSITORY, REPOSITORY / "docs", REPOSITORY / "bench", REPOSITORY / "python", *CRATES.iterdir(),
               REPOSITORY / "examples" / "bridges")
    return sorted(page for folder in folders for page in folder.glob("*.md"))


def links_lead_somewhere(_: str) -> str | None:
    """The links of pages that lead to no file, or None."""
    found = ((page, target.partition("#")[0]) for page in pages()
             for target in re.findall(r"\]\(([^)\s]+)\)", page.read_text(encoding="utf-8")))
    lost = [f"{page.relative_to(REPOSITORY)}: {target}" for page, target in found
            if target and ":" not in target and not (page.parent / target).exists()]
    return "\n".join(lost) or None


def is_there(crate: str, place: str) -> bool:
    """Whether a crate has a page or a file at a place."""
    return any((CRATES / crate / form.format(place)).exists() for form in FORMS)


def named_places_are_there(_: str) -> str | None:
    """The places of crates that pages name and that aren't there, or None."""
    known = {path.name for path in CRATES.iterdir()} - {"examples"}  # There is a folder `examples` at the top too.
    found = ((page, name) for page in pages()
             for name in re.findall(r"`([a-z_0-9]+/[\w/]+)`", page.read_text(encoding="utf-8")))
    lost = [f"{page.relative_to(REPOSITORY)}: {name}" for page, name in found
            if name.partition("/")[0] in known and not is_there(*name.split("/", 1))]
    return "\n".join(lost) or None


def tests() -> Iterator[tuple[str, Callable[[str], str | None]]]:
    """Each test with its name."""
    for test in (links_lead_somewhere, named_places_are_there):
        yield f"pages_{test.__name__}", test
