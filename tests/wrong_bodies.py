#!/usr/bin/env python3
"""Wrong bodies that the prover must refuse, beside those in the crates' `must-fail/`, which the gate tries each time.

Use, from anywhere: python3 tests/wrong_bodies.py [--anew | --stale] [CRATE ..]      all crates where none is named

A folder of wrong_bodies/ is a crate's, each file one edit as `rt must-fail` reads it. They are tried on a copy of the
tree. The first edit of a crate takes as long as a check of it, each further one some 10 to 30 s, so all take more than
an hour. What was refused is written into wrong_bodies/tried.txt with its day and a checksum of what it rests on: the
text of the crate, the statements (src and specs) of the crates below it, and the edit. While that stays the same it
isn't tried again, but with --anew. Ends with the status 0 exactly where each was refused, now or by its record. With
--stale none is tried: those without a record that holds are printed, and where there is one the status is 1.

tests/run.py says which edits can't be applied to the text of their crate, also those of the gate, and notes how many
have no record that holds.
"""
from __future__ import annotations

import argparse
import datetime
import functools
import hashlib
import pathlib
import shutil
import subprocess
import sys
import tempfile
from collections.abc import Callable, Iterable, Iterator, Mapping

ROOT = pathlib.Path(__file__).resolve().parent.parent
BODIES = ROOT / "tests" / "wrong_bodies"
RECORDS = BODIES / "tried.txt"
HEAD = "# Wrong bodies that were refused: the edit, a checksum of what that rests on, and the day (wrong_bodies.py).\n"


def wrong_with(edit: pathlib.Path, crate: pathlib.Path) -> str | None:
    """Why an edit can't be applied to a crate, or None: each text that it takes away has to stand once, after what was
    put before."""
    texts: dict[str, str] = {}
    path, old = "", None
    for line in edit.read_text(encoding="utf-8").splitlines():
        word, _, rest = line.partition(": ")
        if word == "file":
            if not (crate / rest).is_file():
                return f"{edit}: there is no file {rest}"
            path = rest
            texts.setdefault(path, (crate / path).read_text(encoding="utf-8"))
        elif word == "old":
            old = rest
        elif word.startswith("new"):
            if old is None or texts.get(path, "").count(old) != 1:
                return f"{edit}: the text {old!r} doesn't stand once in {path or 'a file'}"
            texts[path], old = texts[path].replace(old, rest), None
    return None if texts else f"{edit}: changes no file"


def edits_apply(edits: Iterable[tuple[pathlib.Path, pathlib.Path]]) -> str | None:
    """The edits, each with its crate, that can't be applied, a line each, or None."""
    return "\n".join(filter(None, (wrong_with(*it) for it in edits))) or None


def wrong_bodies_apply(_: str) -> str | None:
    """The wrong bodies beside the gate's that their crate's text doesn't fit any more, or that stand twice."""
    edits = [(it, ROOT / "crates" / it.parent.name) for it in sorted(BODIES.glob("*/*.edit"))]
    twice = [str(edit) for edit, crate in edits if (crate / "must-fail" / edit.name).exists()]
    return edits_apply(edits) or ("\n".join(f"{it} stands in the gate too" for it in twice) or None)


def must_fail_apply(_: str) -> str | None:
    """The edits of the gate that their crate's text doesn't fit any more."""
    return edits_apply((it, it.parent.parent) for it in sorted(ROOT.glob("crates/*/must-fail/*.edit")))


def wrong_bodies_tried(_: str) -> str | None:
    """Notes how many wrong bodies have no record that holds. That is no failure: all are tried before a release."""
    number = len(stale("*"))
    if number:
        print(f"note: {number} of {len(list(BODIES.glob('*/*.edit')))} wrong bodies weren't tried on this text: "
              "`make wrong-bodies` tries them", file=sys.__stdout__)
    return None


def records() -> dict[str, tuple[str, str]]:
    """Of each edit that was refused, its checksum and its day."""
    if not RECORDS.exists():
        return {}
    lines = (line.split() for line in RECORDS.read_text(encoding="utf-8").splitlines() if not line.startswith("#"))
    return {name: (checksum, day) for name, checksum, day in lines}


def write_records(kept: Mapping[str, tuple[str, str]]) -> None:
    """Writes the records of the edits that are still there."""
    there = (f"{name_of(it)} {' '.join(kept[name_of(it)])}\n" for it in sorted(BODIES.glob("*/*.edit"))
             if name_of(it) in kept)
    RECORDS.write_text(HEAD + "".join(there), encoding="utf-8")


def name_of(edit: pathlib.Path) -> str:
    """An edit in the records."""
    return f"{edit.parent.name}/{edit.stem}"


def holds(edit: pathlib.Path, kept: Mapping[str, tuple[str, str]]) -> bool:
    """Whether an edit was refused on this text."""
    return kept.get(name_of(edit), ("", ""))[0] == checksum_of(edit)


def stale(name: str) -> list[pathlib.Path]:
    """The edits of a crate, of all by *, that have no record that holds."""
    kept = records()
    return [it for it in sorted(BODIES.glob(f"{name}/*.edit")) if not holds(it, kept)]


@functools.lru_cache(None)
def crates() -> dict[str, list[str]]:
    """The crates of crates.txt, each with those of them that it names."""
    lines = (line.split("#")[0] for line in (ROOT / "crates.txt").read_text(encoding="utf-8").splitlines())
    parts = [line.partition(":") for line in lines if line.strip()]
    named = {head.split()[0]: rest.split() for head, _, rest in parts}
    return {name: [it for it in rest if it in named] for name, rest in named.items()}


@functools.lru_cache(None)
def below(name: str) -> frozenset[str]:
    """The crates below one."""
    return frozenset().union(*({it} | below(it) for it in crates()[name]))


@functools.lru_cache(None)
def digest(name: str, folders: tuple[str, ...]) -> bytes:
    """A checksum of some folders of a crate."""
    made = hashlib.sha256()
    for folder in folders:
        for path in sorted((ROOT / "crates" / name / folder).rglob("*")):
            if path.is_file():
                made.update(f"{path.relative_to(ROOT)}\0".encode() + path.read_bytes() + b"\0")
    return made.digest()


def checksum_of(edit: pathlib.Path) -> str:
    """A checksum of what it rests on that the prover refuses an edit."""
    name = edit.parent.name
    made = hashlib.sha256(edit.read_bytes() + digest(name, ("src", "specs", "proofs")))
    for it in sorted(below(name)):
        made.update(digest(it, ("src", "specs")))
    return made.hexdigest()[:16]


def copy_tree(place: pathlib.Path) -> None:
    """Copies the files of the repository, as they stand, without what was built."""
    words = ["git", "ls-files", "-z", "--cached", "--others", "--exclude-standard"]
    listed = subprocess.run(words, cwd=ROOT, check=True, stdout=subprocess.PIPE, text=True).stdout
    for name in filter(None, listed.split("\0")):
        if (ROOT / name).is_file():
            (place / name).parent.mkdir(parents=True, exist_ok=True)
            shutil.copy2(ROOT / name, place / name)


def refuses(copy: pathlib.Path, name: str, edits: Iterable[pathlib.Path]) -> bool:
    """Whether the prover refuses each of these wrong bodies of a crate, in a copy of the tree."""
    folder = copy / "crates" / name / "must-fail"
    shutil.rmtree(folder, ignore_errors=True)
    folder.mkdir()
    for edit in edits:
        shutil.copy2(edit, folder)
    return subprocess.run(["rt", "must-fail", name], cwd=copy, check=False).returncode == 0


def try_all(names: Iterable[str], anew: bool) -> list[str]:
    """Tries the wrong bodies of crates that have no record that holds, or all, and answers the crates of which one
    wasn't refused, or wasn't tried."""
    kept, failed, day = records(), [], datetime.date.today().isoformat()
    with tempfile.TemporaryDirectory() as place:
        copy_tree(pathlib.Path(place))
        for name in names:
            edits = sorted((BODIES / name).glob("*.edit")) if anew else stale(name)
            if edits and not refuses(pathlib.Path(place), name, edits):
                failed.append(name)
                continue
            kept.update({name_of(it): (checksum_of(it), day) for it in edits})
            write_records(kept)
    return failed


def main() -> int:
    """Tries the wrong bodies that the words name, and answers the status."""
    known = sorted(it.name for it in BODIES.iterdir() if it.is_dir())
    parser = argparse.ArgumentParser(description="Wrong bodies that the prover must refuse.")
    which = parser.add_mutually_exclusive_group()
    which.add_argument("--anew", action="store_true", help="try those too that were refused on this text")
    which.add_argument("--stale", action="store_true", help="try none, and print those without a record that holds")
    parser.add_argument("crates", nargs="*", metavar="CRATE", help=f"all if none is named: {', '.join(known)}")
    given = parser.parse_args()
    unknown = sorted(set(given.crates) - set(known))
    if unknown:
        parser.error(f"no wrong bodies of {', '.join(unknown)}")
    if given.stale:
        left = [name_of(edit) for name in given.crates or known for edit in stale(name)]
        print("\n".join(left) or "each has a record that holds")
        return 1 if left else 0
    failed = try_all(given.crates or known, given.anew)
    print(f"not refused, or not tried: {' '.join(failed)}" if failed else "each was refused")
    return 1 if failed else 0


def tests() -> Iterator[tuple[str, Callable[[str], str | None]]]:
    """Each test with its name."""
    for test in (wrong_bodies_apply, must_fail_apply, wrong_bodies_tried):
        yield test.__name__, test


if __name__ == "__main__":
    sys.exit(main())
