"""`explain`: what the program printed, in sentences."""
from __future__ import annotations

import argparse
import pathlib
import sys
from collections.abc import Callable, Iterable, Iterator
from typing import Any

from topk.catalogs import KEYS, KeyFile, read_keys
from topk.certificates import Certificate
from topk.commands.layout import in_columns
from topk.commands.words import add_command
from topk.expressions import Combined, Expression, Named, Weighted, names_in, parsed
from topk.faults import TableError
from topk.sentences import of_line, of_status

__all__ = ["add_to", "explained"]

EXAMPLE = """  echo 'top 5 by sum(price,rating) using ta' | topk run catalog.csv | python3 -m topk explain

  in a folder that `python3 -m topk lists` wrote, where keys.csv is."""
_AGGREGATES = {"sum": "the sum of", "min": "the least of", "max": "the greatest of", "median": "the median of"}


def add_to(commands: Any) -> None:
    """Adds the command."""
    does = "say in sentences what the program answered, and why it refused"
    made = add_command(commands, "explain", explain, does, EXAMPLE)
    made.add_argument("files", nargs="*", metavar="FILE", help="what the program printed (standard input)")
    made.add_argument("--keys", metavar="FILE", help=f"which number stands for which key ({KEYS}, where it is there)")
    made.add_argument("--status", type=int, action="append", default=[], metavar="N", help="an exit status to explain")


def explain(given: argparse.Namespace) -> int:
    """Prints what the files, or standard input, mean. Ends with 1 where nothing in them is of topk."""
    known = read_keys(pathlib.Path(given.keys or KEYS)) if given.keys or pathlib.Path(KEYS).exists() else KeyFile()
    for status in given.status:
        said = of_status(status)
        print(f"Status {status}: {said.sentence} {said.cure}")
    texts = [pathlib.Path(it).read_text(encoding="utf-8", errors="replace") for it in given.files]
    if not texts and not given.status:
        texts = [sys.stdin.buffer.read().decode(errors="replace")]
    if any(not text.strip() for text in texts):
        raise TableError("there is nothing to explain: topk printed nothing, and its exit status says why (--status)")
    for text in texts:
        print("\n\n".join(explained(text, known)))
    return 0


def explained(text: str, known: KeyFile = KeyFile()) -> Iterator[str]:
    """What each part of a text means: a certificate, a refusal or a verdict.

    >>> list(explained("refused 2 UnknownList prize"))
    ['Line 2: There is no list prize. Name a list of the catalog, or of the bundle, in the same upper and lower case.']
    """

    def name_of(item: str) -> str:
        return f"{item} ({known.keys[int(item)]})" if item.isdecimal() and int(item) in known.keys else item

    for part in _parts(text):
        if part.startswith("certificate"):
            yield _certificate(part, known)
        else:
            yield _refusal(part, name_of)


def _parts(text: str) -> Iterator[str]:
    """Certificates, each whole, and what stands between them, line by line. Behind a verdict that the answer is beaten
    stands the counterexample.
    """
    lines = iter(text.splitlines())
    for line in lines:
        if line.startswith("certificate "):
            yield "\n".join([line, *_up_to_end(lines)]) + "\n"
        elif line.startswith("beaten "):
            yield "\n".join([line, *lines])
        elif line:
            yield line


def _up_to_end(lines: Iterable[str]) -> Iterator[str]:
    for line in lines:
        yield line
        if line == "end":
            return


def _refusal(part: str, name_of: Callable[[str], str]) -> str:
    line, _, counter = part.partition("\n")
    said = of_line(line, name_of)
    if said is None:
        raise TableError(f"{line[:80]!r} is no line that topk prints for an answer, a refusal or a verdict")
    words = line.split(" ")
    where = f"Line {words[1]}: " if words[0] == "refused" and words[1].isdecimal() else ""
    whole = f"{where}{said.sentence} {said.cure}".rstrip()
    if not counter:
        return whole
    named = [f"  {_named(row, name_of)}" for row in counter.splitlines() if _of_objects(row, (words[2], words[6]))]
    return "\n".join([whole, *named])


def _of_objects(row: str, objects: tuple[str, ...]) -> bool:
    """Whether a line of the table names a list, or is a row of one of these objects."""
    return row.startswith("list ") or row.partition(",")[0] in objects


def _named(row: str, name_of: Callable[[str], str]) -> str:
    item, comma, grade = row.partition(",")
    return f"  {name_of(item)}: {grade}" if comma else row


def _certificate(text: str, known: KeyFile) -> str:
    """What a certificate answers: its rows, with their keys, values and grades, and how it was found."""
    try:
        made = Certificate.parse(text)
        asked = parsed(made.answer.query.split(" ")[3])
    except (ValueError, IndexError) as fault:
        raise TableError(f"a certificate is cut off, or was changed: {fault}") from None
    answer, names = made.answer, names_in(asked)
    items = {it.object for it in answer.objects}
    grades = {(it.list, it.object): it.grade for it in made.accesses() if it.object in items}

    def cell(name: str, item: int) -> str:
        value, grade = known.values.get(name, {}).get(item), str(grades.get((name, item), "not read"))
        return f"{value} ({grade})" if value else grade

    rows = [
        [
            str(place),
            known.keys.get(it.object, str(it.object)),
            str(it.low) if it.low == it.high else f"{it.low} to {it.high}",
            *(cell(name, it.object) for name in names),
        ]
        for place, it in enumerate(answer.objects, 1)
    ]
    where = f"Line {made.line}: the" if made.line > 1 else "The"
    best = f"best {len(rows)} of {answer.count} objects by {_in_words(asked)}"
    return "\n".join([
        f"{where} {best}:" if len(rows) > 1 else f"{where} {best.replace(' 1 ', ' ', 1)}:",
        in_columns(["place", "key" if known.keys else "object", "score", *names], rows),
        *(["In parentheses stand the grades."] if any(name in known.values for name in names) else []),
        *_figures(made),
    ])  # fmt: skip


def _figures(made: Certificate) -> Iterator[str]:
    """What is to be known of an answer beside its rows."""
    answer = made.answer
    if made.guarantee:
        above, below = made.guarantee
        yield f"No object outside has more than {above}/{below} times the score of one inside."
    else:
        yield "No object outside has a higher score than one inside."
    if any(it.low < it.high for it in answer.objects):
        yield "Not each score was read to its end: it is between the two bounds."
    yield (
        f"Read {answer.depth} rows deep: {answer.sorted} rows and {answer.random} single grades, "
        f"at a cost of {answer.cost}. `topk judge` takes the text as evidence."
    )
    for name, version in made.versions.items():
        yield f"The list {name} was of version {version}."


def _in_words(asked: Expression) -> str:
    """How grades become scores.

    >>> _in_words(parsed("min(price,wsum(2*rating,1*quiet))"))
    'the least of price and (2 times rating plus quiet)'
    """
    if isinstance(asked, Named):
        return asked.name
    if isinstance(asked, Weighted):
        parts = [_inner(part) if weight == 1 else f"{weight} times {_inner(part)}" for weight, part in asked.parts]
        return " plus ".join(parts)
    assert isinstance(asked, Combined)
    *rest, last = map(_inner, asked.parts)
    return f"{_AGGREGATES[asked.operator]} {', '.join(rest)} and {last}" if rest else last


def _inner(part: Expression) -> str:
    return part.name if isinstance(part, Named) else f"({_in_words(part)})"
