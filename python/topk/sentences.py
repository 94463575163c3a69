"""What topk says, in sentences: what each refusal, verdict and status means, and what to do about it.

The sentences stand in `refusals.js` beside this file, a copy of the one that the page of certificates reads: it is
JSON from its first brace to its last.
"""
from __future__ import annotations

import functools
import json
import pathlib
import re
from collections.abc import Callable, Sequence
from typing import NamedTuple

__all__ = ["Entry", "Meaning", "entries", "meaning", "of_line", "of_status"]


class Entry(NamedTuple):
    """An entry of the file."""

    kind: str
    """What is meant: `query`, `command`, `judge`, `inconsistency`, `verdict` or `status`."""
    fields: tuple[str, ...]
    sentence: str
    """What it means, where a field's name in braces stands for the field."""
    cure: str
    """What to do, in the same way."""


class Meaning(NamedTuple):
    """What a line means, and what to do."""

    kind: str
    sentence: str
    cure: str


UNHEARD = Meaning("", "topk gave no answer, for the reason that the line names.", "")
_LINE = re.compile(r"refused (?:[0-9]+ )?(?=[A-Za-z])(.+)")
_OBJECTS = {"object", "inside", "outside"}


@functools.lru_cache(maxsize=None)
def entries() -> dict[str, Entry]:
    """The entries by their keys: the words of a line before its fields, `status N` or `kind N`.

    >>> entries()["NoRandom"].fields, entries()["status 2"].kind
    (('list',), 'status')
    """
    text = (pathlib.Path(__file__).parent / "refusals.js").read_text(encoding="utf-8")
    found = json.loads(text[text.index("{") : text.rindex("}") + 1])
    return {
        key: Entry(it["kind"], tuple(it["fields"]), it["sentence"], it["cure"]) for key, it in found.items()
    }


def meaning(words: Sequence[str], name_of: Callable[[str], str] = str) -> Meaning:
    """What the words of a refusal or a verdict mean, its key before its fields. `name_of` says how to call an object.

    >>> meaning(["KAboveCount", "3", "2"]).sentence
    'The query asks for 3 objects, and the lists have 2.'
    >>> meaning(["Inconsistent", "5", "1"]).sentence.split(". ")[1]
    "The access is of a list that the query doesn't name."
    """
    for count in (2, 1):
        entry = entries().get(" ".join(words[:count]))
        fields = list(words[count:])
        if entry is not None and len(entry.fields) == len(fields):
            said = {
                name: name_of(field) if name in _OBJECTS else field for name, field in zip(entry.fields, fields)
            }
            kind = entries().get(f"kind {said.get('kind')}")
            more = f" {kind.sentence}" if kind else ""
            return Meaning(entry.kind, _filled(entry.sentence, said) + more, _filled(entry.cure, said))
    return UNHEARD


def of_line(line: str, name_of: Callable[[str], str] = str) -> Meaning | None:
    """What a line `refused ..`, `beaten ..` or `fixes` means; None of any other.

    >>> of_line("refused 3 NoRandom quiet").sentence
    'The algorithm asks for single grades, and the list quiet offers no random access.'
    >>> of_line("refused catalog SameName 4").kind, of_line("count 3")
    ('command', None)
    """
    found = _LINE.fullmatch(line)
    if found:
        return meaning(found[1].split(" "), name_of)
    words = line.split(" ")
    if words[0] == "beaten" and words[1::2] == ["inside", "low", "outside", "high"]:
        return meaning(["beaten", *words[2::2]], name_of)
    return meaning(words) if words == ["fixes"] else None


def of_status(status: int) -> Meaning:
    """What an exit status means.

    >>> of_status(2).sentence
    'The words on the command line are no command of topk. The output says `refused words`.'
    """
    return meaning(["status", str(status)])


def _filled(text: str, fields: dict[str, str]) -> str:
    return re.sub(r"\{(\w+)\}", lambda found: fields.get(found[1], found[0]), text)
