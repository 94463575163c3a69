#!/usr/bin/env python3
"""Tests of the manual page: each refusal, verdict and status has its sentence, and its examples write what it shows.

The sentences stand in examples/view/refusals.js, from which the page, Python and the manual page take them.
`python3 tests/manual.py` writes the parts of docs/topk.1 anew that are made from them.
"""
from __future__ import annotations

import json
import os
import re
import subprocess
import tempfile
import textwrap
from collections.abc import Callable, Iterator
from typing import Any

from machine import SECONDS, path_of, peer
from support import REPOSITORY

MANUAL = REPOSITORY / "docs" / "topk.1"
SENTENCES = REPOSITORY / "examples" / "view" / "refusals.js"

# The same for the Python package, which has to hold it where it is installed alone.
COPY = REPOSITORY / "python" / "topk" / "refusals.js"

# The lines between which a part stands that is made, and how each part begins.
BEGINS, ENDS = '.\\" made: {}', '.\\" until here'
PARTS = {
    "query": ".SS Of a query line: refused LINE NAME FIELDS",
    "command": ".SS Of words, files and input: refused NAME FIELDS",
    "judge": ".SS Of a certificate: refused NAME FIELDS",
    "inconsistency": ".PP\nKIND is the first of these that applies; 1 is told as a \\fBBadLine\\fR:",
    "verdict": ".SS What judge says of a certificate else",
    "status": "",
}
NOTHING = "There is nothing to do."


def sentences() -> dict[str, dict[str, Any]]:
    """The entries of the one file, which is JSON from its first brace to its last."""
    text = SENTENCES.read_text(encoding="utf-8")
    return dict(json.loads(text[text.index("{") : text.rindex("}") + 1]))  # No brace stands before its first.


def typeset(*texts: str) -> str:
    """Sentences as the page has them: fields in capitals, words of the program bold, lines of 79 columns."""
    text = " ".join(it for it in texts if it != NOTHING).replace("\\", "\\e").replace("-", "\\-")
    text = re.sub(r"\{(\w+)\}", lambda field: field.group(1).upper(), text)
    text = re.sub(r"`([^`]+)`", r"\\fB\1\\fR", text)
    lines = textwrap.wrap(text, 79, break_long_words=False, break_on_hyphens=False)
    return "\n".join(f"\\&{line}" if line[0] in ".'" else line for line in lines)


def entry(key: str, said: dict[str, Any]) -> str:
    """What the page has of one entry."""
    kind, number = said["kind"], key.split()[-1]
    if kind == "inconsistency":
        return ".br\n" + typeset(f"{number}:", said["sentence"])
    if kind == "status":
        head = f".B {number}: no output at all" if "Nothing was written." in said["sentence"] else f".B {number}"
    else:
        form = "{0} {1}" if kind == "verdict" else "{1}"  # The line of a verdict has the names of its fields too.
        head = " ".join([".B", key, *(form.format(field, field.upper()) for field in said["fields"])])
    return f".TP\n{head}\n{typeset(said['sentence'], said['cure'])}"


def part(kind: str) -> str:
    """A part that is made, with the lines between which it stands."""
    lines = [BEGINS.format(kind), *filter(None, [PARTS[kind]])]
    lines += [entry(key, said) for key, said in sentences().items() if said["kind"] == kind]
    return "\n".join([*lines, ENDS]) + "\n"


def renewed(text: str) -> str:
    """The page with each part made anew."""
    for kind in PARTS:
        form = re.escape(BEGINS.format(kind)) + r"\n.*?" + re.escape(ENDS) + r"\n"
        begin, *rest = re.split(form, text, flags=re.DOTALL)
        if len(rest) != 1:
            raise ValueError(f"the page has {len(rest)} parts {kind}")
        text = begin + part(kind) + rest[0]
    return text


def manual_has_the_sentences(_: str) -> str | None:
    """Each refusal, verdict and status stands in the page, as the one file says it."""
    text = MANUAL.read_text(encoding="utf-8")
    kinds = {said["kind"] for said in sentences().values()}
    if kinds != set(PARTS):
        return f"the sentences are of the kinds {sorted(kinds)}"
    same = renewed(text) == text
    return None if same else "the page differs from the sentences: python3 tests/manual.py writes it anew"


def examples() -> list[tuple[str, str]]:
    """The commands of the page's examples that end by themselves, with what each writes."""
    text = MANUAL.read_text(encoding="utf-8").split(".SH EXAMPLES")[1].split(".SH ")[0]
    found: list[tuple[str, str]] = []
    for block in re.findall(r"^\.EX\n(.*?)^\.EE$", text, re.MULTILINE | re.DOTALL):
        if re.search(r"&$", block, re.MULTILINE) is None:
            for command in re.split(r"^\$ ", block, flags=re.MULTILINE)[1:]:
                plain = command.replace("\\-", "-").replace("\\(aq", "'").replace("\\e", "\\")
                line, _, output = plain.partition("\n")
                found.append((line, output))
    return found


def manual_examples(program: str) -> str | None:
    """The examples write what the page shows. Those of `node` and `serve`, which take ports, are tests of their own."""
    shell = path_of("sh")
    with tempfile.TemporaryDirectory() as place:
        os.symlink(program, os.path.join(place, "topk"))
        env = dict(os.environ, PATH=os.pathsep.join([place, os.environ.get("PATH", os.defpath)]))
        for line, wanted in examples():
            how: dict[str, Any] = {"cwd": place, "env": env, "text": True, "timeout": SECONDS}
            done = subprocess.run([shell, "-c", line], capture_output=True, **how)
            if done.stdout != wanted or done.stderr:
                return f"{line!r} wrote {done.stdout + done.stderr!r} in place of {wanted!r}"
    return None


def manual_is_clean(_: str) -> str | None:
    """mandoc finds nothing wrong with the page."""
    done = peer([path_of("mandoc"), "-Tlint", str(MANUAL)], text=True)
    return done.stdout[:500] or None


def manual_sentences_are_one(_: str) -> str | None:
    """The Python package has the file of sentences as it is."""
    return None if COPY.read_bytes() == SENTENCES.read_bytes() else f"{COPY} differs from {SENTENCES}: copy it"


def tests() -> Iterator[tuple[str, Callable[[str], str | None]]]:
    """Each test with its name."""
    for test in (manual_has_the_sentences, manual_sentences_are_one, manual_examples, manual_is_clean):
        yield test.__name__, test


if __name__ == "__main__":
    COPY.write_bytes(SENTENCES.read_bytes())
    MANUAL.write_text(renewed(MANUAL.read_text(encoding="utf-8")), encoding="utf-8")
