"""Tests of expectations and of made inputs: what the cases want, and what `make` and `bulk` write, worked out by
bench/reference.py and by the rules of made tables.
"""
from __future__ import annotations

import pathlib
import re
from collections.abc import Callable, Iterator

import rows
from support import (REPOSITORY, Lists, differs, first_difference, list_text, module_at, ranked, rows_in, run,
                     worked_out)

CASES = pathlib.Path(__file__).resolve().parent / "cases"
TOP_GRADE, WORD = 1_000_000, 1 << 64


def case_lists(run_of: rows.Row) -> tuple[Lists, list[str]]:
    """The lists of a run, those of its bundle or of the files that its catalog names, and the names of those that
    can't be read from the top."""
    if not run_of.files:
        sections = re.findall(r"^list (\w+)\n((?:\d+,\d+\n)*)", run_of.input.decode("latin-1"), re.MULTILINE)
        return {name: rows_in(text) for name, text in sections}, []
    catalog = next(run_of.files[it] for it in run_of.words[1:] if it in run_of.files)
    records = [it.split(",") for it in catalog.decode("latin-1").split()[1:]]
    texts = {name: run_of.files[place] for name, place, *_ in records if place in run_of.files}
    return {name: rows_in(text.decode()) for name, text in texts.items()}, [it[0] for it in records if it[3:] == ["no"]]


def outcomes(text: str) -> list[str]:
    """The certificates and refusals of a text, each with its lines."""
    return re.findall(r"^(?:refused .*\n|certificate (?:.*\n)*?end\n)", text, re.MULTILINE)


def wrong_with_certificates(run_of: rows.Row) -> tuple[int, str | None]:
    """How many certificates that a run wants were worked out, and the first difference."""
    wanted = [it for it in outcomes(run_of.output.decode("latin-1")) if it.startswith("certificate ")]
    if not wanted:
        return 0, None
    lists, no_sorted = case_lists(run_of)
    for text in wanted:
        number, query = text.split("\n")[0].split(" ")[1], text.split("\n")[1].removeprefix("query ")
        known = worked_out([query], lists, no_sorted).replace(b"certificate 1\n", f"certificate {number}\n".encode())
        if wrong := first_difference(text.encode(), known):
            return 0, wrong
    return len(wanted), None


def cases_are_worked_out(_: str) -> str | None:
    """Each certificate that a case of `one` or `run` wants is what its query line comes to."""
    anchored = 0
    for folder in sorted(CASES.iterdir()):
        for run_of in rows.runs_of(folder):
            if run_of.words[:1] in (["one"], ["run"]):
                number, wrong = wrong_with_certificates(run_of)
                if wrong is not None:
                    return f"{folder.name}: {run_of.label}: {wrong}"
                anchored += number
    return None if anchored > 50 else f"only {anchored} certificates were worked out"


def made_table(start: int, count: int, lists: int) -> Lists:
    """The table that is made from a number, as the manual page's `make` has it."""
    made, number = {}, start
    for name in (f"l{it + 1}" for it in range(lists)):
        grades = {}
        for item in range(1, count + 1):
            number = (number * 6364136223846793005 + 1442695040888963407) % WORD
            grades[item] = (number >> 33) % (TOP_GRADE + 1)
        made[name] = ranked(grades)
    return made


def made_line(number: int, count: int, names: list[str]) -> str:
    """A made query over a made table."""
    expression = ("min", "max", "sum", "median", "wsum")[number % 5]
    terms = [f"{it + 1}*{name}" for it, name in enumerate(names)] if expression == "wsum" else names
    algorithm, k = ("ta", "nra", "ca")[number % 3], 1 + number % min(10, count)
    return f"top {k} by {expression}({','.join(terms)}) using {algorithm} cost 1 {1 + number % 4}"


def made_tables(program: str) -> str | None:
    """`make` writes the table that its numbers make."""
    for start, count, lists in ((0, 1, 1), (1, 1, 1), (7, 50, 4), (9_223_372_036_854_775_807, 3, 8)):
        table = made_table(start, count, lists)
        wanted = "".join(f"list {name}\n{list_text(rows)}" for name, rows in table.items()).encode()
        words = ["make", "--start", str(start), "--count", str(count), "--lists", str(lists)]
        wrong = differs(run(program, words), 0, wanted)
        if wrong is not None:
            return f"{' '.join(words)}: {wrong}"
    return None


def bulk_of_60(program: str) -> str | None:
    """What `bulk` writes of 40 queries over 60 objects, with 1 and with 8 workers, is what the queries come to."""
    reference = module_at(REPOSITORY / "bench" / "reference.py", "reference_of_bulk")
    table, sums, values = made_table(7, 60, 4), {"depth": 0, "sorted": 0, "random": 0}, 0
    for number in range(40):
        query = reference.Query(made_line(number, 60, list(table)))
        made = reference.Run(query, list(table.values()), [True] * len(table))
        values += sum(low for _, low, _ in made.go())
        figures = reference.figures(made)
        sums = {word: figure + figures[word] for word, figure in sums.items()}
    said = " ".join(f"{word} {figure}" for word, figure in sums.items())
    wanted = f"bulk queries 40 answered 40 {said} values {values}\n".encode()
    words = ["bulk", "--start", "7", "--count", "60", "--lists", "4", "--queries", "40", "--workers"]
    return differs(run(program, [*words, "1"]), 0, wanted) or differs(run(program, [*words, "8"]), 0, wanted)


def bulk_of_2000(program: str) -> str | None:
    """40 queries over 2,000 objects write the same bytes with 1 and with 8 workers."""
    words = ["bulk", "--start", "7", "--count", "2000", "--lists", "4", "--queries", "40", "--page", "50",
             "--ahead", "2"]
    one, eight = (run(program, [*words, "--workers", it]) for it in ("1", "8"))
    front = b"bulk queries 40 answered 40 depth "
    return differs(eight, 0, one.stdout) or (None if one.stdout.startswith(front) else f"wrote {one.stdout!r}")


def tests() -> Iterator[tuple[str, Callable[[str], str | None]]]:
    """Each test with its name."""
    for test in (cases_are_worked_out, made_tables, bulk_of_60, bulk_of_2000):
        yield f"anchors_{test.__name__}", test
