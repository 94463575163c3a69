"""Tests of what runs over hosts ask for: each access that is charged is one call, and no row is fetched twice; and of
what becomes of a line where one call fails, or a host serves what is no list.

The table is L of the certificate's page, or one of a hundred objects. A host counts its calls.
"""
from __future__ import annotations

import random
import re
import tempfile
from collections import Counter
from collections.abc import Callable, Iterator, Sequence

from hosts import ALONE, FAILS, LINE, LISTS
from machine import over_network
from support import (Done, Host, Lists, Reset, answer, answered, catalog, differs, host, hosting, ranked, run, run_at,
                     taken_apart, worked_out, write, write_lists)

# A line of each algorithm, the lists that can't be read from the top, and those that a wrong count would show best.
CHARGED = {
    "ta": ("top 3 by sum(A,B,C) using ta", ()), "nra": ("top 3 by min(A,B,C) using nra", ()),
    "ca": ("top 3 by sum(A,B,C) using ca cost 1 3", ()), "fa": ("top 2 by max(A,B,C) using fa", ()),
    "theta": ("top 3 by sum(A,B,C) using theta 5/4", ()), "early": ("top 3 by sum(A,B,C) using early 4", ()),
    "taz": ("top 2 by sum(A,B,C) using taz", ("C",)),
}


def made(count: int = 40, seed: int = 1) -> Lists:
    """Three lists of so many objects, in orders of their own."""
    chance = random.Random(seed)
    return {name: ranked({it: chance.randrange(1000) for it in range(count)}) for name in "ABC"}


def accesses(text: bytes, name: str) -> tuple[int, list[int]]:
    """How many rows of a list a certificate has, and the objects of which it has another grade of that list."""
    rows = len(re.findall(rb"^s %s " % name.encode(), text, re.MULTILINE))
    return rows, [int(it) for it in re.findall(rb"^r %s (\d+) " % name.encode(), text, re.MULTILINE)]


def wrong_calls(served: Host, text: bytes, name: str) -> str | None:
    """What is wrong with the calls of a list for what a certificate charges, page by page of one row, or None."""
    rows, objects = accesses(text, name)
    pages = [numbers["from"] for numbers in served.calls(name, "page")]
    asked = [numbers["object"] for numbers in served.calls(name, "grade")]
    if len(served.calls(name, "size")) != 1:
        return f"{name} was asked for its size {len(served.calls(name, 'size'))} times"
    if pages != list(range(rows)):
        return f"{name} was asked for the rows {pages}, and {rows} are charged"
    return None if sorted(asked) == sorted(objects) else f"{name} was asked for the grades of {asked} and not {objects}"


def charged_as_called(program: str) -> str | None:
    """Of each algorithm: each access of the certificate is one call of its host, and there is no other call."""
    lists = made()
    for algorithm, (line, no_sorted) in CHARGED.items():
        wanted = worked_out([line], lists, no_sorted)
        with hosting(lists) as served, tempfile.TemporaryDirectory() as place:
            write(place, "catalog.csv", catalog(dict.fromkeys(lists, served.port), no_sorted=no_sorted))
            done = run(program, ["run", "catalog.csv", *ALONE], f"{line}\n".encode(), place)
            wrong = differs(done, 0, wanted)
            for name in lists:
                wrong = wrong or wrong_calls(served, wanted, name)
        if wrong is not None:
            return f"{algorithm}: {wrong}"
    return None


def fetched_once(program: str) -> str | None:
    """With 1, 4 and 32 workers over hosts no row, and no object's grade, is asked for twice, however many lines need
    it."""
    lists, algorithms = made(120, 2), ("ta", "nra", "ca", "fa")
    made_line = "top {} by {}(A,B,C) using {}".format
    lines = [made_line(1 + it % 9, ("sum", "min", "max")[it % 3], algorithms[it % 4]) for it in range(48)]
    wanted, text = worked_out(lines, lists), "\n".join(lines).encode()
    for workers in (1, 4, 32):
        for page in (1, 7):
            with hosting(lists) as served:
                words = ("--workers", str(workers), "--page", str(page))
                done = run_at(program, dict.fromkeys(lists, served.port), text, *words)
                wrong = differs(done, 0, wanted) or next(filter(None, (twice(served, name) for name in lists)), None)
            if wrong is not None:
                return f"{workers} workers, pages of {page}: {wrong}"
    return None


def twice(served: Host, name: str) -> str | None:
    """The first row of a list, or the first object, that was asked for twice, or None."""
    pages = [range(it["from"], it["from"] + it["count"]) for it in served.calls(name, "page")]
    made = Counter(f"row {row}" for page in pages for row in page)
    made.update(f"object {it['object']}" for it in served.calls(name, "grade"))
    return next((f"{name} was asked for {it} {count} times" for it, count in made.items() if count > 1), None)


def files_and_hosts(program: str) -> str | None:
    """A catalog may have files and hosts together: lines over both come to what the lists come to."""
    lists = made(60, 3)
    lines = [f"top 4 by sum(A,B,C) using {it}" for it in ("ta", "nra", "ca", "fa")]
    with hosting(lists) as served, tempfile.TemporaryDirectory() as place:
        write_lists(place, lists)
        write(place, "catalog.csv", catalog({"A": "A.csv", "B": served.port, "C": "C.csv"}))
        for settings in ((), ALONE):
            done = run(program, ["run", "catalog.csv", *settings], "\n".join(lines).encode(), place)
            wrong = differs(done, 0, worked_out(lines, lists))
            if wrong is not None:
                return f"{' '.join(settings)}: {wrong}"
        others = {taken_apart(it)[0] for it in served.targets} - {"B"}
        return f"asked the host for {others}" if others else None


# A call of a list that fails, in which way, and what becomes of the one line then: None where the call isn't made.
FAULTS = {
    ("A", "page", 1): "A", ("A", "page", 2): "A", ("A", "page", 3): None, ("A", "grade", 1): "A",
    ("A", "grade", 2): "A",
    ("B", "page", 1): "B", ("B", "page", 2): "B", ("B", "grade", 1): "B",
}
WAYS: dict[str, tuple[bytes | type[Reset], str]] = {
    "broken off": (Reset, "Failed"), "no JSON": (answer("[]"), "Garbled"), "500": (FAILS, "Garbled")}


def each_fault(program: str) -> str | None:
    """One call of a page or of a grade that fails, or brings what has a wrong form, refuses the line by name, and no
    line where the query doesn't need the call. One that was made ahead of its need, and failed before, is made again,
    so the line may be answered too."""
    answered_text = worked_out([LINE], LISTS)
    for call, name in FAULTS.items():
        for way, (bad, kind) in WAYS.items():
            with hosting(LISTS, {call: bad}) as served:
                done = run_at(program, dict.fromkeys(LISTS, served.port), f"{LINE}\n".encode(), *ALONE)
            wrong = differs(done, 0, answered_text)
            if wrong is not None and name is not None:
                wrong = differs(done, 1, f"refused 1 {kind} {name}\n".encode())
            if wrong is not None:
                return f"{call} is {way}: {wrong}"
    return None


def one_fault_for_one_line(program: str) -> str | None:
    """A page that failed for one line, if it waited for it, is fetched again for the next one."""
    with hosting(LISTS, {("A", "page", 2): Reset}) as served:
        done = run_at(program, dict.fromkeys(LISTS, served.port), f"{LINE}\n{LINE}\n".encode(), *ALONE)
    both = worked_out([LINE, LINE], LISTS)
    second = both[both.index(b"certificate 2"):]
    return differs(done, 1, b"refused 1 Failed A\n" + second) and differs(done, 0, both)


# Hosts that serve what is no list, or no table: the rows of each, of which a grade may be lied about and the count too;
# the lines; and what becomes of them.
LIES: dict[str, tuple[Lists, dict[tuple[str, int], int], dict[str, int], list[str], list[str]]] = {
    "out of order": ({"A": [(1, 500), (2, 600)], "B": [(1, 400), (2, 300)]}, {}, {}, ["top 2 by sum(A,B) using ta"],
                     ["OutOfOrder A 2 500 600"]),
    "repeated": ({"A": [(7, 9), (8, 8), (7, 7)]}, {}, {}, ["top 3 by A using nra"], ["Repeated A 7 3"]),
    "missing": ({"A": [(1, 9), (2, 8)], "B": [(3, 7), (1, 6)]}, {}, {}, ["top 1 by sum(A,B) using ta"],
                ["Missing A 3"]),
    "strangers": ({"A": [(1, 9), (2, 8)], "B": [(1, 7), (3, 6)]}, {}, {}, ["top 2 by sum(A,B) using nra"],
                  ["Strangers 3 2"]),
    "clash": (LISTS, {("A", 2): 850}, {}, [LINE], ["Clash A 2 800 850"]),
    "above": (LISTS, {("A", 2): 950}, {}, [LINE], ["Above A 2 950 900"]),
    "above a later row": ({**LISTS, "A": [(1, 900), (3, 840), (2, 800)]}, {("A", 2): 850}, {}, [LINE],
                          ["Above A 2 850 840"]),
    "above, of two the first that was asked for": (
        {"A": [(1, 900), (3, 840), (2, 800), (4, 700)], "B": [(2, 700), (1, 500), (3, 400), (4, 300)],
         "C": [(4, 700), (1, 500), (3, 400), (2, 300)]}, {("A", 2): 850, ("A", 4): 860}, {},
        ["top 1 by sum(A,B,C) using ta"], ["Above A 2 850 840"]),
    "too high": ({"A": [(1, 1_000_001), (2, 5)]}, {}, {}, ["top 1 by A using nra"], ["TooHigh A 1 1000001"]),
    "short": ({"A": LISTS["A"]}, {}, {"A": 5}, ["top 5 by A using nra"], ["ShortList A 5 3"]),
    "asks full": ({"A": [(1, 9), (2, 8)], "B": [(3, 7), (1, 6)], "C": [(4, 7), (1, 6)], "D": [(5, 7), (1, 6)]}, {}, {},
                  [f"top 1 by sum(A,{it}) using ta" for it in "BCD"], ["Missing A 3", "Missing A 4", "AsksFull A 2"]),
}


def refuses(name: str, done: Done[bytes], refusals: Sequence[str]) -> str | None:
    """What is wrong with a run each of whose lines is to be refused so, or None."""
    wanted = "".join(f"refused {it} {text}\n" for it, text in enumerate(refusals, 1))
    wrong = differs(done, 1, wanted.encode())
    return wrong and f"{name}: {wrong}"


def lies(program: str) -> str | None:
    """What a host serves that is no list of a table is refused by name, with the numbers of the first row at fault."""
    for name, (lists, grades, counts, lines, refusals) in LIES.items():
        def lying(target: str, _: int) -> bytes:
            of, call, numbers = taken_apart(target)
            if call == "grade" and (of, numbers["object"]) in grades:
                return answer(f'{{"grade":{grades[of, numbers["object"]]}}}')
            if call == "size" and of in counts:
                return answer(f'{{"count":{counts[of]}}}')
            return answered(target, lists)

        with host(lying) as served:
            done = run_at(program, dict.fromkeys(lists, served.port), "\n".join(lines).encode(), *ALONE)
        wrong = refuses(name, done, refusals)
        if wrong is not None:
            return wrong
    return None


def lies_of_files(program: str) -> str | None:
    """The same of list files, where rows are at fault."""
    for name, (lists, grades, counts, lines, refusals) in LIES.items():
        if grades or counts:
            continue
        with tempfile.TemporaryDirectory() as place:
            write_lists(place, lists)
            done = run(program, ["run", "catalog.csv", *ALONE], "\n".join(lines).encode(), place)
        wrong = refuses(name, done, refusals)
        if wrong is not None:
            return wrong
    return None


def tests() -> Iterator[tuple[str, Callable[[str], str | None]]]:
    """Each test with its name."""
    for test in (charged_as_called, fetched_once, files_and_hosts, each_fault, one_fault_for_one_line, lies):
        yield f"charged_{test.__name__}", over_network(test)
    yield "charged_lies_of_files", lies_of_files
