"""Tests of `run` over lists that hosts serve: hosts of this process on free ports of 127.0.0.1, which answer as each
test says, and a bridge.

The table is L of the certificate's page: A has 1 900, 2 800, 3 100 and B has 2 700, 3 600, 1 500.
"""
from __future__ import annotations

import collections
import contextlib
import os
import tempfile
import threading
from collections.abc import Callable, Iterator, Mapping

import bridges
import support
from machine import free_port, over_network
from support import DATA, Done, answer, catalog, differs, host, run, run_at, taken_apart, worked_out, write

LISTS = {"A": [(1, 900), (2, 800), (3, 100)], "B": [(2, 700), (3, 600), (1, 500)]}
LINE = "top 1 by sum(A,B) using ta"
QUERY = LINE.encode()
# No call that isn't needed, and those of each list one after another: A is asked for its size, row 1, the grade of 2,
# row 2, the grade of 3.
ALONE = ("--workers", "1", "--page", "1", "--ahead", "0")
SIZE, ROW, GRADE = "/lists/A/size", "/lists/A/page?from=0&count=1", "/lists/A/grade?object=2"
# The seconds for which a node holds back a reply until what it waits for comes.
PATIENCE = 20
# What stands in docs/CERTIFICATE.md, line by line, with a version.
CERTIFICATE = b"""certificate 1
query top 1 by sum(A,B) using ta
count 3
version A 7
answer 2 1500 1500
stop depth 2 sorted 4 random 3 cost 7
s A 1 900
s B 2 700
r B 1 500
r A 2 800
s A 2 800
s B 3 600
r A 3 100
end
"""
# Four lists of four objects, each with another object first.
FOUR = {
    "A": [(1, 109), (2, 90), (3, 50), (4, 10)],
    "B": [(2, 100), (3, 90), (4, 50), (1, 10)],
    "C": [(3, 100), (4, 90), (1, 50), (2, 10)],
    "D": [(4, 100), (1, 90), (2, 50), (3, 10)],
}
ROUND = {"A": "B", "B": "C", "C": "D", "D": "A"}
# Of each algorithm, how many of the calls for grades of which lists it can make beside which others: `ta` the three
# that each list lacks at depth 1, `ca` the three of object 1, which A has first.
BESIDE: dict[str, tuple[dict[str, str], int]] = {
    "ta": (ROUND, 3), "nra": ({}, 0), "ca": ({"B": "C", "C": "D", "D": "B"}, 1)}
# What a line over B comes to that is the second.
B_ENDS = b"""certificate 2
query top 3 by B using nra
count 3
answer 2 700 700
answer 3 600 600
answer 1 500 500
stop depth 3 sorted 3 random 0 cost 3
s B 2 700
s B 3 600
s B 1 500
end
"""
NOT_FOUND = b"HTTP/1.1 404 Not Found\r\nContent-Length: 0\r\n\r\n"
FAILS = b"HTTP/1.1 500 Internal Server Error\r\nContent-Length: 0\r\n\r\n"
# What a host replies to one of A's requests, each time that it is made, the others being answered well, and what
# becomes of the line then.
REPLIES = [
    ("no reply to size", SIZE, b"", b"refused 1 NotOpened A\n"),
    ("size isn't there", SIZE, NOT_FOUND, b"refused 1 NotOpened A\n"),
    ("size fails", SIZE, FAILS, b"refused 1 NotOpened A\n"),
    ("size is no number", SIZE, answer('{"count":"3"}'), b"refused 1 NotOpened A\n"),
    ("size of another list", SIZE, answer('{"count":2}'), b"refused 1 CountsDiffer A 2 B 3\n"),
    ("size above the limit", SIZE, answer('{"count":200001}'), b"refused 1 TooLarge A 200001\n"),
    ("no reply to a page", ROW, b"", b"refused 1 Garbled A\n"),
    ("a page isn't there", ROW, NOT_FOUND, b"refused 1 Garbled A\n"),
    ("a page is no JSON", ROW, answer("[1,900]"), b"refused 1 Garbled A\n"),
    ("a page is longer than asked for", ROW, answer('{"rows":[[1,900],[2,800]]}'), b"refused 1 Garbled A\n"),
    ("a page is short", ROW, answer('{"rows":[]}'), b"refused 1 ShortList A 3 0\n"),
    ("a grade above the greatest", ROW, answer('{"rows":[[1,1000001]]}'), b"refused 1 TooHigh A 1 1000001\n"),
    ("a page of another version", ROW, answer('{"rows":[[1,900]],"version":8}'), b"refused 1 Moved A 0 8\n"),
    ("a page fails", ROW, FAILS, b"refused 1 Garbled A\n"),
    ("an object isn't there", GRADE, answer('{"grade":null}'), b"refused 1 Missing A 2\n"),
    ("a grade of another version", GRADE, answer('{"grade":800,"version":8}'), b"refused 1 Moved A 0 8\n"),
    ("no reply to a grade", GRADE, b"", b"refused 1 Garbled A\n"),
    ("a grade isn't there", GRADE, NOT_FOUND[:-5] + b'14\r\n\r\n{"grade":null}', b"refused 1 Garbled A\n"),
    ("a grade fails", GRADE, FAILS, b"refused 1 Garbled A\n"),
    ("a grade above the row before", GRADE, answer('{"grade":950}'), b"refused 1 Above A 2 950 900\n"),
]


def answered(target: str, version: int = 0, lists: support.Lists = LISTS) -> bytes:
    """What a host of a table replies to a target that it knows."""
    return support.answered(target, lists, version)


def beside(neighbours: Mapping[str, str], many: int) -> Callable[[str, int], bytes]:
    """What hosts of FOUR reply which answer a call once as many of its kind were made of the list beside it, and fail
    it where it waits in vain: each call for a page, and so many of those for grades of the lists that have neighbours
    for these. So none is answered that is made alone."""
    made: collections.Counter[tuple[str, str]] = collections.Counter()
    changed = threading.Condition()

    def reply(target: str, _: int) -> bytes:
        name, call, _numbers = taken_apart(target)
        with changed:
            made[call, name] += 1
            number = made[call, name]
            changed.notify_all()
            beside_it = {"page": ROUND, "grade": neighbours if number <= many else {}}.get(call, {})
            other = beside_it.get(name, name)
            if not changed.wait_for(lambda: made[call, other] >= number, PATIENCE):
                return b""
        return answered(target, lists=FOUR)
    return reply


def run_over(program: str, port: int, *words: str) -> Done[bytes]:
    """A run of the query over the lists that a host at this port serves."""
    return run_at(program, dict.fromkeys(LISTS, port), QUERY, *words)


def at_versions(program: str) -> str | None:
    """A certificate says which version of a list it speaks of."""
    with host(lambda target, number: answered(target, 7 if target[7] == "A" else 0)) as served:
        return differs(run_over(program, served.port), 0, CERTIFICATE)


def requests(program: str) -> str | None:
    """Each call is one request, and none is made that the query doesn't need."""
    wanted = ["A/size", "A/page?from=0&count=1", "A/grade?object=2", "A/page?from=1&count=1", "A/grade?object=3",
              "B/size", "B/page?from=0&count=1", "B/grade?object=1", "B/page?from=1&count=1"]
    with support.hosting(LISTS) as served:
        wrong = differs(run_over(program, served.port, *ALONE), 0, worked_out([LINE], LISTS))
        found = sorted((it[len("/lists/"):] for it in served.targets), key=lambda target: target[0])
        return wrong or (None if found == wanted else f"asked for {found}")


def moved(program: str) -> str | None:
    """A list that is replaced while it is read is refused, with the version at opening and the one of the reply."""
    def reply(target: str, number: int) -> bytes:
        return answered(target, (7 if number < 3 else 8) if target[7] == "A" else 0)
    with host(reply) as served:
        return differs(run_over(program, served.port, *ALONE), 1, b"refused 1 Moved A 7 8\n")


def replies(program: str) -> str | None:
    """Whatever one reply says, the line is answered or refused by name."""
    for name, call, bad, wanted in REPLIES:
        with host(lambda target, number: bad if target == call else answered(target)) as served:
            wrong = differs(run_over(program, served.port, *ALONE), 1, wanted)
            if wrong is not None:
                return f"{name}: {wrong}"
    return None


def cut(program: str) -> str | None:
    """A reply that is cut after any of its bytes is garbled."""
    whole = answered(ROW)
    for length in range(len(whole)):
        with host(lambda target, number: whole[:length] if target == ROW else answered(target)) as served:
            wrong = differs(run_over(program, served.port, *ALONE), 1, b"refused 1 Garbled A\n")
            if wrong is not None:
                return f"after {length} bytes: {wrong}"
    return None


def nobody(program: str) -> str | None:
    """Where nobody listens the list isn't opened."""
    with free_port() as port:
        return differs(run_over(program, port), 1, b"refused 1 NotOpened A\n")


def over_four(program: str, algorithm: str, workers: int) -> str | None:
    """What is wrong with as many lines by an algorithm as there are workers, over hosts that answer no call that is
    made alone, or None."""
    lines = [f"top 1 by sum(A,B,C,D) using {algorithm}"] * workers
    reply = beside(*BESIDE[algorithm])
    with contextlib.ExitStack() as held:
        ports = {name: held.enter_context(host(reply)).port for name in FOUR}
        done = run_at(program, ports, "\n".join(lines).encode(), "--workers", str(workers), *ALONE[2:])
        return differs(done, 0, worked_out(lines, FOUR))


def side_by_side(program: str) -> str | None:
    """The calls that a query is certain to make of four hosts are made side by side, by one worker and by four, and its
    certificates are those that the lists come to."""
    for algorithm in BESIDE:
        for workers in (1, 4):
            wrong = over_four(program, algorithm, workers)
            if wrong is not None:
                return f"{algorithm} by {workers}: {wrong}"
    return None


def bridge(program: str) -> str | None:
    """Lists of a database come to the bytes that the files of the same lists come to, whatever the settings."""
    queries, wanted = (DATA.parent / "stdin").read_bytes(), (DATA.parent / "stdout").read_bytes()
    names = ("price", "rating", "centre", "quiet", "stars")
    with bridges.sqlite() as base, tempfile.TemporaryDirectory() as place:
        base.do((bridges.BRIDGES / "hotels.sql").read_text(encoding="utf-8"))
        words = [word for name in names[:4] for word in ("--grade", name)]
        with bridges.node(base, "--table", "hotels", "--object", "id", "--version", "0", *words) as port:
            write(place, "catalog.csv", catalog(dict.fromkeys(names, port), no_random=["quiet"]))
            for settings in ((), ("--workers", "1", "--page", "3", "--ahead", "0"),
                             ("--workers", "8", "--page", "1", "--ahead", "5")):
                done = run(program, ["run", *settings, os.path.join(place, "catalog.csv")], queries)
                wrong = differs(done, 1, wanted)
                if wrong is not None:
                    return f"{' '.join(settings)}: {wrong}"
    return None


def tests() -> Iterator[tuple[str, Callable[[str], str | None]]]:
    """Each test with its name."""
    for test in (at_versions, requests, moved, replies, cut, nobody, side_by_side, bridge):
        yield f"hosts_{test.__name__}", over_network(test)
