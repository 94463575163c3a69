"""Tests of queries that share sources on threads: a slow source beside fast ones, one that fails while a worker serves
it, as many workers and sources as there may be, how often threads sleep and what memory they take, and a system that
makes no thread.
"""
from __future__ import annotations

import os
import pathlib
import random
import re
import sys
import tempfile
import threading
import time
from collections.abc import Callable, Iterator, Sequence

from hosts import B_ENDS, LISTS, answered
from machine import SECONDS, needs, no_memory, no_room, no_threads, over_network
from support import (Done, Lists, Reset, built, catalog, differs, host, list_text, refusal, run, run_at, shown,
                     worked_out, write, write_lists)

# The most lists that a query names here.
NAMED = 8
A_ENDS = b"""certificate 1
query top 2 by A using nra
count 3
answer 1 900 900
answer 2 800 800
stop depth 2 sorted 2 random 0 cost 2
s A 1 900
s A 2 800
end
"""
LINES = b"top 2 by A using nra\ntop 3 by B using nra\n"
APART = ("--workers", "2", "--page", "1", "--ahead", "0")
FAILED = refusal(500, "Internal Server Error")

# A process begins with the memory of who starts it, as the system counts: so a small one starts the program.
MEASURED = """
import os, sys
_, status, used = os.wait4(os.posix_spawn(sys.argv[1], sys.argv[1:], os.environ), 0)
print(os.waitstatus_to_exitcode(status), used.ru_maxrss, file=sys.stderr)
"""


def meanwhile(program: str, last: Callable[[], bytes], status: int, a_ends: bytes) -> str | None:
    """What is wrong with a run in which each call of A takes 10 ms, and its second page comes only once B was read to
    its end, as this says; or None."""
    read = threading.Event()

    def reply(target: str, number: int) -> bytes:
        if target == "/lists/B/page?from=2&count=1":
            read.set()
        if target[7] == "B":
            return answered(target)
        time.sleep(0.01)
        if number < 3:
            return answered(target)
        return last() if read.wait(SECONDS / 3) else b""

    with host(reply) as served:
        done = run_at(program, dict.fromkeys(LISTS, served.port), LINES, *APART)
        return differs(done, status, a_ends + B_ENDS)


def slow_beside_fast(program: str) -> str | None:
    """While a call of a slow source goes on, another worker reads another source to its end."""
    return meanwhile(program, lambda: answered("/lists/A/page?from=1&count=1"), 0, A_ENDS)


def fails_while_served(program: str) -> str | None:
    """A call that fails while a worker waits in it refuses that worker's line by name, and no other."""
    def broken() -> bytes:
        raise Reset

    for last, name in ((broken, b"Failed"), (lambda: FAILED, b"Garbled"), (lambda: b"HTTP/1.1 200", b"Garbled")):
        wrong = meanwhile(program, last, 1, b"refused 1 %s A\n" % name)
        if wrong is not None:
            return f"{name.decode()}: {wrong}"
    return None


def one_failure(program: str) -> str | None:
    """One failed call refuses at most as many lines as there are workers, by its name; every other line over the same
    source is answered."""
    workers, count = 8, 24
    lines = b"top 2 by sum(A,B) using ta\n" * count
    for number in (2, 3, 4) * 4:
        with host(lambda target, made: FAILED if target[7] == "A" and made == number else answered(target)) as served:
            ports = dict.fromkeys(LISTS, served.port)
            done = run_at(program, ports, lines, "--workers", str(workers), "--page", "1")
        refused = re.findall(rb"^refused .*$", done.stdout, re.MULTILINE)
        answers = re.findall(rb"^answer .*$", done.stdout, re.MULTILINE)
        ends = {re.sub(rb"\d+", b"N", it, count=1) for it in refused} | set(answers)
        if len(refused) > workers or not ends <= {b"refused N Garbled A", b"answer 2 1500 1500", b"answer 1 1400 1400"}:
            return f"call {number}: {refused!r}, {ends!r}"
        if done.stdout.count(b"\nend\n") + len(refused) != count or done.returncode != (1 if refused else 0):
            return f"call {number}: ended with {done.returncode}, {len(refused)} refused, wrote {shown(done.stdout)}"
    return None


def made_lists(names: Sequence[str], rows: int) -> Lists:
    """Lists of so many rows each, of which no two have one grade."""
    made, lists = random.Random(2026), {}
    for name in names:
        grades = sorted(made.sample(range(1_000_000), rows), reverse=True)
        lists[name] = list(zip(made.sample(range(rows), rows), grades))
    return lists


def line_of(names: Sequence[str], number: int) -> str:
    """The line with a number: it names some of the lists."""
    some = [names[(number * 5 + it) % len(names)] for it in range(min(len(names), NAMED))]
    return f"top 3 by sum({','.join(some)}) using {('ta', 'nra', 'ca', 'fa')[number % 4]}"


def workers_and_sources(program: str) -> str | None:
    """1, 2, 8 and 32 workers over 1, 4 and 64 sources write what the lines come to."""
    needs(no_threads(200))
    for count in (1, 4, 64):
        names = [f"s{it}" for it in range(count)]
        lists, lines = made_lists(names, 100), [line_of(names, it) for it in range(64)]
        wanted, text = worked_out(lines, lists), "\n".join(lines).encode()
        with tempfile.TemporaryDirectory() as place:
            write_lists(place, lists)
            for workers in (1, 2, 8, 32):
                words = ["run", "catalog.csv", "--workers", str(workers), "--page", "3"]
                wrong = differs(run(program, words, text, place), 0, wanted)
                if wrong is not None:
                    return f"{workers} workers over {count} sources: {wrong}"
    return None


def before(program: str, words: Sequence[str], data: bytes, place: str, **settings: str) -> Done[bytes]:
    """A run of the program with what sharing.c does."""
    env = dict(os.environ, LD_PRELOAD=os.path.join(place, "sharing.so"), **settings)
    return run(program, words, data, place, env=env)


def without_threads(program: str) -> str | None:
    """Where the system makes no thread, or none more than some, a run comes to its end with the same text."""
    needs(no_threads(50))
    names = ["A", "B", "C", "D"]
    with tempfile.TemporaryDirectory() as place:
        built(place, "sharing")
        lists, lines = made_lists(names, 200), [line_of(names, it) for it in range(12)]
        write_lists(place, lists)
        wanted, text = worked_out(lines, lists), "\n".join(lines).encode()
        words = ["run", "catalog.csv", "--workers", "4", "--page", "2"]
        for number in range(1, 12):
            wrong = differs(before(program, words, text, place, SHARING_THREADS=str(number)), 0, wanted)
            if wrong is not None:
                return f"without the thread {number}: {wrong}"
    return None


def few_sleeps(program: str) -> str | None:
    """A line of 25,000 accesses makes fewer than 200 calls by which a thread sleeps or wakes another, at least in one
    of some runs beside other work."""
    needs(no_threads(50), no_room(100))
    made = run(program, ["make", "--start", "7", "--count", "20000", "--lists", "4"]).stdout.decode()
    lists = dict(section.split("\n", 1) for section in made.split("list ")[1:])
    with tempfile.TemporaryDirectory() as place:
        built(place, "sharing")
        write(place, "catalog.csv", catalog(list(lists)))
        for name, text in lists.items():
            write(place, f"{name}.csv", text)
        line, counts = f"top 10 by sum({','.join(lists)}) using ta\n".encode(), []
        for _ in range(10):
            count = pathlib.Path(place, "count")
            count.write_bytes(bytes(8))
            wrong = differs(before(program, ["run", "catalog.csv"], line, place, SHARING_COUNT=str(count)), 0)
            if wrong is not None:
                return wrong
            counts.append(int.from_bytes(count.read_bytes(), "little"))
            if 0 < counts[-1] < 200:
                return None
    return f"made {counts} calls"


def peak(program: str, place: str, lines: bytes, workers: int) -> tuple[int, int]:
    """How a run ended, and the most memory that it had, in MB."""
    words = ["-c", MEASURED, program, "run", "catalog.csv", "--workers", str(workers)]
    done = run(sys.executable, words, lines, place)
    status, kilobytes = done.stderr.split()[-2:]
    return int(status), int(kilobytes) >> 10


def memory(program: str) -> str | None:
    """32 workers over 64 sources of 20,000 rows take less than 150 MB more than one, and those over one of the sources
    less than half of it all."""
    needs(no_threads(200), no_memory(1500), no_room(100))
    names, rows = [f"s{it}" for it in range(64)], 20_000
    with tempfile.TemporaryDirectory() as place:
        write(place, "catalog.csv", catalog(names))
        for shift, name in enumerate(names):
            made = (((it * 7919 + shift * 313) % rows, 1_000_000 - 50 * it) for it in range(rows))
            write(place, f"{name}.csv", list_text(made))
        over_all = "".join(f"top 3 by sum({names[it]},{names[-1 - it]}) using nra\n" for it in range(64)).encode()
        (first, one), (second, many) = (peak(program, place, over_all, it) for it in (1, 32))
        third, few = peak(program, place, b"top 3 by s0 using nra\n" * 64, 32)
    if (first, second, third) != (0, 0, 0):
        return f"ended with {first}, {second}, {third}"
    enough = many < one + 150 and 2 * few < many
    return None if enough else f"took {one} MB with one worker, {many} with 32, and {few} over one source"


def tests() -> Iterator[tuple[str, Callable[[str], str | None]]]:
    """Each test with its name."""
    for test in (slow_beside_fast, fails_while_served, one_failure):
        yield f"sharing_{test.__name__}", over_network(test)
    for test in (workers_and_sources, without_threads, few_sleeps, memory):
        yield f"sharing_{test.__name__}", test
