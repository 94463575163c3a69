"""Tests that need more than a folder of files: great inputs, full devices, limits of memory, threads that are
counted."""
from __future__ import annotations

import os
import random
import resource
import subprocess
import tempfile
import time
from collections.abc import Callable, Iterator

from machine import SECONDS, needs, no_memory, no_room, no_threads
from support import catalog, differs, numbers_in, ranked, run, worked_out, write, write_lists

MAX_INPUT = 134_217_728
# What the largest input takes: here, in the pipe's two ends, and in the program's buffer while it grows.
LARGEST = 1500
MAKE = ("make", "--start", "7", "--count", "4", "--lists", "2")


def padded_bundle(size: int) -> bytes:
    """A bundle of exactly so many bytes: grades and objects have no spare form, so its last line, the query, is made
    too long."""
    head = b"list A\n1,5\nquery top 1 by A using ta"
    return head + b" " * (size - len(head) - 1) + b"\n"


def largest_input(program: str) -> str | None:
    """An input of the most bytes is read, and its line refused for its length."""
    needs(no_memory(LARGEST))
    return differs(run(program, ["one"], padded_bundle(MAX_INPUT)), 1, b"refused 1 LongLine 4096\n")


def one_byte_more(program: str) -> str | None:
    """An input of one byte more has a status of its own."""
    needs(no_memory(LARGEST))
    return differs(run(program, ["one"], padded_bundle(MAX_INPUT + 1)), 9, b"")


def texts_at_their_limits(program: str) -> str | None:
    """A bundle, a query line, a catalog and a place with as much as each may have, and with one more."""
    def lists(count: int) -> str:
        return "".join(f"list L{it}\n7,7\n" for it in range(count)) + "query q\n"

    def line(ones: int) -> str:
        return f"list A\n1,5\nquery top {'1' * ones} by A using ta\n"

    def sources(count: int) -> str:
        return catalog({f"L{it}": "p" for it in range(count)})

    def place(letters: int) -> str:
        return catalog({"A": "p" * letters})

    for text, status, output in ((lists(64), 1, b"refused 1 Syntax 0\n"), (lists(65), 10, b"refused bundle 129\n"),
                                 (line(4078), 1, b"refused 1 Number 4\n"),
                                 (line(4079), 1, b"refused 1 LongLine 4096\n")):
        if wrong := differs(run(program, ["one"], text.encode()), status, output):
            return f"`one` over {len(text)} bytes: {wrong}"
    for text, status, output in ((sources(64), 0, b""), (sources(65), 3, b"refused catalog CatalogLine 66\n"),
                                 (place(255), 0, b""), (place(256), 3, b"refused catalog CatalogLine 2\n")):
        with tempfile.TemporaryDirectory() as folder:
            write(folder, "catalog.csv", text)
            if wrong := differs(run(program, ["run", "catalog.csv"], place=folder), status, output):
                return f"`run` over a catalog of {len(text)} bytes: {wrong}"
    return None


def read_fault(program: str) -> str | None:
    """Standard input is a folder, which can be opened and not read."""
    folder = os.open("/", os.O_RDONLY)
    try:
        done = subprocess.run([program, "one"], stdin=folder, capture_output=True, timeout=SECONDS, check=False)
    finally:
        os.close(folder)
    return differs(done, 4, b"")


def made_into(program: str, out: int) -> str | None:
    """What is wrong with how `make` ends where what it writes can't be written there, or None."""
    done = subprocess.run([program, *MAKE], stdout=out, stderr=subprocess.PIPE, timeout=SECONDS, check=False)
    return None if done.returncode == 5 else f"ended with {done.returncode} in place of 5"


def full_device(program: str) -> str | None:
    """A device that is full is a fault of writing."""
    full = os.open("/dev/full", os.O_WRONLY)
    try:
        return made_into(program, full)
    finally:
        os.close(full)


def closed_pipe(program: str) -> str | None:
    """Whoever should read what is written has gone before it is written."""
    reading, writing = os.pipe()
    os.close(reading)
    try:
        return made_into(program, writing)
    finally:
        os.close(writing)


def little_memory(program: str) -> str | None:
    """A process that may have 200 MB reads an input of which it has to keep more than that in its growing buffer."""
    needs(no_memory(LARGEST))
    little, most = 200_000_000, resource.getrlimit(resource.RLIMIT_AS)[1]
    if most != resource.RLIM_INFINITY and most < little:
        raise AssertionError("a process may have less than 200 MB here")
    done = run("sh", ["-c", f'ulimit -v {little // 1024}; exec "$0" "$@"', program, "one"], padded_bundle(MAX_INPUT))
    return differs(done, 8, b"")


def folder_as_catalog(program: str) -> str | None:
    """A folder can't be read as a catalog."""
    with tempfile.TemporaryDirectory() as place:
        os.mkdir(os.path.join(place, "lists"))
        return differs(run(program, ["run", "lists"], b"top 1 by A using ta\n", place), 6, b"")


def word_that_is_no_text(program: str) -> str | None:
    """A word that isn't UTF-8 is no command's."""
    return differs(run(program, ["one", b"\xff"]), 2, b"refused words\n")


def place_is_asked(program: str) -> str | None:
    """Two catalogs beside each other: the one that the words name is read."""
    with tempfile.TemporaryDirectory() as place:
        write(place, "catalog.csv", catalog(["A"]))
        write(place, "other.csv", catalog(["B"]))
        write(place, "A.csv", "object,grade\n1,5\n")
        write(place, "B.csv", "object,grade\n2,7\n")
        line = "top 1 by B using ta"
        wanted = worked_out([line], {"B": [(2, 7)]})
        return differs(run(program, ["run", "other.csv"], f"{line}\n".encode(), place), 0, wanted)


def great_lists(program: str) -> str | None:
    """Two lists of 200,000 rows: the best by their sum, found by adding up all of them; each file has more than 2
    MB."""
    needs(no_memory(500), no_room(100))
    count, made = 200_000, random.Random(2026)
    grades = [[made.randrange(1_000_001) for _ in range(count)] for _ in range(2)]
    with tempfile.TemporaryDirectory() as place:
        write_lists(place, {name: ranked(dict(enumerate(of))) for name, of in zip("AB", grades)})
        done = run(program, ["run", "catalog.csv"], b"top 3 by sum(A,B) using ta\n", place)
    sums = dict(enumerate(map(sum, zip(*grades))))
    wanted = [[item, worth, worth] for item, worth in ranked(sums)[:3]]
    found = numbers_in(done.stdout, "answer")
    return differs(done, 0) or (None if found == wanted else f"answered {found} in place of {wanted}")


def last_row_counts(program: str) -> str | None:
    """The object that is wanted is asked for by name and stands in the last row of a file of 3 MB."""
    needs(no_memory(500), no_room(100))
    count = 200_000
    falling = [(it, 1_000_000 - it) for it in range(count)]
    rising = [(count - 1 - it, grade) for it, grade in falling]
    with tempfile.TemporaryDirectory() as place:
        write_lists(place, {"A": falling, "B": rising})
        done = run(program, ["run", "catalog.csv"], b"top 1 by max(A,B) using ta\n", place)
    if numbers_in(done.stdout, "answer") != [[0, 1_000_000, 1_000_000]]:
        return differs(done, 0) or f"answered {numbers_in(done.stdout, 'answer')}"
    grade = b"r B 0 800001"
    return None if grade in done.stdout.split(b"\n") else f"{grade!r} isn't among the accesses"


def many_sources(program: str) -> str | None:
    """64 sources, each wanted by one line."""
    needs(no_threads(200))
    lists = {f"s{it}": [(it, it + 1), (1000, 0)] for it in range(64)}
    lines = [f"top 1 by {name} using nra" for name in lists]
    with tempfile.TemporaryDirectory() as place:
        write_lists(place, lists)
        done = run(program, ["run", "catalog.csv", "--workers", "32"], "\n".join(lines).encode(), place)
    return differs(done, 0, worked_out(lines, lists))


def most_threads(program: str, workers: int) -> tuple[int, int, int | None]:
    """The most threads that a run of `bulk` had, how many looks found them, and how it ended."""
    words = ["bulk", "--start", "7", "--count", "100000", "--lists", "2", "--queries", "64", "--workers", str(workers)]
    counts, late = [], time.monotonic() + SECONDS
    with subprocess.Popen([program, *words], stdout=subprocess.DEVNULL) as process:
        try:
            while process.poll() is None:
                if time.monotonic() > late:
                    raise TimeoutError(f"{words} doesn't end")
                counts.append(len(os.listdir(f"/proc/{process.pid}/task")))
                time.sleep(0.001)
        except (FileNotFoundError, ProcessLookupError):  # It ended between the two looks.
            process.wait(SECONDS)
        finally:
            process.kill()
    most = max(counts, default=0)
    return most, counts.count(most), process.returncode


def workers_are_threads(program: str) -> str | None:
    """`bulk` runs as many workers as it is told: beside the first thread and the fetchers of two lists, one and eight
    more. A busy machine looks seldom, so a few runs may show it."""
    needs(no_threads(50))
    for _ in range(5):
        (few, looks, first), (many, more_looks, second) = most_threads(program, 1), most_threads(program, 8)
        if (first, second) != (0, 0):
            return f"ended with {first} and {second}"
        if many == few + 7:
            return None
        if min(looks, more_looks) >= 20:
            break
    return f"had {few} threads with one worker and {many} with eight"


def settings_change_nothing(program: str) -> str | None:
    """Hundreds of runs over threads with small pages write one text, and each comes to its end: nobody is woken where
    nobody hears it."""
    needs(no_threads(50))
    made = random.Random(7)
    lists = {name: ranked({it: made.randrange(1000) for it in range(200)}) for name in "ABCD"}
    lines = ["top 3 by sum(A,B) using ta", "top 2 by min(A,B) using nra", "top 4 by max(A,B) using ca"] * 4
    lines += ["top 3 by sum(A,B,C,D) using ta"] * 24
    wanted, text = worked_out(lines, lists), "".join(f"{line}\n" for line in lines).encode()
    with tempfile.TemporaryDirectory() as place:
        write_lists(place, lists)
        for it in range(200):
            # Every other run has the most turns that threads wait for at the same lock.
            workers, page, ahead = (16, 1, 0) if it % 2 else (1 + it % 8, 1 + it % 5, it % 3)
            words = ["run", "catalog.csv", "--workers", str(workers), "--page", str(page), "--ahead", str(ahead)]
            wrong = differs(run(program, words, text, place), 0, wanted)
            if wrong is not None:
                return f"run {it}, {' '.join(words)}: {wrong}"
    return None


def tests() -> Iterator[tuple[str, Callable[[str], str | None]]]:
    """Each test with its name."""
    for test in (largest_input, one_byte_more, texts_at_their_limits, read_fault, full_device, closed_pipe,
                 little_memory, folder_as_catalog, word_that_is_no_text, place_is_asked, great_lists, last_row_counts,
                 many_sources, workers_are_threads, settings_change_nothing):
        yield test.__name__, test
