#!/usr/bin/env python3
"""Runs the built program as its users do: a process with words, streams and files, its exit status and what it writes.

Use, from anywhere: python3 tests/run.py [--program PATH] [--minutes N] [--library] [NAME ..]

Without names all tests run. Each folder of cases/ is one: `words` (a word a line), `input` (standard input, empty where
there is none), `files/` (copied to where the program runs), `output` (what it has to write) and `status` (0 where there
is none). A folder with `rows` is a table of runs, which rows.py reads. requests/ has requests to `node` and to `serve`
with what they get, a line each.

A test that needs more than a folder stands in a file of this folder, by topic; its head says of what. Such a file is
taken up by being here. It has a function `tests()` that yields names, each with a function that is given the program's
path and answers what is wrong, or None; an exception is wrong too. What tests share stands in support.py, what the
machine has in machine.py; these two, rows.py and this one have no tests.

A test is skipped only where a peer isn't installed (`machine.path_of`, `machine.Skipped`) and skips.txt has the reason
beside the test's name. Any other skip fails. So does what the machine lacks, what hangs, and a test that hasn't begun
when the minutes are over. After three tests that hung no other begins.

With --library the C library is built first (`rt lib`) where a C compiler is there, so that its tests and those of the
Python module run; without it they are skipped where the archive isn't there.

Ends with 'N passed, M failed', and with the status 0 exactly where none failed. Standard library alone.
"""
from __future__ import annotations

import argparse
import concurrent.futures
import fnmatch
import functools
import importlib
import io
import os
import pathlib
import shutil
import signal
import socket
import subprocess
import sys
import tempfile
import threading
import time
import traceback
from collections.abc import Callable, Iterable, Iterator

import machine
import rows
import support

OLDEST = (3, 9)
HERE = pathlib.Path(__file__).resolve().parent
PROGRAM = HERE.parent / "crates" / "topk" / "out" / "topk"
# What stands beside the tests and has none.
NO_TESTS = {"run", "rows", "support", "machine"}
# Tests that wait most of their time, for what comes only after ten seconds or a minute. They begin first, on threads
# beside the others; who ends the run from outside waits for them too.
WAITING = {"servers_given_up", "bad_hosts_server_over_silence", "bad_hosts_silent", "edges_dial_gives_up",
           "restarts_gone_host", "running_slow_behind_nginx"}
# So many tests run at the same time, beside those that wait; fewer where there are fewer processors.
AT_ONCE = 3
# So many tests may hang before no other begins.
MAY_HANG = 3

Test = Callable[[str], "str | None"]


def wrong_with(program: str, row: rows.Row) -> str | None:
    """What is wrong with a run, or None."""
    with tempfile.TemporaryDirectory() as place:
        for name, text in row.files.items():
            path = pathlib.Path(place, name)
            path.parent.mkdir(parents=True, exist_ok=True)
            path.write_bytes(text)
        done = support.run(program, row.words, row.input, place)
    if done.stderr:
        return f"wrote to standard error: {done.stderr[:200]!r}"
    return support.differs(done, row.status, row.output)


def run_case(program: str, folder: pathlib.Path) -> str | None:
    """What is wrong with the run of a case, or with each run of its table that is wrong, or None."""
    found = ((row.label, wrong_with(program, row)) for row in rows.runs_of(folder))
    return "\n    ".join(f"{label}: {wrong}" if label else wrong for label, wrong in found if wrong is not None) or None


def topics() -> list[str]:
    """The names of the files with tests."""
    return sorted(path.stem for path in HERE.glob("*.py") if path.stem not in NO_TESTS)


def tests() -> Iterator[tuple[str, Test]]:
    """Names with what runs the test of a program: it answers what is wrong, or None, or raises Skipped."""
    for folder in sorted((HERE / "cases").iterdir()):
        yield folder.name, functools.partial(run_case, folder=folder)
    for topic in topics():
        yield from importlib.import_module(topic).tests()


def skips() -> dict[str, list[str]]:
    """The reasons of skips.txt with the names, or patterns of names, of the tests that they may skip."""
    found: dict[str, list[str]] = {}
    for line in (HERE / "skips.txt").read_text(encoding="utf-8").splitlines():
        if line and not line.startswith("#"):
            reason, _, names = line.partition(": ")
            found.setdefault(reason, []).extend(names.split())
    return found


def may_skip(name: str, reason: str) -> bool:
    """Whether a test may be skipped for this reason."""
    return any(fnmatch.fnmatchcase(name, it) for it in skips().get(reason, ()))


class Runner:
    """What became of the tests of a program so far."""

    def __init__(self, program: str, minutes: float) -> None:
        self.program, self.minutes = program, minutes
        self.end = time.monotonic() + 60 * minutes
        self.passed, self.failed, self.hung = 0, 0, 0
        self.skipped: list[str] = []
        self.seconds: dict[str, float] = {}
        self.turn = threading.Lock()
        self.out = sys.stdout  # A test may put another in its place for a while.

    def wrong_with(self, name: str, test: Test) -> str | None:
        """What is wrong with a test, or None. Raises Skipped where it may be skipped."""
        if time.monotonic() > self.end:
            return f"hasn't begun when the {self.minutes:g} minutes were over"
        if self.hung >= MAY_HANG:
            return f"hasn't begun, since {self.hung} tests hung"
        try:
            return test(self.program)
        except machine.Skipped as why:
            if may_skip(name, str(why)):
                raise
            return f"is skipped ({why}), and skips.txt doesn't have it"
        except (subprocess.TimeoutExpired, TimeoutError, socket.timeout) as late:
            self.hung += 1
            return f"hung: {''.join(traceback.format_exception(type(late), late, late.__traceback__)[-2:])}"
        except Exception:  # Whatever the test has met: the others run all the same.
            return traceback.format_exc(limit=-2)

    def go(self, name: str, test: Test) -> None:
        """Runs a test and counts it."""
        began = time.monotonic()
        try:
            wrong, skipped = self.wrong_with(name, test), None
        except machine.Skipped as why:
            wrong, skipped = None, why
        with self.turn:
            self.seconds[name] = time.monotonic() - began
            if skipped is not None:
                self.skipped.append(f"{name} ({skipped})")
            elif wrong is None:
                self.passed += 1
            else:
                self.failed += 1
                print(f"{name}: {wrong}", file=self.out, flush=True)

    def run_all(self, wanted: Iterable[tuple[str, Test]]) -> None:
        """Runs tests, those that wait beside the others."""
        known = list(wanted)
        slow = [it for it in known if it[0] in WAITING]
        quick = [it for it in known if it[0] not in WAITING]
        at_once = max(1, min(AT_ONCE, (os.cpu_count() or 1) - 1))
        with concurrent.futures.ThreadPoolExecutor(len(WAITING)) as waiting, \
                concurrent.futures.ThreadPoolExecutor(at_once) as others:
            begun = [waiting.submit(self.go, *it) for it in slow] + [others.submit(self.go, *it) for it in quick]
            try:
                for future in begun:
                    future.result()
            finally:
                for future in begun:
                    future.cancel()


def unfit() -> str | None:
    """Why no test can run on this machine, or None."""
    if sys.version_info < OLDEST:
        return "the tests need Python {}.{} or later".format(*OLDEST)
    try:
        tempfile.gettempdir()
    except FileNotFoundError:
        return "there is no folder in which tests may write"
    return None


def build_library() -> str | None:
    """Builds the proved archive where a C compiler is there: what is wrong, or None."""
    if not any(map(shutil.which, ("cc", "gcc", "clang"))):
        return None
    done = subprocess.run(["rt", "lib"], cwd=HERE.parent / "crates" / "topk_c", stdout=subprocess.PIPE,
                          stderr=subprocess.STDOUT, text=True, check=False)
    return None if done.returncode == 0 else f"`rt lib` of topk_c ended with {done.returncode}: {done.stdout[-500:]}"


def main() -> int:
    """Runs the tests that the words name, and answers the status."""
    signal.signal(signal.SIGTERM, lambda *_: sys.exit("ended from outside"))  # What tests have started is ended too.
    words = argparse.ArgumentParser(description="Runs the built program as its users do.")
    words.add_argument("--program", type=pathlib.Path, default=PROGRAM)
    words.add_argument("--minutes", type=float, default=60, help="no test begins later than that")
    words.add_argument("--library", action="store_true", help="build the C library first, where a C compiler is there")
    words.add_argument("--seconds", action="store_true", help="say what the ten slowest took")
    words.add_argument("names", nargs="*")
    given = words.parse_args()
    program = given.program.resolve()
    lacks = unfit() or (None if program.is_file() else f"there is no program at {program}: `make topk` builds it")
    lacks = lacks or (build_library() if given.library else None)
    if lacks is not None:
        print(f"{lacks}\n0 passed, 1 failed")
        return 1
    known = list(tests())
    unknown = set(given.names) - {name for name, _ in known}
    if unknown:
        sys.exit(f"there is no test {' '.join(sorted(unknown))}")
    machine.settle()
    runner = Runner(str(program), given.minutes)
    runner.run_all(it for it in known if not given.names or it[0] in given.names)
    for name in sorted(runner.skipped):
        print(f"skipped: {name}")
    if given.seconds:
        for name in sorted(runner.seconds, key=runner.seconds.__getitem__, reverse=True)[:10]:
            print(f"{runner.seconds[name]:.1f} s: {name}")
    print(f"{runner.passed} passed, {runner.failed} failed")
    return 0 if runner.failed == 0 else 1


if __name__ == "__main__":
    for stream in (sys.stdout, sys.stderr):
        if isinstance(stream, io.TextIOWrapper):
            stream.reconfigure(errors="backslashreplace")
    sys.exit(main())
