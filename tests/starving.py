"""Each allocation of the program refused in turn, alone and with all behind it: it ends with the status of want of
memory and a front of its text, or as if nothing had happened.
"""
from __future__ import annotations

import functools
import os
import pathlib
import shutil
import subprocess
import tempfile
from collections.abc import Callable, Iterator, Sequence

from machine import SECONDS
from support import Done, built, shown

HERE = pathlib.Path(__file__).resolve().parent
WANT_OF_MEMORY = 8
MOST = 20_000

# A refused allocation each: the answer to a bundle, the answers to query lines, a certificate that fixes its answer,
# and one that a table is written against.
CASES = {"starved_one": "one_answered", "starved_run": "run_all_answered", "starved_judge": "judge_fixes",
         "starved_counter_table": "judge_beaten"}


def starved(program: str, words: Sequence[str], data: bytes, place: str, number: int,
            **more: str) -> tuple[Done[bytes], bool]:
    """How the program ends where the allocation of this number is refused, and whether one was."""
    reading, writing = os.pipe()
    env = dict(os.environ, LD_PRELOAD=f"{place}/starved.so", STARVED_AT=str(number), STARVED_SAYS=str(writing), **more)
    try:
        done = subprocess.run([program, *words], input=data, capture_output=True, cwd=place, env=env,
                              pass_fds=(writing,), timeout=SECONDS, check=False)
    finally:
        os.close(writing)
        with os.fdopen(reading, "rb") as told:
            refused = told.read() != b""
    return done, refused


def wrong_end(done: Done[bytes], refused: bool, status: int, text: bytes) -> str | None:
    """What is wrong with an end, or None."""
    if (done.returncode, done.stdout) == (status, text):
        return None
    if refused and done.returncode == WANT_OF_MEMORY and text.startswith(done.stdout):
        return None
    told = "one" if refused else "none"
    return f"ended with {done.returncode} and {shown(done.stdout)}, {told} being refused; {shown(done.stderr)}"


def each_refused(program: str, case: str, **more: str) -> str | None:
    """What is wrong with the first end that is, or None."""
    folder = HERE / "cases" / case
    words = (folder / "words").read_text(encoding="utf-8").splitlines()
    data = (folder / "input").read_bytes()
    status = int((folder / "status").read_text(encoding="ascii")) if (folder / "status").exists() else 0
    text, ended = (folder / "output").read_bytes(), 0
    with tempfile.TemporaryDirectory() as place:
        built(place, "starved")
        if (folder / "files").is_dir():
            shutil.copytree(folder / "files", place, dirs_exist_ok=True)
        for number in range(1, MOST):
            done, refused = starved(program, words, data, place, number, **more)
            if number == 1 and not refused:
                return "what goes before the program isn't loaded"
            wrong = wrong_end(done, refused, status, text)
            if wrong is not None:
                return f"allocation {number}: {wrong}"
            ended += done.returncode == WANT_OF_MEMORY
            if not refused:
                return None if ended else "no refused allocation was told"
    return f"more than {MOST} allocations"


def tests() -> Iterator[tuple[str, Callable[[str], str | None]]]:
    """Each test with its name."""
    for name, case in CASES.items():
        yield name, functools.partial(each_refused, case=case)
    yield "starved_run_from_there_on", functools.partial(each_refused, case=CASES["starved_run"], STARVED_ON="yes")
