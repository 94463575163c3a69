#!/usr/bin/env python3
"""How long an answer takes from Python over lists in memory, beside the program's `one` on the same bundle.

Use, after `make lib` and with a built program:
    bench/library.py [--program ./topk] [--lists 4] [--count 20000] [--algorithms ta,nra,ca] [--rounds 20]

The lists are those that the program's `make` writes, as two arrays of 32 bits each: of numpy, or of the module array
where numpy isn't there. Milliseconds are those of the processor, the least of the rounds in turn; those of the program
have its start and its reading in them. Of an answer from Python, `arrays` is the putting together of the rows,
`library` the call and `parts` the taking apart of the certificate; `by text` is the same answer by way of a bundle's
text, of which `text` is the making of it.
"""

from __future__ import annotations

import argparse
import array
import importlib
import importlib.util
import pathlib
import resource
import subprocess
import sys
import time
from collections.abc import Callable, Sequence
from types import ModuleType
from typing import Any, Optional

HERE = pathlib.Path(__file__).resolve().parent
START = 1


def module() -> ModuleType:
    """The package python/topk, which finds the library that `make lib` has built."""
    sys.path.insert(0, str(HERE.parent / "python"))
    return importlib.import_module("topk")


def numpy() -> Optional[Any]:
    """The module numpy, where it is installed."""
    return importlib.import_module("numpy") if importlib.util.find_spec("numpy") else None


def column(numbers: Sequence[int]) -> Any:
    """Numbers of 32 bits as an array."""
    found = numpy()
    return array.array("I", numbers) if found is None else found.array(numbers, dtype="uint32")


def lists_in(text: bytes) -> dict[str, tuple[Any, ...]]:
    """The lists of a bundle's sections, each as two arrays under its name."""
    lists: dict[str, list[tuple[int, ...]]] = {}
    rows: list[tuple[int, ...]] = []
    for line in text.decode().splitlines():
        if line.startswith("list "):
            rows = lists.setdefault(line[5:], [])
        else:
            rows.append(tuple(map(int, line.split(","))))
    return {name: tuple(map(column, zip(*rows))) for name, rows in lists.items()}


def seconds() -> float:
    """The seconds of the processor that this process and those that it waited for have taken."""
    ended = resource.getrusage(resource.RUSAGE_CHILDREN)
    return time.process_time() + ended.ru_utime + ended.ru_stime


class Clock:
    """The least time that each of several things took."""

    def __init__(self) -> None:
        self.least: dict[str, float] = {}

    def call(self, name: str, work: Callable[..., Any], *given: Any) -> Any:
        """What the work gives, timed under this name."""
        began = seconds()
        result = work(*given)
        took = seconds() - began
        self.least[name] = min(took, self.least.get(name, took))
        return result

    def watch(self, place: Any, function: str, name: str) -> Callable[..., Any]:
        """Times each call of a module's or a class's function under this name, and returns the function."""
        work: Callable[..., Any] = getattr(place, function)
        setattr(place, function, lambda *given: self.call(name, work, *given))
        return work


def written(program: str, words: Sequence[str], text: bytes) -> bytes:
    """What the program writes of an input."""
    return subprocess.run([program, *words], input=text, stdout=subprocess.PIPE, check=True).stdout


def measured(topk: ModuleType, program: str, made: bytes, query: str, rounds: int) -> dict[str, float]:
    """The least seconds of an answer from Python and of its parts, by rows and by text, and of the program."""
    lists, bundle, clock, by_text = lists_in(made), made + f"query {query}\n".encode(), Clock(), Clock()
    library = importlib.import_module("topk.library")
    watched = [(importlib.import_module("topk.cores"), "rows_of", "arrays"), (library.Library, "_called", "library"),
               (library, "answered", "parts")]
    kept = [(place, function, clock.watch(place, function, name)) for place, function, name in watched]
    for _ in range(rounds):
        text = clock.call("program", written, program, ["one"], bundle)
        answer = clock.call("answer", topk.answer, lists, query)
        assert answer.certificate.encode() == text
    for place, function, work in kept:
        setattr(place, function, work)
    for _ in range(rounds):
        way = by_text.call("by text", lambda: topk.answer_bundle(by_text.call("text", topk.bundle_of, lists, query)))
        assert way == answer
    return {**clock.least, **by_text.least}


def main() -> None:
    """Prints a line for each algorithm."""
    parser = argparse.ArgumentParser(description="How long an answer takes from Python.")
    parser.add_argument("--program", default="./topk")
    parser.add_argument("--lists", type=int, default=4)
    parser.add_argument("--count", type=int, default=20_000)
    parser.add_argument("--algorithms", default="ta,nra,ca")
    parser.add_argument("--rounds", type=int, default=20)
    given = parser.parse_args()
    words = ["make", "--start", str(START), "--count", str(given.count), "--lists", str(given.lists)]
    made, topk, found = written(given.program, words, b""), module(), numpy()
    kind = "array" if found is None else f"numpy {found.__version__}"
    print(f"{given.lists} lists of {given.count} rows, columns of {kind}; milliseconds")
    names = ",".join(line[5:].decode() for line in made.splitlines() if line.startswith(b"list "))
    for algorithm in given.algorithms.split(","):
        query = f"top {min(10, given.count)} by sum({names}) using {algorithm}"
        figures = measured(topk, given.program, made, query, given.rounds)
        shown = "  ".join(f"{name} {1000 * took:.1f}" for name, took in figures.items())
        print(f"{algorithm}: {shown}  ratio {figures['answer'] / figures['program']:.2f}")


if __name__ == "__main__":
    main()
