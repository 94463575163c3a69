"""Tests of the benches: each runs with its smallest size, and what bench/make_examples.py writes is what is
committed."""
from __future__ import annotations

import filecmp
import functools
import importlib.util
import os
import pathlib
import subprocess
import sys
import tempfile
from collections.abc import Callable, Iterator, Mapping, Sequence

from machine import SECONDS, Skipped, no_loopback, needs, path_of
from support import REPOSITORY

BENCH = REPOSITORY / "bench"
# Of each bench the words that make it small; the program stands where it runs, as ./topk.
SMALLEST: dict[str, Sequence[str]] = {
    "bench": ("--lists", "2", "--counts", "20000", "--operators", "sum", "--algorithms", "ta", "--rounds", "1",
              "--bulk-lists", "2", "--queries", "2", "--workers", "1"),
    "bridges": ("topk", "60"), "delayed": ("topk", "20", "1"),
    "endure": ("topk", "--seconds", "1", "--requests", "1100"),
    "fagin": ("--lists", "2", "--count", "50", "--rounds", "1"),
    "files": ("topk", "--counts", "50", "--lists", "2", "--queries", "2", "--workers", "1", "--rounds", "1"),
    "gate": ("--", "true"), "library": ("--lists", "2", "--count", "20", "--rounds", "1"), "nodes": ("topk", "100"),
    "package": ("--rows", "50", "--rounds", "1"),
    "responses": ("--rows", "10", "--rounds", "1"),
    "serve": ("topk", "--requests", "10", "--clients", "1", "4", "--workers", "1"),
    "threads": ("--counts", "20", "--lists", "2", "--queries", "2", "--times", "1", "--timed", "1", "--rounds", "1"),
}
# Files that a bench needs, and why it is skipped where one isn't there.
BUILT = {"library": (REPOSITORY / "c" / "out" / "libtopk.so", "there is no c/out/libtopk.so"),
         "responses": (REPOSITORY / "crates" / "bench_http" / "out" / "bench_http", "there is no bench_http")}
PEERS = {"endure": "ab", "fagin": "rustc", "serve": "ab"}
MODULES = {"package": "pandas"}


def ended(name: str, words: Sequence[str], place: str, env: Mapping[str, str] | None = None) -> str | None:
    """What is wrong with how a file of bench/ ends, or None."""
    command = [sys.executable, "-B", str(BENCH / f"{name}.py"), *words]
    done = subprocess.run(command, cwd=place, stdin=subprocess.DEVNULL, stdout=subprocess.PIPE, stderr=subprocess.PIPE,
                          timeout=SECONDS, check=False, env=env)
    if done.returncode != 0:
        return f"ended with {done.returncode}: {done.stderr[-500:].decode(errors='replace')}"
    return None if done.stdout or name == "make_examples" else "wrote nothing"


def runs(program: str, name: str) -> str | None:
    """What is wrong with a bench of the smallest size, or None."""
    needs(no_loopback())
    if name in PEERS:
        path_of(PEERS[name])
    if name in MODULES and importlib.util.find_spec(MODULES[name]) is None:
        raise Skipped(f"there is no {MODULES[name]}")
    if name in BUILT and not BUILT[name][0].exists():
        raise Skipped(BUILT[name][1])
    with tempfile.TemporaryDirectory() as place:
        os.symlink(program, os.path.join(place, "topk"))
        return ended(name, SMALLEST[name], place, dict(os.environ, TOPK_PROGRAM=program))


def each_has_a_size(_: str) -> str | None:
    """A bench that isn't run here, or None; parts and reference are used by others, and no file has a name of the
    standard library."""
    there = {path.stem for path in BENCH.glob("*.py")} - {"parts", "reference", "make_examples"}
    names = getattr(sys, "stdlib_module_names", frozenset())
    hidden = sorted(path.name for folder in ("bench", "tests") for path in (REPOSITORY / folder).glob("*.py")
                    if path.stem in names)
    if hidden:
        return f"{hidden} have names of the standard library"
    return None if there == set(SMALLEST) else f"{sorted(there ^ set(SMALLEST))} differ"


def examples_are_made(_: str) -> str | None:
    """What bench/make_examples.py works out is what stands in the repository."""
    with tempfile.TemporaryDirectory() as place:
        wrong = ended("make_examples", (), place)
        made = sorted(it for it in pathlib.Path(place).rglob("*") if it.is_file())
        differ = [str(it.relative_to(place)) for it in made
                  if not filecmp.cmp(it, REPOSITORY / it.relative_to(place), shallow=False)]
    return wrong or (f"{differ} differ" if differ or not made else None)


def tests() -> Iterator[tuple[str, Callable[[str], str | None]]]:
    """Each test with its name."""
    for name in SMALLEST:
        yield f"bench_{name}", functools.partial(runs, name=name)
    yield "bench_each_has_a_size", each_has_a_size
    yield "bench_examples_are_made", examples_are_made
