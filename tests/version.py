"""Tests of the version, which stands in the file VERSION, and of what `make` does with it and with what changed."""
from __future__ import annotations

import os
import pathlib
import re
import shutil
import tempfile
from collections.abc import Callable, Iterator

from machine import path_of, peer
from support import REPOSITORY


# Where the version stands besides, and how.
PLACES = {
    "c/topk.h": r'^#define TOPK_VERSION "(.*)"$',
    "docs/topk.1": r'^\.TH TOPK 1 \S+ "topk (.*?)" ',
    "CHANGELOG.md": r"^## (\S+)",
    "python/topk/_version.py": r'^__version__(?:: \w+)? = "(.*)"$',
}

LIBRARY = {"lib/libtopk.a", "lib/libtopk.so", "lib/pkgconfig/topk.pc", "include/topk.h"}


def version() -> str:
    """The version of all that the repository hands out."""
    return (REPOSITORY / "VERSION").read_text(encoding="utf-8").strip()


def version_is_one(_: str) -> str | None:
    """Each place states the version of the file VERSION."""
    if not re.fullmatch(r"\d+\.\d+\.\d+", version()):
        return f"VERSION has {version()!r}"
    for name, form in PLACES.items():
        if not (REPOSITORY / name).parent.is_dir():  # A part that this checkout hasn't.
            continue
        found = re.search(form, (REPOSITORY / name).read_text(encoding="utf-8"), re.MULTILINE)
        if found is None or found.group(1) != version():
            return f"{name} states {found and found.group(1)!r} in place of {version()!r}"
    return None


def library_is_installed(program: str) -> str | None:
    """`make install` puts a built library in place, with header and .pc file, and `make uninstall` takes it away."""
    make, _ = path_of("make"), path_of("install")
    with tempfile.TemporaryDirectory() as place:
        built, prefix = pathlib.Path(place, "built"), pathlib.Path(place, "opt", "topk")
        built.mkdir()
        for name in ("libtopk.a", "libtopk.so"):
            (built / name).write_bytes(b"a library")
        words = [f"DESTDIR={place}", "PREFIX=/opt/topk", f"PROGRAM={program}", f"LIBRARY={built}"]
        goals: list[tuple[str, set[str]]] = [("install", LIBRARY), ("uninstall", set())]
        for goal, wanted in goals:
            done = peer([make, "-s", "-C", str(REPOSITORY), goal, *words], text=True)
            if done.returncode != 0:
                return f"make {goal} ended with {done.returncode}: {done.stderr[:300]}"
            files = [it for folder in ("lib", "include") for it in (prefix / folder).rglob("*") if it.is_file()]
            found = {str(it.relative_to(prefix)) for it in files}
            if found != wanted:
                return f"make {goal} leaves {sorted(found)} in place of {sorted(wanted)}"
            if goal == "install":
                lines = (prefix / "lib" / "pkgconfig" / "topk.pc").read_text(encoding="utf-8").splitlines()
                if "prefix=/opt/topk" not in lines or f"Version: {version()}" not in lines:
                    return f"topk.pc has {lines}"
    return None


def program_is_made_where_its_sources_changed(_: str) -> str | None:
    """`make topk` has nothing to do until a file changes from which the program is made."""
    make = path_of("make")
    with tempfile.TemporaryDirectory() as place:
        top = pathlib.Path(place)
        shutil.copy(REPOSITORY / "Makefile", top)
        sources = ["crates.txt", "HANDLES"]
        sources += [f"crates/topk/{name}" for name in ("src/main.rt", "specs/Lib.antt", "proofs/main/Answers.antt")]
        others = ["crates/topk/out/kept.rt", "crates/test_a/src/lib.rt", "README.md"]
        for name in [*sources, *others]:
            (top / name).parent.mkdir(parents=True, exist_ok=True)
            (top / name).write_text("", encoding="utf-8")
            os.utime(top / name, (1, 1))
        (top / "topk").write_text("", encoding="utf-8")
        changes: list[str | None] = [None, *others, *sources]
        for changed in changes:
            os.utime(top / "topk", (2, 2))
            if changed is not None:
                os.utime(top / changed, (3, 3))
            stands = peer([make, "-q", "-C", place, "topk"]).returncode == 0
            if stands != (changed not in sources):
                return f"make topk has {'nothing' if stands else 'something'} to do after a change of {changed}"
            if changed is not None:
                os.utime(top / changed, (1, 1))
    return None


def tests() -> Iterator[tuple[str, Callable[[str], str | None]]]:
    """Each test with its name."""
    for test in (version_is_one, library_is_installed, program_is_made_where_its_sources_changed):
        yield test.__name__, test
