"""The program topk, as a process for each call: `one` over lists in memory, `run` over a catalog, `judge` over a
certificate.
"""
from __future__ import annotations

import array
import os
import pathlib
import shutil
import subprocess
from collections.abc import Mapping, Sequence

from topk.certificates import Answer, Verdict
from topk.faults import NoCore, Refused
from topk.ranking import bundle_text, place_of
from topk.replies import answered, judged

__all__ = ["Program", "find_program"]


class Program:
    """The program at a path. Lists in memory go to it as the text of a bundle."""

    kind = "program"

    def __init__(self, path: str | os.PathLike[str]) -> None:
        self.place = os.path.abspath(path)

    def __repr__(self) -> str:
        return f"Program({self.place!r})"

    def answer_rows(self, rows: Mapping[str, array.array[int]], query: str) -> Answer:
        """The answer to a query over lists, each with its rows from the top down. No row is put elsewhere."""
        status, text = self.called(["one"], bundle_text(rows, query))
        return answered(status, text, lambda at: place_of(rows, query, at))

    def answer_bundle(self, bundle: bytes) -> Answer:
        """The answer to the query of a bundle."""
        return answered(*self.called(["one"], bundle))

    def judge(self, certificate: bytes) -> Verdict:
        """Whether the accesses of a certificate fix its answer."""
        return judged(*self.called(["judge"], certificate))

    def run(self, catalog: str | os.PathLike[str], query: str, options: Sequence[str] = ()) -> Answer:
        """The answer to a query over the lists of a catalog, whose places are relative to the folder in which it
        stands.

        `options` are those of `topk run`, as `["--workers", "8"]`.
        """
        path = pathlib.Path(catalog)
        status, text = self.called(["run", *options, path.name], query.encode() + b"\n", path.parent)
        if text.startswith("refused catalog "):
            raise Refused("catalog", text.split()[2:])
        return answered(status, text)

    def called(
        self, words: Sequence[str], given: bytes, folder: str | os.PathLike[str] | None = None
    ) -> tuple[int, str]:
        """The status and the text of a process with these words, to which this is given."""
        try:
            done = subprocess.run([self.place, *words], input=given, stdout=subprocess.PIPE, cwd=folder, check=False)
        except OSError as fault:
            raise NoCore(f"the program {self.place} doesn't start: {fault.strerror}") from None
        return done.returncode, done.stdout.decode(errors="replace")


def find_program() -> Program | None:
    """The program that the environment variable TOPK_PROGRAM names, or else `topk` on the path or at the repository's
    top; None where there is none.
    """
    named = os.environ.get("TOPK_PROGRAM") or shutil.which("topk")
    if named:
        return Program(named)
    place = pathlib.Path(__file__).resolve().parent.parent.parent / "topk"
    return Program(place) if place.is_file() and os.access(place, os.X_OK) else None
