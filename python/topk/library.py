"""The proved library, called by ctypes. It is loaded at the first call; calls may run on several threads at once, and
let others run meanwhile.
"""
from __future__ import annotations

import array
import ctypes
import functools
import os
import pathlib
from collections.abc import Mapping
from typing import Any

from topk.certificates import Answer, Verdict
from topk.faults import NoCore
from topk.ranking import place_of
from topk.replies import MEMORY, answered, judged

__all__ = ["Library", "find_library"]

_LEAST_ROOM = 65_536
_NO_ROW = ctypes.create_string_buffer(8)


class _List(ctypes.Structure):
    """A list, as the library takes it: struct topk_list of topk.h."""

    _fields_ = [
        ("name", ctypes.c_char_p),
        ("name_length", ctypes.c_size_t),
        ("rows", ctypes.c_void_p),
        ("rows_length", ctypes.c_size_t),
    ]


class Library:
    """The library at a path. The rows of lists go to it as they are, without a text."""

    kind = "library"

    def __init__(self, path: str | os.PathLike[str]) -> None:
        self.place = os.fspath(path)
        self._calls = _loaded(self.place)

    def __repr__(self) -> str:
        return f"Library({self.place!r})"

    def answer_rows(self, rows: Mapping[str, array.array[int]], query: str) -> Answer:
        """The answer to a query over lists, each with its rows from the top down. No row is put elsewhere."""
        line = query.encode()
        given = (_List * len(rows))(
            *[_List(name.encode(), len(name), _at(numbers), len(numbers) // 2) for name, numbers in rows.items()]
        )
        room = max(_LEAST_ROOM, 8 * sum(map(len, rows.values())))
        status, text = self._called("topk_answer_rows", room, given, len(given), line, len(line))
        return answered(status, text, lambda at: place_of(rows, query, at))

    def answer_bundle(self, bundle: bytes) -> Answer:
        """The answer to the query of a bundle."""
        return answered(*self._called("topk_answer", max(_LEAST_ROOM, len(bundle)), bundle, len(bundle)))

    def judge(self, certificate: bytes) -> Verdict:
        """Whether the accesses of a certificate fix its answer."""
        return judged(*self._called("topk_judge", max(_LEAST_ROOM, len(certificate)), certificate, len(certificate)))

    def _called(self, name: str, room: int, *given: Any) -> tuple[int, str]:
        """The status and the whole text of a call, which is tried with so much room first."""
        call, written = getattr(self._calls, name), ctypes.c_size_t()
        while True:
            out = ctypes.create_string_buffer(room)
            status: int = call(*given, out, room, ctypes.byref(written))
            if status == MEMORY or written.value <= room:
                return status, ctypes.string_at(out, min(room, written.value)).decode()
            room = written.value


def find_library() -> Library | None:
    """The library that the environment variable TOPK_LIBRARY names, or else libtopk.so beside the package's files, in
    c/out/ of the repository or where the system looks; None where there is none.

    Raises NoCore where TOPK_LIBRARY names a file that can't be loaded.
    """
    named = os.environ.get("TOPK_LIBRARY")
    if named:
        return Library(named)
    here = pathlib.Path(__file__).resolve().parent
    for place in (here / "libtopk.so", here.parent.parent / "c" / "out" / "libtopk.so"):
        if place.exists():
            return Library(place)
    try:
        return Library("libtopk.so")
    except NoCore:
        return None


@functools.lru_cache(maxsize=None)
def _loaded(path: str) -> ctypes.CDLL:
    """The shared library, with the types of its calls."""
    try:
        library = ctypes.CDLL(path)
    except OSError as fault:
        raise NoCore(f"no library can be loaded from {path}: {fault}") from None
    text: list[Any] = [ctypes.c_char_p, ctypes.c_size_t]
    told = [ctypes.c_char_p, ctypes.c_size_t, ctypes.POINTER(ctypes.c_size_t)]
    lists = [ctypes.POINTER(_List), ctypes.c_size_t]
    for call, given in (
        (library.topk_answer, text),
        (library.topk_judge, text),
        (library.topk_answer_rows, lists + text),
    ):
        call.argtypes = given + told
        call.restype = ctypes.c_uint8
    return library


def _at(numbers: array.array[int]) -> int:
    """Where the numbers stand in memory."""
    return numbers.buffer_info()[0] if numbers else ctypes.addressof(_NO_ROW)
