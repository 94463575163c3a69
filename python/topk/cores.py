"""Where answers come from: the proved library where it is there, else the program. Both give the same objects and the
same certificates.
"""
from __future__ import annotations

import array
from collections.abc import Mapping
from typing import Protocol, Union

from topk.certificates import Answer, Verdict
from topk.faults import NoCore
from topk.library import Library, find_library
from topk.program import Program, find_program
from topk.ranking import Pairs, line_of, rows_of

__all__ = ["Core", "answer", "answer_bundle", "core", "judge"]


class Core(Protocol):
    """What answers queries and judges certificates."""

    @property
    def kind(self) -> str:
        """`library` or `program`."""

    @property
    def place(self) -> str:
        """The path of its file."""

    def answer_rows(self, rows: Mapping[str, array.array[int]], query: str) -> Answer:
        """The answer to a query over lists, each with its rows from the top down."""

    def answer_bundle(self, bundle: bytes) -> Answer:
        """The answer to the query of a bundle."""

    def judge(self, certificate: bytes) -> Verdict:
        """Whether the accesses of a certificate fix its answer."""


def core() -> Union[Library, Program]:
    """The library, where it is there, else the program.

    The library is the file that the environment variable TOPK_LIBRARY names, or else libtopk.so beside the package's
    files, in c/out/ of the repository (`make lib` builds it there), or where the system looks. The program is the file
    that TOPK_PROGRAM names, or else `topk` on the path or at the repository's top (`make topk`). Raises NoCore where
    there is neither.
    """
    found = find_library() or find_program()
    if found is None:
        raise NoCore(
            "there is neither the library libtopk.so nor the program topk: `make lib` or `make topk` builds one, "
            "or TOPK_LIBRARY or TOPK_PROGRAM names it"
        )
    return found


def answer(lists: Mapping[str, Pairs], query: str) -> Answer:
    """Answers a query over lists.

    `lists` has the lists by name: all of the same objects, each object once in a list, the rows in any order. Objects
    are integers up to 4294967295, grades up to 1000000. `query` is `top K by EXPRESSION using ALGORITHM`, with the
    algorithm `ta`, `nra`, `ca`, `fa`, `theta P/Q`, `early D` or `taz`.

    It is the answer of `answer_bundle` to what `bundle_of` makes of them; the library gets the rows without that text.

    Raises Refused where there is no answer, MemoryError where memory is refused, and what `bundle_of` raises.

    >>> from array import array
    >>> price = (array("I", [3, 7]), array("I", [850, 900]))
    >>> answer({"price": price}, "top 1 by price using nra").objects
    (Ranked(object=7, low=900, high=900),)
    >>> answer({"price": [(7, 900), (7, 850)]}, "top 1 by price using ta")
    Traceback (most recent call last):
    topk.Refused: NoBundle 3 (row 2 of the list price, the object 7 with the grade 850)
    """
    return core().answer_rows(rows_of(lists), line_of(query))


def answer_bundle(bundle: bytes | str) -> Answer:
    """Answers the query of a bundle, given as its text.

    >>> answer_bundle("list A\\n1,5\\nquery top 1 by A using ta\\n").objects
    (Ranked(object=1, low=5, high=5),)
    """
    return core().answer_bundle(_bytes_of(bundle))


def judge(certificate: bytes | str) -> Verdict:
    """Whether the accesses of a certificate fix its answer, on every table that agrees with them.

    Raises Refused where the text is no certificate or breaks a rule, MemoryError where memory is refused.

    >>> judge("certificate 1")
    Traceback (most recent call last):
    topk.Refused: BadLine 2
    """
    return core().judge(_bytes_of(certificate))


def _bytes_of(text: bytes | str) -> bytes:
    return text.encode() if isinstance(text, str) else bytes(text)
