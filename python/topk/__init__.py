"""The best rows of a table by several criteria, each answer with its certificate.

A table comes from a file, rows, a frame or a database. Criteria say which of its values are best:

>>> from topk import Table, criterion
>>> hotels = Table.from_mapping({"Adler": {"price": 120, "rating": 4.5}, "Krone": {"price": 80, "rating": 4.1}},
...                             criteria=[criterion("price", best="low", scale=(0, 200)),
...                                       criterion("rating", scale=(0, 5))])
>>> answer = hotels.top(1, {"price": 2, "rating": 1})
>>> answer.keys, answer[0]["price"], answer.check()
(['Krone'], 80, Fixes())

Lists of numbers go to the core as they are, and what comes back is its text, taken apart:

>>> import topk
>>> lists = {"price": [(7, 900), (3, 850)], "rating": [(3, 70), (7, 65)]}
>>> answer = topk.answer(lists, "top 1 by sum(price,rating) using ta")
>>> answer.objects
(Ranked(object=7, low=965, high=965),)
>>> answer.depth, answer.cost
(2, 6)
>>> topk.judge(answer.certificate)
Fixes()

A query that isn't answered is an exception, which says why:

>>> topk.answer(lists, "top 3 by price using ta")
Traceback (most recent call last):
topk.Refused: KAboveCount 3 2

Answers come from the proved library, or else from the program topk: `core` says where they are looked for. Calls may
run on several threads at once, and let other threads of the process run meanwhile. Nothing but the standard library is
needed.
"""
from __future__ import annotations

from topk._version import __version__
from topk.answers import Disagrees, NamedAnswer, Rounding, Row
from topk.catalogs import Catalog, Entry
from topk.certificates import Access, Answer, Beaten, Certificate, Fixes, Ranked
from topk.cores import Core, answer, answer_bundle, core, judge
from topk.criteria import Criterion, criterion
from topk.faults import LimitPassed, MissingValue, NoCore, Refused, TableError, UnknownName
from topk.library import Library
from topk.limits import MAX_GRADE, MAX_INPUT, MAX_LISTS, MAX_ROWS
from topk.program import Program
from topk.ranking import bundle_of, ranked
from topk.scales import reciprocal_rank
from topk.tables import RankedList, Table

__all__ = [
    "Access",
    "Answer",
    "Beaten",
    "Catalog",
    "Certificate",
    "Core",
    "Criterion",
    "Disagrees",
    "Entry",
    "Fixes",
    "Library",
    "LimitPassed",
    "MAX_GRADE",
    "MAX_INPUT",
    "MAX_LISTS",
    "MAX_ROWS",
    "MissingValue",
    "NamedAnswer",
    "NoCore",
    "Program",
    "Ranked",
    "RankedList",
    "Refused",
    "Rounding",
    "Row",
    "Table",
    "TableError",
    "UnknownName",
    "__version__",
    "answer",
    "answer_bundle",
    "bundle_of",
    "core",
    "criterion",
    "judge",
    "ranked",
    "reciprocal_rank",
]
