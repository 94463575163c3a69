"""Tests of the Python package: tables of real sizes against plain Python, how values become grades, keys, questions,
folders of lists, and that the library and the program give the same.

What is expected is worked out by hand, or by plain Python that shares nothing with the package: grades by fractions,
the best by sorting all.
"""
from __future__ import annotations

import array
import os
import pathlib
import random
import shutil
import sqlite3
import subprocess
import sys
import tempfile
import uuid
import zipfile
from collections.abc import Callable, Iterable, Iterator, Mapping, Sequence
from fractions import Fraction
from typing import Any

from machine import SECONDS, Skipped, path_of, peer
from support import PYTHON, REPOSITORY, first_wrong, wrong_examples

sys.path.insert(0, str(PYTHON))
import topk  # noqa: E402
from topk import (
    Catalog,
    Fixes,
    LimitPassed,
    MissingValue,
    Program,
    Refused,
    Table,
    TableError,
    UnknownName,
    criterion,
    reciprocal_rank,
)  # noqa: E402
from topk.choices import chosen  # noqa: E402
from topk.expressions import parsed, text_of, whole  # noqa: E402
from topk.scales import scale_of  # noqa: E402

MILLION = 1_000_000
HALF = Fraction(1, 2)


# What tests share.


def not_refused(rows: Iterable[tuple[type[Exception], str, Callable[[], Any]]]) -> str | None:
    """The first of some calls that doesn't raise its error with these words, or None."""
    for kind, words, call in rows:
        try:
            return f"{words!r} was wanted, and it gave {call()!r}"
        except Exception as fault:  # Whatever comes is compared.
            if type(fault) is not kind or words not in str(fault):
                return f"{kind.__name__} with {words!r} was wanted, and it raised {type(fault).__name__}: {fault}"
    return None


def plain_grade(share: Fraction) -> int:
    """The grade of a share from 0 to 1, by the stated rule: the nearest whole number, upwards from the middle."""
    return (2 * MILLION * share + 1) // 2


def plain_grades(values: Sequence[Any], best: str, ends: tuple[Any, Any] | None = None) -> list[int]:
    """The grades of numbers between two ends, or the least and the greatest of them; None is 0."""
    present = [Fraction(value) for value in values if value is not None]
    low, high = map(Fraction, ends or (min(present), max(present)))
    shares = [
        None if value is None else (min(high, max(low, Fraction(value))) - low) / (high - low) for value in values
    ]
    return [0 if share is None else plain_grade(1 - share if best == "low" else share) for share in shares]


def plain_places(values: Sequence[Any]) -> list[int | None]:
    """The place of each value, the greatest first: one more than how many are greater."""
    ordered = sorted((value for value in values if value is not None), reverse=True)
    first: dict[Any, int] = {}
    for place, value in enumerate(ordered, 1):
        first.setdefault(value, place)
    return [None if value is None else first[value] for value in values]


def wrong_answer(answer: topk.NamedAnswer, keys: Sequence[Any], scores: Sequence[int], k: int) -> str | None:
    """What is wrong with an answer in comparison with all scores, or None: of equal ones at its end it may have any."""
    score_of = dict(zip(keys, scores))
    best = sorted(scores, reverse=True)[:k]
    if [row.score for row in answer] != best:
        return f"{answer.query}: the scores are {[row.score for row in answer]} in place of {best}"
    if [score_of[row.key] for row in answer] != best or len(set(answer.keys)) != k:
        return f"{answer.query}: the keys {answer.keys} haven't these scores"
    if answer.check() != Fixes():
        return f"{answer.query}: {answer.check()}"
    return None


def beyond_bound(answer: topk.NamedAnswer, keys: Sequence[Any], exact: Sequence[Fraction]) -> str | None:
    """Where a row outside an answer is better by exact scores than one inside by more than the answer's bound, or
    None.
    """
    inside = set(answer.keys)
    least = min(score for key, score in zip(keys, exact) if key in inside)
    most = max((score for key, score in zip(keys, exact) if key not in inside), default=least)
    assert answer.rounding is not None
    return (
        None
        if most - least <= answer.rounding.score
        else f"{answer.query}: {float(most)} is outside, {float(least)} inside, and {answer.rounding}"
    )


# The three tasks.


def package_of_packages(program: str) -> str | None:
    """63,681 packages by size, popularity and age, of which some were never counted."""
    made, count = random.Random(11), 63_681
    rows = [
        (
            f"lib{number}-dev",
            made.randrange(1_000, 900_000_000),
            made.choice([None, made.randrange(250_000)]),
            made.randrange(9_000),
        )
        for number in range(count)
    ]
    with tempfile.TemporaryDirectory() as place:
        path = pathlib.Path(place) / "packages.csv"
        lines = (",".join("" if cell is None else str(cell) for cell in row) for row in rows)
        path.write_text("\n".join(["package,size,votes,days", *lines, ""]), encoding="utf-8")
        table = Table.from_csv(
            path,
            "package",
            criteria=[
                criterion("size", best="low", scale=(0, 500_000_000)),
                criterion("votes"),
                criterion("days", best="low"),
            ],
        )
    answer = table.top(10, {"votes": 3, "size": 1, "days": 0.5}, core=Program(program))
    keys, size, votes, days = zip(*rows)
    columns = plain_grades(size, "low", (0, 500_000_000)), plain_grades(votes, "high"), plain_grades(days, "low")
    scores = [2 * one + 6 * two + three for one, two, three in zip(*columns)]
    outside = sum(it > 500_000_000 for it in size)
    assert answer.rounding is not None
    return wrong_answer(answer, keys, scores, 10) or first_wrong(
        [
            ("the query", answer.query, "top 10 by wsum(6*votes,2*size,1*days) using ta"),
            ("the factor", answer.factor, 2),
            ("the best row's votes", answer[0]["votes"], str(votes[keys.index(answer[0].key)])),
            ("the rows", answer.count, count),
            ("sizes beyond the scale", answer.rounding.outside["size"], outside),
        ]
    )


def package_hybrid_search(program: str) -> str | None:
    """10,000 texts by words and by vectors, each of which finds some hundred, by reciprocal rank fusion."""
    made = random.Random(12)
    keys = [f"doc-{number:05}" for number in range(10_000)]
    words = {key: made.choice([1.5, 2.25, 7.0]) * made.random() for key in made.sample(keys, 800)}
    vectors = {key: round(made.random(), 3) for key in made.sample(keys, 1_000)}
    table = Table.from_lists(
        {"words": words, "vectors": vectors},
        criteria=[criterion(name, scale=reciprocal_rank(60)) for name in ("words", "vectors")],
    )
    answer = table.top(10, ["words", "vectors"], core=Program(program))
    found = sorted({*words, *vectors})
    places = [plain_places([scores.get(key) for key in found]) for scores in (words, vectors)]
    exact = [
        sum((Fraction(61 * MILLION, 60 + place) for place in pair if place is not None), Fraction(0))
        for pair in zip(*places)
    ]
    scores = [
        sum(0 if place is None else plain_grade(Fraction(61, 60 + place)) for place in pair) for pair in zip(*places)
    ]
    best = sorted(zip(exact, found), reverse=True)[:10]
    return (
        wrong_answer(answer, found, scores, 10)
        or beyond_bound(answer, found, exact)
        or first_wrong(
            [
                ("the rows", answer.count, len(found)),
                ("the bound", answer.rounding and answer.rounding.score, 2),
                ("the best", answer[0].key, best[0][1]),
            ]
        )
    )


def package_of_shop(program: str) -> str | None:
    """A shop's table of SQLite, with REAL ratings of which some are NULL, and text keys: what is on sale, cheap and
    good.
    """
    made = random.Random(13)
    rows = [
        (
            f"SKU/{number:x} ø",
            round(made.uniform(1, 400), 2),
            made.choice([None, round(made.uniform(1, 5), 1)]),
            made.randrange(2),
        )
        for number in range(5_000)
    ]
    with tempfile.TemporaryDirectory() as place:
        path = pathlib.Path(place) / "shop.db"
        with sqlite3.connect(path) as base:
            base.execute("create table article (sku text primary key, price real, rating real, on_sale integer)")
            base.executemany("insert into article values (?, ?, ?, ?)", rows)
        base.close()
        table = Table.from_sqlite(
            path,
            "select sku, price, rating, on_sale from article where price < ?",
            "sku",
            parameters=(300,),
            criteria=[criterion("price", best="low", scale=(0, 400)), criterion("rating", scale=(1, 5))],
        )
    left = [row for row in rows if row[1] < 300 and row[3] == 1]
    keys, prices, ratings, _ = zip(*left)
    price, rating = plain_grades(prices, "low", (0, 400)), plain_grades(ratings, "high", (1, 5))
    exact_price = [(400 - Fraction(it)) / 400 * MILLION for it in prices]
    exact_rating = [(Fraction(it or 1) - 1) / 4 * MILLION for it in ratings]
    core = Program(program)
    ways: list[tuple[str, Callable[[Any], Any]]] = [("sum", sum), ("min", min), ("max", max)]
    for how, plain in ways:
        answer = table.top(7, ["price", "rating"], how=how, where={"on_sale": 1}, core=core)
        wrong = wrong_answer(answer, keys, list(map(plain, zip(price, rating))), 7) or beyond_bound(
            answer, keys, list(map(plain, zip(exact_price, exact_rating)))
        )
        if wrong is not None:
            return wrong
    return first_wrong([("the rows that are left", answer.count, len(left))])


# Values and grades.


def package_grades(program: str) -> str | None:
    """Values and their grades, by hand."""
    third = [0, 333_333, 666_667, MILLION]
    tables: list[tuple[Any, Sequence[Any], str, list[int], Fraction]] = [
        ("min-max", [5, 6, 7, 8], "high", third, HALF),
        ("min-max", [5, 6, 7, 8], "low", third[::-1], HALF),
        ("min-max", [3, 3], "high", [MILLION, MILLION], Fraction(0)),
        ("min-max", [-(2**70), 2**70, 0], "high", [0, MILLION, 500_000], HALF),
        ((0, 2_000_000), [1, 3, 2_000_000, 0], "high", [1, 2, MILLION, 0], HALF),
        ((0, 2_000_000), [1, 3], "low", [MILLION, 999_999], HALF),
        ((0, 1000), [1, 10, 999], "low", [999_000, 990_000, 1000], Fraction(0)),
        ((10, 20), [5, 10, 15, 25], "high", [0, 0, 500_000, MILLION], Fraction(0)),
        ((0, 3), [Fraction(1, 2), 1], "high", [166_667, 333_333], HALF),
        ("rank", [9, 9, 5, 1], "high", [MILLION, MILLION, 333_333, 0], HALF),
        ("rank", [9, 9, 5, 1], "low", [333_333, 333_333, 666_667, MILLION], HALF),
        ("rank", ["4"], "high", [MILLION], Fraction(0)),
        ("rank", [1, 2, 3], "high", [0, 500_000, MILLION], Fraction(0)),
        (reciprocal_rank(1), [30, 20, 20, 10], "high", [MILLION, 666_667, 666_667, 400_000], HALF),
        (reciprocal_rank(0), [30, 20, 10], "low", [333_333, 500_000, MILLION], HALF),
    ]
    for scale, values, best, wanted, error in tables:
        graded = criterion("x", best=best, scale=scale).graded(values, str)
        if (graded.grades, graded.error) != (wanted, error):
            return f"{scale} of {values}, best {best}: {graded} in place of {wanted} and {error}"
    floats = criterion("x", scale=lambda value: value / 8).graded([5.0, 8, 0.000004], str)
    beyond = criterion("x", scale=(10, 20)).graded([5, 10, 15, 25, 30], str)
    return first_wrong(
        [
            ("a scale of one's own", floats.grades, [625_000, MILLION, 1]),
            ("values beyond the ends", beyond.outside, 3),
            ("the error of floats is more than a half", HALF < floats.error < HALF + Fraction(1, 10**6), True),
        ]
    )


WAYS_OF_FLOATS: tuple[tuple[Any, Callable[[Any], Any]], ...] = (
    (["x", "y"], sum),
    ("max(x,y)", max),
    ("min(x,wsum(2*y))", lambda pair: min(pair[0], 2 * pair[1])),
)


def floats_between(made: random.Random, low: float, high: float) -> list[Any]:
    """Some hundred floats between two, these among them, and some more than once."""
    values: list[Any] = [
        made.uniform(low / 2, high / 2) * 2 if abs(low) > 1e300 else made.uniform(low, high) for _ in range(300)
    ]
    values[::50] = [low, high, *values[100:500:50][:4]]
    return values


def exact_grades(values: Sequence[float]) -> list[Fraction]:
    """The grade of each, unrounded, where the greatest is best."""
    least, span = Fraction(min(values)), Fraction(max(values)) - Fraction(min(values))
    return [(Fraction(it) - least) / span * MILLION for it in values]


def package_floats(program: str) -> str | None:
    """Floats of any size: each grade is as near to the exact one as is stated, and the best by values are in the
    answer up to the bound.
    """
    made, core = random.Random(14), Program(program)
    for low, high in (
        (0, 1),
        (-1e300, 1.7e308),
        (-1.7e308, 1.7e308),
        (1e15, 1e15 + 8),
        (5e-324, 1e-320),
        (-1, 2**60),
    ):
        values = floats_between(made, low, high)
        keys = list(range(len(values)))
        table = Table(
            {"key": keys, "x": values, "y": values[::-1]},
            key="key",
            criteria=[criterion("x"), criterion("y", best="low")],
        )
        exact = [exact_grades(values), [MILLION - it for it in exact_grades(values[::-1])]]
        for name, wanted in zip("xy", exact):
            ranked = table.ranked_list(name)
            if max(abs(grade - it) for grade, it in zip(ranked.grades, wanted)) > ranked.error:
                return f"values from {low} to {high} are rounded by more than {ranked.error}"
        for by, plain in WAYS_OF_FLOATS:
            answer = table.top(5, by, core=core)
            wrong = beyond_bound(answer, keys, list(map(plain, zip(*exact))))
            if wrong is not None:
                return f"values from {low} to {high}: {wrong}"
    close = Table.from_rows(
        [(1, 0.5), (2, 0.5 + 1e-9), (3, 1.0), (4, 0.0)], "key", columns=("key", "x"), criteria=[criterion("x")]
    )
    answer = close.top(2, ["x"], core=core)
    return first_wrong(
        [
            ("values closer than the grades tell are equal", answer[1].score, 500_000),
            ("which is said", answer.rounding and answer.rounding.exact, False),
        ]
    )


def package_missing(program: str) -> str | None:
    """Missing values have the stated grade, or are refused by the row's name."""
    rows = [
        {"id": "a", "x": 1},
        {"id": "b", "x": None},
        {"id": "c", "x": ""},
        {"id": "d", "x": float("nan")},
        {"id": "e"},
        {"id": "f", "x": "3"},
    ]
    grades = [
        (missing, Table.from_rows(rows, "id", criteria=[criterion("x", missing=missing)]).ranked_list("x").grades)
        for missing in (0, 400_000)
    ]
    refusing = Table.from_rows(rows, "id", criteria=[criterion("x", missing="refuse")])
    none = Table.from_rows([{"id": 1, "x": ""}, {"id": 2, "x": None}], "id", criteria=[criterion("x", missing=7)])
    answer = Table.from_rows(rows, "id", criteria=[criterion("x")]).top(6, ["x"], core=Program(program))
    wanted = [(f"missing {missing}", found, [0, *4 * [missing], MILLION]) for missing, found in grades]
    return first_wrong(
        [
            *wanted,
            ("all missing", list(none.ranked_list("x").grades), [7, 7]),
            ("a missing value", [row["x"] for row in answer if row.key == "e"], [None]),
            ("one that is there", (answer[0].key, answer[0]["x"]), ("f", "3")),
        ]
    ) or not_refused([(MissingValue, "row 2 ('b') has no x", lambda: refusing.ranked_list("x"))])


def package_faults_of_criteria(program: str) -> str | None:
    """What is no criterion, no scale and no number, the latter by the row's name."""

    def ranked(*values: Any) -> Callable[[], Any]:
        return lambda: Table({"id": list("ab"), "x": values}, key="id", criteria=[criterion("x")]).ranked_list("x")

    def own(share: Callable[[Any], Any], **more: Any) -> Callable[[], Any]:
        return lambda: criterion("x", scale=share, **more).graded([1], str)

    return not_refused(
        [
            (TableError, "row 1 ('a') has 'cheap' in the column x", ranked("cheap", 1)),
            (TableError, "not finite", ranked(1.0, float("inf"))),
            (TableError, "which is no number", ranked(1, [2])),
            (TableError, "missing is a grade", lambda: criterion("x", missing=-1)),
            (TableError, "missing is a grade", lambda: criterion("x", missing=True)),
            (TableError, "best is", lambda: criterion("x", best="lower")),
            (TableError, "no scale", lambda: criterion("x", scale="log")),
            (TableError, "no scale", lambda: scale_of(5)),
            (TableError, "to a greater one", lambda: criterion("x", scale=(9, 9))),
            (TableError, "has to give a number from 0", own(lambda value: 2)),
            (TableError, "says itself", own(lambda value: 0, best="low")),
            (TableError, "no name of a criterion", lambda: criterion("x", name="2x")),
        ]
    )


def package_ties(program: str) -> str | None:
    """Where all are equal, any k are the best, each is there once, and lists keep the order of the table."""
    table = Table({"x": [5] * 40, "y": [2.5] * 40}, criteria=[criterion("x"), criterion("y", scale=(0, 5))])
    answer = table.top(7, ["x", "y"], core=Program(program))
    return wrong_answer(answer, range(1, 41), [1_500_000] * 40, 7) or first_wrong(
        [("the order of equal grades", list(table.ranked_list("y").rows[0::2]), list(range(1, 41)))]
    )


# Keys and tables.


def package_keys(program: str) -> str | None:
    """Keys of any kind come back as themselves; those that are numbers of objects stand for themselves."""
    made = random.Random(15)
    kinds: list[tuple[Sequence[Any], list[int]]] = [
        (["b", "a", 'ü\n,"'], [1, 2, 3]),
        ([uuid.UUID(int=made.getrandbits(128)) for _ in range(3)], [1, 2, 3]),
        ([2**63, -5, 2**32], [1, 2, 3]),
        ([7, 0, 4_294_967_295], [7, 0, 4_294_967_295]),
        (["7", "0", "12"], [7, 0, 12]),
        (["7", "07", "8"], [1, 2, 3]),
        ([("a", 1), ("a", 2), b"x"], [1, 2, 3]),
        ([1, "1", 2.5], [1, 2, 3]),
    ]
    for keys, objects in kinds:
        table = Table({"id": keys, "x": [2, 3, 1]}, key="id", criteria=[criterion("x")])
        answer = table.top(3, ["x"], core=Program(program))
        found = answer.keys, [row.object for row in answer], list(map(type, answer.keys))
        if found != (
            [keys[1], keys[0], keys[2]],
            [objects[1], objects[0], objects[2]],
            list(map(type, (keys[1], keys[0], keys[2]))),
        ):
            return f"keys {keys} came back as {found}"
    return not_refused(
        [
            (TableError, "row 3 has the key 'a' of row 1", lambda: Table({"id": ["a", "b", "a"]}, key="id")),
            (TableError, "row 2 has no id", lambda: Table({"id": ["a", " "]}, key="id")),
            (TableError, "row 2 has no id", lambda: Table({"id": [1, None]}, key="id")),
            (TableError, "row 1 has no id", lambda: Table({"id": [float("nan"), 2.0]}, key="id")),
            (TableError, "hashable", lambda: Table({"id": [[1], [2]]}, key="id")),
            (UnknownName, "did you mean 'name'?", lambda: Table({"name": ["a"]}, key="nam")),
        ]
    )


class Frame:
    """A frame as pandas and polars have it: names of columns, and a column by its name that gives plain values."""

    class Column:
        """A column."""

        def __init__(self, cells: list[Any], name: str | None = None) -> None:
            self.cells, self.name = cells, name

        def to_list(self) -> list[Any]:
            """Its plain values."""
            return list(self.cells)

    def __init__(self, columns: Mapping[str, list[Any]], index: tuple[str, list[Any]]) -> None:
        self.columns = list(columns)
        self.index = Frame.Column(index[1], index[0])
        self._columns = columns

    def __getitem__(self, name: str) -> Frame.Column:
        return Frame.Column(self._columns[name])


def package_readers(program: str) -> str | None:
    """The same table from each source."""
    rows = [("a,1", "4.5"), ('b "q"', ""), ("c", "3")]
    with tempfile.TemporaryDirectory() as place:
        path = pathlib.Path(place) / "table.csv"
        texts = ['\ufeffid,x\n"a,1",4.5\n"b ""q""",\nc,3\n', 'id,x\r\n"a,1",4.5\r\n"b ""q""",\r\n\r\nc,3']
        read = []
        for text in texts:
            path.write_bytes(text.encode())
            read.append(Table.from_csv(path, "id"))
        path.write_bytes(b"id;x\na;4,5\nb;1\n")
        semicolons = Table.from_csv(path, "id", delimiter=";")
        path.write_bytes(b"id,x\r\na,1\r\nb,2\r\n")
        quick = Table.from_csv(path, "id")
    cells = [("a,1", 4.5), ('b "q"', None), ("c", 3)]
    others = [
        Table.from_rows([{"id": key, "x": value} for key, value in cells], "id"),
        Table.from_rows(cells, "id", columns=("id", "x")),
        Table.from_mapping({key: {"x": value} for key, value in cells}, "id"),
        Table.from_lists({"x": {"a,1": 4.5, 'b "q"': None, "c": 3}}, "id"),
        Table.from_frame(Frame({"id": [it for it, _ in cells], "x": [it for _, it in cells]}, ("n", [0, 1, 2])), "id"),
        Table.from_frame(Frame({"x": [it for _, it in cells]}, ("id", [it for it, _ in cells])), "id"),
        Table.from_frame({"id": [it for it, _ in cells], "x": [it for _, it in cells]}, "id"),
    ]
    wanted = [key for key, _ in cells]
    return first_wrong(
        [
            *(
                (f"text {number}", (list(it.keys), list(it.column("x"))), (wanted, [cell for _, cell in rows]))
                for number, it in enumerate(read)
            ),
            *(
                (f"source {number}", (list(it.keys), list(it.column("x"))), (wanted, [4.5, None, 3]))
                for number, it in enumerate(others)
            ),
            ("semicolons", semicolons.row(0), {"id": "a", "x": "4,5"}),
            ("lines that end in CR and LF", list(quick.column("x")), ["1", "2"]),
            (
                "the same grades",
                {tuple(it.with_criteria(criterion("x")).ranked_list("x").grades) for it in read + others},
                {(MILLION, 0, 0)},
            ),
        ]
    )


def package_no_tables(program: str) -> str | None:
    """Each text that is no table, by what is said of it."""
    with tempfile.TemporaryDirectory() as place:
        path = pathlib.Path(place) / "table.csv"
        for text, words in (
            ("", "has no header"),
            ("id,x\na,1\nb\n", "row 2 has 1 fields"),
            ("id,x\na,1,2\nb\n", "row 1 has 3 fields"),
            ('id,x\na,1\n"b",2,3\n', "row 2 has 3 fields"),
            ("id,id\na,b\n", "two columns are called 'id'"),
        ):
            path.write_text(text, encoding="utf-8")
            wrong = not_refused([(TableError, words, lambda: Table.from_csv(path, "id"))])
            if wrong is not None:
                return wrong
    return None


def package_columns_of_numpy(program: str) -> str | None:
    """Columns of numpy are taken as they are handed over."""
    try:
        import numpy
    except ImportError:
        raise Skipped("there is no numpy") from None
    wanted = [0, MILLION, 500_000]
    for kind in ("int64", "uint8", "float32", "float64", ">i4"):
        table = Table.from_frame(
            {"id": numpy.array([2**40, 5, 6]), "x": numpy.array([1, 3, 2]).astype(kind)},
            "id",
            criteria=[criterion("x")],
        )
        if list(table.ranked_list("x").grades) != wanted or list(table.keys) != [2**40, 5, 6]:
            return f"{kind}: {table.ranked_list('x').grades} of {table.keys}"
    objects = Table.from_frame({"x": [numpy.int64(1), numpy.float32(3), numpy.int8(2)]}, criteria=[criterion("x")])
    return first_wrong([("numbers of numpy one by one", list(objects.ranked_list("x").grades), wanted)])


def package_filters(program: str) -> str | None:
    """A filter stands before the ranking: scales by what is there go by the rows that are left, and keys keep their
    numbers.
    """
    rows = [{"id": 10 + number, "city": "AB"[number % 2], "x": number} for number in range(10)]
    table = Table.from_rows(rows, "id", criteria=[criterion("x", best="low")])
    core = Program(program)
    by_function = table.top(2, ["x"], where=lambda row: row["city"] == "B" and row["x"] > 1, core=core)
    by_columns = table.top(2, ["x"], where={"city": "B", "x": lambda x: x > 1}, core=core)
    left = table.where({"city": "A"})
    return first_wrong(
        [
            ("by a function", by_function.keys, [13, 15]),
            ("by columns", by_columns.rows, by_function.rows),
            ("its grades", [row.score for row in by_function], [MILLION, 666_667]),
            (
                "the rows that are left",
                (list(left.keys), list(left.ranked_list("x").grades)),
                ([10, 12, 14, 16, 18], [MILLION, 750_000, 500_000, 250_000, 0]),
            ),
            ("the table itself", len(table), 10),
        ]
    ) or not_refused(
        [
            (TableError, "no row to rank", lambda: table.top(1, ["x"], where={"city": "C"}, core=core)),
            (UnknownName, "did you mean 'city'?", lambda: table.where({"citi": "A"})),
        ]
    )


# Questions.


def package_expressions(program: str) -> str | None:
    """Expressions and weights as the query has them, by hand."""
    texts = {
        "a": ("a", 1),
        " sum( a , b ) ": ("sum(a,b)", 1),
        "sum(2*a,b)": ("wsum(2*a,1*b)", 1),
        "wsum(0.5*a, .25*b)": ("wsum(2*a,1*b)", 4),
        "min(a,sum(0.5*b,0.5*c))": ("min(wsum(2*a),wsum(1*b,1*c))", 2),
        "median(wsum(0.5*a),wsum(0.2*b),c)": ("median(wsum(5*a),wsum(2*b),wsum(10*c))", 10),
        "sum(3*min(a,wsum(1.5*b)), c)": ("wsum(3*min(wsum(2*a),wsum(3*b)),2*c)", 2),
        "min": ("min", 1),
        "wsum(1e2*a)": ("wsum(100*a)", 1),
    }
    table = Table(
        {"a": [1, 2], "b": [1, 2], "c d": [1, 2]}, criteria=[criterion("a"), criterion("b"), criterion("c d")]
    )
    questions: list[tuple[Any, str, str]] = [
        (["a"], "sum", "a"),
        (["a", "b"], "sum", "sum(a,b)"),
        (["a", "b"], "median", "median(a,b)"),
        ({"a": 2, "c d": 1}, "sum", "wsum(2*a,1*c_d)"),
        ({"a": 0.7, "b": 0.3}, "sum", "wsum(7*a,3*b)"),
        ({"a": Fraction(1, 3), "b": 1}, "sum", "wsum(1*a,3*b)"),
        ({"a": 2}, "sum", "wsum(2*a)"),
        ({"a": 4, "b": 2}, "sum", "wsum(4*a,2*b)"),
        ({"a": 1, "b": 0}, "sum", "wsum(1*a,0*b)"),
        ("max(a,c_d)", "sum", "max(a,c_d)"),
        ([criterion("a", best="low", name="cheap"), "b"], "sum", "sum(cheap,b)"),
    ]
    core = Program(program)
    return first_wrong(
        (text, (text_of(whole(parsed(text))[0]), whole(parsed(text))[1]), wanted) for text, wanted in texts.items()
    ) or first_wrong(
        (str(by), table.top(1, by, how=how, core=core).query, f"top 1 by {wanted} using ta")
        for by, how, wanted in questions
    )


def package_choices(program: str) -> str | None:
    """The algorithm that is chosen, and why; never ca over min or median."""
    rows: list[tuple[tuple[Any, ...], str]] = [
        (([], [], ["sum"], (1, 1)), "ta"),
        (([], [], ["min"], (1, 1)), "ta"),
        (([], [], ["sum"], (5, 1)), "ta"),
        (([], [], ["sum", "wsum"], (1, 2)), "ca"),
        (([], [], ["max"], (1, 100)), "ca"),
        (([], [], ["sum", "median"], (1, 100)), "nra"),
        (([], [], ["min"], (1, 2)), "nra"),
        ((["b"], [], ["sum"], (1, 1)), "nra"),
        ((["z"], [], ["sum"], (1, 1)), "ta"),
        (([], ["a"], ["sum"], (1, 100)), "taz"),
        (([], ["z"], ["sum"], (1, 1)), "ta"),
    ]
    table = Table({"a": [1, 2, 3], "b": [3, 1, 2]}, criteria=[criterion("a"), criterion("b", grades=False)])
    answer = table.top(1, ["a", "b"], core=Program(program))
    named = table.top(1, ["a", "b"], algorithm="fa", core=Program(program))
    return (
        first_wrong((str(given), chosen(["a", "b"], *given).algorithm, wanted) for given, wanted in rows)
        or first_wrong(
            [
                (
                    "a list without grades",
                    (answer.algorithm, answer.why, answer.random),
                    ("nra", "the list b gives no grades", 0),
                ),
                ("one that is named", (named.algorithm, named.why), ("fa", "it was named")),
            ]
        )
        or not_refused(
            [(TableError, "no algorithm reads these lists", lambda: chosen(["a", "b"], ["a"], ["b"], ["sum"], (1, 1)))]
        )
    )


def package_faults_of_questions(program: str) -> str | None:
    """Each way in which a question is none, by what is said of it."""
    names = [f"c{number}" for number in range(9)]
    table = Table(
        {name: [1, 2] for name in names} | {"price": [1, 2], "plain": [1, 2]},
        criteria=[criterion(name) for name in [*names, "price"]],
    )
    core = Program(program)

    def asks(by: Any, k: Any = 1, **more: Any) -> Callable[[], Any]:
        return lambda: table.top(k, by, core=core, **more)

    deep = "price"
    for _ in range(8):
        deep = f"min({deep})"
    return not_refused(
        [
            (UnknownName, "did you mean 'price'?", asks(["prize"])),
            (UnknownName, "there is no criterion 'zz'", asks("sum(zz,price)")),
            (TableError, "'plain' is a column and no criterion yet", asks(["plain"])),
            (TableError, "k is a whole number", asks(["price"], 0)),
            (TableError, "k is a whole number", asks(["price"], 2.0)),
            (LimitPassed, "k is at most 1000000", asks(["price"], 1_000_001)),
            (LimitPassed, "names 9", asks(names)),
            (LimitPassed, "nests 9 deep", asks(deep)),
            (LimitPassed, "this one has 66", asks(f"sum({','.join(['price'] * 65)})")),
            (LimitPassed, "too great", asks({"price": 10**13})),
            (LimitPassed, "too great", asks({"price": 1e-300, "c1": 1})),
            (TableError, "from 0 on", asks({"price": -1})),
            (TableError, "from 0 on", asks({"price": float("nan")})),
            (TableError, "from 0 on", asks({"price": "x"})),
            (TableError, "no criterion counts", asks({})),
            (TableError, "no criterion counts", asks({"price": 0})),
            (TableError, "takes no weights", asks({"price": 1, "c1": 2}, how="min")),
            (TableError, "no way to put grades together", asks(["price"], how="mean")),
            (TableError, "',' or ')' is missing", asks("sum(price")),
            (TableError, "a name or an operator is missing", asks("sum()")),
            (TableError, "'*' is missing", asks("sum(2 price)")),
            (TableError, "takes no weights", asks("max(2*price)")),
            (TableError, "goes on", asks("price)")),
            (TableError, "'+' has no meaning", asks("price + c1")),
            (TableError, "cost is a whole number", asks(["price"], cost=(0, 1))),
            (TableError, "room is a whole number", asks(["price"], room=0)),
            (Refused, "RoomFull 1", asks(["price", criterion("price", best="low", name="dear")], 2, room=1)),
            (TableError, "called 'price'", asks(["price", criterion("plain", name="price")])),
            (Refused, "Syntax", asks(["price"], algorithm="quick")),
        ]
    )


# Sizes.


def package_sizes(program: str) -> str | None:
    """One row, fewer rows than are asked for, and 200,000 rows."""
    core = Program(program)
    one = Table({"id": ["only"], "x": ["7"]}, key="id", criteria=[criterion("x")]).top(10, ["x"], core=core)
    three = Table({"x": [5, 9, 7]}, criteria=[criterion("x")]).top(10, ["x"], core=core)
    values = list(range(200_000))
    random.Random(16).shuffle(values)
    table = Table(
        {"x": values, "y": values[::-1]},
        criteria=[criterion("x", scale=(0, 250_000)), criterion("y", best="low", scale=(0, 250_000))],
    )
    answer = table.top(3, {"x": 2, "y": 1}, core=core)
    scores = [2 * 4 * x + MILLION - 4 * y for x, y in zip(values, values[::-1])]
    bound = answer.rounding and (answer.rounding.score, str(answer.rounding))
    return wrong_answer(answer, range(1, 200_001), scores, 3) or first_wrong(
        [
            ("one row", (one.keys, one[0]["x"], one.check()), (["only"], "7", Fixes())),
            ("three rows", three.keys, [2, 3, 1]),
            ("that is asked", three.query, "top 3 by x using ta"),
            ("the bound of exact grades", bound, (0, "No grade was rounded: the order is that of the values.")),
        ]
    )


def package_limits(program: str) -> str | None:
    """No row, one row more than 200,000 but for a filter, and what is no table or has no list: nothing is written."""
    core = Program(program)
    above, none = Table({"x": range(200_001)}, criteria=[criterion("x")]), Table({"x": []}, criteria=[criterion("x")])
    word = Table({"x": [1, 2], "y": [1, "z"]}, criteria=[criterion("x"), criterion("y")])
    with tempfile.TemporaryDirectory() as place:
        folder = pathlib.Path(place) / "lists"
        faults = not_refused(
            [
                (LimitPassed, "has 200001 rows, and topk ranks at most 200000", lambda: above.top(1, ["x"], core=core)),
                (LimitPassed, "has 200001 rows", lambda: above.write_lists(folder)),
                (TableError, "no row to rank", lambda: none.top(1, ["x"], core=core)),
                (TableError, "no row to rank", lambda: none.write_lists(folder)),
                (TableError, "no number", lambda: word.write_lists(folder)),
                (TableError, "no criterion", lambda: Table({"x": [1]}).write_lists(folder)),
                (TableError, "different lengths", lambda: Table({"x": [1], "y": [1, 2]})),
            ]
        )
        written = folder.exists()
    kept = above.top(1, ["x"], where={"x": lambda x: x > 1}, core=core).count
    return faults or first_wrong([("rows behind a filter", kept, 199_999), ("a folder was written", written, False)])


# Folders, evidence, and both ways.


def made_table(count: int) -> Table:
    """A table with text keys, floats, ties and missing values."""
    made = random.Random(17)
    rows = [
        {
            "id": f"row, {number}",
            "a": made.random(),
            "b": made.randrange(50),
            "c": made.choice([None, 1, 2.5]),
            "d": made.randrange(10**6),
        }
        for number in range(count)
    ]
    return Table.from_rows(
        rows,
        "id",
        criteria=[
            criterion("a"),
            criterion("b", best="low"),
            criterion("c", scale=(0, 5)),
            criterion("d", scale="rank"),
        ],
    )


QUESTIONS: tuple[tuple[Any, dict[str, Any]], ...] = (
    ({"a": 2, "b": 1, "c": 0.5}, {}),
    (["a", "d"], {"how": "min"}),
    (["a", "b", "c"], {"how": "median"}),
    ("max(min(a,b),wsum(0.5*c,0.5*d))", {}),
    (["a", "b"], {"algorithm": "nra"}),
    (["a", "d"], {"cost": (1, 9)}),
    (["a", "b"], {"algorithm": "fa"}),
    (["a", "d"], {"algorithm": "theta 3/2"}),
    (["b", "d"], {"algorithm": "early 4"}),
    (["c"], {}),
)


def package_folders(program: str) -> str | None:
    """The lists that are written to a folder give the same answers by `run`, here and read back, and by the command
    itself.
    """
    table, core = made_table(700), Program(program)
    with tempfile.TemporaryDirectory() as place:
        names: list[str] = []
        made = table.write_lists(pathlib.Path(place) / "out", progress=names.append)
        table.write_lists(pathlib.Path(place) / "out")
        read = Catalog.read(pathlib.Path(place) / "out")
        for by, more in QUESTIONS:
            answer = table.top(9, by, core=core, **more)
            for catalog in (made, read):
                again = catalog.top(9, by, core=core, **more)
                if (again.keys, again.certificate, again.check(), again.rounding) != (
                    answer.keys,
                    answer.certificate,
                    Fixes(),
                    None,
                ):
                    return f"{answer.query}: {catalog} gives {again}"
        line = table.top(2, ["a", "b"], core=core)
        done = subprocess.run(
            [program, "run", "catalog.csv"],
            input=line.query.encode() + b"\n",
            stdout=subprocess.PIPE,
            cwd=read.path.parent,
            timeout=SECONDS,
        )
        files = sorted(str(it.relative_to(place)) for it in pathlib.Path(place).rglob("*") if it.is_file())
        return first_wrong(
            [
                ("the command", done.stdout.decode(), line.certificate),
                ("the files", files, ["out/catalog.csv", "out/keys.csv", *(f"out/lists/{it}.csv" for it in "abcd")]),
                ("progress", names, [*(f"lists/{it}.csv" for it in "abcd"), "keys.csv", "catalog.csv"]),
                ("the rows", read.rows("a"), table.ranked_list("a").rows),
                ("the keys", dict(read.keys), dict(zip(range(1, 701), table.keys))),
            ]
        )


def package_faults_of_folders(program: str) -> str | None:
    """Catalogs and list files that are none, and what a catalog says of its lists."""
    with tempfile.TemporaryDirectory() as place:

        def catalog(text: str, lists: str = "object,grade\n1,5\n", keys: str = "object,key\n1,one\n") -> Catalog:
            for name, content in (("catalog.csv", text), ("a.csv", lists), ("keys.csv", keys)):
                (pathlib.Path(place) / name).write_text(content, encoding="utf-8")
            return Catalog.read(place)

        head = "name,place,random\n"
        good = catalog(head + "a,a.csv,no\nb,http://127.0.0.1:1/lists/b,yes\n")
        far = good.entries["b"].is_far, good.entries["a"].is_far, good.entries["a"].random
        faults = not_refused(
            [
                (UnknownName, "there is no list 'z'", lambda: good.top(1, ["z"], core=Program(program))),
                (Refused, "NotOpened b", lambda: good.top(1, ["b"], core=Program(program))),
                (TableError, "has to begin with the line name,place,random", lambda: catalog("a,a.csv,yes\n")),
                (TableError, "record 2", lambda: catalog(head + "a,a.csv\n")),
                (TableError, "record 3", lambda: catalog(head + "a,a.csv,yes\nb,b.csv,maybe\n")),
                (TableError, "names the list a again", lambda: catalog(head + "a,a.csv,yes\na,a.csv,yes\n")),
                (
                    LimitPassed,
                    "at most 64 lists",
                    lambda: catalog(head + "".join(f"l{it},a.csv,yes\n" for it in range(65))),
                ),
                (TableError, "no list file", lambda: catalog(head + "a,a.csv,yes\n", "1,5\n2\n").rows("a")),
                (TableError, "no list file", lambda: catalog(head + "a,a.csv,yes\n", "1,1000001\n").rows("a")),
                (TableError, "no list file", lambda: catalog(head + "a,a.csv,yes\n", "1,5,6,7\n").rows("a")),
                (TableError, "no file of keys", lambda: catalog(head, keys="object,key\nx,y\n")),
                (TableError, "record 2 has 3 fields", lambda: catalog(head, keys="object,key\n1,a,b\n")),
            ]
        )
        answer = catalog(head + "a,a.csv,no\n").top(1, ["a"], core=Program(program))
        unordered = catalog("name,place,random,sorted\na,a.csv,yes,yes\nb,a.csv,yes,no\n").top(
            1, ["a", "b"], core=Program(program)
        )
        return faults or first_wrong(
            [
                ("far lists, and such without grades", far, (True, False, False)),
                ("the answer", (answer.keys, answer.algorithm, answer[0].grades), (["one"], "nra", {"a": 5})),
                ("a list without order", (unordered.algorithm, unordered[0].score), ("taz", 10)),
            ]
        )


def package_evidence(program: str) -> str | None:
    """A certificate that was cut is beaten, and one that isn't of this table disagrees."""
    import dataclasses

    table = Table(
        {"id": list("xyz"), "a": [900, 800, 100], "b": [500, 700, 600]},
        key="id",
        criteria=[criterion(it, scale=(0, MILLION)) for it in "ab"],
    )
    answer = table.top(1, ["a", "b"], core=Program(program))
    lines = answer.certificate.splitlines(keepends=True)
    cut = dataclasses.replace(
        answer, certificate="".join(lines[:4] + ["stop depth 1 sorted 2 random 2 cost 4\n"] + lines[5:9] + ["end\n"])
    )
    other = dataclasses.replace(answer, certificate=answer.certificate.replace("s b 3 600", "s b 3 599"))
    beaten = cut.check()
    return first_wrong(
        [
            ("the answer", (answer.keys, answer[0].score, answer.depth, answer.cost), (["y"], 1500, 2, 7)),
            ("its verdict", answer.check(), Fixes()),
            ("the kind of the verdict", type(beaten), topk.Beaten),
            ("who is beaten", getattr(beaten, "inside", None), 2),
            ("what disagrees", other.check(), topk.Disagrees(topk.Access("s", "b", 3, 599), 600)),
        ]
    )


def package_both_ways(program: str) -> str | None:
    """The library and the program give the same objects, certificates, verdicts and refusals."""
    from library import built

    library, process, table = topk.Library(built("c/heap.c")), Program(program), made_table(3_000)
    for by, more in QUESTIONS:
        one, other = table.top(11, by, core=library, **more), table.top(11, by, core=process, **more)
        if one != other or one.check() != other.check():
            return f"{one.query}: {one} from the library and {other} from the program"
    given = {"A": array.array("I", [1, 900, 2, 800]), "B": array.array("I", [2, 700, 1, 500])}
    bad = {"A": array.array("I", [1, 900, 2, 901]), "B": array.array("I", [2, 700, 1, 500])}
    asked: list[tuple[dict[str, array.array[int]], str]] = [
        (given, "top 3 by A using ta"),
        (given, "top 1 by Z using ta"),
        (given, "top by"),
        (bad, "top 1 by A using ta"),
        ({}, "top 1 by A using ta"),
    ]
    for rows, query in asked:
        said = []
        cores: tuple[topk.Core, ...] = (library, process)
        for core in cores:
            try:
                said.append(repr(core.answer_rows(rows, query)))
            except Refused as fault:
                said.append(str(fault))
        if said[0] != said[1]:
            return f"{query}: {said[0]} from the library and {said[1]} from the program"
    beaten = (REPOSITORY / "tests" / "cases" / "judge_beaten" / "input").read_bytes()
    with tempfile.TemporaryDirectory() as place:
        catalog = table.write_lists(place)
        same = all(
            catalog.top(5, by, core=library, **more) == catalog.top(5, by, core=process, **more)
            for by, more in QUESTIONS
        )
    return first_wrong(
        [("a beaten certificate", library.judge(beaten), process.judge(beaten)), ("over list files", same, True)]
    )


def package_calls(program: str) -> str | None:
    """`answer`, `answer_bundle`, `judge` and `ranked` by the program, where no library is: the figures of the page on
    certificates.
    """
    code = """
import topk
lists = {"A": [(3, 100), (1, 900), (2, 800)], "B": [(2, 700), (3, 600), (1, 500)]}
answer = topk.answer(lists, "top 1 by sum(A,B) using ta")
assert topk.core().kind == "program" and answer.objects == (topk.Ranked(2, 1500, 1500),)
assert (answer.count, answer.depth, answer.cost) == (3, 2, 7)
assert topk.answer_bundle(topk.bundle_of(lists, "top 1 by sum(A,B) using ta")) == answer
assert topk.judge(answer.certificate) == topk.Fixes()
assert topk.ranked(lists["A"]) == [(1, 900), (2, 800), (3, 100)]
for wrong, hint in (({"A": [(1, 5), (1, 4)]}, "row 2 of the list A, the object 1 with the grade 4"),
                    ({}, "the line 'query top 1 by A using ta'")):
    try:
        topk.answer(wrong, "top 1 by A using ta")
    except topk.Refused as fault:
        assert fault.name == "NoBundle" and fault.hint == hint, fault
    else:
        assert False, wrong
"""
    with tempfile.TemporaryDirectory() as place:
        shutil.copytree(
            PYTHON / "topk", pathlib.Path(place) / "topk", ignore=shutil.ignore_patterns("*.so", "__pycache__")
        )
        there = {**os.environ, "PYTHONPATH": place, "TOPK_PROGRAM": program, "TOPK_LIBRARY": ""}
        done = subprocess.run([sys.executable, "-c", code], stderr=subprocess.PIPE, env=there, timeout=SECONDS)
        nowhere = {**there, "TOPK_PROGRAM": "", "PATH": place}
        lost = subprocess.run(
            [sys.executable, "-c", "import topk; topk.judge('')"], stderr=subprocess.PIPE, env=nowhere, timeout=SECONDS
        )
        other = subprocess.run(
            [sys.executable, "-c", "import topk; topk.judge('')"],
            stderr=subprocess.PIPE,
            env={**there, "TOPK_PROGRAM": "/bin/echo"},
            timeout=SECONDS,
        )
    said = [it.stderr.decode().strip().rpartition("\n")[2] for it in (done, lost, other)]
    return first_wrong(
        [
            ("by the program", said[0], ""),
            ("where neither is", said[1][:52], "topk.NoCore: there is neither the library libtopk.so"),
            ("where another is called so", said[2], "topk.NoCore: what judged isn't topk: it wrote 'judge\\n'"),
        ]
    )


# The package as a whole.


def package_doctests(program: str) -> str | None:
    """The examples of each file and page, by `python3 -m doctest`."""
    files = [*sorted((PYTHON / "topk").glob("[!_]*.py")), PYTHON / "topk" / "__init__.py"]
    return wrong_examples(program, [*files, PYTHON / "README.md", REPOSITORY / "docs" / "LIBRARY.md"])


def package_types(program: str) -> str | None:
    """`mypy --strict` finds nothing."""
    with tempfile.TemporaryDirectory() as place:
        done = peer([path_of("mypy"), "--strict", "--cache-dir", place, "-p", "topk"], cwd=PYTHON)
    return None if done.returncode == 0 else done.stdout.decode()[:1000]


def package_version(program: str) -> str | None:
    """The repository's version is the package's."""
    return first_wrong(
        [("the version", topk.__version__, (REPOSITORY / "VERSION").read_text(encoding="utf-8").strip())]
    )


def python_with_pip() -> str:
    """A Python of this machine that builds wheels without an index: the one that runs, or the system's."""
    for python in filter(None, (sys.executable, shutil.which("python3", path=os.defpath))):
        if peer([python, "-c", "import setuptools, wheel, pip"]).returncode == 0:
            return python
    raise Skipped("there is no pip with setuptools and wheel")


def package_installed(program: str) -> str | None:
    """`pip install` of the folder alone, without an index: the package is there with its types, and a library beside it
    goes along in a wheel, which is then of one platform.
    """
    python = python_with_pip()
    pip = [python, "-m", "pip", "--disable-pip-version-check", "--no-input"]
    how = ["--no-index", "--no-deps", "--no-build-isolation", "--quiet"]
    with tempfile.TemporaryDirectory() as place:
        folder, to = pathlib.Path(place) / "python", pathlib.Path(place) / "site"
        shutil.copytree(PYTHON, folder, ignore=shutil.ignore_patterns("*.so", "__pycache__", "build", "*.egg-info"))
        done = peer([*pip, "install", *how, "--target", to, folder])
        if done.returncode != 0:
            return f"pip install: {done.stderr.decode()[-500:]}"
        code = """
import topk
table = topk.Table({"x": [1]}, criteria=[topk.criterion("x")])
print(topk.__version__, topk.core().kind, table.top(1, ["x"]).keys)
"""
        there = {**os.environ, "PYTHONPATH": str(to), "TOPK_PROGRAM": program, "TOPK_LIBRARY": ""}
        words = [python, "-c", code]
        said = subprocess.run(words, stdout=subprocess.PIPE, env=there, cwd=place, timeout=SECONDS).stdout
        (folder / "topk" / "libtopk.so").write_bytes(b"library")
        made = peer([*pip, "wheel", *how, "--wheel-dir", place, folder])
        if made.returncode != 0:
            return f"pip wheel: {made.stderr.decode()[-500:]}"
        wheel = next(pathlib.Path(place).glob("*.whl"))
        rows = [
            ("what is installed", said.decode(), f"{topk.__version__} program [1]\n"),
            ("its types", (to / "topk" / "py.typed").exists(), True),
            ("the wheel", wheel.name, f"topk-{topk.__version__}-py3-none-linux_x86_64.whl"),
            ("the library in it", "topk/libtopk.so" in zipfile.ZipFile(wheel).namelist(), True),
        ]
        return first_wrong(rows)


def tests() -> Iterator[tuple[str, Callable[[str], str | None]]]:
    """Each test with its name."""
    for test in (
        package_of_packages,
        package_hybrid_search,
        package_of_shop,
        package_grades,
        package_floats,
        package_missing,
        package_faults_of_criteria,
        package_ties,
        package_keys,
        package_readers,
        package_no_tables,
        package_columns_of_numpy,
        package_filters,
        package_expressions,
        package_choices,
        package_faults_of_questions,
        package_sizes,
        package_limits,
        package_folders,
        package_faults_of_folders,
        package_evidence,
        package_both_ways,
        package_calls,
        package_doctests,
        package_types,
        package_version,
        package_installed,
    ):
        yield test.__name__, test
