"""What topk writes of a query line, from the rules alone: a slow program that shares no code with topk.

The expected texts of crates/topk and of many_queries in crates/examples/data were computed with it (make_examples.py),
and tests/ work out with it what runs have to write. Lists are (object, grade) pairs in the order of their grades;
places count from 0 here, depths from 1.
"""
from __future__ import annotations

import heapq
from collections.abc import Collection, Mapping, Sequence
from typing import Any, Callable, Optional

TOP_GRADE = 1_000_000

Rows = Sequence["tuple[int, int]"]


def median(values: Sequence[int]) -> int:
    """The lower one in the middle."""
    return sorted(values)[(len(values) + 1) // 2 - 1]


FUNCTIONS: dict[str, Callable[[list[int]], int]] = {"min": min, "max": max, "sum": sum, "wsum": sum, "median": median}


class Expression:
    """An expression over lists by name; `names` are its lists in the order of their first use."""

    def __init__(self, text: str) -> None:
        self.text, self.at, self.names = text, 0, list[str]()
        self.tree = self.node()

    def word(self) -> str:
        """The letters, digits and underscores that come."""
        start = self.at
        while self.at < len(self.text) and (self.text[self.at].isalnum() or self.text[self.at] == "_"):
            self.at += 1
        return self.text[start:self.at]

    def node(self) -> tuple[str, Any]:
        """A list by its number, or a function with the weights and the nodes under it."""
        word = self.word()
        if self.at == len(self.text) or self.text[self.at] != "(":
            if word not in self.names:
                self.names.append(word)
            return "list", self.names.index(word)
        terms = []
        while self.text[self.at] != ")":
            self.at += 1
            weight = 1
            if word == "wsum":
                weight = int(self.word())
                self.at += 1
            terms.append((weight, self.node()))
        self.at += 1
        return word, terms

    def value(self, grades: Sequence[int], tree: Optional[tuple[str, Any]] = None) -> int:
        """The value at a grade for each list."""
        kind, rest = tree or self.tree
        if kind == "list":
            return grades[rest]
        return FUNCTIONS[kind]([weight * self.value(grades, term) for weight, term in rest])


class Query:
    """A query line that can be read."""

    def __init__(self, line: str) -> None:
        words = line.split(" ")
        self.line, self.k, self.expression, self.algorithm = line, int(words[1]), Expression(words[3]), words[5]
        # What stands behind the word of the algorithm: the factor of `theta`, the depth of `early`.
        self.factor = (1, 1)
        if self.algorithm == "theta":
            p, _, q = words[6].partition("/")
            self.factor = (int(p), int(q))
        self.depth = int(words[6]) if self.algorithm == "early" else None
        self.costs, self.room = (1, 1), None
        if "cost" in words:
            at = words.index("cost")
            self.costs = (int(words[at + 1]), int(words[at + 2]))
        if "room" in words:
            self.room = int(words[words.index("room") + 1])


class Run:
    """One run of a query over its lists, access by access; `readable` tells of each list whether it can be read in
    order."""

    def __init__(self, query: Query, lists: Sequence[Rows], readable: Sequence[bool]) -> None:
        self.query, self.lists, self.readable = query, lists, readable
        self.count = len(lists[0])
        self.bottoms = [TOP_GRADE] * len(lists)
        self.grades = [dict(rows) for rows in lists]
        # The depth at which all lists have given an object.
        self.whole = {item: 0 for item in self.grades[0]}
        for rows in lists:
            for place, (item, _) in enumerate(rows):
                self.whole[item] = max(self.whole.get(item, 0), place + 1)
        # Of each object that was seen, in the order in which it was: its grades that are known, and its least value.
        self.known: dict[int, dict[int, int]] = {}
        self.lows: dict[int, int] = {}
        self.accesses: list[tuple[str, int, int, int]] = []

    def learn(self, kind: str, place: int, item: int, grade: int) -> None:
        """Notes an access and the grade that it gave."""
        self.accesses.append((kind, place, item, grade))
        known = self.known.setdefault(item, {})
        known[place] = grade
        self.lows[item] = self.query.expression.value([known.get(it, 0) for it in range(len(self.lists))])

    def sorted_row(self, depth: int) -> None:
        """Reads each list that can be read in order at a depth."""
        for place, rows in enumerate(self.lists):
            if self.readable[place]:
                item, grade = rows[depth - 1]
                self.bottoms[place] = grade
                self.learn("s", place, item, grade)

    def look_up_rest(self, item: int) -> None:
        """Asks for the grades of an object that aren't known."""
        for place, grades in enumerate(self.grades):
            if place not in self.known[item]:
                self.learn("r", place, item, grades[item])

    def high(self, item: int) -> int:
        """The greatest value that an object may have."""
        return self.query.expression.value([self.known[item].get(it, grade) for it, grade in enumerate(self.bottoms)])

    def threshold(self) -> int:
        """The greatest value of an object that wasn't seen."""
        return self.query.expression.value(self.bottoms)

    def kth_low(self) -> int:
        """The k-th of the least values."""
        return heapq.nlargest(self.query.k, self.lows.values())[-1]

    def first_k(self) -> list[int]:
        """The k objects that are first by what is known."""
        return heapq.nsmallest(self.query.k, self.known, key=lambda item: (-self.lows[item], -self.high(item), item))

    def viable(self, items: Collection[int]) -> list[int]:
        """Those of these objects that may still be better than the k-th."""
        if len(self.known) < self.query.k:
            return list(items)
        kth = self.kth_low()
        return [item for item in items if self.high(item) > kth]

    def may_stop(self, depth: int) -> bool:
        """Whether the algorithm stops at a depth."""
        algorithm = self.query.algorithm
        if len(self.known) < self.query.k:
            return False
        if algorithm == "fa":
            return sum(self.whole[item] <= depth for item in self.known) >= self.query.k
        if self.query.depth is not None and depth >= self.query.depth:
            return True
        if algorithm == "taz" and len(self.known) == self.count:
            return True
        tau = self.threshold()
        if algorithm in ("ta", "theta", "early", "taz"):
            p, q = self.query.factor
            return sum(p * low >= q * tau for low in self.lows.values()) >= self.query.k
        if len(self.known) < self.count and tau > self.kth_low():
            return False
        first = set(self.first_k())
        return not self.viable([item for item in self.known if item not in first])

    def ask_one(self) -> None:
        """The random phase of `ca`: the grades of the viable object that may have the greatest value."""
        lacking = [item for item, known in self.known.items() if len(known) < len(self.lists)]
        lacking = self.viable(lacking)
        if lacking:
            self.look_up_rest(min(lacking, key=lambda item: (-self.high(item), item)))

    def go(self) -> list[tuple[int, int, int]]:
        """Runs the query: its answer, each object with its least and its greatest value."""
        algorithm, step = self.query.algorithm, max(1, self.query.costs[1] // self.query.costs[0])
        for depth in range(1, self.count + 1):
            self.sorted_row(depth)
            if algorithm in ("ta", "theta", "early", "taz"):
                for place, rows in enumerate(self.lists):
                    if self.readable[place]:
                        self.look_up_rest(rows[depth - 1][0])
            if algorithm == "ca" and depth % step == 0:
                self.ask_one()
            if self.may_stop(depth):
                break
        if algorithm == "fa":
            for item in list(self.known):
                self.look_up_rest(item)
        first = self.first_k()
        if algorithm == "ca":
            # The objects that were the first at the stop, whatever the order becomes by what is asked of them.
            for item in first:
                self.look_up_rest(item)
            first.sort(key=lambda item: (-self.lows[item], item))
        return [(item, self.lows[item], self.high(item)) for item in first]

    def guarantee(self, items: Sequence[tuple[int, int, int]]) -> Optional[tuple[int, int]]:
        """The two numbers of the line `cert_text`, where the algorithm has one."""
        if self.query.algorithm == "theta":
            return self.query.factor
        if self.query.algorithm != "early":
            return None
        least = min(low for _, low, _ in items)
        if least >= self.threshold():
            return 1, 1
        return (self.threshold(), least) if least else (1, 0)


def figures(run: Run) -> dict[str, int]:
    """The numbers of the line `stop` of a run that has ended."""
    in_order = sum(access[0] == "s" for access in run.accesses)
    by_object = len(run.accesses) - in_order
    sorted_cost, random_cost = run.query.costs
    return {"depth": in_order // sum(run.readable), "sorted": in_order, "random": by_object,
            "cost": in_order * sorted_cost + by_object * random_cost}


def outcome(number: int, line: str, lists: Mapping[str, Rows], unordered: Collection[str] = ()) -> str:
    """The text of a query line that is admitted but for its factor and for `unordered`, the names of lists that can't
    be read in order."""
    query = Query(line)
    if query.factor[0] < query.factor[1]:
        return f"refused {number} BadTheta {query.factor[0]} {query.factor[1]}\n"
    names = query.expression.names
    lacking = [name for name in names if name in unordered]
    if len(lacking) == len(names) or lacking and query.algorithm != "taz":
        return f"refused {number} NoSorted {lacking[0]}\n"
    run = Run(query, [lists[name] for name in names], [name not in unordered for name in names])
    items = run.go()
    if query.room is not None and query.room < run.count and query.room < len(run.known):
        return f"refused {number} RoomFull {query.room}\n"
    text = [f"certificate {number}", f"query {line}", f"count {run.count}"]
    text += [f"answer {item} {low} {high}" for item, low, high in items]
    guarantee = run.guarantee(items)
    text += [f"guarantee {guarantee[0]} {guarantee[1]}"] if guarantee else []
    text += ["stop " + " ".join(f"{word} {figure}" for word, figure in figures(run).items())]
    text += [f"{kind} {names[place]} {item} {grade}" for kind, place, item, grade in run.accesses]
    return "\n".join(text + ["end"]) + "\n"


def compared(line: str, lists: Mapping[str, Rows]) -> str:
    """What `compare` writes of a bundle with this query: a line for each algorithm."""
    text = []
    for algorithm in ("ta", "nra", "ca", "fa"):
        query = Query(line)
        query.algorithm, query.factor, query.depth = algorithm, (1, 1), None
        run = Run(query, [lists[name] for name in query.expression.names], [True] * len(query.expression.names))
        run.go()
        text.append(f"{algorithm} " + " ".join(f"{word} {figure}" for word, figure in figures(run).items()))
    return "\n".join(text) + "\n"
