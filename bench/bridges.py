#!/usr/bin/env python3
"""What topk reads of a database through examples/bridges, against the join that the database would make: rows, grades,
requests and time.

Use, from anywhere, with the program at ./topk (`make topk`) or the place given: bench/bridges.py [PROGRAM [ROWS]]

A table of SQLite with 200,000 objects and four columns of grades, each half the object's own worth and half chance, so
that the lists agree as rankings of real things do. The bridge runs in this process and counts what it gives; the
statement that answers by the table alone runs beside.
"""
from __future__ import annotations

import argparse
import contextlib
import importlib
import pathlib
import random
import sqlite3
import subprocess
import sys
import tempfile
import threading
import time
from collections.abc import Iterator
from typing import Any

HERE = pathlib.Path(__file__).resolve().parent
BRIDGES = HERE.parent / "examples" / "bridges"

LISTS = ("price", "rating", "centre", "quiet")
BY = ",".join(LISTS)


class Given:
    """How many requests a bridge answered, and the rows and grades in its replies."""

    def __init__(self) -> None:
        self.requests, self.rows, self.grades = 0, 0, 0
        self._turn = threading.Lock()

    def count(self, body: dict[str, Any]) -> None:
        """Counts the body of a reply."""
        with self._turn:
            self.requests += 1
            self.rows += len(body.get("rows", ()))
            self.grades += "grade" in body


def bridge_modules() -> tuple[Any, Any, Any]:
    """The modules of the bridge: its node, its tables, and what is SQLite's."""
    sys.path.insert(0, str(BRIDGES))
    return tuple(map(importlib.import_module, ("bridge", "ranked_table", "sqlite")))  # type: ignore[return-value]


@contextlib.contextmanager
def counting(place: pathlib.Path) -> Iterator[tuple[int, Given]]:
    """The bridge over a table, on a thread of this process: its port, and what it gave."""
    bridge, ranked_table, sqlite = bridge_modules()
    uri, given, answer = place.as_uri() + "?mode=ro", Given(), bridge.answer

    def connect() -> sqlite3.Connection:
        return sqlite3.connect(uri, uri=True, isolation_level=None, check_same_thread=False)

    def counted(lists: Any, target: str) -> Any:
        body = answer(lists, target)
        given.count(body)
        return body

    database = ranked_table.Database(connect, "begin", "?", sqlite.quoted)
    pool = ranked_table.Pool(database)
    lists = {name: ranked_table.RankedTable(database, pool, "things", ("object", name), 0) for name in LISTS}
    node = bridge.Node(("127.0.0.1", 0), lists)
    bridge.answer = counted
    threading.Thread(target=node.serve_forever, daemon=True).start()
    try:
        yield node.server_address[1], given
    finally:
        node.shutdown()
        node.server_close()
        bridge.answer = answer


def fill(place: pathlib.Path, rows: int) -> None:
    """Makes the table."""
    chance = random.Random(7)
    with contextlib.closing(sqlite3.connect(place)) as database:
        columns = ", ".join(f"{name} integer" for name in LISTS)
        database.execute(f"create table things (object integer primary key, {columns})")
        worths = [chance.random() for _ in range(rows)]
        made = ((n, *(int(500_000 * (worth + chance.random())) for _ in LISTS)) for n, worth in enumerate(worths))
        database.executemany("insert into things values (?,?,?,?,?)", made)
        for name in LISTS:
            database.execute(f"create index by_{name} on things ({name} desc, object)")
        database.commit()
        database.execute("analyze")


def by_the_table(place: pathlib.Path) -> tuple[float, list[int]]:
    """The seconds and the objects of the statement that reads each row of the table."""
    with contextlib.closing(sqlite3.connect(place)) as database:
        begun = time.monotonic()
        statement = f"select object from things order by {'+'.join(LISTS)} desc, object limit 10"
        found = database.execute(statement).fetchall()
        return time.monotonic() - begun, [row[0] for row in found]


def answered(program: pathlib.Path, catalog: pathlib.Path, algorithm: str, best: list[int]) -> tuple[str, float]:
    """The line `stop` of a query over the bridge, which has to answer the best, and its seconds."""
    begun = time.monotonic()
    command = [program, "run", catalog, "--page", "1000", "--workers", "1"]
    line = f"top 10 by sum({BY}) using {algorithm}\n"
    said = subprocess.run(command, input=line, capture_output=True, text=True, check=False)
    took, lines = time.monotonic() - begun, said.stdout.splitlines()
    assert said.returncode == 0, (said.returncode, lines[:2])
    found = [int(it.split()[1]) for it in lines if it.startswith("answer ")]
    assert sorted(found) == sorted(best), "another answer"
    return next(it for it in lines if it.startswith("stop ")), took


def main() -> None:
    """Prints a line for each algorithm."""
    parser = argparse.ArgumentParser(description=__doc__, formatter_class=argparse.RawDescriptionHelpFormatter)
    parser.add_argument("program", nargs="?", type=pathlib.Path, default="topk")
    parser.add_argument("rows", nargs="?", type=int, default=200_000)
    given = parser.parse_args()
    program, rows = given.program.resolve(), given.rows
    with tempfile.TemporaryDirectory() as folder:
        place, catalog = pathlib.Path(folder) / "things.db", pathlib.Path(folder) / "catalog.csv"
        fill(place, rows)
        seconds, best = by_the_table(place)
        print(f"the table alone: {rows} rows of 4 grades in {seconds:.3f} s")
        for algorithm in ("ta", "nra", "ca cost 1 20", "fa"):
            with counting(place) as (port, told):
                places = "".join(f"{name},http://127.0.0.1:{port}/lists/{name},yes\n" for name in LISTS)
                catalog.write_text(f"name,place,random\n{places}")
                stop, took = answered(program, catalog, algorithm, best)
                print(f"{algorithm}: {stop}; given {told.rows} rows, {told.grades} grades in {told.requests} requests, "
                      f"{took:.1f} s")


if __name__ == "__main__":
    main()
