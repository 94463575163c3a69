#!/usr/bin/env python3
"""Writes the data and the expected texts of crates/topk and of many_queries in crates/examples/data. Run it at the top
of the repository."""

from __future__ import annotations

import os
import random
from collections.abc import Iterable, Mapping, Sequence

from reference import outcome

# number, name, euros, mark, metres to the old market, decibels at the window at night
HOTELS = [
    (101, "Adler", 129, 8.4, 350, 46), (102, "Am Ring", 89, 7.2, 1900, 58), (103, "Bellevue", 245, 9.3, 900, 38),
    (104, "Brauhaus", 74, 7.9, 250, 63), (105, "Central", 112, 6.8, 150, 61), (106, "Domblick", 168, 8.9, 120, 52),
    (107, "Eden", 99, 8.1, 2400, 35), (108, "Fuerstenhof", 210, 9.0, 600, 41),
    (109, "Garni Lindner", 68, 8.6, 3100, 33),
    (110, "Hafen", 95, 7.5, 1400, 55), (111, "Ibsen", 83, 8.0, 2200, 44), (112, "Jaegerhaus", 59, 7.1, 5200, 29),
    (113, "Kaiserhof", 189, 8.2, 450, 49), (114, "Lamm", 78, 9.1, 4100, 31), (115, "Markt", 139, 8.8, 90, 57),
    (116, "Nordstern", 105, 7.7, 1700, 47), (117, "Ochsen", 64, 6.4, 800, 60), (118, "Post", 92, 8.3, 700, 51),
    (119, "Quellenhof", 155, 9.2, 3600, 30), (120, "Rebstock", 85, 8.7, 1200, 42), (121, "Sonne", 72, 7.4, 1000, 50),
    (122, "Traube", 118, 9.0, 1600, 39), (123, "Uhland", 54, 6.9, 2800, 53), (124, "Villa Wald", 175, 9.5, 6300, 27),
]

HOTEL_LINES = [
    "top 3 by sum(price,rating) using ta",
    "top 3 by min(price,rating,centre) using ta",
    "top 4 by wsum(2*price,1*rating,1*centre) using nra",
    "top 2 by median(price,rating,centre) using ca cost 1 10",
    "top 3 by sum(rating,quiet) using nra",
    "top 3 by sum(rating,quiet) using ta",
    "top 1 by sum(rating,stars) using nra",
    "top 3 by sum(price,comfort) using ta",
    "top 3 by sum(price,rating) using ta room 5",
    "top 1 by max(price,rating,centre) using ca cost 1 5",
]

# the lines that are refused for what the catalog says
HOTEL_REFUSALS = {6: "refused 6 NoRandom quiet\n", 7: "refused 7 NotOpened stars\n",
                  8: "refused 8 UnknownList comfort\n"}


def write(path: str, text: str) -> None:
    """Writes a file, and the folders above it."""
    os.makedirs(os.path.dirname(path), exist_ok=True)
    with open(path, "w", newline="") as file:
        file.write(text)


def ranked(rows: Iterable[tuple[int, int]]) -> list[tuple[int, int]]:
    """Rows, best first."""
    return sorted(rows, key=lambda row: (-row[1], row[0]))


def write_lists(folder: str, lists: Mapping[str, Sequence[tuple[int, int]]]) -> None:
    """Writes a list file for each list."""
    for name, rows in lists.items():
        write(f"{folder}/{name}.csv", "object,grade\n" + "".join(f"{item},{grade}\n" for item, grade in rows))


def hotels() -> None:
    """Writes the hotels, their queries and what these come to."""
    lists = {
        "price": ranked((h[0], 1_000_000 - 2_500 * h[2]) for h in HOTELS),
        "rating": ranked((h[0], round(h[3] * 10) * 10_000) for h in HOTELS),
        "centre": ranked((h[0], 1_000_000 - 100 * h[4]) for h in HOTELS),
        "quiet": ranked((h[0], 1_000_000 - 10_000 * h[5]) for h in HOTELS),
    }
    write_lists("crates/topk/data/hotels", lists)
    write("crates/topk/stdin", "".join(line + "\n" for line in HOTEL_LINES))
    texts = [HOTEL_REFUSALS.get(n) or outcome(n, line, lists) for n, line in enumerate(HOTEL_LINES, 1)]
    write("crates/topk/stdout", "".join(texts))


def made_query(draw: random.Random, names: Sequence[str]) -> str:
    """One line over one to five of the lists."""
    few = draw.sample(names, draw.randint(1, 5))
    kind = draw.choice(["sum", "min", "max", "median", "wsum"])
    terms = [f"{draw.randint(1, 9)}*{name}" for name in few] if kind == "wsum" else few
    expression = f"{kind}({','.join(terms)})"
    algorithm = draw.choice(["ta", "nra", "ca"])
    cost = f" cost {draw.randint(1, 3)} {draw.randint(1, 12)}" if draw.random() < 0.4 else ""
    return f"top {draw.randint(1, 6)} by {expression} using {algorithm}{cost}"


def many_queries() -> None:
    """Writes lists, 64 lines over them and what these come to."""
    draw = random.Random(64)
    names = [f"l{n}" for n in range(1, 9)]
    items = list(range(1, 13))
    lists = {name: ranked((item, draw.randint(0, 50) * 1_000) for item in items) for name in names}
    lines = []
    while len(lines) < 64:
        line = made_query(draw, names)
        if line not in lines:
            lines.append(line)
    records = "".join(f"{name},lists/{name}.csv,yes\r\n" for name in names)
    write("crates/examples/data/many_queries.csv", f"name,place,random\r\n{records}")
    write_lists("crates/examples/data/lists", lists)
    write("crates/examples/data/many_queries.lines", "".join(line + "\r\n" for line in lines))
    write("crates/examples/data/many_queries.text", "".join(outcome(n, line, lists) for n, line in enumerate(lines, 1)))


if __name__ == "__main__":
    hotels()
    many_queries()
