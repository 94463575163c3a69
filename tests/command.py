"""Tests of `python3 -m topk`, as its users run it: what `rank` prints beside plain Python, that a catalog of `lists`
gives one answer over files, nodes and the server, a sentence for each refusal and status, and what `check` finds.
"""
from __future__ import annotations

import contextlib
import csv
import io
import json
import os
import pathlib
import pty
import random
import re
import shutil
import socket
import subprocess
import sys
import tempfile
import time
import urllib.parse
from collections.abc import Callable, Iterator, Mapping, Sequence
from fractions import Fraction

from machine import SECONDS, Skipped, free_port, over_network, peer
from support import PYTHON, REPOSITORY, first_wrong, wrong_examples

LIBRARY = PYTHON / "topk" / "libtopk.so"
VIEW = REPOSITORY / "examples" / "view" / "refusals.js"
HOTELS = """name,price,rating,city
"Adler, old",120,4.5,Bern
Krone,80,4.1,Bern
Post,95,,Chur
Linde,60,3.0,Chur
"""
MILLION = 1_000_000


class Said(tuple[int, str, str]):
    """How a command ended: its status, its output, and what it said on standard error."""

    def __str__(self) -> str:
        return f"ended with {self[0]} and wrote {self[1][:300]!r}, {self[2][-300:]!r}"


def command(program: str, *words: object, place: object = None, given: str = "") -> Said:
    """What `python3 -m topk` does of these words, with this program as its core."""
    there = {**os.environ, "PYTHONPATH": str(PYTHON), "TOPK_PROGRAM": program, "PYTHONIOENCODING": "utf-8"}
    done = subprocess.run(
        [sys.executable, "-m", "topk", *map(str, words)],
        input=given.encode(),
        capture_output=True,
        cwd=str(place) if place else None,
        env=there,
        timeout=SECONDS,
        check=False,
    )
    return Said((done.returncode, done.stdout.decode(), done.stderr.decode()))


@contextlib.contextmanager
def folder(files: Mapping[str, str] = {"hotels.csv": HOTELS}) -> Iterator[pathlib.Path]:  # noqa: B006
    """A folder with these files."""
    with tempfile.TemporaryDirectory() as place:
        for name, text in files.items():
            path = pathlib.Path(place) / name
            path.parent.mkdir(parents=True, exist_ok=True)
            path.write_text(text, encoding="utf-8")
        yield pathlib.Path(place)


def command_rank(program: str) -> str | None:
    """The best rows as a table, as CSV and as JSON; scores are worked out by hand."""
    by = ("--by", "price:low:0..200", "--by", "rating:high:0..5*2")
    words = ("rank", "hotels.csv", "--key", "name", *by, "--top", "2")
    with folder() as place:
        shown = command(program, *words, "--check", place=place)
        rows = list(csv.reader(io.StringIO(command(program, *words, "--csv", place=place)[1])))
        found = json.loads(command(program, *words, "--json", "--check", place=place)[1])
        kept = command(program, *words, "--where", "city=Chur", "--where", "price<90", "--csv", place=place)[1]
    lines = shown[1].splitlines()
    wanted = [
        ["place", "name", "price", "rating", "score"],
        ["1", "Krone", "80", "4.1", "0.746667"],
        ["2", "Adler, old", "120", "4.5", "0.733333"],
    ]
    return first_wrong([
        ("the status", shown[0], 0),
        ("nothing on standard error", shown[2], ""),
        ("the head", lines[0].split(), wanted[0]),
        ("the best row", lines[1].split(), wanted[1]),
        ("the verdict", lines[-1], "Judged: the accesses fix the answer."),
        ("as CSV", rows, wanted),
        ("as JSON", [(it["key"], it["score"], it["values"]["rating"]) for it in found["rows"]],
         [("Krone", 2_240_000, "4.1"), ("Adler, old", 2_200_000, "4.5")]),
        ("its query", found["query"], "top 2 by wsum(1*price,2*rating) using ta"),
        ("its verdict", found["verdict"], "fixes"),
        ("with conditions", kept, "place,name,price,rating,score\n1,Linde,60,3.0,0.633333\n"),
    ])  # fmt: skip


def command_settings(program: str) -> str | None:
    """Settings of a criterion, ways to put grades together, algorithms that are named, and missing values."""
    rows = [
        (("--by", "price:low:rank", "--by", "rating:missing=1000000"), "Krone Post", "sum"),
        (("--by", "price:low", "--by", "rating", "--how", "min"), "Krone", "min"),
        (("--by", "price:low:name=x", "--by", "rating", "--score", "min(x,wsum(2*rating))"), "Krone", "min(x"),
        (("--by", "price:low:reciprocal-rank=60", "--by", "rating:reciprocal-rank"), "Linde Krone", "sum"),
        (("--by", "price:low:no-grades", "--by", "rating", "--top", "1"), "Krone", "using nra"),
        (("--by", "price", "--using", "theta 3/2", "--top", "1"), "Adler, old", "3/2"),
        (("--by", "price:low", "--cost", "1", "10", "--room", "9"), "Linde Krone Post Adler, old", "cost 1 10 room 9"),
    ]
    with folder() as place:
        for words, keys, word in rows:
            said = command(program, "rank", "hotels.csv", "--key", "name", *words, "--json", place=place)
            if said[0] != 0:
                return f"{words}: {said}"
            found = json.loads(said[1])
            best = " ".join(it["key"] for it in found["rows"])
            if not best.startswith(keys):
                return f"{words}: {best} in place of {keys}"
            if word not in found["query"] and word not in str(found["guarantee"]):
                return f"{words}: the query is {found['query']!r}"
    return None


def command_wrong_words(program: str) -> str | None:
    """What can't be: a line that says so, the nearest name where one is mistyped, and nothing is written."""
    table = ("rank", "hotels.csv", "--key", "name")
    rows = [
        (1, "topk: there is no column 'prize': did you mean 'price'?", (*table, "--by", "prize:low")),
        (1, "no column 'nam': did you mean 'name'?", ("rank", "hotels.csv", "--key", "nam", "--by", "price")),
        (1, "topk: there is no column 'cty': did you mean 'city'?", (*table, "--by", "price", "--where", "cty=Bern")),
        (1, "has 'Bern' in the column city, which is no number", (*table, "--by", "city")),
        (1, "has no rating, and the criterion refuses that", (*table, "--by", "rating:missing=refuse")),
        (1, "topk: row 1 ('120') has 'Adler, old'", ("rank", "hotels.csv", "--key", "price", "--by", "name")),
        (1, "two criteria are called 'price'", (*table, "--by", "price", "--by", "price:low")),
        (1, "< compares numbers", (*table, "--by", "price", "--where", "city<Bern")),
        (1, "no row to rank", (*table, "--by", "price", "--where", "city=Rome")),
        (1, "topk: nothing.csv: No such file", ("rank", "nothing.csv", "--by", "price")),
        (1, "k is a whole number from 1 on", (*table, "--by", "price", "--top", "0")),
        (1, "goes wrong after its first", (*table, "--by", "price", "--using", "magic")),
        (2, "two settings of one kind", (*table, "--by", "price:low:high")),
        (2, "required: --by", table),
        (2, "required: --out", ("lists", "hotels.csv", "--by", "price")),
        (2, "invalid choice: 'rnk'", ("rnk",)),
        (1, "topk: there is no column 'prize'", ("lists", "hotels.csv", "--by", "prize", "--out", "out")),
    ]
    with folder() as place:
        for status, words, given in rows:
            said = command(program, *given, place=place)
            if said[0] != status or said[1] or words not in said[2] or "Traceback" in said[2]:
                return f"{given}: {said}"
        left = sorted(it.name for it in place.iterdir())
        lost = command("/nowhere/topk", *table, "--by", "price", place=place)
    status = 0 if LIBRARY.exists() else 1
    return first_wrong([("what is left", left, ["hotels.csv"]), ("without a program", lost[0], status)])


def command_help(program: str) -> str | None:
    """Each command's help has an example, and the examples are commands."""
    for name in ("rank", "lists", "explain", "check"):
        said = command(program, name, "--help")
        if said[0] != 0 or "example:" not in said[1] or f"python3 -m topk {name}" not in said[1].split("example:")[1]:
            return f"{name}: {said}"
    version = command(program, "--version")[1].split()
    return first_wrong([("the version", version, ["topk", (REPOSITORY / "VERSION").read_text().strip()])])


# Lists over files, nodes and the server.


def made_table(count: int) -> tuple[str, list[int]]:
    """A table of shops with text keys and four columns, and the best keys' scores by plain Python."""
    made = random.Random(21)
    rows = [tuple(map(made.randrange, (900, 51, 10_000, 6))) for _ in range(count)]
    text = "".join(f"shop-{number:06},{a},{b / 10},{c},{d}\n" for number, (a, b, c, d) in enumerate(rows))
    columns = list(zip(*rows))
    grades = []
    for column, low_is_best in zip(columns, (True, False, True, False)):
        low, high = min(column), max(column)
        shares = [Fraction(it - low, high - low) for it in column]
        grades.append([(2 * MILLION * (1 - it if low_is_best else it) + 1) // 2 for it in shares])
    scores = [2 * a + b + c + d for a, b, c, d in zip(*grades)]
    return "shop,price,rating,metres,stars\n" + text, sorted(scores, reverse=True)[:10]


BY = ("--key", "shop", "--by", "price:low*2", "--by", "rating", "--by", "metres:low", "--by", "stars")


def listening(words: Sequence[str], place: pathlib.Path, held: contextlib.ExitStack) -> int:
    """The port of a process that listens until the stack is closed."""
    port = held.enter_context(free_port())
    process = subprocess.Popen([*words[:2], "--at", str(port), *words[2:]], cwd=place, stdout=subprocess.DEVNULL)
    held.callback(process.wait, SECONDS)
    held.callback(process.kill)
    end = time.monotonic() + SECONDS
    while time.monotonic() < end and process.poll() is None:
        with contextlib.suppress(ConnectionRefusedError):
            socket.create_connection(("127.0.0.1", port), SECONDS).close()
            return port
        time.sleep(0.02)
    raise AssertionError(f"{words} doesn't listen")


def served(port: int, query: str) -> str:
    """What the server replies to a query."""
    with socket.create_connection(("127.0.0.1", port), SECONDS) as link:
        target = f"/top?q={urllib.parse.quote(query, safe='')}"
        link.sendall(f"GET {target} HTTP/1.1\r\nHost: h\r\nConnection: close\r\n\r\n".encode())
        parts = iter(lambda: link.recv(65_536), b"")
        return b"".join(parts).partition(b"\r\n\r\n")[2].decode()


def ran(program: str, place: pathlib.Path, query: str) -> str:
    """What `run` writes over a catalog."""
    words = [program, "run", "catalog.csv"]
    given = f"{query}\n".encode()
    done = subprocess.run(words, input=given, stdout=subprocess.PIPE, cwd=place, timeout=SECONDS, check=True)
    return done.stdout.decode()


def command_lists(program: str) -> str | None:
    """A catalog of `lists` gives the answer of `rank`, and one certificate over files, over nodes and over the server.
    `explain` names its rows.
    """
    text, scores = made_table(2_000)
    with folder({"shops.csv": text}) as place, contextlib.ExitStack() as held:
        made = command(program, "lists", "shops.csv", *BY, "--out", "out", place=place)
        out = place / "out"
        checked = command(program, "check", "out", place=place)
        query = re.sub("^top 5 ", "top 10 ", re.search(r"echo '(.*)'", made[1])[1])  # type: ignore[index]
        files = ran(program, out, query)
        names = [row[0] for row in csv.reader((out / "catalog.csv").read_text().splitlines()[1:])]
        ports = {name: listening([program, "node", "catalog.csv", name], out, held) for name in names}
        lines = [f"{it},http://127.0.0.1:{port}/lists/{it},yes\n" for it, port in ports.items()]
        (place / "catalog.csv").write_text("name,place,random\n" + "".join(lines))
        over_nodes = ran(program, place, query)
        over_server = served(listening([program, "serve", "catalog.csv"], out, held), query)
        ranked = json.loads(command(program, "rank", "shops.csv", *BY, "--json", "--top", "10", place=place)[1])
        said = command(program, "explain", place=out, given=files)
    explained = [line.split()[1] for line in said[1].splitlines()[2:12]]
    return first_wrong([
        ("what it wrote", made[0], 0),
        ("its lists", names, ["price", "rating", "metres", "stars"]),
        ("checked", checked, Said((0, "out/catalog.csv: 4 list files of 2000 objects, in order.\n", ""))),
        ("over nodes", over_nodes, files),
        ("over the server", over_server, files),
        ("the scores", [it["score"] for it in ranked["rows"]], scores),
        ("the keys", sorted(explained), sorted(it["key"] for it in ranked["rows"])),
    ])  # fmt: skip


def command_evidence(program: str) -> str | None:
    """From a CSV file to `judge`: the certificate that `rank` writes is judged, and explained with the keys."""
    with folder() as place:
        words = ("--by", "price:low", "--by", "rating", "--top", "2", "--certificate", "hotels.txt", "--keys", "k.csv")
        said = command(program, "rank", "hotels.csv", "--key", "name", *words, place=place)
        given = (place / "hotels.txt").read_bytes()
        judged = subprocess.run([program, "judge"], input=given, stdout=subprocess.PIPE, timeout=SECONDS)
        explained = command(program, "explain", "hotels.txt", "--keys", "k.csv", place=place)
    lines = explained[1].splitlines()
    return first_wrong([
        ("rank", said[0], 0),
        ("judge", judged.stdout, b"fixes\n"),
        ("what is explained", lines[0], "The best 2 of 4 objects by the sum of price and rating:"),
        ("its head", lines[1].split(), ["place", "key", "score", "price", "rating"]),
        ("its best", lines[2].split()[:2], ["1", "Krone"]),
        ("its values", re.findall(r"(\S+) \([0-9]+\)", lines[2]), ["80", "4.1"]),
    ])  # fmt: skip


# Sentences.


def stated_names() -> list[tuple[str, list[str]]]:
    """The words of each refusal and status that the sources state, with their fields."""
    crates = REPOSITORY / "crates"
    body = re.search(r"pub enum Refusal \{(.*?)\n\}", (crates / "cert_text/src/refusal.rt").read_text(), re.S)
    assert body is not None
    variants = re.findall(r"^ {4}([A-Z]\w*) \{([^}]*)\}", body[1], re.M)
    found = [(name, re.findall(r"(\w+): u", fields)) for name, fields in variants]
    judging = (crates / "cert_judge/src/refusal.rt").read_text()
    found += [(name, []) for name in re.findall(r'RefusalLine::\w+\(\s*b"(\w+)"', judging)]
    statuses = re.findall(r"^ {4}[A-Z]\w+ = ([0-9]+),", (crates / "command_line/src/status.rt").read_text(), re.M)
    found += [(f"status {it}", []) for it in statuses]
    return found


def command_sentences(program: str) -> str | None:
    """Each refusal of a query line and of `judge`, each verdict and each status has its sentence, in which no field is
    left open; the package reads the file that the page reads.
    """
    sys.path.insert(0, str(PYTHON))
    from topk.sentences import UNHEARD, entries, meaning

    stated = stated_names()
    if len(stated) < 40:
        return f"the sources state {len(stated)} names"
    for name, fields in stated:
        entry = entries().get(name)
        if entry is None or (fields and list(entry.fields) != fields):
            return f"{name} {fields}: {entry}"
    for key, entry in entries().items():
        said = meaning([*key.split(" "), *map(str, range(len(entry.fields)))])
        if said == UNHEARD or "{" in said.sentence + said.cure:
            return f"{key}: {said}"
    known = {name for name, _ in stated} | {"fixes", "beaten"}
    more = [key for key in entries() if key not in known and entries()[key].kind not in ("command", "inconsistency")]
    text = VIEW.read_text(encoding="utf-8")
    of_page = json.loads(text[text.index("{"): text.rindex("}") + 1])
    return first_wrong([("entries that nothing states", more, []), ("those of the page", set(of_page), set(entries()))])


def command_refusals(program: str) -> str | None:
    """Each refusal that the program is known to write is explained by a sentence of its own, as is a status."""
    outputs = sorted((REPOSITORY / "tests" / "cases").glob("*/output"))
    texts = [it.read_text(errors="replace") for it in outputs]
    lines = {line for it in texts for line in it.splitlines() if line.startswith("refused ")}
    if len(lines) < 10:
        return f"the cases have {len(lines)} refusals"
    said = command(program, "explain", given="\n".join(sorted(lines)))
    parts = said[1].strip().split("\n\n")
    beaten = command(program, "explain", given=(REPOSITORY / "tests/cases/judge_beaten/output").read_text())
    keys = {"keys.csv": "object,key\n9,nine\n"}
    with folder(keys) as place:
        named = command(program, "explain", place=place, given="refused 2 Missing A 9\n")
    return first_wrong([
        ("how many", (said[0], len(parts)), (0, len(lines))),
        ("without a sentence", [it for it in parts if "for the reason that the line names" in it], []),
        ("beaten", "object 1 of the answer has 900, and object 0 outside it has 1600" in beaten[1], True),
        ("with a name", named[1].startswith("Line 2: The list A doesn't have object 9 (nine), whose grade"), True),
        ("a status", command(program, "explain", "--status", "3")[1].startswith("Status 3: The file named"), True),
        ("nothing", command(program, "explain")[0], 1),
        ("another text", command(program, "explain", given="hello\n")[0], 1),
        ("a certificate that is cut", command(program, "explain", given="certificate 1\ncount 2\n")[0], 1),
    ])  # fmt: skip


# Checks.


def command_check(program: str) -> str | None:
    """Each fault of list files by its file and line, all of one look; the program refuses what is at fault."""
    lists = {
        "a.csv": "object,grade\n1,900\n2,950\n3,50\n",
        "b.csv": "object,grade\n1,1000001\n2,5\n2,4\n",
        "c.csv": "1,9\r\n2,x\r\n3,7\r\n4294967296,6\r\n",
    }
    catalog = "name,place,random\na,a.csv,yes\nb,b.csv,yes\nc,c.csv,no\nd,d.csv,yes\ne,http://127.0.0.1:1/lists/e,no\n"
    wanted = [
        "a.csv, line 3: the object 2 has the grade 950, which is above the 900 of the row over it",
        "b.csv, line 2: the object 1 has the grade 1000001, which is above 1000000",
        "b.csv, line 4: the object 2 stands in line 3 already",
        "c.csv, line 2: '2,x' is no object and grade, two whole numbers with a comma between them",
        "c.csv, line 4: the object 4294967296 is above 4294967295",
        "d.csv: No such file or directory",
        "b.csv: it lacks the object 3 of line 4 of a.csv",
        "c.csv: it lacks the object 2 of line 3 of a.csv",
        "keys.csv: it has no key for the object 3 of line 4 of a.csv",
    ]
    with folder({**lists, "catalog.csv": catalog, "keys.csv": "object,key\n1,one\n2,two\n"}) as place:
        said = command(program, "check", "catalog.csv", place=place)
    with folder({"catalog.csv": "name,place,random\na,a.csv,maybe\n"}) as place:
        bad = command(program, "check", place, place=place)
    with folder({"catalog.csv": "name,place,random\na,a.csv,yes\n", "a.csv": "x\n" * 30}) as place:
        words = ("check", "catalog.csv")
        many, whole = (command(program, *words, *it, place=place)[1].splitlines() for it in ((), ("--all",)))
    return first_wrong([
        ("the faults", said[1].splitlines(), wanted),
        ("the status", said[0], 1),
        ("a bad catalog", (bad[0], "topk: record 2 of" in bad[2]), (1, True)),
        ("many faults", (len(many), many[-1].strip()), (11, "and 20 more there (--all prints them)")),
        ("all of them", len(whole), 30),
    ])  # fmt: skip


# The command as a whole.


def command_progress(program: str) -> str | None:
    """On a terminal long work says what it is at, and wipes it; elsewhere nothing stands on standard error."""
    text, _ = made_table(60_000)
    with folder({"shops.csv": text}) as place:
        main, other = pty.openpty()
        words = [sys.executable, "-m", "topk", "rank", "shops.csv", *BY, "--csv"]
        there = {**os.environ, "PYTHONPATH": str(PYTHON), "TOPK_PROGRAM": program}
        with subprocess.Popen(words, cwd=place, env=there, stderr=other, stdout=subprocess.DEVNULL) as process:
            os.close(other)
            seen = b""
            with contextlib.suppress(OSError):  # The end of a terminal.
                while part := os.read(main, 65_536):
                    seen += part
            status = process.wait(SECONDS)
        os.close(main)
    is_said = b"\rranking by " in seen or b"\rasking" in seen
    return first_wrong([("the status", status, 0), ("what it is at", is_said, True), ("its end", seen[-1:], b"\r")])


def command_as_quick(program: str) -> str | None:
    """200,000 rows by four criteria, from CSV to ten rows on the screen, in a few times what pandas takes.

    bench/package.py says how many: 2.3 to 2.9 by itself. Beside other tests it is given four.
    """
    pythons = (sys.executable, "/usr/bin/python3")
    python = next((it for it in pythons if peer([it, "-c", "import pandas"]).returncode == 0), None)
    if python is None:
        raise Skipped("there is no pandas")
    bench = [sys.executable, str(REPOSITORY / "bench" / "package.py"), "--command", "--python", python, "--rounds", "2"]
    there = {**os.environ, "TOPK_PROGRAM": program}
    done = subprocess.run(bench, env=there, stdout=subprocess.PIPE, timeout=SECONDS, check=True).stdout.decode()
    found = re.search(r"whole process: .* ([0-9.]+) times", done)
    return None if found and float(found[1]) <= 4 else done


def command_installed(program: str) -> str | None:
    """`pip install` of the folder, without an index: the commands are there, with the sentences."""
    pythons = filter(None, (sys.executable, shutil.which("python3", path=os.defpath)))
    python = next((it for it in pythons if peer([it, "-c", "import setuptools, wheel, pip"]).returncode == 0), None)
    if python is None:
        raise Skipped("there is no pip with setuptools and wheel")
    how = ["--disable-pip-version-check", "--no-index", "--no-deps", "--no-build-isolation", "--quiet"]
    with tempfile.TemporaryDirectory() as place:
        copy, to = pathlib.Path(place) / "python", pathlib.Path(place) / "site"
        shutil.copytree(PYTHON, copy, ignore=shutil.ignore_patterns("*.so", "__pycache__", "build", "*.egg-info"))
        done = peer([python, "-m", "pip", "install", *how, "--target", to, copy])
        if done.returncode != 0:
            return f"pip install: {done.stderr.decode()[-500:]}"
        words = [python, "-m", "topk", "explain", "--status", "2"]
        there = {**os.environ, "PYTHONPATH": str(to), "TOPK_PROGRAM": program}
        said = subprocess.run(words, stdout=subprocess.PIPE, env=there, cwd=place, timeout=SECONDS, check=False).stdout
    return first_wrong([("a sentence", said[:59], b"Status 2: The words on the command line are no command of t")])


def command_doctests(program: str) -> str | None:
    """The examples of each file of the commands."""
    return wrong_examples(program, sorted((PYTHON / "topk" / "commands").glob("*.py")))


def tests() -> Iterator[tuple[str, Callable[[str], str | None]]]:
    """Each test with its name."""
    for test in (
        command_rank,
        command_settings,
        command_wrong_words,
        command_help,
        command_evidence,
        command_sentences,
        command_refusals,
        command_check,
        command_progress,
        command_as_quick,
        command_installed,
        command_doctests,
    ):
        yield test.__name__, test
    yield "command_lists", over_network(command_lists)
