#!/usr/bin/env python3
"""What the gate costs: processor time and memory for each crate's check, its tests and its edits, as a table in
Markdown.

Use, at the top of the repository:  bench/gate.py [--every 0.2] [--] [COMMAND ..]

COMMAND is `rt ci` if none is given, with `--anew` where the kit keeps what a run passed: it proves all from nothing and
takes an hour or more. `rt check`, `rt test` and `rt must-fail NAME` in a crate's folder serve to look at one crate.
While it runs, each prover below it is looked at every so many seconds, so the time of a process is short by at most
that much. A crate's check, its tests and its edits are told apart by the prover's words and by the folder that it runs
in. The memory is that of the greatest process. Beside these stand the lines of code of the crate (its `.rt` files) and
the seconds for 100 of them, all kinds together. It needs Linux (`/proc`).
"""

from __future__ import annotations

import argparse
import glob
import os
import subprocess
import sys
import time
from collections.abc import Iterable, Mapping, Sequence
from dataclasses import dataclass, field

PROVER = "rattle"
KINDS = ("check", "tests", "compiled", "edits")
TICKS = os.sysconf("SC_CLK_TCK")


@dataclass
class Process:
    """A prover as it was seen last."""

    crate: str
    kind: str
    seconds: float
    megabytes: int


@dataclass
class Crate:
    """What the processes of a crate took, by kind."""

    seconds: dict[str, float] = field(default_factory=lambda: dict.fromkeys(KINDS, 0.0))
    runs: dict[str, int] = field(default_factory=lambda: dict.fromkeys(KINDS, 0))
    megabytes: int = 0

    def add(self, process: Process) -> None:
        """Adds what a process took."""
        self.seconds[process.kind] += process.seconds
        self.runs[process.kind] += 1
        self.megabytes = max(self.megabytes, process.megabytes)


def read(path: str) -> bytes:
    """A file of /proc, or nothing where the process has ended."""
    try:
        with open(path, "rb") as file:
            return file.read()
    except OSError:
        return b""


def parents() -> dict[int, int]:
    """The parent of each process."""
    found = {}
    for name in os.listdir("/proc"):
        if name.isdigit():
            stat = read(f"/proc/{name}/stat").rpartition(b")")[2].split()
            if stat:
                found[int(name)] = int(stat[1])
    return found


def below(top: int, of: Mapping[int, int]) -> set[int]:
    """The processes below one, by the parent of each."""
    inside = {top}
    grown = True
    while grown:
        more = {pid for pid, parent in of.items() if parent in inside and pid not in inside}
        inside |= more
        grown = bool(more)
    return inside


def kind_of(pid: int, words: Sequence[str]) -> str:
    """Whether a prover checks a crate, its tests or an edit of it, or compiles a program of what was proved."""
    try:
        folder = os.path.basename(os.readlink(f"/proc/{pid}/cwd"))
    except OSError:
        folder = ""
    if folder.startswith("rt-edit-"):
        return "edits"
    if "--crate-checked" in words:
        return "compiled"
    return "tests" if "--test" in words else "check"


def megabytes_of(pid: int) -> int:
    """The most memory that a process held."""
    for line in read(f"/proc/{pid}/status").decode(errors="replace").splitlines():
        if line.startswith("VmHWM:"):
            return int(line.split()[1]) // 1024
    return 0


def words_of(pid: int) -> list[str] | None:
    """The words of a prover of a crate, or None of another process."""
    words = read(f"/proc/{pid}/cmdline").decode(errors="replace").split("\0")
    return words if os.path.basename(words[0]) == PROVER and "--crate-name" in words else None


def look(pid: int, parent: int, seen: dict[tuple[int, bytes], Process]) -> None:
    """Notes what a process took so far, if it is a prover of a crate. What a prover's own jobs took counts for it."""
    words = words_of(pid)
    if not words or words_of(parent):
        return
    stat = read(f"/proc/{pid}/stat").rpartition(b")")[2].split()
    if not stat:
        return
    name = words[words.index("--crate-name") + 1]
    # user and system time, of the process and of those that it has waited for
    seconds = sum(int(ticks) for ticks in stat[11:15]) / TICKS
    began = stat[19]
    before = seen.get((pid, began))
    kind = before.kind if before else kind_of(pid, words)
    megabytes = max(megabytes_of(pid), before.megabytes if before else 0)
    seen[(pid, began)] = Process(name, kind, seconds, megabytes)


def watch(command: Sequence[str], every: float) -> tuple[int, Iterable[Process]]:
    """Runs a command, and gives its status and what each prover below it took."""
    seen: dict[tuple[int, bytes], Process] = {}
    child = subprocess.Popen(command, stdout=sys.stderr)
    while child.poll() is None:
        of = parents()
        for pid in below(child.pid, of):
            look(pid, of.get(pid, 0), seen)
        time.sleep(every)
    return child.returncode, seen.values()


def top_folder() -> str:
    """The folder at or above this one that has crates.txt, or this one."""
    folder = os.getcwd()
    while not os.path.exists(os.path.join(folder, "crates.txt")):
        above = os.path.dirname(folder)
        if above == folder:
            return os.getcwd()
        folder = above
    return folder


def names_in_order(top: str) -> list[str]:
    """The crates of crates.txt, lowest first."""
    try:
        with open(os.path.join(top, "crates.txt"), encoding="utf-8") as file:
            lines = [line.split("#")[0].strip() for line in file]
    except OSError:
        return []
    return [line.split(":")[0].split()[0] for line in lines if line]


def lines_of(top: str, name: str) -> int:
    """How many lines of code a crate has."""
    lines = 0
    for path in glob.glob(os.path.join(top, "crates", name, "src", "**", "*.rt"), recursive=True):
        with open(path, encoding="utf-8") as file:
            lines += sum(1 for _ in file)
    return lines


def row(name: str, crate: Crate, lines: int) -> str:
    """A row of the table."""
    figures = [f"{crate.seconds[kind]:.0f}" for kind in KINDS]
    rate = f"{sum(crate.seconds.values()) * 100 / lines:.0f}" if lines else ""
    return f"| {name} | {' | '.join(figures)} | {crate.runs['edits']} | {crate.megabytes} | {lines} | {rate} |"


def table(crates: Mapping[str, Crate], wall: float) -> None:
    """The table of what each crate took."""
    top = top_folder()
    order = names_in_order(top)
    place = {name: at for at, name in enumerate(order)}
    print("| crate | check, s | tests, s | compiled, s | edits, s | runs for edits | MB at most | lines of code "
          "| s for 100 lines |")
    print("|---|---|---|---|---|---|---|---|---|")
    total = Crate()
    all_lines = 0
    for name in sorted(crates, key=lambda name: (place.get(name, len(order)), name)):
        crate = crates[name]
        lines = lines_of(top, name)
        print(row(name, crate, lines))
        for kind in KINDS:
            total.seconds[kind] += crate.seconds[kind]
            total.runs[kind] += crate.runs[kind]
        total.megabytes = max(total.megabytes, crate.megabytes)
        all_lines += lines
    print(row("all", total, all_lines))
    whole = sum(total.seconds.values()) / 60
    print(f"\n{whole:.0f} minutes of processor time in {wall / 60:.0f} minutes, on {os.cpu_count()} processors.")


def gate() -> list[str]:
    """The gate from nothing: a kit whose `rt ci` keeps what it passed has a word against that."""
    told = subprocess.run(["rt", "help"], capture_output=True, text=True, check=False)
    return ["rt", "ci", "--anew"] if "--anew" in told.stdout + told.stderr else ["rt", "ci"]


def main() -> int:
    """Watches a command, prints the table, and answers the command's status."""
    parser = argparse.ArgumentParser(description="What the gate costs.")
    parser.add_argument("--every", type=float, default=0.2, help="seconds between two looks")
    parser.add_argument("command", nargs="*", help="what to run, `rt ci` from nothing if nothing is given")
    words = parser.parse_args()
    began = time.monotonic()
    status, seen = watch(words.command or gate(), words.every)
    crates: dict[str, Crate] = {}
    for process in seen:
        crates.setdefault(process.crate, Crate()).add(process)
    table(crates, time.monotonic() - began)
    return status


if __name__ == "__main__":
    sys.exit(main())
