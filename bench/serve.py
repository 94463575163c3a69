#!/usr/bin/env python3
"""How `topk serve` answers 1, 8, 64 and 512 clients at once, by ab, beside nginx with a static file of the same size,
one request a connection: requests a second, the milliseconds within which 99 of 100 are answered, and how many fail.

Use, from anywhere, with the program at ./topk (`make topk`) or the place given: bench/serve.py [PROGRAM] [--requests
20000] [--clients 1 8 64 512] [--workers 1 4]

It needs ab (apache2-utils), and nginx for the comparison. All runs on this machine.
"""
from __future__ import annotations

import argparse
import contextlib
import pathlib
import re
import shutil
import subprocess
import tempfile
import urllib.parse
from collections.abc import Iterator
from typing import NamedTuple

from parts import free_port, wait_for

HERE = pathlib.Path(__file__).resolve().parent
HOTELS = HERE.parent / "crates" / "topk" / "data"


class Rate(NamedTuple):
    """What ab counts: the requests that were answered, those of a second, the milliseconds within which 99 of 100 were
    answered, from the connection on, the bytes of a reply, and how many requests failed."""
    answered: int
    a_second: float
    late: float
    size: int
    failed: int


def by_ab(requests: int, clients: int, address: str, seconds: float = 20) -> Rate:
    """What ab counts of so many requests of so many clients at once, or of those of so many seconds."""
    with tempfile.TemporaryDirectory() as place:
        table = pathlib.Path(place, "table")
        count = ["-t", f"{seconds:.0f}", "-n", str(max(requests, clients)), "-c", str(clients)]
        words = ["ab", "-q", "-r", "-s", "200", *count, "-e", str(table), address]
        said = subprocess.run(words, capture_output=True, text=True, check=True).stdout
        late = float(re.findall(r"^99,(.*)$", table.read_text(encoding="ascii"), re.MULTILINE)[0])
    assert "Non-2xx" not in said, said
    whole, a_second, size, failed = (re.findall(rf"^{it}: +([0-9.]+)", said, re.MULTILINE)[0] for it in (
        "Complete requests", "Requests per second", "Document Length", "Failed requests"))
    return Rate(int(whole), float(a_second), late, int(size), int(failed))


@contextlib.contextmanager
def serving(program: str, place: pathlib.Path, workers: int) -> Iterator[tuple[int, subprocess.Popen[bytes]]]:
    """A server over the catalog of a place: its port, and the process."""
    port = free_port()
    words = [program, "serve", "catalog.csv", "--at", str(port), "--workers", str(workers)]
    process = subprocess.Popen(words, cwd=place, stdout=subprocess.DEVNULL)
    try:
        wait_for(port)
        yield port, process
    finally:
        process.kill()
        process.wait()


def memory(process: subprocess.Popen[bytes]) -> float:
    """The megabytes that a process holds."""
    return int(re.findall(r"VmRSS:\s+(\d+)", pathlib.Path(f"/proc/{process.pid}/status").read_text())[0]) / 1024


@contextlib.contextmanager
def nginx(size: int) -> Iterator[int]:
    """An nginx with a file of a size: its port."""
    port = free_port()
    with tempfile.TemporaryDirectory() as place:
        folder = pathlib.Path(place)
        (folder / "file").write_bytes(b"x" * size)
        folder.chmod(0o755)
        (folder / "nginx.conf").write_text(
            f"daemon off; pid {folder}/pid; error_log {folder}/errors; worker_processes 4;\n"
            "events { worker_connections 4096; }\n"
            f"http {{ access_log off; keepalive_timeout 0; server {{ listen 127.0.0.1:{port}; root {folder}; }} }}\n",
            encoding="utf-8")
        process = subprocess.Popen(["nginx", "-c", str(folder / "nginx.conf")], stderr=subprocess.DEVNULL)
        try:
            wait_for(port)
            yield port
        finally:
            process.terminate()
            process.wait()


def made_lists(program: str, place: pathlib.Path) -> list[str]:
    """Writes four lists of 20,000 rows and their catalog: their names."""
    words = [program, "make", "--start", "7", "--count", "20000", "--lists", "4"]
    made = subprocess.run(words, capture_output=True, text=True, check=True).stdout
    lists = dict(section.split("\n", 1) for section in made.split("list ")[1:])
    for name, text in lists.items():
        (place / f"{name}.csv").write_text(text)
    places = "".join(f"{name},{name}.csv,yes\n" for name in lists)
    (place / "catalog.csv").write_text(f"name,place,random\n{places}")
    return list(lists)


def rows(what: str, address: str, given: argparse.Namespace, requests: int,
         process: subprocess.Popen[bytes] | None = None) -> int:
    """Prints a row for each number of clients, with the memory of a process: the bytes of a reply."""
    size = by_ab(min(100, requests), 1, address).size
    for clients in given.clients:
        rate = by_ab(requests, clients, address)
        held = f"{memory(process):.1f}" if process else ""
        print(f"| {what} | {size} | {clients} | {rate.a_second:.0f} | {rate.late:.1f} | {rate.failed} | {held} |",
              flush=True)
    return size


def main() -> None:
    """Prints a row for each query, server and number of clients."""
    parser = argparse.ArgumentParser(description=__doc__, formatter_class=argparse.RawDescriptionHelpFormatter)
    parser.add_argument("program", nargs="?", type=pathlib.Path, default="topk")
    parser.add_argument("--requests", type=int, default=20_000, help="of the short line; a tenth of the long one")
    parser.add_argument("--clients", type=int, nargs="+", default=[1, 8, 64, 512])
    parser.add_argument("--workers", type=int, nargs="+", default=[1, 4])
    given = parser.parse_args()
    program = str(given.program.resolve())
    print("| answered by | bytes | clients | requests a second | 99 of 100 within, ms | failed | memory, MB |")
    print("|---|---|---|---|---|---|---|")
    with tempfile.TemporaryDirectory() as made_in:
        place = pathlib.Path(made_in)
        lists = made_lists(program, place)
        for at, line, requests in ((HOTELS, "top 2 by sum(price,rating,centre) using ta", given.requests),
                                   (place, f"top 10 by sum({','.join(lists)}) using ta", given.requests // 10)):
            size, target = 0, f"/top?q={urllib.parse.quote(line)}"
            for workers in given.workers:
                with serving(program, at, workers) as (port, process):
                    address = f"http://127.0.0.1:{port}{target}"
                    size = rows(f"{workers} workers", address, given, max(1, requests), process)
            if shutil.which("nginx"):
                with nginx(size) as port:
                    rows("nginx, a file", f"http://127.0.0.1:{port}/file", given, max(1, requests))


if __name__ == "__main__":
    main()
