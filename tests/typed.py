"""Tests of what pages tell a user to type: the commands behind `$` write what stands below them, in a copy of the files
that they need with the program at ./topk; and the bundle and the certificate with which README begins are true."""
from __future__ import annotations

import contextlib
import functools
import os
import pathlib
import re
import shutil
import sys
import tempfile
from collections.abc import Callable, Iterator

from machine import free_port, over_network, path_of, peer
from support import PYTHON, REPOSITORY, first_difference, run

README = REPOSITORY / "README.md"
# The pages with such commands, and what these need.
PAGES = (README, PYTHON / "README.md", REPOSITORY / "crates" / "examples" / "README.md")
NEEDED = ("examples", "python", "crates/topk/data", "crates/examples/data")
# What the shell says between two commands, before the status of the first.
MARK = "typed"
# Waits until something listens at a port.
WAITS = "for _ in $(seq 200); do curl -s -o {place}/said http://127.0.0.1:{port}/ && break; sleep 0.1; done"


def blocks(page: pathlib.Path) -> list[str]:
    """The indented blocks of a page, without their indent."""
    found = re.findall(r"(?:^    .*\n)+", page.read_text(encoding="utf-8"), re.MULTILINE)
    return [re.sub(r"^    ", "", it, flags=re.MULTILINE) for it in found]


def commands(page: pathlib.Path) -> list[tuple[str, str]]:
    """The commands of a page, each with what is shown below it."""
    typed = (it for block in blocks(page) for it in re.split(r"^\$ ", block, flags=re.MULTILINE)[1:])
    return [(line, shown) for line, _, shown in (it.partition("\n") for it in typed)]


def script(typed: list[tuple[str, str]], place: str, ports: dict[str, int]) -> str:
    """The commands, one after another, with free ports and a folder in place of those of the page."""
    lines = []
    for line, _ in typed:
        for there, port in ports.items():
            line = line.replace(there, str(port))
        lines.append(line.replace("/tmp/", f"{place}/"))
        if line.endswith("&"):
            lines.append(WAITS.format(place=place, port=re.findall(r"--at (\d+)", line)[0]))
        lines.append(f'echo "{MARK} $?"')
    return "\n".join(lines)


def copied(program: str, place: str) -> None:
    """Copies what the commands need, with the program beside it, and the Python that runs the tests on the path."""
    built = shutil.ignore_patterns("*.so", "__pycache__", "build", "*.egg-info")
    for name in NEEDED:
        shutil.copytree(REPOSITORY / name, os.path.join(place, name), ignore=built)
    os.symlink(program, os.path.join(place, "topk"))
    os.mkdir(os.path.join(place, "bin"))
    os.symlink(sys.executable, os.path.join(place, "bin", "python3"))


def commands_of(program: str, page: pathlib.Path) -> str | None:
    """The first command of a page that doesn't write what is shown below it, or that fails, or None."""
    shell, typed = path_of("bash"), commands(page)
    path_of("curl")
    with tempfile.TemporaryDirectory() as place, contextlib.ExitStack() as held:
        copied(program, place)
        ports = {it: held.enter_context(free_port()) for it in ("8000", "8001")}
        env = dict(os.environ, PATH=f"{place}/bin:{os.environ.get('PATH', os.defpath)}", PYTHONPATH="python")
        done = peer([shell, "-c", script(typed, place, ports)], cwd=place, env=env, text=True)
    told = re.split(rf"^{MARK} (\d+)\n", done.stdout, flags=re.MULTILINE)
    for (line, shown), wrote, status in zip(typed, told[0::2], told[1::2]):
        if status != "0" or (shown and wrote != shown):
            wrong = first_difference(wrote.encode(), shown.encode())
            return f"{line!r} ended with {status}: {wrong}; {done.stderr[-300:]}"
    return None if len(told) == 2 * len(typed) + 1 else f"wrote {done.stdout[-300:]!r} and {done.stderr[-300:]!r}"


def readme_begins(program: str) -> str | None:
    """The bundle with which README begins is examples/hotels.bundle, and the certificate is what the program writes of
    it."""
    bundle, certificate = blocks(README)[:2]
    wrong = first_difference(bundle.encode(), (REPOSITORY / "examples" / "hotels.bundle").read_bytes())
    noted = re.sub(r" {3,}.*$", "", certificate, flags=re.MULTILINE)
    return wrong or first_difference(run(program, ["one"], bundle.encode()).stdout, noted.encode())


def tests() -> Iterator[tuple[str, Callable[[str], str | None]]]:
    """Each test with its name."""
    yield "typed_readme_begins", readme_begins
    for page in PAGES:
        name = str(page.relative_to(REPOSITORY).parent).replace("/", "_").replace(".", "readme")
        yield f"typed_{name}", over_network(functools.partial(commands_of, page=page))
