"""Tests of the runner itself: a program that never replies, a skip that isn't listed and a list that names no test
fail."""
from __future__ import annotations

import fnmatch
import os
import subprocess
import sys
import tempfile
from collections.abc import Callable, Iterator

import machine
import run
import support

# Tests of each kind: a case, a node, a server, and a run over hosts.
SOME = ("one_answered", "nodes_counted", "servers_read_once", "hosts_requests", "place_is_asked")


def sleeping_program(_: str) -> str | None:
    """Over a program that never replies each test fails: three hang, and no other begins."""
    with tempfile.TemporaryDirectory() as place:
        support.write(place, "asleep", "#!/bin/sh\nexec sleep 600\n")
        os.chmod(f"{place}/asleep", 0o755)
        words = [sys.executable, "-B", str(run.HERE / "run.py"), "--program", f"{place}/asleep", *SOME]
        env = dict(os.environ, TOPK_TEST_SECONDS="1")
        done = subprocess.run(words, env=env, stdout=subprocess.PIPE, timeout=machine.SECONDS, check=False)
    last = done.stdout.splitlines()[-1]
    wanted = b"0 passed, %d failed" % len(SOME)
    if (done.returncode, last) != (1, wanted):
        return f"ended with {done.returncode} and {last!r}"
    return None if b": hung: " in done.stdout else f"said {support.shown(done.stdout)}"


def skips_are_listed(program: str) -> str | None:
    """A skip that skips.txt has is one, any other fails, and so does a test that begins too late."""
    def lacks_nginx(_: str) -> str | None:
        raise machine.Skipped("there is no nginx")

    runner, late = run.Runner(program, 60), run.Runner(program, -1)
    try:
        runner.wrong_with("peers_behind_nginx", lacks_nginx)
        return "a listed skip isn't one"
    except machine.Skipped:
        pass
    if runner.wrong_with("one_answered", lacks_nginx) is None:
        return "a skip that isn't listed passes"
    return None if late.wrong_with("one_answered", lambda _: None) else "a test that begins too late passes"


def skips_name_tests(_: str) -> str | None:
    """The patterns of skips.txt that fit no test's name."""
    names = [name for name, _test in run.tests()]
    stale = [it for patterns in run.skips().values() for it in patterns if not fnmatch.filter(names, it)]
    return f"skips.txt names {' '.join(stale)}" if stale else None


def first_difference(_: str) -> str | None:
    """A failure says the first line that differs, with its number."""
    rows = {(b"a\nb\n", b"a\nc\n"): "line 2 is b'b' in place of b'c'", (b"a\n", b"a\n"): None,
            (b"a", b"a\nb"): "ends with line 1; b'b' is wanted then",
            (b"a\nb", b"a"): "goes on behind line 1 with b'b'"}
    found = {texts: support.first_difference(*texts) for texts in rows}
    return next((f"said {said!r} of {texts}" for texts, said in found.items() if said != rows[texts]), None)


def tests() -> Iterator[tuple[str, Callable[[str], str | None]]]:
    """Each test with its name."""
    for test in (sleeping_program, skips_are_listed, skips_name_tests, first_difference):
        yield f"runner_{test.__name__}", test
