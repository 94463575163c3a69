"""What the machine has: a test is skipped where a peer isn't installed, and fails, by name, where anything else
lacks."""
from __future__ import annotations

import contextlib
import functools
import os
import resource
import shutil
import signal
import socket
import subprocess
import tempfile
import threading
from collections.abc import Callable, Iterator, Sequence
from typing import Any

# The most that one program of a test may take. What is right takes a few seconds at most, but for what waits half a
# minute for its peer, so a machine that is many times slower has time enough.
SECONDS = float(os.environ.get("TOPK_TEST_SECONDS", 120))
# The most files that a test opens at the same time.
FILES = 12_000
# Settings of whoever runs the tests that would change what a program does which they run.
SETTINGS = ("PG", "LC_", "LANG", "MAKE", "MFLAGS", "GNUMAKE", "NODE_", "CURL_", "NGINX", "http_", "https_", "HTTP_",
            "HTTPS_", "all_", "ALL_")


class Skipped(Exception):
    """Which peer isn't installed, as `there is no nginx`. It has to stand in skips.txt beside the test's name."""


def settle() -> None:
    """Takes away settings of whoever runs the tests, and lets this process open as many files as it may and needs."""
    for name in [it for it in os.environ if it.startswith(SETTINGS)]:
        del os.environ[name]
    os.environ.update(LC_ALL="C", PYTHONDONTWRITEBYTECODE="1")
    now, most = resource.getrlimit(resource.RLIMIT_NOFILE)
    wanted = FILES if most == resource.RLIM_INFINITY else min(FILES, most)
    if now != resource.RLIM_INFINITY and now < wanted:
        resource.setrlimit(resource.RLIMIT_NOFILE, (wanted, most))


def peer(words: Sequence[Any], seconds: float = SECONDS, **more: Any) -> subprocess.CompletedProcess[Any]:
    """A program of the machine that has ended. Where it isn't done in time, all that it started is ended, and the
    test fails."""
    how = {"stdin": subprocess.DEVNULL, "stdout": subprocess.PIPE, "stderr": subprocess.PIPE, **more}
    with subprocess.Popen(words, start_new_session=True, **how) as process:
        try:
            out, said = process.communicate(timeout=seconds)
        finally:
            if process.poll() is None:
                with contextlib.suppress(ProcessLookupError, PermissionError):
                    os.killpg(process.pid, signal.SIGKILL)
                process.kill()
    return subprocess.CompletedProcess(words, process.returncode, out, said)


def path_of(*names: str) -> str:
    """The first of these programs that is installed."""
    path = next(filter(None, map(shutil.which, names)), None)
    if path is None:
        raise Skipped(f"there is no {' or '.join(names)}")
    return path


def needs(*lacks: str) -> None:
    """Fails the test where the machine lacks something, which is said by the first text that isn't empty."""
    for lack in filter(None, lacks):
        raise AssertionError(lack)


@contextlib.contextmanager
def scratch() -> Iterator[str]:
    """A folder for a program of the machine, which may still write in it at its end."""
    place = tempfile.mkdtemp()
    try:
        yield place
    finally:
        shutil.rmtree(place, ignore_errors=True)


@functools.lru_cache(None)
def no_loopback() -> str:
    """Why no connection of 127.0.0.1 comes about, or nothing."""
    try:
        with socket.create_server(("127.0.0.1", 0)) as server, \
                socket.create_connection(server.getsockname(), SECONDS) as link:
            accepted, _ = server.accept()
            with accepted:
                accepted.sendall(b"x")
                return "" if link.recv(1) == b"x" else "127.0.0.1 passes no byte on"
    except OSError as fault:
        return f"there is no network at 127.0.0.1: {fault.strerror or fault}"


@functools.lru_cache(None)
def no_threads(count: int) -> str:
    """Why no process may have so many threads, or nothing."""
    ended, begun = threading.Event(), []
    try:
        for _ in range(count):
            thread = threading.Thread(target=ended.wait, daemon=True)
            thread.start()
            begun.append(thread)
    except RuntimeError:
        return f"a process may have {len(begun)} threads here, not {count}"
    finally:
        ended.set()
        for thread in begun:
            thread.join()
    return ""


def no_files(count: int) -> str:
    """Why a process may not open so many files, or nothing."""
    most = resource.getrlimit(resource.RLIMIT_NOFILE)[0]
    enough = most == resource.RLIM_INFINITY or most >= count
    return "" if enough else f"a process may open {most} files here, not {count}"


def number_in(path: str, word: str = "") -> int | None:
    """The number behind a word in a file of the system, where there is one."""
    try:
        with open(path, encoding="ascii", errors="replace") as file:
            text = file.read().partition(word)[2].split() if word else file.read().split()
        return int(text[0])
    except (OSError, ValueError, IndexError):
        return None


def no_memory(megabytes: int) -> str:
    """Why programs may not use so much memory, or nothing."""
    free = number_in("/proc/meminfo", "MemAvailable:")
    rooms = [free and free // 1024]
    for most, used in (("/sys/fs/cgroup/memory.max", "/sys/fs/cgroup/memory.current"),
                       ("/sys/fs/cgroup/memory/memory.limit_in_bytes", "/sys/fs/cgroup/memory/memory.usage_in_bytes")):
        limit = number_in(most)
        rooms.append(limit and (limit - (number_in(used) or 0)) >> 20)
    of_process = resource.getrlimit(resource.RLIMIT_AS)[0]
    rooms.append(None if of_process == resource.RLIM_INFINITY else of_process >> 20)
    least = min((it for it in rooms if it is not None), default=megabytes)
    return f"{least} MB of memory are free here, not {megabytes}" if least < megabytes else ""


def no_room(megabytes: int) -> str:
    """Why files may not take so much room, or nothing."""
    free = shutil.disk_usage(tempfile.gettempdir()).free >> 20
    return f"{free} MB of disk are free here, not {megabytes}" if free < megabytes else ""


@contextlib.contextmanager
def free_port() -> Iterator[int]:
    """A port at which nobody listens, and which nobody is given meanwhile: a socket is bound to it that never listens,
    beside which the program's own is."""
    with socket.socket() as held:
        held.setsockopt(socket.SOL_SOCKET, socket.SO_REUSEADDR, 1)
        held.bind(("0.0.0.0", 0))
        port = held.getsockname()[1]
        if not may_listen_beside(port):
            held.close()
        yield port


def may_listen_beside(port: int) -> bool:
    """Whether another socket may listen at a port to which one is bound."""
    with socket.socket() as other:
        other.setsockopt(socket.SOL_SOCKET, socket.SO_REUSEADDR, 1)
        try:
            other.bind(("0.0.0.0", port))
            other.listen()
        except OSError:
            return False
    return True


def over_network(test: Callable[[str], str | None]) -> Callable[[str], str | None]:
    """A test that fails at once where the machine has no loopback network, or too few threads."""
    @functools.wraps(test)
    def tried(program: str) -> str | None:
        needs(no_loopback(), no_threads(100))
        return test(program)
    return tried
