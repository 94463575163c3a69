"""Tests of `node` and `serve` with programs that others wrote: curl, nginx as a proxy and as a source, Python's
http.server as a source, ab or wrk."""
from __future__ import annotations

import contextlib
import pathlib
import re
import shutil
import socket
import subprocess
import sys
import tempfile
from collections.abc import Callable, Iterator

import servers
from machine import SECONDS, Skipped, free_port, over_network, path_of, peer
from support import (HOTELS, REPOSITORY, differs, first_difference, hotel_lists, node, received, request, run_at,
                     server, wait_for, worked_out, write)

EXAMPLE = REPOSITORY / "examples" / "nginx.conf"
QUERY = "top 2 by min(price,rating,centre) using nra"
# One nginx, in the foreground, that writes nowhere but to its folder: what goes before its settings, and into `http`.
ALONE = "daemon off; master_process off; pid {place}/pid; error_log {place}/log;\n"
FOLDERS = " ".join(["access_log off;", *(f"{it}_temp_path {{place}};" for it in (
    "client_body", "proxy", "fastcgi", "uwsgi", "scgi"))])


@contextlib.contextmanager
def nginx(settings: str) -> Iterator[int]:
    """An nginx with these settings, in which `PORT` is its port: the port."""
    program = shutil.which("nginx") or shutil.which("nginx", path="/usr/sbin:/usr/local/sbin")
    if program is None:
        raise Skipped("there is no nginx")
    with free_port() as port, tempfile.TemporaryDirectory() as place:
        text = (ALONE + settings.replace("http {", "http { " + FOLDERS)).replace("{place}", place)
        write(place, "nginx.conf", text.replace("PORT", str(port)))
        words = [program, "-p", place, "-e", f"{place}/log", "-c", f"{place}/nginx.conf"]
        tried = peer([*words, "-t"])
        if tried.returncode != 0:
            raise AssertionError(f"nginx can't run here: {tried.stderr[-200:]!r}")
        with subprocess.Popen(words, stderr=subprocess.DEVNULL) as process:
            try:
                wait_for(port, process)
                yield port
            finally:
                process.kill()


def over_http(server: str) -> str:
    """The settings of an nginx with one server."""
    return f"events {{}} http {{ server {{ listen 127.0.0.1:PORT; {server} }} }}"


def from_example(first: int, second: int | None = None, certificates: str | None = None) -> str:
    """examples/nginx.conf before servers at these ports, or before one alone, with the certificate of a folder, or
    without TLS."""
    text = EXAMPLE.read_text(encoding="utf-8")
    if certificates is None:
        text = re.sub(r"^ *ssl_.*\n", "", text.replace("443 ssl;", "443;"), flags=re.MULTILINE)
    places = {"listen 443": "listen 127.0.0.1:PORT", "127.0.0.1:8000": f"127.0.0.1:{first}",
              "127.0.0.1:8001": f"127.0.0.1:{second or first}", "/etc/ssl": certificates or ""}
    for there, here in places.items():
        text = text.replace(there, here)
    return text


def said(port: int, request: bytes) -> bytes:
    """What nginx replies to a request. It takes a client that has closed its sending end for one that has left."""
    with socket.create_connection(("127.0.0.1", port), SECONDS) as link:
        link.sendall(request.replace(b"\r\n\r\n", b"\r\nConnection: close\r\n\r\n"))
        return received(link)


def curl(*words: str) -> tuple[int, bytes]:
    """How curl ends with these words, and what it writes."""
    done = peer([path_of("curl"), "-q", "--noproxy", "*", "-sS", *words])
    return done.returncode, done.stdout


def curl_of_node(program: str) -> str | None:
    """What curl is told by a node: over HTTP/1.1 and 1.0 the same, and other methods than GET are refused, HEAD without
    a body."""
    size, counted = "/lists/price/size", (0, b'{"count":24}')
    status = ("-o", "/dev/null", "-w", "%{http_code} %{size_download}")
    rows: list[tuple[tuple[str, ...], str, tuple[int, bytes]]] = [
            ((), size, counted), (("--http1.0",), size, counted), (("-H", "Connection: close"), size, counted),
            ((), "/lists/price/page?from=0&count=2", (0, b'{"rows":[[123,865000],[112,852500]]}')),
            ((), "/lists/price/grade?object=123", (0, b'{"grade":865000}')), (("-f",), "/lists/rating/size", (22, b"")),
            (("-f", "-d", "x=1"), size, (22, b"")), (("-f", "-X", "DELETE"), size, (22, b"")),
            (("-I", *status), size, (0, b"405 0"))]
    with node(program, "price") as (port, _):
        for words, target, wanted in rows:
            given = curl(*words, f"http://127.0.0.1:{port}{target}")
            if given != wanted:
                return f"{' '.join(words)} {target}: {given} in place of {wanted}"
    return None


def curl_of_server(program: str) -> str | None:
    """What curl is told by a server is what becomes of the line, over HTTP/1.1 and 1.0; other methods than GET are
    refused."""
    asked = ("-G", "--data-urlencode", f"q={servers.LINES[0]}")
    wanted = (0, servers.body(servers.LINES[0]))
    status = ("-o", "/dev/null", "-w", "%{http_code}")
    rows = [(asked, wanted), (("--http1.0", *asked), wanted), (("-f", *asked[1:]), (22, b"")),
            ((*status, "-I", *asked), (0, b"405")), (status, (0, b"400"))]
    with server(program) as (port, _):
        for words, wanted in rows:
            given = curl(*words, f"http://127.0.0.1:{port}/top")
            if given != wanted:
                return f"{' '.join(words)}: {given} in place of {wanted}"
    return None


def behind_nginx(program: str) -> str | None:
    """Behind the nginx of examples/nginx.conf each line's reply is the server's, also beside many clients that send
    nothing; nothing else gets there."""
    with server(program) as (port, _), nginx(from_example(port)) as front, contextlib.ExitStack() as silent:
        for _ in range(100):
            silent.enter_context(socket.create_connection(("127.0.0.1", front), SECONDS))
        for line in servers.LINES:
            given = said(front, request(line))
            if not given.startswith(b"HTTP/1.1 200 OK\r\n") or b"\r\nX-Content-Type-Options: nosniff\r\n" not in given:
                return f"{line}: replied {given[:300]!r}"
            wrong = first_difference(given.partition(b"\r\n\r\n")[2], servers.body(line))
            if wrong is not None:
                return f"{line}: {wrong}"
        head = b" HTTP/1.1\r\nHost: h\r\nContent-Length: 0\r\n\r\n"
        for sent, status in ((b"GET /other" + head, b"404"), (b"POST /top?q=" + head, b"403")):
            given = said(front, sent)
            if given.split(b" ")[1:2] != [status]:
                return f"{sent[:20]!r}: replied {given[:300]!r}"
    return None


def many_requests(program: str) -> str | None:
    """10,000 requests of eight clients through nginx: none fails, by what ab, or wrk, counts."""
    with server(program) as (port, _), nginx(from_example(port)) as front:
        target = f"http://127.0.0.1:{front}/top?q=top%201%20by%20price%20using%20ta"
        if shutil.which("ab"):
            done = peer([path_of("ab"), "-q", "-c", "8", "-n", "10000", "-s", "200", target]).stdout
            wrong = re.search(rb"Complete requests: +10000\nFailed requests: +0\n", done) is None or b"Non-2xx" in done
        else:
            done = peer([path_of("ab", "wrk"), "-t", "1", "-c", "8", "-d", "3s", "--timeout", "200s", target]).stdout
            wrong = b" requests in " not in done or b"Socket errors" in done or b"Non-2xx" in done
    return f"counted {done[-600:]!r}" if wrong else None


def run_over(program: str, port: int, *settings: str) -> str | None:
    """What is wrong with what `run` writes over the hotels' lists that are served at a port, or None."""
    done = run_at(program, dict.fromkeys(HOTELS, port), f"{QUERY}\n".encode(), *settings)
    return differs(done, 0, worked_out([QUERY], hotel_lists()))


@contextlib.contextmanager
def static_lists() -> Iterator[str]:
    """A folder in which the hotels' lists are files, each list in one page."""
    with tempfile.TemporaryDirectory() as place:
        for name, rows in hotel_lists().items():
            folder = pathlib.Path(place) / "lists" / name
            folder.mkdir(parents=True)
            write(folder, "size", f'{{"count":{len(rows)}}}')
            write(folder, "page", f'{{"rows":{[list(row) for row in rows]}}}')
        pathlib.Path(place).chmod(0o755)
        yield place


def nginx_as_proxy(program: str) -> str | None:
    """A list that nginx passes on from a node is a source."""
    with contextlib.ExitStack() as held:
        ports = {name: held.enter_context(node(program, name))[0] for name in HOTELS}
        passed = "location /lists/{}/ {{ proxy_pass http://127.0.0.1:{}; }}\n".format
        places = "".join(passed(name, port) for name, port in ports.items())
        front = held.enter_context(nginx(over_http(places)))
        return run_over(program, front) or run_over(program, front, "--page", "3", "--workers", "1")


def nginx_as_source(program: str) -> str | None:
    """Static files behind nginx are a source."""
    with static_lists() as place, nginx(over_http(f"root {place};")) as port:
        return run_over(program, port)


def python_as_source(program: str) -> str | None:
    """Static files behind Python's http.server are a source."""
    with static_lists() as place, free_port() as port:
        words = [sys.executable, "-m", "http.server", str(port), "--bind", "127.0.0.1"]
        with subprocess.Popen(words, cwd=place, stdout=subprocess.DEVNULL, stderr=subprocess.DEVNULL) as process:
            try:
                wait_for(port, process)
                return run_over(program, port)
            finally:
                process.kill()


def tests() -> Iterator[tuple[str, Callable[[str], str | None]]]:
    """Each test with its name."""
    for test in (curl_of_node, curl_of_server, behind_nginx, many_requests, nginx_as_proxy, nginx_as_source,
                 python_as_source):
        yield f"peers_{test.__name__}", over_network(test)
