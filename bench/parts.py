"""What benches share: rows of tables, options of several numbers, and ports."""
from __future__ import annotations

import contextlib
import socket
import time


def row(*cells: object) -> None:
    """Prints a row of a table."""
    print("| " + " | ".join(map(str, cells)) + " |", flush=True)


def numbers(text: str) -> list[int]:
    """Numbers with commas between them."""
    return [int(word) for word in text.split(",")]


def free_port() -> int:
    """A port that is free now."""
    with socket.socket() as port:
        port.bind(("127.0.0.1", 0))
        return port.getsockname()[1]


def wait_for(port: int) -> None:
    """Waits until somebody listens at a port."""
    while True:
        with contextlib.suppress(OSError), socket.create_connection(("127.0.0.1", port)):
            return
        time.sleep(0.05)
