"""What long work is at, on a terminal."""
from __future__ import annotations

import sys
import time
from types import TracebackType

__all__ = ["Progress"]

_SOON = 0.3


class Progress:
    """Says what is done, in one line of standard error that is wiped at the end: only where that is a terminal, and
    only after a moment.
    """

    def __init__(self) -> None:
        self._shows = sys.stderr.isatty()
        self._began = time.monotonic()
        self._length = 0

    def __call__(self, what: str) -> None:
        """Says what is done now."""
        if self._shows and time.monotonic() - self._began > _SOON:
            line = f"{what} .."[:79]
            sys.stderr.write("\r" + line.ljust(self._length))
            sys.stderr.flush()
            self._length = len(line)

    def __enter__(self) -> Progress:
        return self

    def __exit__(
        self, kind: type[BaseException] | None, fault: BaseException | None, trace: TracebackType | None
    ) -> None:
        if self._length:
            sys.stderr.write("\r" + " " * self._length + "\r")
            sys.stderr.flush()
