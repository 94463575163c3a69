#!/usr/bin/env python3
"""A list node over sorted sets of Redis: each is a ranked list as it stands, which topk reads without an export.

Members are objects, scores are grades. Needs the client library, python3-redis.
"""
from __future__ import annotations

import re
import sys
from typing import Any

# The client library has this file's name, so the folder of this file is looked in last.
sys.path.append(sys.path.pop(0))
import redis  # noqa: E402

import bridge  # noqa: E402
from ranked_table import CONNECTIONS, MAX_GRADE, MAX_NUMBER, MAX_VERSION, stated, whole  # noqa: E402

STEP = 10_000
NUMBER = re.compile(rb"0|[1-9][0-9]{0,9}")


class SortedSet:
    """A sorted set as a list. Each call sees one state of it: what it reads is read in one transaction."""

    def __init__(self, client: Any, key: str, version: int, version_key: str | None) -> None:
        self._client, self._key, self._version, self._version_key = client, key, version, version_key

    def check(self) -> None:
        """Raises ValueError with the first row that has no object or no grade. Reads the set once."""
        if not self._client.exists(self._key):
            raise ValueError(f"there is no sorted set {self._key!r}")
        first, rows = 0, [(b"", 0.0)]
        while rows:
            rows = self._client.zrevrange(self._key, first, first + STEP - 1, withscores=True)
            for place, (member, score) in enumerate(rows, first):
                checked(self._key, place, member, score)
            first += STEP

    def size(self) -> dict[str, Any]:
        """ZCARD."""
        count, version = self._read("zcard", self._key)
        return stated({"count": count}, version)

    def page(self, first: int, count: int) -> dict[str, Any]:
        """ZREVRANGE: the rows from a place on. Of equal scores Redis has the member first that is last by its bytes."""
        rows, version = self._read("zrevrange", self._key, first, first + count - 1, withscores=True)
        return stated({"rows": [(number(member), whole(score, MAX_GRADE)) for member, score in rows]}, version)

    def grade(self, item: int) -> dict[str, Any]:
        """ZSCORE: the grade of an object, or None."""
        score, version = self._read("zscore", self._key, item)
        return stated({"grade": None if score is None else whole(score, MAX_GRADE)}, version)

    def _read(self, command: str, *words: Any, **more: Any) -> tuple[Any, int]:
        """What a command gives, and the version, both of one state."""
        with self._client.pipeline(transaction=True) as together:
            getattr(together, command)(*words, **more)
            if self._version_key is None:
                return together.execute()[0], self._version
            found, version = together.get(self._version_key).execute()
        return found, whole(int(version or -1), MAX_VERSION)


def number(member: bytes) -> int:
    """The object that a member is: just as the number is written, since ZSCORE looks for these bytes."""
    if not NUMBER.fullmatch(member) or int(member) > MAX_NUMBER:
        raise ValueError(f"the member {member!r} is no whole number from 0 to {MAX_NUMBER}")
    return int(member)


def checked(key: str, place: int, member: bytes, score: float) -> None:
    """Raises ValueError where a row is none of a list, with the way out."""
    where = f"row {place} of {key}, the member {member.decode(errors='replace')!r} with the score {score!r}"
    try:
        number(member)
    except ValueError:
        raise ValueError(f"{where}: each member has to be a whole number from 0 to {MAX_NUMBER}, without zeros before "
                         "it; number the objects, and keep their names in a hash beside the set") from None
    try:
        whole(score, MAX_GRADE)
    except ValueError:
        raise ValueError(f"{where}: each score has to be a whole number from 0 to {MAX_GRADE}; scale and round the "
                         "scores into another set, as ZADD does where the objects are added") from None


def main() -> str | None:
    """What the process ends with: nothing, or why it can't serve."""
    words, version = bridge.words(
        __doc__.splitlines()[0], "where it is, as redis://127.0.0.1:6379/0 or unix:///run/redis.sock")
    version.add_argument("--version-key", metavar="KEY",
                         help="the key of a string that has the version, read in each reply's transaction")
    given = words.parse_args()
    if not hasattr(redis, "Redis"):
        return "there is no client library for Redis: install python3-redis"
    try:
        pool = redis.BlockingConnectionPool.from_url(
            given.database, max_connections=CONNECTIONS, timeout=bridge.SECONDS, socket_timeout=bridge.SECONDS)
    except ValueError as fault:
        return f"{given.database}: {fault}"
    client = redis.Redis(connection_pool=pool)
    lists = {name: SortedSet(client, key, given.version or 0, given.version_key) for name, key in given.grade}
    return bridge.serve(given, lists)


if __name__ == "__main__":
    sys.exit(main())
