#!/usr/bin/env python3
"""A list node over a table of PostgreSQL: columns of grades are lists that topk reads, without an export.

Each such column needs an index on (grade desc, object), and the objects one of their own. Needs psycopg2.
"""
from __future__ import annotations

import sys

import psycopg2

import bridge
from ranked_table import Database

BEGIN = "begin isolation level repeatable read read only"
# One row tells the kinds of the columns; then the first row whose numbers are none of a list.
WRONG = ("select {object}, {grade}, pg_typeof({object})::text, pg_typeof({grade})::text from {table} limit 1",
         """select {object}, {grade}, pg_typeof({object})::text, pg_typeof({grade})::text from {table}
            where {object} is null or {grade} is null or {object} <> trunc({object}) or {grade} <> trunc({grade})
            or {object} < 0 or {object} > 4294967295 or {grade} < 0 or {grade} > 1000000 limit 1""")
IS_KEYED = """select 1 from pg_index join pg_attribute on attrelid = indrelid and attnum = indkey[0]
    where indrelid = %s::regclass and attname = %s and indisunique and indnatts = 1 and indpred is null"""


def quoted(name: str) -> str:
    """A name in double quotes. Where numbers are given with a statement psycopg2 reads %% as %."""
    return '"' + name.replace('"', '""').replace("%", "%%") + '"'


def index(table: str, column: str) -> str:
    """The name of an index, which stands in its table's schema. PostgreSQL cuts off what is behind 63 bytes."""
    return quoted(f"{table.rpartition('.')[2]}_by_{column}")


def is_keyed(cursor: psycopg2.extensions.cursor, table: str, column: str) -> bool:
    """Whether there is an index in which a column alone is unique."""
    name = ".".join(map(quoted, table.split("."))).replace("%%", "%")
    cursor.execute(IS_KEYED, (name, column))
    return cursor.fetchone() is not None


def snapshot(cursor: psycopg2.extensions.cursor) -> str:
    """Which transactions have ended that a transaction sees: equal for two only where none that writes has ended
    between them.
    """
    cursor.execute("select txid_current_snapshot()::text", ())
    return cursor.fetchone()[0]


def main() -> str | None:
    """What the process ends with: nothing, or why it can't serve."""
    where = "how to connect, as 'dbname=city' or postgresql://..; for the rest as psql does"
    given = bridge.table_words(__doc__.splitlines()[0], where).parse_args()

    def connect() -> psycopg2.extensions.connection:
        connection = psycopg2.connect(given.database)
        connection.autocommit = True
        return connection

    return bridge.serve_table(given, Database(connect, BEGIN, "%s", quoted, WRONG, is_keyed, index, snapshot, connect))


if __name__ == "__main__":
    sys.exit(main())
