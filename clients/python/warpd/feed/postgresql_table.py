"""A table of PostgreSQL as a stream: a row for each text, none twice.

Rows become visible in the order of commits, which is not that of their numbers. Each row has the number of its
transaction, and a position passes only rows whose transaction is older than every open one: no row can still appear
before it. Rows behind that are read again."""

from __future__ import annotations

from collections.abc import Sequence
from contextlib import suppress
from urllib.parse import unquote, urlsplit, urlunsplit

import psycopg2
from psycopg2 import errors, extensions, sql
from psycopg2.extras import execute_values

from .streams import START, Lost, Piece, Stream, Unreachable, Unusable

PIECE = 1_000

MAKE = """CREATE TABLE IF NOT EXISTS {table} (
    transaction xid8 NOT NULL DEFAULT pg_current_xact_id(), number bigint GENERATED ALWAYS AS IDENTITY,
    entry uuid NOT NULL DEFAULT gen_random_uuid(), line text NOT NULL UNIQUE, PRIMARY KEY (transaction, number))"""
APPEND = "INSERT INTO {table} (line) VALUES %s ON CONFLICT (line) DO NOTHING"
# Where an older copy of the table was put back, both numbers may come again: the entry does not.
IS_THERE = """SELECT FROM {table} WHERE (transaction, number, entry) = (%s::xid8, %s::bigint, %s::uuid)
    AND transaction < pg_snapshot_xmin(pg_current_snapshot())"""
SETTLED = """SELECT transaction::text, number::text, entry::text, line FROM {table}
    WHERE (transaction, number) > (%s::xid8, %s::bigint) AND transaction < pg_snapshot_xmin(pg_current_snapshot())
    ORDER BY transaction, number LIMIT %s"""
OPEN = "SELECT line FROM {table} WHERE transaction >= pg_snapshot_xmin(pg_current_snapshot())"


class PostgresqlTable(Stream):
    """`postgresql://[USER[:PASSWORD]@]HOST[:PORT]/DATABASE/TABLE`. The table is made where there is none."""

    def __init__(self, url: str, suffix: str = "", timeout: float = 10.0):
        it = urlsplit(url)
        database, _, table = it.path.rpartition("/")
        self._target, self._timeout = urlunsplit(it._replace(path=database)), timeout
        self._table = sql.Identifier(unquote(table) + suffix)
        self._connection: extensions.connection | None = None

    def append(self, texts: Sequence[str]) -> None:
        # In one order everywhere, so that two feeds that append the same never wait for each other.
        rows = [(it.replace("\0", "\N{REPLACEMENT CHARACTER}"),) for it in sorted(set(texts))]
        with self._transaction() as cursor:
            execute_values(cursor, self._say(APPEND), rows, page_size=PIECE)

    def read_from(self, position: str) -> Piece:
        at = position.split(".") if position != START else ["0", "0"]
        with self._transaction() as cursor:
            # One snapshot for all questions.
            cursor.execute("SET TRANSACTION ISOLATION LEVEL REPEATABLE READ")
            if position != START:
                cursor.execute(self._say(IS_THERE), at)
                if not cursor.rowcount:
                    raise Lost(position)
            cursor.execute(self._say(SETTLED), (*at[:2], PIECE))
            rows = cursor.fetchall()
            texts, is_last = [row[-1] for row in rows], len(rows) < PIECE
            if is_last:
                cursor.execute(self._say(OPEN))
                texts += [line for line, in cursor.fetchall()]
        return Piece(texts, ".".join(rows[-1][:-1]) if rows else position, is_last)

    def close(self) -> None:
        if self._connection:
            with suppress(psycopg2.Error):
                self._connection.close()
        self._connection = None

    def _say(self, text: str) -> sql.Composed:
        return sql.SQL(text).format(table=self._table)

    def _transaction(self) -> _Transaction:
        return _Transaction(self)

    def _connect(self) -> extensions.connection:
        seconds = max(2, round(self._timeout))
        made = psycopg2.connect(self._target, connect_timeout=seconds, tcp_user_timeout=1_000 * seconds)
        with made, made.cursor() as cursor:
            # Of two that make one table at once, one fails; it is there then.
            with suppress(errors.UniqueViolation, errors.DuplicateTable):
                cursor.execute(self._say(MAKE))
        return made


class _Transaction:
    """A cursor of a transaction that is committed at its end; it says what PostgreSQL's faults mean for a feed."""

    def __init__(self, table: PostgresqlTable):
        self._of = table

    def __enter__(self) -> extensions.cursor:
        try:
            self._of._connection = self._of._connection or self._of._connect()
            return self._of._connection.cursor()
        except psycopg2.Error as fault:
            raise self._meaning(fault) from fault

    def __exit__(self, _kind, fault, _trace) -> None:
        try:
            if fault is None:
                return self._of._connection.commit()
            self._of._connection.rollback()
        except psycopg2.Error as later:
            fault = fault or later
        if isinstance(fault, psycopg2.Error):
            raise self._meaning(fault) from fault

    def _meaning(self, fault: psycopg2.Error) -> Exception:
        self._of.close()
        text = " ".join(str(fault).split())
        # A connection that cannot be made has no code of its own in psycopg2.
        refused = any(it in text for it in ("authentication failed", "does not exist", "no password supplied"))
        return Unusable(text) if refused or isinstance(fault, psycopg2.ProgrammingError) else Unreachable(text)
