"""Feeds a host, or a server, from a log engine, and the engine from it, so that several machines stay equal.

    python3 -m warpd feed --server HOST:PORT --stream redis://HOST:PORT/NAME [--state FILE]

Any host and any feed may be killed at any moment and come back equal: taking records is union, so at-least-once
delivery in any order is enough. Each engine is a file here with two calls, `append` and `read_from` (`streams.py`); it
wants a package of its own."""

from __future__ import annotations

from .feeding import Feed, Stopped
from .state import State
from .streams import Lost, Piece, Stream, Unreachable, Unusable

__all__ = ["Feed", "Lost", "Piece", "State", "Stopped", "Stream", "Unreachable", "Unusable", "opened"]

DEAD = ".dead"


def opened(url: str, suffix: str = "") -> Stream:
    """The stream of this URL; with the suffix `DEAD` its dead letters. A ValueError where it names no engine; nothing
    is connected yet."""
    scheme, _, rest = url.partition("://")
    if scheme == "redis" and "/" in rest.rstrip("/"):
        from .redis_stream import RedisStream

        return RedisStream(url, suffix)
    if scheme == "postgresql" and rest.rstrip("/").count("/") == 2:
        from .postgresql_table import PostgresqlTable

        return PostgresqlTable(url, suffix)
    raise ValueError(f"{url} is neither redis://HOST:PORT/NAME nor postgresql://USER@HOST:PORT/DATABASE/TABLE")
