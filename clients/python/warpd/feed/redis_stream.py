"""A stream of Redis: each text is the field `line` of an entry, and a position is the id of the last entry that was
read.

What Redis keeps when it is killed is set in Redis: with `appendonly yes` and `appendfsync always` what it answered is
in its file."""

from __future__ import annotations

import os
from collections.abc import Sequence
from urllib.parse import unquote, urlsplit

import redis

from .streams import START, Lost, Piece, Stream, Unreachable, Unusable

PIECE = 1_000
FIELD = b"line"
# Answers that a later try will not change.
FOR_GOOD = ("WRONGTYPE", "WRONGPASS", "unknown command")


class RedisStream(Stream):
    """`redis://[[USER]:PASSWORD@]HOST[:PORT]/NAME`."""

    def __init__(self, url: str, suffix: str = "", timeout: float = 10.0):
        it = urlsplit(url)
        self.name = unquote(it.path[1:]) + suffix
        password = unquote(it.password) if it.password else os.environ.get("REDISCLI_AUTH")
        secret = {"username": unquote(it.username) if it.username else None, "password": password}
        seconds = {"socket_timeout": timeout, "socket_connect_timeout": timeout}
        self._redis = redis.Redis(it.hostname, it.port or 6379, **seconds, **secret)

    def append(self, texts: Sequence[str]) -> None:
        with _faults(), self._redis.pipeline(transaction=True) as pipeline:
            for text in texts:
                pipeline.xadd(self.name, {FIELD: text})
            pipeline.execute()

    def read_from(self, position: str) -> Piece:
        """Reads from the last known entry on, so that each reading sees whether that is still there."""
        with _faults():
            entries = self._redis.xrange(self.name, position or "-", "+", PIECE)
        is_last = len(entries) < PIECE
        if position != START:
            if not entries or entries[0][0].decode() != position:
                raise Lost(position)
            del entries[0]
        texts = [fields[FIELD].decode("utf-8", "replace") if FIELD in fields else repr(fields) for _, fields in entries]
        return Piece(texts, entries[-1][0].decode() if entries else position, is_last)

    def close(self) -> None:
        self._redis.close()


class _faults:
    """Says what Redis' faults mean for a feed."""

    def __enter__(self) -> None:
        pass

    def __exit__(self, _kind, fault, _trace) -> None:
        if isinstance(fault, redis.AuthenticationError) or isinstance(fault, redis.ResponseError) and _is_final(fault):
            raise Unusable(str(fault)) from fault
        if isinstance(fault, redis.RedisError):
            raise Unreachable(str(fault)) from fault


def _is_final(fault: redis.ResponseError) -> bool:
    return isinstance(fault, redis.exceptions.NoPermissionError) or any(it in str(fault) for it in FOR_GOOD)
