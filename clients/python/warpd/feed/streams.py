"""What a feed wants of a log engine: two calls. `redis_stream` and `postgresql_table` have them; another engine is one
more such file.

A stream is texts in some order. What holds of it: a text whose `append` returned is kept, and is found by each later
reading that comes to the end. A text may be there several times, and may be read several times; that does no harm."""

from __future__ import annotations

from abc import ABC, abstractmethod
from collections.abc import Sequence
from typing import NamedTuple

# Where every stream begins.
START = ""


class Unreachable(ConnectionError):
    """The engine is not there, or the connection to it was lost: what was appended last may stand or not. The next
    call connects again."""


class Unusable(Exception):
    """The engine will not have it so: a wrong password, something else under this name. Asking again does not help."""


class Lost(Exception):
    """What stood at this position is there no more: the stream lost its tail, or all of itself."""


class Piece(NamedTuple):
    """Some texts, the position from which to read on, and whether the end was reached. Texts may come again from that
    position."""

    texts: list[str]
    position: str
    is_last: bool


class Stream(ABC):
    """One stream of an engine. A position is a text without blanks that only its own engine understands."""

    @abstractmethod
    def append(self, texts: Sequence[str]) -> None:
        """Puts texts behind all others; returns when the engine keeps them. A feed may append what is there already."""

    @abstractmethod
    def read_from(self, position: str) -> Piece:
        """The next texts from `START` or from the position of another piece on, without waiting for any. Raises
        `Lost`. The position may only pass a text if none can still appear before it: where an engine shows texts in
        another order than that in which they were committed, it stays before the open ones, and texts behind them come
        again."""

    @abstractmethod
    def close(self) -> None:
        """Lets go of the connection."""
