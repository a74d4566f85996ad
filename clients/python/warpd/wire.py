"""Lines between a client and the other side. Over a socket a call has its time as a whole, however its bytes come; and no line that comes
is kept past LONGEST bytes."""

from __future__ import annotations

import socket
import time
from collections.abc import Callable, Iterator
from contextlib import contextmanager
from typing import BinaryIO, Optional, TypeVar

# No reply and no push has more bytes; so many are read at once.
LONGEST, PIECE = 1 << 22, 1 << 16
Given, Found = TypeVar("Given"), TypeVar("Found")


class Pipes:
    """Lines to a process of its own, and from it: it may take its time."""

    def __init__(self, replies: BinaryIO, lines: BinaryIO):
        self._replies, self._lines = replies, lines

    @property
    def closed(self) -> bool:
        return self._replies.closed

    @contextmanager
    def call(self) -> Iterator[None]:
        yield

    def send(self, data: bytes) -> None:
        while data:
            data = data[self._lines.write(data):]
        self._lines.flush()

    def line(self) -> bytes:
        """The next line with its line feed; without one where the other side ends, or the line has more than LONGEST bytes."""
        return self._replies.readline(LONGEST)

    def close(self) -> None:
        for it in (self._lines, self._replies):
            try:
                it.close()
            except OSError:
                pass


class Wire:
    """Lines over a socket. What does not come or go in its time is a TimeoutError, whose text says within how many seconds."""

    def __init__(self, made: socket.socket, timeout: Optional[float]):
        """`timeout` is in seconds, for each call as a whole; None is without an end."""
        self._socket, self._timeout = made, timeout
        self._here = bytearray()
        # When the call that is under way has to be over.
        self._end: Optional[float] = None
        self.closed = False

    @contextmanager
    def call(self) -> Iterator[None]:
        """What is sent and read in it is one call, also where it is said to be several."""
        if self._timeout is None or self._end is not None:
            yield
            return
        self._end = time.monotonic() + self._timeout
        try:
            yield
        finally:
            self._end = None

    @property
    def is_late(self) -> bool:
        """Whether the call that is under way has had its time."""
        return self._end is not None and time.monotonic() >= self._end

    def send(self, data: bytes) -> None:
        rest = memoryview(data)
        while rest:
            rest = rest[self._in_time(self._socket.send, rest):]

    def line(self) -> bytes:
        """The next line with its line feed; without one where the other side ends, or the line has more than LONGEST bytes."""
        seen = 0
        while True:
            found = self._here.find(b"\n", seen, LONGEST)
            seen = len(self._here)
            if found >= 0 or seen >= LONGEST or not self._in_time(self._read, PIECE):
                break
        size = found + 1 or min(len(self._here), LONGEST)
        taken = bytes(self._here[:size])
        del self._here[:size]
        return taken

    def coming(self, seconds: Optional[float]) -> int:
        """How many lines are here, or begin to come within so many seconds, None being without an end; an end counts as one. A line that
        has begun counts."""
        if not self._here:
            self._socket.settimeout(seconds)
            try:
                self._read(PIECE)
            except (BlockingIOError, socket.timeout):
                return 0
        return max(self._here.count(b"\n"), 1)

    def close(self) -> None:
        self.closed = True
        self._here.clear()
        self._socket.close()

    def _read(self, most: int) -> int:
        data = self._socket.recv(most)
        self._here += data
        return len(data)

    def _in_time(self, does: Callable[[Given], Found], given: Given) -> Found:
        """Does it, and waits no longer for that than the call may take."""
        left = None if self._end is None else self._end - time.monotonic()
        if left is None or left > 0:
            self._socket.settimeout(left)
            try:
                return does(given)
            except socket.timeout:
                pass
        raise TimeoutError(f"within {self._timeout:g} seconds")
