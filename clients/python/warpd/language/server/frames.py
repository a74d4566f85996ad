"""Messages of the protocol over two streams: JSON behind a header that says how long it is."""

from __future__ import annotations

import json
import os
import re
import select
from typing import Any, BinaryIO

MOST_HEADER, MOST_BODY, PIECE = 4_096, 64 * 1024 * 1024, 65_536
PARSE_ERROR, INVALID_REQUEST = -32700, -32600


class Malformed(Exception):
    """What came is no message: the code of the error that is answered, and what it says. The next one is read on."""

    def __init__(self, code: int, text: str):
        super().__init__(text)
        self.code = code


class Frames:
    """Reads messages from one stream and writes them to another."""

    def __init__(self, source: BinaryIO, target: BinaryIO):
        self.source, self.target = source, target
        self.bytes = b""
        self.is_ended = False

    def is_waiting(self) -> bool:
        """Whether more has come than was read."""
        return bool(self.bytes) or not self.is_ended and bool(select.select([self.source], [], [], 0)[0])

    def read(self) -> Any:
        """The next message; raises `EOFError` where there is none, and `Malformed`."""
        length = self._length(self._header())
        self._skip(max(length - MOST_BODY, 0))
        body = self._take(min(length, MOST_BODY))
        if length > MOST_BODY:
            raise Malformed(INVALID_REQUEST, f"a message of {length} bytes: {MOST_BODY} are allowed")
        try:
            return json.loads(body)
        except (ValueError, RecursionError) as error:
            raise Malformed(PARSE_ERROR, f"a message is no JSON: {error}") from error

    def write(self, message: dict) -> None:
        body = json.dumps({"jsonrpc": "2.0", **message}).encode()
        self.target.write(b"Content-Length: %d\r\n\r\n%b" % (len(body), body))
        self.target.flush()

    def _more(self) -> bool:
        """Reads a piece; False where the stream has ended."""
        piece = b"" if self.is_ended else os.read(self.source.fileno(), PIECE)
        self.is_ended = not piece
        self.bytes += piece
        return bool(piece)

    def _take(self, length: int) -> bytes:
        pieces, missing = [], length
        while len(self.bytes) < missing:
            pieces.append(self.bytes)
            missing -= len(self.bytes)
            self.bytes = b""
            if not self._more():
                raise EOFError
        pieces.append(self.bytes[:missing])
        self.bytes = self.bytes[missing:]
        return b"".join(pieces)

    def _skip(self, length: int) -> None:
        while length > 0:
            length -= len(self._take(min(length, PIECE)))

    def _header(self) -> bytes:
        """What stands before a message. Of a long one its end is enough: what cannot be read is passed over."""
        while b"\n\r\n" not in self.bytes and b"\n\n" not in self.bytes:
            self.bytes = self.bytes[-MOST_HEADER:]
            if not self._more():
                raise EOFError
        place, width = min((self.bytes.find(it), len(it)) for it in (b"\n\r\n", b"\n\n") if it in self.bytes)
        head, self.bytes = self.bytes[:place], self.bytes[place + width:]
        return head

    def _length(self, head: bytes) -> int:
        found = re.findall(rb"content-length:[ \t]*(\d{1,18})[ \t\r]*$", head, re.IGNORECASE | re.MULTILINE)
        if not found:
            raise Malformed(INVALID_REQUEST, "a header has no `Content-Length`, or it is no number")
        return int(found[-1])
