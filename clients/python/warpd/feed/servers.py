"""The server that a feed feeds, and its log as it grows: a host pushes it (`watch log`), `warpd serve` is asked.

Each line of the log is given once, in order. A host is asked nothing while nothing happens, but for a sign of life now
and then: what is pushed alone never tells that the other side is gone."""

from __future__ import annotations

import time
from collections.abc import Iterator
from typing import Optional

from .. import Ended, cut, reply_of
from ..host import Program
from ..hosted import HostClient
from ..replies import SHOWN

UNKNOWN = 1
# A host that pushed nothing for so many seconds is asked for a sign of life.
SILENT = 10.0


class Server(HostClient):
    """A connection with a host, or with `warpd serve`. `shown` is what it shows of its program, and `knows_tokens` says
    whether a token that was given means anything there; a token that is refused is a `Refused`."""

    def __init__(self, address: tuple[str, int], token: Optional[str], timeout: float):
        self.knows_tokens = True
        self._given, self._heard = 0, time.monotonic()
        super().__init__(*address, timeout=timeout, token=token)
        if self.is_host:
            self.watch("log", 1)

    def _greet(self) -> None:
        if self._token is not None:
            line = f"token {self._token}"
            answer = self.say(line)
            self.knows_tokens = answer != f"refused {UNKNOWN}"
            if self.knows_tokens and answer.startswith("refused "):
                raise reply_of(answer, "token ..")
        self.shown = Program.of(self)
        # Else its first entry would be read by no feed, and be appended again and again.
        if Program.read(self.shown.head()) != self.shown:
            raise Ended(f"no program: {cut(str(self.shown))}")

    @property
    def is_host(self) -> bool:
        return self.shown.fingerprint is not None

    def new_lines(self, place: int = 0) -> Iterator[str]:
        """What is new in the log. All lines up to this place are among those that it has given then."""
        if not self.is_host:
            for record in self.records(self._given + 1):
                self._given += 1
                yield str(record)
            return
        while True:
            yield from self._watched(self._timeout if self._given < place else 0.0)
            if self._given >= place:
                return

    def _watched(self, seconds: float) -> Iterator[str]:
        """What has come, or comes within so many seconds; nothing at all where it may come later."""
        fault = None
        try:
            came = self.arrived("log", seconds)
        except Ended as ended:
            # What came before the end counts.
            came, fault = list(self._waiting["log"]), ended
        if came:
            self._heard = time.monotonic()
        elif seconds:
            raise fault or Ended(f"no record behind place {self._given}")
        elif time.monotonic() - self._heard > SILENT:
            self.length()
            self._heard = time.monotonic()
        for place, line in came:
            if place != self._given + 1:
                raise Ended(f"place {place} was pushed behind {self._given}")
            self._given += 1
            yield line
        if fault:
            raise fault

    def _keep(self, text: str) -> None:
        """A record stays the text that it is."""
        kind, _, rest = text.partition(" ")
        if kind == "log":
            place, _, line = rest.partition(" ")
            if not place.isdecimal() or len(text) > SHOWN:
                raise Ended(f"no push: {cut(text)}")
            self._waiting["log"].append((int(place), line))

    def rest(self, seconds: float) -> None:
        """Waits so long, but no longer than until a host pushes."""
        if self.is_host:
            self._coming(seconds)
        else:
            time.sleep(seconds)
