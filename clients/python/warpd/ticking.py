"""What the clock of a host says, by questions: each answer comes of some moment between its question and now, so the quickest of the last
tells most. Where two leave no moment for both, the clock stood or the host began anew, and the newer one counts."""

from __future__ import annotations

import time as clock
from collections.abc import Callable
from typing import NamedTuple, Optional

# How many exchanges tell what the clock says, how many come at once in the beginning, and how many seconds lie between two later ones.
EXCHANGES, FIRST_EXCHANGES, EVERY = 10, 4, 1.0
# Where they tell another time than is reckoned with, that goes over by so much of the time that passes; at once where it is farther away
# than so many seconds.
GOING_OVER, FAR = 0.1, 1.0
# What exchanges may differ by, since a host tells whole milliseconds.
ROUNDED = 0.002


class _Exchange(NamedTuple):
    """Between which seconds the host's clock is ahead of one's own."""

    least: float
    most: float

    @property
    def width(self) -> float:
        return self.most - self.least


class HostClock:
    """Which tick it is at a host, between questions by one's own clock, and corrected without jumps."""

    def __init__(self, ask: Callable[[], tuple[int, int]], now: Callable[[], float] = clock.monotonic):
        """`ask` tells the milliseconds of the host's clock, and its ticks a second."""
        self._ask, self._now = ask, now
        self._exchanges: list[_Exchange] = []
        self._count, self._asked = 0, float("-inf")
        self._ahead: Optional[float] = None
        self._reckoned = float("-inf")
        # Ticks a second; None before the first answer.
        self.hertz: Optional[int] = None

    def now(self) -> float:
        """Which tick it is, with its fraction: 30.5 is in the middle of tick 30. The host is asked a few times in the beginning, and
        then where the last question lies more than a second back. A host without a clock refuses that."""
        if self._now() - self._asked > EVERY:
            for _ in range(1 if self._count >= FIRST_EXCHANGES else FIRST_EXCHANGES):
                self._exchange()
        now = self._now()
        quickest = min(self._exchanges, key=lambda it: it.width)
        self._go_over((quickest.least + quickest.most) / 2, now)
        return max(0.0, (now + self._ahead) * self.hertz)

    def _exchange(self) -> None:
        asked = self._now()
        milliseconds, self.hertz = self._ask()
        answered = self._now()
        told = _Exchange(milliseconds / 1_000 - answered, milliseconds / 1_000 - asked)
        fit = [it for it in self._exchanges if it.least <= told.most + ROUNDED and told.least <= it.most + ROUNDED]
        self._exchanges = [*fit, told][-EXCHANGES:]
        self._count, self._asked = self._count + 1, answered

    def _go_over(self, wanted: float, now: float) -> None:
        if self._ahead is None or abs(wanted - self._ahead) > FAR:
            self._ahead = wanted
        else:
            most = GOING_OVER * max(0.0, now - self._reckoned)
            self._ahead += min(most, max(-most, wanted - self._ahead))
        self._reckoned = now
