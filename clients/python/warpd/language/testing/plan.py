"""A test as it is run: what comes, in its order, and what is expected of what came before."""

from __future__ import annotations

from collections.abc import Sequence
from dataclasses import dataclass
from typing import NamedTuple, Optional, Union

from ... import Event, Tag, Withdraw
from ..tree import At, Expression

Bounds = tuple[int, int]


class Given(NamedTuple):
    """A record that comes. One that was drawn may be made simpler within the bounds of its draw."""

    record: Union[Event, Withdraw]
    values: Optional[Bounds] = None
    times: Optional[Bounds] = None

    @property
    def name(self) -> tuple[int, Tag]:
        """The name under which one event counts."""
        return self.record.origin, self.record.tag


class Query(NamedTuple):
    """All outputs are asked for, so that what came before is executed."""


ASK = Query()
# What comes to a replica, one after another.
Arrival = Sequence[Union[Given, Query]]


class Choice(NamedTuple):
    """What may be drawn: an event of this input, or where there are no values a withdrawal by its origin."""

    input: int
    values: Optional[Bounds]


class Draw(NamedTuple):
    count: Bounds
    choices: tuple[Choice, ...]
    times: Bounds


@dataclass(frozen=True)
class Expected:
    """That a value is not 0: behind all, behind a tag (the last of a time where it has no microstep), or always."""

    value: Expression
    tag: Optional[tuple[int, Optional[int]]]
    is_always: bool
    at: At


@dataclass(frozen=True)
class Puts:
    """All that an output puts: at each tag what it is."""

    output: int
    puts: tuple[tuple[Tag, int], ...]
    at: At


Step = Union[Given, Query, Draw, Expected, Puts]


@dataclass(frozen=True)
class Test:
    __test__ = False

    name: str
    in_every_order: bool
    steps: tuple[Step, ...]
    at: At

    @property
    def is_drawn(self) -> bool:
        return any(isinstance(it, Draw) for it in self.steps)
