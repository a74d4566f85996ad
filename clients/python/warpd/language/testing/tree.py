"""The tree of a `test` block, as it was written: each part knows where it stands."""

from __future__ import annotations

from dataclasses import dataclass
from typing import Optional, Union

from ..tree import At, Expression, Name


@dataclass(frozen=True)
class Moment:
    """`at 5`, or with a microstep `at (5, 1)`."""

    time: Expression
    micro: Optional[Expression]

    @property
    def at(self) -> At:
        return self.time.at.to(self.micro.at) if self.micro else self.time.at


@dataclass(frozen=True)
class Series:
    """`at 0 to 100 every 10`: without `every` each time from the first to the last."""

    first: Expression
    last: Expression
    step: Optional[Expression]

    @property
    def at(self) -> At:
        return self.first.at.to(self.last.at)


@dataclass(frozen=True)
class Range:
    """`3`, or `0 to 20`."""

    first: Expression
    last: Expression

    @property
    def at(self) -> At:
        return self.first.at.to(self.last.at)


@dataclass(frozen=True)
class Happens:
    """`door.push = 1 at 27;`: an event of the origin that owns the input."""

    input: Name
    value: Expression
    moments: tuple[Union[Moment, Series], ...]


@dataclass(frozen=True)
class Withdrawal:
    """`withdraw door.push at 27;`: of the name that the origin of this input has there."""

    input: Name
    moments: tuple[Union[Moment, Series], ...]


@dataclass(frozen=True)
class Ask:
    """`ask;`: a query, so that all that came before it is executed."""

    at: At


@dataclass(frozen=True)
class Drawn:
    """One of the things of a `draw`: an event with one of these values, or where there are none a withdrawal."""

    input: Name
    values: Optional[Range]


@dataclass(frozen=True)
class Draw:
    """`draw 0 to 20 of ann.steer = -1 to 1, ben.steer = -1 to 1 at 0 to 100;`."""

    count: Range
    choices: tuple[Drawn, ...]
    times: Optional[Range]
    at: At


@dataclass(frozen=True)
class Put:
    """A value and the tag at which an output has it."""

    value: Expression
    moment: Moment


@dataclass(frozen=True)
class Expect:
    """`expect E;` after all, `expect E at T;`, or at each row of the run `expect always E;`."""

    value: Expression
    moment: Optional[Moment]
    is_always: bool
    at: At


@dataclass(frozen=True)
class Puts:
    """`expect lobby.begins puts 3 at 25;`: all that this output puts."""

    output: Name
    puts: tuple[Put, ...]
    at: At


Step = Union[Happens, Withdrawal, Ask, Draw, Expect, Puts]


@dataclass(frozen=True)
class Block:
    """A `test` block; `name` has no quotation marks."""

    name: str
    in_every_order: bool
    steps: tuple[Step, ...]
    at: At
