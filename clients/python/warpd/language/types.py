"""What values are: whole numbers, `fixed` numbers, and structs of both."""

from __future__ import annotations

import re
from dataclasses import dataclass
from typing import TYPE_CHECKING, Optional, Union

from .values import LEAST, MOST, wrapped

if TYPE_CHECKING:
    from .tree import Expression

INT, FIXED = "int", "fixed"
# The types that each program has. A `fixed` number is kept as this many parts of 1.
NAMED = {"int": INT, "int64_t": INT, "bool": INT, "time": INT, "void": INT, "fixed": FIXED}
ONE = 65_536


@dataclass(frozen=True)
class Struct:
    """A group of variables: the name of each with its type, and where it has one with its start."""

    name: str
    fields: dict[str, Type]
    starts: dict[str, int]

    def __str__(self) -> str:
        return self.name


@dataclass(frozen=True)
class Array:
    """As many numbers or structs as the sides say: expressions, None where a side is left to the start."""

    of: Union[str, Struct]
    sides: tuple[Optional[Expression], ...]

    def __str__(self) -> str:
        return f"{self.of}{'[]' * len(self.sides)}"


Type = Union[str, Struct, Array]


def common(types: list[Type]) -> Type:
    """The type of what is made of numbers of these types."""
    return FIXED if FIXED in types else INT


def is_fixed(text: str) -> bool:
    """Whether a number is written as a `fixed` one: `0.5`."""
    return re.fullmatch(r"(0|[1-9][0-9]*)\.[0-9]+", text) is not None


def number_of(text: str) -> int:
    """What a number comes to; of a `fixed` one the nearest that there is, the greater of two."""
    if "." not in text:
        return int(text)
    whole, part = text.split(".")
    of = 10 ** len(part)
    return (2 * ONE * int(whole + part) + of) // (2 * of)


def is_in_range(number: int) -> bool:
    return LEAST <= number <= MOST


def as_fixed(number: int) -> int:
    return wrapped(number * ONE)
