"""Expressions as a program file has them, with warpd's arithmetic: what is constant is worked out while it is made.

An expression is a number, a name, or a list of an operator and its parts; of `at` the first part is an array. While a
body is made, a part may also be a `Temp` or a `Cell`, in whose place something of a program file comes at last."""

from __future__ import annotations

from collections.abc import Sequence
from dataclasses import dataclass
from math import prod
from typing import Optional, Union

from .tree import At

LEAST, MOST = -(2**63), 2**63 - 1
ANY = LEAST, MOST
# A product of numbers within these is far from the ends of 64 bits.
FAR = 2**40
# What has more parts fits into no program file: each has more than two bytes there.
MOST_PARTS = 524_288


class TooLarge(Exception):
    """What is written out comes to more than MOST_PARTS parts: where, and in which words that is told."""

    def __init__(self, at: At, text: str, hint: str = ""):
        super().__init__(text)
        self.at, self.text, self.hint = at, f"{text}: {MOST_PARTS} are allowed", hint


class Parts:
    """How many parts may still be written out: names, numbers, operators, statements, members of instances. Each counts where it comes
    to stand, and also where it is worked out and gone in the end, so that what is counted is what it costs."""

    def __init__(self) -> None:
        self.left: float = MOST_PARTS

    def take(self, count: int, at: At, text: str, hint: str = "") -> None:
        """Takes so many; where no more are left that is a `TooLarge`."""
        self.left -= count
        if self.left < 0:
            raise TooLarge(at, text, hint)


@dataclass(eq=False)
class Temp:
    """A value of one place: it is put in where it is used, or a variable of the compiler's own keeps it."""

    value: Value
    at: At


@dataclass(eq=False)
class Cell:
    """A variable of the compiler's own, which may be assigned at several places of a body. `bounds` are its least and
    its greatest value."""

    at: At
    bounds: tuple[int, int] = ANY


@dataclass(frozen=True)
class Cells:
    """An array of the program file, with its sides. `values` has those of a constant, which nothing assigns."""

    name: str
    sides: tuple[int, ...]
    values: Optional[tuple[int, ...]] = None

    @property
    def count(self) -> int:
        return prod(self.sides)


Value = Union[int, str, list, Temp, Cell]


def wrapped(number: int) -> int:
    """The number of 64 bits that is left of it."""
    return (number - LEAST) % 2**64 + LEAST


def remainder(a: int, b: int) -> int:
    """The Euclidean one: never negative; 0 where b is 0."""
    return a % abs(b) if b else 0


def quotient(a: int, b: int) -> int:
    """What the Euclidean remainder leaves; 0 where b is 0."""
    return wrapped((a - remainder(a, b)) // b) if b else 0


OPERATIONS = {
    "+": lambda a, b: wrapped(a + b), "-": lambda a, b: wrapped(a - b), "*": lambda a, b: wrapped(a * b),
    "/": quotient, "%": remainder, "neg": lambda a: wrapped(-a),
    "=": lambda a, b: int(a == b), "<": lambda a, b: int(a < b),
    "and": lambda a, b: int(a != 0 and b != 0), "or": lambda a, b: int(a != 0 or b != 0), "not": lambda a: int(a == 0),
}


def bits(number: int) -> int:
    """How far a shift goes."""
    return number % 64


def mix(seed: int, number: int) -> int:
    """Output `number` of SplitMix64 with this seed, of which 1 is the first."""
    it = (seed + number * 0x9E3779B97F4A7C15) % 2**64
    it = (it ^ it >> 30) * 0xBF58476D1CE4E5B9 % 2**64
    it = (it ^ it >> 27) * 0x94D049BB133111EB % 2**64
    return wrapped(it ^ it >> 31)


def muldiv(a: int, b: int, c: int) -> int:
    """The Euclidean quotient of a whole product, its low 64 bits; 0 where c is 0."""
    return wrapped((a * b - a * b % abs(c)) // c) if c else 0


# What program files of version 4 have more.
LATER = {
    "min": min, "max": max, "abs": lambda a: wrapped(abs(a)),
    "&": lambda a, b: a & b, "|": lambda a, b: a | b, "^": lambda a, b: a ^ b,
    "<<": lambda a, b: wrapped(a << bits(b)), ">>": lambda a, b: a >> bits(b), "mix": mix, "muldiv": muldiv,
}
OPERATIONS.update(LATER)
# Operators without parts, or with a name that is no value: nothing is worked out again where one stands twice.
SIMPLE = {"present", "time", "micro"}
# What only a file of version 4 has: operators, and statements.
OF_FOUR = {*LATER, "at", "time", "micro", "setat", "while"}


def made(word: str, *parts: Value) -> Value:
    """The expression of this operator, or its value where that is constant."""
    if word == "if" and isinstance(parts[0], int):
        return parts[1] if parts[0] else parts[2]
    if word in OPERATIONS and all(isinstance(it, int) for it in parts):
        return OPERATIONS[word](*parts)
    return [word, *parts]


def is_simple(value: Value) -> bool:
    """Whether nothing is worked out again where it stands twice."""
    return not isinstance(value, list) or value[0] in SIMPLE


def bounds(value: Value) -> tuple[int, int]:
    """The least and the greatest that a value may be, as far as what it is made of tells."""
    if isinstance(value, int):
        return value, value
    if isinstance(value, Cell):
        return value.bounds
    if isinstance(value, Temp):
        return bounds(value.value)
    if isinstance(value, str):
        return ANY
    low, high = _bounds(value[0], value[1:])
    return (low, high) if LEAST <= low and high <= MOST else ANY


def _bounds(word: str, parts: Sequence[Value]) -> tuple[int, int]:
    if word in ("=", "<", "and", "or", "not", "present"):
        return 0, 1
    if word in ("%", "&") and isinstance(parts[1], int) and parts[1] > 0:
        return 0, parts[1] - (word == "%")
    if word == "if":
        (low, high), (least, most) = map(bounds, parts[1:])
        return min(low, least), max(high, most)
    if word not in ("+", "-", "*", "neg", "min", "max"):
        return ANY
    (low, high), (least, most) = bounds(parts[0]), bounds(parts[-1])
    match word:
        case "+":
            return low + least, high + most
        case "-":
            return low - most, high - least
        case "*":
            corners = low * least, low * most, high * least, high * most
            return min(corners), max(corners)
        case "neg":
            return -high, -low
        case "min":
            return min(low, least), min(high, most)
    return max(low, least), max(high, most)


def depth(value: Value) -> int:
    return 1 if is_simple(value) else 1 + max(map(depth, value[1:]))


def size(value: Value) -> int:
    if is_simple(value):
        return 1
    return 1 + size(value[2]) if value[0] == "at" else 1 + sum(map(size, value[1:]))


def lists_of(statement: list) -> Sequence[list]:
    """The lists of statements that stand in a statement."""
    return statement[2:] if statement[0] == "if" else statement[3:] if statement[0] == "while" else ()


def values_of(statement: list) -> Sequence[Value]:
    """The expressions that stand in a statement."""
    match statement[0]:
        case "if":
            return statement[1:2]
        case "while":
            return statement[2:3]
        case "setat":
            return statement[2:]
    return statement[-1:]


def depth_of_list(statements: list) -> int:
    """0 of an empty list; an `if` and a `while` have one more than their deeper list."""
    return max((1 + max(map(depth_of_list, lists_of(it)), default=0) for it in statements), default=0)


def schedules(statements: list) -> int:
    """How many `schedule` a list has, those in both lists of an `if` counted, and those of a loop as often as it may turn."""
    return sum(
        (it[1] if it[0] == "while" else 1) * sum(map(schedules, lists_of(it))) + (it[0] == "schedule") for it in statements
    )


def work(statements: list) -> int:
    """How many nodes of statements and expressions are walked at most."""
    total = 0
    for it in statements:
        parts = sum(map(size, values_of(it)))
        inner = sum(map(work, lists_of(it)))
        total += 1 + parts + (it[1] * (1 + parts + inner) if it[0] == "while" else inner)
    return total
