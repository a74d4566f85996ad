"""Expressions of a checked text as those of a program file.

Parameters and constants are put in. `fixed` numbers are whole numbers of 65,536ths: their products and quotients are
rounded down to one, and an `int` beside one is made `fixed` first."""

from __future__ import annotations

from collections.abc import Callable, Mapping, Sequence
from typing import NamedTuple, Optional, Union

from . import tree
from .tree import At
from .scope import TAG
from .types import FIXED, INT, ONE, Array, Struct, Type, common, is_fixed, number_of
from .values import FAR, MOST_PARTS, Cells, TooLarge, Value, bounds, made

OPERATORS = {
    "+": "+", "-": "-", "*": "*", "/": "/", "%": "%", "==": "=", "<": "<", "&&": "and", "||": "or",
}
BITS = {"&", "|", "^", "<<", ">>"}
# The tag as one number, which is never 0; a time has 256 microsteps.
NOW = ["+", ["+", ["*", ["time"], 256], ["micro"]], 1]
# What an expression comes to: of a struct each field by its name, of an array its cells.
Made = Union[Value, dict[str, Value], Cells]


class Echo(NamedTuple):
    """The variables that keep what was put on an output, and at which tag."""

    value: str
    tag: str

    @property
    def is_there(self) -> Value:
        return made("=", self.tag, NOW)

    @property
    def read(self) -> Value:
        return made("if", self.is_there, self.value, 0)


class Maker:
    """Makes the expressions of one body, or constants."""

    def __init__(self, names: Mapping[str, Made], types: Mapping[str, Type], unit: int, named: Mapping[str, Type]):
        self.names, self.types = names, types
        self.unit, self.named = unit, named
        # How many parts may still be made.
        self.left = MOST_PARTS
        # Whether what only a program file of version 4 has may stand for what others have not.
        self.is_later = False
        # Of each output that is read: what is on it, and whether something is.
        self.echoes: dict[str, Echo] = {}
        # The constant arrays whose cells are asked for by an index that is worked out.
        self.asked: dict[str, Cells] = {}

    def once(self, value: Value, _at: At) -> Value:
        """What stands for a value in several places."""
        return value

    def called(self, it: tree.Call) -> tuple[Made, Type]:
        """What a call of a function of the program comes to."""
        raise KeyError(it.name.text)

    def too_large(self, at: At) -> TooLarge:
        """What is told where too much is made."""
        return TooLarge(at, "the constants of all instances come to too many parts")

    def value(self, it: tree.Expression, wanted: Optional[Type] = None) -> Made:
        """The value of an expression, as one of this type."""
        made_, type = self.typed(it)
        return converted(made_, type, wanted)

    def typed(self, it: tree.Expression) -> tuple[Made, Type]:
        """The value of an expression, and its type."""
        self.left -= 1
        if self.left < 0:
            raise self.too_large(it.at)
        match it:
            case tree.Number():
                return number_of(it.text), FIXED if is_fixed(it.text) else INT
            case tree.Duration():
                return it.nanoseconds // self.unit, INT
            case tree.Reference() if it.name in self.echoes:
                return self.echoes[it.name].read, self.types.get(it.name, INT)
            case tree.Reference():
                return self.names.get(it.name, it.name), self.types.get(it.name, INT)
            case tree.Member():
                return self.member(it.place, it.at)
            case tree.Unary("~"):
                return made("^", self.value(it.part), -1), INT
            case tree.Unary():
                value, type = self.typed(it.part)
                return (made("neg", value), type) if it.operator == "-" else (made("not", value), INT)
            case tree.Binary():
                return binary(it.operator, self.typed(it.left), self.typed(it.right), self.is_later)
            case tree.Choice():
                return self.choice(it)
            case tree.Call(tree.Name("present"), (tree.Reference(name),)) if name in self.echoes:
                return self.echoes[name].is_there, INT
            case tree.Call(tree.Name("present")):
                return ["present", self.names.get(it.parts[0].name, it.parts[0].name)], INT
            case tree.Call():
                return self.call(it)

    # Parts of structs, and cells of arrays.

    def member(self, place: tree.Place, at: At) -> tuple[Made, Type]:
        """The value of `p.x`, `a[i]` and what is both, and its type."""
        if place.owner and place.owner.text == "lf" and not isinstance(self.names.get("lf"), dict):
            return [TAG[place.name.text]], INT
        (found, type), indices = self.found(place, at), [self.value(it) for it in (*place.owner_indices, *place.indices)]
        if not indices:
            return found, type
        if isinstance(found, dict):
            return {name: self.cell(each, indices, at) for name, each in found.items()}, type.of
        return self.cell(found, indices, at), type.of

    def found(self, place: tree.Place, at: At) -> tuple[Made, Type]:
        """What a place names, and its type, whatever stands in brackets."""
        self.left -= 1
        made_, type = Maker.typed(self, tree.Reference((place.owner or place.name).text, at))
        if not place.owner:
            return made_, type
        name = place.name.text
        if not isinstance(type, Array):
            return made_[name], type.fields[name]
        its = type.of.fields[name]
        return made_[name], Array(its.of, (*type.sides, *its.sides)) if isinstance(its, Array) else Array(its, type.sides)

    def cell(self, cells: Cells, indices: Sequence[Value], at: At) -> Value:
        """The value of a cell; 0 where there is none."""
        place = self.place(cells, indices, at)
        if place == -1 and indices[1:]:
            return 0
        if cells.values is None:
            return ["at", cells.name, place]
        if isinstance(place, int):
            return cells.values[place] if 0 <= place < cells.count else 0
        self.asked[cells.name] = cells
        return ["at", cells.name, place]

    def place(self, cells: Cells, indices: Sequence[Value], at: At) -> Value:
        """The number of a cell, from 0; outside of the array where an index is outside of its side. One index alone is this
        number."""
        if len(indices) == 1:
            return indices[0]
        (lines, width), (line, column) = cells.sides, indices
        if isinstance(column, int) and not 0 <= column < width:
            return -1
        line, column = self.once(line, at), self.once(column, at)
        (first, last), (least, most) = bounds(line), bounds(column)
        outside = [] if 0 <= least and most < width else [made("/", column, width)]
        # Within these no product comes back into the array from behind the ends of 64 bits.
        outside += [] if -FAR < first and last < FAR else [made("/", line, lines)]
        place = made("*", line, width)
        place = made("+", place, column) if column != 0 else place
        if not outside:
            return place
        return made("if", made("or", *outside) if outside[1:] else outside[0], -1, place)

    def choice(self, it: tree.Choice) -> tuple[Value, Type]:
        test = self.value(it.test)
        (yes, one), (no, other) = self.typed(it.yes), self.typed(it.no)
        type = common([one, other])
        return made("if", test, converted(yes, one, type), converted(no, other, type)), type

    def call(self, it: tree.Call) -> tuple[Made, Type]:
        name, struct = it.name.text, self.named.get(it.name.text)
        if isinstance(struct, Struct):
            return {field: self.value(part, type) for part, (field, type) in zip(it.parts, struct.fields.items())}, struct
        if name in BUILT_IN:
            parts = [self.typed(part) for part in it.parts]
            return BUILT_IN[name](self, name, parts, it.at)
        return self.called(it)


def converted(value: Made, type: Type, wanted: Optional[Type]) -> Made:
    return made("*", value, ONE) if (type, wanted) == (INT, FIXED) else value


def binary(operator: str, one: tuple[Value, Type], other: tuple[Value, Type], is_later: bool = False) -> tuple[Value, Type]:
    """The value of two parts and an operator between, and its type."""
    (left, first), (right, second) = one, other
    if operator in BITS:
        return made(operator, left, right), INT
    type = common([first, second])
    if type == FIXED and operator in "*/":
        return scaled(operator, one, other, is_later), FIXED
    if type == FIXED and operator not in ("&&", "||"):
        left, right = converted(left, first, FIXED), converted(right, second, FIXED)
    if operator in ("+", "-", "*", "/", "%"):
        return made(operator, left, right), type
    return comparison(operator, left, right), INT


def scaled(operator: str, one: tuple[Value, Type], other: tuple[Value, Type], is_later: bool) -> Value:
    """A product or a quotient of which one part at least is `fixed`; with an `int` on the right it is exact. In version 4
    no part of it is past 64 bits on the way."""
    (left, first), (right, second) = one, other
    if INT in (first, second) and (operator == "*" or second == INT):
        return made(operator, left, right)
    if is_later and operator == "*":
        return made("muldiv", left, right, ONE)
    if is_later:
        # An `int` is as many parts of 1 twice over.
        return made("muldiv", left, ONE if first == FIXED else ONE * ONE, right)
    if operator == "*":
        return made("/", made("*", left, right), ONE)
    return made("/", made("*", converted(left, first, FIXED), ONE), right)


def comparison(operator: str, left: Value, right: Value) -> Value:
    match operator:
        case ">":
            return made("<", right, left)
        case "<=":
            return made("not", made("<", right, left))
        case ">=":
            return made("not", made("<", left, right))
        case "!=":
            return made("not", made("=", left, right))
    return made(OPERATORS[operator], left, right)


Parts = Sequence[tuple[Value, Type]]


def _numbers(maker: Maker, name: str, parts: Parts, at: At) -> tuple[Value, Type]:
    """`min`, `max`, `abs` or `clamp` of parts that may stand twice."""
    type = common([type for _, type in parts])
    if maker.is_later and (name != "clamp" or _is_in_order(parts[1:], type)):
        return _later_numbers(name, [converted(value, one, type) for value, one in parts]), type
    first, *rest = (maker.once(converted(value, one, type), at) for value, one in parts)
    if name == "abs":
        return made("if", made("<", first, 0), made("neg", first), first), type
    if name == "clamp":
        low, high = rest
        return made("if", made("<", first, low), low, made("if", made("<", high, first), high, first)), type
    for number, other in enumerate(rest, 1):
        kept = (first, other) if name == "min" else (other, first)
        first = made("if", made("<", first, other), *kept)
        first = maker.once(first, at) if number < len(rest) else first
    return first, type


def _is_in_order(ends: Parts, type: Type) -> bool:
    """Whether the ends of a `clamp` are constant, the lower one first."""
    low, high = (converted(value, one, type) for value, one in ends)
    return isinstance(low, int) and isinstance(high, int) and low <= high


def _later_numbers(name: str, values: Sequence[Value]) -> Value:
    """The same with the operators of version 4: there no part stands twice."""
    first, *rest = values
    if name == "abs":
        return made("abs", first)
    if name == "clamp":
        low, high = rest
        return made("max", low, made("min", first, high))
    for other in rest:
        first = made(name, first, other)
    return first


def _on_whole(_: Maker, name: str, parts: Parts, _at: At) -> tuple[Value, Type]:
    """`mix` or `muldiv`."""
    return made(name, *(value for value, _ in parts)), INT


def _whole(_: Maker, name: str, parts: Parts, _at: At) -> tuple[Value, Type]:
    """`floor` or `round`: half of 1 goes up."""
    ((value, type),) = parts
    if type == INT:
        return value, INT
    return made("/", made("+", value, ONE // 2) if name == "round" else value, ONE), INT


def _fixed(_: Maker, _name: str, parts: Parts, _at: At) -> tuple[Value, Type]:
    ((value, type),) = parts
    return converted(value, type, FIXED), FIXED


BUILT_IN: dict[str, Callable] = {
    **dict.fromkeys(("min", "max", "abs", "clamp"), _numbers), **dict.fromkeys(("floor", "round"), _whole),
    "fixed": _fixed, **dict.fromkeys(("mix", "muldiv"), _on_whole),
}
