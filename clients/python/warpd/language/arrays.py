"""How an array begins: its sides, and the values of its cells."""

from __future__ import annotations

from collections.abc import Callable, Mapping, Sequence
from math import prod
from typing import NamedTuple, Optional, Union

from . import tree
from .faults import Report
from .tree import At
from .types import Array, Type
from .values import Cells

MOST_CELLS, MOST_ARRAYS = 65_536, 256
# What is constant, and of which type it is wanted.
Number = Callable[[tree.Expression, Type], int]


class Start(NamedTuple):
    """`values` is one number for all cells, or those of the first ones."""

    sides: tuple[int, ...]
    values: Union[int, tuple[int, ...]]

    def cells(self, name: str) -> Cells:
        """The array as a constant of this name."""
        count, values = prod(self.sides), self.values
        listed = (values,) * count if isinstance(values, int) else values + (0,) * (count - len(values))
        return Cells(name, self.sides, listed)


def started(
    it: Optional[tree.Expression], type: Array, number: Number, names: Mapping[str, object], report: Report, at: At
) -> Start:
    """What an array of this type begins with; what is wrong with that is told, `at` its name where nothing else is there."""
    asked = [side and number(side, "int") for side in type.sides]
    if not all(it is None or isinstance(it, int) for it in asked):
        # What is wrong with a side is told where the type is.
        return Start((1,) * len(asked), 0)
    sides = [it if it is None else _side(it, report, side.at) for it, side in zip(asked, type.sides)]
    known = names.get(it.name) if isinstance(it, tree.Reference) else None
    if isinstance(known, Cells):
        values, given = known.values or 0, known.sides
    elif isinstance(it, tree.List):
        values, given = _listed(it, type, sides, number, report)
    else:
        values, given = (number(it, type.of) if it else 0), ()
    if sides[0] is None and not given:
        report.error(at, "nothing says how many cells this array has", "write `int[8]`, or a list of its values")
    found = tuple(one or other for one, other in zip(sides, (*given, 1, 1)))
    count = prod(found)
    if count > MOST_CELLS:
        report.error(at, f"this array has {count} cells: {MOST_CELLS} are allowed")
        return Start((1,) * len(sides), 0)
    if not isinstance(values, int) and len(values) > count:
        report.error(it.at, f"{len(values)} values for {count} cells")
        values = values[:count]
    return Start(found, values)


def _side(value: int, report: Report, at: At) -> int:
    if 1 <= value <= MOST_CELLS:
        return value
    report.error(at, f"the side of an array is {value}: 1 to {MOST_CELLS} is allowed")
    return 1


def _listed(
    it: tree.List, type: Array, sides: Sequence[Optional[int]], number: Number, report: Report
) -> tuple[tuple[int, ...], tuple[int, ...]]:
    """The values of a list, line by line, and the sides that it has itself."""
    if not any(isinstance(part, tree.List) for part in it.parts):
        values = tuple(number(part, type.of) for part in it.parts)
        lines = -(-len(values) // (sides[1] or 1)) if sides[1:] else len(values)
        return values, (max(lines, 1),)
    found: list[int] = []
    width = sides[-1] or 1
    for line in it.parts:
        values = [number(part, type.of) for part in line.parts if not isinstance(part, tree.List)]
        if len(values) > width:
            report.error(line.at, f"{len(values)} values in a line of {width}")
        found += values[:width] + [0] * (width - len(values))
    if sides[0] is not None and len(it.parts) > sides[0]:
        report.error(it.at, f"{len(it.parts)} lines for {sides[0]}")
        found = found[:sides[0] * width]
    while found and found[-1] == 0:
        found.pop()
    return tuple(found), (max(len(it.parts), 1),)
