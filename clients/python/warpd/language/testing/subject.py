"""A program as its tests see it: its file, and what the names in a test stand for."""

from __future__ import annotations

import re
from collections import Counter
from collections.abc import Iterable, Mapping, Sequence
from math import prod
from typing import NamedTuple, Optional, Union

from .. import tree
from ..faults import Report, nearest
from ..lowering import Maker
from ..model import Program
from ..scope import Kind, Scope
from ..tables import grammar
from ..types import FIXED, INT, ONE, Type
from ..values import wrapped
from .words import KEYWORDS

LOST = "lost"
MICROS = {1: 15, 2: 255, 3: 255, 4: 255}


class Array(NamedTuple):
    """An array of a program: `label` is how it is told of, `first` the number of its first cell, `of` the type of each."""

    name: str
    label: str
    first: int
    sides: tuple[int, ...]
    start: Union[int, list[int]]
    of: Type

    def place(self, indices: Sequence[int]) -> Optional[int]:
        """The number of a cell; None where there is none."""
        if len(indices) == 1:
            return indices[0] if indices[0] < prod(self.sides) else None
        if len(indices) != len(self.sides) or any(it >= side for it, side in zip(indices, self.sides)):
            return None
        return indices[0] * self.sides[1] + indices[1]

    def spelled(self, place: int) -> str:
        """A cell as the text spells it."""
        if self.sides[1:]:
            return f"{self.name}[{place // self.sides[1]}][{place % self.sides[1]}]"
        return f"{self.name}[{place}]"


class Subject:
    """`variables`, `inputs` and `outputs` have the numbers of names, which are those of the program file; `owners` for
    each input its origin, `types` the type of each name, `starts` the values of variables before the first tag, and
    `spellings` how the text spells each name. Of the cells of arrays those are variables that were asked for; `told` has
    how a trace tells of each variable."""

    def __init__(self, program: Program, report: Report):
        self.program, self.report, self.file = program, report, program.file()
        names, told = program.names(is_flat=True), program.names()
        self.variables = {name: number for number, name in enumerate(names["vars"])}
        self.inputs = {name: number for number, (_, name) in enumerate(names["inputs"])}
        self.owners = [origin for origin, _ in names["inputs"]]
        self.outputs = {name: number for number, name in enumerate(names["outputs"])}
        self.starts = [start for it in self.file["reactors"] for _, start in it.get("vars", ())]
        self.told = dict(zip(self.variables, told["vars"]))
        self.arrays = self._arrays(names.get("arrays", ()), told.get("arrays", ()))
        self.every = {*self.variables, *self.inputs, *self.outputs}
        points = [it.point for it in (*program.net.entrances, *program.net.exits)]
        ports = dict(zip([*self.inputs, *self.outputs], points))
        self.types = {name: self._type(name) for name in self.variables}
        self.types.update({name: FIXED if it.type == FIXED else INT for name, it in ports.items()})
        self.spellings = {**self._spellings(), **{name: _quoted(str(it)) for name, it in ports.items()}}
        self.aliases = {text.strip("`"): name for name, text in self.spellings.items()}
        own = f"{self._main()}."
        for text, name in [*self.aliases.items()]:
            self.aliases.setdefault(text.removeprefix(own), name)
        for text, name in [*self.aliases.items()]:
            self.aliases.setdefault(_plain(text), name)
        self.stop, self.last_micro = program.stop, MICROS[program.version]
        self.scope = self._scope()

    def _type(self, name: str) -> Type:
        instance, its = name.split(".")
        found = self.program.instances[instance].of.scope.types.get(its, INT)
        return found if found == FIXED else INT

    def _spellings(self) -> dict[str, str]:
        """How the text spells each variable: `bed[3].ball.height` the one that a program file calls
        `bed_3.ball_height`."""
        fields = {
            f"{name}.{flat}": f"{it.title}.{group}.{field}" for name, it in self.program.instances.items()
            for group, names in it.of.scope.fields.items() for field, flat in names.items()
        }
        found = {}
        for name in self.variables:
            instance, its = name.split(".")
            found[name] = fields.get(name) or f"{self.program.instances[instance].title}.{its}"
        return found

    def _main(self) -> str:
        """What main is told of as, whose variables need not be named with it."""
        flat = self.program.root.flat
        return flat.title if flat else ""

    def spelled(self, name: str) -> str:
        """A name of the program file as the text spells it, so that a test may have it."""
        return self.spellings.get(name, name)

    def _scope(self) -> Scope:
        """In which variables are known as constants are: each test has its values."""
        scope = self.program.scope.with_constants([*self.variables, LOST])
        scope.types.update({name: type for name, type in self.types.items() if name in self.variables})
        scope.routines, scope.spellings = {}, self.spellings
        return scope

    def name_of(self, text: str) -> str:
        """What a program file calls a place of the text: `player_0.lives` of `player[0].lives`, `a_b.x` of `a.b.x`,
        `main.go` of `go`; and what it calls an input or an output of the program."""
        if text in self.every or text in self.scope.kinds and "." not in text:
            return text
        cell = self._cell(text) if self.arrays else ""
        if cell:
            return cell
        plain = _plain(text)
        if text in self.aliases or plain in self.aliases:
            return self.aliases.get(text) or self.aliases[plain]
        *path, last = plain.split(".")
        found = [f"{'_'.join(path)}.{last}"] if path else [it for it in self.every if it.split(".")[1] == last]
        found += [f"{'_'.join(path[:-1])}.{path[-1]}_{last}"] if len(path) > 1 else []
        known = [it for it in found if it in self.every]
        return known[0] if len(known) == 1 else text

    # Cells of arrays.

    def _arrays(self, flat: Sequence[list], told: Sequence[list]) -> dict[str, Array]:
        """The arrays by their names as the text spells them, also without main's own."""
        starts = [start for it in self.file["reactors"] for *_, start in it.get("arrays", ())]
        found: dict[str, Array] = {}
        for (name, first, count), (label, *_), start in zip(flat, told, starts):
            instance, its = name.split(".")
            it = self.program.instances[instance]
            field = next((f"{group}.{field}" for group, names in it.of.scope.fields.items() for field, flat in names.items() if flat == its), its)
            type = it.of.scope.types.get(its, INT)
            of = FIXED if getattr(type, "of", INT) == FIXED else INT
            array = Array(f"{it.title}.{field}", label, first, it.sides.get(its, (count,)), start, of)
            found[array.name] = found[_plain(array.name)] = found[name] = array
            if self.program.root.flat is it:
                found.setdefault(field, array)
        lasts = Counter(it.split(".")[1] for it in (*self.variables, *self.inputs, *self.outputs, *(name for name, *_ in flat)))
        for name, *_ in flat:
            if lasts[name.split(".")[1]] == 1:
                found.setdefault(name.split(".")[1], found[name])
        return found

    def _cell(self, text: str) -> str:
        """The name of a cell, which is a variable from now on: `s.board[292]` of `board[9][4]` or `players[2].x`; empty where
        this is none."""
        parts = re.findall(r"\[(\d+)\]", text)
        for count in (1, 2):
            # What is no index of the array is one of a bank.
            head, tail = parts[:-count], parts[-count:]
            name, seen = text, len(head)
            pieces = re.split(r"\[\d+\]", name)
            name = "".join(piece + (f"[{head[number]}]" if number < seen else "") for number, piece in enumerate(pieces))
            array = self.arrays.get(name) or self.arrays.get(_plain(name))
            place = array.place([int(it) for it in tail]) if array and len(tail) == count else None
            if place is not None:
                return self._take(array, place)
        return ""

    def no_cell(self, text: str, is_open: bool) -> Optional[tuple[str, str]]:
        """What is told of an array that stands for itself, or whose cell is named by what is no number, as where a bracket
        follows, or by one that it has not; None where this is none of these."""
        name, numbers = re.fullmatch(r"(.*?)((?:\[\d+\])*)", text).groups()
        array = self.arrays.get(name) or self.arrays.get(_plain(name))
        if array is None or name in self.scope.kinds or self._cell(text):
            return None
        sides = " by ".join(str(it) for it in array.sides)
        if numbers and not is_open:
            return f"`{text}`: there is no such cell", f"`{array.name}` has {sides} cells, from 0"
        return f"`{array.name}` is an array: a test names its cells by numbers", f"write `{array.spelled(0)}`"

    def _take(self, array: Array, place: int) -> str:
        name = f"{array.name}[{place}]"
        if name not in self.variables:
            start = array.start
            self.variables[name] = array.first + place
            self.starts.append(start if isinstance(start, int) else start[place] if place < len(start) else 0)
            self.told[name] = f"{array.label}[{place}]"
            self.types[name] = self.scope.types[name] = array.of
            self.spellings[name] = array.spelled(place)
            self.every.add(name)
            self.scope.kinds[name] = Kind.CONSTANT
        return name

    def number(self, name: tree.Name, numbers: Mapping[str, int], what: str) -> int:
        """The number of a name that must be among these; 0 where it is not, which is told."""
        if name.text in numbers:
            return numbers[name.text]
        kinds = {"a variable": self.variables, "an input of the program": self.inputs}
        kinds["an output of the program"] = self.outputs
        other = next((kind for kind, its in kinds.items() if name.text in its), "")
        text = self.spelled(name.text)
        told = f"`{text}` is {other}: here belongs {what}" if other else f"the program has no `{text}`"
        names = [self.spelled(it).strip("`") for it in numbers]
        hint = nearest(text, names) or (f"there are {_some(names)}" if numbers else f"it has not {what}")
        self.report.error(name.at, told, hint)
        return 0

    def constant(self, it: tree.Expression, wanted: Type = INT) -> int:
        """The value of what must be constant; 0 where it is not, which is told."""
        found = self.program.constant(self.program.scope, it, self.program.constants, wanted)
        return found if isinstance(found, int) else 0

    def value(self, it: tree.Expression, values: Iterable[int], lost: int) -> int:
        """What an expression comes to where the variables have these values."""
        names = {LOST: lost, **self.program.constants, **dict(zip(self.variables, values))}
        return Maker(names, self.scope.types, self.program.unit or 1, self.scope.named).value(it)

    def shown(self, name: str, value: int) -> str:
        """The value of what has this name: of a `fixed` one a number with a point."""
        return fixed(value) if self.types.get(name) == FIXED else str(value)


def fixed(value: int) -> str:
    """A number of 65,536ths, so that it is read back as the same."""
    sign, value = "-" * (value < 0), abs(value)
    text = f"{value // ONE}.{round((value % ONE) * 10**5 / ONE):05}".rstrip("0")
    return sign + (text + "0" if text.endswith(".") else text)


def _plain(text: str) -> str:
    """A place with `_3` for `[3]`."""
    return re.sub(r"\[(\d+)\]", r"_\1", text)


def _quoted(text: str) -> str:
    """A name as a test has it: between backquotes where it is a word of the language, and of tests."""
    return f"`{text}`" if text in KEYWORDS or text in grammar().kinds else text


def _some(names: Iterable[str], most: int = 6) -> str:
    listed = [f"`{it}`" for it in names]
    return ", ".join(listed[:most]) + (" .." if len(listed) > most else "")


def in_64_bits(value: int) -> bool:
    return wrapped(value) == value
