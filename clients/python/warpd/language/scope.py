"""What the names of a reactor stand for, and its expressions checked against that."""

from __future__ import annotations

import re
from collections.abc import Iterable, Sequence
from enum import Enum
from typing import TYPE_CHECKING, Optional

from . import refused, tree
from .faults import Report, listed, meant, nearest, port_of
from .tree import At
from .types import FIXED, INT, NAMED, Array, Struct, Type, common, is_fixed, number_of
from .values import MOST

if TYPE_CHECKING:
    from .bodies import BodyCheck
    from .routines import Routine


class Kind(Enum):
    VARIABLE = "a state variable"
    INPUT = "an input"
    OUTPUT = "an output"
    ACTION = "an action"
    TIMER = "a timer"
    STARTUP = "a trigger"
    SHUTDOWN = "the trigger at the end"
    PARAMETER = "a parameter"
    CONSTANT = "a constant"
    LET = "a `let`"
    LOCAL = "a variable of this body"
    GIVEN = "a parameter of this function"
    TURN = "the number of a loop's turn"
    ROUTINE = "a function"
    TYPE = "a type"


TRIGGERS = (Kind.INPUT, Kind.ACTION, Kind.TIMER, Kind.STARTUP, Kind.SHUTDOWN)
EFFECTS = (Kind.OUTPUT, Kind.ACTION)
CONSTANTS = (Kind.PARAMETER, Kind.CONSTANT)
# How many parts each function takes; None is without end.
FUNCTIONS = {
    "min": (2, None), "max": (2, None), "abs": (1, 1), "clamp": (3, 3), "present": (1, 1), "floor": (1, 1),
    "round": (1, 1), "fixed": (1, 1), "mix": (2, 2), "muldiv": (3, 3),
}
# Operators on bits, and functions, of whole numbers alone.
ON_BITS = ("&", "|", "^", "<<", ">>", "~")
ON_WHOLE = ("mix", "muldiv")
# What is told of the tag that is executed: `lf.time`.
TAG = {"time": "time", "microstep": "micro"}
MOST_SIDES = 2
STATEMENTS = {"put": (2, 2), "schedule": (2, 3), "request_stop": (0, 0), "set_mode": (1, 1)}
LONGEST_NAME = 32


def is_name(text: str) -> bool:
    """Whether a program file takes this for a name."""
    return re.fullmatch(r"[A-Za-z][A-Za-z0-9_]*", text) is not None and len(text) <= LONGEST_NAME


def article(type: Type) -> str:
    return f"{'an' if type == INT else 'a'} `{type}`"


def count_of(number: int, of: str) -> str:
    return f"{number} {of}" + "s" * (number != 1)


class Scope:
    """The names of one reactor, and what is known of their use."""

    def __init__(self, report: Report, unit: Optional[int], names: Optional[dict[str, Kind]] = None):
        self.report, self.unit, self.kinds = report, unit, dict(names or {})
        self.places: dict[str, At] = {}
        self.read: set[str] = set()
        self.types: dict[str, Type] = {}
        self.named: dict[str, Type] = dict(NAMED)
        self.routines: dict[str, Routine] = {}
        self.enums: set[str] = set()
        # The outputs of which a reaction reads what was put on them at its tag, each with the first place of the text.
        self.read_outputs: dict[str, At] = {}
        # Of a state variable that is a struct: the variables of its fields.
        self.fields: dict[str, dict[str, str]] = {}
        self.is_reactor = False
        # How names are told of that the text spells otherwise.
        self.spellings: dict[str, str] = {}
        # Where a cell of an array is asked for by a number, or by a name alone.
        self.numbered: list[tuple[tree.Place, Sequence[tree.Expression]]] = []

    def with_constants(self, names: Iterable[str]) -> Scope:
        """A scope with these constants more."""
        more = self.inside()
        more.kinds.update(dict.fromkeys(names, Kind.CONSTANT))
        return more

    def inside(self) -> Scope:
        """A scope of a reactor, which sees what this one has."""
        inner = Scope(self.report, self.unit, self.kinds)
        inner.types, inner.named, inner.routines = dict(self.types), self.named, dict(self.routines)
        inner.is_reactor, inner.enums = True, self.enums
        return inner

    def group(self, name: str, struct: Struct, sides: tuple = ()) -> None:
        """Names the variables of a struct; of an array of them, with these sides, the arrays."""
        self.fields[name] = {}
        for field, its in struct.fields.items():
            variable = f"{name}_{field}"
            while variable in self.kinds:
                variable += "_"
            inner = (its.of, (*sides, *its.sides)) if isinstance(its, Array) else (its, sides)
            if len(inner[1]) > MOST_SIDES:
                text = f"`{name}` would have cells of {len(inner[1])} sides: {MOST_SIDES} are allowed"
                self.report.error(self.places[name], text)
                inner = inner[0], inner[1][:MOST_SIDES]
            self.declare(tree.Name(variable, self.places[name]), Kind.VARIABLE, Array(*inner) if inner[1] else its)
            self.fields[name][field] = variable
            self.read.add(variable)

    def declare(self, name: tree.Name, kind: Kind, type: Type = INT) -> None:
        """Takes a name in; one that stands twice, and one that no program file has, is told."""
        self.types.setdefault(name.text, type)
        if name.text in self.kinds and name.text not in self.places:
            self.report.error(name.at, f"`{name.text}` is {self.kinds[name.text].value} already")
        elif name.text in self.places:
            hint = f"it is {self.kinds[name.text].value} at {self.report.place(self.places[name.text])}"
            self.report.error(name.at, f"`{name.text}` stands twice", hint)
        elif name.text == "startup":
            self.report.error(name.at, "`startup` is the trigger at the beginning, and names nothing else")
        elif kind not in CONSTANTS and not is_name(re.split(r"[.[]", name.text)[0]):
            self.tell_name(name)
        self.kinds.setdefault(name.text, kind)
        self.places.setdefault(name.text, name.at)

    def tell_name(self, name: tree.Name) -> None:
        text = f"{len(name.text)} letters" if len(name.text) > LONGEST_NAME else f"`{name.text}`"
        self.report.error(
            name.at,
            f"{text}: no such name",
            f"a name has at most {LONGEST_NAME} letters, digits and `_`, a letter first",
        )

    def unknown(self, name: str, at: At, kinds: Optional[Sequence[Kind]] = None, more: Iterable[str] = ()) -> str:
        """Tells a name that nothing has, with the one that is nearest of what is of these kinds and of `more`, which it
        gives; empty where none is near."""
        names = (it for it, kind in self.kinds.items() if kinds is None or kind in kinds)
        known = {port_of(self.spellings.get(it, it)) for it in names}
        near = meant(name, {*known, *more})
        self.report.error(at, f"`{name}` is not declared here", f"did you mean `{near}`?" if near else "")
        return near

    def no_array(self, place: tree.Place, at: At) -> None:
        """Tells a place with an index that is no channel and no array: with the one that is near, where nothing has this
        name, or else that it is none."""
        name = place.owner or place.name
        wide = {it.split("[")[0] for it in self.kinds if "[" in it}
        wide |= {it for it, type in self.types.items() if isinstance(type, Array)}
        kind = self.kinds.get(name.text)
        if kind is None and name.text in refused.ITSELF:
            self.report.error(name.at, *refused.OF_ITSELF)
        elif kind is None:
            self.report.error(name.at, f"`{name.text}` is not declared here", nearest(name.text, wide))
        else:
            hint = f"`state {name.text}: int[8]` is one" if kind is Kind.VARIABLE else ""
            self.report.error(at, f"`{name.text}` is {kind.value}, and no array: it has no index", hint)

    def element(self, type: Type, place: tree.Place, indices: Sequence[tree.Expression], body: Optional[BodyCheck]) -> Type:
        """Checks what stands in brackets behind a name of this type, and gives the type of what is found there."""
        if not indices:
            return type
        if not isinstance(type, Array):
            self.no_array(place, place.at)
            return INT
        # One index alone counts the cells, line by line.
        if len(indices) not in (1, len(type.sides)):
            name = (place.owner or place.name).text
            hint = f"write `{name}{'[0]' * len(type.sides)}`"
            self.report.error(place.at, f"`{name}` has {count_of(len(type.sides), 'side')}: {len(indices)} in brackets here", hint)
        for it in indices:
            self.of_type(it, INT, body)
            if isinstance(it, (tree.Number, tree.Reference, tree.Unary)):
                self.numbered.append((place, indices))
        return type.of

    def type(self, it: Optional[tree.Name], is_number: bool = True, is_array: bool = False) -> Type:
        """The type of this name, `int` where none stands. What is no type is told, and a struct or an array where none can
        stand."""
        if isinstance(it, tree.Sized):
            return self._array(it, is_number, is_array)
        found = self.named.get(it.text) if it else INT
        if found is None:
            near = nearest(it.text, [*self.named]) or "there are `int`, `bool`, `time` and `fixed`"
            near = refused.TYPES.get(it.text, near)
            self.report.error(it.at, f"there is no type `{it.text}`", near)
        elif is_number and isinstance(found, Struct):
            text = f"`{it.text}` is a struct: only state variables, ports, actions and what is named in bodies have structs"
            self.report.error(it.at, text, "write one for each of its fields")
        if found is None and it.text in refused.WITH_POINT:
            return FIXED
        return INT if found is None or is_number and isinstance(found, Struct) else found

    def type_of_port(self, it: Optional[tree.Name], is_wide: bool = False) -> Type:
        """The type of a port or an action: a struct of numbers may be one, where it has no width."""
        found = self.type(it, is_number=False)
        if not isinstance(found, Struct):
            return found
        if is_wide:
            self.report.error(it.at, f"`{found}` is a struct: a multiport, or an array, has numbers here", "write one for each of its fields")
        elif any(isinstance(each, Array) for each in found.fields.values()):
            self.report.error(it.at, f"`{found}` has an array: a port has numbers, or a struct of numbers")
        else:
            return found
        return INT

    def _array(self, it: tree.Sized, is_number: bool, is_array: bool) -> Type:
        of = self.type(tree.Name(it.text, it.at), is_number)
        if not is_array and it.sides == (None,):
            self.report.error(it.at, "nothing says how many cells this array has", f"write `{it.text}[3]`")
            return of
        if not is_array:
            text = "only state variables, constants, parameters and fields have arrays; ports and actions have those of one side"
            self.report.error(it.at, f"`{it.text}{'[]' * len(it.sides)}` is an array: {text}")
            return of
        if len(it.sides) > MOST_SIDES:
            self.report.error(it.at, f"{len(it.sides)} sides: an array has one or two")
        for place, side in enumerate(it.sides):
            if side is None and place:
                self.report.error(it.at, "only the first side may be left out", "write the others: `int[][4]`")
            elif side is not None:
                self.constant(side, INT)
        return Array(of, it.sides[:MOST_SIDES])

    def constant(self, it: tree.Expression, wanted: Optional[Type] = None) -> Type:
        """Checks an expression that must be constant, and of this type."""
        return self.of_type(it, wanted, None)

    def of_type(self, it: tree.Expression, wanted: Optional[Type], body: Optional[BodyCheck]) -> Type:
        """Checks an expression whose value goes where this type is, and gives the type that it has there."""
        if isinstance(it, tree.List):
            return self.listed(it, wanted)
        found = self.expression(it, body)
        if isinstance(found, Array) and isinstance(wanted, Array):
            if found.of != wanted.of or len(found.sides) != len(wanted.sides):
                self.report.error(it.at, f"this is `{found}`: here belongs `{wanted}`")
            return wanted
        if isinstance(found, Array):
            self.report.error(it.at, "this is an array: here belongs a number", "a cell of it is one: `a[0]`")
            return INT if wanted is None else wanted
        if isinstance(wanted, Array):
            # One number for all cells.
            return self.of_type_of(it, found, wanted.of) and wanted
        return self.of_type_of(it, found, wanted)

    def handed(self, it: tree.Expression, wanted: Type, body: Optional[BodyCheck]) -> None:
        """Checks what a function gets: where that is an array, a number does not do."""
        if not isinstance(wanted, Array):
            self.of_type(it, wanted, body)
            return
        found = self.expression(it, body)
        if not isinstance(found, Array):
            self.report.error(it.at, "this is a number: here belongs an array", "an array is handed on by its name alone")
        elif found.of != wanted.of or len(found.sides) != len(wanted.sides):
            self.report.error(it.at, f"this is `{found}`: here belongs `{wanted}`")

    def listed(self, it: tree.List, wanted: Optional[Type]) -> Type:
        """Checks a list of values: of an array, and in it of its lines."""
        if not isinstance(wanted, Array) or isinstance(wanted.of, Struct):
            hint = f"write `{wanted}(..)`" if isinstance(wanted, Struct) else "write `state a: int[3] = {1, 2, 3};`"
            self.report.error(it.at, "a list stands only where an array of numbers begins", hint)
            return INT if wanted is None else wanted
        for part in it.parts:
            if isinstance(part, tree.List):
                self.listed(part, Array(wanted.of, wanted.sides[1:]) if wanted.sides[1:] else wanted.of)
            elif wanted.sides[1:] and any(isinstance(each, tree.List) for each in it.parts):
                self.report.error(part.at, "this is a number: here belongs a list", "each line is one: `{{1, 2}, {3, 4}}`")
            else:
                self.constant(part, wanted.of)
        return wanted

    def of_type_of(self, it: tree.Expression, found: Type, wanted: Optional[Type]) -> Type:
        """Tells where what was found is not of the wanted type, and gives the type that it has there."""
        if isinstance(found, Struct) and any(isinstance(each, Array) for each in found.fields.values()):
            self.report.error(it.at, f"a `{found}` has an array: only its parts are handed on, one by one")
            return INT if wanted is None else wanted
        if wanted is None or found == wanted or (found, wanted) == (INT, FIXED):
            return found if wanted is None else wanted
        if (found, wanted) == (FIXED, INT):
            hint = "`floor(..)` gives the whole number that is not above it, and `round(..)` the nearest"
            self.report.error(it.at, "this is `fixed`: here belongs an `int`", hint)
        else:
            self.report.error(it.at, f"this is `{found}`: here belongs {article(wanted)}")
        return wanted

    def number(self, it: tree.Expression, body: Optional[BodyCheck]) -> Type:
        """Checks an expression that is no struct and no array."""
        found = self.expression(it, body)
        if isinstance(found, str):
            return found
        if isinstance(found, Array):
            self.report.error(it.at, "this is an array: here belongs a number", "a cell of it is one: `a[0]`")
        else:
            self.report.error(it.at, f"this is a `{found}`: here belongs a number", "a field of it is one: `p.x`")
        return INT

    def numbers(self, parts: Sequence[tree.Expression], body: Optional[BodyCheck]) -> Type:
        """Checks parts of one operation, and gives the type of what it makes of them."""
        return common([self.number(it, body) for it in parts])

    def expression(self, it: tree.Expression, body: Optional[BodyCheck]) -> Type:
        """Checks an expression of a body, or without one a constant, and gives its type."""
        match it:
            case tree.Number():
                return self.literal(it, MOST)
            case tree.Duration():
                self.duration(it)
            case tree.Reference() if body:
                return body.reads(it.name, it.at)
            case tree.Reference():
                return self.constant_name(it)
            case tree.Member():
                return self.member(it, body)
            case tree.Unary("-", tree.Number() as number):
                return self.literal(number, MOST + 1)
            case tree.Unary("~"):
                return self.of_type(it.part, INT, body)
            case tree.Unary():
                found = self.number(it.part, body)
                return found if it.operator == "-" else INT
            case tree.Binary() if it.operator in ON_BITS:
                for part in (it.left, it.right):
                    self.of_type(part, INT, body)
            case tree.Binary():
                found = self.numbers((it.left, it.right), body)
                return found if it.operator in "+-*/%" else INT
            case tree.Choice():
                self.number(it.test, body)
                return self.numbers((it.yes, it.no), body)
            case tree.Call():
                return self.call(it, body)
        return INT

    def literal(self, it: tree.Number, most: int) -> Type:
        if is_fixed(it.text):
            if len(it.text) > 40 or number_of(it.text) > most:
                self.past_64_bits(it.text, it.at)
            return FIXED
        if not re.fullmatch(r"0|[1-9][0-9]*", it.text):
            hint = "a number has digits alone, and begins with no 0; of a `fixed` one a dot stands between digits"
            plain = refused.plain_number(it.text)
            self.report.error(it.at, f"`{it.text}` is no number", f"write `{plain}`" if plain else hint)
        elif len(it.text) > len(str(most)) or int(it.text) > most:
            self.past_64_bits(it.text, it.at)
        return INT

    def past_64_bits(self, text: str, at: At) -> None:
        self.report.error(at, f"`{text}` is past 64 bits", f"the greatest number is {MOST}")

    def duration(self, it: tree.Duration) -> None:
        if self.unit is None:
            text, hint = f"`{it.text}`: the program states no unit of time", "write `target warpd { unit: 1 ms, .. }`"
            self.report.error_once(it.at, "no unit", text, hint)
        elif it.nanoseconds % self.unit:
            self.report.error(
                it.at,
                f"`{it.text}` is no whole number of the program's unit",
                "take a smaller `unit` in `target warpd`",
            )
        elif it.nanoseconds // self.unit > MOST:
            self.past_64_bits(it.text, it.at)

    def constant_name(self, it: tree.Reference) -> Type:
        kind = self.kinds.get(it.name)
        if kind is None and it.name in refused.VALUES:
            self.report.error(it.at, *refused.VALUES[it.name])
        elif kind is None:
            self.unknown(it.name, it.at, CONSTANTS)
        elif kind not in CONSTANTS:
            self.report.error(
                it.at, f"`{it.name}` is {kind.value}: here belongs what is constant", "parameters and `const` are"
            )
        return self.types.get(it.name, INT)

    def is_tag(self, place: tree.Place) -> bool:
        """Whether this is a part of the tag: `lf.time`."""
        own = self.types.get("lf") if "lf" in self.kinds else None
        is_plain = not place.indices and not place.owner_indices
        return bool(place.owner) and place.owner.text == "lf" and is_plain and not isinstance(own, Struct)

    def tag(self, it: tree.Member, body: Optional[BodyCheck]) -> Type:
        name = it.place.name
        if name.text not in TAG:
            hint = nearest(name.text, TAG) or "`lf.time` and `lf.microstep` are there"
            self.report.error(it.at, f"`lf.{name.text}` is not there", hint)
        elif body is None or body.constant:
            self.report.error(it.at, f"`{it.place}` is no constant")
        return INT

    def member(self, it: tree.Member, body: Optional[BodyCheck]) -> Type:
        """Checks `p.x` of a struct, `a[i]` of an array, and what is both."""
        place = it.place
        if self.is_tag(place):
            return self.tag(it, body)
        if not place.owner:
            return self.element(self._indexed(place, body), place, place.indices, body)
        if place.owner.text in self.enums and not place.indices:
            self.report.error(it.at, *(text.format(place.owner.text, place.name.text) for text in refused.OF_ENUM))
        elif body is None:
            self.report.error(it.at, f"`{place}`: here belongs what is constant", "parameters and `const` are")
        else:
            owner, name = place.owner, place.name.text
            kind = body.kind_of(owner.text)
            if kind in TRIGGERS and name in refused.PARTS:
                self.report.error(it.at, *(text.format(owner.text) for text in refused.PARTS[name]))
                return INT
            if name in refused.WIDTHS and f"{owner.text}_width" in self.kinds:
                self.report.error(it.at, *(text.format(owner.text, name) for text in refused.OF_WIDTH))
            elif kind is None and not place.indices and not place.owner_indices:
                self.report.error(it.at, *refused.no_instance(owner.text))
            elif kind is None:
                self.no_array(place, it.at)
            else:
                return self.part(body.reads(owner.text, owner.at), place, body)
        return INT

    def _indexed(self, place: tree.Place, body: Optional[BodyCheck]) -> Type:
        """The type of the name before an index."""
        name = place.name.text
        kind = body.kind_of(name) if body else self.kinds.get(name)
        if kind is None or not body and kind not in CONSTANTS:
            if kind is None:
                self.no_array(place, place.at)
            else:
                self.constant_name(tree.Reference(name, place.name.at))
            return Array(INT, (None,) * len(place.indices))
        type = body.type_of(name) if body else self.types.get(name, INT)
        if body and isinstance(type, Array):
            body.reads(name, place.name.at)
        return type

    def part(self, type: Type, place: tree.Place, body: Optional[BodyCheck]) -> Type:
        """The type of a part of what has this type: `s.x`, `s.cells[i]`, `players[i].x`, `players[i].cells[j]`."""
        if isinstance(type, Array) and not place.owner_indices:
            of_structs = isinstance(type.of, Struct)
            hint = f"write `{place.owner.text}[0].{place.name.text}`" if of_structs else "how many cells it has is a constant: `const SIZE = 8`"
            text = f"`{place.owner.text}` is an array: it has " + ("an index" if of_structs else f"no `{place.name.text}`")
            self.report.error(place.at, text, hint)
            return INT
        found = self.field(self.element(type, place, place.owner_indices, body), place)
        if isinstance(found, Array) and not place.indices and isinstance(type, Array):
            self.report.error(place.at, f"`{place}` is an array: it has an index here")
            return INT
        return self.element(found, place, place.indices, body)

    def field(self, type: Type, place: tree.Place) -> Type:
        """The type of a field of what has this type."""
        name = place.name.text
        if not isinstance(type, Struct):
            self.report.error(place.at, f"`{place.owner.text}` is no struct: it has no `{name}`")
        elif name not in type.fields:
            hint = nearest(name, type.fields) or f"it has {listed(f'`{it}`' for it in type.fields)}"
            self.report.error(place.name.at, f"{type} has no field `{name}`", hint)
        else:
            return type.fields[name]
        return INT

    def call(self, it: tree.Call, body: Optional[BodyCheck]) -> Type:
        name = it.name.text
        if name in self.routines and body:
            return body.calls(it, is_value=True)
        if isinstance(self.named.get(name), Struct):
            return self.made(it, self.named[name], body)
        if name in STATEMENTS:
            self.report.error(it.name.at, f"`{name}` is a statement: it has no value")
        elif name in self.routines:
            self.report.error(it.at, f"`{name}` is no constant: a function stands in bodies alone")
        elif name not in FUNCTIONS:
            self.no_function(it)
        elif self.has_parts(it, *FUNCTIONS[name]):
            if name != "present":
                return self.numbers_of(name, it.parts, body)
            self.present(it, body)
        return INT

    def numbers_of(self, name: str, parts: Sequence[tree.Expression], body: Optional[BodyCheck]) -> Type:
        if name in ON_WHOLE:
            for part in parts:
                self.of_type(part, INT, body)
            return INT
        found = self.numbers(parts, body)
        return {"floor": INT, "round": INT, "fixed": FIXED}.get(name, found)

    def no_function(self, it: tree.Call) -> None:
        name = it.name.text
        if name in refused.CALLS:
            text, hint = refused.CALLS[name]
            part = it.parts[0].text if it.parts and isinstance(it.parts[0], tree.Number) else "5"
            self.report.error(it.name.at, text.format(name), hint.format(part))
            return
        near = nearest(name, [*FUNCTIONS, *self.routines]) or f"there are {listed(f'`{each}`' for each in FUNCTIONS)}"
        self.report.error(it.name.at, f"no function `{name}`", near)

    def made(self, it: tree.Call, struct: Struct, body: Optional[BodyCheck]) -> Type:
        """Checks `Point(1, 2)`."""
        if self.has_parts(it, len(struct.fields), len(struct.fields)):
            for part, wanted in zip(it.parts, struct.fields.values()):
                self.of_type(part, wanted, body)
        return struct

    def has_parts(self, it: tree.Call, least: int, most: Optional[int]) -> bool:
        if least <= len(it.parts) and (most is None or len(it.parts) <= most):
            return True
        wanted = f"{least} or {most or 'more'} parts" if most != least else count_of(least, "part")
        self.report.error(it.at, f"`{it.name.text}` takes {wanted} in its brackets, and has {len(it.parts)}")
        return False

    def present(self, it: tree.Call, body: Optional[BodyCheck]) -> None:
        (part,) = it.parts
        if isinstance(part, tree.Member) and (part.place.index or part.place.owner_index):
            self.no_array(part.place, part.at)
        elif not isinstance(part, tree.Reference):
            self.report.error(
                part.at,
                "`present` asks for a name",
                f"of {listed((kind.value for kind in TRIGGERS[:3]), 'or')}, or `startup`",
            )
        elif body is None:
            self.report.error(it.at, "`present` is not constant")
        elif self.kinds.get(part.name) is None:
            self.unknown(part.name, part.at, TRIGGERS)
        elif self.kinds[part.name] is Kind.OUTPUT:
            body.reads_output(part.name, part.at)
        elif self.kinds[part.name] not in TRIGGERS:
            self.report.error(part.at, f"`{part.name}` is {self.kinds[part.name].value}: it is always there")
        else:
            body.is_declared(part.name, part.at)
