"""The tree of a program's text, as it was written: each part knows where it stands."""

from __future__ import annotations

from dataclasses import dataclass, is_dataclass
from typing import NamedTuple, Optional, Union


class At(NamedTuple):
    """A place in the text: line and column from 1, and how many characters of that line are meant."""

    line: int
    column: int
    width: int = 1

    def to(self, end: At) -> At:
        """From here to the end of another place of the same line; else this place alone."""
        if end.line != self.line or end.column < self.column:
            return self
        return self._replace(width=end.column + end.width - self.column)


@dataclass(frozen=True)
class Name:
    text: str
    at: At


@dataclass(frozen=True)
class Sized(Name):
    """The name of a type with the sides of an array: of `int[8][4]` two. A side is None where it is left to the start."""

    sides: tuple[Optional[Expression], ...] = ()


@dataclass(frozen=True)
class Place:
    """`port`, or `instance.port`; either may have an index, and an array of several sides more of them. `interleaved`
    goes over the instances of a bank first. A mode has the word of the transition to it, `reset` or `history`."""

    owner: Optional[Name]
    name: Name
    owner_index: Optional[Expression] = None
    index: Optional[Expression] = None
    is_interleaved: bool = False
    transition: str = ""
    owner_more: tuple[Expression, ...] = ()
    more: tuple[Expression, ...] = ()

    @property
    def owner_indices(self) -> tuple[Expression, ...]:
        """All that stands in brackets behind the owner."""
        return (self.owner_index, *self.owner_more) if self.owner_index is not None else ()

    @property
    def indices(self) -> tuple[Expression, ...]:
        """All that stands in brackets behind the name."""
        return (self.index, *self.more) if self.index is not None else ()

    @property
    def at(self) -> At:
        return self.owner.at.to(self.name.at) if self.owner else self.name.at

    @property
    def is_plain(self) -> bool:
        """Whether it is a name alone."""
        return not self.owner and not self.index and not self.is_interleaved

    def __str__(self) -> str:
        return f"{self.owner.text}.{self.name.text}" if self.owner else self.name.text


@dataclass(frozen=True)
class Number:
    """A number as it is written: it may be past the range of 64 bits."""

    text: str
    at: At


@dataclass(frozen=True)
class Duration:
    """A time with a unit, in nanoseconds."""

    nanoseconds: int
    text: str
    at: At


@dataclass(frozen=True)
class Reference:
    name: str
    at: At


@dataclass(frozen=True)
class Member:
    """The value of a place that is no name alone: `a[1]`, `inner.y`, `inner[0].y[1]`, and `p.x` of a struct."""

    place: Place
    at: At


@dataclass(frozen=True)
class Unary:
    operator: str
    part: Expression
    at: At


@dataclass(frozen=True)
class Binary:
    operator: str
    left: Expression
    right: Expression
    at: At


@dataclass(frozen=True)
class Choice:
    test: Expression
    yes: Expression
    no: Expression
    at: At


@dataclass(frozen=True)
class Call:
    name: Name
    parts: tuple[Expression, ...]
    at: At


@dataclass(frozen=True)
class List:
    """`{1, 2}`: the values with which an array begins."""

    parts: tuple[Expression, ...]
    at: At


Expression = Union[Number, Duration, Reference, Member, Unary, Binary, Choice, Call, List]


@dataclass(frozen=True)
class Let:
    """`let name = value;`, or `var name = value;`, which may be assigned."""

    name: Name
    type: Optional[Name]
    value: Expression
    is_variable: bool = False


@dataclass(frozen=True)
class Assign:
    """`name = value;`, or with an operator before the `=`. The name is a place where it has an index or an owner."""

    name: Union[Name, Place]
    operator: Optional[str]
    value: Expression


@dataclass(frozen=True)
class Invoke:
    """`put(output, value);` or `schedule(action, delay, value);`."""

    call: Call


@dataclass(frozen=True)
class If:
    test: Expression
    yes: tuple[Statement, ...]
    no: tuple[Statement, ...]


@dataclass(frozen=True)
class Block:
    statements: tuple[Statement, ...]


@dataclass(frozen=True)
class Loop:
    """`for (let i = 0; test; i += 1) ..`. `first` is for the first turn, and `step` makes the next one. Where it says how
    many turns there are at `most`, none of them need be constant."""

    first: Let
    test: Expression
    step: Assign
    body: tuple[Statement, ...]
    at: At
    most: Optional[Expression] = None


@dataclass(frozen=True)
class While:
    """`while (test; most 100) ..`. `most` is None where it is missing, which is a mistake."""

    test: Expression
    most: Optional[Expression]
    body: tuple[Statement, ...]
    at: At


@dataclass(frozen=True)
class Leave:
    """`return value;`, `return;`, `break;` or `continue;`."""

    word: str
    value: Optional[Expression]
    at: At


Statement = Union[Let, Assign, Invoke, If, Block, Loop, While, Leave]


@dataclass(frozen=True)
class Function:
    """`type` is None where a function has no value. `body` is None where it could not be read."""

    name: Name
    is_method: bool
    parameters: tuple[Parameter, ...]
    type: Optional[Name]
    body: Optional[tuple[Statement, ...]]


@dataclass(frozen=True)
class Enumerator:
    name: Name
    value: Optional[Expression]


@dataclass(frozen=True)
class Enum:
    name: Name
    parts: tuple[Enumerator, ...]


@dataclass(frozen=True)
class Struct:
    """A group of variables; the fields are written as a reactor's state is."""

    name: Name
    fields: tuple[State, ...]


@dataclass(frozen=True)
class Parameter:
    name: Name
    type: Optional[Name]
    default: Optional[Expression]


@dataclass(frozen=True)
class State:
    """`is_reset` says that a reset of its mode gives it its start again, `called` how it is told of where that is not its
    name, `is_hidden` that it is told to nobody who does not ask, `is_own` that it is the compiler's own."""

    name: Name
    type: Optional[Name]
    start: Optional[Expression]
    is_reset: bool = False
    is_hidden: bool = False
    called: str = ""
    is_own: bool = False


@dataclass(frozen=True)
class Ports:
    """`input a, b`, `output y`; at main also with a dot, and inputs with the origin that owns them."""

    origin: Optional[Expression]
    is_input: bool
    places: tuple[Place, ...]
    type: Optional[Name]
    at: At
    width: Optional[Expression] = None
    called: str = ""


@dataclass(frozen=True)
class Action:
    """`width` is that of an array, `is_own` says that it is the compiler's own, `is_in_mode` that a mode has it."""

    name: Name
    arguments: tuple[Expression, ...]
    type: Optional[Name]
    called: str = ""
    is_own: bool = False
    width: Optional[Expression] = None
    is_in_mode: bool = False


@dataclass(frozen=True)
class Timer:
    name: Name
    arguments: tuple[Expression, ...]
    called: str = ""


@dataclass(frozen=True)
class Reaction:
    """`body` is None where it could not be read."""

    on: tuple[Place, ...]
    reads: tuple[Place, ...]
    writes: tuple[Place, ...]
    body: Optional[tuple[Statement, ...]]
    at: At


@dataclass(frozen=True)
class Argument:
    """`name` is None where a value stands alone, which is a mistake."""

    name: Optional[Name]
    value: Expression


@dataclass(frozen=True)
class Instance:
    """An instance, or with a width a bank of them."""

    name: Name
    reactor: Name
    arguments: tuple[Argument, ...]
    width: Optional[Expression] = None
    called: str = ""


@dataclass(frozen=True)
class Connection:
    """Sources and targets side by side; of a broadcast the sources begin anew until each target has one."""

    sources: tuple[Place, ...]
    targets: tuple[Place, ...]
    is_broadcast: bool
    after: Optional[Expression]
    at: At


@dataclass(frozen=True)
class Mode:
    name: Name
    is_initial: bool
    members: tuple[Part, ...]


Part = Union[State, Ports, Action, Timer, Reaction, Instance, Connection, Function, Mode]


def names_of(it: Union[Parameter, Part]) -> list[str]:
    """The names that a parameter or a member declares."""
    if isinstance(it, Ports):
        return [place.name.text for place in it.places if not place.owner]
    name = getattr(it, "name", None)
    return [name.text] if name else []


@dataclass(frozen=True)
class Reactor:
    name: Optional[Name]
    is_main: bool
    parameters: tuple[Parameter, ...]
    members: tuple[Part, ...]
    at: At
    extends: tuple[Name, ...] = ()

    def every(self, kind: type) -> list:
        """The members of this kind, in the order of the text."""
        return [it for it in self.members if isinstance(it, kind)]


@dataclass(frozen=True)
class Constant:
    name: Name
    type: Optional[Name]
    value: Expression


@dataclass(frozen=True)
class Property:
    name: Name
    value: Expression


@dataclass(frozen=True)
class Imported:
    """A reactor of another file, and the name that it has here."""

    name: Name
    here: Name


@dataclass(frozen=True)
class Import:
    reactors: tuple[Imported, ...]
    path: str
    at: At


@dataclass(frozen=True)
class File:
    target: Optional[Name]
    properties: tuple[Property, ...]
    constants: tuple[Constant, ...]
    reactors: tuple[Reactor, ...]
    types: tuple[Union[Enum, Struct], ...] = ()
    functions: tuple[Function, ...] = ()
    imports: tuple[Import, ...] = ()
    # The `test` blocks, as words: the compiler passes them over.
    tests: tuple = ()
    # Whether it has something that may need version 4 of program files.
    may_need_later: bool = False

    @property
    def at(self) -> At:
        return self.target.at if self.target else At(1, 1)


def size_of(it: object, known: dict[int, tuple[object, int]]) -> int:
    """How many parts a part of the tree has; one that stands at several places is counted at each. `known` keeps what was counted, by its
    `id`, with the part itself."""
    if id(it) not in known:
        inner = it if type(it) is tuple else vars(it).values()
        size = 1 + sum(size_of(each, known) for each in inner if type(each) is tuple or is_dataclass(each))
        known[id(it)] = it, size
    return known[id(it)][1]
