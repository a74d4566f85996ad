"""A program as it is compiled: the reactors of the text, their instances, and what main connects."""

from __future__ import annotations

import re
from collections import ChainMap
from collections.abc import Collection, Iterable
from dataclasses import dataclass, field
from typing import TYPE_CHECKING, NamedTuple, Optional

from . import tree
from .arrays import Start, started
from .bodies import BodyCheck
from .faults import Report, as_written
from .lowering import Made, Maker
from .routines import Routine
from .scope import LONGEST_NAME, Scope
from .tree import At
from .types import INT, Array, Type
from .values import Parts

if TYPE_CHECKING:
    from .connecting import Net
    from .hierarchy import Node


class Limits(NamedTuple):
    """What the versions of program files differ in."""

    stop: int
    delay: int
    origins: int


LIMITS = {
    1: Limits(1_000_000, 1_000_000, 32),
    2: Limits(10_000_000, 10_000_000, 64),
    3: Limits(15_624_999, 15_624_999, 64),
    4: Limits(15_624_999, 15_624_999, 64),
}
# The version that a program has where nothing says one, and the one that it has where it needs more than that.
PLAIN, LATER = 2, 4


class NeedsLater(Exception):
    """The program needs version 4, and nothing says which one it has."""


def joined(path: Iterable[str], taken: Collection[str] = ()) -> str:
    """A path as one name of a program file that is not taken: `outer_inner_1` of `outer`, `inner[1]`. Where it is too
    long the longest names in it are cut."""
    parts = [re.split(r"(?=[.[])", it, maxsplit=1) for it in path]
    names, ends = [it[0] for it in parts], [re.sub(r"[.[]", "_", "".join(it[1:])).replace("]", "") for it in parts]
    # A letter more is left, which the loop takes.
    names = [it if len(it) <= LONGEST_NAME + 1 else it[:LONGEST_NAME + 1].rstrip("_") for it in names]
    while len(name := "_".join(map("".join, zip(names, ends)))) > LONGEST_NAME and max(map(len, names)) > 1:
        longest = max(range(len(names)), key=lambda it: len(names[it]))
        names[longest] = names[longest][:-1].rstrip("_")
    first, number = name[:LONGEST_NAME], 1
    name = first
    while name in taken:
        number += 1
        name = f"{first[:LONGEST_NAME - len(f'_{number}')]}_{number}"
    return name


@dataclass(eq=False)
class Class:
    """A reactor of the text, checked."""

    tree: tree.Reactor
    scope: Scope
    reactions: list[BodyCheck] = field(default_factory=list)
    is_good: bool = True
    is_checked: bool = False
    flat: dict[str, str] = field(default_factory=dict)
    # The names of a program file that `flat` has given.
    given: dict[str, str] = field(default_factory=dict)
    methods: list[Routine] = field(default_factory=list)

    @property
    def name(self) -> str:
        return self.tree.name.text if self.tree.name else "main"

    def ports(self, is_input: bool) -> list[tree.Name]:
        """The ports of its own, in the order of the text."""
        lists = [it.places for it in self.tree.every(tree.Ports) if it.is_input == is_input]
        return [place.name for places in lists for place in places if not place.owner]

    def names(self, is_input: bool) -> list[str]:
        return [it.text for it in self.ports(is_input)]

    def file_name(self, name: str) -> str:
        """What a program file calls a port: `a_1` for `a[1]`, `inner_y` for `inner.y`."""
        if "[" not in name and "." not in name:
            return name
        if name not in self.flat:
            self.flat[name] = flat = joined([name], ChainMap(self.scope.places, self.given))
            self.given[flat] = name
        return self.flat[name]


@dataclass
class Instance:
    """`title` is how it is told of, `is_added` says that the text has it not. `reactor` is what stands in the program
    file; the last `kept` of its variables are the compiler's own."""

    name: str
    of: Class
    constants: dict[str, int]
    at: At
    title: str = ""
    reactor: dict = field(default_factory=dict)
    kept: int = 0
    is_added: bool = False
    # In version 4: what it is called for people where that is not its name, and how all that it has is called, each where
    # that is not its name.
    called: str = ""
    names: dict[str, str] = field(default_factory=dict)
    hidden: list[str] = field(default_factory=list)
    # The sides of its arrays; and whether the text says what it is called.
    sides: dict[str, tuple[int, ...]] = field(default_factory=dict)
    is_called: bool = False

    def told(self, port: str) -> str:
        """A port as the text names it."""
        names = {flat: as_written(name) for name, flat in self.of.flat.items()}
        return f"{self.title}.{names.get(port, port)}"


class Port(NamedTuple):
    """A port of an instance, as a program file names it."""

    instance: str
    name: str

    def __str__(self) -> str:
        return f"{self.instance}.{self.name}"


class Link(NamedTuple):
    source: Port
    target: Port
    delay: Optional[int]
    at: At


class Owned(NamedTuple):
    """A program input."""

    origin: int
    port: Port
    at: At


class Shown(NamedTuple):
    """A program output."""

    port: Port
    at: At


@dataclass
class Program:
    """`unit` is in nanoseconds, None where the text states none; `origins` is 0 until it is known. `is_exact` says that
    nothing is executed behind microstep 0 of the stop, `is_whole` that there is no fault outside of reactors. `scope`
    has what is declared there, `root` the hierarchy of instances as it was written, `net` what connects them, `written`
    the reactors with their modes, by the `id` of what is compiled of them."""

    at: At
    version: int = PLAIN
    is_stated: bool = False
    stop: int = 0
    is_exact: bool = True
    is_whole: bool = True
    origins: int = 0
    unit: Optional[int] = None
    constants: dict[str, int] = field(default_factory=dict)
    scope: Optional[Scope] = None
    unused: list[Class] = field(default_factory=list)
    instances: dict[str, Instance] = field(default_factory=dict)
    links: list[Link] = field(default_factory=list)
    inputs: list[Owned] = field(default_factory=list)
    outputs: list[Shown] = field(default_factory=list)
    root: Optional[Node] = None
    net: Optional[Net] = None
    written: dict[int, tree.Reactor] = field(default_factory=dict)
    # What may still be written out: of instances with their headers and choices by an index, and of bodies.
    structure: Parts = field(default_factory=Parts)
    bodies: Parts = field(default_factory=Parts)
    # How large parts of the tree are, by their `id`; and what was worked through once, so that it counts from then on.
    sizes: dict[int, tuple[object, int]] = field(default_factory=dict)
    seen: set[int] = field(default_factory=set)

    @property
    def limits(self) -> Limits:
        return LIMITS[self.version]

    @property
    def is_later(self) -> bool:
        return self.version >= LATER

    def needs_later(self) -> None:
        """The program needs version 4: that ends the work on it, where it may have this version."""
        if not self.is_stated and not self.is_later:
            raise NeedsLater

    def ranged(self, report: Report, value: Optional[int], limit: str, at: At, what: str) -> int:
        """The value of a time, 0 to this limit of the version; where it is more, a later version that takes it is told."""
        later = [it for it in LIMITS if it > self.version and value is not None and value <= getattr(LIMITS[it], limit)]
        hint = f"in version {later[0]} it may be: " if later else ""
        hint += "" if not later else "leave `version: 1` out" if later[0] == 2 else f"write `target warpd {{ version: {later[0]}, .. }}`"
        return ranged(report, value, 0, getattr(self.limits, limit), at, what, hint if later and value > 0 else "")

    def lowered(self, it: tree.Expression, names: dict[str, int], scope: Scope, wanted: Optional[Type] = None) -> Made:
        """The value of a constant that was checked, as one of this type."""
        if isinstance(wanted, Array):
            return self.started(it, wanted, names, scope, it.at).cells("")
        maker = Maker(names, scope.types, self.unit or 1, scope.named)
        maker.left = self.structure.left
        made = maker.value(it, wanted)
        self.structure.left = maker.left
        return made

    def constant(
        self, scope: Scope, it: tree.Expression, names: dict[str, int], wanted: Optional[Type] = INT
    ) -> Optional[int]:
        """Checks a constant of this type, and gives its value; None where it is wrong."""
        before = scope.report.errors
        scope.constant(it, wanted)
        return self.lowered(it, names, scope, wanted) if scope.report.errors == before else None

    def started(
        self, it: Optional[tree.Expression], wanted: Array, names: dict[str, int], scope: Scope, at: At
    ) -> Start:
        """What an array begins with, of a start that was checked."""
        def number(each: tree.Expression, type: Type) -> int:
            return self.lowered(each, names, scope, type)

        return started(it, wanted, number, names, scope.report, at)

    def told(self, port: Port) -> str:
        """A port as the text names it."""
        return self.instances[port.instance].told(port.name)

    def file(self) -> dict:
        """The program file."""
        lists = {
            "links": [[str(it.source), str(it.target)] + [it.delay] * (it.delay is not None) for it in self.links],
            "inputs": [[it.origin, str(it.port)] for it in self.inputs],
            "outputs": [str(it.port) for it in self.outputs],
        }
        made = {"version": self.version, "stop": self.stop, "origins": self.origins}
        made["reactors"] = [it.reactor for it in self.instances.values()]
        return {**made, **{key: value for key, value in lists.items() if value}}

    def names(self, is_flat: bool = False) -> dict:
        """What each number of a line or a reply names: the place in its list is the number. Flat names are those of the
        program file, others those by which it is told of them in version 4."""
        def named(instance: str, name: str) -> str:
            it = self.instances[instance]
            return f"{instance}.{name}" if is_flat else f"{it.called or instance}.{it.names.get(name, name)}"

        variables = [(name, each) for name, it in self.instances.items() for each, _ in it.reactor.get("vars", ())]
        found = {
            "vars": [named(*it) for it in variables],
            "inputs": [[it.origin, named(*it.port)] for it in self.inputs],
            "outputs": [named(*it.port) for it in self.outputs],
        }
        if not self.is_later:
            return found
        arrays, first = [], len(variables)
        for name, it in self.instances.items():
            for each, count, _ in it.reactor.get("arrays", ()):
                arrays.append([named(name, each), first, count])
                first += count
        hidden = [number for number, (name, each) in enumerate(variables) if each in self.instances[name].hidden]
        return {**found, "arrays": arrays, "hidden": hidden}


def ranged(
    report: Report, value: Optional[int], least: int, most: int, at: At, what: str, hint: str = ""
) -> int:
    """The value, or the least one where it is out of range, which is told."""
    if value is None or least <= value <= most:
        return least if value is None else value
    report.error(at, f"{what} is {value}: {least} to {most} is allowed", hint)
    return least
