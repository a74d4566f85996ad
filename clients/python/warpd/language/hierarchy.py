"""The hierarchy of instances: what main has, what that has in turn, with the parameters and widths of each."""

from __future__ import annotations

from collections.abc import Iterator, Mapping
from dataclasses import dataclass, field, replace
from functools import cached_property
from typing import TYPE_CHECKING, Optional

from . import tree
from .faults import Report, listed, nearest
from .model import Class, Instance, Program, ranged
from .scope import Kind, Scope
from .sources import Sources
from .tree import At
from .types import INT, Array, Struct
from .values import Cells

if TYPE_CHECKING:
    from .places import Point

MOST_WIDTH, MOST_NODES = 256, 1_024
INDEX, WIDTH = "bank_index", "_width"


@dataclass(eq=False)
class Node:
    """An instance of the hierarchy, main itself at its root. `raw` is its reactor as it was written, `form` as it is
    compiled: without what it contains, and with a port for each channel. `widths` has those of its multiports and of
    its banks; `parts` the instances that it contains, by the name of each. `heard` are the ports of these
    that its reactions read, by what they are called there, and `fed` those that they put on. `flat` is None where
    nothing of it is left."""

    path: tuple[str, ...]
    raw: Class
    constants: dict[str, int]
    at: At
    widths: dict[str, int] = field(default_factory=dict)
    parts: dict[str, list[Node]] = field(default_factory=dict)
    form: Optional[Class] = None
    heard: dict[str, Point] = field(default_factory=dict)
    fed: dict[str, Point] = field(default_factory=dict)
    flat: Optional[Instance] = None
    # How the text says that it is told of; of a bank nothing says so.
    called: str = ""

    @property
    def title(self) -> str:
        return ".".join(self.path)

    @property
    def is_main(self) -> bool:
        return self.raw.tree.is_main

    @cached_property
    def contains(self) -> bool:
        """Whether there is more in it than its own members."""
        return bool(self.raw.tree.every(tree.Instance) or self.raw.tree.every(tree.Connection))

    @cached_property
    def connected(self) -> set[str]:
        """The names of its own ports that its connections name."""
        lists = [(*it.sources, *it.targets) for it in self.raw.tree.every(tree.Connection)]
        return {place.name.text for places in lists for place in places if not place.owner}

    @cached_property
    def scope(self) -> Scope:
        """The names of its reactor, and those of its widths."""
        return self.raw.scope.with_constants(self.constants)

    @property
    def is_known(self) -> bool:
        """Whether its reactor is in the text."""
        return self.raw.is_good or bool(self.raw.tree.members)

    def kind(self, name: str) -> Optional[Kind]:
        return self.raw.scope.kinds.get(name)

    def ports(self, wanted: Kind) -> list[str]:
        """The names of its ports of this kind, as they were declared."""
        return [it.text for it in self.raw.ports(wanted is Kind.INPUT)]

    def channels(self, name: str) -> list[str]:
        """The ports that one declared port is: of a multiport its channels, of a struct its fields."""
        struct = self.struct(name)
        inner = range(self.widths[name]) if name in self.widths else struct.fields if struct else None
        return [name] if inner is None else [f"{name}[{it}]" for it in inner]

    def struct(self, name: str) -> Optional[Struct]:
        """The struct that a port or an action of its own has values of."""
        found = self.raw.scope.types.get(name)
        return found if isinstance(found, Struct) and self.kind(name) in (Kind.INPUT, Kind.OUTPUT, Kind.ACTION) else None

    def every(self) -> Iterator[Node]:
        """It and all that it contains, the outer ones first, in the order of the text."""
        yield self
        for bank in self.parts.values():
            for it in bank:
                yield from it.every()


class Hierarchy:
    """Makes the nodes of a program."""

    def __init__(self, raws: Mapping[int, Class], sources: Sources, program: Program, report: Report):
        """`raws` has the class of each reactor, by the `id` of its tree."""
        self.raws, self.sources, self.program, self.report = raws, sources, program, report
        self.used: set[int] = set()
        self.count = 0

    def root(self, raw: Class) -> Node:
        """The node of main, or of a reactor that has no instance, with all that it contains."""
        root = Node((), raw, self._constants(raw, {}, raw.tree.at, raw.tree.is_main), raw.tree.at)
        self._fill(root, (raw,))
        return root

    def _fill(self, node: Node, around: tuple[Class, ...]) -> None:
        for it in node.raw.tree.every(tree.Ports):
            if it.width:
                width = self._width(node, it.width, node.raw.scope)
                node.widths.update({place.name.text: width for place in it.places if not place.owner})
        for it in node.raw.tree.every(tree.Action):
            if it.width:
                node.widths[it.name.text] = self._width(node, it.width, node.raw.scope)
        size = 1 + len(node.raw.tree.members) + len(node.raw.tree.parameters) + sum(node.widths.values())
        self.program.structure.take(size, node.at, "the instances with their members and channels come to too many parts")
        for it in node.raw.tree.every(tree.Instance):
            self._instance(node, it, around)
        for name, width in node.widths.items():
            if node.raw.scope.kinds.get(name + WIDTH) in (None, Kind.CONSTANT):
                node.constants[name + WIDTH] = width

    def _width(self, node: Node, it: tree.Expression, scope: Scope) -> int:
        value = self.program.constant(scope, it, node.constants)
        if not node.raw.is_good and not value:
            # Of a parameter with a fault.
            return 1
        return ranged(self.report, value, 1, MOST_WIDTH, it.at, "the width")

    def _instance(self, node: Node, it: tree.Instance, around: tuple[Class, ...]) -> None:
        name, scope = it.name.text, node.raw.scope
        if name in node.parts:
            first = self.report.place(node.parts[name][0].at)
            self.report.error(it.name.at, f"`{name}` stands twice", f"first at {first}")
            return
        raw = self._reactor(it, around)
        members = [""]
        if it.width:
            node.widths[name] = self._width(node, it.width, scope)
            members = [f"[{number}]" for number in range(node.widths[name])]
        node.parts[name] = []
        for number, label in enumerate(members):
            self.count += 1
            if self.count > MOST_NODES:
                if self.count == MOST_NODES + 1:
                    self.report.error(it.name.at, f"more than {MOST_NODES} instances")
                return
            given = self._given(node, it, raw, number if it.width else None)
            constants = self._constants(raw, given, it.name.at, all(each.name for each in it.arguments))
            part = Node((*node.path, name + label), raw, constants, it.name.at, called=it.called and it.called + label)
            node.parts[name].append(part)
            self._fill(part, (*around, raw))

    def _reactor(self, it: tree.Instance, around: tuple[Class, ...]) -> Class:
        """The reactor of an instance; one that is not there, or is around it, is told."""
        name, found = it.reactor.text, self.sources.reactor(it.reactor)
        raw = self.raws.get(id(found))
        if raw:
            self.used.add(id(found))
        if raw and raw not in around:
            return raw
        if raw:
            way = " in ".join(f"`{each.name}`" for each in around[around.index(raw):][::-1])
            self.report.error(it.reactor.at, f"`{name}` contains itself: an instance of it stands in {way}")
        else:
            hint = nearest(name, self.sources.names(it.reactor.at)) or "a reactor is declared by `reactor NAME { .. }`"
            self.report.error(it.reactor.at, f"there is no reactor `{name}`", hint)
        return Class(tree.Reactor(it.reactor, False, (), (), it.reactor.at), Scope(self.report, None), is_good=False)

    def _given(self, node: Node, it: tree.Instance, of: Class, index: Optional[int]) -> dict[str, int]:
        """The parameters that stand in the brackets of an instance; in a bank each has its index there, where
        the reactor around has no parameter of this name."""
        given: dict[str, int] = {}
        parameters = [each.name.text for each in of.tree.parameters]
        is_known = of.is_good or of.tree.members
        names, scope = node.constants, node.raw.scope
        if index is not None and INDEX not in names:
            names, scope = {**names, INDEX: index}, scope.with_constants({INDEX: index})
        for place, argument in enumerate(it.arguments):
            if not argument.name:
                self._unnamed(argument, parameters[place:place + 1])
                continue
            name, at = argument.name.text, argument.name.at
            wanted = of.scope.types.get(name, INT)
            value = self.program.constant(scope, argument.value, names, wanted)
            if value is None and isinstance(wanted, Array):
                value = Cells(name, (1,) * len(wanted.sides), (0,))
            if name in given:
                self.report.error(at, f"`{name}` stands twice")
            elif name not in parameters and is_known:
                hint = nearest(name, parameters) or f"it has {listed(parameters) if parameters else 'none'}"
                self.report.error(at, f"{of.name} has no parameter `{name}`", hint)
            given[name] = replace(value, name=name) if isinstance(value, Cells) else value or 0
        if index is not None and INDEX in parameters:
            given.setdefault(INDEX, index)
        return given

    def _unnamed(self, argument: tree.Argument, parameters: list[str]) -> None:
        """Tells a value without the name of its parameter: the one that stands at this place."""
        value = argument.value.text if isinstance(argument.value, (tree.Number, tree.Duration)) else ".."
        hint = "".join(f"write `{it} = {value}`" for it in parameters)
        self.report.error(argument.value.at, "a parameter is given by its name", hint)

    def _constants(self, of: Class, given: Mapping[str, int], at: At, is_strict: bool = True) -> dict[str, int]:
        """The constants of an instance: those of the file, and its parameters."""
        names = {**self.program.constants, **given}
        for it in of.tree.parameters:
            name = it.name.text
            if name not in given and it.default is None and is_strict and name != INDEX:
                hint = f"write `{name} = ..` in the brackets, or `{name}: int = 0` where it is declared"
                self.report.error(at, f"`{name}` of {of.name} is not given", hint)
            if name not in given:
                its = of.scope.types[name]
                is_good = of.is_good and it.default
                made = self.program.lowered(it.default, names, of.scope, its) if is_good else int(not is_strict)
                if isinstance(its, Array):
                    made = replace(made, name=name) if is_good else Cells(name, (1,) * len(its.sides), (0,))
                names[name] = made
        return names
