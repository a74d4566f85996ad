"""What a place of a text names in one instance: ports of its own, or of what it contains, channel by channel."""

from __future__ import annotations

import dataclasses
from collections.abc import Collection, Sequence
from typing import NamedTuple, Optional

from . import tree
from .faults import Report, as_written, nearest
from .hierarchy import Node
from .model import Program
from .scope import Kind
from .types import INT, Struct, Type


class Point(NamedTuple):
    """A port of a node: `name` has its channel."""

    node: Node
    name: str

    def __str__(self) -> str:
        name = as_written(self.name)
        return f"{self.node.title}.{name}" if self.node.path else name

    @property
    def declared(self) -> Type:
        """The type of the port whose channel or field this is."""
        return self.node.raw.scope.types.get(self.name.split("[")[0], INT)

    @property
    def type(self) -> Type:
        of = self.declared
        return of.fields[self.name.split("[")[1][:-1]] if isinstance(of, Struct) else of

    def seen_from(self, node: Node) -> str:
        """What the port is called in a node that has it, or contains its node."""
        return self.name if self.node is node else f"{self.node.path[-1]}.{self.name}"


Points = list[Point]


class Places:
    """Finds what places of a node name; what is wrong with them is told."""

    def __init__(self, node: Node, program: Program, report: Report):
        self.node, self.program, self.report = node, program, report

    def nodes(self, place: tree.Place) -> list[Node]:
        """The instances of a place with an owner."""
        owner = place.owner.text
        bank = self.node.parts.get(owner)
        if bank is None:
            self.report.error(place.owner.at, f"there is no instance `{owner}`", nearest(owner, self.node.parts))
            return []
        chosen = self._chosen(len(bank), owner in self.node.widths, place.owner, place.owner_index, "instances")
        return [bank[it] for it in chosen]

    def of(self, node: Node, place: tree.Place) -> Points:
        """The ports of one instance that the last name of a place names."""
        names = node.channels(place.name.text)
        is_wide = place.name.text in node.widths
        return [Point(node, names[it]) for it in self._chosen(len(names), is_wide, place.name, place.index, "channels")]

    def _chosen(
        self, count: int, is_wide: bool, name: tree.Name, index: Optional[tree.Expression], what: str
    ) -> Sequence[int]:
        if index is None:
            return range(count)
        value = self.constant(index)
        if not is_wide:
            one = "an instance, and no bank" if what == "instances" else "one port, and no multiport"
            self.report.error(index.at, f"`{name.text}` is {one}: it has no index")
            return range(count)
        if value is not None and not 0 <= value < count:
            text = f"`{name.text}` has {count} {what}, from 0: there is none with the index {value}"
            self.report.error(index.at, text)
        return [value] if value is not None and 0 <= value < count else []

    def has_one_index(self, place: tree.Place) -> None:
        """Tells more indices of a port or an instance than one."""
        for more, name in ((place.owner_more, place.owner), (place.more, place.name)):
            if more:
                self.report.error(more[0].at, f"`{name.text}` has one index", "only state variables have two: `state b: int[3][4]`")

    def constant(self, it: tree.Expression) -> Optional[int]:
        return self.program.constant(self.node.scope, it, self.node.constants)

    def is_constant(self, it: Optional[tree.Expression]) -> bool:
        """Whether all that an index mentions is constant."""
        return it is None or _is_constant(it, self.node.constants)

    def points(self, place: tree.Place, wanted: Kind, inner: Kind) -> Points:
        """The ports of a place, which must be of the kind `wanted` where they are the node's own, and of the kind
        `inner` where an instance has them."""
        self.has_one_index(place)
        nodes = self.nodes(place) if place.owner else [self.node]
        kind = inner if place.owner else wanted
        if not nodes or not all(it.is_known for it in nodes) or not self._is_there(nodes[0], place, kind):
            return []
        found = [self.of(it, place) for it in nodes]
        if place.is_interleaved and not nodes[0].struct(place.name.text):
            most = max(map(len, found))
            return [it[number] for number in range(most) for it in found if number < len(it)]
        return [it for points in found for it in points]

    def _is_there(self, node: Node, place: tree.Place, kind: Kind) -> bool:
        name, found = place.name.text, node.kind(place.name.text)
        if name in node.ports(kind):
            return True
        near = nearest(name, node.ports(kind))
        if found:
            hint = "a connection leads from an output to an input: `p.y -> q.a`"
            hint = hint if found in (Kind.INPUT, Kind.OUTPUT) else ""
            self.report.error(place.at, f"`{place}` is {found.value}: here belongs {kind.value}", hint)
        elif place.owner:
            self.report.error(place.name.at, f"{node.raw.name} has no port `{name}`", near)
        else:
            hint = near or "a port of an instance is `instance.port`"
            self.report.error(place.at, f"{node.raw.name} has no port `{name}`", hint)
        return False


def _is_constant(it: object, names: Collection[str]) -> bool:
    if isinstance(it, (tree.Member, tree.Call)):
        return False
    if isinstance(it, tree.Reference):
        return it.name in names
    return not dataclasses.is_dataclass(it) or all(_is_constant(each, names) for each in vars(it).values())
