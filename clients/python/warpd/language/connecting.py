"""What connects the instances: each port's source, and the inputs and outputs of the program."""

from __future__ import annotations

from dataclasses import dataclass, field
from itertools import cycle, islice
from typing import NamedTuple, Optional

from . import tree
from .faults import Report, port_of
from .hierarchy import Node
from .model import Program, ranged
from .places import Places, Point, Points
from .scope import Kind, count_of
from .tree import At
from .types import Struct


class Edge(NamedTuple):
    """What comes to a port, and after which delay; None is the same tag."""

    source: Point
    delay: Optional[int]
    at: At


class Entrance(NamedTuple):
    """A port to which an origin sends."""

    point: Point
    origin: int
    at: At


class Exit(NamedTuple):
    """A port that is an output of the program."""

    point: Point
    at: At


@dataclass
class Net:
    """The source of each port that has one, and the program's inputs and outputs, in the order of the text."""

    edges: dict[Point, Edge] = field(default_factory=dict)
    entrances: list[Entrance] = field(default_factory=list)
    exits: list[Exit] = field(default_factory=list)
    taken: dict[Point, At] = field(default_factory=dict)
    # The places at which something was told: of a multiport or a bank it is told once.
    told: set[At] = field(default_factory=set)


class Connecting:
    """Reads the connections of one node into a net."""

    def __init__(self, node: Node, net: Net, program: Program, report: Report):
        self.node, self.net, self.program, self.report = node, net, program, report
        self.places = Places(node, program, report)

    def read(self) -> None:
        for it in self.node.raw.tree.members:
            if isinstance(it, tree.Ports) and self.node.is_main:
                self._inputs(it) if it.is_input else self._outputs(it)
            elif isinstance(it, tree.Connection):
                self._connection(it)

    # The program's ports.

    def _inputs(self, it: tree.Ports) -> None:
        if it.origin is None:
            text = "an input of the program needs the origin that owns it"
            self.report.error(it.at, text, "write `@origin(0) input ..`")
            return
        value = self.places.constant(it.origin)
        origin = ranged(self.report, value, 0, self.program.limits.origins - 1, it.origin.at, "the origin")
        for place in it.places:
            for point in self.places.points(place, Kind.INPUT, Kind.INPUT):
                if self._is_free(point, place.at):
                    self.net.entrances.append(Entrance(point, origin, place.at))

    def _outputs(self, it: tree.Ports) -> None:
        if it.origin:
            self.report.error(it.at, "an output has no origin", "`@origin(0)` stands before an `input`")
        for place in it.places:
            for point in self.places.points(place, Kind.OUTPUT, Kind.OUTPUT):
                first = next((each for each in self.net.exits if each.point == point), None)
                if first:
                    text = f"`{point}` is an output of the program already"
                    self._tell(place.at, text, f"at {self.report.place(first.at)}")
                else:
                    self.net.exits.append(Exit(point, place.at))

    def _is_free(self, point: Point, at: At) -> bool:
        """Whether a port has no source yet; else that is told."""
        first = self.net.taken.setdefault(point, at)
        if first is not at:
            hint = f"at {self.report.place(first)}; an input has one: declare another input for this one"
            self._tell(at, f"`{point}` has a source already", hint)
        return first is at

    def _tell(self, at: At, text: str, hint: str) -> None:
        """Tells what is wrong with a port, where nothing was told of another one of the same place."""
        if at not in self.net.told:
            self.net.told.add(at)
            self.report.error(at, text, hint)

    def _is_not_put(self, point: Point, at: At) -> bool:
        """Whether no reaction of its own puts on an output; else that is told."""
        if point.node is not self.node:
            return True
        places = [it.reaction.at for it in self.node.form.reactions if point.name in it.lists["writes"]]
        if places:
            hint = f"the reaction at {self.report.place(places[0])} puts on it"
            self._tell(at, f"`{point}` has a source already", hint)
        return not places

    # Connections.

    def _connection(self, it: tree.Connection) -> None:
        delay = None
        if it.after:
            value = self.places.constant(it.after)
            delay = self.program.ranged(self.report, value, "delay", it.after.at, "the delay")
        before = self.report.errors
        sources = [point for place in it.sources for point in self._sources(place)]
        targets = [
            (point, place) for place in it.targets for point in self.places.points(place, Kind.OUTPUT, Kind.INPUT)
        ]
        if self.report.errors > before or not self._are_of_structs(sources, targets) or not self._fits(it, len(sources), len(targets)):
            return
        sources = islice(cycle(sources), len(targets)) if it.is_broadcast else sources
        for source, (target, place) in zip(sources, targets):
            is_right = self._is_free(target, place.at) and self._is_not_put(target, place.at)
            if is_right and self._is_of_type(source, target, place.at):
                self.net.edges[target] = Edge(source, delay, place.at)

    def _are_of_structs(self, sources: Points, targets: list[tuple[Point, tree.Place]]) -> bool:
        """Whether ports of structs stand side by side with ports of the same; else the first that do not are told."""
        for source, (target, place) in zip(sources, targets):
            left, right = source.declared, target.declared
            if left != right and (isinstance(left, Struct) or isinstance(right, Struct)):
                names = [f"{port_of(it.name)}" if not it.node.path else f"{it.node.title}.{port_of(it.name)}" for it in (source, target)]
                self._tell(place.at, f"`{names[0]}` is `{left}` and `{names[1]}` is `{right}`", "a reaction between them makes one of the other")
                return False
        return True

    def _is_of_type(self, source: Point, target: Point, at: At) -> bool:
        """Whether two ports have values of one type; else that is told."""
        left, right = source.declared, target.declared
        if left != right:
            hint = "a reaction between them changes it: `y = fixed(x);`, or `y = round(x);`"
            self._tell(at, f"`{source}` is `{left}` and `{target}` is `{right}`", hint)
        return left == right

    def _sources(self, place: tree.Place) -> Points:
        """What a place left of an arrow names: outputs of instances, or its own inputs; main's outputs lead on too."""
        leads_on = self.node.is_main and self.node.kind(place.name.text) is Kind.OUTPUT
        return self.places.points(place, Kind.OUTPUT if leads_on else Kind.INPUT, Kind.OUTPUT)

    def _fits(self, it: tree.Connection, left: int, right: int) -> bool:
        """Whether both sides have as many ports; of multiports and banks what is left over stays unconnected."""
        if left == right or it.is_broadcast or not left or not right:
            return bool(left and right)
        is_wide = any(map(self._is_wide, (*it.sources, *it.targets)))
        text = f"{count_of(left, 'port')} on the left and {right} on the right"
        hint = "`(p.y)+ -> q.a, r.a` gives one to all" if left == 1 else ""
        if is_wide:
            over, side = abs(left - right), "left" if left > right else "right"
            last = "the last port" if over == 1 else f"the last {over} ports"
            stay = f"{last} on the {side} {'stays' if over == 1 else 'stay'} unconnected"
            self.report.warning(it.at, text, hint or stay)
        else:
            self.report.error(it.at, text, hint)
        return is_wide

    def _is_wide(self, place: tree.Place) -> bool:
        if not place.owner:
            return place.name.text in self.node.widths
        part = self.node.parts[place.owner.text][0]
        return place.owner.text in self.node.widths or place.name.text in part.widths


def uses(node: Node, net: Net, report: Report) -> None:
    """Takes in what the reactions of a node name of the reactors that it contains."""
    for name, point in node.heard.items():
        net.edges[Point(node, name)] = Edge(point, None, point.node.at)
    for name, point in node.fed.items():
        at = next(it.reaction.at for it in node.form.reactions if name in it.lists["writes"])
        net.taken[point] = at
        net.edges[point] = Edge(Point(node, name), None, at)
