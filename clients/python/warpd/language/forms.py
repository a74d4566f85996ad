"""A reactor as one of its instances has it: a port for each channel, and what it contains seen as ports of its own."""

from __future__ import annotations

import dataclasses
from collections.abc import Callable, Iterator
from typing import Optional

from . import refused, tree
from .faults import Report, nearest
from .hierarchy import WIDTH, Node
from .model import Class, Program
from .places import Places, Point
from .scope import Kind
from .struct_ports import StructPorts
from .types import Struct
from .wide_ports import WidePorts
from .tree import At

OWN = (tree.State, tree.Action, tree.Timer, tree.Function)


def has_structure(raw: Class) -> bool:
    """Whether a reactor is not what it is written as: where instances differ in widths or in what they contain, and where a port
    or an action of a struct is several."""
    it, types = raw.tree, raw.scope.types
    is_wide = any(each.width for each in it.every(tree.Ports))
    names = [place.name for each in it.every(tree.Ports) for place in each.places] + [each.name for each in it.every(tree.Action)]
    is_wide |= any(each.width for each in it.every(tree.Action))
    is_wide |= any(isinstance(types.get(name.text), Struct) for name in names)
    places = [place for each in it.every(tree.Reaction) for place in (*each.on, *each.reads, *each.writes)]
    contains = it.every(tree.Instance) or it.every(tree.Connection)
    return bool(it.is_main or is_wide or contains or any(not each.is_plain for each in places))


class Form:
    """Makes the reactor of one node. `heard` has the ports of contained reactors that its reactions name as triggers
    or read, `fed` those that they put on."""

    def __init__(self, node: Node, program: Program, report: Report):
        self.node, self.report, self.program = node, report, program
        self.places = Places(node, program, report)
        self.structs, self.wide = StructPorts(self), WidePorts(self)
        # How many parts of bodies were looked at.
        self.walked = 0
        self.heard: dict[str, Point] = {}
        self.fed: dict[str, Point] = {}
        # The ports of instances on which the reaction puts that is made.
        self.put_on: set[tuple[str, str]] = set()

    def made(self) -> tree.Reactor:
        it = self.node.raw.tree
        reactions = [self._reaction(each) for each in it.every(tree.Reaction)]
        named = {place.name.text for each in reactions for place in (*each.on, *each.reads, *each.writes)}
        named |= self._missed(reactions)
        members = [made for each in it.members if isinstance(each, OWN) for made in self.structs.members(each)]
        members += [made for each in it.every(tree.Ports) for made in self._ports(each, named)]
        for points, is_input in ((self.heard, True), (self.fed, False)):
            for name, point in points.items():
                place = tree.Place(None, tree.Name(name, it.at))
                members.append(tree.Ports(None, is_input, (place,), _type(point), it.at))
        again = self.walked if id(it) in self.program.seen else 0
        self.program.structure.take(again, self.node.at, "the instances with their reactions come to too many parts")
        self.program.seen.add(id(it))
        return dataclasses.replace(it, members=tuple(members + reactions))

    def _missed(self, reactions: list[tree.Reaction]) -> set[str]:
        """What bodies name and a header may lack, so that it is told with what was meant; in a text without faults
        each stands in a header."""
        headers = [place.name.text for it in reactions for place in (*it.on, *it.reads, *it.writes)]
        if any(self._is_unknown(name) for name in headers):
            ports = self.node.ports(Kind.INPUT) + self.node.ports(Kind.OUTPUT)
            return {channel for port in ports for channel in self.node.channels(port)}
        return {name for it in reactions for name in _names(it.body)} - _lets(reactions)

    def _is_unknown(self, name: str) -> bool:
        return name not in self.heard and name not in self.fed and self.node.kind(name.split("[")[0]) is None

    def _ports(self, it: tree.Ports, named: set[str]) -> list[tree.Ports]:
        """Its own ports, a name for each channel; where it contains others, those alone that its reactions name. Those of a struct have
        the types of its fields."""
        def is_wanted(name: str) -> bool:
            is_alone = self.node.is_main and name.split("[")[0] not in self.node.connected
            return not self.node.contains or name in named or is_alone

        places = [place for place in it.places if not place.owner]
        types: dict[Optional[str], list[tree.Place]] = {}
        for place in places:
            struct = self.node.struct(place.name.text)
            for each in self.node.channels(place.name.text):
                if is_wanted(each):
                    of = Point(self.node, each).type if struct else None
                    types.setdefault(of, []).append(tree.Place(None, tree.Name(each, place.name.at)))
        plain = dataclasses.replace(it, width=None, origin=None, places=())
        return [
            dataclasses.replace(plain, places=tuple(found), type=tree.Name(of, it.at) if of else it.type) for of, found in types.items()
        ] or [plain]

    # Reactions.

    def _reaction(self, it: tree.Reaction) -> tree.Reaction:
        lists = {part: self._header(getattr(it, part), part != "writes") for part in ("on", "reads", "writes")}
        self.put_on = {(place.owner.text, place.name.text) for place in it.writes if place.owner}
        return dataclasses.replace(it, **lists, body=it.body and self.body_of(it.body))

    def _header(self, places: tuple[tree.Place, ...], is_read: bool) -> tuple[tree.Place, ...]:
        found: list[tree.Place] = []
        for place in places:
            if place.is_plain and place.name.text not in self.node.widths and not self.node.struct(place.name.text):
                found.append(place)
                continue
            if self.node.kind(place.name.text) is Kind.ACTION and not place.owner:
                found += [tree.Place(None, tree.Name(each, place.at)) for each in self.node.channels(place.name.text)]
                continue
            wanted, inner = (Kind.INPUT, Kind.OUTPUT) if is_read else (Kind.OUTPUT, Kind.INPUT)
            points = self.places.points(place, wanted, inner)
            self.program.structure.take(len(points), place.at, "the ports that reactions name come to too many parts")
            for point in points:
                name = point.seen_from(self.node)
                found.append(tree.Place(None, tree.Name(name, place.at)))
                if place.owner:
                    (self.heard if is_read else self.fed)[name] = point
        return tuple(found) or places and (tree.Place(None, tree.Name("startup", places[0].at)),) * is_read

    # Bodies.

    def body_of(self, it):
        """A part of a body with names in the place of places."""
        self.walked += 1
        if isinstance(it, tuple):
            made = tuple(map(self.body_of, it))
            return it if all(map(lambda a, b: a is b, made, it)) else made
        found = self._ported(it)
        if found is not None or not dataclasses.is_dataclass(it) or isinstance(it, tree.Name):
            return it if found is None else found
        parts = {key: value for key, value in vars(it).items() if isinstance(value, tuple) or _is_part(value)}
        changed = {key: self.body_of(value) for key, value in parts.items()}
        changed = {key: value for key, value in changed.items() if value is not parts[key]}
        return dataclasses.replace(it, **changed) if changed else it

    def _ported(self, it):
        """What a part means that is a port, asks for one or puts on one; None where it is something else."""
        for several in (self.structs, self.wide):
            made = several.ported(it)
            if made is not None:
                return made
        match it:
            case tree.Call(tree.Name(name)) if name in refused.CALLS:
                return it
            case tree.Call(tree.Name("present"), (tree.Member(place, at),)) if self._is_port(place):
                return self._asked(it, place, at)
            case tree.Call(tree.Name("present"), (tree.Reference(name, at),)) if name in self.node.widths:
                return self._asked(it, tree.Place(None, tree.Name(name, at)), at)
            case tree.Member(place, at) if (width := self._width_of(place)) is not None:
                return tree.Number(str(width), at)
            case tree.Member(place, at) if self._is_port(place):
                zero = tree.Number("0", at)
                return self._select(place, self.read_of(place), lambda name: tree.Reference(name, at), _choice, zero)
            case tree.Invoke(tree.Call(tree.Name("put" | "schedule"), (tree.Member(place, at), *rest))) if self._is_port(place):
                parts = self.body_of(tuple(rest))

                def does(name: str) -> tree.Statement:
                    return tree.Invoke(dataclasses.replace(it.call, parts=(tree.Reference(name, at), *parts)))

                return self._select(place, Kind.INPUT, does, _if, tree.Block(()))
            case tree.Assign(tree.Place() as place, operator, value) if self._is_port(place):
                value = self.body_of(value)

                def assign(name: str) -> tree.Statement:
                    return tree.Assign(tree.Name(name, place.at), operator, value)

                return self._select(place, Kind.INPUT, assign, _if, tree.Block(()))
            case (tree.Reference(name, at) | tree.Assign(tree.Name(name, at))) if name in self.node.widths:
                self._lacks_index(name, at)
                return tree.Number("0", at) if isinstance(it, tree.Reference) else tree.Block(())
        return None

    def _asked(self, it: tree.Call, place: tree.Place, at: At) -> tree.Expression:
        """Whether a port is there: of all channels and instances that a place names, whether one of them is."""
        def present(name: str) -> tree.Expression:
            return dataclasses.replace(it, parts=(tree.Reference(name, at),))

        inner = self.read_of(place)
        if not all(map(self.places.is_constant, (place.owner_index, place.index))):
            return self._select(place, inner, present, _choice, tree.Number("0", at))
        own = self.node.kind(place.name.text) if not place.owner else None
        if own is Kind.ACTION:
            names = [channel.name for channel in self.places.of(self.node, place)]
        else:
            points = self.places.points(place, Kind.OUTPUT if own is Kind.OUTPUT else Kind.INPUT, inner)
            names = [point.seen_from(self.node) for point in points]
        found = [present(name) for name in names]
        one = found[0] if found else tree.Number("0", at)
        for other in found[1:]:
            one = tree.Binary("||", one, other, at)
        return one

    def read_of(self, place: tree.Place) -> Kind:
        """What a port of an instance must be that is read: an input is where the reaction puts on it."""
        is_put = place.owner and (place.owner.text, place.name.text) in self.put_on
        return Kind.INPUT if is_put else Kind.OUTPUT

    def _is_port(self, place: tree.Place) -> bool:
        """Whether this is a port of an instance or a channel, and no part of a value."""
        name = (place.owner or place.name).text
        return name in (self.node.parts if place.owner else self.node.widths)

    def _width_of(self, place: tree.Place) -> Optional[int]:
        """The width of a multiport of an instance, where a place asks for it: `p.y_width`, which is the same in a bank."""
        bank = self.node.parts.get(place.owner.text) if place.owner and not place.indices else None
        name = place.name.text.removesuffix(WIDTH)
        is_port = bank and bank[0].kind(name) in (Kind.INPUT, Kind.OUTPUT) and name != place.name.text
        return bank[0].widths.get(name) if is_port else None

    def _lacks_index(self, name: str, at: tree.At) -> None:
        width = self.node.widths[name]
        what = "a bank" if name in self.node.parts else "an array" if self.node.kind(name) is Kind.ACTION else "a multiport"
        self.report.error(at, f"`{name}` is {what} of {width}", f"write `{name}[0]` to `{name}[{width - 1}]`")

    def _select(self, place: tree.Place, inner: Kind, leaf: Callable, choose: Callable, nothing):
        """What a place means: the leaf of its port, or where an index is worked out a choice between the leaves.
        `inner` is what a port must be that an instance has."""
        if not self._is_right(place, inner):
            return nothing
        for part, name in (("owner_index", place.owner), ("index", place.name)):
            index = getattr(place, part)
            if index is not None and not self.places.is_constant(index):
                def chosen(number: int, part=part, index=index):
                    one = dataclasses.replace(place, **{part: tree.Number(str(number), index.at)})
                    return self._select(one, inner, leaf, choose, nothing)

                asked, count = self.body_of(index), self._count(place, name)
                text = f"the choice of `{place}` by its index comes to too many parts"
                size = 2 * count * (2 + tree.size_of(asked, self.program.sizes))
                self.program.structure.take(size, place.at, text, "give an index in it a name before: `let i = ..;`")
                return _among(asked, 0, count, chosen, choose, nothing)
        node = self.places.nodes(place) if place.owner else [self.node]
        points = self.places.of(node[0], place) if node else []
        return leaf(points[0].seen_from(self.node)) if len(points) == 1 else nothing

    def _count(self, place: tree.Place, name: tree.Name) -> int:
        if name is place.owner or not place.owner:
            return self.node.widths[name.text]
        return self.node.parts[place.owner.text][0].widths[name.text]

    def _is_right(self, place: tree.Place, inner: Kind) -> bool:
        """Whether a place of a body names one port; else that is told."""
        self.places.has_one_index(place)
        node, owner, name = self.node, place.owner, place.name
        if owner and (owner.text in node.widths) != (place.owner_index is not None):
            self._index(owner, place.owner_index, node.widths.get(owner.text), "a bank", "an instance")
            return False
        part = node.parts[owner.text][0] if owner else node
        if owner and name.text not in part.ports(inner):
            self._no_port(part, place, inner)
            return False
        kind = part.kind(name.text)
        if kind is None:
            node.raw.scope.unknown(name.text, name.at)
            return False
        if (name.text in part.widths) != (place.index is not None):
            means = "one port" if kind in (Kind.INPUT, Kind.OUTPUT) else kind.value
            self._index(name, place.index, part.widths.get(name.text), "a multiport", means)
            return False
        return True

    def _no_port(self, part: Node, place: tree.Place, inner: Kind) -> None:
        name = place.name.text
        if not part.is_known:
            return
        if name in part.ports(Kind.INPUT) + part.ports(Kind.OUTPUT):
            is_read = inner is Kind.OUTPUT
            text = f"`{place}` is {'an input' if is_read else 'an output'} of `{place.owner.text}`"
            says = "its outputs are read here" if is_read else "its inputs are put on here"
            self.report.error(place.at, f"{text}: {says}")
        else:
            self.report.error(place.name.at, f"{part.raw.name} has no port `{name}`", nearest(name, part.ports(inner)))

    def _index(
        self, name: tree.Name, index: Optional[tree.Expression], width: Optional[int], wide: str, one: str
    ) -> None:
        if width is None:
            self.report.error(index.at, f"`{name.text}` is {one}: it has no index")
        else:
            hint = f"write `{name.text}[0]` to `{name.text}[{width - 1}]`"
            self.report.error(name.at, f"`{name.text}` is {wide} of {width}", hint)


def _parts(it: object) -> Iterator[object]:
    """A part of a body and all that is in it."""
    yield it
    inner = it if isinstance(it, tuple) else vars(it).values() if dataclasses.is_dataclass(it) else ()
    for each in inner:
        if isinstance(each, tuple) or _is_part(each):
            yield from _parts(each)


def _names(body: object) -> Iterator[str]:
    """The names that a body reads or assigns."""
    for it in _parts(body):
        match it:
            case tree.Reference(name) | tree.Assign(tree.Name(name)):
                yield name


def _lets(reactions: list[tree.Reaction]) -> set[str]:
    return {it.name.text for each in reactions for it in _parts(each.body) if isinstance(it, tree.Let)}


def _is_part(it: object) -> bool:
    return dataclasses.is_dataclass(it)


def _type(point: Point) -> Optional[tree.Name]:
    """The type of a port as it was declared, or of a field of its struct."""
    name = point.name.split("[")[0]
    if isinstance(point.declared, Struct):
        return tree.Name(point.type, point.node.at)
    lists = [it for it in point.node.raw.tree.every(tree.Ports) if name in [place.name.text for place in it.places]]
    return lists[0].type


def _among(index: tree.Expression, low: int, high: int, chosen: Callable, choose: Callable, nothing):
    """A choice by an index: what is chosen by each number, or nothing where it is none of them."""
    if high - low > 1:
        middle = (low + high) // 2
        halves = (_among(index, *ends, chosen, choose, nothing) for ends in ((low, middle), (middle, high)))
        return choose(_compared("<", index, middle), *halves)
    return choose(_compared("==", index, low), chosen(low), nothing)


def _compared(operator: str, index: tree.Expression, number: int) -> tree.Expression:
    return tree.Binary(operator, index, tree.Number(str(number), index.at), index.at)


def _choice(test: tree.Expression, yes: tree.Expression, no: tree.Expression) -> tree.Expression:
    return tree.Choice(test, yes, no, test.at)


def _if(test: tree.Expression, yes: tree.Statement, no: tree.Statement) -> tree.Statement:
    return tree.If(test, (yes,), (no,))


def seen(node: Node) -> Iterator[tuple[str, Kind]]:
    """What the ports of contained reactors are to a node's reactions, by their names there."""
    for bank in node.parts.values():
        for part in bank:
            for kind, own in ((Kind.OUTPUT, Kind.INPUT), (Kind.INPUT, Kind.OUTPUT)):
                for name in part.ports(kind):
                    for channel in part.channels(name):
                        yield Point(part, channel).seen_from(node), own
