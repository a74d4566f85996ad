"""What a picture shows: the reactors as they were written, a bank as one, with their members and connections."""

from __future__ import annotations

import re
from collections.abc import Iterator
from dataclasses import dataclass, field
from typing import Optional

from .. import tree
from ..connecting import Net
from ..hierarchy import Node
from ..model import Program
from ..places import Point
from ..scope import Kind

TRIGGER, READ, EFFECT, CONNECTION, TRANSITION = "trigger", "read", "effect", "connection", "transition"
TITLE, PORT = 24, 22


@dataclass(eq=False)
class Item:
    """Something in a box. `label` is written beside it, `text` in it, `title` is shown when the pointer is on it.
    `box` is what a reactor or a mode has in it. `x` and `y` are of its upper left corner, from that of the box around
    it."""

    kind: str
    name: str
    label: str = ""
    text: str = ""
    title: str = ""
    box: Optional[Box] = None
    width: float = 0
    height: float = 0
    layer: int = 0
    x: float = 0
    y: float = 0

    def port(self, name: str) -> float:
        """How far below its upper edge a line to or from it ends."""
        if self.box:
            port = self.box.ports.get(name)
            return port.y + port.height / 2 if port else TITLE / 2
        return self.height / 2 if self.kind not in ("action", "timer", "startup", "shutdown", "reset") else 12


@dataclass(frozen=True)
class End:
    """Where a line begins or ends: an item, and of a box the name of its port."""

    item: Item
    port: str = ""


@dataclass(eq=False)
class Line:
    """A connection, or what a reaction has to do with something. `delay` is an item in the middle of it."""

    kind: str
    source: End
    target: End
    title: str = ""
    delay: Optional[Item] = None


@dataclass(eq=False)
class Box:
    """A reactor or a mode from within. `ports` are those of its items that stand on its border, by their names."""

    name: str
    title: str
    kind: str
    count: int = 1
    hint: str = ""
    is_initial: bool = False
    items: list[Item] = field(default_factory=list)
    lines: list[Line] = field(default_factory=list)
    ports: dict[str, Item] = field(default_factory=dict)
    width: float = 0
    height: float = 0
    ways: list[tuple[Line, list[list[tuple[float, float]]], list[tuple[float, float]]]] = field(default_factory=list)

    def add(self, item: Item) -> Item:
        self.items.append(item)
        if item.kind in ("input", "output"):
            self.ports[item.name] = item
        return item

    def every(self) -> Iterator[Box]:
        yield self
        for it in self.items:
            if it.box:
                yield from it.box.every()


Path = tuple[str, ...]


def structure_of(program: Program, file: str) -> Box:
    """The box of the main reactor."""
    return Structure(program, file).box


class Structure:
    """Makes the boxes of one program."""

    def __init__(self, program: Program, file: str):
        self.program, self.unit = program, program.unit
        self.boxes: dict[Path, Box] = {}
        self.nodes: dict[Path, Item] = {}
        self.delays: dict[tuple, Item] = {}
        root = program.root
        title = root.raw.tree.name.text if root.raw.tree.name else file.removesuffix(".lf")
        self.box = self._box(root, title, 1)
        self._connections(program.net)
        self._of_program(program.net)

    # Boxes.

    def _box(self, node: Node, title: str, count: int) -> Box:
        it = self.program.written.get(id(node.raw.tree), node.raw.tree)
        path = _path(node)
        given = [f"{each.name.text} = {node.constants.get(each.name.text)}" for each in it.parameters]
        states = [each.name.text for each in it.every(tree.State)]
        hint = "\n".join([f"({', '.join(given)})"] * bool(given) + [f"state {', '.join(states)}"] * bool(states))
        box = self.boxes[path] = Box(node.title, title, "reactor", count, hint)
        for ports in it.every(tree.Ports):
            for place in ports.places:
                if not place.owner:
                    self._port(box, node, place.name.text, ports)
        for name, bank in node.parts.items():
            of = bank[0].raw.name
            inner = self._box(bank[0], f"{name} : {of}", len(bank) if name in node.widths else 1)
            self.nodes[_path(bank[0])] = box.add(Item("reactor", name, box=inner, title=f"{inner.name} : {of}"))
        Members(self, box, node).add(it)
        return box

    def _port(self, box: Box, node: Node, name: str, ports: tree.Ports) -> None:
        wide = f"[{node.widths[name]}]" if name in node.widths else ""
        kind = "input" if ports.is_input else "output"
        type = f": {ports.type.text}" if ports.type else ""
        box.add(Item(kind, name, f"{name}{wide}", title=f"{kind} {name}{wide}{type}"))

    def time(self, count: int) -> str:
        """A time in the unit of the program."""
        names = {10**9: "s", 10**6: "ms", 10**3: "us", 1: "ns"}
        if not self.unit or not count:
            return str(count)
        size = next(it for it in names if count * self.unit % it == 0)
        return f"{count * self.unit // size} {names[size]}"

    # Connections.

    def _connections(self, net: Net) -> None:
        seen: set[tuple] = set()
        for target, edge in net.edges.items():
            source = edge.source
            if "." in target.name or "." in source.name:
                continue
            around = self._around(source)
            line = (around, *_ends(source, around), *_ends(target, around), edge.delay)
            if line not in seen:
                seen.add(line)
                self._connect(around, source, target, edge.delay)

    def _around(self, source: Point) -> Path:
        """The box in which what comes from a port is connected."""
        path = _path(source.node)
        return path if source.node.kind(_name(source)) is Kind.INPUT or not path else path[:-1]

    def _connect(self, around: Path, source: Point, target: Point, delay: Optional[int]) -> None:
        box = self.boxes[around]
        title = f"{_told(source)} -> {_told(target)}" + (f" after {self.time(delay)}" if delay is not None else "")
        line = Line(CONNECTION, self._end(box, source, around), self._end(box, target, around), title)
        if delay is not None:
            line.delay = self._delay(box, line.source, delay)
        box.lines.append(line)

    def _delay(self, box: Box, source: End, delay: int) -> Item:
        """What tells the delay of connections: those from one port have one."""
        if (source, delay) not in self.delays:
            label = f"after {self.time(delay)}"
            self.delays[source, delay] = box.add(Item("delay", label, label))
        return self.delays[source, delay]

    def _end(self, box: Box, point: Point, around: Path) -> End:
        path, name = _path(point.node), _name(point)
        return End(box.ports[name]) if path == around else End(self.nodes[path], name)

    def _of_program(self, net: Net) -> None:
        """The inputs and outputs of the program: at main's own ports, or on its border."""
        origins: dict[int, Item] = {}
        for number, it in enumerate(net.entrances):
            name = _name(it.point)
            if not it.point.node.path:
                port = self.box.ports[name]
                port.label = f"{port.name} @{it.origin}"
                port.title += f"\ninput {number}, of origin {it.origin}"
                continue
            if it.origin not in origins:
                label, title = f"origin {it.origin}", f"what origin {it.origin} sends"
                origins[it.origin] = self.box.add(Item("origin", label, label, title=title))
            # A bank is one: each origin has one line to a port of it.
            ends = End(origins[it.origin]), End(self.nodes[_path(it.point.node)], name)
            title = f"input {number}: {_told(it.point)}, of origin {it.origin}"
            if all((line.source, line.target) != ends for line in self.box.lines):
                self.box.lines.append(Line(CONNECTION, *ends, title))
        exits: dict[tuple, Item] = {}
        for number, it in enumerate(net.exits):
            key = (_path(it.point.node), _name(it.point))
            if not it.point.node.path:
                port = self.box.ports[key[1]]
                port.title += f"\noutput {number}"
            elif key not in exits:
                exits[key] = self.box.add(Item("exit", f"output {number}", f"output {number}", title=_told(it.point)))
                title = f"output {number}: {_told(it.point)}"
                self.box.lines.append(Line(CONNECTION, End(self.nodes[key[0]], key[1]), End(exits[key]), title))


class Members:
    """Adds the reactions of a reactor or a mode with what triggers them and what they have effects on."""

    def __init__(self, structure: Structure, box: Box, node: Node):
        self.structure, self.box, self.node = structure, box, node
        self.number = 0
        self.items: dict[str, Item] = dict(box.ports)
        self.modes: dict[str, Item] = {}

    def add(self, it: tree.Reactor) -> None:
        for mode in it.every(tree.Mode):
            title = f"mode {mode.name.text}"
            name = f"{self.box.name}.{mode.name.text}".lstrip(".")
            inner = Box(name, mode.name.text, "mode", is_initial=mode.is_initial)
            self.modes[mode.name.text] = self.box.add(Item("mode", mode.name.text, box=inner, title=title))
        self._marks(self.box, it.members, self.items)
        for each in it.members:
            if isinstance(each, tree.Reaction):
                self._reaction(self.box, each, self.items)
            elif isinstance(each, tree.Mode):
                self._mode(each)

    def _marks(self, box: Box, members: tuple, items: dict[str, Item]) -> None:
        """Timers and actions."""
        for it in members:
            if not isinstance(it, (tree.Timer, tree.Action)):
                continue
            name, kind = it.name.text, "timer" if isinstance(it, tree.Timer) else "action"
            times = [self._time(each) for each in it.arguments]
            label = name + (f" ({', '.join(times)})" if times and (kind == "timer" or times != ["0"]) else "")
            what = "timer" if kind == "timer" else "logical action"
            items[name] = box.add(Item(kind, name, label, "A" if kind == "action" else "", f"{what} {label}"))

    def _time(self, it: tree.Expression) -> str:
        value = self.structure.program.lowered(it, self.node.constants, self.node.raw.scope)
        return self.structure.time(value) if isinstance(value, int) else "?"

    def _mode(self, mode: tree.Mode) -> None:
        item = self.modes[mode.name.text]
        box, items = item.box, {}
        self._marks(box, mode.members, items)
        states = [it.name.text for it in mode.members if isinstance(it, tree.State)]
        box.hint = f"state {', '.join(states)}" if states else ""
        for it in mode.members:
            if isinstance(it, tree.Reaction):
                self._reaction(box, it, items, item)

    def _reaction(self, box: Box, it: tree.Reaction, items: dict[str, Item], mode: Optional[Item] = None) -> None:
        self.number += 1
        title = f"reaction {self.number}: {_header(it)}"
        made = box.add(Item("reaction", str(self.number), "", str(self.number), title))
        for kind, places in ((TRIGGER, it.on), (READ, it.reads), (EFFECT, it.writes)):
            ends = dict.fromkeys(self._end(box, place, kind, items, mode) for place in places)
            for end in ends:
                kind_here = TRANSITION if kind is EFFECT and end.item.kind == "mode" else kind
                source, target = (End(made), end) if kind is EFFECT else (end, End(made))
                self._line(box, Line(kind_here, source, target, title))

    def _line(self, box: Box, line: Line) -> None:
        if all((it.source, it.target) != (line.source, line.target) for it in box.lines):
            box.lines.append(line)

    def _end(self, box: Box, place: tree.Place, kind: str, items: dict[str, Item], mode: Optional[Item]) -> End:
        name = place.name.text
        if place.owner:
            item = self.structure.nodes[(*_path(self.node), place.owner.text)]
            return self._echo(box, mode, str(place), kind, End(item, name)) if mode else End(item, name)
        if name in items:
            return End(items[name])
        if name in ("startup", "shutdown", "reset"):
            items[name] = box.add(Item(name, name, name, title=f"{name}"))
            return End(items[name])
        if name in self.modes:
            return self._to_mode(box, place, mode)
        outer = self.items.get(name)
        if mode is None or outer is None:
            items[name] = box.add(Item("input" if kind is not EFFECT else "output", name, name))
            return End(items[name])
        return self._echo(box, mode, name, kind, End(outer))

    def _to_mode(self, box: Box, place: tree.Place, mode: Optional[Item]) -> End:
        to = self.modes[place.name.text]
        if mode is None:
            return End(to)
        text = f"{place.transition}({to.name})" if place.transition else to.name
        return self._echo(box, mode, text, EFFECT, End(to), TRANSITION)

    def _echo(self, box: Box, mode: Item, name: str, kind: str, outer: End, line: str = "") -> End:
        """A port of a mode for what its reactions have to do with outside of it."""
        key, is_effect = f"{name}{'>' * (kind is EFFECT)}", kind is EFFECT
        if key not in box.ports:
            shown = ("echo", "output") if is_effect else ("echo", "input")
            port = box.add(Item(shown[1], key, name, title=name))
            port.text = "echo"
            source, target = (End(mode, key), outer) if is_effect else (outer, End(mode, key))
            self._line(self.box, Line(line or kind, source, target, f"{mode.name}: {name}"))
        return End(box.ports[key])


def _path(node: Node) -> Path:
    """Where a node is, without the places in banks: one of a bank is drawn."""
    return tuple(it.split("[")[0] for it in node.path)


def _name(point: Point) -> str:
    return point.name.split("[")[0]


def _ends(point: Point, around: Path) -> tuple:
    return _path(point.node), _name(point)


def _told(point: Point) -> str:
    return re.sub(r"\[\d+\]", "", str(point))


def _header(it: tree.Reaction) -> str:
    on, reads, writes = (", ".join(map(_place, places)) for places in (it.on, it.reads, it.writes))
    return f"reaction({on})" + f" {reads}" * bool(reads) + f" -> {writes}" * bool(writes)


def _place(it: tree.Place) -> str:
    return f"{it.transition}({it.name.text})" if it.transition else str(it)
