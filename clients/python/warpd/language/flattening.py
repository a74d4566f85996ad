"""From the hierarchy to the reactors and links of a program file: what only leads on is left out."""

from __future__ import annotations

from collections.abc import Sequence
from typing import NamedTuple, Optional

from . import tree
from .connecting import Entrance, Exit, Net
from .faults import Report, channels_told
from .hierarchy import Node
from .model import Instance, Link, Owned, Port, Program, Shown, joined
from .places import Point
from .reactors import checked, declared
from .scope import is_name
from .tree import At

OWN = (tree.State, tree.Action, tree.Timer, tree.Reaction)


class Way(NamedTuple):
    """Where what comes to a port begins, and its delays on the way, the first one first."""

    source: Point
    delays: tuple[int, ...]


class Target(NamedTuple):
    port: Port
    at: At


class Flattening:
    """Writes the instances and links of a program, of nodes with forms and the net of their ports."""

    def __init__(self, root: Node, net: Net, program: Program, report: Report):
        self.shown: set[Port] = set()
        self.root, self.net, self.program, self.report = root, net, program, report
        self.entered: dict[Point, list[tuple[tuple[int, ...], Target]]] = {it.point: [] for it in net.entrances}
        # The program's ports that lead nowhere, and to which nothing comes.
        self.nowhere: list[Entrance] = []
        self.empty: list[Exit] = []
        # Where what comes to a port begins, where no delay is on the way.
        self.sources: dict[Point, Point] = {}

    def write(self) -> None:
        self._instances()
        for target, edge in self.net.edges.items():
            port = self._port(target, True)
            if port:
                self._from(self._way(target), Target(port, edge.at))
        exits = [self._exit(it) for it in self.net.exits]
        for it in self.net.entrances:
            self._entrance(it)
        self.program.outputs += exits
        self._warn()

    def _from(self, way: Way, target: Target) -> None:
        """Links a port with what comes to it; what an origin sends is linked later, where all its targets are known."""
        source = self._port(way.source, False)
        if way.source in self.entered:
            self.entered[way.source].append((way.delays, target))
        elif source:
            self._link(source, way.delays, target)

    # Instances.

    def _instances(self) -> None:
        """Each node that has members of its own, or contains nothing, becomes an instance. Names of the text go
        first."""
        nodes = [it for it in self.root.every() if self._is_left(it)]
        names: dict[str, Node] = {}
        for it in sorted(nodes, key=lambda it: (len(it.path) != 1, bool(it.path), "[" in it.title)):
            path = it.path or (_own_name(it),)
            if len(path) == 1 and "[" not in path[0]:
                self._check_name(it, path[0])
            name = joined(path, names)
            names["main" if not it.path and name not in path and "main" not in names else name] = it
        found = {id(it): name for name, it in names.items()}
        for it in nodes:
            name = found[id(it)]
            it.flat = Instance(name, it.form, it.constants, it.at, it.title or name, called=it.called, is_called=bool(it.called))
            self.program.instances[name] = it.flat

    def _is_left(self, node: Node) -> bool:
        """Whether a node has something that a program file must have."""
        is_leaf = not node.contains and not node.is_main
        return is_leaf or any(map(node.form.tree.every, OWN)) or bool(node.form.names(True) or node.form.names(False))

    def _check_name(self, node: Node, name: str) -> None:
        if not is_name(name):
            named = tree.Name(name, node.at)
            self.root.raw.scope.tell_name(named if node.path else node.raw.tree.name or named)

    def _port(self, point: Point, is_input: bool) -> Optional[Port]:
        """The port of the program file, where a point is one."""
        flat = point.node.flat
        if flat and point.name in flat.of.names(is_input):
            return Port(flat.name, flat.of.file_name(point.name))
        return None

    # Links.

    def _way(self, point: Point) -> Way:
        delays: list[int] = []
        seen = {point}
        while (edge := self.net.edges.get(point)) and point not in self.entered:
            if point in self.sources:
                point = self.sources[point]
                break
            self.program.structure.take(1, edge.at, "the connections on the way come to too many parts")
            if edge.delay is not None:
                delays.append(edge.delay)
            point = edge.source
            if point in seen:
                text = f"connections lead in a circle from `{point}` to itself, and no reaction puts on it"
                self.report.error(edge.at, text)
                return Way(point, tuple(reversed(delays)))
            seen.add(point)
        if not delays:
            self.sources.update(dict.fromkeys(seen, point))
        return Way(point, tuple(reversed(delays)))

    def _link(self, source: Port, delays: Sequence[int], target: Target) -> None:
        """Links two ports; where no one delay means the same as these, through reactors that hand it on."""
        *before, last = _merged(delays) or (None,)
        for delay in before:
            relay = self._relay((source.instance, source.name, "later"), "a", "y", target.at)
            self.program.links.append(Link(source, Port(relay, "a"), delay, target.at))
            source = Port(relay, "y")
        if delays[1:]:
            self.program.ranged(self.report, last, "delay", target.at, "the delay of the connections on the way")
        self.program.links.append(Link(source, target.port, last, target.at))

    def _relay(self, path: Sequence[str], name: str, output: str, at: At) -> str:
        """The name of a new reactor that puts on its output what comes to its input."""
        self.program.structure.take(64, at, "the connections on the way come to too many parts")
        flat = joined(path, self.program.instances)
        ports = [tree.Ports(None, it == name, (_place(it, at),), None, at) for it in (name, output)]
        body = (tree.Assign(tree.Name(output, at), None, tree.Reference(name, at)),)
        reaction = tree.Reaction((_place(name, at),), (), (_place(output, at),), body, at)
        of = tree.Reactor(tree.Name("relay", at), False, (), (*ports, reaction), at)
        form = checked(declared(of, self.program, self.report), self.report)
        self.program.instances[flat] = Instance(flat, form, {}, at, flat, is_added=True)
        return flat

    def _relay_path(self, point: Point) -> tuple[str, ...]:
        """A path for a reactor that stands for a port of the program: that of its node, where this has no reactor."""
        path = point.node.path or (_own_name(self.root),)
        return path if joined(path) not in self.program.instances else (*path, _plain(point.name))

    # The program's ports.

    def _entrance(self, it: Entrance) -> None:
        targets, own = self.entered[it.point], self._port(it.point, True)
        if own:
            targets.append(((), Target(own, it.at)))
        if len(targets) == 1 and not targets[0][0]:
            port = targets[0][1].port
        else:
            name = _plain(it.point.name)
            output = "y" if name != "y" else "y_out"
            relay = self._relay(self._relay_path(it.point), name, output, it.at)
            port = Port(relay, name)
            if not targets:
                self.nowhere.append(it)
            for delays, target in targets:
                self._link(Port(relay, output), delays, target)
        self.program.inputs.append(Owned(it.origin, port, it.at))

    def _exit(self, it: Exit) -> Shown:
        way = self._way(it.point)
        port = self._port(way.source, False)
        if not port and way.source not in self.entered:
            self.empty.append(it)
        if port and not way.delays and port not in self.shown:
            self.shown.add(port)
            return Shown(port, it.at)
        name = _plain(it.point.name)
        inner = "a" if name != "a" else "a_in"
        relay = self._relay(self._relay_path(it.point), inner, name, it.at)
        self._from(way, Target(Port(relay, inner), it.at))
        return Shown(Port(relay, name), it.at)


    def _warn(self) -> None:
        """Warns of what the program's ports lack: once at each place of the text."""
        puts = "a reaction puts on an output, or a connection leads to it"
        for lacking, ports, text, hint in (
            (self.nowhere, self.net.entrances, "`{}` leads nowhere", ""),
            (self.empty, self.net.exits, "nothing comes to `{}`", puts),
        ):
            for at in dict.fromkeys(it.at for it in lacking):
                names = [str(it.point) for it in lacking if it.at == at]
                name, more = channels_told(names, sum(it.at == at for it in ports))
                self.report.warning(at, text.format(name), "; ".join(it for it in (hint, more) if it))


def _place(name: str, at: At) -> tree.Place:
    return tree.Place(None, tree.Name(name, at))


def _plain(name: str) -> str:
    """The name of a channel as one of a program file."""
    return name.replace("[", "_").replace("]", "")


def _own_name(main: Node) -> str:
    return main.raw.name[0].lower() + main.raw.name[1:]


def _merged(delays: Sequence[int]) -> list[int]:
    """Delays one behind another, in as few as mean the same: one behind which more than a microstep comes adds up."""
    found: list[int] = []
    for it in delays:
        found = [sum(found) + it] if it > 0 else [*found, it]
    return found
