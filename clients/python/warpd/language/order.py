"""What waits for what at one tag: a circle of reactions is told by its lines."""

from __future__ import annotations

from collections import deque
from typing import NamedTuple, Optional

from .faults import Report
from .model import Link, Port, Program


class Node(NamedTuple):
    """A reaction of an instance."""

    instance: str
    number: int


Waits = dict[Node, dict[Node, Optional[Link]]]
Circle = list[tuple[Node, Node, Optional[Link]]]


def check_order(program: Program, report: Report) -> None:
    """Tells a circle of reactions, at a connection of it; in version 1 each connection that leads backward."""
    if program.version == 1:
        _check_forward(program, report)
    else:
        circle = _circle(_waits(program))
        if circle:
            _tell(program, report, circle)


def _check_forward(program: Program, report: Report) -> None:
    places = {name: place for place, name in enumerate(program.instances)}
    for it in program.links:
        if it.delay is None and places[it.target.instance] <= places[it.source.instance]:
            text = f"in version 1 `{it.source} -> {it.target}` must lead to a later instance"
            report.error(it.at, text, "give it a delay by `after`, or leave `version: 1` out")


def _waits(program: Program) -> Waits:
    """Which reactions each waits for: the one before it in its instance, and others through a link without delay."""
    reactions = {
        Node(name, number): reaction
        for name, it in program.instances.items() for number, reaction in enumerate(it.reactor.get("reactions", ()))
    }
    writers: dict[Port, list[Node]] = {}
    for node, reaction in reactions.items():
        for output in reaction.get("writes", ()):
            writers.setdefault(Port(node.instance, output), []).append(node)
    links = {it.target: it for it in program.links if it.delay is None}
    waits: Waits = {}
    for node, reaction in reactions.items():
        named = [Port(node.instance, name) for name in reaction["on"] + reaction.get("reads", [])]
        through = [links[port] for port in named if port in links]
        waits[node] = {writer: link for link in through for writer in writers.get(link.source, ())}
        if node.number:
            waits[node].setdefault(Node(node.instance, node.number - 1), None)
    return waits


def _circle(waits: Waits) -> Circle:
    """A shortest circle through the first reaction that is on one."""
    for start in waits:
        came_from: dict[Node, Node] = {}
        queue = deque([start])
        while queue:
            node = queue.popleft()
            for other in waits[node]:
                if other not in came_from:
                    came_from[other] = node
                    queue.append(other)
        if start in came_from:
            return _steps(waits, came_from, start)
    return []


def _steps(waits: Waits, came_from: dict[Node, Node], start: Node) -> Circle:
    steps: Circle = []
    node = start
    while not steps or node != start:
        steps.append((came_from[node], node, waits[came_from[node]][node]))
        node = came_from[node]
    return steps[::-1]


def _tell(program: Program, report: Report, circle: Circle) -> None:
    def named(node: Node) -> str:
        it = program.instances[node.instance]
        return f"`{it.title}` {report.place(it.of.reactions[node.number].reaction.at)}"

    link = next(it for _, _, it in circle if it)
    way = " -> ".join([named(circle[0][0]), *(named(node) for _, node, _ in circle)])
    what = "reactions wait at one tag, each for the next" if circle[1:] else "a reaction waits for itself at one tag"
    written = f"{program.told(link.source)} -> {program.told(link.target)}"
    written = "" if written.count(".") > 2 else f": `{written} after 1`, or `after 0` for the next microstep"
    report.error(link.at, f"{what}: {way}", f"give a connection of the round a delay{written or ' by `after`'}")
