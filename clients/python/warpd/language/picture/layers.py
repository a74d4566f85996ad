"""Puts the items of a box into layers from left to right, so that most lines lead to the right, and orders each layer
so that few of them cross."""

from __future__ import annotations

from collections.abc import Sequence
from dataclasses import dataclass, field

from .structure import Box, End, Item, Line

SWEEPS = 12


@dataclass(eq=False)
class Lane(Item):
    """Where a line passes through a layer."""


@dataclass(eq=False)
class Net:
    """The lines of one kind that begin at one end. `lanes` has where it passes layers on its way to the right, `back`
    those on its way to what stands to the left of it."""

    kind: str
    source: End
    targets: list[tuple[End, Line]] = field(default_factory=list)
    lanes: dict[int, Lane] = field(default_factory=dict)
    back: dict[int, Lane] = field(default_factory=dict)


@dataclass(eq=False)
class Segment:
    """A net between two layers: where it comes from on the left, and where on the right. A line that goes back has
    both of its ends on one side. `x` is where it goes up or down."""

    net: Net
    lefts: list[End] = field(default_factory=list)
    rights: list[End] = field(default_factory=list)
    x: float = 0


@dataclass(eq=False)
class Layers:
    """The layers of a box with what passes them, and for each gap to the left of a layer what goes through it."""

    rows: list[list[Item]]
    nets: list[Net]
    gaps: list[list[Segment]]


def legs_of(line: Line) -> list[tuple[End, End]]:
    """A line in its parts: one that has a delay in its middle has two."""
    if line.delay is None:
        return [(line.source, line.target)]
    return [(line.source, End(line.delay)), (End(line.delay), line.target)]


def layered(box: Box) -> Layers:
    _assign(box)
    last = max((it.layer for it in box.items), default=0)
    rows: list[list[Item]] = [[] for _ in range(last + 1)]
    for it in box.items:
        rows[it.layer].append(it)
    nets = _nets(box)
    for net in nets:
        _pass(net, rows)
    gaps = _gaps(nets, len(rows))
    _order(rows, gaps)
    return Layers(rows, nets, gaps)


# Layers.


def _assign(box: Box) -> None:
    """The layer of each item: ports of the box stand at its border, all else behind what leads to it, and what nothing
    leads to right before what it leads to."""
    edges = [(source.item, target.item) for line in box.lines for source, target in legs_of(line)]
    inner = [it for it in box.items if not _is_left(it) and not _is_right(it)]
    places = {id(it): number for number, it in enumerate(inner)}
    behind: dict[int, list[Item]] = {id(it): [] for it in inner}
    for source, target in edges:
        if id(source) in places and id(target) in places and source is not target:
            behind[id(source)].append(target)
    order = _without_circles(inner, behind)
    rank = {id(it): number for number, it in enumerate(order)}
    led_to = {id(target) for source, target in edges if _is_left(source)}
    for it in box.items:
        it.layer = int(id(it) in led_to)
    for it in order:
        for after in behind[id(it)]:
            if rank[id(after)] > rank[id(it)]:
                after.layer = max(after.layer, it.layer + 1)
    for it in reversed(order):
        afters = [after.layer for after in behind[id(it)] if rank[id(after)] > rank[id(it)]]
        if afters and it.layer == 0:
            it.layer = min(afters) - 1
    end = 1 + max((it.layer for it in inner), default=0)
    for it in box.items:
        it.layer = end if _is_right(it) else it.layer


def _is_left(it: Item) -> bool:
    return it.kind in ("input", "origin")


def _is_right(it: Item) -> bool:
    return it.kind in ("output", "exit")


def _without_circles(items: Sequence[Item], behind: dict[int, list[Item]]) -> list[Item]:
    """An order in which few lead back: what has the fewest before it that are not there yet comes next; of several one
    behind something that is there, and then the first of the text."""
    before = {id(it): 0 for it in items}
    for it in items:
        for after in behind[id(it)]:
            before[id(after)] += 1
    left, order, reached = list(items), [], set()
    while left:
        it = min(left, key=lambda it: (before[id(it)], id(it) not in reached))
        left.remove(it)
        order.append(it)
        for after in behind[id(it)]:
            before[id(after)] -= 1
            reached.add(id(after))
    return order


# Nets.


def _nets(box: Box) -> list[Net]:
    found: dict[tuple, Net] = {}
    for line in box.lines:
        for source, target in legs_of(line):
            net = found.setdefault((source, line.kind), Net(line.kind, source))
            net.targets.append((target, line))
    return list(found.values())


def _pass(net: Net, rows: list[list[Item]]) -> None:
    """Makes the lanes of a net."""
    first = net.source.item.layer
    layers = [target.item.layer for target, _ in net.targets]
    for layer in range(first + 1, max(layers)):
        net.lanes[layer] = _lane(layer, rows)
    if min(layers) <= first:
        for layer in range(first, min(layers) - 1, -1):
            net.back[layer] = _lane(layer, rows)


def _lane(layer: int, rows: list[list[Item]]) -> Lane:
    made = Lane("lane", "", layer=layer)
    rows[layer].append(made)
    return made


def _gaps(nets: list[Net], count: int) -> list[list[Segment]]:
    """The segments of each gap: that with a number is to the left of the layer with this number."""
    gaps: list[list[Segment]] = [[] for _ in range(count + 1)]
    for net in nets:
        for number in range(count + 1):
            made = _segment(net, number)
            if len(made.lefts) + len(made.rights) > 1:
                gaps[number].append(made)
    return gaps


def _segment(net: Net, number: int) -> Segment:
    made, first = Segment(net), net.source.item.layer
    lefts, rights = made.lefts, made.rights
    if number == first + 1:
        lefts.append(net.source)
        if first in net.back:
            lefts.append(End(net.back[first]))
    elif number - 1 in net.lanes:
        lefts.append(End(net.lanes[number - 1]))
    if number in net.lanes:
        rights.append(End(net.lanes[number]))
    is_forward = number > first
    rights += [target for target, _ in net.targets if target.item.layer == number and is_forward]
    if not is_forward and number in net.back:
        rights.append(End(net.back[number]))
        if number - 1 in net.back:
            lefts.append(End(net.back[number - 1]))
        rights += [target for target, _ in net.targets if target.item.layer == number]
    return made


# The order in a layer.


def _order(rows: list[list[Item]], gaps: list[list[Segment]]) -> None:
    """Sweeps to the right and to the left, and keeps the order that has the fewest crossings."""
    best, least = [list(row) for row in rows], None
    for number in range(SWEEPS):
        crossings = _crossings(rows, gaps)
        if least is None or crossings < least:
            best, least = [list(row) for row in rows], crossings
        if number % 2 == 0:
            for layer in range(1, len(rows)):
                _sort(rows, layer, gaps[layer], True)
        else:
            for layer in range(len(rows) - 2, -1, -1):
                _sort(rows, layer, gaps[layer + 1], False)
    if least is not None and _crossings(rows, gaps) >= least:
        rows[:] = best


def _sort(rows: list[list[Item]], layer: int, segments: list[Segment], from_left: bool) -> None:
    """Orders a layer by where its items are connected in the one beside it."""
    beside = _ranks(rows[layer - 1 if from_left else layer + 1])
    wanted: dict[int, list[float]] = {}
    for it in segments:
        here, there = (it.rights, it.lefts) if from_left else (it.lefts, it.rights)
        places = [_place(beside, end) for end in there]
        for end in here:
            wanted.setdefault(id(end.item), []).extend(places)
    row = rows[layer]
    now = {id(it): float(number) for number, it in enumerate(row)}
    scale = len(rows[layer]) / max(len(beside), 1)
    keys = {
        id(it): sum(wanted[id(it)]) / len(wanted[id(it)]) * scale if wanted.get(id(it)) else now[id(it)] for it in row}
    row.sort(key=lambda it: (keys[id(it)], now[id(it)]))
    _in_turn(row)


def _in_turn(row: list[Item]) -> None:
    """Reactions of one layer stand in their order."""
    places = [number for number, it in enumerate(row) if it.kind == "reaction"]
    reactions = sorted((row[number] for number in places), key=lambda it: int(it.name))
    for number, it in zip(places, reactions):
        row[number] = it


def _ranks(row: list[Item]) -> dict[int, int]:
    return {id(it): number for number, it in enumerate(row)}


def _place(ranks: dict[int, int], end: End) -> float:
    """The place of an end in its layer, with that of its port."""
    item = end.item
    if not item.box or not end.port:
        return ranks[id(item)] + 0.5
    return ranks[id(item)] + item.port(end.port) / max(item.height, 1)


def _crossings(rows: list[list[Item]], gaps: list[list[Segment]]) -> int:
    count = 0
    for layer in range(1, len(rows)):
        left, right = _ranks(rows[layer - 1]), _ranks(rows[layer])
        lines = [
            (_place(left, one), _place(right, other)) for it in gaps[layer] for one in it.lefts for other in it.rights]
        lines.sort()
        for number, (_, first) in enumerate(lines):
            count += sum(second < first for start, second in lines[number + 1:] if start > lines[number][0])
    return count
