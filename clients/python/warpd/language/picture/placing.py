"""Finds where all that a box has is drawn, and the ways of its lines: first of what is in it, box by box."""

from __future__ import annotations

from collections.abc import Callable
from math import ceil

from .layers import Layers, Net, Segment, layered
from .structure import PORT, TITLE, Box, End, Item, Line

LETTER, SMALL = 6.4, 5.8
SPACE, TRACK, MARGIN, BETWEEN = 14, 9, 14, 18
ICON, CHEVRON, TALL = 24, 44, 24
NARROW, WIDE = set("iljtfr.,:()[]' "), set("mwMW@")
# How far the second one of a bank looks out from behind the first.
BEHIND = 5
ROUNDS = 10
Way = list[tuple[float, float]]


def wide(text: str, letter: float = LETTER) -> int:
    """About how wide a text is."""
    sizes = (0.62 if it in NARROW else 1.45 if it in WIDE else 1.18 if it.isupper() else 1 for it in text)
    return ceil(letter * sum(sizes))


def place(box: Box) -> None:
    """Places what is in a box, and gives the box its size."""
    for it in box.items:
        if it.box:
            place(it.box)
        it.width, it.height = size_of(it)
    layers = layered(box)
    _heights(layers)
    _across(box, layers)
    _route(box, layers)


def size_of(it: Item) -> tuple[float, float]:
    match it.kind:
        case "reactor" | "mode":
            behind = BEHIND * (it.box.count > 1)
            return it.box.width + behind, it.box.height + behind
        case "input" | "output":
            return wide(it.label) + 20, PORT
        case "origin" | "exit":
            return wide(it.label) + 18, PORT
        case "reaction":
            return CHEVRON, TALL
        case "delay":
            return wide(it.label, SMALL) + 12, 18
        case "lane":
            return 0, 4
    return max(ICON, wide(it.label, SMALL) + 4), 38


# Heights.


def _heights(layers: Layers) -> None:
    """Where each item is from top to bottom: near what it is connected with, so that lines are straight."""
    for row in layers.rows:
        _stack(row)
    links = [_links(layers, number) for number in range(len(layers.rows))]
    for turn in range(ROUNDS):
        numbers = range(len(layers.rows)) if turn % 2 == 0 else range(len(layers.rows) - 1, -1, -1)
        for number in numbers:
            sides = links[number]
            chosen = (sides[turn % 2], *sides) if turn < ROUNDS - 2 else ({}, *sides)
            _settle(layers.rows[number], lambda it, chosen=chosen: _wanted(it, *chosen))
    _draw_in(layers)
    _draw_exits_in(layers)
    top = min((it.y for row in layers.rows for it in row), default=0)
    for row in layers.rows:
        for it in row:
            it.y = round(it.y - top)


def _draw_in(layers: Layers) -> None:
    """Brings lines that lead back as near to what they pass as can be."""
    for net in sorted(layers.nets, key=lambda net: max((it.y for it in net.back.values()), default=0)):
        first = net.source.item.layer
        ends = [height_of(net.source), *(height_of(end) for end, _ in net.targets if end.item.layer <= first)]
        for run in _runs(net):
            if run[0].y > max(ends):
                _move(layers, run, max(ends) - run[0].y)
            elif run[0].y < min(ends):
                _move(layers, run, min(ends) - run[0].y)


def _draw_exits_in(layers: Layers) -> None:
    """Brings what leads to an output of the program as near to where it comes from as can be."""
    for net in layers.nets:
        for end, _ in net.targets:
            lanes = [it for it in net.lanes.values() if abs(height_of(End(it)) - height_of(end)) < 0.5]
            if end.item.kind == "exit" and lanes:
                before = net.lanes.get(lanes[0].layer - 1)
                _move(layers, [*lanes, end.item], height_of(End(before) if before else net.source) - height_of(end))


def _move(layers: Layers, run: list[Item], by: float) -> None:
    """Moves items of several layers up or down together, as far as nothing is in their way."""
    low, high = float("-inf"), float("inf")
    for it in run:
        row = layers.rows[it.layer]
        place = row.index(it)
        if place:
            low = max(low, row[place - 1].y + row[place - 1].height + _space(row[place - 1]) - it.y)
        if place + 1 < len(row):
            high = min(high, row[place + 1].y - it.height - _space(it) - it.y)
    for it in run:
        it.y += min(max(by, low), high) if low <= high else 0


def _runs(net: Net) -> list[list[Item]]:
    """The lanes of a net that lead back at one height, each with those beside it."""
    runs: list[list[Item]] = []
    for layer in sorted(net.back):
        it = net.back[layer]
        if runs and abs(runs[-1][-1].y - it.y) < 0.5:
            runs[-1].append(it)
        else:
            runs.append([it])
    return runs


def _stack(row: list[Item]) -> None:
    y = 0.0
    for it in row:
        it.y = y
        y += it.height + _space(it)


def _space(it: Item) -> float:
    return 8 if it.kind in ("lane", "input", "output", "origin", "exit") else SPACE


Links = dict[int, list[tuple[End, End]]]


def _links(layers: Layers, number: int) -> tuple[Links, Links]:
    """What the items of a layer are connected with in the one before, and in the one behind."""
    before: Links = {}
    behind: Links = {}
    for it in layers.gaps[number]:
        for here in it.rights:
            before.setdefault(id(here.item), []).extend((here, there) for there in it.lefts)
    for it in layers.gaps[number + 1]:
        for here in it.lefts:
            behind.setdefault(id(here.item), []).extend((here, there) for there in it.rights)
    return before, behind


def height_of(end: End) -> float:
    return end.item.y + end.item.port(end.port)


def _wanted(it: Item, side: Links, before: Links, behind: Links) -> float:
    """Where an item would stand with as many of its lines straight as can be: of those on one side, where there are
    any, else of all."""
    found = side.get(id(it)) or [*before.get(id(it), ()), *behind.get(id(it), ())]
    places = sorted(height_of(there) - here.item.port(here.port) for here, there in found)
    if not places:
        return it.y
    return min(places[(len(places) - 1) // 2], places[len(places) // 2], key=lambda place: abs(place - it.y))


def _settle(row: list[Item], wanted: Callable[[Item], float]) -> None:
    """Gives each item of a layer the place that it wants, as far as they do not meet; of those that meet, the block
    goes where the middle one of them wants to be."""
    blocks: list[tuple[list[float], list[Item]]] = []
    offsets: dict[int, float] = {}
    offset = 0.0
    for it in row:
        offsets[id(it)] = offset
        blocks.append(([wanted(it) - offset] * (3 if it.kind == "lane" else 1), [it]))
        offset += it.height + _space(it)
        while len(blocks) > 1 and _middle(blocks[-2][0]) > _middle(blocks[-1][0]):
            values, items = blocks.pop()
            blocks[-1] = (sorted(blocks[-1][0] + values), blocks[-1][1] + items)
    for values, items in blocks:
        for it in items:
            it.y = _middle(values) + offsets[id(it)]


def _middle(values: list[float]) -> float:
    return values[(len(values) - 1) // 2]


# From left to right.


def _across(box: Box, layers: Layers) -> None:
    """Where each item is from left to right, where each line goes up and down, and the size of the box."""
    widths = [max((it.width for it in row), default=0) for row in layers.rows]
    left, title = 0.0, TITLE + (8 if any(it.kind != "lane" for row in layers.rows for it in row) else 0)
    if _has_border(layers):
        widths[0] = max([widths[0], *(MARGIN + it.width for it in layers.rows[0] if it.kind not in ("input", "lane"))])
    for number, row in enumerate(layers.rows):
        left += _tracks(layers.gaps[number], left, number, layers)
        for it in row:
            side = {"input": 0, "origin": 0, "output": 1, "exit": 1}.get(it.kind, 0.5)
            inset = MARGIN if number == 0 and _has_border(layers) and side == 0.5 else 0
            it.x, it.y = round(left + inset + (widths[number] - inset - it.width) * side), it.y + title
        left += widths[number]
    left += _tracks(layers.gaps[-1], left, len(layers.rows), layers)
    has_right = any(it.kind == "output" for it in layers.rows[-1])
    box.width = round(max(left + (0 if has_right else MARGIN), wide(box.title) + 34))
    for it in layers.rows[-1]:
        it.x += box.width - left if it.kind == "output" else 0
    bottom = max((it.y + it.height for row in layers.rows for it in row), default=title)
    box.height = round(bottom + (22 if box.count > 1 else 12))


def _tracks(segments: list[Segment], left: float, number: int, layers: Layers) -> float:
    """Gives each segment of a gap the place where it goes up or down; gives how wide the gap is."""
    is_border = number == 0 or number == len(layers.rows)
    bent = [it for it in segments if _span(it)[1] - _span(it)[0] > 0.5]
    tracks: list[tuple[float, float, int]] = []
    for it in _in_order(bent):
        low, high = _span(it)
        track = max((each + 1 for start, end, each in tracks if start <= high + 6 and low <= end + 6), default=0)
        tracks.append((low, high, track))
        it.x = track
    count = max((track + 1 for *_, track in tracks), default=0)
    if is_border:
        width = MARGIN * (number == 0 and not _has_border(layers)) + TRACK * count
        start = left + width - TRACK * count + TRACK / 2 if number == 0 else left + TRACK
        width += TRACK * (count > 0 and number > 0)
    else:
        width = max(BETWEEN, TRACK * (count + 1))
        start = left + (width - TRACK * (count - 1)) / 2
    for it in bent:
        it.x = round(start + TRACK * it.x)
    for it in segments:
        if it not in bent:
            it.x = left + width / 2
    return width


def _has_border(layers: Layers) -> bool:
    return any(it.kind == "input" for it in layers.rows[0])


def _span(it: Segment) -> tuple[float, float]:
    heights = [height_of(end) for end in (*it.lefts, *it.rights)]
    return min(heights), max(heights)


def _in_order(segments: list[Segment]) -> list[Segment]:
    """From left to right, so that few cross: each is put where it crosses those that stand already the least."""
    placed: list[Segment] = []
    for it in sorted(segments, key=lambda it: _span(it)[0]):
        costs = []
        for place in range(len(placed) + 1):
            cost = sum(_cost(other, it) for other in placed[:place]) + sum(_cost(it, other) for other in placed[place:])
            costs.append((cost, place))
        placed.insert(min(costs)[1], it)
    return placed


def _cost(left: Segment, right: Segment) -> float:
    """How much two segments cross where one goes up or down to the left of the other."""
    low, high = _span(left)
    start, end = _span(right)
    cost = sum(low < height_of(it) < high for it in right.lefts)
    cost += sum(start < height_of(it) < end for it in left.rights)
    met = sum(abs(height_of(one) - height_of(other)) < 2 for one in left.rights for other in right.lefts)
    return cost + 20 * met


# Lines.


def _route(box: Box, layers: Layers) -> None:
    """The ways of all lines, in pieces where a delay stands in them, and the places where a line parts."""
    ways: dict[int, tuple[Line, list[Way], Way]] = {id(line): (line, [], []) for line in box.lines}
    by_net = {(id(it.net), number): it for number, gap in enumerate(layers.gaps) for it in gap}
    for net in layers.nets:
        for target, line in net.targets:
            ways[id(line)][1].append(_way(net, target, by_net))
        first = net.targets[0][1]
        for number in range(len(layers.gaps)):
            if (id(net), number) in by_net:
                ways[id(first)][2].extend(_partings(by_net[id(net), number]))
    box.ways = [ways[id(line)] for line in box.lines]


def _way(net: Net, target: End, segments: dict[tuple[int, int], Segment]) -> Way:
    source, last = net.source.item, target.item.layer
    way = [(leaves(net.source), height_of(net.source))]

    def up_or_down(number: int, height: float) -> None:
        x = segments[id(net), number].x
        way.extend([(x, way[-1][1]), (x, height)])

    if last > source.layer:
        for number in range(source.layer + 1, last):
            up_or_down(number, height_of(End(net.lanes[number])))
        up_or_down(last, height_of(target))
    else:
        up_or_down(source.layer + 1, height_of(End(net.back[source.layer])))
        for number in range(source.layer, last, -1):
            up_or_down(number, height_of(End(net.back[number - 1])))
        up_or_down(last, height_of(target))
    way.append((enters(target), height_of(target)))
    return _plain(way)


def leaves(end: End) -> float:
    """Where a line leaves an item, on its right."""
    it = end.item
    if it.kind in ("action", "timer", "startup", "shutdown", "reset"):
        return it.x + (it.width + ICON) / 2
    if it.box and it.box.count > 1:
        return it.x + it.box.width
    return it.x + (8 if it.kind in ("input", "origin") else it.width)


def enters(end: End) -> float:
    """Where a line comes to an item, on its left."""
    it = end.item
    if it.kind in ("action", "timer", "startup", "shutdown", "reset"):
        return it.x + (it.width - ICON) / 2
    return it.x + (8 if it.kind == "reaction" else it.width - 8 if it.kind in ("output", "exit") else 0)


def _plain(way: Way) -> Way:
    """A way without places at which it goes straight on."""
    found: Way = []
    for point in way:
        if found and abs(found[-1][0] - point[0]) < 0.01 and abs(found[-1][1] - point[1]) < 0.01:
            continue
        if len(found) > 1 and (found[-2][0] == found[-1][0] == point[0] or found[-2][1] == found[-1][1] == point[1]):
            found.pop()
        found.append(point)
    return found


def _partings(it: Segment) -> Way:
    """Where the lines of a net part: at each height between the ends of where it goes up and down."""
    low, high = _span(it)
    if high - low <= 0.5:
        return []
    heights = {height_of(end) for end in (*it.lefts, *it.rights)}
    sides = {height: sum(height_of(end) == height for end in (*it.lefts, *it.rights)) for height in heights}
    return [(it.x, height) for height in sorted(heights) if low < height < high or sides[height] > 1]
