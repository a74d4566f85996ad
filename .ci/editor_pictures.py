"""Looks at pictures of programs: that each thing of the program is in its picture once, and that nothing lies on
another."""

import re
from collections import Counter
from xml.etree import ElementTree

from warpd.language import tree
from warpd.language.picture import picture_of, structure_of
from warpd.language.picture.placing import place
from warpd.language.scope import Kind

SVG = "{http://www.w3.org/2000/svg}"


def nodes_of(program):
    """The instances of a program, of a bank the first one."""
    return [it for it in program.root.every() if all(part.partition("[")[2] in ("", "0]") for part in it.path)]


def groups(picture, kind):
    """The groups of the SVG that have this word as their class, with the reactor or mode around each."""
    found = []

    def look(element, around):
        words = (element.get("class") or "").split()
        if element.tag == SVG + "g" and kind in words:
            found.append((element, around))
        is_box = {"reactor", "mode"} & set(words)
        for each in element:
            look(each, element if is_box else around)

    look(picture, None)
    return found


def check(program, file):
    """Raises `AssertionError` where a picture is not right; gives how much is in it."""
    text = picture_of(program, file)
    picture = ElementTree.fromstring(text)
    assert picture.find(f"{SVG}title").text == f"The structure of {file}"
    assert "prefers-color-scheme: dark" in text
    size = counted(program, picture)
    boxes_apart(picture)
    box = structure_of(program, file)
    place(box)
    for each in box.every():
        items_apart(each)
        lines_apart(each)
    return size


# What is in it.


def counted(program, picture):
    nodes = nodes_of(program)
    reactors = [it.get("data-name") for it, _ in groups(picture, "reactor")]
    assert sorted(reactors) == sorted(it.title for it in nodes), reactors
    size = len(reactors)
    for node in nodes:
        name = node.title
        it = program.written.get(id(node.raw.tree), node.raw.tree)
        parts = [*it.members, *(each for mode in it.every(tree.Mode) for each in mode.members)]
        kinds = (tree.Reaction, tree.Timer, tree.Action)
        reactions, timers, actions = ([each for each in parts if isinstance(each, kind)] for kind in kinds)
        ports = {kind: [place.name.text for each in it.every(tree.Ports) if each.is_input is (kind == "input")
                        for place in each.places if not place.owner] for kind in ("input", "output")}
        wanted = {
            "reaction": [str(number + 1) for number in range(len(reactions))],
            "timer": [each.name.text for each in timers], "action": [each.name.text for each in actions],
            **ports, "mode": [f"{name}.{each.name.text}".lstrip(".") for each in it.every(tree.Mode)]}
        for kind, names in wanted.items():
            got = [each.get("data-name") for each, around in groups(picture, kind)
                   if within(picture, around, name) and "echo" not in each.get("class")]
            assert sorted(got) == sorted(names), f"{kind} of {name}: {got} and not {names}"
            size += len(got)
    return size + connections(program, picture)


def within(picture, around, name):
    """Whether the box around something is that of this reactor, or a mode of it."""
    got = around is not None and around.get("data-name")
    if around is not None and "mode" in around.get("class").split():
        return got.rpartition(".")[0] == name
    return got == name


def connections(program, picture):
    """Each connection is there once: those of the compiled program, a bank and a multiport as one."""
    wanted = set()
    for target, edge in program.net.edges.items():
        source = edge.source
        if "." in target.name + source.name:
            continue
        is_own = source.node.kind(source.name.split("[")[0]) is Kind.INPUT or not source.node.path
        around = plain(source.node.path if is_own else source.node.path[:-1])
        wanted.add((around, seen(source, around), seen(target, around), edge.delay))
    for it in (*program.net.entrances, *program.net.exits):
        if it.point.node.path:
            origin = getattr(it, "origin", None)
            wanted.add(((), seen(it.point, ()), "exit" if origin is None else f"origin {origin}", None))
    got = Counter()
    for it, around in groups(picture, "connection"):
        ends = it.get("data-from"), it.get("data-to")
        after = re.search(r" after (.*)$", it.find(f"{SVG}title").text)
        got[around.get("data-name"), *ends, bool(after)] += 1
    assert not [it for it, count in got.items() if count > 1], got
    made = Counter()
    for around, one, other, delay in wanted:
        title = ".".join(around)
        ends = (one, "output") if other == "exit" else (other, one) if other.startswith("origin ") else (one, other)
        made[title, *ends, delay is not None] += 1
    told = Counter()
    for (title, one, other, after), count in got.items():
        title = re.sub(r"\[\d+\]", "", title)
        told[title, one, "output" if other.startswith("output ") and "." not in other else other, after] += count
    distinct = Counter(dict.fromkeys(made, 1))
    more, less = set(told) - set(distinct), set(distinct) - set(told)
    assert not more and not less, f"{more} are too many, {less} are missing"
    return sum(got.values())


def plain(path):
    return tuple(part.split("[")[0] for part in path)


def seen(point, around):
    name, path = point.name.split("[")[0], plain(point.node.path)
    return name if path == around else f"{path[-1]}.{name}"


# Where it is.


def boxes_apart(picture):
    """No box of the SVG lies on another, and each is in the one around it."""
    found = []
    for it, around in (*groups(picture, "reactor"), *groups(picture, "mode")):
        rects = [each for each in it if each.tag == SVG + "rect"]
        x, y, width, height = (float(rects[-1].get(key)) for key in ("x", "y", "width", "height"))
        found.append((it, around, (x, y, x + width, y + height)))
    places = {id(it): place for it, _, place in found}
    for number, (it, around, place) in enumerate(found):
        name = it.get("data-name")
        if around is not None:
            left, top, right, bottom = places[id(around)]
            is_in = left < place[0] and top < place[1] and place[2] < right and place[3] < bottom
            assert is_in, f"{name} leaves its box"
        for other, other_around, there in found[:number]:
            assert around is not other_around or apart(place, there), f"{name} lies on {other.get('data-name')}"


def apart(one, other):
    return one[2] <= other[0] or other[2] <= one[0] or one[3] <= other[1] or other[3] <= one[1]


def items_apart(box):
    items = [it for it in box.items if it.width]
    for number, it in enumerate(items):
        is_in = 0 <= it.x and 0 <= it.y and it.x + it.width <= box.width and it.y + it.height <= box.height
        assert is_in, f"{it.kind} {it.name} leaves {box.name}"
        for other in items[:number]:
            one, there = ((each.x, each.y, each.x + each.width, each.y + each.height) for each in (it, other))
            assert apart(one, there), f"{it.kind} {it.name} lies on {other.kind} {other.name} in {box.name}"


def lines_apart(box):
    """Each line leads from one of its ends to the other, up, down, to the left and to the right, and through nothing
    that has an inside."""
    solid = [it for it in box.items if it.kind in ("reactor", "mode", "reaction", "delay")]
    for line, ways, _ in box.ways:
        ends = {id(line.source.item), id(line.target.item), id(line.delay)}
        assert len(ways) == 1 + (line.delay is not None), line.title
        for way in ways:
            assert len(way) > 1, line.title
            for (x, y), (right, bottom) in zip(way, way[1:]):
                assert x == right or y == bottom, f"{line.title} is aslant: {way}"
                left, top, right, bottom = min(x, right), min(y, bottom), max(x, right), max(y, bottom)
                for it in solid:
                    width, height = (it.box.width, it.box.height) if it.box else (it.width, it.height)
                    inside = (it.x + 1, it.y + 1, it.x + width - 1, it.y + height - 1)
                    is_through = left < inside[2] and right > inside[0] and top < inside[3] and bottom > inside[1]
                    is_its = id(it) in ends and it.kind == "reaction"
                    assert not is_through or is_its, f"{line.title} leads through {it.name} in {box.name}"
