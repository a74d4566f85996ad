"""Writes the SVG of a picture whose parts are placed."""

from __future__ import annotations

from collections.abc import Iterator
from xml.sax.saxutils import escape, quoteattr

from .placing import ICON, place
from .structure import CONNECTION, PORT, TITLE, Box, Item, Line

# The space around the picture; half a pixel more makes lines sharp.
EDGE = 12.5
CORNER = 5
STYLE = """
.warpd { --paper: #ffffff; --ink: #24292f; --soft: #57606a; --line: #57606a; --edge: #8c959f; --mark: #4a6785;
  --on-mark: #ffffff; --tint: #eef2f6; --mode: #8250df; font: 11px system-ui, "DejaVu Sans", sans-serif; }
@media (prefers-color-scheme: dark) {
  .warpd { --paper: #0d1117; --ink: #e6edf3; --soft: #9da7b3; --line: #9da7b3; --edge: #57606a; --mark: #6e8fb3;
    --on-mark: #0d1117; --tint: #1a212b; --mode: #b392f0; }
}
.warpd text { fill: var(--ink); }
.warpd .small { fill: var(--soft); font-size: 10px; }
.warpd .box { fill: var(--tint); stroke: var(--edge); }
.warpd .main > .box { fill: var(--paper); }
.warpd .deep > .box { fill: var(--paper); }
.warpd .mode > .box { fill: var(--paper); stroke: var(--mode); }
.warpd .initial > .box { stroke-width: 2.5; }
.warpd .name { font-weight: 600; }
.warpd .mark { fill: var(--mark); }
.warpd .mark-text { fill: var(--on-mark); font-weight: 600; text-anchor: middle; }
.warpd .icon { fill: var(--paper); stroke: var(--ink); stroke-width: 1.2; }
.warpd .icon-line { fill: none; stroke: var(--ink); stroke-width: 1.2; }
.warpd .port { fill: var(--ink); }
.warpd .echo .port { fill: none; stroke: var(--soft); }
.warpd .middle { text-anchor: middle; }
.warpd .end { text-anchor: end; }
.warpd .line path { fill: none; stroke: var(--line); }
.warpd .trigger path, .warpd .effect path { stroke-dasharray: 5 3; }
.warpd .read path { stroke-dasharray: 1.5 3; }
.warpd .transition path { stroke: var(--mode); stroke-width: 1.6; }
.warpd .line circle { fill: var(--line); }
.warpd .line:hover path { stroke: var(--mark); stroke-width: 2.2; }
.warpd .delay rect { fill: var(--paper); stroke: var(--edge); }
""".strip()


def drawn(box: Box, file: str) -> str:
    """The SVG of a program's structure."""
    place(box)
    width, height = round(box.width + 2 * EDGE), round(box.height + 2 * EDGE)
    head = (
        f'<svg xmlns="http://www.w3.org/2000/svg" class="warpd" width="{width}" height="{height}" '
        f'viewBox="0 0 {width} {height}" role="img">\n<title>{escape(f"The structure of {file}")}</title>\n'
        f"<style>\n{STYLE}\n</style>\n")
    return head + "\n".join(_box(box, EDGE, EDGE, 0)) + "\n</svg>\n"


def _group(kind: str, name: str, title: str = "", **more: str) -> str:
    data = "".join(f" data-{key}={quoteattr(value)}" for key, value in more.items())
    told = f"<title>{escape(title)}</title>" if title else ""
    return f"<g class={quoteattr(kind)} data-name={quoteattr(name)}{data}>{told}"


def _text(x: float, y: float, text: str, kind: str = "") -> str:
    return f'<text x="{_number(x)}" y="{_number(y)}"' + (f' class="{kind}"' if kind else "") + f">{escape(text)}</text>"


def _number(it: float) -> str:
    return f"{it:.1f}".removesuffix(".0")


def _box(box: Box, x: float, y: float, depth: int) -> Iterator[str]:
    """A reactor or a mode at this place of the picture, with all that it has."""
    kind = " ".join(
        [box.kind, *["main"] * (depth == 0), *["initial"] * box.is_initial, *["deep"] * (depth > 0 and depth % 2 == 0)])
    yield _group(kind, box.name, box.title + f"\n{box.hint}" * bool(box.hint))
    frame = f'class="box" width="{box.width}" height="{box.height}" rx="{4 if box.kind == "mode" else 8}"'
    if box.count > 1:
        yield f'<rect {frame} x="{_number(x + 5)}" y="{_number(y + 5)}"/>'
    yield f'<rect {frame} x="{_number(x)}" y="{_number(y)}"/>'
    yield _text(x + box.width / 2, y + 16, box.title, "name middle")
    if box.count > 1:
        yield _text(x + 8, y + box.height - 5, f"× {box.count}", "small")
    for line, ways, partings in box.ways:
        yield from _line(line, ways, partings, x, y)
    for it in box.items:
        if it.box:
            yield from _box(it.box, x + it.x, y + it.y, depth + (box.kind == "reactor"))
        else:
            yield _item(it, x + it.x, y + it.y)
    yield "</g>"


def _item(it: Item, x: float, y: float) -> str:
    parts = {
        "input": _port, "output": _port, "origin": _border, "exit": _border, "reaction": _reaction, "action": _action,
        "timer": _timer, "startup": _startup, "shutdown": _shutdown, "reset": _startup, "delay": _delay,
    }[it.kind](it, x, y)
    kind = f"echo {it.kind}" if it.text == "echo" else it.kind
    return _group(kind, it.name, it.title) + "".join(parts) + "</g>"


def _triangle(x: float, y: float) -> str:
    return f'<path class="port" d="M{_number(x)} {_number(y - 5)}l9 5l-9 5z"/>'


def _port(it: Item, x: float, y: float) -> Iterator[str]:
    middle = y + PORT / 2
    if it.kind == "input":
        yield _triangle(x - 1, middle)
        yield _text(x + 11, middle - 4.5, it.label, "small")
    else:
        yield _triangle(x + it.width - 8, middle)
        yield _text(x + it.width - 11, middle - 4.5, it.label, "small end")


def _border(it: Item, x: float, y: float) -> Iterator[str]:
    middle = y + PORT / 2
    if it.kind == "origin":
        yield f'<circle class="mark" cx="{_number(x + 5)}" cy="{_number(middle)}" r="4"/>'
        yield _text(x + 12, middle - 4.5, it.label, "small")
    else:
        yield f'<circle class="mark" cx="{_number(x + it.width - 5)}" cy="{_number(middle)}" r="4"/>'
        yield _text(x + it.width - 12, middle - 4.5, it.label, "small end")


def _reaction(it: Item, x: float, y: float) -> Iterator[str]:
    width, half = it.width, it.height / 2
    yield (
        f'<path class="mark" d="M{_number(x)} {_number(y)}h{_number(width - 9)}l9 {_number(half)}l-9 {_number(half)}'
        f'h{_number(9 - width)}l9 {_number(-half)}z"/>')
    yield _text(x + width / 2 + 1, y + half + 4, it.text, "mark-text")


def _action(it: Item, x: float, y: float) -> Iterator[str]:
    middle = x + it.width / 2
    yield f'<path class="icon" d="M{_number(middle)} {_number(y + 1)}l{ICON / 2} 21h-{ICON}z"/>'
    yield _text(middle, y + 19, it.text, "middle")
    yield _text(middle, y + 34, it.label, "small middle")


def _timer(it: Item, x: float, y: float) -> Iterator[str]:
    middle = x + it.width / 2
    yield f'<circle class="icon" cx="{_number(middle)}" cy="{_number(y + 12)}" r="11"/>'
    yield f'<path class="icon-line" d="M{_number(middle)} {_number(y + 5)}v7l5 3"/>'
    yield _text(middle, y + 35, it.label, "small middle")


def _startup(it: Item, x: float, y: float) -> Iterator[str]:
    middle = x + it.width / 2
    yield f'<circle class="icon" cx="{_number(middle)}" cy="{_number(y + 12)}" r="9"/>'
    if it.kind == "reset":
        yield _text(middle, y + 16, "R", "middle")
    yield _text(middle, y + 35, it.label, "small middle")


def _shutdown(it: Item, x: float, y: float) -> Iterator[str]:
    middle = x + it.width / 2
    yield f'<path class="icon" d="M{_number(middle)} {_number(y + 1)}l11 11l-11 11l-11 -11z"/>'
    yield _text(middle, y + 35, it.label, "small middle")


def _delay(it: Item, x: float, y: float) -> Iterator[str]:
    yield f'<rect x="{_number(x)}" y="{_number(y + 1)}" width="{_number(it.width)}" height="16" rx="8"/>'
    yield _text(x + it.width / 2, y + 12.5, it.label, "small middle")


def _line(line: Line, ways: list, partings: list, x: float, y: float) -> Iterator[str]:
    ends = {"from": _told(line.source), "to": _told(line.target)}
    yield _group(f"line {line.kind}", line.kind if line.kind != CONNECTION else "", line.title, **ends)
    for way in ways:
        yield f'<path d="{_path([(x + left, y + top) for left, top in way])}"/>'
    for left, top in partings:
        yield f'<circle cx="{_number(x + left)}" cy="{_number(y + top)}" r="2.2"/>'
    yield "</g>"


def _told(end) -> str:
    return f"{end.item.name}.{end.port}" if end.port else end.item.name


def _path(way: list[tuple[float, float]]) -> str:
    """A way with its corners rounded."""
    path = f"M{_point(way[0])}"
    for before, here, behind in zip(way, way[1:], way[2:]):
        size = min(CORNER, _length(before, here) / 2, _length(here, behind) / 2)
        start, end = _toward(here, before, size), _toward(here, behind, size)
        path += f"L{_point(start)}Q{_point(here)} {_point(end)}"
    return path + f"L{_point(way[-1])}"


def _point(it: tuple[float, float]) -> str:
    return f"{_number(it[0])} {_number(it[1])}"


def _length(one: tuple[float, float], other: tuple[float, float]) -> float:
    return abs(one[0] - other[0]) + abs(one[1] - other[1])


def _toward(start: tuple[float, float], to: tuple[float, float], size: float) -> tuple[float, float]:
    length = _length(start, to) or 1
    return start[0] + (to[0] - start[0]) / length * size, start[1] + (to[1] - start[1]) / length * size
