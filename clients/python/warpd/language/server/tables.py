"""What the compiler made of each name: its numbers in the program file, its starts and delays, in each instance."""

from __future__ import annotations

from pathlib import Path
from typing import NamedTuple, Union

from .. import tree
from ..faults import Report
from ..hierarchy import Node
from ..model import Program
from ..types import ONE, is_fixed, number_of
from ..values import Cells

NAMED = {
    10**6: "ms", 10**3: "us", 1: "ns", 10**9: "s", 60 * 10**9: "min", 3600 * 10**9: "hours", 86_400 * 10**9: "days",
}
# So many values of a constant array are told.
MOST_SHOWN = 8


class Key(NamedTuple):
    """A member of a reactor of a file, or the reactor where `member` is empty."""

    path: Path
    reactor: str
    member: str


class Tables:
    """Of one program that could be compiled. `told` has for each key what is said of it in each instance."""

    def __init__(self, program: Program, report: Report, path: Path):
        self.program, self.report, self.path = program, report, path
        self.files = {path.parent / file for _, file in report.files}
        self.unit = program.unit
        self.constants = {name: shown_value(value) for name, value in program.constants.items()}
        self.told: dict[Key, list[str]] = {}
        names = program.names(is_flat=True)
        self.variables = {name: number for number, name in enumerate(names["vars"])}
        self.arrays = {name: cells for name, *cells in names.get("arrays", ())}
        for node in program.root.every():
            self._node(node)
        for number, it in enumerate(program.net.entrances):
            words = f"input {number}, `{names['inputs'][number][1]}`, of origin {it.origin}"
            self._tell(it.point.node, it.point.name.split("[")[0], words)
        for number, it in enumerate(program.net.exits):
            self._tell(it.point.node, it.point.name.split("[")[0], f"output {number}, `{names['outputs'][number]}`")

    def of(self, key: Key) -> list[str]:
        return self.told.get(key, [])

    def time(self, count: int) -> str:
        """A time of the program, with its unit where it has one."""
        if not self.unit:
            return str(count)
        size = next((it for it in sorted(NAMED, reverse=True) if count * self.unit % it == 0), 1)
        return f"{count}" + (f" ({count * self.unit // size} {NAMED[size]})" if count else "")

    def _tell(self, node: Node, member: str, words: str) -> None:
        it = node.raw.tree
        first, file = self.report.files[self.report.number(it.at)]
        key = Key(self.path.parent / file, it.name.text if it.name else "", member)
        self.told.setdefault(key, []).append(words)

    def _node(self, node: Node) -> None:
        it, title = node.raw.tree, node.title or node.raw.name
        given = ", ".join(f"{each.name.text} = {shown_value(node.constants.get(each.name.text))}" for each in it.parameters)
        self._tell(node, "", f"`{title}`" + f": {given}" * bool(given))
        for each in it.parameters:
            self._tell(node, each.name.text, f"{shown_value(node.constants.get(each.name.text))} in `{title}`")
        for name, bank in node.parts.items():
            if name in node.widths:
                self._tell(node, name, f"`{node.title}{'.' if node.title else ''}{name}`: {len(bank)} instances")
        if node.flat:
            self._flat(node)

    def _flat(self, node: Node) -> None:
        flat, scope = node.flat, node.raw.scope
        starts = dict(flat.reactor.get("vars", ()))
        delays = dict(flat.reactor.get("actions", ()))
        timers = {name: times for name, *times in flat.reactor.get("timers", ())}
        for it in node.raw.tree.every(tree.State):
            for name in (scope.fields.get(it.name.text) or {it.name.text: it.name.text}).values():
                number = self.variables.get(f"{flat.name}.{name}")
                first, count = self.arrays.get(f"{flat.name}.{name}", (0, 0))
                if count:
                    sides = " by ".join(map(str, flat.sides.get(name, (count,))))
                    self._tell(node, it.name.text, f"variables {first} to {first + count - 1}, `{flat.name}.{name}`, {sides} cells")
                if number is not None:
                    words = f"variable {number}, `{flat.name}.{name}`, starts at {starts.get(name)}"
                    self._tell(node, it.name.text, words)
        for it in node.raw.tree.every(tree.Action):
            if it.name.text in delays:
                words = f"`{flat.name}.{it.name.text}`: at least {self.time(delays[it.name.text])} later"
                self._tell(node, it.name.text, words)
        for it in node.raw.tree.every(tree.Timer):
            if it.name.text in timers:
                offset, *period = timers[it.name.text]
                again = f", then every {self.time(period[0])}" if period and period[0] else ", once"
                self._tell(node, it.name.text, f"`{flat.name}.{it.name.text}`: at {self.time(offset)}{again}")


def shown_value(value: Union[int, Cells, None]) -> str:
    """A constant; of an array the first values."""
    if not isinstance(value, Cells):
        return str(value)
    return f"{{{', '.join(map(str, value.values[:MOST_SHOWN]))}{', ..' * (value.count > MOST_SHOWN)}}}"


def number_told(text: str) -> str:
    """What a number with a point comes to."""
    return f"`fixed`: {number_of(text)} of {ONE:,}" if is_fixed(text) else ""
