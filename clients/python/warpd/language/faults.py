"""What is wrong with a text, and how that is shown: file, line, column, the line with a caret, and a hint."""

from __future__ import annotations

import difflib
import re
import unicodedata
from collections.abc import Iterable, Sequence
from dataclasses import dataclass

from .tree import At

MOST_SHOWN, MOST_LISTED = 50, 3
# Of more names those alone are compared with what was meant that begin with its letter and are as long or nearly so.
MOST_NEAR = 512
# Controls, marks of direction and the like, halves of characters, and ends of lines and paragraphs.
OBEYED = {"Cc", "Cf", "Cs", "Zl", "Zp"}


@dataclass(frozen=True, order=True)
class Fault:
    at: At
    kind: str
    text: str
    hint: str = ""


class Report:
    """The faults and warnings of one text, each told once, in the order of the text."""

    def __init__(self, file: str, text: str):
        self.file, self.lines = file, text.split("\n")
        self.faults: list[Fault] = []
        self.told: set[Fault] = set()
        # Of each mistake that is told once: the number of its fault, and the places where it shows.
        self.alike: dict[str, tuple[int, set[At]]] = {}
        # How often an error was told, one that is told again counted too.
        self.errors = 0
        # Each file, and how many lines stand before its first: those of a further file are counted on.
        self.files: list[tuple[int, str]] = [(0, file)]

    def add(self, file: str, text: str) -> int:
        """Takes a further file in, and gives how many lines stand before its first."""
        first = len(self.lines)
        self.files.append((first, file))
        self.lines += text.split("\n")
        return first

    def number(self, at: At) -> int:
        """The number of the file that has this place."""
        return sum(first < at.line for first, _ in self.files) - 1

    def place(self, at: At) -> str:
        """`line 7`, or `line 7 of lib/sum.lf` of an imported file."""
        first, file = self.files[self.number(at)]
        return f"line {at.line - first}" + f" of {file}" * (first > 0)

    def error(self, at: At, text: str, hint: str = "") -> None:
        self.errors += 1
        self._add(Fault(at, "error", text, hint))

    def error_once(self, at: At, mistake: str, text: str, hint: str) -> None:
        """An error that one mistake is the cause of at several places: it is told at the first of them, with how many
        more there are. `text` is what is told where it is the first, `hint` the same everywhere."""
        self.errors += 1
        if mistake not in self.alike:
            self.alike[mistake] = len(self.faults), set()
            self.faults.append(Fault(at, "error", text, hint))
        number, places = self.alike[mistake]
        places.add(at)
        first, more = self.faults[number], len(places) - 1
        if at < first.at:
            first = Fault(at, "error", text, hint)
        again = f"; so it is at {more} more place{'s' * (more > 1)}" if more else ""
        self.faults[number] = Fault(first.at, "error", first.text, hint + again)

    def mark(self) -> tuple[list[Fault], int, dict]:
        """What is told by now."""
        return [*self.faults], self.errors, {key: (number, {*places}) for key, (number, places) in self.alike.items()}

    def back_to(self, mark: tuple[list[Fault], int, dict]) -> None:
        """Forgets what was told behind a mark, or tells it again."""
        self.faults, self.errors, self.alike = [*mark[0]], mark[1], dict(mark[2])
        self.told = set(self.faults)

    def forget(self, count: int) -> None:
        """Forgets what was told behind the first `count` faults."""
        del self.faults[count:]
        self.told = set(self.faults)
        self.alike.clear()

    def warning(self, at: At, text: str, hint: str = "") -> None:
        self._add(Fault(at, "warning", text, hint))

    def _add(self, fault: Fault) -> None:
        if fault not in self.told:
            self.told.add(fault)
            self.faults.append(fault)

    def __str__(self) -> str:
        shown = sorted(self.faults)
        texts = [self.shown(it) for it in shown[:MOST_SHOWN]]
        if len(shown) > MOST_SHOWN:
            texts.append(f"{self.file}: and {len(shown) - MOST_SHOWN} more\n")
        return "".join(texts)

    def shown(self, fault: Fault) -> str:
        """A fault with its line."""
        line, column, width = fault.at
        source = plain(self.lines[line - 1].rstrip("\r")) if line <= len(self.lines) else ""
        first, file = self.files[self.number(fault.at)]
        number = f"{line - first:5}"
        blank = "".join(it if it == "\t" else " " for it in source[: column - 1]).ljust(column - 1)
        text = f"{plain(file)}:{line - first}:{column}: {fault.kind}: {plain(fault.text)}\n{number} | {source}\n"
        text += f"{' ' * len(number)} | {blank}{'^' * max(1, min(width, len(source) - column + 1))}\n"
        return text + (f"{' ' * len(number)} = hint: {plain(fault.hint)}\n" if fault.hint else "")


def plain(text: str) -> str:
    """The text with another mark for each character that a terminal obeys in the place of showing it."""
    return "".join("\N{REPLACEMENT CHARACTER}" if it != "\t" and unicodedata.category(it) in OBEYED else it for it in text)


def meant(name: str, names: Iterable[str]) -> str:
    """The name that is nearest to this one; empty where none is near."""
    names = list(names)
    if len(names) > MOST_NEAR:
        names = [it for it in names if it[:1] == name[:1] and abs(len(it) - len(name)) < 4][:MOST_NEAR]
    found = difflib.get_close_matches(name, sorted(names), 1, 0.6)
    return found[0] if found else ""


def nearest(name: str, names: Iterable[str]) -> str:
    """A hint that names what was meant, where something is near."""
    found = meant(name, names)
    return f"did you mean `{found}`?" if found else ""


def port_of(name: str) -> str:
    """The port, as it was declared, that has this channel or field: `y` of `y[2]`."""
    return re.sub(r"\[\w+\]$", "", name)


def as_written(name: str) -> str:
    """A port as a text names it, of a struct a field: `out.value` for `out[value]`."""
    return re.sub(r"\[([A-Za-z]\w*)\]", r".\1", name)


def channels_told(names: Sequence[str], every: int) -> tuple[str, str]:
    """How some of `every` ports of one place are told of: a name for a message, with a hint that tells of the others.
    All channels of one multiport have its name."""
    first, *rest = names
    if rest and len(names) == every and len(set(map(port_of, names))) == 1:
        return port_of(first), ""
    if not rest:
        return first, ""
    others = listed(f"`{it}`" for it in rest) if len(rest) <= MOST_LISTED else f"{len(rest)} more of {every}"
    return first, f"so it is with {others}"


def listed(words: Iterable[str], last: str = "and") -> str:
    """`a`, `a and b`, `a, b and c`."""
    *front, end = words
    return f"{', '.join(front)} {last} {end}" if front else end
