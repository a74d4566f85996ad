"""The texts as the editor has them, and its places in them: a line from 0, and how many code units stand before."""

from __future__ import annotations

import re
from dataclasses import dataclass
from pathlib import Path
from typing import Any
from urllib.parse import unquote, urlsplit

from ..tree import At

UTF_16, UTF_32 = "utf-16", "utf-32"


def path_of(uri: str) -> Path:
    """Where a text is; one that was never saved has a path at which there is nothing."""
    parts = urlsplit(uri)
    if parts.scheme == "file":
        return Path(unquote(parts.path))
    return Path("/unsaved", re.sub(r"\W+", "_", uri) + ".lf")


def plain(text: str) -> str:
    """A text in which a carriage return that stands alone, which ends a line for editors, ends one for the compiler."""
    return re.sub(r"\r(?!\n)", "\n", text) if "\r" in text else text


class Positions:
    """Turns places of a text into those of the editor, and back."""

    def __init__(self, encoding: str = UTF_16):
        self.is_wide = encoding == UTF_16

    def units(self, text: str) -> int:
        if not self.is_wide or text.isascii():
            return len(text)
        return len(text) + sum(it > "\uffff" for it in text)

    def letters(self, line: str, units: int) -> int:
        """How many letters of a line take up so many code units, all of them where it has fewer."""
        if not self.is_wide or line.isascii():
            return min(units, len(line))
        count = 0
        for it in line:
            units -= 1 + (it > "\uffff")
            if units < 0:
                break
            count += 1
        return count

    def place(self, lines: list[str], line: int, column: int) -> dict:
        """A place of the compiler, from 1."""
        text = lines[line - 1] if 0 < line <= len(lines) else ""
        return {"line": max(line - 1, 0), "character": self.units(text[:column - 1])}

    def range(self, lines: list[str], at: At) -> dict:
        """The letters that a place means, at least one where the line has it."""
        end = at.column + max(at.width, 1)
        return {"start": self.place(lines, at.line, at.column), "end": self.place(lines, at.line, end)}

    def between(self, lines: list[str], begins: At, ends: At) -> dict:
        start, end = (self.place(lines, it.line, it.column) for it in (begins, ends))
        return {"start": start, "end": end}


@dataclass
class Document:
    """A text that is open in the editor."""

    uri: str
    path: Path
    version: int
    text: str
    positions: Positions

    def change(self, changes: list[dict], version: int) -> None:
        """Takes in what was changed: the whole text, or parts of it, one after another."""
        for it in changes:
            new = it["text"]
            if "range" in it:
                lines = self.text.split("\n")
                start, end = (self._offset(lines, it["range"][side]) for side in ("start", "end"))
                new = self.text[:start] + new + self.text[max(start, end):]
            self.text = plain(new)
        self.version = version

    def _offset(self, lines: list[str], place: dict) -> int:
        number = place["line"]
        if number >= len(lines):
            return len(self.text)
        line = lines[number].removesuffix("\r")
        return sum(len(it) + 1 for it in lines[:number]) + self.positions.letters(line, place["character"])

    def column(self, place: dict) -> tuple[int, int]:
        """A place of the editor as line and column from 1."""
        lines = self.text.split("\n")
        line = min(place["line"], len(lines) - 1)
        return line + 1, self.positions.letters(lines[line].removesuffix("\r"), place["character"]) + 1


def place_of(given: Any) -> dict:
    """A place as it was given; raises `ValueError` where it is none."""
    line, character = given["line"], given["character"]
    if not (isinstance(line, int) and isinstance(character, int) and line >= 0 and character >= 0):
        raise ValueError("a position has a line and a character from 0")
    return given
