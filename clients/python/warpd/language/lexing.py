"""From a text to its words: each has its kind, as the grammar names it, and its place.

A body `{= .. =}` is one word, which has the words between as its `parts`."""

from __future__ import annotations

import re
from collections.abc import Mapping, Sequence
from typing import Any

from .tree import At, Name

# What stands between words, words with more than one form, and signs, the longest first.
WORDS = re.compile(
    r"""(?P<BLANK>(?:\s|//[^\n]*|/\*.*?\*/)+)
    | (?P<UNCLOSED>/\*)
    | (?P<NAME>[A-Za-z_][A-Za-z0-9_]*|`[A-Za-z][A-Za-z0-9_]*`)
    | (?P<TIME>[0-9]{1,18}[ \t]*
        (?:ns(?:ecs?)?|us(?:ecs?)?|ms(?:ecs?)?|s(?:ecs?|econds?)?|min(?:ute)?s?|h(?:ours?)?|d(?:ays?)?|weeks?)(?![\w.]))
    | (?P<NUMBER>[0-9][A-Za-z0-9_.]*)
    | (?P<ATTRIBUTE>@[a-z]+)
    | (?P<STRING>"[^"\n]*")
    | (?P<SIGN>\{=|=\}|->|~>|\+\+|--|<<=|>>=|<<|>>|==|!=|<=|>=|&&|\|\||[-+*/%&|^]=|.)""",
    re.DOTALL | re.VERBOSE,
)
SIGNS = (
    "-> ~> ++ -- <<= >>= << >> == != <= >= && || += -= *= /= %= &= |= ^= + - * / % & | ^ ~ ! = < > ( ) [ ] { } , : ; . ?"
).split()
OPENS, CLOSES = "{=", "=}"


class Word:
    """A word of a text. `kind` is its name in the grammar, `value` what stands for it in the tree."""

    __slots__ = ("kind", "text", "line", "column", "parts", "value")

    def __init__(self, kind: str, text: str, line: int, column: int, parts: Sequence[Word] = ()):
        self.kind, self.text, self.line, self.column, self.parts = kind, text, line, column, parts
        self.value: Any = self

    def __str__(self) -> str:
        return self.text

    @property
    def at(self) -> At:
        return At(self.line, self.column, len(self.text))

    @property
    def end(self) -> At:
        """The place behind it."""
        return At(self.line, self.column + len(self.text))


class Lexer:
    """Finds the words of one text. `kinds` has those that are a kind of their own: what is written, and its kind."""

    def __init__(self, text: str, kinds: Mapping[str, str], before: int = 0):
        """`before` lines stand before the text."""
        self.text, self.kinds = text, kinds
        self.line, self.line_start = before + 1, 0

    def words(self) -> list[Word]:
        """The words of the text, and one of the kind `$END` behind them."""
        return self._words(0, len(self.text))

    def _words(self, place: int, end: int) -> list[Word]:
        found, match, kinds, text = [], WORDS.match, self.kinds, self.text
        while place < end:
            each = match(text, place, end)
            kind, start, place = each.lastgroup, place, each.end()
            if kind == "BLANK":
                if place == len(text):
                    end = start
                else:
                    self._count_lines(start, place)
                continue
            written = each.group()
            if kind == "NAME" or kind == "ATTRIBUTE":
                kind = kinds.get(written, kind)
            elif kind == "SIGN":
                if written == OPENS and end == len(text):
                    place = self._body(found, start)
                    continue
                kind = kinds.get(written) or ("OTHER" if len(written) == 1 else "FOREIGN")
            word = Word(kind, written, self.line, start - self.line_start + 1)
            found.append(word)
            if kind == "NAME":
                word.value = Name(written.strip("`"), word.at)
            elif kind == "UNCLOSED":
                self._count_lines(start, end)
                place = end
        found.append(Word("$END", "", self.line, end - self.line_start + 1))
        return found

    def _count_lines(self, start: int, end: int) -> None:
        lines = self.text.count("\n", start, end)
        if lines:
            self.line += lines
            self.line_start = self.text.rfind("\n", start, end) + 1

    def _body(self, found: list[Word], start: int) -> int:
        """Finds the body that begins here, and gives the place behind it: one that never ends is the rest."""
        end = self.text.find(CLOSES, start)
        word = Word("FOREIGN" if end < 0 else "BODY", OPENS, self.line, start - self.line_start + 1)
        found.append(word)
        if end < 0:
            self._count_lines(start, len(self.text))
            return len(self.text)
        word.parts = self._words(start + len(OPENS), end)
        return end + len(CLOSES)
