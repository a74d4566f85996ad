"""The words of a text one after another, with the comments between them."""

from __future__ import annotations

import re
from dataclasses import dataclass, field
from typing import NamedTuple

from ..lexing import CLOSES, OPENS, WORDS

COMMENT = re.compile(r"//[^\n]*|/\*.*?\*/", re.DOTALL)
# What no blank stands before, and behind.
TIGHT_BEFORE = {",", ";", ")", "]", ".", ":", "[", "++", "--"}
TIGHT_BEHIND = {"(", "[", ".", "!", "`"}


class Comment(NamedTuple):
    """`before` is how many line feeds stand between it and what is before."""

    text: str
    before: int

    @property
    def ends_line(self) -> bool:
        return self.text.startswith("//")


@dataclass
class Token:
    """A word with its place. `lines` is how many line feeds stand right before it, behind the last comment."""

    text: str
    start: int
    end: int
    line: int
    column: int
    comments: list[Comment] = field(default_factory=list)
    lines: int = 0
    is_tight_before: bool = False
    is_tight_behind: bool = False
    # Whether a longer line may be broken before it.
    may_break: bool = False

    @property
    def breaks(self) -> bool:
        """Whether it stands on another line than what is before, or behind a comment that does."""
        return self.lines > 0 or any(it.before > 0 or it.ends_line for it in self.comments)

    @property
    def first_break(self) -> int:
        """How many line feeds stand before the first thing between it and what is before."""
        return self.comments[0].before if self.comments else self.lines


def tokens(text: str) -> list[Token]:
    """The words of a text, those of bodies too; the last has no text, and what stands before the end."""
    spans: list[tuple[int, int]] = []
    _spans(text, 0, len(text), spans)
    spans.append((len(text), len(text)))
    found, place, line, line_start = [], 0, 1, 0
    for start, end in spans:
        gap = text[place:start]
        if "\n" in gap:
            line += gap.count("\n")
            line_start = text.rfind("\n", place, start) + 1
        token = Token(text[start:end], start, end, line, start - line_start + 1)
        _comments(gap, token)
        found.append(token)
        place = max(place, end)
    for before, token in zip([None, *found], found):
        _tighten(before.text if before else "", token)
    return found


def _spans(text: str, place: int, end: int, spans: list[tuple[int, int]]) -> None:
    """Finds where words stand, as `lexing` does: a body ends with the first `=}` behind it."""
    while place < end:
        match = WORDS.match(text, place, end)
        start, place = place, match.end()
        if match.lastgroup == "BLANK":
            continue
        spans.append((start, place))
        if match.group() == OPENS and end == len(text):
            close = text.find(CLOSES, start)
            _spans(text, place, close, spans)
            spans.append((close, close + len(CLOSES)))
            place = close + len(CLOSES)


def _comments(gap: str, token: Token) -> None:
    place = 0
    for match in COMMENT.finditer(gap):
        token.comments.append(Comment(match.group().rstrip(), gap.count("\n", place, match.start())))
        place = match.end()
    token.lines = gap.count("\n", place)


def _tighten(before: str, token: Token) -> None:
    text = token.text
    token.is_tight_before = text in TIGHT_BEFORE or (text == "(" and (before[-1:].isalnum() or before[-1:] in "_`]"))
    token.is_tight_behind = text in TIGHT_BEHIND
    token.may_break = before == "," or text in ("&&", "||", "->", "?")
    if text[0:1].isdigit():
        token.text = re.sub(r"^(\d+)[ \t]*(?=[a-z])", r"\1 ", text) if re.fullmatch(r"\d+[ \t]*[a-z]+", text) else text
