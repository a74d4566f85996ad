"""Writes words and comments into lines."""

from __future__ import annotations

from collections.abc import Sequence
from enum import Enum

from .tokens import Comment, Token

WIDTH, STEP, GAP = 120, 2, 2


class Where(Enum):
    """Where a word stands: it begins a line, goes on with one, or begins one where it did in the text."""

    START = 1
    SAME = 2
    KEEP = 3


class Printer:
    """`lines` has of each line what stands on it and the comment that ends it."""

    def __init__(self, tokens: Sequence[Token]):
        self.tokens = tokens
        self.lines: list[list[str]] = []
        self.must_break = False

    @property
    def column(self) -> int:
        return len(self.lines[-1][0]) if self.lines else 0

    def width(self, first: int, last: int) -> int:
        """How wide these words are on one line, with the comments between them."""
        return len(self.tokens[first].text) + sum(map(self._width, range(first + 1, last + 1)))

    def _width(self, number: int) -> int:
        comments = sum(1 + len(it.text) for it in self.tokens[number].comments)
        return self._space(number) + comments + len(self.tokens[number].text)

    def _space(self, number: int) -> bool:
        before = self.tokens[number - 1] if number else None
        return before is not None and not (before.is_tight_behind or self.tokens[number].is_tight_before)

    def is_flat(self, first: int, last: int) -> bool:
        """Whether these words stand on one line of the text."""
        return not any(self.tokens[it].breaks for it in range(first + 1, last + 1))

    def begin(self, indent: int, is_behind_blank: bool = False) -> None:
        """Begins a line, where the last has something on it."""
        if self.lines and not self._is_empty():
            if is_behind_blank:
                self.lines.append(["", ""])
            self.lines.append([" " * indent, ""])
        elif self.lines:
            self.lines[-1][0] = " " * indent
        else:
            self.lines.append([" " * indent, ""])
        self.must_break = False

    def _is_empty(self) -> bool:
        return not self.lines[-1][0].strip() and not self.lines[-1][1]

    def put(self, number: int, indent: int, where: Where, of_comments: int = -1, blanks: bool = True) -> None:
        """Writes a word and the comments before it. Where it begins a line, `indent` is that line's; `of_comments` is
        that of comments before it, and `blanks` says whether a line may be left empty before."""
        token = self.tokens[number]
        self.comments(token, indent if of_comments < 0 else of_comments, blanks)
        if where is Where.START and token.text:
            self.begin(indent, blanks and token.lines > 1)
        elif self.must_break or (where is Where.KEEP and token.lines) or self._is_past(number):
            self.begin(indent)
        elif self._space(number) and not self._is_at_start():
            self.lines[-1][0] += " "
        self.write(token.text)

    def comments(self, token: Token, indent: int, blanks: bool) -> None:
        for it in token.comments:
            if it.before == 0 and self.lines and not self.must_break:
                self._behind(it)
            else:
                self.begin(indent, blanks and it.before > 1)
                self.write(it.text)
            self.must_break = it.ends_line or (it is token.comments[-1] and token.lines > 0) or "\n" in it.text
        following = zip(token.comments, token.comments[1:])
        assert all(not it.ends_line or other.before for it, other in following)

    def _behind(self, it: Comment) -> None:
        if it.ends_line:
            self.lines[-1][1] = it.text
        else:
            self.write(" " * (not self._is_at_start()) + it.text)

    def write(self, text: str) -> None:
        """Writes what may have several lines."""
        first, *more = text.split("\n")
        if not self.lines:
            self.lines.append(["", ""])
        self.lines[-1][0] += first
        self.lines += [[it, ""] for it in more]

    def _is_at_start(self) -> bool:
        return not self.lines or not self.lines[-1][0].strip()

    def _is_past(self, number: int) -> bool:
        """Whether a word that may begin a line would go past the end of this one, with what hangs on it."""
        if not self.tokens[number].may_break:
            return False
        last = number
        # A semicolon that was left out in the text hangs on the word before it.
        while not self.tokens[last].text.endswith(";") and self._goes_on(last + 1):
            last += 1
            if self.tokens[last].text in ("{", "{=", "}", "=}"):
                break
        return self.column + 1 + self.width(number, last) > WIDTH and self.column > 0

    def _goes_on(self, number: int) -> bool:
        """Whether a word, if there is one, goes on with its line in the text and no line may be broken before it."""
        return number < len(self.tokens) and not self.tokens[number].may_break and self.is_flat(number - 1, number)

    def text(self) -> str:
        """The lines; comments behind lines that follow each other begin at one column."""
        self._align()
        lines = [f"{code}{comment}".rstrip() for code, comment in self.lines]
        whole = "\n".join(lines).strip("\n")
        return whole + "\n" if whole else ""

    def _align(self) -> None:
        number = 0
        while number < len(self.lines):
            end = number
            while end < len(self.lines) and self.lines[end][1] and self.lines[end][0].strip():
                end += 1
            run = self.lines[number:end]
            column = max((len(code.rstrip()) for code, _ in run), default=0) + GAP
            if any(column + len(comment) > WIDTH for _, comment in run):
                column = 0
            for it in run:
                it[0] = it[0].rstrip().ljust(column if column else len(it[0].rstrip()) + GAP)
            number = end + 1
