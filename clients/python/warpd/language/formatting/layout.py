"""Lays a text out: lines break where the writer breaks them, and where they are too long; all else is one way."""

from __future__ import annotations

from collections.abc import Sequence
from typing import Union

from ..lexing import Word
from .printing import STEP, WIDTH, Printer, Where
from .shape import Node, shape
from .tokens import Token, tokens

Part = Union[Node, Word]
# What ends with a semicolon, which may be left out in a text; and what ends with none.
ENDED = {"state", "ports", "action", "timer", "instance", "connection"}
UNENDED = {"constant", "target", "import_", "enum", "struct", "function", "reaction"}
# What goes on with a line, wherever it stands in the text.
GOES_ON = {"SEMICOLON", "COMMA", "RPAR", "RSQB", "LBRACE", "COLON"}


class Layout:
    """Lays one text out."""

    def __init__(self, text: str):
        self.tokens = tokens(text)
        self.numbers = {(it.line, it.column): number for number, it in enumerate(self.tokens) if it.text}
        self.closes: dict[int, int] = {}
        self.shape = shape(text)
        self._semicolons(self.shape)
        self._spaces(self.shape)
        self._close_bodies()
        self.printer = Printer(self.tokens)

    def text(self) -> str:
        self._file()
        return self.printer.text()

    def number(self, word: Word) -> int:
        return self.numbers[word.line, word.column]

    def first(self, part: Part) -> int:
        return self.number(part.first if isinstance(part, Node) else part)

    def last(self, part: Part) -> int:
        """The number of the last word of a part: of a body its end, and of a place in a test its last name."""
        last = part if isinstance(part, Word) or part.is_body else part.last
        number = self.first(last)
        return self._end_of_place(number, last) if isinstance(last, Word) else self.closes[number]

    def _end_of_place(self, number: int, word: Word) -> int:
        """A place like `a[0].b` is one word of a test, and several of the text."""
        rest = len(word.text.replace("`", "")) - len(self.tokens[number].text.strip("`"))
        while word.kind == "NAME" and rest > 0:
            number += 1
            rest -= len(self.tokens[number].text.strip("`"))
        return number

    # Before it is written.

    def _close_bodies(self) -> None:
        opened = None
        for number, it in enumerate(self.tokens):
            if it.text == "{=":
                opened = number
            elif it.text == "=}" and opened is not None:
                self.closes[opened] = number

    def _semicolons(self, node: Node) -> None:
        """Adds those that were left out, and leaves out those that need not be."""
        for it in node.parts:
            if isinstance(it, Node):
                self._semicolons(it)
        if not node.parts or node.rule not in ENDED | UNENDED:
            return
        last = node.parts[-1]
        has_one = isinstance(last, Word) and last.kind == "SEMICOLON"
        if node.rule in ENDED and not has_one:
            self.tokens[self.number(node.last)].text += ";"
        elif node.rule in UNENDED and has_one:
            node.parts.pop()
            self._leave_out(self.number(last))

    def _leave_out(self, number: int) -> None:
        it, behind = self.tokens[number], self.tokens[number + 1]
        if behind.comments:
            first = behind.comments[0]
            behind.comments[0] = first._replace(before=first.before + (0 if it.comments else it.lines))
        behind.comments = it.comments + behind.comments
        it.text, it.comments, it.lines, it.is_tight_before, it.is_tight_behind = "", [], 0, True, True

    def _spaces(self, node: Node) -> None:
        """Says where blanks stand, as far as the words alone do not."""
        words = [it if isinstance(it, Word) else None for it in node.parts]
        for place, word in enumerate(words):
            if word is None:
                self._spaces(node.parts[place])
                continue
            if word.kind == "$END":
                continue
            token = self.tokens[self.number(word)]
            if word.kind == "COLON" and node.rule == "expression":
                token.is_tight_before, token.may_break = False, True
            elif word.kind == "LBRACE" and node.rule == "list":
                token.is_tight_behind = True
            elif word.kind == "RBRACE" and node.rule == "list":
                token.is_tight_before = True
            elif word.kind == "LPAR" and node.rule in ("atom", "if_else", "loop", "while_loop", "moment", "sources"):
                token.is_tight_before = False
            elif word.kind == "PLUS" and node.rule == "sources":
                token.is_tight_before = True
            elif word.kind in ("MINUS", "NOT", "TILDE") and node.rule == "unary":
                token.is_tight_behind = self.tokens[self.number(word) + 1].text not in ("-", "--")
            elif word.kind == "STEP" and place == 0:
                token.is_tight_before, token.is_tight_behind = False, True
            elif word.kind in ("PLUS", "MINUS"):
                token.may_break = True

    # Writing.

    def _file(self) -> None:
        before = None
        for it in self.shape.parts:
            if isinstance(it, Word) and it.kind == "$END":
                continue
            first = self.first(it)
            if before is not None and (self._is_long(before) or self._is_long(it)):
                self._part_from_before(self.tokens[first])
            self._item(it, 0, Where.START)
            before = it
        self.printer.must_break = True
        self.printer.comments(self.tokens[-1], 0, True)

    def _is_long(self, it: Part) -> bool:
        """Whether an item of the file has lines of its own."""
        return isinstance(it, Node) and not self._fits(it, 0) or isinstance(it, Node) and it.rule == "target"

    def _part_from_before(self, token: Token) -> None:
        """An empty line stands before it, and before the comments that stand right above."""
        for number, it in enumerate(token.comments):
            if it.before:
                token.comments[number] = it._replace(before=max(it.before, 2))
                return
        token.lines = max(token.lines, 2)

    def _fits(self, it: Part, column: int) -> bool:
        """Whether a part stands on one line of the text, and has room there."""
        first, last = self.first(it), self.last(it)
        return self.printer.is_flat(first, last) and column + self.printer.width(first, last) <= WIDTH

    def _item(self, it: Part, indent: int, where: Where) -> None:
        """Writes a member, a statement or a part of the file. What has no room on one line is broken at each brace."""
        first = self.first(it)
        is_too_long = self.printer.is_flat(first, self.last(it)) and not self._fits(it, indent)
        self.printer.put(first, indent, where)
        self._rest(it, indent, is_too_long, is_first=True)

    def _rest(self, it: Part, indent: int, is_broken: bool, is_first: bool = False) -> None:
        """Writes a part; `is_first` says that its first word stands already."""
        if isinstance(it, Word):
            if not is_first:
                self._word(it, indent)
            self._rest_of_place(it, indent)
        elif it.is_body or it.rule == "test":
            self._block_of_word(it, indent, is_broken, is_first)
        elif it.rule != "list" and any(isinstance(each, Word) and each.kind == "LBRACE" for each in it.parts):
            self._braced(it.parts, indent, is_broken, is_first)
        elif it.rule in ("if_else", "loop", "while_loop"):
            self._controls(it, indent, is_broken, is_first)
        else:
            for number, each in enumerate(it.parts):
                self._rest(each, indent, is_broken, is_first and number == 0)

    def _word(self, word: Word, indent: int) -> None:
        if word.kind == "$END":
            return
        self._go_on(self.number(word), indent, word.kind in GOES_ON)

    def _rest_of_place(self, word: Word, indent: int) -> None:
        """Writes the words of a place of a test behind its first, as those of a place in a body are written."""
        if word.kind != "$END":
            number = self.number(word)
            for each in range(number + 1, self._end_of_place(number, word) + 1):
                self._go_on(each, indent)

    def _go_on(self, number: int, indent: int, is_tight: bool = False) -> None:
        """Writes a word that goes on with its line, or begins one where it does in the text and need not stand right
        behind the word before."""
        where = Where.SAME if is_tight or self.tokens[number].is_tight_before else Where.KEEP
        self.printer.put(number, indent + 2 * STEP, where, blanks=False)

    def _block_of_word(self, it: Node, indent: int, is_broken: bool, is_first: bool) -> None:
        word, *parts = it.parts
        if word.kind == "TEST":
            self._braced(parts, indent, is_broken, is_first=False)
            return
        number = self.number(word)
        if not is_first:
            self.printer.put(number, indent, Where.SAME, blanks=False)
        statements = [each for each in parts if not isinstance(each, Word)]
        self._between(number, self.closes[number], statements, indent, is_broken)

    def _braced(self, parts: Sequence[Part], indent: int, is_broken: bool, is_first: bool) -> None:
        """Writes what stands before an opening brace, what it holds, and what is behind it."""
        kinds = [it.kind if isinstance(it, Word) else "" for it in parts]
        begin, end = kinds.index("LBRACE"), len(kinds) - 1 - kinds[::-1].index("RBRACE")
        for number, it in enumerate(parts[:begin]):
            self._rest(it, indent, is_broken, is_first and number == 0)
        if not (is_first and begin == 0):
            self.printer.put(self.number(parts[begin]), indent, Where.SAME, blanks=False)
        numbers = self.number(parts[begin]), self.number(parts[end])
        self._between(*numbers, parts[begin + 1:end], indent, is_broken)
        for it in parts[end + 1:]:
            self._rest(it, indent, is_broken)

    def _between(self, begin: int, end: int, items: Sequence[Part], indent: int, is_broken: bool) -> None:
        """Writes what stands between two braces, and the second: on one line where it does in the text and has room."""
        printer = self.printer
        fits = printer.is_flat(begin, end) and printer.column + printer.width(begin, end) - 1 <= WIDTH
        if fits and not is_broken:
            for it in items:
                self._rest(it, indent, False)
            printer.put(end, indent, Where.SAME, blanks=False)
            return
        is_all_broken, is_first, is_behind_long = printer.is_flat(begin, end), True, False
        for it in items:
            if isinstance(it, Word) and it.kind == "COMMA":
                self._word(it, indent)
                continue
            # Once it is written, its words no longer tell where they stood in the text.
            is_long = not self._fits(it, indent + STEP)
            is_alone = is_first or is_all_broken or is_behind_long or self._begins(it)
            if is_alone:
                self.tokens[self.first(it)].lines *= not is_first or bool(self.tokens[self.first(it)].comments)
            self._item(it, indent + STEP, Where.START if is_alone else Where.SAME)
            is_first, is_behind_long = False, is_long
        self.tokens[end].lines = min(self.tokens[end].lines, 1)
        printer.put(end, indent, Where.START, of_comments=indent + STEP, blanks=not is_first)

    def _begins(self, it: Part) -> bool:
        """Whether a member or statement begins a line: it does so in the text, or has no room on this one."""
        return self.tokens[self.first(it)].breaks or not self._fits(it, self.printer.column + 1)

    def _controls(self, it: Node, indent: int, is_broken: bool, is_first: bool) -> None:
        """Writes an `if`, a `for` or a `while`. A statement of it without braces goes on, or stands on a line of its own."""
        head = next(number for number, each in enumerate(it.parts) if isinstance(each, Word) and each.kind == "RPAR")
        for number, each in enumerate(it.parts):
            if isinstance(each, Word) and each.kind == "ELSE":
                before = it.parts[number - 1]
                is_block = isinstance(before, Node) and self._is_block(before)
                is_new = not is_block and (is_broken or self.tokens[self.number(each)].lines > 0)
                self.printer.put(self.number(each), indent, Where.START if is_new else Where.SAME, blanks=False)
            elif number <= head:
                self._rest(each, indent, is_broken, is_first and number == 0)
            else:
                self._controlled(each, indent, is_broken, it.parts[number - 1])

    def _controlled(self, it: Part, indent: int, is_broken: bool, before: Part) -> None:
        is_chain = isinstance(before, Word) and before.kind == "ELSE" and _inner(it).rule == "if_else"
        if is_chain or self._is_block(it):
            self._rest(it, indent, is_broken)
        elif is_broken or self.tokens[self.first(it)].breaks:
            self.tokens[self.first(it)].lines = 1
            self._item(it, indent + STEP, Where.START)
        else:
            self._rest(it, indent, is_broken)

    def _is_block(self, it: Part) -> bool:
        return isinstance(it, Node) and self.tokens[self.first(it)].text == "{"


def _inner(it: Part) -> Node:
    """The rule that a statement is of."""
    while isinstance(it, Node) and len(it.parts) == 1 and isinstance(it.parts[0], Node):
        it = it.parts[0]
    return it if isinstance(it, Node) else Node("", [])
