"""From a text to its tree. What cannot be read is told and left out, so that all of it is told at once."""

from __future__ import annotations

from collections.abc import Collection, Sequence
from dataclasses import replace
from typing import Optional

from . import refused, tree
from .faults import Report, listed, nearest
from .foreign import foreign_at, mended
from .lexing import Lexer, Word
from .tables import Stopped, grammar
from .testing import tree as tests
from .testing.words import KEYWORDS, collapsed, wrong_head
from .words import in_place

# A text with more than so many faults of this kind is read no further.
MOST_FAULTS = 20
BEGINS = {
    "STATE", "INPUT", "OUTPUT", "LOGICAL", "TIMER", "REACTION", "CONST", "REACTOR", "MAIN", "ATTRIBUTE", "LET", "VAR", "IF",
    "TEST", "EXPECT", "WITHDRAW", "DRAW", "ASK",
}
ENDS = {"SEMICOLON", "BODY", "LBRACE", "RBRACE", "TEST"}
TOLD_IN_TESTS = ("SEMICOLON", "NAME", "NUMBER", "RBRACE")
# Behind these stands no body, but a type, a value or a part of other languages.
NO_BODIES = ("preamble", ":", "=", "(", ",")
WORDS = {
    "SEMICOLON": "`;`", "LPAR": "`(`", "RPAR": "`)`", "LBRACE": "`{`", "RBRACE": "`}`", "COMMA": "`,`", "COLON": "`:`",
    "EQUALS": "`=`", "DOT": "`.`", "ARROW": "`->`", "BODY": "`{= .. =}`", "NAME": "a name", "NUMBER": "a number",
    "$END": "the end", "NEW": "`new`", "ACTION": "`action`", "REACTOR": "`reactor`", "INPUT": "`input`",
    "OUTPUT": "`output`", "TARGET": "`target warpd { stop: 100 }`", "QMARK": "`?`", "PLUS": "`+`",
    "REACTION": "`reaction`", "STRING": "a name between quotation marks", "AT": "`at`", "TO": "`to`", "OF": "`of`",
    "PUTS": "`puts`", "NOTHING": "`nothing`", "EVERY": "`every`", "WAY": "`order`",
}


def _start(words: Sequence[Word], number: int) -> int:
    """Where the member or statement begins that has this word."""
    start = number
    while start > 0 and words[start - 1].kind not in ENDS and (start == number or words[start].kind not in BEGINS):
        start -= 1
    return _loop_around(words, start) if words[start - 1].kind == "SEMICOLON" else start


def _loop_around(words: Sequence[Word], start: int) -> int:
    """Where the loop begins in whose brackets a word stands; the word's own place where it stands in none."""
    depth = 0
    for place in range(start - 1, 0, -1):
        kind = words[place].kind
        depth += (kind == "RPAR") - (kind == "LPAR")
        if depth < 0:
            return place - 1 if words[place - 1].kind in ("FOR", "WHILE") else start
        if kind in ("LBRACE", "RBRACE", "BODY"):
            break
    return start


def _end(words: Sequence[Word], start: int, stopped: int) -> int:
    """Where the member or statement ends that begins at `start` and has the word `stopped`, with its braces."""
    end, braces, brackets = start, 0, 0
    while end < len(words) - 1:
        kind, in_loop = words[end].kind, words[start].text == "for" and brackets > 0
        if braces == 0 and end > stopped and (kind in BEGINS or kind == "RBRACE") and not in_loop:
            break
        braces += (kind == "LBRACE") - (kind == "RBRACE")
        brackets += (kind == "LPAR") - (kind == "RPAR")
        end += 1
        if braces <= 0 and end > stopped and kind in ENDS and not (words[start].text == "for" and brackets > 0):
            break
    return max(end, start + 1)


def _without(words: list[Word], stopped: int) -> list[Word]:
    """The words without the member or statement that has this one; the `else` of an `if` goes with it."""
    start = _start(words, stopped)
    end = _end(words, start, stopped)
    while words[end].kind == "ELSE" and end < len(words) - 1:
        end = _end(words, end, end + 1)
    end += words[end - 1].kind == "BODY" and words[end].kind == "SEMICOLON"
    return words[:start] + words[end:]


class Parser:
    """Reads one text, and tells its report what cannot be read."""

    def __init__(self, text: str, report: Report, before: int = 0):
        """`before` lines of the report stand before the text."""
        self.text, self.report, self.before = text, report, before
        self.is_whole = True

    def file(self) -> Optional[tree.File]:
        """The tree; None where its structure has a fault. Bodies are read in any case."""
        words = in_place(collapsed(Lexer(self.text, grammar().kinds, self.before).words()))
        grammar().builder.may_need_later = False
        for before, it in zip([words[0], *words], words):
            if it.kind == "BODY":
                it.value = () if before.text in NO_BODIES else self._body(it)
        made = self._parsed(words, "file", refused.STRUCTURE)
        return replace(made, may_need_later=grammar().builder.may_need_later) if self.is_whole and made else None

    def test(self, word: Word) -> Optional[tests.Block]:
        """The tree of a `test` block; None where it has a fault."""
        wrong = wrong_head(word.parts)
        if wrong:
            hint = 'write `test "NAME" {`, or `test "NAME" in every order {`'
            self.report.error(wrong.at, f"`{wrong}` cannot stand here" if wrong.text else "the test has no end", hint)
            return None
        count = len(self.report.faults)
        made = self._parsed(word.parts, "test", refused.TEST)
        return made if len(self.report.faults) == count else None

    def _body(self, body: Word) -> Optional[tuple]:
        """The statements of a body; None where they have a fault."""
        count = len(self.report.faults)
        made = self._parsed(body.parts, "body", refused.BODY)
        return made if len(self.report.faults) == count else None

    def _parsed(self, words: Sequence[Word], start: str, table: dict):
        """Parses, and as long as there is a fault tells it and parses what is left without it."""
        for _ in range(MOST_FAULTS):
            try:
                return grammar().read(words, start)
            except Stopped as stopped:
                self.is_whole &= start == "body"
                words = self._mended(words, stopped, table)
                if not words:
                    break
        return None

    def _mended(self, words: list[Word], stopped: Stopped, table: dict) -> list[Word]:
        """Tells what stopped the parser, and gives what is left to be read; nothing where the rest means nothing."""
        number, word = stopped.number, words[stopped.number]
        before, in_body = words[max(number - 1, 0)], table is not refused.STRUCTURE
        if word.kind == "UNCLOSED":
            self.report.error(word.at, "this comment is never closed", "`*/` ends it")
            return []
        start = _start(words, number)
        foreign = foreign_at(words, number, start, table)
        if foreign:
            self.report.error(foreign[0].at, *foreign[1])
            if not in_body and (found := mended(words, number, start)):
                return found
        elif in_body and _lacks_semicolon(words, stopped, table) and not _misspelt(words, stopped, table):
            self.report.error(before.end, "`;` is missing here")
            return [*words[:number], Word("SEMICOLON", ";", before.line, before.column), *words[number:]]
        elif not in_body and word.kind in ("REACTOR", "MAIN") and _is_in_reactor(words, stopped):
            self._unclosed_reactor(words, number)
            return [*words[:number], Word("RBRACE", "}", before.line, before.column), *words[number:]]
        else:
            self._unexpected(words, stopped, table)
        return [] if word.kind == "$END" or word.text == "{=" and word.kind != "BODY" else _without(words, number)

    def _unclosed_reactor(self, words: Sequence[Word], number: int) -> None:
        """Tells the reactor before this word, which begins another one, that its brace is missing."""
        first = max(place for place in range(number) if words[place].kind == "REACTOR")
        name = words[first + 1] if words[first + 1].kind == "NAME" else words[first]
        text = f"the `}}` of this reactor is missing: another begins at {self.report.place(words[number].at)}"
        self.report.error(name.at, text)

    def _unexpected(self, words: Sequence[Word], stopped: Stopped, table: dict) -> None:
        word, accepted = words[stopped.number], stopped.accepted
        shown = [WORDS[it] for it in _telling(accepted, table) if it in WORDS]
        hint = f"{listed(shown, 'or')} could stand here" if 0 < len(shown) <= 4 else ""
        misspelt = _misspelt(words, stopped, table)
        if misspelt:
            self.report.error(misspelt[0].at, f"`{misspelt[0]}` cannot stand here", misspelt[1])
        elif word.kind == "$END":
            text = "`}` is missing here" if "RBRACE" in accepted else "the text ends too soon"
            self.report.error(word.at._replace(width=1), text, hint)
        elif word.kind == "EQUALS" and "EQUALITY" in accepted:
            self.report.error(word.at, "`=` assigns", "`==` compares")
        elif table is refused.TEST and word.kind in ("EQUALITY", "ORDER") and "EQUALS" in accepted:
            hint = "`expect` stands before a comparison; an event is written with `=`"
            self.report.error(word.at, f"`{word}` compares", hint)
        elif _is_word(word) and "NAME" in accepted and word.line == words[stopped.number - 1].line:
            text = f"`{word}` is a word of the language, and no name"
            self.report.error(word.at, text, f"between backquotes it is one: `` `{word}` ``")
        else:
            self.report.error(word.at, f"`{word}` cannot stand here", hint)


def _is_in_reactor(words: Sequence[Word], stopped: Stopped) -> bool:
    """Whether a reactor is open where the words stop."""
    return "RBRACE" in stopped.accepted and any(it.kind == "REACTOR" for it in words[:stopped.number])


def _telling(accepted: Collection[str], table: dict) -> list[str]:
    """Of what could stand at a place what is worth telling: in a test no operators, where one of its words could."""
    ours = {*KEYWORDS.values(), *TOLD_IN_TESTS} & set(accepted) if table is refused.TEST else ()
    return [it for it in WORDS if it in (ours or accepted)]


def _is_word(word: Word) -> bool:
    """Whether this is a word of the language."""
    return word.kind != "NAME" and word.text.isidentifier()


def _misspelt(words: Sequence[Word], stopped: Stopped, table: dict) -> Optional[tuple[Word, str]]:
    """The word that begins what could not be read, where it is nearly one that begins a member; with a hint."""
    number = stopped.number
    first = words[_start(words, number)]
    if table is refused.TEST:
        return _misspelt_in_test(words, stopped, first)
    if table is not refused.STRUCTURE or first.kind != "NAME" or words[number].kind == "EQUALS":
        return None
    near = nearest(first.text, refused.MEMBERS)
    return (first, near) if near else None


def _misspelt_in_test(words: Sequence[Word], stopped: Stopped, first: Word) -> Optional[tuple[Word, str]]:
    """Where a test stops: the word there, `always` before it, or the first one of the statement."""
    number, word = stopped.number, words[stopped.number]
    before = words[max(number - 1, 0)]
    is_always = before.kind == "NAME" and words[max(number - 2, 0)].kind == "EXPECT"
    for it, kinds in ((word, stopped.accepted), (before, {"ALWAYS"} if is_always else ()), (first, BEGINS)):
        near = nearest(it.text, [text for text, kind in KEYWORDS.items() if kind in kinds])
        if near and it.kind == word.kind == "NAME":
            return it, near
    return None


def _lacks_semicolon(words: Sequence[Word], stopped: Stopped, table: dict) -> bool:
    """Whether the word where it stopped begins a statement, and the one before lacks its end."""
    before, word = words[max(stopped.number - 1, 0)], words[stopped.number]
    begins_anew = before.kind not in ENDS and word.kind in {"NAME", "RBRACE", "$END"} | BEGINS
    if table is refused.TEST and word.kind == "NAME" and word.line == before.line:
        begins_anew &= words[stopped.number + 1].kind == "EQUALS"
    return "SEMICOLON" in stopped.accepted and begins_anew and stopped.number > 0
