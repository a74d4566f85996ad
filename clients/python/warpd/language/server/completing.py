"""What can stand at a place: words of the language, and names that are known there."""

from __future__ import annotations

import re
from collections.abc import Iterable, Iterator
from pathlib import Path
from typing import NamedTuple, Optional

from ..lexing import Word
from .keywords import (
    BODY_WORDS, BUILT_IN, FOLLOWING, IN_TESTS, KEYWORDS, MEMBER_WORDS, PROPERTY_WORDS, STATEMENT_CALLS,
    STATEMENTS_OF_TESTS, TOP_WORDS, TYPE_WORDS, VALUE_CALLS,
)
from .names import Names, Symbol
from .resolving import Program
from .workspace import Workspace

# The kinds of proposals of the protocol.
PROPOSED = {
    "reactor": 7, "alias": 7, "parameter": 21, "state": 6, "input": 5, "output": 5, "action": 23, "timer": 23,
    "instance": 6, "mode": 20, "method": 2, "constant": 21, "enum": 13, "enumerator": 20, "struct": 22, "field": 5,
    "function": 3, "given": 6, "let": 6, "var": 6, "turn": 6,
}
WORD, CALL, SNIPPET = 14, 3, 2
MEMBERS = {
    "trigger": ("input", "action", "timer"), "effect": ("output", "action", "mode"),
    "constant": ("parameter",), "port": ("input", "output"),
}


VALUES_BEHIND = {
    "EQUALS", "LPAR", "COMMA", "AFTER", "LSQB", "PLUS", "MINUS", "PRODUCT", "EQUALITY", "ORDER", "QMARK", "ARROW",
    "BOTH", "EITHER",
}
# A line and a column.
Where = tuple[int, int]


class Around(NamedTuple):
    """Where a place is: `file`, `target`, `reactor`, `header` of a reaction, `body` or `test`; what stands before it, in
    a test from its name on, and the reactor around it."""

    where: str
    before: list[Word]
    home: Optional[Symbol]


class Completing:
    """Proposals of one workspace."""

    def __init__(self, workspace: Workspace):
        self.workspace = workspace
        # Of each text the names that it had when its structure could be read the last time.
        self.good: dict[Path, dict[str, list[Symbol]]] = {}

    def keep(self, path: Path) -> None:
        """Keeps the names of a text that can be read."""
        names = self.workspace.names(path)
        if names:
            self.good[path] = {it.name: list(it.members.values()) for it in names.outline if it.kind == "reactor"}

    def proposals(self, path: Path, line: int, column: int) -> list[dict]:
        names = self.workspace.names(path)
        if names is None or _is_comment(names.lines, line, column):
            return []
        program, around = self.workspace.program(path), around_of(names, line, column)
        found = {it["label"]: it for it in self._found(program, names, path, around, (line, column))}
        return list(found.values())

    def _found(self, program: Program, names: Names, path: Path, around: Around, place: Where) -> Iterator[dict]:
        before = around.before
        last = before[-1].kind if before else ""
        if last == "DOT":
            return self._members_of(program, names, around)
        if last in ("NEW", "EXTENDS") or last == "RSQB" and _opens(before) == "NEW":
            return _symbols({**names.reactors, **names.aliases}.values())
        if last == "COLON" and around.where != "target" and not _is_choice(before):
            types = (it for it in program.shared.values() if it.kind in ("enum", "struct"))
            return _chain(_words(TYPE_WORDS), _symbols(types))
        arguments = _arguments(before)
        if arguments and last in ("LPAR", "COMMA"):
            reactor = program.whole(program.reactor(names, arguments.text))
            return _symbols(_members(program, reactor, ("parameter",)), " = ")
        return self._by_place(program, names, path, around, place)

    def _by_place(self, program: Program, names: Names, path: Path, around: Around, place: Where) -> Iterator[dict]:
        match around.where:
            case "target":
                return _words(PROPERTY_WORDS, ": ")
            case "file":
                return _words(TOP_WORDS)
            case "test":
                return self._in_test(program, around.before)
            case "body":
                return self._in_body(program, names, path, around, place)
            case "header":
                return self._in_header(program, path, around)
        if _is_value(around):
            constants = _members(program, around.home, ("parameter",))
            if _connects(around.before):
                constants += self._known(program, path, around.home, ("input", "output", "instance"))
            return _chain(_symbols(constants), _symbols(_constants(program)), _words(("new", "true", "false")))
        own = self._known(program, path, around.home, ("input", "output", "instance"))
        return _chain(_words(MEMBER_WORDS), _symbols(own), _words(("after", "interleaved")))

    def _members_of(self, program: Program, names: Names, around: Around) -> Iterator[dict]:
        """What stands behind a dot."""
        number, depth = len(around.before) - 2, 0
        while number > 0 and (depth or around.before[number].kind == "RSQB"):
            depth += (around.before[number].kind == "RSQB") - (around.before[number].kind == "LSQB")
            number -= 1
        word = around.before[number] if number >= 0 else None
        use = word and next((it for it in names.uses if it.at == word.at), None)
        owner = program.symbol(use) if use else None
        if owner is None and word:
            owner = program.value(around.home, word.text)
        if owner and owner.kind == "instance":
            kept = () if around.home else ("state", "instance")  # a test names them too
            return _symbols(_members(program, program.of_instance(owner), ("input", "output", *kept)))
        struct = owner and program.struct(owner)
        return _symbols(struct.parts if struct and struct.kind == "struct" else ())

    def _in_header(self, program: Program, path: Path, around: Around) -> Iterator[dict]:
        kinds = [it.kind for it in around.before]
        kinds = kinds[len(kinds) - kinds[::-1].index("REACTION"):]
        wanted = "effect" if "ARROW" in kinds else "trigger"
        own = self._known(program, path, around.home, (*MEMBERS[wanted], "instance"))
        more = ("reset", "history") if wanted == "effect" else ("startup", "shutdown")
        return _chain(_symbols(own), _words(more))

    def _in_body(self, program: Program, names: Names, path: Path, around: Around, place: Where) -> Iterator[dict]:
        lasts = [it.kind for it in around.before[-1:]]
        own = self._known(program, path, around.home, tuple(PROPOSED))
        here = [it for it in names.symbols if it.kind in ("let", "var", "turn", "given") and _is_before(it, around, place)]
        functions = [it for it in program.shared.values() if it.kind in ("function", "struct")]
        begins = not lasts or lasts[0] in ("SEMICOLON", "LBRACE", "RBRACE", "ELSE", "RPAR")
        more = _chain(_words(BODY_WORDS), _calls(STATEMENT_CALLS)) if begins else _words(("true", "false"))
        return _chain(
            _symbols(here), _symbols(own), more, _calls(VALUE_CALLS), _symbols(functions),
            _symbols(_constants(program)), _words(("startup", "shutdown")))

    def _in_test(self, program: Program, before: list[Word]) -> Iterator[dict]:
        """What can stand in a test: `before` has its words, from its name on."""
        kinds = [it.kind for it in before]
        if "LBRACE" not in kinds:
            return _words(("in every order",))
        start = 1 + max(number for number, kind in enumerate(kinds) if kind in ("SEMICOLON", "LBRACE"))
        first, last = (before[number].text if before[start:] else "" for number in (min(start, len(before) - 1), -1))
        inputs = _symbols(_members(program, program.main, ("instance", "input")))
        values = _chain(
            _symbols(_members(program, program.main, ("instance", "state"))), _words(("lost",)), _calls(VALUE_CALLS),
            _symbols(_constants(program)))
        if not before[start:]:
            return _chain(_words(STATEMENTS_OF_TESTS), inputs)
        if last == "expect":
            return _chain(_words(("always",)), values, _symbols(_members(program, program.main, ("output",))))
        if last == "withdraw":
            return inputs
        if last == "of" or last == "," and first == "draw":
            return _chain(_words(("withdraw",)), inputs)
        if last == "puts":
            return _chain(_words(("nothing",)), _symbols(_constants(program)))
        if before[-1].kind in ("NAME", "NUMBER", "TIME", "RPAR", "RSQB") and last not in ("at", "to", "every", "always"):
            return _words(FOLLOWING.get(first, FOLLOWING[""]))
        return values if first == "expect" and "at" not in [it.text for it in before[start:]] else _symbols(_constants(program))

    def _known(self, program: Program, path: Path, home: Optional[Symbol], kinds: Iterable[str]) -> list[Symbol]:
        """The members of a reactor, and those that it had when the text could be read the last time."""
        if home is None:
            return []
        older = [it for it in self.good.get(path, {}).get(home.name, ()) if it.kind in kinds]
        return [*_members(program, home, kinds), *older]


def around_of(names: Names, line: int, column: int) -> Around:
    """Where a place is. What is being written there does not count."""
    text = names.lines[line - 1][:column - 1] if line <= len(names.lines) else ""
    start = column - len(re.search(r"`?[A-Za-z_0-9]*$", text)[0])
    before, body = [], None
    for word in names.words:
        if (word.line, word.column) >= (line, start) or word.kind == "$END":
            break
        before.append(word)
        last = word.parts[-1] if word.parts else None
        body = word if last and (last.line, last.column) >= (line, start) or word.kind == "FOREIGN" else None
    home = names.home_at(line, column)
    if body:
        return Around("body", [it for it in body.parts if (it.line, it.column) < (line, start) and it.text], home)
    depth = sum((it.kind == "LBRACE") - (it.kind == "RBRACE") for it in before)
    test = _test_around(before) if home is None else None
    if test is not None:
        return Around("test", test, None)
    if depth == 0 or home is None:
        kinds = [it.kind for it in before if it.kind in ("TARGET", "REACTOR", "STRUCT", "ENUM", "CONST")]
        begins = kinds[-1] if kinds else ""
        return Around("target" if depth and begins == "TARGET" else "file", before, None)
    return Around("header" if _is_header(before) else "reactor", before, home)


def _test_around(before: list[Word]) -> Optional[list[Word]]:
    """The words of the test in which these end, from its name on; None where they end in none."""
    begins = [number for number, it in enumerate(before[:-1]) if it.text == "test" and before[number + 1].kind == "STRING"]
    words = before[begins[-1] + 1:] if begins else []
    is_open = words and not any(it.kind == "RBRACE" or it.kind in ("REACTOR", "TARGET") for it in words)
    return words if is_open else None


def _is_header(before: list[Word]) -> bool:
    kinds = [it.kind for it in before]
    if "REACTION" not in kinds:
        return False
    behind = kinds[len(kinds) - kinds[::-1].index("REACTION"):]
    return not {"BODY", "SEMICOLON", "LBRACE", "RBRACE", "INPUT", "OUTPUT", "STATE", "TIMER"} & set(behind)


def _is_value(around: Around) -> bool:
    """Whether a value is being written, or a place of a list."""
    last = around.before[-1].kind if around.before else ""
    return last in VALUES_BEHIND


def _connects(before: list[Word]) -> bool:
    """Whether a list of ports of a connection is being written."""
    for it in reversed(before):
        if it.kind == "ARROW":
            return True
        if it.kind in ("SEMICOLON", "LBRACE", "BODY", "EQUALS", "AFTER"):
            return it.kind in ("SEMICOLON", "LBRACE", "BODY") and before[-1].kind in ("LPAR", "COMMA")
    return False


def _is_choice(before: list[Word]) -> bool:
    for it in reversed(before):
        if it.kind in ("QMARK", "SEMICOLON", "LBRACE", "LET", "VAR", "STATE", "INPUT", "OUTPUT"):
            return it.kind == "QMARK"
    return False


def _opens(before: list[Word]) -> str:
    """The word before the bracket that ends here."""
    depth = 0
    for number in range(len(before) - 1, 0, -1):
        depth += (before[number].kind == "RSQB") - (before[number].kind == "LSQB")
        if depth == 0:
            return before[number - 1].kind
    return ""


def _arguments(before: list[Word]) -> Optional[Word]:
    """The reactor whose parameters are given here: `new Player(`."""
    depth = 0
    for number in range(len(before) - 1, 1, -1):
        depth += (before[number].kind in ("RPAR", "RSQB")) - (before[number].kind in ("LPAR", "LSQB"))
        if before[number].kind in ("SEMICOLON", "LBRACE", "RBRACE"):
            return None
        if depth < 0:
            is_new = before[number - 2].kind == "NEW" or _opens(before[:number - 1]) == "NEW"
            return before[number - 1] if before[number - 1].kind == "NAME" and is_new else None
    return None


def _is_before(it: Symbol, around: Around, place: tuple[int, int]) -> bool:
    """Whether a name of a body is of the body around a place, and stands before it."""
    if it.kind == "given":
        return it.owner is not None and it.owner.begins <= place <= it.owner.ends
    return bool(around.before) and (around.before[0].line, around.before[0].column) <= it.at[:2] < place


def _is_comment(lines: list[str], line: int, column: int) -> bool:
    return line <= len(lines) and "//" in lines[line - 1][:column - 1]


def _members(program: Program, home: Optional[Symbol], kinds: Iterable[str]) -> list[Symbol]:
    wanted = set(kinds)
    return [it for base in program.bases(home) for it in base.members.values() if it.kind in wanted]


def _constants(program: Program) -> list[Symbol]:
    return [it for it in program.shared.values() if it.kind in ("constant", "enumerator")]


def _chain(*parts: Iterable[dict]) -> Iterator[dict]:
    for part in parts:
        yield from part


def _symbols(symbols: Iterable[Symbol], behind: str = "") -> Iterator[dict]:
    for it in symbols:
        if it.name:
            detail = it.type.text if it.type else it.of.text if it.of else it.kind
            more = {"insertText": it.name + behind} if behind else {}
            yield {"label": it.name, "kind": PROPOSED[it.kind], "detail": detail, **more}


def _words(words: Iterable[str], behind: str = "") -> Iterator[dict]:
    for it in words:
        text = IN_TESTS.get(it) or KEYWORDS.get(it.split()[-1]) or BUILT_IN.get(it, "")
        more = {"insertText": it + behind} if behind else {}
        yield {"label": it, "kind": WORD, **({"documentation": text} if text else {}), **more}


def _calls(names: Iterable[str]) -> Iterator[dict]:
    for it in names:
        yield {"label": it, "kind": CALL, "documentation": BUILT_IN[it]}

