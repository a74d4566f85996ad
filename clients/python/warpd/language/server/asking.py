"""What is asked of a place in a text: what stands there, where it is declared, where it is used, and what a text
has."""

from __future__ import annotations

from collections.abc import Iterator
from pathlib import Path
from typing import NamedTuple, Optional

from ..builder import nanoseconds
from ..lexing import Word
from ..tree import At
from .keywords import BUILT_IN, IN_TESTS, KEYWORDS
from .names import Names, Symbol, Use, text_of
from .resolving import Program
from .tables import Key, number_told
from .workspace import Workspace

KINDS = {
    "reactor": "a reactor", "parameter": "a parameter", "state": "a state variable", "input": "an input",
    "output": "an output", "action": "a logical action", "timer": "a timer", "instance": "an instance",
    "mode": "a mode", "method": "a method", "constant": "a constant", "enum": "an enum", "enumerator": "a constant",
    "struct": "a struct", "field": "a field", "function": "a function", "given": "a parameter", "let": "a `let`", "var": "a variable of this body",
    "turn": "the number of a loop's turn", "alias": "an imported reactor",
}
LOCAL = ("given", "let", "var", "turn")
MOST_TOLD = 6
# The kinds of symbols of the protocol.
OUTLINED = {
    "reactor": 5, "parameter": 26, "state": 13, "input": 8, "output": 8, "action": 24, "timer": 24, "instance": 19,
    "mode": 3, "method": 6, "constant": 14, "enum": 10, "enumerator": 22, "struct": 23, "field": 8, "function": 12,
    "reaction": 12, "test": 12,
}


class Spot(NamedTuple):
    """Where a name stands in a text."""

    path: Path
    names: Names
    at: At


class Asking:
    """Answers of one workspace."""

    def __init__(self, workspace: Workspace):
        self.workspace = workspace

    # What stands at a place.

    def symbol_at(self, path: Path, line: int, column: int) -> tuple[Program, Optional[Use], Optional[Symbol]]:
        program = self.workspace.program(path)
        names = program.files.get(path)
        use = names.use_at(line, column) if names else None
        found = use and _meant(program, use, column)
        if use and found is None:
            # A library's names may be those of a text that imports it.
            others = ((it, _meant(it, use, column)) for it in self.workspace.programs(path)[1:])
            program, found = next(((it, one) for it, one in others if one), (program, None))
        return program, use, found

    def declared(self, path: Path, line: int, column: int) -> Optional[Spot]:
        """Where the name at a place is declared; of a reactor that is imported under another name, where that is."""
        program, use, found = self.symbol_at(path, line, column)
        found = program.whole(found)
        if found is None:
            return self._imported_file(program, path, line, column)
        return Spot(program.path_of(found.file), found.file, found.at)

    def _imported_file(self, program: Program, path: Path, line: int, column: int) -> Optional[Spot]:
        word = program.files[path].word_at(line, column) if path in program.files else None
        if word and word.kind == "STRING":
            there = program.files.get(path.parent / word.text[1:-1])
            return there and Spot(program.path_of(there), there, At(1, 1))
        return None

    def uses_here(self, path: Path, line: int, column: int) -> list[Spot]:
        """The places of a text that mention the name at a place."""
        program, _, symbol = self.symbol_at(path, line, column)
        return [spot for spot, _ in spots(program, symbol) if spot.path == path] if symbol else []

    def uses(self, path: Path, line: int, column: int) -> tuple[Optional[Symbol], list[tuple[Spot, bool]]]:
        """All places that mention the name at a place, in each text that is known, and which of them declare it."""
        _, _, symbol = self.symbol_at(path, line, column)
        found: dict[tuple[Path, At], tuple[Spot, bool]] = {}
        for program in self.workspace.programs(path, True) if symbol else ():
            for it in self._programs_with(program, symbol):
                for spot, is_declared in spots(it, symbol):
                    found.setdefault((spot.path, spot.at), (spot, is_declared))
        return symbol, [found[key] for key in sorted(found)]

    def _programs_with(self, program: Program, symbol: Symbol) -> Iterator[Program]:
        """The programs that may mention a symbol: where it is of an imported file, those of that file too."""
        yield program
        for path, names in program.files.items():
            if names is symbol.file and path != program.path:
                yield from self.workspace.programs(path, True)

    # Hover.

    def hover(self, path: Path, line: int, column: int) -> Optional[tuple[str, At]]:
        """What is said of a place, in Markdown, and the word of which it is said."""
        program, use, found = self.symbol_at(path, line, column)
        names = program.files.get(path)
        word = use.word if use else names and names.word_at(line, column)
        if word is None:
            return None
        if found:
            return "\n\n".join(self._told(program, program.whole(found) or found, path)), word.at
        text = IN_TESTS.get(text_of(word), "") if not use and _is_in_test(names, word) else self._plain(word, path, use)
        return (text, word.at) if text else None

    def _plain(self, word: Word, path: Path, use: Optional[Use]) -> str:
        text = text_of(word)
        if word.kind == "TIME":
            tables = self.workspace.tables_of(path)
            unit = tables[0].unit if tables else None
            count = nanoseconds(text)
            return f"{count // unit} of the program's time" if unit and count % unit == 0 else ""
        if word.kind == "NUMBER":
            return number_told(text)
        if use or word.kind in ("NAME", "RESET"):
            return BUILT_IN.get(text) or KEYWORDS.get(text, "")
        return KEYWORDS.get(text, "")

    def _told(self, program: Program, it: Symbol, path: Path) -> Iterator[str]:
        yield f"```lf\n{written(it)}\n```"
        yield _what(it)
        comment = comment_of(it)
        if comment:
            yield comment
        told = self._instances(program, it, path)
        if told:
            more = [f"- and {len(told) - MOST_TOLD} more"] * (len(told) > MOST_TOLD)
            yield "\n".join([f"- {words}" for words in told[:MOST_TOLD]] + more)

    def _instances(self, program: Program, it: Symbol, path: Path) -> list[str]:
        tables = self.workspace.tables_of(path)
        if it.kind in ("constant", "enumerator"):
            values = [str(one.constants[it.name]) for one in tables if it.name in one.constants]
            return [f"its value is {value}" for value in dict.fromkeys(values)]
        reactor = it if it.kind == "reactor" else it.owner
        if it.kind in (*LOCAL, "method", "function", "field", "struct", "enum", "mode") or reactor is None:
            return []
        member = "" if it.kind == "reactor" else it.name
        found: list[str] = []
        for one in self.workspace.programs(path):
            for names in one.files.values():
                for each in names.outline:
                    is_one = each.kind == "reactor" and reactor in one.bases(each)
                    key = Key(one.path_of(names), each.name, member)
                    found += [words for table in tables if is_one for words in table.of(key)]
        return list(dict.fromkeys(found))

    # The outline of a text.

    def outline(self, path: Path) -> list[dict]:
        names = self.workspace.names(path)
        return [self._outlined(names, it) for it in names.outline] if names else []

    def _outlined(self, names: Names, it: Symbol) -> dict:
        between = self.workspace.positions
        width = len(it.name) if it.kind == "reaction" or it.is_main and not it.name else it.at.width
        line = names.lines[it.at.line - 1]
        ends = At(it.at.line, min(it.at.column + width, len(line.rstrip("\r")) + 1))
        if it.is_main and not it.name:
            ends = At(it.at.line, it.at.column + 4)
        made = {
            "name": it.name or ("main" if it.is_main else it.kind), "kind": OUTLINED[it.kind],
            "range": between.between(names.lines, it.begins, max(it.ends, ends)),
            "selectionRange": between.between(names.lines, it.at, ends),
        }
        detail = _detail(it)
        inner = [each for each in it.parts if each.kind in OUTLINED and each.kind not in LOCAL]
        children = [self._outlined(names, each) for each in inner]
        return {**made, **({"detail": detail} if detail else {}), **({"children": children} if children else {})}


def spots(program: Program, symbol: Symbol) -> Iterator[tuple[Spot, bool]]:
    """Where the files of a program mention a symbol, and which of these places declares it."""
    for path, names in program.files.items():
        for use in names.uses:
            for found, at in program.mentioned(use):
                if found is symbol:
                    yield Spot(path, names, at), use.declares is symbol


def _meant(program: Program, use: Use, column: int) -> Optional[Symbol]:
    """What a name means at a column of it."""
    found = program.mentioned_at(use, column) if use.is_of_test else None
    return found[0] if found else program.symbol(use)


def _is_in_test(names: Names, word: Word) -> bool:
    return any(it.kind == "test" and it.begins[:2] <= word.at[:2] <= it.ends[:2] for it in names.outline)


def _what(it: Symbol) -> str:
    what = KINDS[it.kind]
    if it.kind in ("input", "output") and it.is_bank:
        what = f"a multiport of {it.kind}s"
    if it.kind == "instance" and it.of:
        what = f"{'a bank of instances' if it.is_bank else what} of `{text_of(it.of)}`"
    if it.kind in ("state", "parameter", "input", "output", "action", "let", "var", "given", "field", "constant"):
        type = text_of(it.type) if it.type else "int" if it.kind not in ("let", "var", "constant") else ""
        what += f", `{type}`" * bool(type)
    if it.owner and it.owner.name and it.kind not in LOCAL:
        what += f", of `{it.owner.name}`" if it.kind != "instance" else f", in `{it.owner.name}`"
    return what[0].upper() + what[1:]


def _detail(it: Symbol) -> str:
    if it.kind in ("reaction", "test"):
        return it.kind if it.kind == "test" else ""
    if it.kind == "instance" and it.of:
        return text_of(it.of)
    return text_of(it.type) if it.type else it.kind if it.kind in ("input", "output", "timer", "action") else ""


def written(it: Symbol) -> str:
    """The declaration as it stands, up to its brace or body; of one that goes over several lines the first."""
    if it.kind in ("input", "output", "parameter", "given", "enumerator", "field"):
        what = {"input": "input ", "output": "output "}.get(it.kind, "")
        return f"{what}{it.name}" + (f": {text_of(it.type)}" if it.type else "")
    line = it.file.lines[it.begins.line - 1].rstrip("\r")
    text = line[it.begins.column - 1:]
    if it.ends.line == it.begins.line and it.kind not in ("reactor", "mode", "function", "method", "let", "var"):
        text = text[:it.ends.column - it.begins.column]
    if it.kind in ("reactor", "mode", "struct", "function", "method"):
        text = text.split("{")[0] if it.kind != "struct" or "}" not in text else text
    if it.kind in ("let", "var"):
        text = text.split(";")[0]
    return text.strip()


def comment_of(it: Symbol) -> str:
    """The comment on the lines above a declaration."""
    found: list[str] = []
    is_first = not it.file.lines[it.begins.line - 1][:it.begins.column - 1].strip()
    for number in range(it.begins.line - 2, -1, -1) if is_first else ():
        line = it.file.lines[number].strip()
        if not line.startswith("//") or line.startswith("//in ") or line.startswith("//out "):
            break
        found.insert(0, line.lstrip("/").strip())
    return "\n".join(found)
