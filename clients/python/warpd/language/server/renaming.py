"""Gives a thing another name at each place that mentions it, in all texts that are known. It is refused where the
program would not be the same: the names of all other things must mean what they meant, and what is compiled have one
structure, and so must tests."""

from __future__ import annotations

from pathlib import Path
from typing import Any, NamedTuple, Optional

from .. import read
from ..hierarchy import INDEX
from ..parsing import Parser
from ..scope import is_name
from ..tables import grammar
from ..testing.reading import meanings
from .asking import KINDS, Asking, Spot
from .keywords import BUILT_IN
from .names import Names, Symbol
from .resolving import KNOWN, TESTS, Program
from .workspace import Workspace


class Refused(Exception):
    """A name cannot be given: says why."""


class Renaming:
    """Renames in one workspace."""

    def __init__(self, workspace: Workspace):
        self.workspace, self.asking = workspace, Asking(workspace)

    def can_be(self, path: Path, line: int, column: int) -> Spot:
        """The name that would be given another one."""
        program, use, symbol = self.asking.symbol_at(path, line, column)
        if use is None:
            raise Refused("here stands no name")
        if symbol is None:
            is_known = any(use.text in it for it in KNOWN.values())
            raise Refused(f"`{use.text}` is a word of the language" if is_known else f"`{use.text}` is not declared")
        _, at = program.mentioned_at(use, column) or (None, None)
        if at is None:
            raise Refused(f"`{use.text}` is a word of the language")
        return Spot(path, use.file, at)

    def edits(self, path: Path, line: int, column: int, new: str) -> dict[Path, list[tuple[Spot, str]]]:
        """What is written in each text; raises `Refused`."""
        self.can_be(path, line, column)
        symbol, uses = self.asking.uses(path, line, column)
        self._can_have(symbol, new)
        found: dict[Path, list[tuple[Spot, str]]] = {}
        for spot, _ in uses:
            found.setdefault(spot.path, []).append((spot, new))
        if new != symbol.name:
            self._check(found, symbol, new)
        return found

    def _can_have(self, symbol: Symbol, new: str) -> None:
        if symbol.name == INDEX and symbol.kind == "parameter" and new != INDEX:
            raise Refused(f"`{INDEX}` means the place in a bank by its name")
        if not is_name(new):
            raise Refused(f"`{new}` is no name: a name has at most 32 letters, digits and `_`, a letter first")
        if grammar().kinds.get(new, "MOST") != "MOST" or new in BUILT_IN or any(new in it for it in KNOWN.values()):
            raise Refused(f"`{new}` is a word of the language")

    def _check(self, edits: dict[Path, list], symbol: Symbol, new: str) -> None:
        """Each name means what it meant, and each program that could be compiled can be, with one structure."""
        changed = {path: Names(changed_text(self.workspace.text(path), its)) for path, its in edits.items()}

        def load(path: Path) -> Optional[Names]:
            return changed.get(path) or self.workspace.names(path)

        mains = dict.fromkeys(it.path for path in edits for it in self.workspace.programs(path, True))
        for main in mains:
            before, after = self.workspace.program(main), Program(main, load)
            taken = _taken(before, symbol, new)
            if taken:
                place = before.path_of(taken.file).name
                raise Refused(f"`{new}` is taken: it is {KINDS[taken.kind]}, line {taken.at.line} of {place}")
            if _meanings(before) != _meanings(after):
                raise Refused(f"with the name `{new}` other names would mean something else")
            self._compare(main, changed, new)

    def _compare(self, main: Path, changed: dict[Path, Names], new: str) -> None:
        before = self._compiled(main, {})
        if before is None:
            return
        after = self._compiled(main, changed)
        if after is None or after.shape != before.shape:
            raise Refused(f"with the name `{new}` the program of {main.name} would not be the same")
        if after.tests != before.tests:
            raise Refused(f"with the name `{new}` a test of {main.name} would not be the same")

    def _compiled(self, main: Path, changed: dict[Path, Names]) -> Optional[Meaning]:
        """What a program and its tests come to; None where it cannot be compiled."""
        def reader(path: Path) -> str:
            text = changed[path].text if path in changed else self.workspace.text(path)
            if text is None:
                raise FileNotFoundError(2, "there is no such file", str(path))
            return text

        program, report, file = read(reader(main), main.name, main.parent, reader)
        if program is None or report.errors:
            return None
        beside = main.with_name(main.stem + TESTS)
        tests = list(file.tests)
        if self.workspace.text(beside) is not None:
            text = reader(beside)
            more = Parser(text, report, report.add(beside.name, text)).file()
            tests += more.tests if more else ()
        return Meaning(shape(program.file()), meanings(program, report, tests))


class Meaning(NamedTuple):
    """What is left of a program and of its tests where all names are forgotten."""

    shape: Any
    tests: list


def changed_text(text: str, edits: list[tuple[Spot, str]]) -> str:
    lines = text.split("\n")
    for spot, new in sorted(edits, key=lambda it: it[0].at, reverse=True):
        line, column, width = spot.at
        lines[line - 1] = lines[line - 1][:column - 1] + new + lines[line - 1][column - 1 + width:]
    return "\n".join(lines)


def _meanings(program: Program) -> list:
    """What each name of each file means: the file and the place in its list of symbols."""
    numbers = {
        id(it): (str(path), number) for path, names in program.files.items() for number, it in enumerate(names.symbols)}
    found = []
    for path, names in program.files.items():
        for use in names.uses:
            symbols = [symbol for symbol, _ in program.mentioned(use)] or [program.symbol(use)]
            found.append((str(path), use.role, [numbers.get(id(it)) for it in symbols]))
    return found


def _taken(program: Program, symbol: Symbol, new: str) -> Optional[Symbol]:
    """What has the new name already where the old one is known."""
    for names in program.files.values():
        for it in names.symbols:
            if it.name == new and it is not symbol and _meet(program, it, symbol):
                return it
    return None


def _meet(program: Program, one: Symbol, other: Symbol) -> bool:
    """Whether two symbols cannot have one name."""
    if one.owner is not None and other.owner is not None:
        if one.owner is other.owner:
            return True
        reactors = [it for names in program.files.values() for it in names.outline if it.kind == "reactor"]
        families = (set(program.bases(it)) for it in reactors)
        are_reactors = one.owner.kind == other.owner.kind == "reactor"
        return are_reactors and any({one.owner, other.owner} <= it for it in families)
    kinds = {"reactor", "alias"}
    return one.owner is other.owner and (one.kind in kinds) == (other.kind in kinds)


def shape(program: dict) -> Any:
    """A program file with numbers in the place of names: what is left where all names are forgotten."""
    reactors = {it["name"]: number for number, it in enumerate(program["reactors"])}
    locals_ = [_local(it) for it in program["reactors"]]

    def port(text: str) -> tuple:
        reactor, name = text.split(".", 1)
        return reactors[reactor], locals_[reactors[reactor]][name]

    named = ("reactors", "links", "inputs", "outputs")
    made: dict[str, Any] = {key: value for key, value in program.items() if key not in named}
    made["reactors"] = [
        _numbered({key: [each[:1] for each in value] if key == "called" else value for key, value in it.items() if key != "name"}, names)
        for it, names in zip(program["reactors"], locals_)
    ]
    made["links"] = [(port(source), port(target), *delay) for source, target, *delay in program.get("links", ())]
    made["inputs"] = [(origin, port(text)) for origin, text in program.get("inputs", ())]
    made["outputs"] = [port(text) for text in program.get("outputs", ())]
    return made


def _local(reactor: dict) -> dict[str, int]:
    """A number for each name that a reactor declares."""
    names = [it if isinstance(it, str) else it[0] for key in ("vars", "arrays", "inputs", "outputs", "actions", "timers")
             for it in reactor.get(key, ())]
    return {name: number for number, name in enumerate(names)}


def _numbered(it: Any, names: dict[str, int], is_body: bool = False) -> Any:
    """The names of a part of a reactor as numbers; in a body what stands first in a list says what is done."""
    if isinstance(it, str):
        return ("name", names[it]) if it in names else it
    if isinstance(it, list):
        first = it[:1] if is_body and it and isinstance(it[0], str) else []
        return first + [_numbered(each, names, is_body) for each in it[len(first):]]
    if isinstance(it, dict):
        return {key: _numbered(value, names, is_body or key == "body") for key, value in it.items()}
    return it
