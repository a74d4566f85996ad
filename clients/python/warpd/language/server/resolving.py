"""What each name of a program means: of a text and of all that it imports."""

from __future__ import annotations

from collections.abc import Callable, Iterator
from pathlib import Path
from typing import Optional

from ..sources import MOST_FILES
from ..tree import At
from .names import Names, Symbol, Use, text_of
from .spelled import is_main, parts_of

WIDTH, TESTS = "_width", ".test.lf"
# What is there without a declaration, by the roles in which it is.
KNOWN = {
    "value": {
        "startup", "shutdown", "reset", "bank_index", "min", "max", "abs", "clamp", "present", "floor", "round",
        "fixed", "put", "schedule", "request_stop", "set_mode", "among", "mix", "muldiv", "lf",
    },
    "type": {"int", "bool", "time", "fixed", "int64_t", "void"},
    "property": {"stop", "timeout", "unit", "origins", "version", "microsteps_at_stop"},
    "argument": {"bank_index"},
    "member": {"time", "microstep"},
    "test": {"min", "max", "abs", "clamp", "present", "floor", "round", "fixed", "lost"},
}
Load = Callable[[Path], Optional[Names]]


class Program:
    """The texts of one program. `files` has the names of each, by its path, the text itself first; a name that is
    looked up is a symbol of one of them."""

    def __init__(self, path: Path, load: Load):
        self.path, self.load = path, load
        self.files: dict[Path, Names] = {}
        self.paths: dict[int, Path] = {}
        self.shared: dict[str, Symbol] = {}
        self._read(path)
        # Tests stand in the text, or in a file beside it: of `game.lf` in `game.test.lf`.
        is_tests = path.name.endswith(TESTS)
        beside = path.name.removesuffix(TESTS) + ".lf" if is_tests else path.stem + TESTS
        self._read(path.with_name(beside))
        main = self.files.get(path.with_name(beside) if is_tests else path)
        self.main = main and main.main
        for names in self.files.values():
            for name, it in names.shared.items():
                self.shared.setdefault(name, it)

    def _read(self, path: Path) -> None:
        names = self.load(path) if path not in self.files and len(self.files) < MOST_FILES else None
        if names is None:
            return
        self.files[path], self.paths[id(names)] = names, path
        for it in names.imports:
            if ".." not in Path(it).parts and not Path(it).is_absolute():
                self._read(path.parent / it)

    def path_of(self, names: Names) -> Path:
        return self.paths[id(names)]

    # Reactors.

    def reactor(self, names: Names, name: str) -> Optional[Symbol]:
        """What the name of a reactor means in a file: one of its own, or one that it imports, under a name of its own
        the alias."""
        alias = names.aliases.get(name)
        if name in names.reactors or alias is None:
            return names.reactors.get(name)
        return self._target(names, alias, 0) if alias.is_plain else alias

    def _target(self, names: Names, alias: Optional[Symbol], depth: int) -> Optional[Symbol]:
        if alias is None or depth > len(self.files):
            return None
        there = self.files.get(self.path_of(names).parent / alias.path)
        if there is None:
            return None
        name = text_of(alias.of)
        return there.reactors.get(name) or self._target(there, there.aliases.get(name), depth + 1)

    def whole(self, it: Optional[Symbol]) -> Optional[Symbol]:
        """The reactor that a name stands for; the one behind an alias."""
        if it and it.kind == "alias":
            return self._target(it.file, it, 0)
        return it

    def bases(self, reactor: Optional[Symbol]) -> Iterator[Symbol]:
        """A reactor and all that it extends."""
        waiting, seen = [reactor], set()
        while waiting:
            it = waiting.pop()
            if it and id(it) not in seen:
                seen.add(id(it))
                yield it
                waiting += [self.whole(self.reactor(it.file, text_of(word))) for word in reversed(it.bases)]

    def member(self, reactor: Optional[Symbol], name: str) -> Optional[Symbol]:
        found = (it.members.get(name) for it in self.bases(reactor))
        return next((it for it in found if it), None)

    # Names.

    def symbol(self, use: Use) -> Optional[Symbol]:
        """What a name means; None where nothing of this name is declared."""
        if use.declares or use.local:
            return use.declares or use.local
        name = use.text
        match use.role:
            case "reactor":
                return self.reactor(use.file, name)
            case "imported":
                there = self.files.get(self.path_of(use.file).parent / use.path)
                return there and self.reactor(there, name)
            case "type":
                return self.shared.get(name)
            case "argument":
                return self.member(self.whole(self.reactor(use.file, text_of(use.of))), name)
            case "member" if not use.is_of_test:
                return use.owner and self.part(self.symbol(use.owner), name)
            case "value":
                return self.value(use.home, name)
            case "test" | "member":
                parts = parts_of(self, use)
                return parts[-1].symbol if parts else self.main if is_main(self, use) else None
        return None

    def mentioned(self, use: Use) -> list[tuple[Symbol, At]]:
        """What a name mentions, and the letters that do: of a name of a test each instance of its path."""
        if not use.is_of_test:
            found = self.symbol(use)
            return [(found, use.at._replace(width=covered(use, found)))] if found else []
        parts, quoted = parts_of(self, use), len(use.word.text) - len(use.text)
        if len(parts) == 1 and parts[0].last == len(use.text):
            return [(parts[0].symbol, use.at)]
        column = use.at.column + quoted // 2
        return [(it.symbol, At(use.at.line, column + it.first, it.last - it.first)) for it in parts]

    def mentioned_at(self, use: Use, column: int) -> Optional[tuple[Symbol, At]]:
        """What the letters of a name at a column mention; an index is of what stands before it."""
        found = self.mentioned(use)
        before = [it for it in found if it[1].column <= column]
        return before[-1] if before and use.is_of_test else next(iter(found), None)

    def value(self, home: Optional[Symbol], name: str) -> Optional[Symbol]:
        """What a name means in a reactor: its own, or one of the file."""
        found = self.member(home, name) or self.shared.get(name)
        if found is None and name.endswith(WIDTH):
            wide = self.member(home, name.removesuffix(WIDTH))
            return wide if wide and wide.kind in ("input", "output", "instance", "action") else None
        return found

    def part(self, owner: Optional[Symbol], name: str) -> Optional[Symbol]:
        """What a name means behind a dot: a port of an instance, or a field of a struct."""
        if owner is None:
            return None
        if owner.kind == "instance":
            of = self.of_instance(owner)
            return self.member(of, name) or (self.member(of, name.removesuffix(WIDTH)) if name.endswith(WIDTH) else None)
        struct = self.struct(owner)
        return struct and struct.members.get(name)

    def of_instance(self, it: Symbol) -> Optional[Symbol]:
        return self.whole(self.reactor(it.file, text_of(it.of))) if it.of else None

    def struct(self, it: Symbol, depth: int = 0) -> Optional[Symbol]:
        """The struct that is the type of a symbol, as written or as what a `let` begins with has it."""
        if it.kind in ("enum", "struct"):
            return it
        if it.type:
            found = self.shared.get(text_of(it.type))
            return found if found and found.kind == "struct" else None
        for use in it.values if it.kind in ("let", "var") and depth < 8 else ():
            found = None if use.has_member else self.symbol(use)
            struct = found and found.kind != "enumerator" and self.struct(found, depth + 1)
            if struct or found and found.kind in ("function", "method"):
                return struct or None
        return None


def covered(use: Use, symbol: Symbol) -> int:
    """How many letters of a name are that of the symbol: `player` of `player_width`."""
    return len(use.word.text) if use.text == symbol.name else len(symbol.name)
