"""The files of one text: itself and what it imports, each read once; and which reactor a name means in each."""

from __future__ import annotations

import os
from collections.abc import Callable, Iterable
from dataclasses import replace
from pathlib import Path
from typing import Optional

from . import tree
from .faults import Report, nearest
from .modes import without_modes
from .parsing import Parser
from .tree import At

MOST_FILES = 256
Reader = Callable[[Path], str]
# What is known in all files, wherever it stands.
SHARED = ("constants", "types", "functions")


def read_text(path: Path) -> str:
    """The text of a file."""
    return path.read_text(encoding="utf-8-sig")


def _is_below(path: Path, folder: Path) -> bool:
    """Whether a path stays below a folder where its links lead."""
    home = os.path.realpath(folder)
    return os.path.commonpath([home, os.path.realpath(path)]) == home


class Sources:
    """Reads the files. `files` has those that could be read, what a file imports before it and the text itself last;
    `homes` the reactors that each file knows, by their names there."""

    def __init__(self, folder: Path, report: Report, reader: Optional[Reader] = None):
        """`reader` gives the text of each file that is imported."""
        self.folder, self.report, self.reader = folder, report, reader or read_text
        self.files: list[tree.File] = []
        self.homes: dict[int, dict[str, tree.Reactor]] = {}
        self.numbers: dict[Path, int] = {}
        self.whole: dict[int, tree.Reactor] = {}
        # Of a reactor that is compiled: what it was with its modes.
        self.written: dict[int, tree.Reactor] = {}
        self.extended: set[str] = set()
        # Where `history` leads to modes with timers or actions.
        self.resumed: list[At] = []

    def read(self, text: str) -> Optional[tree.File]:
        """All that the text has, and what it imports; None where its structure has a fault. Of imported files the
        target and the main reactor are left out."""
        main = Parser(text, self.report).file()
        if main is None:
            return None
        self._imports(main, 0, Path(), ())
        self.files.append(main)
        for home in self.homes.values():
            home.update({name: self._extended(it, ()) for name, it in home.items()})
        shared = {part: tuple(it for file in self.files for it in getattr(file, part)) for part in SHARED}
        return replace(main, reactors=tuple(self._extended(it, ()) for it in main.reactors), **shared)

    def reactor(self, name: tree.Name) -> Optional[tree.Reactor]:
        """The reactor that a name means where it stands."""
        found = self.homes[self.report.number(name.at)].get(name.text)
        return found and self._extended(found, ())

    def others(self) -> list[tree.Reactor]:
        """The reactors of imported files."""
        every = [it for file in self.files[:-1] for it in file.reactors]
        return [self._extended(it, ()) for it in every if it.name and not it.is_main]

    def names(self, at: At) -> list[str]:
        """The names of reactors that are known where this stands."""
        return [*self.homes[self.report.number(at)]]

    # Imports.

    def _imports(self, file: tree.File, number: int, path: Path, around: tuple[Path, ...]) -> None:
        """Reads what a file imports, and takes in the reactors that it knows."""
        home: dict[str, tree.Reactor] = {}
        self.homes[number] = home
        for it in file.reactors:
            if it.name and not it.is_main:
                home.setdefault(it.name.text, it)
        for it in file.imports:
            found = self._import(it, path, (*around, path))
            for each in it.reactors if found is not None else ():
                self._take(each, it, self.homes[found], home)

    def _import(self, it: tree.Import, path: Path, around: tuple[Path, ...]) -> Optional[int]:
        """The number of an imported file; None where it could not be read, which is told."""
        wanted = Path(*path.parts[:-1], it.path)
        if Path(it.path).is_absolute() or ".." in wanted.parts:
            self.report.error(it.at, "a file is imported from below the folder of the text", "write its path from here")
            return None
        if wanted in around or (around[0] == Path() and wanted == Path(Path(self.report.file).name)):
            self.report.error(it.at, f"`{it.path}` imports itself: {self._way(wanted, around)}")
            return None
        if wanted not in self.numbers:
            text = self._text(it, wanted)
            if text is None:
                return None
            first = self.report.add(str(Path(Path(self.report.file).parent, wanted)), text)
            number = self.numbers[wanted] = self.report.number(At(first + 1, 1))
            self.homes[number] = {}
            file = Parser(text, self.report, first).file()
            if file is not None:
                self._imports(file, number, wanted, around)
                self.files.append(file)
        return self.numbers[wanted]

    def _way(self, wanted: Path, around: tuple[Path, ...]) -> str:
        names = [str(it) if it.parts else Path(self.report.file).name for it in around]
        first = names.index(str(wanted)) if str(wanted) in names else 0
        return " imports ".join(f"`{it}`" for it in [*names[first:], wanted])

    def _text(self, it: tree.Import, wanted: Path) -> Optional[str]:
        if len(self.numbers) >= MOST_FILES:
            self.report.error(it.at, f"more than {MOST_FILES} files are imported")
            return None
        try:
            found = Path(self.folder, wanted)
            if not _is_below(found, self.folder):
                self.report.error(it.at, f"`{it.path}` leads out of the folder of the text, by a link", "put a copy of the file there")
            elif found.exists() and not found.is_file() and not found.is_dir():
                self.report.error(it.at, f"`{it.path}` is no file")
            else:
                return self.reader(found)
        except OSError as error:
            self.report.error(it.at, f"`{it.path}` cannot be read: {error.strerror}")
        except UnicodeDecodeError:
            self.report.error(it.at, f"`{it.path}` is no text in UTF-8")
        except ValueError:
            self.report.error(it.at, f"`{it.path}` is no path: it has a character that stands in none")
        return None

    def _take(self, each: tree.Imported, it: tree.Import, there: dict, home: dict) -> None:
        found = there.get(each.name.text)
        if found is None:
            text = f"`{it.path}` has no reactor `{each.name.text}`"
            self.report.error(each.name.at, text, nearest(each.name.text, there))
        elif home.get(each.here.text, found) is not found:
            place = self.report.place(home[each.here.text].at)
            self.report.error(each.here.at, f"there is a reactor `{each.here.text}` already", f"at {place}")
        else:
            home[each.here.text] = found

    # Reactors that extend others.

    def _extended(self, it: tree.Reactor, around: tuple[tree.Reactor, ...]) -> tree.Reactor:
        """A reactor with all that those have which it extends, before its own; what is reached twice stands once."""
        if not it.extends and not it.every(tree.Mode):
            return it
        if id(it) not in self.whole:
            bases = [(name, each) for name in it.extends for each in self._base(name, it, around)]
            lists = {part: (*self._inherited(bases, part), *getattr(it, part)) for part in ("parameters", "members")}
            written = replace(it, extends=(), **lists)
            self.whole[id(it)] = without_modes(written, self.resumed, self.report)
            self.written[id(self.whole[id(it)])] = written
        return self.whole[id(it)]

    def _inherited(self, bases: list[tuple[tree.Name, tree.Reactor]], part: str) -> Iterable[tree.Parameter | tree.Part]:
        """The parameters, or the members, of those that a reactor extends. Of two with one name the second is told."""
        found: dict[int, tree.Parameter | tree.Part] = {}
        homes: dict[str, tree.Name] = {}
        for name, base in bases:
            for each in getattr(base, part):
                others = [text for text in tree.names_of(each) if homes.setdefault(text, name) is not name]
                if id(each) not in found and others:
                    self.report.error(name.at, f"`{homes[others[0]].text}` and `{name.text}` both have `{others[0]}`")
                else:
                    found[id(each)] = each
        return found.values()

    def _base(self, name: tree.Name, it: tree.Reactor, around: tuple[tree.Reactor, ...]) -> list[tree.Reactor]:
        found = self.homes[self.report.number(name.at)].get(name.text)
        if found is None:
            hint = nearest(name.text, self.names(name.at)) or "a reactor is declared by `reactor NAME { .. }`"
            self.report.error(name.at, f"there is no reactor `{name.text}`", hint)
        elif found is it or found in around:
            self.report.error(name.at, f"`{name.text}` extends itself")
        else:
            self.extended.add(found.name.text)
            return [self._extended(found, (*around, it))]
        return []
