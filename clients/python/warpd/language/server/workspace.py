"""What is known of each text: its names, its faults, and what the compiler made of it the last time it could."""

from __future__ import annotations

import os
from collections.abc import Iterator
from dataclasses import dataclass, field
from pathlib import Path
from typing import Optional

from .. import read
from ..faults import Fault, Report
from ..parsing import Parser
from ..sources import read_text
from ..testing.reading import judge
from .documents import Document, Positions, plain
from .names import Names
from .resolving import TESTS, Program
from .tables import Tables

# So many files below the folders of the editor are looked at, and so many folders.
MOST_FILES, MOST_FOLDERS, MOST_BYTES = 500, 2_000, 1_048_576
PASSED_OVER = {"out", "node_modules", "__pycache__"}
NO_MAIN = "no main reactor: other texts can import this one, and it is no program by itself"
# What is said of a program and not of a text that others import.
OF_PROGRAMS = ("there is no main reactor", "the program has no target", "the program has no stop")


@dataclass
class Found:
    """What the compiler said of a text: the faults of each file, and what it made of it."""

    texts: dict[Path, Optional[str]]
    faults: dict[Path, list[Fault]] = field(default_factory=dict)
    program: Optional[dict] = None

    def take(self, report: Report, folder: Path) -> None:
        """Takes in what a report says of each file."""
        for it in sorted(report.faults):
            first, file = report.files[report.number(it.at)]
            place = it.at._replace(line=it.at.line - first)
            self.faults.setdefault(folder / file, []).append(Fault(place, it.kind, it.text, it.hint))


class Workspace:
    """The texts that are open, and those of the files that they import or that stand in the folders of the editor."""

    def __init__(self) -> None:
        self.positions = Positions()
        self.folders: list[Path] = []
        self.open: dict[str, Document] = {}
        self.disk: dict[Path, tuple[tuple, Optional[str]]] = {}
        self.known: dict[Path, tuple[str, Names]] = {}
        self.found: dict[Path, Found] = {}
        # What the compiler made of each text when it could the last time.
        self.tables: dict[Path, Tables] = {}

    # Texts.

    def document(self, path: Path) -> Optional[Document]:
        return next((it for it in self.open.values() if it.path == path), None)

    def uri(self, path: Path) -> str:
        found = self.document(path)
        return found.uri if found else path.as_uri()

    def text(self, path: Path) -> Optional[str]:
        """The text of a file as it is open, or else as it is on the disk; None where there is none."""
        found = self.document(path)
        if found:
            return found.text
        try:
            status = path.stat()
            signature = (status.st_mtime_ns, status.st_size, status.st_ino)
            if self.disk.get(path, (None, None))[0] != signature:
                text = plain(read_text(path)) if status.st_size <= MOST_BYTES else None
                self.disk[path] = (signature, text)
            return self.disk[path][1]
        except (OSError, ValueError):
            return None

    def names(self, path: Path) -> Optional[Names]:
        text = self.text(path)
        if text is None:
            return None
        if path not in self.known or self.known[path][0] != text:
            self.known[path] = (text, Names(text))
        return self.known[path][1]

    def every(self) -> list[Path]:
        """The texts that are open, and those in the folders of the editor."""
        found = {it.path: None for it in self.open.values()}
        for folder in self.folders:
            for path in _texts_below(folder):
                if len(found) >= MOST_FILES:
                    break
                found[path] = None
        return list(found)

    # Programs.

    def program(self, path: Path) -> Program:
        return Program(path, self.names)

    def programs(self, path: Path, is_wide: bool = False) -> list[Program]:
        """That of a text, and each other that has this text in it: of those that are open, or of all that are known."""
        found = [self.program(path)]
        for it in self.every() if is_wide else [it.path for it in self.open.values()]:
            one = self.program(it) if it != path else None
            if one and path in one.files:
                found.append(one)
        return found

    def compile(self, path: Path) -> Found:
        """What the compiler says of a text, which is kept until one of its files changes."""
        kept = self.found.get(path)
        if kept and all(self.text(it) == text for it, text in kept.texts.items()):
            return kept
        text = self.text(path) or ""
        found = Found({path: text})
        if path.name.endswith(TESTS):
            return self._compile_tests(path, found)

        def reader(wanted: Path) -> str:
            found.texts[wanted] = self.text(wanted)
            return read_text(wanted) if found.texts[wanted] is None else found.texts[wanted]

        program, report, file = read(text, path.name, path.parent, reader)
        if program and file and not report.errors:
            judge(program, report, file.tests)
        found.take(report, path.parent)
        names = self.names(path)
        if names and not names.main:
            found.faults[path] = _of_part(found.faults.get(path, []), names)
        if program and not report.errors:
            found.program = program.file()
            self.tables[path] = Tables(program, report, path)
        self.found[path] = found
        return found

    def _compile_tests(self, path: Path, found: Found) -> Found:
        """What is wrong with a file of tests: those of `game.lf` in `game.test.lf`."""
        main = path.with_name(path.name.removesuffix(TESTS) + ".lf")
        found.texts[main] = self.text(main)
        program, report, file = read(found.texts[main] or "", main.name, main.parent)
        if program and file and not report.errors:
            before = report.add(path.name, found.texts[path])
            beside = Parser(found.texts[path], report, before).file()
            judge(program, report, beside.tests if beside else ())
            found.take(report, path.parent)
            found.faults = {path: found.faults.get(path, [])}
        self.found[path] = found
        return found

    def tables_of(self, path: Path) -> list[Tables]:
        """What the compiler made of the programs that have a text, as they could be compiled the last time."""
        if path not in self.tables:
            self.compile(path)
        first = [self.tables[path]] if path in self.tables else []
        return first + [it for main, it in self.tables.items() if main != path and path in it.files]

    def forget(self, path: Path) -> None:
        """A text was opened or closed: nothing is kept that was made of it."""
        self.found.pop(path, None)
        self.tables.pop(path, None)


def _of_part(faults: list[Fault], names: Names) -> list[Fault]:
    """The faults of a text without a main reactor, which others import: none is that it is no program."""
    faults = [it for it in faults if it.text not in OF_PROGRAMS and not it.text.startswith("no instance of ")]
    first = next((it for it in names.outline if it.kind == "reactor"), None)
    return faults if faults or not first else [Fault(first.at, "information", NO_MAIN)]


def _texts_below(folder: Path) -> Iterator[Path]:
    count = 0
    for here, folders, files in os.walk(folder):
        folders[:] = sorted(it for it in folders if not it.startswith(".") and it not in PASSED_OVER)
        count += 1
        if count > MOST_FOLDERS:
            return
        yield from (Path(here, it) for it in sorted(files) if it.endswith(".lf"))
