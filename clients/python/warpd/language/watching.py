"""`warpd-compile --watch`: compiles a text again whenever it, a file that it imports or its tests have changed."""

from __future__ import annotations

import select
import time
from collections.abc import Sequence
from pathlib import Path
from typing import Optional, TextIO

from . import read
from .faults import Report
from .files import shown, shown_names
from .lexing import Word
from .model import Program
from .scope import count_of
from .sources import read_text
from .testing.reading import beside, judge

PAUSE = 0.2
Signature = Optional[tuple[int, int, int]]


def watch(file: Path, to: Optional[Path], source: TextIO, target: TextIO) -> int:
    """Compiles until the input ends, or an interrupt comes. The program file and its names go where `to` says, where
    that is given; while there is a fault they stay as they were. What is wrong with tests is told too. What it says goes
    to `target`."""
    watcher = Watcher(file, to, target)
    try:
        while True:
            watcher.look()
            if select.select([source], [], [], PAUSE)[0] and not source.readline():
                return 0
    except KeyboardInterrupt:
        return 0


class Watcher:
    """Watches one text. `seen` has each of its files as it was when it was compiled the last time."""

    def __init__(self, file: Path, to: Optional[Path], target: TextIO):
        self.file, self.to, self.target = file, to, target
        self.seen: dict[Path, Signature] = {}

    def look(self) -> None:
        """Compiles, where a file has changed."""
        if not self.seen or any(signature(it) != before for it, before in self.seen.items()):
            self._compile()

    def _compile(self) -> None:
        began, first = time.monotonic(), not self.seen
        self.seen = {self.file: signature(self.file)}
        try:
            program, report, tree = read(read_text(self.file), str(self.file), None, self._read)
            is_good = program is not None and not report.errors
            if is_good:
                self._write(program)
                judge(program, report, [*tree.tests, *self._beside(report)])
        except (OSError, UnicodeDecodeError) as error:
            why = error.strerror if isinstance(error, OSError) else "no text in UTF-8"
            return self._say(f"{getattr(error, 'filename', None) or self.file}: {why}", first)
        warnings = sum(it.kind == "warning" for it in report.faults)
        errors = len(report.faults) - warnings
        told = ", ".join([count_of(errors, "error")] * bool(errors) + [count_of(warnings, "warning")] * bool(warnings))
        if not is_good:
            kept = f"; {self.to} stays as it was" if self.to and self.to.exists() else ""
            return self._say(f"{self.file}: {told}{kept}", first, str(report))
        size = f"{count_of(len(program.instances), 'reactor')}, {round(1000 * (time.monotonic() - began))} ms"
        text = f"{self.file} -> {self.to}: " if self.to else f"{self.file}: "
        self._say(f"{text}{size}" + f", {told}" * bool(told), first, str(report))

    def _read(self, path: Path) -> str:
        self.seen[path] = signature(path)
        return read_text(path)

    def _beside(self, report: Report) -> Sequence[Word]:
        """The tests that stand beside the text, which are watched too."""
        tests = self.file.with_suffix(".test.lf")
        self.seen[tests] = signature(tests)
        return beside(str(tests), read_text(tests), report) if self.seen[tests] else ()

    def _write(self, program: Program) -> None:
        if self.to:
            self.to.write_text(shown(program.file()), encoding="utf-8")
            self.to.with_suffix(".names.json").write_text(shown_names(program.names()), encoding="utf-8")

    def _say(self, text: str, is_first: bool, report: str = "") -> None:
        files = count_of(sum(it is not None for it in self.seen.values()), "file")
        ends = f"\nwatching {files}: the end of the input or Ctrl-C ends it" if is_first else ""
        self.target.write(f"{report}{time.strftime('%H:%M:%S')} {text}{ends}\n")
        self.target.flush()


def signature(path: Path) -> Signature:
    """What changes with a file; None where there is none."""
    try:
        it = path.stat()
    except OSError:
        return None
    return it.st_mtime_ns, it.st_size, it.st_ino
