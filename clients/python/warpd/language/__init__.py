"""The language in which programs are written: from a text to a program file, and back.

    from warpd.language import compiled, text_of

    it = compiled(text, "game.lf")
    if it.program:
        json.dumps(it.program)      # the program file
    print(it.report, end="")        # faults and warnings, with their lines

It wants `lark` (Debian: python3-lark)."""

from __future__ import annotations

from pathlib import Path
from typing import NamedTuple, Optional

from .faults import Report
from .files import shown
from .model import Program
from .program import program_of
from .sources import Reader, Sources
from .tree import At, File
from .writing import text_of

__all__ = ["Compiled", "Read", "compiled", "read", "text_of"]

MOST_BYTES = 1_048_576


class Compiled(NamedTuple):
    """A program file with the names of its numbers, or None where the text has an error."""

    program: Optional[dict]
    names: Optional[dict]
    report: Report


class Read(NamedTuple):
    """A text as the compiler has it: with its reactors, instances and connections. The program means nothing where the
    report has an error, and is None where the text's structure has one; then there is no `file` either."""

    program: Optional[Program]
    report: Report
    file: Optional[File] = None


def read(text: str, file: str = "program.lf", folder: Optional[Path] = None, reader: Optional[Reader] = None) -> Read:
    """What the compiler makes of a text; `file` is how its faults name it. What it imports is read from below this
    folder, that of the file where it is not given, by `reader`."""
    report = Report(file, text)
    program = tree = None
    try:
        sources = Sources(folder or Path(file).parent, report, reader)
        tree = sources.read(text)
        program = tree and program_of(tree, sources, report)
    except RecursionError:
        report.error(At(1, 1), "the text has brackets in brackets too deep to be read")
    if program and not report.errors and len(shown(program.file())) > MOST_BYTES:
        size = len(shown(program.file()))
        report.error(At(1, 1), f"the program file has {size} bytes: {MOST_BYTES} are allowed")
    return Read(program, report, tree)


def compiled(text: str, file: str = "program.lf", folder: Optional[Path] = None) -> Compiled:
    """The program of a text; `file` is how its faults name it. What it imports is read from below this folder, that of
    the file where it is not given."""
    program, report, _ = read(text, file, folder)
    if program and not report.errors:
        return Compiled(program.file(), program.names(), report)
    return Compiled(None, None, report)
