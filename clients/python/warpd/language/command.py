"""`warpd-compile`: a text to a program file, or a program file to a text."""

from __future__ import annotations

import argparse
import json
import sys
from collections.abc import Callable, Sequence
from pathlib import Path
from typing import Optional

from . import compiled, read, text_of
from .files import shown, shown_names

ABOUT = "Compiles a program's text to a program file."
USAGE = """warpd-compile FILE.lf [-o FILE.json]
       warpd-compile --test FILE.lf [TESTS ..]
       warpd-compile --format [--check] FILE.lf ..
       warpd-compile --watch FILE.lf [-o FILE.json]
       warpd-compile --picture FILE.lf [-o FILE.svg]
       warpd-compile --back FILE.json [-o FILE.lf]
       warpd-compile --lsp"""
NOTES = """Without -o the result goes to standard output. With -o FILE.json the names of its numbers go
to FILE.names.json beside it, which a client reads. Faults and warnings go to standard error. The status is 1
where there is a fault, 2 where the command line is wrong, and 4 where a file cannot be read or written."""


def main(words: Optional[Sequence[str]] = None) -> int:
    words = list(sys.argv[1:] if words is None else words)
    for word, tool in TOOLS.items():
        if word in words:
            words.remove(word)
            return tool()(words)
    parser = argparse.ArgumentParser(prog="warpd-compile", usage=USAGE, description=ABOUT, epilog=NOTES)
    source = "the text, FILE.lf; with --back the program file"
    parser.add_argument("file", metavar="FILE", nargs="?", type=Path, help=source)
    parser.add_argument("-o", dest="to", metavar="FILE", type=Path, help="where the result goes")
    parser.add_argument("--test", action="store_true", help="run the tests of a text (--test --help)")
    layout = "lay texts out in one way, each in its place; with --check only say which (--format --help)"
    parser.add_argument("--format", action="store_true", help=layout)
    parser.add_argument("--watch", action="store_true", help="compile again at each change, until the input ends")
    parser.add_argument("--picture", action="store_true", help="draw the structure of the text, as SVG")
    parser.add_argument("--back", action="store_true", help="write the text of a program file")
    parser.add_argument("--lsp", action="store_true", help="answer an editor over standard streams")
    given = parser.parse_args(words)
    if sum((given.back, given.watch, given.picture, given.lsp)) > 1:
        parser.error("one of --back, --watch, --picture and --lsp goes at a time")
    if given.lsp:
        from .server import serve
        return serve(sys.stdin.buffer, sys.stdout.buffer)
    if not given.file:
        parser.error("the following arguments are required: FILE")
    if given.to and any(it.resolve() == given.file.resolve() for it in results(given)):
        parser.error(f"-o {given.to} would take the place of {given.file}")
    try:
        if given.watch:
            from .watching import watch
            return watch(given.file, given.to, sys.stdin, sys.stdout)
        text = given.file.read_text(encoding="utf-8-sig")
        if given.picture:
            return drawn(text, given)
        return back(text, given) if given.back else forth(text, given)
    except OSError as error:
        print(f"warpd-compile: {error.filename or given.file}: {error.strerror}", file=sys.stderr)
    except UnicodeDecodeError:
        print(f"warpd-compile: {given.file}: this is no text in UTF-8", file=sys.stderr)
    return 4


def _tests() -> Callable[[Sequence[str]], int]:
    from .testing.command import main as tool

    return tool


def _formats() -> Callable[[Sequence[str]], int]:
    from .formatting.command import main as tool

    return tool


# What else is done with texts: each word has words and a help of its own.
TOOLS = {"--test": _tests, "--format": _formats}


def results(given: argparse.Namespace) -> list[Path]:
    """The files that are written."""
    return [given.to] if given.back or given.picture else [given.to, names_of(given.to)]


def names_of(program: Path) -> Path:
    """Where the names of its numbers go."""
    return program.with_suffix(".names.json")


def forth(text: str, given: argparse.Namespace) -> int:
    it = compiled(text, str(given.file))
    print(it.report, end="", file=sys.stderr)
    if it.program is None:
        return 1
    write(shown(it.program), given.to)
    if given.to:
        write(shown_names(it.names), names_of(given.to))
    return 0


def drawn(text: str, given: argparse.Namespace) -> int:
    from .picture import picture_of
    program, report, _ = read(text, str(given.file))
    print(report, end="", file=sys.stderr)
    if report.errors or program is None:
        return 1
    write(picture_of(program, given.file.name), given.to)
    return 0


def back(text: str, given: argparse.Namespace) -> int:
    try:
        made = text_of(json.loads(text))
    except (ValueError, KeyError, TypeError, AttributeError, IndexError, RecursionError):
        print(f"{given.file}: this is no program file: `warpd check` says where", file=sys.stderr)
        return 1
    it = compiled(made, "its text")
    if it.program is None:
        print(f"{given.file}: this program is refused:\n{it.report}", end="", file=sys.stderr)
        return 1
    write(made, given.to)
    return 0


def write(text: str, to: Optional[Path]) -> None:
    if to:
        to.write_text(text, encoding="utf-8")
    else:
        print(text, end="")
