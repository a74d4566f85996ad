"""`warpd-compile --format FILE.lf..`: lays texts out in one way."""

from __future__ import annotations

import argparse
import sys
from collections.abc import Sequence
from pathlib import Path

from . import formatted

NOTES = """Members and statements are indented by two and end with a semicolon, operators have a blank around them, and
there is at most one empty line. Lines break where the writer breaks them, and where they have more than 120 columns.
Comments and the program stay the same. The status is 0; 1 where a text has a fault, or with --check would be changed; 2
where the command line is wrong; 4 where a file cannot be read or written."""


def main(words: Sequence[str]) -> int:
    about = "Lays texts out in one way, and writes each in its place."
    parser = argparse.ArgumentParser(prog="warpd-compile --format", description=about, epilog=NOTES)
    parser.add_argument("files", metavar="FILE.lf", nargs="+", help="texts; `-` is standard input, to standard output")
    parser.add_argument("--check", action="store_true", help="write nothing, and say which texts would be changed")
    parser.add_argument("-o", dest="to", metavar="FILE", help=argparse.SUPPRESS)
    given = parser.parse_args(words)
    if given.to:
        parser.error("a text is written in its place: `--format - < FILE.lf` writes to standard output")
    return max(_file(name, given.check) for name in given.files)


def _file(name: str, is_check: bool) -> int:
    try:
        text = sys.stdin.read() if name == "-" else Path(name).read_text(encoding="utf-8-sig")
        made, report = formatted(text, "standard input" if name == "-" else name)
        print(report, end="", file=sys.stderr)
        if made is None:
            return 1
        if name == "-" and not is_check:
            print(made, end="")
        elif made != text and is_check:
            print(f"{name} would be changed")
            return 1
        elif made != text:
            Path(name).write_text(made, encoding="utf-8")
        return 0
    except OSError as error:
        print(f"warpd-compile: {name}: {error.strerror}", file=sys.stderr)
    except UnicodeDecodeError:
        print(f"warpd-compile: {name}: this is no text in UTF-8", file=sys.stderr)
    return 4
