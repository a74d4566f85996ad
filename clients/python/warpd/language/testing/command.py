"""`warpd-compile --test FILE.lf [TESTS..]`: runs the tests of a program."""

from __future__ import annotations

import argparse
import sys
from collections.abc import Sequence
from pathlib import Path

from ...built import Fails, found
from .judging import Judge, Options, Outcome
from .plan import Test
from .reading import Reading, read
from .running import World
from .telling import failure, junit, line

NOTES = """A test stands in the text, or in a file beside it:

  test "a push that comes late counts" in every order {
    door.push = 1 at 27;
    door.push = 1 at 8;
    expect door.found == 2;
  }

Where no TESTS are given, FILE.test.lf beside FILE.lf is read too, if it is there. Each test is a line; the last one
is 'N passed, M failed'. The status is 0 where none failed; 1 where one did, or the text has a fault; 2 where the
command line is wrong; 4 where a file cannot be read or written, or warpd cannot be run."""


def main(words: Sequence[str]) -> int:
    given = _parser().parse_args(words)
    try:
        return run(given)
    except OSError as error:
        print(f"warpd-compile: {error.filename}: {error.strerror}", file=sys.stderr)
    except UnicodeDecodeError as error:
        print(f"warpd-compile: a file is no text in UTF-8: {error.reason}", file=sys.stderr)
    except Fails as error:
        print(f"warpd-compile: {error}", file=sys.stderr)
    return 4


def _parser() -> argparse.ArgumentParser:
    shape = argparse.RawDescriptionHelpFormatter
    parser = argparse.ArgumentParser(
        prog="warpd-compile --test", description="Runs the tests of a program.", epilog=NOTES, formatter_class=shape)
    add = parser.add_argument
    add("file", metavar="FILE.lf", type=Path, help="the text of the program")
    add("tests", metavar="TESTS", type=Path, nargs="*", help="files with tests")
    add("--only", metavar="NAME", help="run the tests whose name has this in it")
    add("--seed", metavar="N", type=int, default=1, help="what is drawn follows from this number (1)")
    add("--runs", metavar="N", type=_count, default=100, help="how often a test that draws is run (100)")
    add("--junit", metavar="FILE", type=Path, help="write the outcome as JUnit XML")
    add("--warpd", metavar="PATH", help="the program `warpd`; else the one on the path, else that of the checkout")
    return parser


def _count(text: str) -> int:
    if not text.isdecimal() or not 1 <= int(text) <= 1_000_000:
        raise argparse.ArgumentTypeError(f"{text!r} is no number from 1 to 1000000")
    return int(text)


def run(given: argparse.Namespace) -> int:
    its = read_files(given.file, given.tests)
    if its.report.errors or its.subject is None:
        print(its.report, end="", file=sys.stderr)
        return 1
    tests = [it for it in its.tests if given.only is None or given.only in it.name]
    if not tests:
        what = f"no test has `{given.only}` in its name" if given.only and its.tests else "there are no tests"
        print(f"warpd-compile: {given.file}: {what}", file=sys.stderr)
        print("0 passed, 0 failed")
        return 1
    with World(found(given.warpd), its.subject) as world:
        outcomes = [_judged(it, Judge(world, Options(given.seed, given.runs)), its) for it in tests]
    if given.junit:
        given.junit.write_text(junit(outcomes, its.report), encoding="utf-8")
    failed = sum(bool(it.failures) for it in outcomes)
    print(f"{len(outcomes) - failed} passed, {failed} failed")
    return 1 if failed else 0


def _judged(test: Test, judge: Judge, its: Reading) -> Outcome:
    """Runs one test, and prints what came of it."""
    outcome = judge.judged(test)
    print(line(outcome), flush=True)
    for it in outcome.failures:
        print(failure(it, its.report), flush=True)
    return outcome


def read_files(file: Path, tests: Sequence[Path] = ()) -> Reading:
    """The program of a file with its tests, and those of these files, or where there are none of FILE.test.lf."""
    beside = file.with_suffix(".test.lf")
    more = [*tests] or [beside] * (file.suffix == ".lf" and beside.exists())
    texts = [(str(it), it.read_text(encoding="utf-8-sig")) for it in more]
    return read(file.read_text(encoding="utf-8-sig"), str(file), more=texts)
