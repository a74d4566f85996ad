"""`python3 -m warpd recast`."""

from __future__ import annotations

import argparse
import sys
import tempfile
from collections.abc import Sequence
from pathlib import Path
from typing import NoReturn, Union

from .. import Client, Ended, Known, Refused, Tag, spelled
from ..built import Fails, found
from ..journals import Journal, Unread, free, put
from .mapping import Mapping, WrongWords
from .running import Comparison, InTheWay, compared, recast, refusal, take
from .subject import Stopped, Subject

EPILOG = """OLD and NEW are program files, or texts (.lf). Each record keeps its origin, tag and value, and has its input's number by
NEW's names, those that `warpd check --numbers` tells. It stops, and lists them, where a record's input or origin is gone, or NEW
refuses one. Then it says at which tag what was released differs first under NEW, or that it does not.
Status 0: done; 1: stopped, nothing was written, standard error says why; 2: wrong words; 4: a file cannot be read or written, or
there is no warpd that runs."""


def parser() -> argparse.ArgumentParser:
    it = argparse.ArgumentParser(
        "python3 -m warpd recast",
        "%(prog)s OLD NEW OLD.journal [-o NEW.journal] [--rename A=B].. [--force] [--warpd PATH]",
        "Brings the records of a journal under a new program, from the beginning.", EPILOG,
        formatter_class=argparse.RawDescriptionHelpFormatter)
    it.add_argument("old", metavar="OLD", help="the program of the journal")
    it.add_argument("new", metavar="NEW", help="the new program")
    it.add_argument("journal", metavar="OLD.journal", type=Path, help="the journal, which stays as it is")
    it.add_argument("-o", dest="to", metavar="NEW.journal", type=Path, help="where the new journal goes; without it none is written")
    it.add_argument("--rename", metavar="A=B", action="append", default=[], help="OLD's input, or output, A is NEW's B")
    it.add_argument("--force", action="store_true", help="write over NEW.journal where it is there")
    it.add_argument("--warpd", metavar="PATH", help="the program `warpd`; else the one on the path, else that of the checkout")
    return it


def tell(text: str) -> None:
    for line in text.splitlines():
        print(f"recast: {spelled(line)}", file=sys.stderr)


def main(words: Sequence[str]) -> int:
    given = parser().parse_args(words)
    if given.to and given.to.exists() and given.journal.exists() and given.to.samefile(given.journal):
        parser().error(f"-o {given.to} would take the place of the old journal")
    try:
        if given.to:
            free(given.to, given.force)
        with tempfile.TemporaryDirectory(prefix="warpd-recast-") as folder:
            return run(given, found(given.warpd), Path(folder))
    except WrongWords as why:
        parser().error(str(why))
    except (Stopped, Unread, Refused) as why:
        tell(f"{given.journal}: {why}" if isinstance(why, Unread) else str(why))
        tell("nothing was written")
        return 1
    except Ended as error:
        tell(f"warpd run ended: {error}")
    except OSError as error:
        tell(": ".join(str(it) for it in (error.filename, error.strerror) if it))
    except UnicodeDecodeError as error:
        tell(f"a file is no text in UTF-8: {error.reason}")
    except Fails as error:
        tell(str(error))
    return 4


def run(given: argparse.Namespace, command: Sequence[str], folder: Path) -> int:
    old = Subject.of(command, given.old, folder / "old.json")
    new = Subject.of(command, given.new, folder / "new.json")
    mapping = Mapping.of(old, new, given.rename)
    journal = Journal.of(command, given.journal)
    if journal.fingerprint != old.fingerprint:
        raise Stopped(f"{given.journal}: that is no journal of OLD: its program's fingerprint is {journal.fingerprint}, "
                      f"that of OLD {old.fingerprint}")
    if journal.ending != "whole":
        tell(f"{given.journal}: {journal.ending}, left out")
    with Client.run(old.file, command) as before, Client.run(new.file, command) as after:
        take(before, ((number, it, it) for number, it in journal.lines()), lambda *it: no_journal(given.journal, old.version, *it))
        in_the_way = InTheWay()
        take(after, recast(journal.lines(), mapping, in_the_way), lambda reply, *it: in_the_way.add(refusal(reply, new.version), *it))
        if in_the_way:
            raise Stopped(str(in_the_way))
        comparison = compared(before, after, mapping)
    if given.to:
        put(given.to, given.force, new.version, new.fingerprint, (mapping.line(it) for _, it in journal.lines()))
    print(*mapping.told(), f"records {journal.records}", *outcome(comparison), sep="\n")
    return 0


def no_journal(path: Path, version: int, reply: Union[Known, Refused], number: int, line: str) -> NoReturn:
    raise Stopped(f"{path}: line {number}: {line}: OLD does not take it ({refusal(reply, version)}), so no host wrote that")


def spelled_tag(tag: Tag) -> str:
    return f"({tag.time}, {tag.micro})"


def outcome(it: Comparison) -> list[str]:
    """What is printed of the outputs."""
    horizon, other = spelled_tag(it.horizon), spelled_tag(it.horizon_of_new)
    lines = [f"horizon {horizon}" + (f", under NEW {other}" if other != horizon else "")]
    if it.at is None:
        return [*lines, f"released outputs do not differ: {it.count} before {horizon}"]
    old, new = (", ".join(f"{name} {value}" for name, value in row) or "nothing" for row in (it.old, it.new))
    return [*lines, f"released outputs differ first at {spelled_tag(it.at)}", f"OLD {old}", f"NEW {new}"]
