"""Journals of hosts as files (docs/reference/journal.md): which records one has, and how a fresh one is written."""

from __future__ import annotations

import fcntl
import hashlib
import os
import re
import stat
import subprocess
import tempfile
import time
from collections.abc import Iterable, Iterator, Sequence
from pathlib import Path
from typing import BinaryIO, NamedTuple

# A sum stands behind each so many records, and at the end.
EACH = 1_024
# What `warpd journal check` prints.
CHECKED = re.compile(r"version (\d+)\nfingerprint ([0-9a-f]{64})\nrecords (\d+)\n(.+)\n")


class Unread(Exception):
    """A file is no journal that can be read: why."""


class Journal(NamedTuple):
    """What a journal has: of which program it is, how many records it has, and what stands behind them (`whole`, or what a start of a
    host would cut off)."""

    path: Path
    version: int
    fingerprint: str
    records: int
    ending: str

    @classmethod
    def of(cls, command: Sequence[str], path: Path) -> Journal:
        """As `warpd journal check` tells it, of either form. A file that is damaged or no journal is an `Unread`, one that cannot be read
        an OSError."""
        ran = subprocess.run([*command, "journal", "check", path], stdin=subprocess.DEVNULL, capture_output=True, check=False)
        found = CHECKED.fullmatch(ran.stdout.decode(errors="replace"))
        said = ran.stdout.decode(errors="replace").strip().rpartition("\n")[2]
        why = ran.stderr.decode(errors="replace").partition("\n")[0].removeprefix(f"journal {path}: ")
        if ran.returncode == 4:
            raise OSError(0, why, str(path))
        if ran.returncode or not found:
            raise Unread(said or why)
        return cls(path, int(found[1]), found[2], int(found[3]), found[4])

    def lines(self) -> Iterator[tuple[int, str]]:
        """Its records, each with the number of its line. A host that runs may write more meanwhile: those are left out."""
        left = self.records
        with self.path.open("rb") as file:
            for number, line in enumerate(file, 1):
                if not left:
                    break
                if number > 1 and not line.startswith(b"= "):
                    left -= 1
                    yield number, line.decode("ascii", "replace").rstrip("\n")
        if left:
            raise Unread("it was changed while it was read")


def write(file: BinaryIO, version: int, fingerprint: str, records: Iterable[str]) -> None:
    """Writes a journal of form 2 of this program, with these records. Its sums tell this second."""
    digest, count, second = hashlib.sha256(), 0, int(time.time())

    def add(text: str) -> None:
        line = f"{text}\n".encode("ascii")
        digest.update(line)
        file.write(line)

    add(f"warpd journal 2 {version} {fingerprint}")
    for count, record in enumerate(records, 1):
        add(record)
        if count % EACH == 0:
            add(f"= {count} {digest.hexdigest()} {second}")
    if count % EACH:
        add(f"= {count} {digest.hexdigest()} {second}")


def free(path: Path, force: bool) -> None:
    """Where a journal may not be written since something is there, an OSError says so."""
    path.parent.stat()
    try:
        mode = path.lstat().st_mode
    except FileNotFoundError:
        return
    if not force:
        raise FileExistsError(0, "it is there; --force writes over it", str(path))
    if not stat.S_ISREG(mode):
        raise FileExistsError(0, "it is no regular file", str(path))


def put(path: Path, force: bool, version: int, fingerprint: str, records: Iterable[str]) -> None:
    """Writes a journal to a fresh file, for its owner alone, which has this name only when all of it is on the disk."""
    made, name = tempfile.mkstemp(prefix=f"{path.name}.", suffix=".fresh", dir=path.parent)
    try:
        with open(made, "wb") as file:
            write(file, version, fingerprint, records)
            file.flush()
            os.fsync(file.fileno())
        _take_place(Path(name), path, force)
    except BaseException:
        Path(name).unlink(missing_ok=True)
        raise
    folder = os.open(path.parent, os.O_RDONLY)
    try:
        os.fsync(folder)
    finally:
        os.close(folder)


def _take_place(fresh: Path, path: Path, force: bool) -> None:
    """Gives a file this name, which nobody took meanwhile, or takes it from a file that no host has: that holds its lock."""
    held = os.open(path, os.O_RDWR | os.O_CREAT | os.O_NOFOLLOW | (0 if force else os.O_EXCL), 0o600)
    try:
        fcntl.flock(held, fcntl.LOCK_EX | fcntl.LOCK_NB)
        fresh.replace(path)
    except BlockingIOError:
        raise FileExistsError(0, "another process has it", str(path)) from None
    finally:
        os.close(held)
