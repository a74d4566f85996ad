"""What is told of a program: its fingerprint, and its inputs and outputs by their names."""

from __future__ import annotations

import json
import re
import subprocess
import sys
from collections.abc import Sequence
from pathlib import Path
from typing import NamedTuple

from ..built import Fails
from ..replies import Names

BUILT_IN = "builtin:twice"


class Stopped(Exception):
    """Nothing is recast: why, line by line."""


class Port(NamedTuple):
    """An input or an output: the name by which `warpd` tells it, and the one that the file has, REACTOR.NAME. They differ where a
    program of version 4 calls it otherwise."""

    told: str
    filed: str


class Subject(NamedTuple):
    """A program. `file` is what `warpd` is given, which of a text is what was compiled."""

    file: str
    version: int
    fingerprint: str
    origins: int
    inputs: Sequence[Port]
    outputs: Sequence[Port]

    @classmethod
    def of(cls, command: Sequence[str], given: str, made: Path) -> Subject:
        """Of a program file, or of a text, which is compiled to the file `made`. What is refused is a `Stopped`, what cannot be read an
        OSError."""
        file = _compiled(Path(given), made) if given.endswith(".lf") else given
        data = b"{}" if file == BUILT_IN else Path(file).read_bytes()
        words = [*command, "check", "--fingerprint", "--names", file]
        ran = subprocess.run(words, stdin=subprocess.DEVNULL, capture_output=True, text=True, errors="replace", check=False)
        if ran.returncode == 3:
            raise Stopped(f"{given}: {': '.join(ran.stderr.splitlines())}")
        fingerprint = re.search(r"^fingerprint ([0-9a-f]{64})$", ran.stdout, re.M)
        if ran.returncode or not fingerprint:
            raise Fails(f"{command[0]} check {given} ended with status {ran.returncode}: {ran.stderr.strip()}")
        told = ran.stdout.splitlines()[-1]
        names, head, filed = Names.of(told), json.loads(told), json.loads(data)
        inputs = _ports([name for _, name in names.inputs], [it[1] for it in filed.get("inputs", ())])
        return cls(file, head["form"], fingerprint[1], head["origins"], inputs, _ports(names.outputs, filed.get("outputs", ())))


def _ports(told: Sequence[str], filed: Sequence[str]) -> list[Port]:
    return [Port(*it) for it in zip(told, filed if len(filed) == len(told) else told)]


def _compiled(text: Path, made: Path) -> str:
    from ..language import compiled
    from ..language.files import shown

    it = compiled(text.read_text(encoding="utf-8-sig"), str(text))
    print(it.report, end="", file=sys.stderr)
    if it.program is None:
        raise Stopped(f"{text}: it has a fault")
    made.write_text(shown(it.program), encoding="utf-8")
    return str(made)
