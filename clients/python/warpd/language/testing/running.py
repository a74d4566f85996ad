"""Programs run by the built `warpd`: what a replica answers after records in some order, and the rows of a run."""

from __future__ import annotations

import json
import subprocess
import tempfile
import threading
from collections.abc import Iterable, Sequence
from pathlib import Path
from typing import NamedTuple, Union

from ... import Client, Ended, Refused, Tag
from ...built import Fails
from ..files import shown
from .plan import ASK, Arrival, Given
from .subject import Subject

# A replica that has not answered so long is ended.
SECONDS = 60


class Answers(NamedTuple):
    """What a replica says of its records: all variables, all outputs (tag, number and value), and how much was lost."""

    variables: tuple[int, ...]
    outputs: tuple[tuple[Tag, int, int], ...]
    lost: int


class Row(NamedTuple):
    """The variables behind a tag of the run, and what it put."""

    tag: Tag
    variables: tuple[int, ...]


class Replica(Client):
    """A process of its own. `said` has, when it is closed, what stood on its standard error."""

    said = ""

    @classmethod
    def begun(cls, command: Sequence[str], program: Path) -> Replica:
        self = cls.__new__(cls)
        self._address, self._said = None, tempfile.TemporaryFile()
        words = [*command, "run", program]
        self._child = subprocess.Popen(words, stdin=subprocess.PIPE, stdout=subprocess.PIPE, stderr=self._said)
        self._begin(self._child.stdout, self._child.stdin)
        self._timer = threading.Timer(SECONDS, self._child.kill)
        self._timer.daemon = True
        self._timer.start()
        return self

    def close(self) -> None:
        super().close()
        self._timer.cancel()
        if not self._said.closed:
            self._said.seek(0)
            self.said = self._said.read().decode(errors="replace").strip()
            self._said.close()


class World:
    """Replicas of one program."""

    def __init__(self, command: Sequence[str], subject: Subject):
        self.command, self.subject = list(command), subject
        self.folder = tempfile.TemporaryDirectory(prefix="warpd-test-")
        self.file = Path(self.folder.name, "program.json")
        self.file.write_text(shown(subject.file))

    def close(self) -> None:
        self.folder.cleanup()

    def __enter__(self) -> World:
        return self

    def __exit__(self, *_: object) -> None:
        self.close()

    def begun(self) -> Session:
        return Session(self)

    def answers(self, arrival: Arrival) -> Answers:
        """What a new replica says behind all that comes."""
        with self.begun() as session:
            session.take(arrival)
            return session.answers()

    def rows(self, records: Iterable[Given]) -> list[Row]:
        """The rows of the run, with all variables behind each."""
        lines = "".join(f"{it.record}\n" for it in records).encode()
        words = [*self.command, "trace", self.file]
        try:
            ran = subprocess.run(words, input=lines, capture_output=True, check=False, timeout=SECONDS)
        except (OSError, subprocess.TimeoutExpired) as error:
            raise Fails(f"{words[0]} trace: {error}") from error
        if ran.returncode:
            raise Fails(f"{words[0]} trace: {ran.stderr.decode(errors='replace').strip()}")
        found, values = [Row(Tag(-1), tuple(self.subject.starts))], list(self.subject.starts)
        places = {self.subject.told[name]: place for place, name in enumerate(self.subject.variables)}
        for line in ran.stdout.decode().splitlines():
            row = json.loads(line)
            for name, value in row["changed"].items():
                if name in places:
                    values[places[name]] = value
            found.append(Row(Tag(*row["tag"]), tuple(values)))
        return found


class Session:
    """One replica: records come to it, and it is asked."""

    def __init__(self, world: World):
        self.world = world
        try:
            self.replica = Replica.begun(world.command, world.file)
        except OSError as error:
            raise Fails(f"{world.command[0]}: {error.strerror}") from error

    def __enter__(self) -> Session:
        return self

    def __exit__(self, *_: object) -> None:
        self.replica.close()

    def take(self, arrival: Arrival) -> None:
        self._said("outputs" if it is ASK else str(it.record) for it in arrival)

    def answers(self) -> Answers:
        count, lost = (it.count for it in self._said(["outputs", "lost"]))
        outputs = self._said(f"output {it}" for it in range(count))
        variables = self._said(f"var {it}" for it in self.world.subject.variables.values())
        try:
            put = tuple((it.tag, it.port, it.value) for it in outputs)
            return Answers(tuple(it.value for it in variables), put, lost)
        except AttributeError:
            raise Fails("the replica said there are more outputs than it has") from None

    def _said(self, lines: Iterable[str]) -> list:
        try:
            replies: list[Union[Refused, object]] = self.replica.many(lines)
        except Ended as error:
            raise Fails(f"{self.world.command[0]}: {self.replica.said or error}") from error
        for it in replies:
            if isinstance(it, Refused):
                raise Fails(str(it))
        return replies
