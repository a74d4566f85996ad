"""The state of a feed in a file: where it was, so that it goes on there after its end. A file that is lost, old or
torn does no harm: a feed that knows nothing reads the stream from its start."""

from __future__ import annotations

import json
import os
import time
from collections.abc import Callable
from dataclasses import asdict
from pathlib import Path

# A file is written no more often, in seconds.
EVERY = 0.25
KINDS = {"position": str, "length": int, "digest": str, "head": (str, type(None)), "pending": list}


class State:
    """A file for the feed of one server and one stream; that of another pair counts as none."""

    def __init__(self, path: Path, server: str, stream: str, tell: Callable[[str], None]):
        self._path, self._tell = path, tell
        self._whose = {"server": server, "stream": stream}
        self._saved: object = None
        self._when, self._failed = 0.0, False

    def load(self) -> dict:
        """The fields of the mark that was saved, or none of them."""
        try:
            it = json.loads(self._path.read_text())
            mark = it["mark"]
            is_mark = it["whose"] == self._whose and {*mark} == {*KINDS}
            is_mark = is_mark and all(isinstance(mark[key], kind) for key, kind in KINDS.items())
        except FileNotFoundError:
            return {}
        except (OSError, ValueError, KeyError, TypeError):
            is_mark = False
        if is_mark:
            return mark
        self._tell(f"{self._path} has no state of this feed: the stream is read from its start")
        return {}

    def save(self, mark: object, at_once: bool = False) -> None:
        """Writes the file where it is due. The old one is there until the new one is whole."""
        now = time.monotonic()
        if mark == self._saved or not at_once and now - self._when < EVERY:
            return
        fresh = self._path.with_name(self._path.name + ".new")
        try:
            fresh.write_text(json.dumps({"whose": self._whose, "mark": asdict(mark)}))
            os.replace(fresh, self._path)
            self._saved, self._failed = mark, False
        except OSError as error:
            if not self._failed:
                self._tell(f"the state cannot be saved: {error}")
            self._failed = True
        self._when = now
