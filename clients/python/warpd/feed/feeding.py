"""Keeps one server and one stream equal: what the stream has is put to the server, and what its log has is appended to
the stream.

Records may come twice and in any order, so a feed only has to leave nothing out:

- The position in the stream is marked when the server has answered for all texts before it, and the log was read
  behind them. After any lost connection, and after a kill where the mark is saved, a feed goes on from its last mark.
- A mark has a digest of the log. A server whose log has another beginning is another one, and is fed from the stream's
  start.
- A record of the log is *pending* until it was read in the stream, whoever appended it. What is pending when the
  stream was read to its end is appended, again if need be. So nothing rests on an append that was answered, and a lost
  tail is filled again.
- What was heard of a server stays pending when the server is lost, and while the stream is away the server is heard
  on: so a record that only a killed server had, and its feed had heard, is appended all the same, and fed back."""

from __future__ import annotations

import hashlib
import re
import time
from collections.abc import Callable, Iterable, Sequence
from dataclasses import dataclass, field
from itertools import islice
from typing import Optional

from .. import Refused, spelled
from ..host import Program
from .servers import Server
from .state import State
from .streams import START, Lost, Stream, Unreachable

FOR_NOW = (8, 10, 14)
DEAD = (1, 2, 3, 4, 5, 6, 9)
# Behind a version 3 log's base: whoever needs it has it.
PASSED = (12,)
FULL, NOT_ALLOWED = 7, 13
WORDS = {FULL: "its log is full", NOT_ALLOWED: "the token does not allow this record's origin"}
SHORTEST, LONGEST = 0.05, 5.0
# So many records are appended before the stream is read again: other feeds may have appended the rest.
PIECE = 1_000
MOST_BYTES = 128
# So many texts are taken from the stream before they are put to the server.
MOST_TEXTS = 100_000
RECORD = re.compile(r"(?:event|withdraw|announce) \d+ (\d+) (\d+)(?: -?\d+)*", re.ASCII)
LETTER = 200


class Stopped(Exception):
    """The feed cannot go on; the text says why, and at which server."""


@dataclass
class Mark:
    """What was read of the stream up to `position` is in the first `length` records of the log, whose lines have this
    digest. They are all in the stream, up to `position`, but for those that are pending, of which a server that was lost
    may have been the last to have some. `head` is the stream's first entry."""

    position: str = START
    length: int = 0
    digest: str = field(default_factory=lambda: hashlib.sha256().hexdigest())
    head: Optional[str] = None
    pending: Sequence[str] = ()


class Feed:
    """`run` feeds until it is interrupted, or raises `Stopped` or `Unusable`. `tell` is called with a line for an
    operator, `ready` once, when the server has what the stream had, and `watch` in each turn."""

    def __init__(
        self, server: tuple[str, int], stream: Stream, dead: Stream, state: Optional[State] = None,
        token: Optional[str] = None, tell: Callable[[str], None] = print, ready: Callable[[], None] = lambda: None,
        watch: Callable[[], None] = lambda: None, pause: float = 0.01, timeout: float = 60.0,
    ):
        self.server, self.name = server, "{}:{}".format(*server)
        self._stream, self._dead, self._state, self._token = stream, dead, state, token
        self._tell, self._ready, self._watch, self._pause, self._timeout = tell, ready, watch, pause, timeout
        self._client: Optional[Server] = None
        self._buried: Optional[set[str]] = None
        self._mark = Mark(**state.load()) if state else Mark()
        self._begin(self._mark, ())

    def run(self) -> None:
        wait, again, troubles = SHORTEST, 0.0, _Troubles(self._tell)
        while True:
            self._watch()
            try:
                if time.monotonic() < again:
                    self._listen()
                    continue
                moved = self.turn()
                wait = SHORTEST
                troubles.over()
                if not moved:
                    self._client.rest(self._pause)
                continue
            except Unreachable as fault:
                troubles.met("the stream", fault)
                again, wait = time.monotonic() + wait, min(2 * wait, LONGEST)
                continue
            except OSError as fault:
                self._leave()
                troubles.met(f"the server {self.name}", fault)
            except Refused as refused:
                self._stop_unless_passing(refused)
                troubles.met(f"the server {self.name}", refused)
            time.sleep(wait)
            wait = min(2 * wait, LONGEST)

    def _listen(self) -> None:
        """Hears what the server takes while the stream is not there: it is appended then, even if the server is not
        there any more."""
        if not self._client:
            self._meet()
        self._follow()
        self._client.rest(self._pause)

    def turn(self) -> int:
        """One round of both ways; says how much it moved."""
        if not self._client:
            self._meet()
        is_last, moved = self._take()
        moved += self._follow(self._due)
        self._mark = Mark(self._position, len(self._log), self._digest.hexdigest(), self._head, list(self._pending))
        if self._state:
            self._state.save(self._mark)
        if not is_last:
            return moved + 1
        if self._head:
            self._ready()
            self._ready = lambda: None
        return moved + self._append()

    def close(self) -> None:
        if self._state:
            self._state.save(self._mark, at_once=True)
        self._leave()
        self._stream.close()
        self._dead.close()

    def _leave(self) -> None:
        if self._client:
            self._client.close()
        self._client = None

    def _begin(self, mark: Mark, log: Iterable[str]) -> None:
        """Takes up what was marked, with the lines of the log of which the mark speaks."""
        self._position, self._head = mark.position, mark.head
        self._log, self._digest = set(), hashlib.sha256()
        for line in log:
            self._note(line)
        self._pending = dict.fromkeys(mark.pending)
        # Put to the server, and not yet read in its log; and the place up to which the log has all of it.
        self._ahead: set[str] = set()
        self._due = 0

    def _note(self, line: str) -> None:
        self._log.add(line)
        self._digest.update(line.encode() + b"\n")

    def _meet(self) -> None:
        """Connects to the server, and sees whether it is the one that was marked."""
        server, heard = self._connected(), self._pending
        try:
            self._program = server.shown
            # What was heard, and the stream lacks, may be here alone; of another program it means nothing.
            is_meant = self._fits(self._mark.head)
            lines = list(server.new_lines(server.length()))
            known = lines[:self._mark.length]
            self._begin(self._mark, known)
            if len(known) < self._mark.length or self._digest.hexdigest() != self._mark.digest:
                self._tell(f"the server {self.name} has another log than before: it is fed from the start of the stream")
                self._mark, known = Mark(pending=list(heard) if is_meant else ()), []
                self._begin(self._mark, known)
            self._compare()
            self._hear(lines[len(known):])
            self._pending.update(heard if is_meant else ())
        except BaseException:
            server.close()
            self._pending = heard
            raise
        self._client = server

    def _connected(self) -> Server:
        try:
            server = Server(self.server, self._token, self._timeout)
        except Refused as refused:
            if refused.number != NOT_ALLOWED:
                raise
            why = "does not take the token" if self._token else "wants a token, in a file for --token-file"
            raise Stopped(f"the server {self.name} {why} (refused {NOT_ALLOWED})") from refused
        if not server.knows_tokens:
            self._tell(f"the server {self.name} knows no tokens: it is asked without one")
        return server

    def _compare(self) -> None:
        if not self._fits(self._head):
            program = Program.read(self._head)
            raise Stopped(f"the stream is of another program than the server {self.name}: "
                          f"it has {program or shown(self._head)}; {self.name} has {self._program}")

    def _fits(self, head: Optional[str]) -> bool:
        program = Program.read(head) if head else self._program
        return bool(program and program.fits(self._program))

    def _take(self) -> tuple[bool, int]:
        """Puts the next texts of the stream to the server; says whether they were the last, and how many were new
        here."""
        texts, position, is_last = [], self._position, False
        try:
            while not is_last and len(texts) < MOST_TEXTS:
                some, position, is_last = self._stream.read_from(position)
                texts += some
        except Lost:
            self._tell("the stream lost what it had: it is read from the start, and filled with what it lacks")
            self._position, self._head, self._pending = START, None, dict.fromkeys([*self._pending, *self._log])
            return False, 0
        fresh: dict[str, None] = {}
        for text in texts:
            if Program.read(text):
                if _tells_more(text, self._head):
                    self._head = text
                    self._compare()
                continue
            self._pending.pop(text, None)
            if text not in self._log:
                fresh[text] = None
        try:
            self._put(fresh)
        except Stopped:
            if is_last:
                self._leave_nothing()
            raise
        self._position = position
        return is_last, len(fresh)

    def _put(self, texts: Iterable[str]) -> None:
        """Puts texts to the server until it answered for each; in the order of tags, since a server executes rows
        behind a late record again."""
        lines = sorted((text for text in texts if self._is_record(text)), key=_tag)
        wait = SHORTEST
        while lines:
            again = []
            for line, reply in zip(lines, self._client.many(lines)):
                if not isinstance(reply, Refused):
                    self._ahead.add(line)
                    self._due = max(self._due, reply.place)
                elif reply.number in FOR_NOW:
                    again.append(line)
                elif reply.number in DEAD:
                    self._bury(line, reply.number)
                elif reply.number not in PASSED:
                    self._stop_unless_passing(reply)
            lines = again
            if lines:
                time.sleep(wait)
                wait = min(2 * wait, LONGEST)

    def _is_record(self, text: str) -> bool:
        """Whether it may be said to the server: a stream may have anything, and queries are lines too."""
        if len(text.encode()) > MOST_BYTES:
            self._bury(text, 9)
        elif not RECORD.fullmatch(text):
            self._bury(text, 1)
        else:
            return True
        return False

    def _bury(self, text: str, number: int) -> None:
        """Puts a text that no server will take to the dead letters with the reason, and tells it, where it is not
        there yet."""
        if self._buried is None:
            self._buried = _all_texts(self._dead)
        letter = f"refused {number} {text[:LETTER]}"
        if letter not in self._buried:
            self._dead.append([letter])
            self._buried.add(letter)
            self._tell(f"a dead letter: {Refused(number, shown(text))}")

    def _stop_unless_passing(self, refused: Refused) -> None:
        if refused.number not in FOR_NOW:
            why = WORDS.get(refused.number, refused.meaning)
            raise Stopped(f"the server {self.name} refuses {refused.line!r}: {why} (refused {refused.number})")

    def _follow(self, place: int = 0) -> int:
        """Reads what is new in the log, up to this place at least; says how much did not come from the stream."""
        before = len(self._pending)
        self._hear(self._client.new_lines(place))
        return len(self._pending) - before

    def _hear(self, lines: Iterable[str]) -> None:
        for line in lines:
            self._note(line)
            if line in self._ahead:
                self._ahead.remove(line)
            else:
                self._pending[line] = None

    def _append(self) -> int:
        """Appends what the stream lacks, once its first entry is there; the next turn reads it back."""
        head = self._program.head()
        texts = [head] if _tells_more(head, self._head) else list(islice(self._pending, PIECE))
        if texts:
            self._stream.append(texts)
        return len(texts)

    def _leave_nothing(self) -> None:
        """Appends all that the stream lacks: what a full server took is not to end with its feed."""
        self._follow(self._client.length())
        while self._pending:
            for text in (texts := list(islice(self._pending, PIECE))):
                del self._pending[text]
            self._stream.append(texts)


def shown(text: str) -> str:
    """A text as it may be told: what is no letter, sign or space is spelled, and only its beginning stands there."""
    it = spelled(text[:LETTER + 1])
    return it if len(it) <= LETTER else it[:LETTER] + ".."


class _Troubles:
    """Tells of a trouble that lasts a second, once, and of its end."""

    def __init__(self, tell: Callable[[str], None]):
        self._tell = tell
        self._since: dict[str, float] = {}
        self._told: set[str] = set()

    def met(self, what: str, fault: Exception) -> None:
        now = time.monotonic()
        if now - self._since.setdefault(what, now) >= 1 and what not in self._told:
            self._told.add(what)
            self._tell(f"{what} cannot be had, and is asked again and again: {shown(str(fault))}")

    def over(self) -> None:
        for what in self._told:
            self._tell(f"{what} is there again")
        self._told.clear()
        self._since.clear()


def _tells_more(head: str, known: Optional[str]) -> bool:
    """Whether this first entry counts in the place of the known one: there is none, or that was of a server that tells
    no fingerprint, and this has one."""
    if known is None:
        return True
    old, new = Program.read(known), Program.read(head)
    return bool(old and new and new.fingerprint and not old.fingerprint)


def _tag(line: str) -> tuple[int, int]:
    time_, micro = RECORD.fullmatch(line).groups()
    return int(time_), int(micro)


def _all_texts(stream: Stream) -> set[str]:
    texts, position, is_last = set(), START, False
    while not is_last:
        try:
            some, position, is_last = stream.read_from(position)
            texts.update(some)
        except Lost:
            position = START
    return texts
