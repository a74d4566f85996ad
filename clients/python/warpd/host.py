"""What a server tells of its program. A host has the word `program`, which tells the fingerprint. `warpd serve` answers
`refused 1` to it, and then only what can be seen of its program is known."""

from __future__ import annotations

import re
from typing import NamedTuple, Optional

from . import Client, reply_of
from .replies import SHOWN, cut, no_reply

# A stream's first entry, which is no record.
HEAD = re.compile(r"warpd 1 (version [12]\+? origins \d+ variables \d+) program (?:unknown|(\d+-[0-9a-f]{64}))", re.ASCII)


class Program(NamedTuple):
    """A program as a server shows it: its shape in words, and its version and fingerprint with a dash between, where the
    server knows the word."""

    shape: str
    fingerprint: Optional[str]

    @classmethod
    def of(cls, client: Client) -> Program:
        """Asks; what is refused for another reason than that it knows no such word is a `Refused`, and what is no reply an `Ended`."""
        answer = client.say("program")
        if answer.startswith("refused ") and answer != "refused 1":
            raise reply_of(answer, "program")
        if not answer.startswith(("program ", "refused ")) or len(answer) > SHOWN:
            raise no_reply("program", f": {cut(answer)}")
        fingerprint = "-".join(answer.split()[1:]) if answer.startswith("program ") else None
        return cls(str(client.shape()), fingerprint)

    @classmethod
    def read(cls, head: str) -> Optional[Program]:
        """That of a stream's first entry; none where it is no such text."""
        found = HEAD.fullmatch(head)
        return cls(*found.groups()) if found else None

    def head(self) -> str:
        return f"warpd 1 {self.shape} program {self.fingerprint or 'unknown'}"

    def fits(self, other: Program) -> bool:
        """Whether both may be one program: their shapes are the same, and their fingerprints, if both are known."""
        known = {self.fingerprint, other.fingerprint} - {None}
        return self.shape == other.shape and len(known) < 2

    def __str__(self) -> str:
        version, _, digits = (self.fingerprint or "").partition("-")
        if not digits:
            return f"{self.shape}, fingerprint {self.fingerprint or 'unknown'}"
        # The host tells its version, where the shape only tells the first from the others.
        _, _, *rest = self.shape.split(" ")
        return " ".join(["version", version, *rest]) + f", fingerprint {digits}"
