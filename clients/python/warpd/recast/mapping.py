"""Which input or output of the old program is which of the new one, and what each record becomes."""

from __future__ import annotations

from collections import Counter
from collections.abc import Sequence
from typing import NamedTuple, Optional

from .subject import Port, Subject

# When two are the same: where both names are, else by the name that is told, and where one program alone calls it otherwise by that of
# the file.
SAME = (
    lambda old, new: old == new, lambda old, new: old.told == new.told,
    lambda old, new: old.told == new.filed, lambda old, new: old.filed == new.told,
)
KINDS = "inputs", "outputs"


class WrongWords(Exception):
    """What `--rename` says does not fit the programs: why."""


class Gone(Exception):
    """The new program has no such record: why."""


def place(ports: Sequence[Port], name: str) -> Optional[int]:
    """The number of the one that is told so, or else has this name in the file; None where there is none, or more than one."""
    for names in ([it.told for it in ports], [it.filed for it in ports]):
        if names.count(name) == 1:
            return names.index(name)
    return None


def matched(old: Sequence[Port], new: Sequence[Port], renamed: dict[int, int]) -> dict[int, int]:
    """The number in the new program for each number in the old one that is there too. No two lead to one, and what a rename names
    goes before."""
    found = dict(renamed)
    for same in SAME:
        left, free = {*range(len(old))} - {*found}, {*range(len(new))} - {*found.values()}
        pairs = [(number, at) for number in left for at in free if same(old[number], new[at])]
        once = Counter(number for number, _ in pairs), Counter(at for _, at in pairs)
        found.update((number, at) for number, at in pairs if once[0][number] == once[1][at] == 1)
    return found


class Mapping(NamedTuple):
    """Both programs, and which number of the new one each number of the old one is."""

    old: Subject
    new: Subject
    inputs: dict[int, int]
    outputs: dict[int, int]

    @classmethod
    def of(cls, old: Subject, new: Subject, renames: Sequence[str]) -> Mapping:
        """What the words of `--rename` say is a `WrongWords` where it does not fit."""
        renamed: dict[str, dict[int, int]] = {kind: {} for kind in KINDS}
        for text in renames:
            kind, number, at = _renamed(text, old, new)
            if number in renamed[kind] or at in renamed[kind].values():
                raise WrongWords(f"--rename {text}: one of them was renamed already")
            renamed[kind][number] = at
        return cls(old, new, *(matched(getattr(old, it), getattr(new, it), renamed[it]) for it in KINDS))

    def line(self, line: str) -> str:
        """The record's line under the new program; a `Gone` where there is none."""
        word, origin, *rest = line.split(" ")
        if origin == "*":
            if self.new.version < 4:
                raise Gone("of all origins together, which version 4 alone has")
        elif int(origin) >= self.new.origins:
            raise Gone(f"of origin {origin}, which NEW has not")
        if word != "event":
            return line
        time, micro, number, value = rest
        if int(number) not in self.inputs:
            raise Gone(f"of input {self.old.inputs[int(number)].told}, for which NEW has none")
        return f"event {origin} {time} {micro} {self.inputs[int(number)]} {value}"

    def told(self) -> list[str]:
        """A line for each input and output that has another number or name, or that one program alone has."""
        lines = []
        for kind in KINDS:
            old, new, found = getattr(self.old, kind), getattr(self.new, kind), getattr(self, kind)
            word = kind[:-1]
            for number, it in enumerate(old):
                at = found.get(number)
                if at is None:
                    lines.append(f"{word} {number} {it.told}: NEW has it not")
                elif (number, it.told) != (at, new[at].told):
                    lines.append(f"{word} {number} {it.told} is {word} {at} {new[at].told} of NEW")
            lines += [f"{word} {at} {it.told}: OLD has it not" for at, it in enumerate(new) if at not in found.values()]
        return lines


def _renamed(text: str, old: Subject, new: Subject) -> tuple[str, int, int]:
    """What `A=B` says: the kind, and the two numbers. Names of version 4 may have an equals sign in them."""
    known = ""
    for at in (at for at, sign in enumerate(text) if sign == "="):
        for kind in KINDS:
            number, other = place(getattr(old, kind), text[:at]), place(getattr(new, kind), text[at + 1:])
            if number is not None and other is not None:
                return kind, number, other
            known = known or (kind[:-1] if number is not None else "")
    if "=" not in text:
        raise WrongWords(f"--rename {text}: it is A=B")
    name, _, other = text.partition("=")
    raise WrongWords(f"--rename {text}: " + (f"NEW has no {known} `{other}`" if known else f"OLD has no input or output `{name}`"))
