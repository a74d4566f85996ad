"""What the names of tests mean, in each spelling that the runner of tests takes: `bed[3].x`, `bed_3.x`, `a_b.x` of
`a.b.x`, `p_x` of a struct's `p.x`, `main.n`, and a name alone that one thing has."""

from __future__ import annotations

import re
from collections.abc import Iterator
from typing import TYPE_CHECKING, NamedTuple, Optional

from .names import Symbol, Use

if TYPE_CHECKING:
    from .resolving import Program

NAMED = ("instance", "state", "input", "output")
# So many parts of a flattened name are told apart.
DEEPEST = 16


class Part(NamedTuple):
    """What some letters of a word mean: from this place in it on, up to another."""

    symbol: Symbol
    first: int
    last: int


def parts_of(program: Program, use: Use) -> list[Part]:
    """The parts of a name of a test, whose owner is found before; none where it means nothing that has a name."""
    name, home = use.text, program.main
    if use.owner:
        owner = program.symbol(use.owner)
        found = program.part(owner, name)
        home = owner if owner and owner is program.main else owner and program.of_instance(owner)
    else:
        found = program.value(home, name)
    if found:
        return [Part(found, 0, len(name))]
    parts = next(_flattened(program, home, name, 0), [])
    return parts or ([] if use.owner or use.has_member else _alone(program, name))


def is_main(program: Program, use: Use) -> bool:
    """Whether a name of a test stands for main, whose members are behind it."""
    own = program.main.name if program.main else ""
    return use.has_member and use.text in ("main", own[:1].lower() + own[1:])


def _flattened(program: Program, home: Optional[Symbol], text: str, first: int, depth: int = 0) -> Iterator[list[Part]]:
    """Each way to read letters as a path from a reactor, whose names are joined by `_`, longer names first."""
    members = {it.name: it for base in program.bases(home) for it in base.members.values() if it.kind in NAMED}
    for name in sorted(members, key=len, reverse=True) if depth < DEEPEST else ():
        it, rest = members[name], text[len(name):]
        if not name or not text.startswith(name):
            continue
        index = re.match(r"_\d+(?=_|$)", rest) if it.is_bank else None
        rest = rest[index.end():] if index else rest
        part = Part(it, first, first + len(name))
        if not rest:
            yield [part]
        elif rest.startswith("_"):
            begins = first + len(text) - len(rest) + 1
            yield from ([part, *more] for more in _inner(program, it, rest[1:], begins, depth))


def _inner(program: Program, it: Symbol, text: str, first: int, depth: int) -> Iterator[list[Part]]:
    """What letters mean in an instance, or in a variable that is a struct."""
    if it.kind == "instance":
        yield from _flattened(program, program.of_instance(it), text, first, depth + 1)
    struct = program.struct(it) if it.kind == "state" else None
    field = struct and struct.members.get(text)
    if field:
        yield [Part(field, first, first + len(text))]


def _alone(program: Program, name: str) -> list[Part]:
    """What a name alone means: the one variable or port of all instances that has it."""
    waiting, seen, found = [program.main], set(), {}
    while waiting:
        home = waiting.pop()
        if home is None or id(home) in seen:
            continue
        seen.add(id(home))
        members = [it for base in program.bases(home) for it in base.members.values()]
        waiting += [program.of_instance(it) for it in members if it.kind == "instance"]
        parts = next((its for its in _flattened(program, home, name, 0) if its[0].symbol.kind != "instance"), [])
        if parts:
            found[tuple(id(it.symbol) for it in parts)] = parts
    return next(iter(found.values())) if len(found) == 1 else []
