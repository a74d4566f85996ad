"""Which texts need version 4 of program files: for arrays, loops, operators on bits, and the tag."""

from __future__ import annotations

import dataclasses
from collections.abc import Iterable, Iterator

from . import tree
from .faults import Report
from .model import LATER, Instance, Program
from .scope import ON_BITS, ON_WHOLE
from .sources import Sources
from .tree import At
from .values import OF_FOUR

# What other versions have other words for.
FOR_OTHERS = {"min", "max", "abs", "muldiv"}
Need = tuple[At, str]


def may_need_later(sources: Sources) -> bool:
    """Whether something in a text may need version 4: of what is worked out when it is compiled, and of what nothing names,
    that is not known yet. A program of too much for version 2 tells so later."""
    return bool(sources.resumed) or any(it.may_need_later for it in sources.files)


def tell_needs(file: tree.File, sources: Sources, program: Program, report: Report) -> None:
    """Tells what a text has that the version which it says has not."""
    if program.is_later or not program.is_stated or not may_need_later(sources):
        return
    resumed = ((at, "`history` to a mode with timers or actions") for at in sources.resumed)
    for at, what in (*resumed, *_needs_of(file, sources)):
        tell_need(at, what, program, report)


def tell_need(at: At, what: str, program: Program, report: Report) -> None:
    hint = f"write `version: {LATER}`, or leave it out"
    report.error_once(at, "version", f"{what}: a program file of version {program.version} has none", hint)


def _needs_of(file: tree.File, sources: Sources) -> Iterator[Need]:
    for it in file.constants:
        yield from _sized(it.type)
    for it in file.types:
        if isinstance(it, tree.Struct):
            for field in it.fields:
                yield from _sized(field.type)
    for it in file.functions:
        yield from _needs(it.body or ())
    for each in sources.files:
        for reactor in each.reactors:
            for parameter in reactor.parameters:
                yield from _sized(parameter.type)
            for member in reactor.members:
                yield from _member(member)


def _sized(it: tree.Name | None) -> Iterator[Need]:
    if type(it) is tree.Sized:
        yield it.at, "an array"


def _member(it: tree.Part) -> Iterator[Need]:
    kind = type(it)
    if kind is tree.Reaction or kind is tree.Function:
        yield from _needs(it.body or ())
    elif kind is tree.Mode:
        for each in it.members:
            yield from _member(each)
    elif kind is not tree.Connection:
        if kind is tree.State:
            yield from _sized(it.type)
            if it.is_hidden:
                yield it.name.at, "`@hidden`"
        if it.called:
            yield it.at if kind is tree.Ports else it.name.at, "`@called`"


def _needs(it: object) -> Iterator[Need]:
    """The parts of a body that may need version 4."""
    kind = type(it)
    if kind is tuple:
        for each in it:
            yield from _needs(each)
        return
    if kind is tree.Reference or kind is tree.Number or kind is tree.Name or not dataclasses.is_dataclass(it):
        return
    if kind is tree.While or kind is tree.Loop and it.most is not None:
        yield it.at, "a loop whose turns are not known beforehand"
    elif kind is tree.Binary or kind is tree.Unary or kind is tree.Assign:
        if it.operator in ON_BITS:
            yield it.name.at if kind is tree.Assign else it.at, f"`{it.operator}`"
    elif kind is tree.Call:
        if it.name.text in ON_WHOLE:
            yield it.name.at, f"`{it.name.text}`"
    elif kind is tree.Member:
        if it.place.owner is not None and it.place.owner.text == "lf":
            yield it.at, f"`{it.place}`"
    for each in vars(it).values():
        if type(each) is tuple or dataclasses.is_dataclass(each):
            yield from _needs(each)


def needs_later(program: Program, also: Iterable[str] = ()) -> bool:
    """Whether a program file has what no version before 4 has; `also` has words that count too."""
    words = OF_FOUR - FOR_OTHERS | {*also}
    return any(
        it.reactor.get("arrays") or _is_labelled(it)
        or any(_has(each.get("body", ()), words) for each in it.reactor.get("reactions", ()))
        for it in program.instances.values())


def _is_labelled(it: Instance) -> bool:
    """Whether the text says how something is told of."""
    members = it.of.tree.members
    return it.is_called or any(getattr(each, "called", "") or getattr(each, "is_hidden", False) for each in members)


def _has(it: Iterable, words: set[str]) -> bool:
    """Whether statements or an expression have one of these words."""
    return any(
        isinstance(each, list) and (bool(each) and isinstance(each[0], str) and each[0] in words or _has(each, words))
        for each in it)
