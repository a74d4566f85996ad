"""What a program says that is right, and that its writer may not have meant."""

from __future__ import annotations

import re
from collections.abc import Callable, Iterator, Sequence
from math import prod
from typing import Optional

from .faults import Report, channels_told, listed, port_of
from .model import Class, Instance, Port, Program
from .pending import warn_of_lost
from .scope import Kind
from .tree import Action, At, Block, Call, Expression, If, Invoke, Leave, Loop, Name, Number, Reference, State, Statement, Unary, While


def warn(program: Program, report: Report) -> None:
    for it in program.unused:
        report.warning(it.tree.at, f"no instance of {it.name}")
    for one in {id(it.of): it.of for it in program.instances.values() if not it.is_added}.values():
        ClassWarnings(program, report, one).warn()
    warn_of_lost(program, report)
    owned = {it.origin for it in program.inputs}
    lacking = [str(it) for it in range(program.origins) if owned and it not in owned]
    if lacking[1:]:
        text = f"origins {listed(lacking)} have no inputs: they hold the horizon at (0, 0)"
        report.warning(program.at, f"{text} until somebody announces for them")
    elif lacking:
        text = f"origin {lacking[0]} has no inputs: it holds the horizon at (0, 0)"
        report.warning(program.at, f"{text} until somebody announces for it")


def _twice(body: Sequence[Statement], known: set[str], actions: set[str]) -> Iterator[tuple[str, At]]:
    """The actions of these that are scheduled where they surely were for the same tag, and where. `known` takes what surely was."""
    for it in body:
        match it:
            case Invoke(Call(Name("schedule"), (Reference(name), delay, *_)) as call) if name in actions:
                key = f"{name} {_without_places(delay)}"
                if key in known:
                    yield name, call.at
                known.add(key)
            case Block():
                yield from _twice(it.statements, known, actions)
            case If():
                ways = [(branch, {*known}) for branch in (it.yes, it.no)]
                for branch, inside in ways:
                    yield from _twice(branch, inside, actions)
                # What leaves a branch is not behind it.
                left = [inside for branch, inside in ways if not (branch and isinstance(branch[-1], Leave))]
                known |= set.intersection(*left) if left else set()
            case Loop() | While():
                inside, found = {*known}, []
                for _ in range(1 if any(isinstance(each, Leave) for each in it.body) else 2):
                    # A delay that the turn's number is part of is another one in the next turn.
                    inside = {key for key in inside if isinstance(it, While) or f"'{it.first.name.text}'" not in key}
                    found = [*_twice(it.body, inside, actions)]
                yield from found


def _without_places(it: object) -> str:
    """An expression as it is written, wherever it stands."""
    return re.sub(r"At\([^()]*\)", "", repr(it))


class ClassWarnings:
    """Warnings of one reactor of the text: at itself where they hold for all its instances, else at each of these."""

    def __init__(self, program: Program, report: Report, one: Class):
        self.program, self.report, self.one = program, report, one
        self.instances = [it for it in program.instances.values() if it.of is one]
        self.used = {it.source for it in program.links} | {it.port for it in program.outputs}
        self.sources = {it.target for it in program.links} | {it.port for it in program.inputs}

    def warn(self) -> None:
        for state in self.one.tree.every(State):
            if state.name.text not in self.one.scope.read and not state.is_own:
                text = f"`{state.name.text}` is never read by a reaction"
                self.report.warning(state.name.at, text, "it can be asked for from outside by its name")
        self._cells()
        for names in self._multiports():
            self._outputs(names)
        actions = {it.name.text for it in self.one.tree.every(Action) if not it.is_own}
        for check in self.one.reactions:
            for name, at in _twice(check.reaction.body or (), set(), actions):
                text = f"`{name}` is scheduled for the same tag again: the last value counts, and the others are lost"
                self.report.warning(at, text, "let its reaction schedule the next one")
        for number, check in enumerate(self.one.reactions):
            at = check.reaction.at
            never = "nothing comes to what triggers it"
            self._each(
                lambda it, number=number: not self._runs(it, number), at, f"this reaction never runs: {never}",
                lambda it, at=at: f"the reaction at {self.report.place(at)} never runs in `{it.title}`: {never}",
            )

    def _cells(self) -> None:
        """Warns of a number or a constant in brackets, where no instance has such a cell."""
        for place, indices in self.one.scope.numbered:
            owner, name = place.owner, place.name.text
            array = self.one.scope.fields.get(owner.text, {}).get(name) if owner else name
            every = {it.sides.get(array) for it in self.instances}
            if None in every or len(place.owner_indices) + len(place.indices) != len(indices):
                continue
            within = [(prod(sides),) if len(indices) == 1 else sides for sides in every]
            for number, index in enumerate(indices):
                value = self._number(index)
                if value is not None and not any(0 <= value < sides[number] for sides in within):
                    most = max(sides[number] for sides in within)
                    what = "cells" if len(indices) == 1 else "columns" if number else "lines"
                    text = f"`{(owner or place.name).text}` has {most} {what}, from 0: there is none with the index {value}"
                    self.report.warning(index.at, text, "0 is read there, and nothing is written")

    def _number(self, it: Expression) -> Optional[int]:
        """The value of a number or a constant of the text; None where it is something else."""
        if isinstance(it, Unary) and it.operator == "-":
            value = self._number(it.part)
            return None if value is None else -value
        if isinstance(it, Number):
            return int(it.text)
        is_constant = isinstance(it, Reference) and self.one.scope.kinds.get(it.name) is Kind.CONSTANT
        value = self.program.constants.get(it.name) if is_constant else None
        return value if isinstance(value, int) else None

    def _multiports(self) -> list[list[Name]]:
        """The outputs, those of one multiport together."""
        found: dict[tuple[str, At], list[Name]] = {}
        for it in self.one.ports(False):
            found.setdefault((port_of(it.text), it.at), []).append(it)
        return list(found.values())

    def _outputs(self, names: Sequence[Name]) -> None:
        """Warns of an output that leads nowhere: of those of its channels that do, where it is a multiport."""
        def unused(it: Instance) -> tuple[str, ...]:
            return tuple(each.text for each in names if Port(it.name, it.of.file_name(each.text)) not in self.used)

        found = {it.name: unused(it) for it in self.instances}
        for some in dict.fromkeys(it for it in found.values() if it):
            told, hint = channels_told(some, len(names))
            self._each(
                lambda it, some=some: found[it.name] == some, names[0].at, f"`{told}` leads nowhere",
                lambda it, told=told: f"`{it.title}.{told}` leads nowhere", hint,
            )

    def _each(
        self, holds: Callable[[Instance], bool], at: At, text: str, told: Callable[[Instance], str], hint: str = ""
    ) -> None:
        found = [it for it in self.instances if holds(it)]
        if len(found) == len(self.instances):
            self.report.warning(at, text, hint)
        else:
            banks = {it.at: [each for each in found if each.at == it.at] for it in found}
            for place, (first, *rest) in banks.items():
                more = f"so it is with {len(rest)} more of its bank" if rest else ""
                self.report.warning(place, told(first), "; ".join(it for it in (hint, more) if it))

    def _runs(self, it: Instance, number: int) -> bool:
        return any(self._comes(it, name) for name in it.of.reactions[number].lists["on"])

    def _comes(self, it: Instance, name: str) -> bool:
        kind = self.one.scope.kinds[name]
        if kind is Kind.INPUT:
            return Port(it.name, it.of.file_name(name)) in self.sources
        if kind is Kind.ACTION:
            return any(name in check.effects for check in self.one.reactions)
        offsets = {timer: offset for timer, offset, _ in it.reactor.get("timers", ())}
        return kind in (Kind.STARTUP, Kind.SHUTDOWN) or offsets[name] <= self.program.stop
