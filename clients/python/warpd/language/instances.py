"""Each instance written out as a reactor of the program file; and what a program has too much of."""

from __future__ import annotations

from collections import ChainMap, Counter
from collections.abc import Collection, Mapping
from dataclasses import replace
from typing import Optional, Union

from . import tree
from .arrays import MOST_ARRAYS, MOST_CELLS
from .faults import Report, listed
from .lowering import Echo
from .model import Instance, Program, joined, ranged
from .needs import tell_need
from .scope import Kind, count_of, is_name
from .statements import MOST_TURNS, Body, TooMany
from .tree import At
from .types import INT, Array, Struct, Type
from .values import Cells, depth, depth_of_list, schedules, work

MOST_DEPTH, MOST_SCHEDULES = 24, 16
MOST = {
    "reactors": 64, "variables": 256, "ports": 256, "reactions": 256, "actions": 64, "timers": 16,
    "connections": 256, "program inputs": 64, "program outputs": 64, "arrays": 0,
}
# The same in version 4.
MOST_LATER = {
    "reactors": 256, "variables": 1_024, "ports": 1_024, "reactions": 1_024, "actions": 256, "timers": 64,
    "connections": 1_024, "program inputs": 256, "program outputs": 256, "arrays": MOST_ARRAYS,
}
# How much work all reactions may be together in version 4, and one loop's turns.
MOST_WORK, MOST_TURNS_OF_ONE = 2_000_000, 65_536
PARTS = {
    "variables": ("vars",), "arrays": ("arrays",), "ports": ("inputs", "outputs"), "reactions": ("reactions",), "actions": ("actions",),
    "timers": ("timers",),
}


class Writer:
    """Writes one instance out."""

    def __init__(self, it: Instance, program: Program, report: Report):
        self.it, self.program, self.report = it, program, report
        self.kept: list[str] = []
        self.echoes: dict[str, Echo] = {}
        # The arrays of its state, and the constant ones whose cells are asked for by an index that is worked out.
        self.cells: dict[str, Cells] = {}
        self.asked: dict[str, Cells] = {}
        self.constants: dict[str, Union[int, Cells]] = {}

    def frame(self) -> None:
        """Writes all but the bodies."""
        it, every = self.it, self.it.of.tree.every
        self.constants = self._constants()
        states = [start for each in every(tree.State) for start in self._starts(each)]
        lists = {
            "vars": [start for start in states if len(start) == 2],
            "arrays": [start for start in states if len(start) == 3],
            "inputs": list(map(it.of.file_name, it.of.names(True))),
            "outputs": list(map(it.of.file_name, it.of.names(False))),
            "actions": [[it.of.file_name(each.name.text), *self._times(each, "the delay")] for each in every(tree.Action)],
            "timers": [[each.name.text, *self._times(each, "the offset", "the period")] for each in every(tree.Timer)],
            "reactions": [self._header(each) for each in every(tree.Reaction)],
        }
        it.reactor = {"name": it.name, **{key: value for key, value in lists.items() if value}}

    def bodies(self) -> None:
        """Writes the bodies, and the variables that they take."""
        it = self.it
        self._echo()
        for reaction, written in zip(it.of.tree.every(tree.Reaction), it.reactor.get("reactions", ())):
            body = self._body(reaction)
            written.update({"body": body} if body else {})
        own = [name for echo in self.echoes.values() for name in echo] + self.kept
        it.kept = len(own)
        it.sides = {name: cells.sides for name, cells in {**self.cells, **self.asked}.items()}
        if own or self.asked:
            variables = it.reactor.get("vars", []) + [[name, 0] for name in own]
            tables = [[name, cells.count, [*cells.values]] for name, cells in self.asked.items()]
            lists = {"vars": variables, "arrays": it.reactor.get("arrays", []) + tables}
            rest = {key: value for key, value in it.reactor.items() if key not in ("name", *lists)}
            it.reactor = {"name": it.name, **{key: value for key, value in lists.items() if value}, **rest}

    def _echo(self) -> None:
        """Names the variables of the outputs that are read: only version 4 tells at which tag something was put."""
        scope, taken = self.it.of.scope, ChainMap({}, self.it.of.given, self.it.of.scope.kinds)
        for name, at in scope.read_outputs.items():
            self.program.needs_later()
            if not self.program.is_later:
                tell_need(at, "an output that is read", self.program, self.report)
            flat = self.it.of.file_name(name)
            self.echoes[name] = echo = Echo(*(joined([flat, part], taken) for part in ("put", "tag")))
            taken.update(dict.fromkeys(echo, Kind.VARIABLE))

    def _starts(self, it: tree.State) -> list[list]:
        """The variables of a state, each with its start; of a struct one for each field. An array has its count too."""
        scope, name = self.it.of.scope, it.name.text
        type = scope.types[name]
        is_array, of = isinstance(type, Array), type.of if isinstance(type, Array) else type
        if not isinstance(of, Struct):
            return [self._array(name, type, it.start) if is_array else [name, self._constant(it.start, type)]]
        given = self._constant(it.start, type) if it.start and not is_array else of.starts
        found = []
        for field, variable in scope.fields[name].items():
            its = scope.types[variable]
            if isinstance(its, Array):
                found.append(self._array(variable, its, None, given[field]))
            else:
                found.append([variable, given[field]])
        return found

    def _array(self, name: str, type: Array, start: Optional[tree.Expression], given: Union[int, tuple] = 0) -> list:
        """An array as the program file has it. `given` is what each begins with where no start stands."""
        it = self.program.started(start, type, self.it.constants, self.it.of.scope, self.it.of.scope.places[name])
        self.cells[name] = cells = Cells(name, it.sides)
        values = given if start is None else it.values
        if isinstance(values, tuple) and start is None:
            # Of an array in each struct of an array: in each the same.
            each = it.sides[-1]
            values = (values + (0,) * (each - len(values))) * (cells.count // each) if it.sides[1:] else values
        return [name, cells.count, values if isinstance(values, int) else [*values]]

    def _constants(self) -> dict[str, Union[int, Cells]]:
        """The constants of the instance, arrays with names that a program file takes and the reactor has not."""
        found, taken = dict(self.it.constants), ChainMap({}, self.it.of.scope.kinds)
        for name, value in found.items():
            if isinstance(value, Cells):
                flat = name if is_name(name) else joined([name.lstrip("_") or "array"], taken)
                taken[flat] = Kind.CONSTANT
                found[name] = replace(value, name=flat)
        return found

    def _constant(self, it: Optional[tree.Expression], wanted: Type = INT) -> int:
        return self.program.lowered(it, self.it.constants, self.it.of.scope, wanted) if it else 0

    def _times(self, member, *meanings: str) -> list[int]:
        """The times in the brackets of an action or a timer, 0 where one is missing."""
        times = [self._time(self._constant(it), it.at, what) for it, what in zip(member.arguments, meanings)]
        return times + [0] * (len(meanings) - len(times))

    def _time(self, value: int, at: At, what: str) -> int:
        return self.program.ranged(self.report, value, "delay", at, what)

    def _variable(self, number: int) -> str:
        """The name of the compiler's variable with this number: one that the reactor has not."""
        while len(self.kept) <= number:
            name = f"kept_{len(self.kept) + 1}"
            while name in self.it.of.scope.kinds:
                name += "_"
            self.kept.append(name)
        return self.kept[number]

    def _header(self, reaction: tree.Reaction) -> dict:
        """A reaction without its body."""
        names = self.it.of.file_name
        lists = {part: [names(place.name.text) for place in getattr(reaction, part)] for part in ("on", "reads", "writes")}
        return {key: value for key, value in lists.items() if value}

    def _body(self, reaction: tree.Reaction) -> list:
        of, scope = self.it.of, self.it.of.scope
        actions = [it.name.text for it in of.tree.every(tree.Action)]
        ports = {name: of.file_name(name) for name in (*of.names(True), *of.names(False), *actions)}
        fields = scope.fields
        if self.cells:
            fields = {name: {field: self.cells.get(it, it) for field, it in its.items()} for name, its in fields.items()}
        names = {**self.constants, **fields, **ports, **self.cells}
        outputs = {ports[name] for name in of.names(False)}
        body = Body(
            names, scope.types, self.program.unit or 1, scope.named, scope.routines, outputs, self.program.bodies,
            self.report, self.program.is_later)
        body.asked, body.echoes = self.asked, self.echoes
        body.echoed = {ports[name]: echo for name, echo in self.echoes.items()}
        statements = []
        try:
            statements = body.made(reaction.body or (), self._variable, reaction.at)
        except TooMany as loop:
            self.program.needs_later()
            self.program.bodies.left = body.left
            self._too_many(loop)
        for at, most in body.mosts:
            ranged(self.report, most, 1, MOST_TURNS_OF_ONE, at, "how many turns a loop has at most")
        for at, value in body.values:
            if depth(value) > MOST_DEPTH:
                text = f"this expression is {depth(value)} deep: {MOST_DEPTH} is allowed"
                self.report.error(at, text, "give a part of it a name by `let`")
        for at, delay in body.delays:
            self._time(delay, at, "the delay")
        self._body_limits(reaction.at, statements)
        return statements

    def _too_many(self, loop: TooMany) -> None:
        if loop.is_free:
            text = "how many turns this loop has at most depends on too many turns of those around it"
            self.report.error(loop.at, text, "say it: `for (..; ..; ..; most 100)`")
        elif self.program.is_later:
            self.report.error(loop.at, f"this loop has more than {MOST_TURNS_OF_ONE} turns", "what goes on is an action")
        else:
            text = f"the loops of this reaction have more than {MOST_TURNS} turns together"
            self.report.error(loop.at, text, "a loop is written out, turn by turn; what goes on is an action")

    def _body_limits(self, at: At, statements: list) -> None:
        deep, wishes = depth_of_list(statements), schedules(statements)
        if deep > MOST_DEPTH:
            text = f"the statements of this reaction are {deep} deep: {MOST_DEPTH} is allowed"
            self.report.error(at, text, "each `if` counts, and so does each `else if` of a row")
        if wishes > MOST_SCHEDULES:
            self.report.error(at, f"this reaction has {wishes} `schedule`: {MOST_SCHEDULES} are allowed")


def check_limits(program: Program, report: Report) -> None:
    """Tells what the whole program has too much of."""
    if not program.instances:
        report.error(program.at, "the program has no reactor", "make an instance in main: `p = new Player();`")
    most = _most(program)
    for what, each in _members(program).items():
        if sum(each.values()) > most[what]:
            program.needs_later()
            _too_many(program, report, what, each)
    for what, places in _lists(program).items():
        if len(places) > most[what]:
            program.needs_later()
            text = f"{len(places)} {what}, {most[what]} are allowed"
            report.error([*places][most[what]].at, text, _later_hint(program, what, len(places)))
    if program.is_later:
        _check_later(program, report)


def _most(program: Program) -> dict[str, int]:
    return MOST_LATER if program.is_later else MOST


def _check_later(program: Program, report: Report) -> None:
    """Tells what the bodies and arrays of a program of version 4 have too much of."""
    total, reached = 0, None
    for it in program.instances.values():
        total += sum(count for _, count, _ in it.reactor.get("arrays", ()))
        if total > MOST_CELLS:
            reached = reached or it
    if reached:
        report.error(reached.at, f"the arrays have {total} cells, {MOST_CELLS} are allowed together")
    works = [
        (work(each.get("body", ())), it, number) for it in program.instances.values()
        for number, each in enumerate(it.reactor.get("reactions", ()))
    ]
    total = sum(it for it, *_ in works)
    if total > MOST_WORK:
        most, it, number = max(works, key=lambda it: it[0])
        checks = it.of.reactions
        at = checks[number].reaction.at if number < len(checks) else it.at
        text = f"all reactions are {total} of work at one tag, {MOST_WORK} are allowed: this one of `{it.title}` {most}"
        report.error(at, text, "each number, name and operator counts, in a loop as often as it may turn: take a smaller `most`")


def has_too_much(program: Program) -> bool:
    """Whether so much is too much that bodies need not be written: of a few variables too many those are told that bodies take."""
    counts = {what: sum(each.values()) for what, each in _members(program).items()}
    counts.update((what, len(places)) for what, places in _lists(program).items())
    most = _most(program)
    if any(count > most[what] for what, count in counts.items()):
        program.needs_later()
    return any(count > most[what] * (4 if what == "variables" else 1) for what, count in counts.items())


def _members(program: Program) -> dict[str, dict[str, int]]:
    """How many of each kind of member each instance has."""
    instances = program.instances.values()
    return {what: {it.name: sum(len(it.reactor.get(part, ())) for part in parts) for it in instances} for what, parts in PARTS.items()}


def _lists(program: Program) -> dict[str, Collection]:
    """What belongs to the whole program, by its kind."""
    return {
        "reactors": program.instances.values(), "connections": program.links, "program inputs": program.inputs,
        "program outputs": program.outputs,
    }


def _too_many(program: Program, report: Report, what: str, each: Mapping[str, int]) -> None:
    """Told at the instance that passes the limit, with what the instances of each reactor have."""
    total, most = 0, _most(program)[what]
    for name, number in each.items():
        total += number
        if total > most:
            break
    parts = []
    shares = Counter(_share(program.instances[it], number, what) for it, number in each.items())
    for (of, number, kept), count in shares.items():
        has = f"{count_of(count, 'instance')} of {of} {'has' if count == 1 else 'have'} {number}{' each' * (count > 1)}"
        parts.append(has + f" ({kept} for what the compiler keeps)" * (kept > 0))
    total = sum(each.values())
    text = f"{total} {what}, {most} are allowed: {listed(parts)}"
    report.error(program.instances[name].at, text, _later_hint(program, what, total))


def _later_hint(program: Program, what: str, count: int) -> str:
    """What to write where version 4 takes so many."""
    return "" if program.is_later or count > MOST_LATER[what] else f"leave `version: {program.version}` out: version 4 has {MOST_LATER[what]}"


def _share(it: Instance, number: int, what: str) -> tuple[str, int, int]:
    return it.of.name, number, it.kept if what == "variables" else 0
