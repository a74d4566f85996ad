"""The end of a program: its last tag is microstep 0 of its stop, or the one behind a `request_stop`.

A program file executes each microstep of its stop. So what would come behind its first is not scheduled, and a reaction
that something delayed may trigger there does nothing. `shutdown` is a timer, or where it cannot be one an input to
which a reactor `end` sends."""

from __future__ import annotations

from collections.abc import Callable, Iterable

from . import tree
from .faults import Report
from .instances import MOST, MOST_LATER
from .model import Instance, Link, Port, Program, joined
from .reactors import checked, declared
from .scope import Kind
from .values import lists_of

SHUTDOWN, ENDED, REQUEST = "shutdown", "ended", "request_stop"


def changed(statements: Iterable[list], change: Callable[[list], list]) -> list:
    """The statements with what each of them, that is no `if`, becomes."""
    return [
        [*it[:len(it) - len(inner)], *(changed(each, change) for each in inner)] if (inner := lists_of(it)) else change(it)
        for it in statements
    ]


def has(statements: Iterable[list], test: Callable[[list], bool]) -> bool:
    return any(
        any(has(each, test) for each in inner) if (inner := lists_of(it)) else test(it) for it in statements
    )


class Ending:
    """Writes the end into the reactors of a program, whose reactions are written."""

    def __init__(self, program: Program, report: Report):
        self.program, self.report = program, report
        self.instances = list(program.instances.values())
        self.asking = [it for it in self.instances if any(has(each.get("body", ()), _asks) for each in _reactions(it))]
        self.delayed = {it.target for it in program.links if it.delay is not None}
        self.at_once = {it.target for it in program.links if it.delay == 0}
        self.given = {it.port for it in program.inputs}
        self.names: dict[str, str] = {}

    def write(self) -> None:
        late = {it.name: [each for each in _reactions(it) if self._is_late(it, each)] for it in self.instances}
        concerned = [it for it in self.instances if late[it.name] or self._listens(it) or self._cuts(it)]
        timers = sum(len(it.reactor.get("timers", ())) for it in self.instances)
        most = (MOST_LATER if self.program.is_later else MOST)["timers"]
        is_sent = self.asking or concerned and timers + len(concerned) > most
        for it in concerned:
            self._take(it, is_sent)
            self._cut(it)
            self._guard(it, late[it.name])
        if is_sent:
            self._end(concerned)

    # What an instance has to do with the end.

    def _listens(self, it: Instance) -> bool:
        is_own = it.of.scope.kinds.get(SHUTDOWN) is Kind.SHUTDOWN
        return is_own and any(SHUTDOWN in each["on"] + each.get("reads", []) for each in _reactions(it))

    def _is_late(self, it: Instance, reaction: dict) -> bool:
        """Whether a reaction may be triggered behind the end by what is not put there."""
        ports = [Port(it.name, name) for name in reaction["on"]]
        if not self.asking:
            return self.program.is_exact and any(port in self.at_once for port in ports)
        actions = {name for name, _ in it.reactor.get("actions", ())}
        timers = {name for name, *_ in it.reactor.get("timers", ())}
        return any(port in self.delayed or port in self.given or port.name in actions | timers for port in ports)

    def _cuts(self, it: Instance) -> bool:
        """Whether it may schedule something for a later microstep of the stop."""
        return not self.asking and self.program.is_exact and any(self._is_cut(it, each) for each in _reactions(it))

    def _is_cut(self, it: Instance, reaction: dict) -> bool:
        return self._may_run_at_stop(it, reaction) and has(reaction.get("body", ()), lambda each: _is_next(it, each))

    def _may_run_at_stop(self, it: Instance, reaction: dict) -> bool:
        stop, timers = self.program.stop, {name: times for name, *times in it.reactor.get("timers", ())}

        def may(name: str) -> bool:
            if name == "startup":
                return stop == 0
            if name not in timers:
                return True
            offset, period = timers[name]
            return offset == stop or offset < stop and period > 0 and (stop - offset) % period == 0

        return any(map(may, reaction["on"]))

    # What is written.

    def _name(self, it: Instance, name: str) -> str:
        """A name that the reactor has not."""
        taken = {*it.of.scope.kinds, *(each for key in ("vars", "arrays", "inputs", "outputs") for each in _names(it, key))}
        while name in taken and it.of.scope.kinds.get(name) is not Kind.SHUTDOWN:
            name += "_"
        return name

    def _take(self, it: Instance, is_sent: bool) -> None:
        """Gives an instance the trigger at the end."""
        self.names[it.name] = name = self._name(it, SHUTDOWN)
        kind, entry = ("inputs", name) if is_sent else ("timers", [name, self.program.stop, 0])
        _add(it.reactor, kind, entry)

    def _cut(self, it: Instance) -> None:
        if self.asking or not self.program.is_exact:
            return
        name = self.names[it.name]

        def cut(each: list) -> list:
            return ["if", ["present", name], [], [each]] if _is_next(it, each) else each

        for reaction in _reactions(it):
            if self._is_cut(it, reaction):
                reaction["body"] = changed(reaction["body"], cut)
                if name not in reaction["on"]:
                    _add(reaction, "reads", name, ("on", "reads", "writes", "body"))

    def _guard(self, it: Instance, late: list[dict]) -> None:
        """Keeps that the end was, and lets these reactions do nothing behind it."""
        if not late:
            return
        ended = self._name(it, ENDED)
        _add(it.reactor, "vars", [ended, 0])
        it.kept += 1
        for reaction in late:
            if reaction.get("body"):
                reaction["body"] = [["if", ended, [], reaction["body"]]]
        _add(it.reactor, "reactions", {"on": [self.names[it.name]], "body": [["set", ended, 1]]})

    def _end(self, concerned: list[Instance]) -> None:
        """Adds the reactor that sends the end to all that it concerns, and hears who asks for it."""
        name, at = joined(["end"], self.program.instances), self.program.at
        nothing = tree.Reactor(tree.Name("end", at), False, (), (), at)
        of = checked(declared(nothing, self.program, self.report), self.report)
        asked = [f"asked_{number}" for number in range(1, len(self.asking) + 1)]
        body = [["put", SHUTDOWN, 1]]
        if asked:
            body = [["if", ENDED, [], [["set", ENDED, 1], *body]]]
        reactor = {
            "name": name, "vars": [[ENDED, 0]] if asked else [], "inputs": asked, "outputs": [SHUTDOWN],
            "timers": [["stop", self.program.stop, 0]],
            "reactions": [{"on": ["stop", *asked], "writes": [SHUTDOWN], "body": body}],
        }
        written = {key: value for key, value in reactor.items() if value}
        end = Instance(name, of, {}, at, name, written, is_added=True)
        self.program.instances[name] = end
        for number, it in enumerate(self.asking):
            self.program.links.append(Link(self._request(it), Port(name, asked[number]), 0, it.at))
        for it in concerned:
            self.program.links.append(Link(Port(name, SHUTDOWN), Port(it.name, self.names[it.name]), None, it.at))

    def _request(self, it: Instance) -> Port:
        """The output of an instance by which it asks for the end."""
        name = self._name(it, REQUEST)
        _add(it.reactor, "outputs", name)
        for reaction in _reactions(it):
            if has(reaction.get("body", ()), _asks):
                reaction["body"] = changed(reaction["body"], lambda each: ["put", name, 1] if _asks(each) else each)
                _add(reaction, "writes", name, ("on", "reads", "writes", "body"))
        return Port(it.name, name)


REACTOR = ("name", "vars", "arrays", "inputs", "outputs", "actions", "timers", "reactions")


def _add(to: dict, key: str, entry, order: tuple[str, ...] = REACTOR) -> None:
    """Adds an entry to a list, and keeps the order of keys."""
    lists = {**to, key: [*to.get(key, ()), entry]}
    to.clear()
    to.update({each: lists[each] for each in order if each in lists})


def _reactions(it: Instance) -> list[dict]:
    return it.reactor.get("reactions", [])


def _names(it: Instance, key: str) -> list[str]:
    return [each if isinstance(each, str) else each[0] for each in it.reactor.get(key, ())]


def _asks(statement: list) -> bool:
    return statement[0] == "stop"


def _is_next(it: Instance, statement: list) -> bool:
    """Whether a statement schedules something for the next microstep."""
    return statement[0] == "schedule" and dict(it.reactor["actions"])[statement[1]] + statement[2] == 0
