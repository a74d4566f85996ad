"""Modes written as a variable, and each reaction of a mode behind a question for it.

`set_mode` schedules an action `switch` for the next microstep, and the reactor's first reaction there assigns `mode`. A
timer of a mode is an action whose value is the number of the entry at which it was begun: an entry counts up, so that
what was begun before says nothing any more. An action of a mode has a second one beside it, with that number.

A timer that goes on where `history` leads to its mode has a variable too: when it comes next, or outside of its mode how
long that still takes. Its action goes there in steps, since a delay is constant. What waits on an action that goes on stands in
arrays (`waiting`)."""

from __future__ import annotations

import dataclasses
from collections.abc import Iterator
from typing import Optional

from . import tree
from .faults import Report, nearest
from .tree import At
from .tree_parts import Parts
from .waiting import Waiting


def without_modes(it: tree.Reactor, resumed: list[At], report: Report) -> tree.Reactor:
    """A reactor that does the same without modes. `resumed` takes where `history` leads to timers and actions: they ask for the tag."""
    if not it.every(tree.Mode):
        return it
    modes = Modes(it, report)
    resumed += modes.resumed.values()
    return modes.written()


class Modes(Parts):
    """Writes one reactor."""

    def __init__(self, it: tree.Reactor, report: Report):
        self.it, self.report, self.at = it, report, it.every(tree.Mode)[0].name.at
        self.modes = it.every(tree.Mode)
        self.numbers = {mode.name.text: number for number, mode in enumerate(self.modes)}
        self.taken = {text for text in _names(it)}
        self.mode, self.entries, self.switch = (self._free(name) for name in ("mode", "entries", "switch"))
        self.started = {mode.name.text: self._free(f"started_{mode.name.text}") for mode in self.modes}
        # Of a timer of the first mode: the timer that begins it. Of an action: the one that has its entry.
        self.first: dict[str, str] = {}
        self.beside: dict[str, str] = {}
        self.timers: dict[str, tree.Timer] = {}
        self.home: dict[str, tree.Mode] = {}
        # Whether some reaction leads to a mode.
        self.leads = False
        # The modes with timers or actions to which `history` leads, each with where it does; when their timers come next, and what
        # waits on their actions.
        self.resumed: dict[str, At] = {}
        self.due: dict[str, str] = {}
        self.waits: dict[str, Waiting] = {}
        for place in [place for reaction in _reactions(it) for place in reaction.writes if place.transition == "history"]:
            if any(isinstance(each, (tree.Timer, tree.Action)) for each in self._members(place.name.text)):
                self.resumed.setdefault(place.name.text, place.at)

    def _free(self, name: str) -> str:
        while name in self.taken:
            name += "_"
        self.taken.add(name)
        return name

    def _members(self, mode: str) -> tuple[tree.Part, ...]:
        return self.modes[self.numbers[mode]].members if mode in self.numbers else ()

    def written(self) -> tree.Reactor:
        self._check()
        for mode in self.modes:
            self._gather(mode)
        own = [each for each in self.it.members if not isinstance(each, tree.Mode)]
        own = [self._plain(each) if isinstance(each, tree.Reaction) else each for each in own]
        members: list = [*self._variables(), *(each for each in own if not isinstance(each, tree.Reaction))]
        for mode in self.modes:
            kept = [each for each in mode.members if not isinstance(each, (tree.Reaction, tree.Timer))]
            members += [dataclasses.replace(it, is_in_mode=True) if isinstance(it, tree.Action) else it for it in kept]
        members += [tree.Action(self._name(name), (), None, is_own=True) for name in (self.switch, *self.timers)]
        for mode in self.modes:
            begun = [it for it in mode.members if isinstance(it, (tree.Timer, tree.Action))]
            members += [each for it in begun for each in self._beside(it)]
        reactions = [*(self._ticking(name) for name in self.timers if name not in self.due), *(it.taking() for it in self.waits.values())]
        reactions += self._in_order(own)
        if self.leads:
            reactions = [self._switching(), *reactions, *map(self._going, self.due)]
        if self.leads and any(map(self._asks_first, self.modes)):
            reactions.append(self._ending())
        return dataclasses.replace(self.it, members=(*members, *reactions))

    def _in_order(self, own: list) -> Iterator[tree.Reaction]:
        """All reactions in the order of the text."""
        rest = iter([each for each in own if isinstance(each, tree.Reaction)])
        for each in self.it.members:
            if isinstance(each, tree.Reaction):
                yield next(rest)
            elif isinstance(each, tree.Mode):
                yield from (self._reaction(each, it) for it in each.members if isinstance(it, tree.Reaction))

    # What is declared.

    def _check(self) -> None:
        first = [mode for mode in self.modes if mode.is_initial]
        if len(first) != 1:
            at = first[1].name.at if first else self.at
            text = "there is an initial mode already" if first else "no mode is the initial one"
            self.report.error(at, text, "one of them is: `initial mode NAME { .. }`")
        for number, mode in enumerate(self.modes):
            if self.numbers[mode.name.text] != number:
                self.report.error(mode.name.at, f"there is a mode `{mode.name.text}` already")

    def _gather(self, mode: tree.Mode) -> None:
        for it in mode.members:
            if isinstance(it, (tree.Instance, tree.Connection, tree.Ports, tree.Mode)):
                at = it.name.at if isinstance(it, (tree.Instance, tree.Mode)) else it.at
                hint = "a reaction of the mode may put on an input of an instance outside"
                self.report.error(at, "a mode has variables, timers, actions and reactions", hint)
            elif isinstance(it, tree.Timer):
                self.timers[it.name.text] = it
                self.home[it.name.text] = mode
                if mode.name.text in self.resumed:
                    self.due[it.name.text] = self._free(f"{it.name.text}_due")
                elif mode.is_initial:
                    self.first[it.name.text] = self._free(f"{it.name.text}_first")
            elif isinstance(it, tree.Action):
                self.home[it.name.text] = mode
                if mode.name.text in self.resumed:
                    self.waits[it.name.text] = Waiting(it, self._in(mode), self.switch, self._free)
                else:
                    self.beside[it.name.text] = self._free(f"{it.name.text}_entry")

    def _variables(self) -> list[tree.State]:
        number = next((place for place, mode in enumerate(self.modes) if mode.is_initial), 0)
        starts = {self.mode: number, self.entries: 0}
        for mode in self.modes:
            if self._asks_first(mode):
                starts[self.started[mode.name.text]] = int(mode.is_initial)
        begun = {name: self._number(start) for name, start in starts.items()}
        begun.update((due, self._times(name)[0]) for name, due in self.due.items())
        return [tree.State(self._name(name), None, start, is_own=name != self.mode) for name, start in begun.items()]

    def _asks_first(self, mode: tree.Mode) -> bool:
        """Whether something of a mode depends on whether it was entered before."""
        reactions = [it for it in mode.members if isinstance(it, tree.Reaction)]
        names = {place.name.text for it in reactions for place in (*it.on, *it.reads)}
        return not mode.is_initial and bool(names & {"startup", "shutdown"})

    def _beside(self, it: tree.Part) -> Iterator[tree.Part]:
        name = it.name.text
        if name in self.first:
            yield tree.Timer(self._name(self.first[name]), (*it.arguments[:1], *[self._number(0)] * (not it.arguments)))
        if name in self.beside:
            yield tree.Action(self._name(self.beside[name]), it.arguments, None)
        if name in self.waits:
            yield from self.waits[name].members()

    # Parts of the tree.

    def _in(self, mode: tree.Mode) -> tree.Expression:
        return self._is(self._of(self.mode), self._number(self.numbers[mode.name.text]))

    def _entered(self, mode: tree.Mode) -> tree.Expression:
        """Whether a mode is entered by a reset at this tag."""
        code = self._number(2 * self.numbers[mode.name.text])
        return self._both((self._present(self.switch), self._is(self._of(self.switch), code)))

    def _times(self, name: str) -> tuple[tree.Expression, tree.Expression]:
        given = self.timers[name].arguments
        return (given[0] if given else self._number(0), given[1] if given[1:] else self._number(0))

    # What a trigger of a mode means.

    def _is_there(self, name: str, mode: tree.Mode) -> Optional[tree.Expression]:
        """Whether a trigger counts in its mode; None where it does whenever it is present."""
        if name in self.due:
            return self._both((self._in(self.home[name]), self._is(self._of(self.due[name]), self._now())))
        if name in self.timers:
            ways = [self._both((self._present(name), self._is(self._of(name), self._of(self.entries))))]
            if name in self.first:
                is_first = self._is(self._of(self.entries), self._number(0))
                ways.append(self._both((self._present(self.first[name]), is_first)))
            at_once = self._is(self._times(name)[0], self._number(0))
            return self._both((*ways, self._both((at_once, self._entered(self.home[name])))), "||")
        if name in self.beside:
            return self._both((self._present(name), self._is(self._of(self.beside[name]), self._of(self.entries))))
        if name in self.waits:
            return self.waits[name].is_there()
        if name == "reset":
            return self._entered(mode)
        if name == "startup" and not mode.is_initial:
            has_started = tree.Unary("!", self._of(self.started[mode.name.text]), self.at)
            return self._both((self._present(self.switch), has_started))
        return None

    def _triggers(self, name: str, mode: tree.Mode) -> list[str]:
        """What must be named so that it can be asked whether a trigger counts."""
        if name in self.due:
            return [name, self.switch, *["startup"] * self.home[name].is_initial]
        if name in self.timers:
            return [name, *self._first(name), self.switch]
        if name in self.beside:
            return [name, self.beside[name]]
        if name in self.waits:
            return self.waits[name].triggers
        if name == "reset" or name == "startup" and not mode.is_initial:
            return [self.switch]
        return [name]

    def _first(self, name: str) -> list[str]:
        """The timer that begins one of the first mode."""
        return [self.first[name]] if name in self.first else []

    # Reactions.

    def _reaction(self, mode: tree.Mode, it: tree.Reaction) -> tree.Reaction:
        """A reaction of a mode: it runs in its mode, where one of its triggers counts."""
        names = [place.name.text for place in it.on if place.is_plain]
        others = [name for name in names if name != "shutdown"]
        test = self._in(mode)
        if "shutdown" in names or any(self._is_there(name, mode) for name in others):
            ways = [self._is_there(name, mode) or self._present(name) for name in others]
            asked = [tree.Member(place, place.at) for place in it.on if not place.is_plain]
            ways += [tree.Call(self._name("present"), (place,), self.at) for place in asked]
            test = self._both((test, self._both(ways, "||"))) if ways else None
        if "shutdown" in names:
            ends = self._ends(mode)
            test = self._both((test, ends), "||") if test else ends
        plain = self._plain(it, mode)
        if plain.body is not None:
            plain = dataclasses.replace(plain, body=(tree.If(test, plain.body, ()),))
        return plain

    def _ends(self, mode: tree.Mode) -> tree.Expression:
        """Whether the end is there, and the mode was ever entered."""
        if mode.is_initial:
            return self._present("shutdown")
        was_entered = self._both((self._in(mode), self._of(self.started[mode.name.text])), "||")
        return self._both((self._present("shutdown"), was_entered))

    def _plain(self, it: tree.Reaction, mode: Optional[tree.Mode] = None) -> tree.Reaction:
        """A reaction with actions in the place of what belongs to modes."""
        for place in (*it.on, *it.reads, *it.writes):
            self._is_known(place, mode)
        lists = {}
        for part in ("on", "reads"):
            lists[part] = tuple(each for place in getattr(it, part) for each in self._named(place, mode))
        ways, writes = self._ways(it)
        actions = [self._place(self.beside[place.name.text]) for place in writes if place.name.text in self.beside]
        switch = [self._place(self.switch)] * bool(ways)
        body = it.body and self._body(it.body, ways, mode)
        return dataclasses.replace(it, **lists, writes=(*writes, *actions, *switch), body=body)

    def _is_known(self, place: tree.Place, mode: Optional[tree.Mode]) -> None:
        """Tells a timer or an action of another mode than the reaction's."""
        home = self.home.get(place.name.text)
        if place.is_plain and home is not None and home is not mode:
            text = f"`{place}` is of the mode `{home.name.text}`: only its reactions name it"
            self.report.error(place.at, text, "what stands outside of modes is known in all of them")

    def _named(self, place: tree.Place, mode: Optional[tree.Mode]) -> list[tree.Place]:
        if mode is None or not place.is_plain:
            return [place]
        names = self._triggers(place.name.text, mode)
        return [place if name == place.name.text else self._place(name) for name in names]

    def _ways(self, it: tree.Reaction) -> tuple[dict[str, int], list[tree.Place]]:
        """The modes to which a reaction leads, each with what `switch` says of it; and its other effects."""
        ways, writes = {}, []
        for place in it.writes:
            name = place.name.text
            if place.transition and name not in self.numbers:
                self.report.error(place.at, f"there is no mode `{name}`", nearest(name, self.numbers))
            elif place.is_plain and name in self.numbers:
                self.leads = True
                ways[name] = 2 * self.numbers[name] + (place.transition == "history")
            else:
                writes.append(place)
        return ways, writes

    def _body(self, body: tuple, ways: dict[str, int], mode: Optional[tree.Mode]):
        """A body with what `set_mode`, timers and actions of modes mean."""
        def made(part):
            if isinstance(part, (tree.Name, At)):
                return part
            if isinstance(part, tuple):
                return tuple(map(made, part))
            match part:
                case tree.Invoke(tree.Call(tree.Name("set_mode"), (tree.Reference(name, at),))):
                    return self._to(name, at, ways)
                case tree.Invoke(tree.Call(tree.Name("schedule"), (tree.Reference(name), delay, *value)) as call):
                    delay, value = made(delay), made(tuple(value))
                    if name in self.waits:
                        return self.waits[name].scheduled(call, delay, value[0] if value else self._number(0))
                    scheduled = tree.Invoke(dataclasses.replace(call, parts=(call.parts[0], delay, *value)))
                    if name not in self.beside:
                        return scheduled
                    entry = self._schedule(self.beside[name], delay, self._of(self.entries))
                    return tree.Block((scheduled, entry))
                case tree.Call(tree.Name("present"), (tree.Reference(name),)) if mode and self._is_there(name, mode):
                    return self._is_there(name, mode)
                case tree.Reference(name, at) if name in self.beside and mode:
                    return tree.Choice(self._is_there(name, mode), part, self._number(0), at)
                case tree.Reference(name, at) if name in self.waits and mode:
                    return tree.Choice(self._is_there(name, mode), self._of(self.waits[name].value), self._number(0), at)
            if not dataclasses.is_dataclass(part):
                return part
            return dataclasses.replace(part, **{key: made(value) for key, value in vars(part).items()})

        return made(body)

    def _to(self, name: str, at: At, ways: dict[str, int]) -> tree.Statement:
        if name in ways:
            return self._schedule(self.switch, self._number(0), self._number(ways[name]))
        if name in self.numbers:
            text, hint = f"`{name}` does not stand behind the `->` of this reaction", f"write `-> reset({name})`"
            self.report.error(at, text, hint)
        else:
            self.report.error(at, f"there is no mode `{name}`", nearest(name, self.numbers))
        return tree.Block(())

    # Reactions of the compiler's own.

    def _switching(self) -> tree.Reaction:
        """Enters a mode: a reset begins its timers, and gives its variables their starts."""
        code, two = self._of(self.switch), self._number(2)
        body: list[tree.Statement] = [
            *(tree.If(self._in(mode), tuple(moved), ()) for mode in self.modes if (moved := [*self._moved(mode, "-")])),
            self._set(self.mode, self._is(code, two, "/")),
            self._set(self.entries, self._is(self._of(self.entries), self._number(1), "+")),
        ]
        for mode in self.modes:
            begins = [each for it in mode.members for each in self._begins(it)]
            if begins:
                body.append(tree.If(self._entered(mode), tuple(begins), ()))
            if moved := [*self._moved(mode, "+")]:
                body.append(tree.If(self._in(mode), tuple(moved), ()))
        return self._react([self.switch], [name for name in self.timers if name not in self.due], body)

    def _moved(self, mode: tree.Mode, sign: str) -> Iterator[tree.Statement]:
        """What is left of the times of a mode's timers and actions, or when that is over."""
        for name in self.due if mode.name.text in self.resumed else ():
            if self.home[name] is mode:
                due = self._of(self.due[name])
                yield tree.If(self._is(due, self._number(0), ">="), (self._set(self.due[name], self._is(due, self._now(), sign)),), ())
        for name, it in self.waits.items():
            if self.home[name] is mode:
                yield from it.moved_by(sign)

    def _begins(self, it: tree.Part) -> Iterator[tree.Statement]:
        if isinstance(it, tree.State) and it.is_reset:
            yield tree.Assign(it.name, None, it.start or self._number(0))
        if isinstance(it, tree.Action) and it.name.text in self.waits:
            yield self.waits[it.name.text].emptied()
        if isinstance(it, tree.Timer) and it.name.text in self.due:
            yield self._set(self.due[it.name.text], self._times(it.name.text)[0])
        elif isinstance(it, tree.Timer):
            (offset, period), entry = self._times(it.name.text), self._of(self.entries)
            again = tree.If(self._is(period, self._number(0), ">"), (self._schedule(it.name.text, period, entry),), ())
            later = self._schedule(it.name.text, offset, entry)
            yield tree.If(self._is(offset, self._number(0)), (again,), (later,))

    def _ticking(self, name: str) -> tree.Reaction:
        """Lets a timer of a mode come again after its period."""
        period, entry = self._times(name)[1], self._of(self.entries)
        counts = [self._both((self._present(name), self._is(self._of(name), entry)))]
        if name in self.first:
            counts.append(self._both((self._present(self.first[name]), self._is(entry, self._number(0)))))
        test = self._both((self._is(period, self._number(0), ">"), self._both(counts, "||")))
        again = tree.If(test, (self._schedule(name, period, entry),), ())
        return self._react([name, *self._first(name)], [name], [again])

    def _going(self, name: str) -> tree.Reaction:
        """Sets when a timer comes next where it has come, and lets its action go on to there."""
        period, due, entry = self._times(name)[1], self._of(self.due[name]), self._of(self.entries)
        later = self._is(self._now(), period, "+")
        again = tree.Choice(self._is(period, self._number(0), ">"), later, self._minus_one(), self.at)
        begins = [self._both((self._present(name), self._is(self._of(name), entry))), self._present(self.switch)]
        begins += [self._present("startup")] * self.home[name].is_initial
        left = tree.Let(self._name(self._free("left")), None, self._is(due, self._now(), "-"))
        step = self._step(name, self._of(left.name.text), entry, self._times(name))
        goes = self._both((self._is(due, self._now(), ">"), self._both(begins, "||")))
        body = [
            tree.If(self._is(due, self._now()), (self._set(self.due[name], again),), ()),
            tree.If(goes, (left, *step), ()),
        ]
        return self._react(self._triggers(name, self.home[name]), [name], [tree.If(self._in(self.home[name]), tuple(body), ())])

    def _ending(self) -> tree.Reaction:
        """Keeps which modes were entered, behind all other reactions."""
        body = [
            tree.If(self._in(mode), (self._set(self.started[mode.name.text], self._number(1)),), ())
            for mode in self.modes if self._asks_first(mode)
        ]
        return self._react([self.switch], (), body)


def _reactions(it: tree.Reactor) -> Iterator[tree.Reaction]:
    """The reactions of a reactor, those of its modes among them."""
    for each in it.members:
        if isinstance(each, tree.Reaction):
            yield each
        elif isinstance(each, tree.Mode):
            yield from (part for part in each.members if isinstance(part, tree.Reaction))


def _names(it: tree.Reactor) -> Iterator[str]:
    """The names that a reactor declares."""
    yield from (each.name.text for each in it.parameters)
    for each in [*it.members, *(part for mode in it.every(tree.Mode) for part in mode.members)]:
        yield from tree.names_of(each)
