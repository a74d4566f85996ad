"""What waits on an action of a mode to which `history` leads, written as arrays.

Each value has a cell, and beside it the time at which it is due; outside of its mode that is how long it would still take. The
action only says that something may be due. Where the mode goes on, what is due later than the action was scheduled for is
reached by a second one, in steps: a delay is constant."""

from __future__ import annotations

import dataclasses
from collections.abc import Callable

from . import tree
from .tree_parts import Parts

# How many values of one action may wait.
MOST_WAITING = 16


class Waiting(Parts):
    """One such action. `is_in` asks for its mode, `switch` is there where a mode is entered."""

    def __init__(self, it: tree.Action, is_in: tree.Expression, switch: str, free: Callable[[str], str]):
        self.it, self.is_in, self.switch, self.at = it, is_in, switch, it.name.at
        self.name = name = it.name.text
        own = ("due", "values", "value", "there", "moved", "wake")
        self.due, self.values, self.value, self.is_due, self.moved, self.wake = (free(f"{name}_{each}") for each in own)
        # Names inside of a body, which no text has.
        self.turn, self.after, self.until, self.cell, self.soonest = (
            f"{name} {each}" for each in ("turn", "after", "until", "cell", "soonest"))

    def members(self) -> list[tree.Part]:
        """Its variables, and the action that goes in steps."""
        sides, type = (self._number(MOST_WAITING),), self.it.type.text if self.it.type else "int"
        arrays = ((self.due, "int", self._minus_one()), (self.values, type, None))
        states = [tree.State(self._name(name), tree.Sized(of, self.at, sides), start, is_own=True) for name, of, start in arrays]
        plain = ((self.value, self.it.type), (self.is_due, None), (self.moved, None))
        states += [tree.State(self._name(name), of, None, is_own=True) for name, of in plain]
        return [*states, tree.Action(self._name(self.wake), (), None, is_own=True)]

    @property
    def triggers(self) -> list[str]:
        return [self.name, self.wake, self.switch]

    def is_there(self) -> tree.Expression:
        """Whether a value is due at this tag."""
        return self._both((self.is_in, self._both(map(self._present, self.triggers), "||"), self._of(self.is_due)))

    def emptied(self) -> tree.Statement:
        """Nothing waits any more."""
        return self._set(self.due, self._minus_one())

    def moved_by(self, sign: str) -> list[tree.Statement]:
        """The mode is left, and it is kept how long each value would still take; or it is entered, and they go on."""
        moved = tree.Assign(self._cell(self.due), None, self._is(self._at(self.due), self._now(), sign))
        is_entered = [self._set(self.moved, self._number(1))] if sign == "+" else []
        return [self._loop(tree.If(self._waits(self._at(self.due)), (moved,), ())), *is_entered]

    def scheduled(self, call: tree.Call, delay: tree.Expression, value: tree.Expression) -> tree.Statement:
        """Lets a value wait: in the cell of one that is due at the same time, or in a free one; where there is none it is lost."""
        least = self.it.arguments[0] if self.it.arguments else self._number(0)
        is_same = self._is(self._at(self.due), self._of(self.until))
        has_none = self._is(self._of(self.cell), self._number(MOST_WAITING))
        is_free = self._both((self._is(self._at(self.due), self._number(0), "<"), has_none))
        body = (
            self._let(self.until, self._both((self._now(), least, self._of(self.after)), "+")),
            self._let(self.cell, self._number(MOST_WAITING), is_variable=True),
            self._loop(tree.If(self._both((is_same, is_free), "||"), (self._set(self.cell, self._of(self.turn)),), ())),
            tree.Assign(self._cell(self.due, self.cell), None, self._of(self.until)),
            tree.Assign(self._cell(self.values, self.cell), None, value),
        )
        begins = tree.Invoke(dataclasses.replace(call, parts=(call.parts[0], delay)))
        is_scheduled = self._both((self.is_in, self._waits(self._of(self.after))))
        return tree.Block((begins, self._let(self.after, self._delay(delay)), tree.If(is_scheduled, body, ())))

    def taking(self) -> tree.Reaction:
        """Takes the value that is due, before all that may ask for it, and lets the next one be reached."""
        due, soonest = self._at(self.due), self._of(self.soonest)
        taken = (
            self._set(self.is_due, self._number(1)), self._set(self.value, self._at(self.values)),
            tree.Assign(self._cell(self.due), None, self._minus_one()),
        )
        is_sooner = self._both((self._is(soonest, self._number(0), "<"), self._is(due, soonest, "<")), "||")
        sooner = tree.If(self._both((self._waits(due), is_sooner)), (self._set(self.soonest, due),), ())
        goes = tree.If(self._of(self.moved), self._step(self.wake, self._is(soonest, self._now(), "-"), self._number(0)), ())
        body = (
            self._set(self.is_due, self._number(0)), self._let(self.soonest, self._minus_one(), is_variable=True),
            self._loop(tree.If(self._is(due, self._now()), taken, (sooner,))),
            tree.If(self._waits(soonest), (goes,), (self._set(self.moved, self._number(0)),)),
        )
        return self._react(self.triggers, [self.wake], [tree.If(self.is_in, body, ())])

    # Parts of these.

    def _delay(self, it: tree.Expression) -> tree.Expression:
        """How long a delay is that may be one of several; -1 where it is none."""
        if isinstance(it, tree.Choice):
            return tree.Choice(it.test, self._delay(it.yes), self._delay(it.no), it.at)
        if isinstance(it, tree.Call) and it.name.text == "among":
            value, *ways = it.parts
            return tree.Choice(self._both((self._is(value, each) for each in ways), "||"), value, self._minus_one(), it.at)
        return it

    def _waits(self, due: tree.Expression) -> tree.Expression:
        return self._is(due, self._number(0), ">=")

    def _let(self, name: str, value: tree.Expression, is_variable: bool = False) -> tree.Let:
        return tree.Let(self._name(name), None, value, is_variable)

    def _cell(self, array: str, index: str = "") -> tree.Place:
        """A cell of an array: that of the turn, where nothing else is said."""
        return tree.Place(None, self._name(array), None, self._of(index or self.turn))

    def _at(self, array: str) -> tree.Member:
        return tree.Member(self._cell(array), self.at)

    def _loop(self, body: tree.Statement) -> tree.Loop:
        """Does this for each cell."""
        turn, most = self._name(self.turn), self._number(MOST_WAITING)
        step = tree.Assign(turn, "+", self._number(1))
        return tree.Loop(self._let(self.turn, self._number(0)), self._is(self._of(self.turn), most, "<"), step, (body,), self.at, most)
