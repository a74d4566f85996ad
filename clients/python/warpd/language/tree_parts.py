"""Parts of a tree that stand in no text: what the compiler writes for what a text means, all at one place."""

from __future__ import annotations

from collections.abc import Iterable

from . import tree
from .tree import At

Expressions = Iterable[tree.Expression]
Statements = Iterable[tree.Statement]
# The steps in which an action goes a way that is not known beforehand: all that a delay may be, in three of each at most.
STEPS = tuple(4 ** power for power in range(11, -1, -1))


class Parts:
    """Makes parts that stand at one place of a text."""

    at: At

    def _name(self, text: str) -> tree.Name:
        return tree.Name(text, self.at)

    def _place(self, text: str) -> tree.Place:
        return tree.Place(None, self._name(text))

    def _number(self, number: int) -> tree.Number:
        return tree.Number(str(number), self.at)

    def _of(self, name: str) -> tree.Reference:
        return tree.Reference(name, self.at)

    def _is(self, left: tree.Expression, right: tree.Expression, operator: str = "==") -> tree.Binary:
        return tree.Binary(operator, left, right, self.at)

    def _present(self, name: str) -> tree.Call:
        return tree.Call(self._name("present"), (self._of(name),), self.at)

    def _both(self, parts: Expressions, operator: str = "&&") -> tree.Expression:
        first, *rest = parts
        for it in rest:
            first = self._is(first, it, operator)
        return first

    def _now(self) -> tree.Member:
        return tree.Member(tree.Place(self._name("lf"), self._name("time")), self.at)

    def _minus_one(self) -> tree.Unary:
        return tree.Unary("-", self._number(1), self.at)

    def _set(self, name: str, value: tree.Expression) -> tree.Assign:
        return tree.Assign(self._name(name), None, value)

    def _schedule(self, action: str, delay: tree.Expression, value: tree.Expression) -> tree.Invoke:
        return tree.Invoke(tree.Call(self._name("schedule"), (self._of(action), delay, value), self.at))

    def _step(
        self, action: str, rest: tree.Expression, value: tree.Expression, exact: Expressions = ()
    ) -> tuple[tree.Statement, ...]:
        """Schedules an action for the greatest step that is no more than the rest of its way, or for one of `exact` that is
        just this."""
        steps = [*((each, "==") for each in exact), *((self._number(each), ">=") for each in STEPS)]
        step: tuple[tree.Statement, ...] = ()
        for each, sign in reversed(steps):
            delay = tree.Call(self._name("max"), (each, self._number(1)), self.at)
            step = (tree.If(self._is(rest, each, sign), (self._schedule(action, delay, value),), step),)
        return step

    def _react(self, on: Iterable[str], writes: Iterable[str], body: Statements) -> tree.Reaction:
        return tree.Reaction(tuple(map(self._place, on)), (), tuple(map(self._place, writes)), tuple(body), self.at)
