"""Runs tests, and says of each whether what it expects is so; where not, what was, with records that show it."""

from __future__ import annotations

import random
import time
from collections.abc import Sequence
from dataclasses import dataclass, field
from typing import NamedTuple, Optional, Union

from ... import Tag
from ...built import Fails
from ..tree import At
from .drawing import Smaller, drawn
from .orders import by_tag, shuffled
from .plan import ASK, Arrival, Draw, Expected, Given, Puts, Step, Test
from .reading import references
from .running import Answers, Row, World
from .spelling import block, expected, moment, puts

# How many orders are tried: of a test, and of each of the runs of one that draws.
ORDERS, ORDERS_OF_DRAWN = 12, 2
# So many variables and outputs are told of what two orders say.
MOST_TOLD = 8


class Options(NamedTuple):
    seed: int = 1
    runs: int = 100


@dataclass
class Failure:
    """`expected` and `got` stand side by side, line by line. `example` is a test that shows it."""

    at: At
    title: str
    expected: list[str]
    got: list[str]
    example: str = ""


@dataclass
class Outcome:
    test: Test
    failures: list[Failure] = field(default_factory=list)
    seconds: float = 0.0
    note: str = ""


class Judge:
    """Runs the tests of one program."""

    def __init__(self, world: World, options: Options = Options()):
        self.world, self.subject, self.options = world, world.subject, options

    def judged(self, test: Test) -> Outcome:
        began = time.monotonic()
        outcome = Outcome(test)
        try:
            if test.is_drawn:
                outcome.failures, outcome.note = self._property(test)
            else:
                outcome.failures = self._straight(test.steps)
                if test.in_every_order and not outcome.failures:
                    outcome.failures = self._orders(test, test.steps, ORDERS, f"{self.options.seed} {test.name}")
        except Fails as error:
            outcome.failures = [Failure(test.at, str(error), [], [])]
        outcome.seconds = time.monotonic() - began
        return outcome

    # What is expected, once.

    def _straight(self, steps: Sequence[Step]) -> list[Failure]:
        """What is not as it is expected, where the records come in the order of the test."""
        failures, before = [], []
        with self.world.begun() as session:
            answers: Optional[Answers] = None
            for it in steps:
                if isinstance(it, (Expected, Puts)):
                    answers = answers or session.answers()
                    found = self.compared(it, answers, before)
                    failures += [found] if found else []
                else:
                    session.take([it])
                    answers = None
                    before += [it] if it is not ASK else []
        return failures

    def compared(self, it: Union[Expected, Puts], answers: Answers, records: Sequence[Given]) -> Optional[Failure]:
        """What is not so of this expectation, behind these records."""
        if isinstance(it, Puts):
            return self._compared_outputs(it, answers)
        if it.is_always:
            return self._always(it, self.world.rows(records))
        if it.tag is None:
            return self._compared(it, answers.variables, answers.lost, "")
        time, micro = it.tag
        last = Tag(time, self.subject.last_micro if micro is None else micro)
        row = [row for row in self.world.rows(records) if row.tag <= last][-1]
        return self._compared(it, row.variables, answers.lost, "")

    def _compared(self, it: Expected, values: Sequence[int], lost: int, when: str) -> Optional[Failure]:
        if self.subject.value(it.value, values, lost):
            return None
        known = {"lost": str(lost)}
        known.update((name, self.subject.shown(name, value)) for name, value in zip(self.subject.variables, values))
        named = dict.fromkeys(each.name for each in references(it.value))
        got = ", ".join(f"{self.subject.spelled(name)} is {known[name]}" for name in named if name in known)
        at = it.value.at
        return Failure(at, "", [expected(it, self.subject)], [(got or "it is not so") + when])

    def _always(self, it: Expected, rows: Sequence[Row]) -> Optional[Failure]:
        for row in rows:
            when = "at the beginning" if row.tag.time < 0 else f"at {moment(*row.tag)}"
            found = self._compared(it, row.variables, 0, f" {when}")
            if found:
                return found
        return None

    def _compared_outputs(self, it: Puts, answers: Answers) -> Optional[Failure]:
        got = [(tag, value) for tag, port, value in answers.outputs if port == it.output]
        if got == list(it.puts):
            return None
        output = list(self.subject.outputs)[it.output]
        wanted, found = ([puts([each], output, self.subject) for each in its] for its in (it.puts, got))
        head = f"{self.subject.spelled(output)} puts"
        return Failure(it.at, "", [head, *(wanted or ["nothing"])], [head, *(found or ["nothing"])])

    # In every order.

    def _orders(self, test: Test, steps: Sequence[Step], count: int, seed: str) -> list[Failure]:
        """Where a replica says something else after another order of the records before an expectation."""
        tried: set[int] = set()
        for place, it in enumerate(steps):
            records = [each for each in steps[:place] if isinstance(each, Given)]
            if isinstance(it, (Expected, Puts)) and len(records) not in tried:
                tried.add(len(records))
                found = self.differs(records, count, random.Random(f"{seed} {len(records)}"), test.name, test.at)
                if found:
                    return [found]
        return []

    def differs(
        self, records: Sequence[Given], count: int, dice: random.Random, name: str, at: At
    ) -> Optional[Failure]:
        """What a replica says else in one of so many orders of these records."""
        wanted = self.world.answers(by_tag(records))
        for number in range(count):
            arrival = shuffled(records, self.subject, number, dice)
            got = self.world.answers(arrival)
            if got != wanted:
                is_shown = got != self.world.answers(by_tag(arrival))
                return self._shrunk(arrival, name, at) if is_shown else self._told(arrival, wanted, got, name, at)
        return None

    def _shrunk(self, arrival: Arrival, name: str, at: At) -> Failure:
        def shows(parts: Arrival) -> bool:
            return self.world.answers(parts) != self.world.answers(by_tag(parts))

        least = Smaller(shows).made(arrival)
        return self._told(least, self.world.answers(by_tag(least)), self.world.answers(least), name, at)

    def _told(self, arrival: Arrival, wanted: Answers, got: Answers, name: str, at: At) -> Failure:
        """How two answers differ."""
        shown, spelled = self.subject.shown, self.subject.spelled
        lines = [
            (f"{spelled(name)} == {shown(name, one)}", f"{spelled(name)} is {shown(name, other)}")
            for name, one, other in zip(self.subject.variables, wanted.variables, got.variables) if one != other
        ]
        for output, number in self.subject.outputs.items():
            one, other = (
                puts([(tag, value) for tag, port, value in its.outputs if port == number], output, self.subject)
                for its in (wanted, got)
            )
            if one != other:
                lines.append((f"{spelled(output)} puts {one}", f"{spelled(output)} puts {other}"))
        if wanted.lost != got.lost:
            lines.append((f"lost == {wanted.lost}", f"lost is {got.lost}"))
        lines = lines[:MOST_TOLD]
        example = block(f"{name}: this order", arrival, [it for it, _ in lines], self.subject)
        return Failure(at, "in another order of the records the replica says something else",
                       [it for it, _ in lines], [it for _, it in lines], example)

    # Properties.

    def _property(self, test: Test) -> tuple[list[Failure], str]:
        """The first of the runs in which something is not as it is expected, with as few records as show it."""
        for run in range(self.options.runs):
            seed = f"{self.options.seed} {test.name} {run}"
            steps = drawn(test.steps, self.subject, random.Random(seed))
            note = f"run {run + 1} of {self.options.runs}, seed {self.options.seed}"
            found = self._straight(steps)
            if found:
                return [self._least(test, steps, note)], ""
            if test.in_every_order:
                found = self._orders(test, steps, ORDERS_OF_DRAWN, seed)
                if found:
                    found[0].title += f" ({note})"
                    return found, ""
        return [], f"{self.options.runs} runs"

    def _least(self, test: Test, steps: Sequence[Step], note: str) -> Failure:
        place = next(
            number for number, it in enumerate(steps)
            if isinstance(it, (Expected, Puts)) and self._straight([*_arrivals(steps[:number]), it])
        )
        it, before = steps[place], _arrivals(steps[:place])
        least = Smaller(lambda parts: bool(self._straight([*parts, it]))).made(before)
        in_order = by_tag(least)
        least = in_order if self._straight([*in_order, it]) else least
        (failure,) = self._straight([*least, it])
        failure.title = note
        failure.example = block(f"{test.name}: a counter-example", least, [expected(it, self.subject)], self.subject)
        return failure


def _arrivals(steps: Sequence[Step]) -> list:
    return [it for it in steps if not isinstance(it, (Expected, Puts, Draw))]
