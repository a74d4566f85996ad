"""Tests of programs in Python, for `unittest` and `pytest`.

    import unittest
    import warpd.testing

    door = warpd.testing.program("door.lf")

    class Door(unittest.TestCase):
        def test_a_push_that_comes_late_counts(self):
            case = door.case()
            case.event(time=27, input="door.push", value=1)
            case.event(time=8, input="door.push", value=1)
            case.expect_vars({"door.found": 2})
            case.in_every_order()

        @door.drawn("0 to 10 of door.push = 1 at 0 to 60")
        def test_nobody_finds_it_open_more_often_than_he_looks(self, case):
            case.expect("door.found <= 6")

What is not as it is expected is an `AssertionError`, which has both side by side. It wants what the compiler of
programs wants (`lark`), and a built `warpd`."""

from __future__ import annotations

import atexit
import random
from collections.abc import Callable, Iterable, Mapping
from os import PathLike
from pathlib import Path
from typing import Optional, Union

from . import Event, Tag, Withdraw
from .built import found
from .language.parsing import Parser
from .language.testing import orders, running, spelling
from .language.testing.command import read_files
from .language.testing.drawing import Smaller, drawn
from .language.testing.judging import ORDERS, Failure, Judge
from .language.testing.plan import ASK, Arrival, Expected, Given, Puts, Step
from .language.testing.reading import Reader
from .language.testing.telling import short, sides
from .language.testing.words import collapsed, renamed
from .language.lexing import Lexer
from .language.tables import grammar
from .language.tree import At
from .language.words import in_place

__all__ = ["Case", "Program", "Unmet", "program"]

# What is told shows the line of the test: pytest leaves out the calls of a module that says this, and unittest those
# that stand before the test.
__tracebackhide__ = __unittest = True
HERE = At(1, 1)
# A tag is a time, or a time and a microstep.
Tags = Union[int, tuple[int, int]]


class Unmet(AssertionError):
    """Something is not as it is expected: `text` says what, and `behind` which records show it. `expectations` has it
    as it would stand in a `test` block."""

    def __init__(self, text: str, expectations: Iterable[str] = (), behind: Iterable[str] = ()):
        self.text, self.expectations = text, list(expectations)
        super().__init__("\n".join([text, *behind]))


def program(path: Union[str, PathLike], warpd: Optional[str] = None) -> Program:
    """The program of a text. `warpd` is the path of the built program; else it is the `warpd` on the path, or that of
    the checkout. A text with a fault is a `ValueError` that shows it."""
    its = read_files(Path(path))
    if its.subject is None or its.report.errors:
        raise ValueError(f"{path} has a fault:\n{its.report}")
    return Program(its.subject, found(warpd))


class Program:
    """A program whose tests are run."""

    def __init__(self, subject, command: list[str]):
        self.subject = subject
        self.world = running.World(command, subject)
        self.judge = Judge(self.world)
        self._steps: dict[str, Step] = {}
        atexit.register(self.world.close)

    def case(self) -> Case:
        """A replica to which nothing has come."""
        return Case(self)

    def drawn(self, *draws: str, runs: int = 100, seed: int = 1) -> Callable:
        """Runs a test so often, each time with a case that has drawn records. A draw is written as behind the word
        `draw` of a `test` block: `0 to 20 of ann.steer = -1 to 1 at 0 to 100`. Where the test fails, fewer and simpler
        records that make it fail are told."""
        def decorate(test: Callable) -> Callable:
            def each(*given):
                self._drawn(lambda case: test(*given, case), draws, runs, f"{seed} {test.__qualname__}", seed)

            # No `functools.wraps`: pytest would take the case for a fixture.
            each.__name__, each.__qualname__, each.__doc__ = test.__name__, test.__qualname__, test.__doc__
            each.__module__ = test.__module__
            return each

        return decorate

    def _drawn(self, test: Callable, draws: Iterable[str], runs: int, named: str, seed: int) -> None:
        steps = [self.step(f"draw {it};") for it in draws]

        def failed(parts: Arrival) -> Optional[tuple[AssertionError, Case]]:
            case = Case(self, parts)
            try:
                test(case)
            except AssertionError as error:
                return error, case
            return None

        for run in range(runs):
            records = drawn(steps, self.subject, random.Random(f"{named} {run}"))
            if failed(records):
                least = Smaller(lambda parts: failed(parts) is not None).made(records)
                in_order = orders.by_tag(least)
                error, case = failed(in_order) or failed(least)
                note = f"run {run + 1} of {runs}, seed {seed}"
                told = Unmet(f"{getattr(error, 'text', error)}\n{note}", (), self._shown(error, case))
                raise told.with_traceback(error.__traceback__) from None

    def _shown(self, error: AssertionError, case: Case) -> list[str]:
        """What shows a mistake: a test, or the records alone where what fails is no `expect`."""
        unmet = getattr(error, "expectations", ())
        if not unmet:
            return ["behind", *(f"  {it}" for it in spelling.arrived(case.arrival, self.subject))]
        return ["a test that shows it:", "", spelling.block("a counter-example", case.arrival, unmet, self.subject)]

    def step(self, text: str) -> Step:
        """What a line of a `test` block stands for; one with a fault is a `ValueError` that shows it."""
        if text not in self._steps:
            self._steps[text] = self._read(text)
        return self._steps[text]

    def _read(self, text: str) -> Step:
        report = self.subject.report
        whole, faults = f'test "it" {{ {text} }}', len(report.faults)
        before = report.add("the test", whole)
        (word, *_) = in_place(collapsed(Lexer(whole, grammar().kinds, before).words()))
        renamed(word.parts, self.subject.name_of)
        block = Parser("", report).test(word)
        found = [each for it in (block.steps if block else ()) for each in Reader(self.subject, report).steps(it)]
        if len(report.faults) > faults or not found:
            told = "".join(report.shown(it) for it in report.faults[faults:])
            report.forget(faults)
            raise ValueError(f"{text}\n{told}")
        return found[0]


class Variables(dict):
    """Values by the names of variables; each may be asked for by any spelling that a test takes."""

    def __init__(self, subject, values: Iterable[tuple[str, int]]):
        super().__init__(values)
        self._subject = subject

    def __missing__(self, name: str) -> int:
        text = self._subject.spelled(self._subject.name_of(name))
        if text not in self:
            raise KeyError(f"no variable is called `{name}`: there are {', '.join(self) or 'none'}")
        return self[text]


class Case:
    """What comes to a replica, in the order of the calls; each `expect` is of what came before it."""

    def __init__(self, program: Program, arrival: Arrival = ()):
        self.program, self.arrival = program, list(arrival)
        self._answers: Optional[running.Answers] = None

    def event(self, time: int, input: str, value: int = 1, micro: int = 0) -> Case:
        """An event of the origin that owns this input."""
        number = self._input(input)
        return self._add(Event(self.program.subject.owners[number], self._tag((time, micro)), number, value))

    def withdraw(self, time: int, input: str, micro: int = 0) -> Case:
        """No event counts that the origin of this input has at this tag."""
        return self._add(Withdraw(self.program.subject.owners[self._input(input)], self._tag((time, micro))))

    def ask(self) -> Case:
        """A query: what came up to now is executed."""
        self.arrival.append(ASK)
        return self

    def _add(self, record: Union[Event, Withdraw]) -> Case:
        self.arrival.append(Given(record))
        self._answers = None
        return self

    def _input(self, name: str) -> int:
        return self._number(name, self.program.subject.inputs, "input")

    def _number(self, name: str, numbers: Mapping[str, int], what: str) -> int:
        subject = self.program.subject
        found = subject.name_of(name)
        if found not in numbers:
            names = ", ".join(map(subject.spelled, numbers)) or "none"
            raise KeyError(f"no {what} is called `{name}`: there are {names}")
        return numbers[found]

    def _tag(self, given: Tags) -> Tag:
        tag, subject = Tag(given) if isinstance(given, int) else Tag(*given), self.program.subject
        if not (0 <= tag.time <= subject.stop and 0 <= tag.micro <= subject.last_micro):
            until = f"0 to {subject.stop}, with microsteps up to {subject.last_micro}"
            raise ValueError(f"{tuple(tag)}: the program runs from {until}")
        return tag

    @property
    def answers(self) -> running.Answers:
        if self._answers is None:
            self._answers = self.program.world.answers(self.arrival)
        return self._answers

    @property
    def vars(self) -> dict[str, int]:
        """All variables behind what came, by their names as the text spells them: `bed[3].water`."""
        subject = self.program.subject
        return Variables(subject, zip(map(subject.spelled, subject.variables), self.answers.variables))

    def outputs(self, output: str) -> list[tuple[Tag, int]]:
        """What an output puts: each tag with the value."""
        number = self._number(output, self.program.subject.outputs, "output")
        return [(tag, value) for tag, port, value in self.answers.outputs if port == number]

    # What is expected.

    def expect(self, text: str, time: Optional[int] = None, micro: Optional[int] = None) -> None:
        """That this is so, behind all or behind a time. It is written as in the language: `door.found >= 2`."""
        at = "" if time is None else f" at {time}" if micro is None else f" at ({time}, {micro})"
        self._expect(self.program.step(f"expect {text}{at};"))

    def expect_always(self, text: str) -> None:
        """That this is so at the beginning and behind each tag."""
        self._expect(self.program.step(f"expect always {text};"))

    def expect_vars(
        self, values: Mapping[str, int], time: Optional[int] = None, micro: Optional[int] = None
    ) -> None:
        """That these variables have these values."""
        if not values:
            raise ValueError("no variable is named")
        subject = self.program.subject
        names = {name: subject.spelled(subject.name_of(name)) for name in values}
        self.expect(" && ".join(f"{names[name]} == {value}" for name, value in values.items()), time, micro)

    def expect_outputs(self, output: str, puts: Iterable[tuple[Tags, int]]) -> None:
        """That this is all that an output puts: each time, or time and microstep, with the value."""
        number = self._number(output, self.program.subject.outputs, "output")
        self._expect(Puts(number, tuple((self._tag(tag), value) for tag, value in puts), HERE))

    def in_every_order(self, orders: int = ORDERS, seed: int = 1) -> None:
        """That the replica says the same where the records come shuffled, late, again, and with others that are
        withdrawn, in so many orders."""
        dice = random.Random(f"{seed} {len(self.arrival)}")
        self._told(self.program.judge.differs(self._records(), orders, dice, "case", HERE), "")

    def _records(self) -> list[Given]:
        return [it for it in self.arrival if it is not ASK]

    def _expect(self, it: Union[Expected, Puts]) -> None:
        found = self.program.judge.compared(it, self.answers, self._records())
        self._told(found, spelling.expected(it, self.program.subject))

    def _told(self, found: Optional[Failure], expectation: str) -> None:
        if found is None:
            return
        lines = [short(found)] + (sides(found) if len(found.expected) > 1 or found.title else [])
        behind = ["behind", *(f"  {it}" for it in spelling.arrived(self.arrival, self.program.subject))]
        if found.example:
            behind = ["a test that shows it:", "", found.example]
        raise Unmet("\n".join(lines), [expectation] * bool(expectation), behind)
