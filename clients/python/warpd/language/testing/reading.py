"""From the `test` blocks of a text to what is run; what is wrong with them is told at its line."""

from __future__ import annotations

import dataclasses
from collections.abc import Iterator, Sequence
from pathlib import Path
from typing import Optional

from ... import Event, Tag, Withdraw
from .. import MOST_BYTES, tree as texts
from ..faults import Report
from ..files import shown
from ..lexing import Word
from ..model import Program
from ..parsing import Parser
from ..program import program_of
from ..sources import Sources
from ..tree import At
from ..types import INT
from . import tree
from .plan import ASK, Bounds, Choice, Draw, Expected, Given, Puts, Step, Test
from .subject import LOST, Subject
from .words import renamed

MOST_RECORDS = 100_000


def read(text: str, file: str, folder: Optional[Path] = None, more: Sequence[tuple[str, str]] = ()) -> Reading:
    """The program of a text with its tests, and those of further files, each a name and a text."""
    report = Report(file, text)
    program, its = _compiled(text, report, folder or Path(file).parent)
    words = list(its.tests) if its else []
    for name, other in more:
        words += beside(name, other, report)
    if program is None:
        return Reading(None, [], report)
    subject = Subject(program, report)
    reader, tests = Reader(subject, report), []
    for word in words:
        tests += reader.test(word)
    _told_twice(tests, report)
    return Reading(subject, tests, report)


@dataclasses.dataclass
class Reading:
    """`subject` is None where the program has an error."""

    subject: Optional[Subject]
    tests: list[Test]
    report: Report


def _compiled(text: str, report: Report, folder: Path) -> tuple[Optional[Program], Optional[texts.File]]:
    """The program of a text, None where it has an error, which is told; and the text's tree."""
    program = file = None
    try:
        sources = Sources(folder, report)
        file = sources.read(text)
        program = file and program_of(file, sources, report)
    except RecursionError:
        report.error(At(1, 1), "the text has brackets in brackets too deep to be read")
    if program and not report.errors and (size := len(shown(program.file()))) > MOST_BYTES:
        report.error(At(1, 1), f"the program file has {size} bytes: {MOST_BYTES} are allowed")
    return (None if report.errors else program), file


def beside(name: str, text: str, report: Report) -> Sequence[Word]:
    """The blocks of a file that has tests alone."""
    before = report.add(name, text)
    file = Parser(text, report, before).file()
    for other in [*file.reactors, *file.constants, *file.types, *file.functions, *file.imports] if file else ():
        at = other.name.at if getattr(other, "name", None) else other.at
        report.error(at, "a file of tests has tests alone", "this stands in the text of the program")
    return file.tests if file else ()


def _told_twice(tests: Sequence[Test], report: Report) -> None:
    first: dict[str, Test] = {}
    for it in tests:
        if first.setdefault(it.name, it) is not it:
            place = report.place(first[it.name].at)
            report.error(it.at, f"there is a test \"{it.name}\" already", f"at {place}")


class Reader:
    """Reads blocks against a program."""

    def __init__(self, subject: Subject, report: Report):
        self.subject, self.report = subject, report

    def test(self, word: Word) -> list[Test]:
        """The test of a block; none where it has a fault."""
        before = self.report.errors
        self._cells(word.parts)
        if self.report.errors != before:
            return []
        renamed(word.parts, self.subject.name_of)
        block = Parser("", self.report).test(word)
        if block is None:
            return []
        steps = tuple(step for it in block.steps for step in self.steps(it))
        if self.report.errors == before and not any(isinstance(it, (Expected, Puts)) for it in steps):
            self.report.error(block.at, "this test expects nothing", "`expect E;` says what must be so")
        return [Test(block.name, block.in_every_order, steps, block.at)] if self.report.errors == before else []

    def _cells(self, words: Sequence[Word]) -> None:
        """Tells what stands for a cell and names none."""
        for it, behind in zip(words, (*words[1:], None)):
            if it.kind == "NAME" and (told := self.subject.no_cell(it.value.text, behind is not None and behind.text == "[")):
                self.report.error(it.value.at, *told)

    def steps(self, it: tree.Step) -> Iterator[Step]:
        """What a line of a block stands for: each of its events by itself."""
        match it:
            case tree.Happens():
                yield from self._happens(it)
            case tree.Withdrawal():
                number = self._input(it.input)
                for tag in self._tags(it.moments):
                    yield Given(Withdraw(self._owner(number), tag))
            case tree.Ask():
                yield ASK
            case tree.Draw():
                yield self._draw(it)
            case tree.Expect():
                yield self._expect(it)
            case tree.Puts():
                number = self.subject.number(it.output, self.subject.outputs, "an output of the program")
                type = self.subject.types.get(it.output.text, INT)
                puts = [(self._tag(each.moment), self.subject.constant(each.value, type)) for each in it.puts]
                yield Puts(number, tuple(puts), it.at)

    def _happens(self, it: tree.Happens) -> Iterator[Given]:
        number = self._input(it.input)
        value = self.subject.constant(it.value, self.subject.types.get(it.input.text, INT))
        for tag in self._tags(it.moments):
            yield Given(Event(self._owner(number), tag, number, value))

    def _input(self, name: texts.Name) -> int:
        return self.subject.number(name, self.subject.inputs, "an input of the program")

    def _owner(self, number: int) -> int:
        """The origin of an input; 0 where there is none, which was told."""
        return self.subject.owners[number] if self.subject.owners else 0

    def _draw(self, it: tree.Draw) -> Draw:
        count = self._bounds(it.count, INT)
        if count[0] <= count[1] and not 0 <= count[0] <= count[1] <= MOST_RECORDS:
            self.report.error(it.count.at, f"0 to {MOST_RECORDS} records are drawn")
        choices = []
        for each in it.choices:
            number = self._input(each.input)
            type = self.subject.types.get(each.input.text, INT)
            choices.append(Choice(number, self._bounds(each.values, type) if each.values else None))
        times = self._bounds(it.times, INT) if it.times else (0, self.subject.stop)
        for time, at in zip(times, (it.times.first.at, it.times.last.at) if it.times else ()):
            self._is_time(time, at)
        return Draw(count, tuple(choices), times)

    def _bounds(self, it: tree.Range, type: str) -> Bounds:
        first, last = self.subject.constant(it.first, type), self.subject.constant(it.last, type)
        if last < first:
            self.report.error(it.at, f"there is nothing from {first} to {last}", "the lesser one stands first")
        return first, last

    def _tags(self, moments: Sequence) -> Iterator[Tag]:
        for it in moments:
            if isinstance(it, tree.Moment):
                yield self._tag(it)
            else:
                yield from self._series(it)

    def _series(self, it: tree.Series) -> Iterator[Tag]:
        first, last = self._bounds(tree.Range(it.first, it.last), INT)
        step = self.subject.constant(it.step) if it.step else 1
        is_good = self._is_time(first, it.first.at) and self._is_time(last, it.last.at)
        if step < 1:
            self.report.error(it.step.at, f"this is {step}: from one time to the next it is 1 at least")
        elif is_good and (last - first) // step >= MOST_RECORDS:
            self.report.error(it.at, f"these are more than {MOST_RECORDS} events")
        elif is_good:
            for time in range(first, last + 1, step):
                yield Tag(time)

    def _tag(self, it: tree.Moment) -> Tag:
        time, micro = self.subject.constant(it.time), self.subject.constant(it.micro) if it.micro else 0
        self._is_time(time, it.time.at)
        if not 0 <= micro <= self.subject.last_micro:
            self.report.error(it.micro.at, f"this microstep is {micro}: 0 to {self.subject.last_micro} is allowed")
        return Tag(time, micro)

    def _is_time(self, time: int, at: At) -> bool:
        if 0 <= time <= self.subject.stop:
            return True
        self.report.error(at, f"this time is {time}: the program runs from 0 to {self.subject.stop}")
        return False

    def _expect(self, it: tree.Expect) -> Expected:
        for each in references(it.value):
            if each.name == LOST and (it.is_always or it.moment):
                text = "`lost` is what the whole run loses: it is not known of a time"
                self.report.error(each.at, text, "write `expect lost == 0;` by itself")
            for numbers, what, hint in (
                (self.subject.outputs, "an output", "write `expect {0} puts 3 at 25;`, or `puts nothing`"),
                (self.subject.inputs, "an input", "a test expects something of variables and outputs"),
            ):
                if each.name in numbers and each.name not in self.subject.variables:
                    name = self.subject.spelled(each.name)
                    text = f"`{name}` is {what}: it has no value that stays"
                    self.report.error(each.at, text, hint.format(name))
                    return Expected(it.value, None, False, it.at)
        self.subject.scope.constant(it.value)
        tag = None
        if it.moment:
            time, micro = self._tag(it.moment)
            tag = time, micro if it.moment.micro else None
        return Expected(it.value, tag, it.is_always, it.at)


def judge(program: Program, report: Report, tests: Sequence[Word]) -> None:
    """Tells what is wrong with tests of a program."""
    reader = Reader(Subject(program, report), report) if tests else None
    for it in tests:
        reader.test(it)


def meanings(program: Program, report: Report, tests: Sequence[Word]) -> list:
    """What tests come to, with numbers in the place of names: what is left of them where all names are forgotten."""
    subject = Subject(program, report)
    reader = Reader(subject, report)
    return [_meaning(step, subject) for word in tests for test in reader.test(word) for step in test.steps]


def _meaning(step: Step, subject: Subject) -> object:
    if isinstance(step, Expected):
        return [subject.variables.get(it.name) for it in references(step.value)], step.tag, step.is_always
    return (step.output, step.puts) if isinstance(step, Puts) else step


def references(it: object) -> Iterator[texts.Reference]:
    """What an expression names."""
    if isinstance(it, texts.Reference):
        yield it
    elif isinstance(it, tuple) and not isinstance(it, (At, texts.Name)):
        for part in it:
            yield from references(part)
    elif dataclasses.is_dataclass(it):
        for part in vars(it).values():
            yield from references(part)
