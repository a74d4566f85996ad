"""Records that are drawn for a property; and how those that show a fault are made fewer and simpler."""

from __future__ import annotations

import random
from collections.abc import Callable, Iterator, Sequence
from typing import TypeVar, Union

from ... import Event, Tag, Withdraw
from .plan import ASK, Bounds, Draw, Given, Query, Step
from .subject import Subject

# So often a shorter or simpler one is tried.
MOST_TRIES = 400
# How many tags are tried for an event, whose name must not be there.
TRIES = 20

Part = TypeVar("Part")


def drawn(steps: Sequence[Step], subject: Subject, dice: random.Random) -> list[Step]:
    """The steps with records in the place of each `draw`."""
    made: list[Step] = []
    names = {it.name for it in steps if isinstance(it, Given)}
    for step in steps:
        if not isinstance(step, Draw):
            made.append(step)
            continue
        for _ in range(dice.randint(*step.count)):
            made += _one(step, [it for it in made if isinstance(it, Given)], names, subject, dice)
    return made


def _one(draw: Draw, before: Sequence[Given], names: set, subject: Subject, dice: random.Random) -> list[Given]:
    choice = dice.choice(draw.choices)
    origin = subject.owners[choice.input]
    if choice.values is None:
        events = [it.record for it in before if isinstance(it.record, Event) and it.record.origin == origin]
        return [Given(Withdraw(origin, dice.choice(events).tag))] if events else []
    for number in range(TRIES):
        tag = Tag(dice.randint(*draw.times), 0 if number < TRIES // 2 else dice.randint(0, subject.last_micro))
        if (origin, tag) not in names:
            names.add((origin, tag))
            return [Given(Event(origin, tag, choice.input, _value(choice.values, dice)), choice.values, draw.times)]
    return []


def _value(bounds: Bounds, dice: random.Random) -> int:
    """Any value, and the ends and what is near to 0 more often."""
    first, last = bounds
    near = [it for it in (first, last, 0, 1, -1) if first <= it <= last]
    return dice.choice(near) if dice.random() < 0.25 else dice.randint(first, last)


class Smaller:
    """Makes what shows a fault fewer and simpler, as long as it still shows it."""

    def __init__(self, shows: Callable[[list], bool]):
        self.shows, self.left = shows, MOST_TRIES

    def made(self, parts: Sequence[Union[Given, Query]]) -> list[Union[Given, Query]]:
        found = self._fewer(list(parts))
        simpler = True
        while simpler:
            found, simpler = self._simpler(found)
        return self._fewer(found)

    def _shows(self, parts: list) -> bool:
        self.left -= 1
        return self.left >= 0 and self.shows(parts)

    def _fewer(self, parts: list) -> list:
        """Without as many as can be, in pieces of half, a quarter and so on."""
        size = len(parts)
        while size:
            place = 0
            while place < len(parts):
                without = parts[:place] + parts[place + size:]
                if self._shows(without):
                    parts = without
                else:
                    place += size
            size //= 2
        return parts

    def _simpler(self, parts: list) -> tuple[list, bool]:
        """With one value or time that is simpler; False where there is none."""
        names = {it.name for it in parts if it is not ASK}
        for place, it in enumerate(parts):
            for other in _simplified(it) if it is not ASK and isinstance(it.record, Event) else ():
                if (other.name == it.name or other.name not in names) and self._shows(
                    parts[:place] + [other] + parts[place + 1:]
                ):
                    return parts[:place] + [other] + parts[place + 1:], True
        return parts, False


def _simplified(it: Given) -> Iterator[Given]:
    """The event with a simpler value, or earlier."""
    event = it.record
    if it.values:
        for value in _nearer(event.value, it.values):
            yield it._replace(record=event._replace(value=value))
    if it.times:
        first, _ = it.times
        if event.tag.micro:
            yield it._replace(record=event._replace(tag=Tag(event.tag.time)))
        for time in _nearer(event.tag.time, (first, event.tag.time)):
            yield it._replace(record=event._replace(tag=Tag(time, event.tag.micro)))


def _nearer(value: int, bounds: Bounds) -> list[int]:
    """Values nearer to 0, or to the bound that is nearest to it: that itself first."""
    first, last = bounds
    goal = min(max(0, first), last)
    middle = (goal + value) // 2 if value > goal else -((-goal - value) // 2)
    found = [goal, middle, value + (1 if value < goal else -1)]
    return [it for it in dict.fromkeys(found) if abs(it - goal) < abs(value - goal)]
