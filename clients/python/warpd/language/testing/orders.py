"""Orders in which the records of a test may come to a replica: shuffled, late, put again, with others that are
withdrawn, and with queries between, at which it executes what it has."""

from __future__ import annotations

import random
from collections.abc import Sequence
from typing import Union

from ... import Event, Tag, Withdraw
from .plan import ASK, Given, Query
from .subject import Subject

MOST_WITHDRAWN = 3
# How many tags are tried for an event that is withdrawn again.
TRIES = 20


def by_tag(arrival: Sequence[Union[Given, Query]]) -> list[Given]:
    """The records in the order of their tags, each once: no one is late."""
    records = dict.fromkeys(it.record for it in arrival if it is not ASK)
    return [Given(it) for it in sorted(records, key=lambda it: (it.tag, it.origin, isinstance(it, Withdraw)))]


def shuffled(records: Sequence[Given], subject: Subject, number: int, dice: random.Random) -> list[Union[Given, Query]]:
    """The order with this number: in the first the latest comes first, and each record is asked for."""
    if number == 0:
        return [each for it in reversed(by_tag(records)) for each in (it, ASK)]
    made: list[Union[Given, Query]] = [*records, *_withdrawn(records, subject, dice)]
    dice.shuffle(made)
    again = [it for it in made if dice.random() < 0.25]
    for it in again:
        made.insert(dice.randint(made.index(it) + 1, len(made)), it)
    return [each for it in made for each in ([it, ASK] if dice.random() < 0.5 else [it])]


def _withdrawn(records: Sequence[Given], subject: Subject, dice: random.Random) -> list[Given]:
    """Events under names of their own, with their withdrawals: they change nothing."""
    names, found = {it.name for it in records}, []
    events = [it.record for it in records if isinstance(it.record, Event)]
    last = min(subject.stop, max((it.tag.time for it in events), default=0) + 10)
    for _ in range(dice.randint(0, MOST_WITHDRAWN) if subject.inputs else 0):
        number = dice.randrange(len(subject.inputs))
        values = [it.value for it in events if it.input == number] or [1]
        for _ in range(TRIES):
            name = subject.owners[number], Tag(dice.randint(0, last), dice.randint(0, 1))
            if name not in names:
                names.add(name)
                found += [Given(Event(*name, number, dice.choice(values))), Given(Withdraw(*name))]
                break
    return found
