"""Both programs over the records: which they refuse, and where what the old one released is otherwise under the new one."""

from __future__ import annotations

from collections import Counter
from collections.abc import Callable, Iterable, Iterator, Mapping as Numbers, Sequence
from itertools import groupby, islice, takewhile, zip_longest
from typing import NamedTuple, Optional, Union

from .. import Client, Known, Output, Refused, Tag, Taken
from .mapping import Gone, Mapping

# So many lines are read before they are handed on.
BLOCK = 4_096
# Of each reason so many records are shown.
SHOWN = 20
OUT_OF_RANGE = 1
# What is put at a tag: the values by the numbers of the old program's outputs.
Row = tuple[Tag, dict[int, int]]


class InTheWay:
    """Records that are not taken, by reason: how many there are, and the first of them with the numbers of their lines."""

    def __init__(self) -> None:
        self._counts: Counter[str] = Counter()
        self._first: dict[str, list[tuple[int, str]]] = {}

    def add(self, why: str, number: int, line: str) -> None:
        self._counts[why] += 1
        first = self._first.setdefault(why, [])
        if len(first) < SHOWN:
            first.append((number, line))

    def __bool__(self) -> bool:
        return bool(self._counts)

    def __str__(self) -> str:
        lines = []
        for why, first in sorted(self._first.items(), key=lambda it: it[1]):
            count = self._counts[why]
            lines += [f"{count} record{'s' * (count != 1)} {why}", *(f"  line {number}: {line}" for number, line in first)]
            lines += [f"  and {count - SHOWN} more"] * (count > SHOWN)
        return "\n".join(lines)


def refusal(reply: Union[Known, Refused], version: int) -> str:
    """Why a record was not taken by a program of this version."""
    if isinstance(reply, Known):
        return f"known: it stands at place {reply.place} too"
    meaning = f"out of range in version {version}" if reply.number == OUT_OF_RANGE else reply.meaning
    return f"refused {reply.number}: {meaning}"


def take(client: Client, lines: Iterable[tuple[int, str, str]], refused: Callable[[Union[Known, Refused], int, str], None]) -> None:
    """Hands records on: of each the number of its line and what stands there are told where it is not taken, and its last part is sent."""
    lines = iter(lines)
    while block := list(islice(lines, BLOCK)):
        for (number, stands, _), reply in zip(block, client.many(it for _, _, it in block)):
            if not isinstance(reply, Taken):
                refused(reply, number, stands)


def recast(lines: Iterable[tuple[int, str]], mapping: Mapping, in_the_way: InTheWay) -> Iterator[tuple[int, str, str]]:
    """Records with what they are under the new program; what it has not is told."""
    for number, line in lines:
        try:
            yield number, line, mapping.line(line)
        except Gone as why:
            in_the_way.add(str(why), number, line)


class Comparison(NamedTuple):
    """What was released, and whether the new program puts the same before that horizon: how many values of outputs that both have, and
    the first tag at which they differ, with both rows."""

    horizon: Tag
    horizon_of_new: Tag
    count: int
    at: Optional[Tag] = None
    old: Sequence[tuple[str, int]] = ()
    new: Sequence[tuple[str, int]] = ()


def compared(before: Client, after: Client, mapping: Mapping) -> Comparison:
    """What both say of their outputs, when they have the records."""
    horizon, count = before.horizon().tag, 0
    numbers = {at: number for number, at in mapping.outputs.items()}
    olds = rows(before, before.released().count, {it: it for it in mapping.outputs}, horizon)
    news = rows(after, after.outputs().count, numbers, horizon)
    for pair in zip_longest(olds, news):
        if pair[0] != pair[1]:
            at = min(it[0] for it in pair if it)
            old, new = (it[1] if it and it[0] == at else {} for it in pair)
            told = [(mapping.old.outputs[it].told, value) for it, value in sorted(old.items())]
            told_new = [(mapping.new.outputs[mapping.outputs[it]].told, value) for it, value in sorted(new.items())]
            return Comparison(horizon, after.horizon().tag, count, at, told, told_new)
        count += len(pair[0][1])
    return Comparison(horizon, after.horizon().tag, count)


def asked(client: Client, lines: Sequence[str]) -> Iterator[Output]:
    """The answers; a refusal, as for want of memory, is raised."""
    for it in client.many(lines):
        if isinstance(it, Refused):
            raise it
        yield it


def rows(client: Client, count: int, numbers: Numbers[int, int], end: Tag) -> Iterator[Row]:
    """The first outputs, so many, as far as they are before a tag: what is put of those that have a number, at each tag that has some."""
    blocks = (range(start, min(count, start + BLOCK)) for start in range(0, count, BLOCK))
    outputs = (it for some in blocks for it in asked(client, [f"output {at}" for at in some]))
    kept = (it for it in takewhile(lambda it: it.tag < end, outputs) if it.port in numbers)
    for tag, some in groupby(kept, key=lambda it: it.tag):
        yield tag, {numbers[it.port]: it.value for it in some}
