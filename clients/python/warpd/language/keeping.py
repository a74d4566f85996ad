"""The statements of a body on their way to the program file, and which values of it are kept in variables.

A `Temp` is a value of one place. It is put in where it is used, but where something that it reads may have been
assigned since then, or where it is large and used more than once: then a variable keeps it. Values that live at
different places of a body share one variable, and so do the bodies of a reactor."""

from __future__ import annotations

from bisect import bisect_right
from collections.abc import Callable, Iterable, Iterator
from dataclasses import dataclass
from heapq import heappop, heappush
from typing import NamedTuple, Optional, Union

from .tree import At
from .values import SIMPLE, Cell, Parts, Temp, TooLarge, Value

# What has at most so many parts is put in at each of several uses, and what is at most so deep is put in at all: half
# of the depth that a program file allows, so that an expression can be cut in two by a `let`.
SMALL, DEEP = 8, 12


@dataclass(eq=False)
class Step:
    """`set`, `put` or `schedule`, the last with its delay; or `setat` with the place in the array."""

    word: str
    target: Union[str, Cell]
    value: Value
    at: At
    delay: int = 0
    place: Value = 0


@dataclass(eq=False)
class Fork:
    test: Value
    yes: list
    no: list
    at: At


@dataclass(eq=False)
class Repeat:
    """A loop of the program file."""

    most: int
    test: Value
    body: list
    at: At


@dataclass(eq=False)
class Keep:
    """The place where a value is worked out."""

    temp: Temp


Statement = Union[Step, Fork, Repeat, Keep]
Way = tuple[tuple[int, bool], ...]


class Place(NamedTuple):
    """A place in a body: its number in the order of the text, and the branches of forks in which it stands."""

    number: int
    way: Way

    def is_beside(self, other: Place) -> bool:
        """Whether the two stand in different branches of one fork, so that never both are reached."""
        return self._parts_from(other.way)

    def is_before(self, way: Way, number: int) -> bool:
        """Whether this is reached before the place with this number in these branches, where both are."""
        return self.number < number and not self._parts_from(way)

    def _parts_from(self, way: Way) -> bool:
        branches = dict(self.way)
        return any(branches.get(fork, branch) != branch for fork, branch in way)


class Life:
    """Where a value is worked out, where it is used and whether more than once, how large it is, and if it is kept.

    `parts` has what it is made of: each name, value or cell in it, and how deep it stands."""

    def __init__(self, temp: Temp, place: Place):
        self.temp, self.place = temp, place
        # Of the places in the same branches the last one.
        self.uses: dict[Way, int] = {}
        self.is_used_again = self.is_kept = False
        self.reads: set[Union[str, Cell]] = set()
        self.parts, self.own_size, self.own_depth = parts_of(temp.value)
        self.size, self.depth = self.own_size, self.own_depth


def last_uses(places: Iterable[Place]) -> dict[Way, int]:
    """Of the places in the same branches the number of the last one."""
    found: dict[Way, int] = {}
    for it in places:
        found[it.way] = max(it.number, found.get(it.way, 0))
    return found


def parts_of(value: Value) -> tuple[list[tuple[Union[str, Temp, Cell], int]], int, int]:
    """What an expression is made of, with how deep each stands, and its size and depth: one for each that it is made of."""
    found, size, most, rest = [], 0, 1, [(value, 1)]
    while rest:
        it, deep = rest.pop()
        size += 1
        most = max(most, deep)
        if isinstance(it, list):
            if it[0] not in SIMPLE:
                rest += [(part, deep + 1) for part in it[1:]]
        elif not isinstance(it, int):
            found.append((it, deep))
    return found, size, most


class Keeper:
    """Decides for one body what is kept, and writes its statements. `values` has each expression with its place."""

    def __init__(self, body: list[Statement], variable: Callable[[int], str], parts: Parts, at: At, clears: bool = False):
        """`variable` names the compiler's variable with this number, from 0. The work is counted among the `parts`, eight steps for one;
        what is too much is told at the body's place. `clears` says that each of these variables is 0 behind the body, so that no
        state differs from another by what nobody reads."""
        self.clears = clears
        self.body, self.variable, self.parts, self.at = body, variable, parts, at
        self.steps = 8 * max(parts.left, 0)
        self.lives: dict[Temp, Life] = {}
        self.direct: dict[Temp, list[Place]] = {}
        self.changes: dict[Union[str, Cell], list[Place]] = {}
        self.spans: dict[Cell, list[int]] = {}
        self.slots: dict[Union[Temp, Cell], str] = {}
        self.put_in: dict[Temp, Value] = {}
        self.values: list[tuple[At, Value]] = []
        self.count = 0
        # Where each loop begins and ends, the outer one before the inner ones, and in which branches it stands.
        self.loops: list[tuple[int, int, Way]] = []

    def statements(self) -> list:
        self._look(self.body, ())
        if self.lives:
            self._choose()
        self._share()
        self.parts.left = self.steps // 8
        made = self._written(self.body)
        return made + [["set", name, 0] for name in dict.fromkeys(self.slots.values()) if self.clears]

    def _step(self, count: int) -> None:
        self.steps -= count
        if self.steps < 0:
            raise TooLarge(self.at, "the values that this reaction keeps come to too many parts", "write it as several reactions")

    # What there is.

    def _look(self, body: Iterable[Statement], way: Way) -> None:
        """Takes in what is there, but for a cell that nothing reads."""
        for it in body:
            self.count += 1
            place = Place(self.count, way)
            if isinstance(it, Keep):
                self.lives[it.temp] = Life(it.temp, place)
            elif isinstance(it, Step):
                self._use(it.value, place)
                if it.word in ("set", "setat"):
                    self._use(it.place, place)
                    self.changes.setdefault(it.target, []).append(place)
                    self._span(it.target, place)
            elif isinstance(it, Repeat):
                number = len(self.loops)
                self.loops.append((place.number, 0, way))
                self._use(it.test, place)
                self._look(it.body, way)
                self.count += 1
                self.loops[number] = place.number, self.count, way
            else:
                self._use(it.test, place)
                self._look(it.yes, (*way, (place.number, True)))
                self._look(it.no, (*way, (place.number, False)))

    def _use(self, value: Value, place: Place) -> None:
        for it, _ in parts_of(value)[0]:
            if isinstance(it, Temp):
                self.direct.setdefault(it, []).append(place)
            else:
                self._span(it, place)

    def _span(self, it: Union[str, Cell], place: Place) -> None:
        if isinstance(it, Cell):
            self.spans.setdefault(it, [place.number, place.number])[1] = place.number

    def _behind(self, first: int, number: int) -> Optional[tuple[Way, int]]:
        """The end of the outermost loop around a place that begins behind another place: what is known there is asked
        for in each turn."""
        for begin, end, way in self.loops:
            if first < begin <= number <= end:
                return way, end
        return None

    # What is kept.

    def _choose(self) -> None:
        """Keeps as little as one of two ways finds: the last values that must be, or the first."""
        found = []
        for way in (self._keep_last, self._keep_first):
            way()
            found.append(({temp for temp, life in self.lives.items() if life.is_kept}, self._slots_needed()))
            if found[-1][1] <= 1:
                return
        self._settle(min(found, key=lambda it: it[1])[0])

    def _keep_last(self) -> None:
        """From the last value back: one is kept where its parts, all of them, may have changed before a use."""
        self._measure_all(set())
        for temp, life in self._backward():
            life.is_kept = life.is_kept or self._is_changed(life)
        self._settle({temp for temp, life in self.lives.items() if life.is_kept})

    def _keep_first(self) -> None:
        """From the first value on: what is made of one that is kept reads no more than that."""
        for life in self.lives.values():
            life.is_kept = False
        for _ in self._backward():
            pass
        self._measure_all(None)
        self._settle({temp for temp, life in self.lives.items() if life.is_kept})

    def _settle(self, kept: set[Temp]) -> None:
        """Keeps these values, and those that are large with them."""
        self._measure_all(kept)
        for _ in self._backward():
            pass
        self._measure_all(kept)

    def _backward(self) -> Iterator[tuple[Temp, Life]]:
        """Each value, the last first, with its uses: also in others that are put in; of one that is kept, where that is
        made. Who is handed it may decide whether it is kept."""
        for temp, life in self.lives.items():
            places = self.direct.get(temp, ())
            life.uses, life.is_used_again = last_uses(places), len(places) > 1
            self._again(life, life.uses)
        for temp in reversed(self.lives):
            life = self.lives[temp]
            if not life.uses:
                life.is_kept = False
                continue
            yield temp, life
            for it, _ in life.parts:
                if isinstance(it, Temp):
                    inner = self.lives[it]
                    inner.is_used_again |= bool(inner.uses) or life.is_used_again and not life.is_kept
                    more = {life.place.way: life.place.number} if life.is_kept else life.uses
                    self._step(len(more))
                    for way, number in more.items():
                        inner.uses[way] = max(number, inner.uses.get(way, 0))
                    self._again(inner, more)

    def _again(self, life: Life, uses: dict[Way, int]) -> None:
        """Adds the ends of loops in which a value of a place before them is used: it is so in each turn."""
        for number in [*uses.values()] if self.loops else ():
            found = self._behind(life.place.number, number)
            if found:
                way, end = found
                life.uses[way] = max(end, life.uses.get(way, 0))
                life.is_used_again = True

    def _measure_all(self, kept: Optional[set[Temp]]) -> None:
        """Works out, from the first value on, what each reads and how large it is, and keeps these values and large
        ones. With None those are kept that may have changed before a use."""
        for temp, life in self.lives.items():
            life.reads, life.size, life.depth = set(), life.own_size, life.own_depth
            for it, deep in life.parts:
                if not isinstance(it, Temp):
                    life.reads.add(it)
                elif not self.lives[it].is_kept:
                    inner = self.lives[it]
                    life.reads |= inner.reads
                    life.size += inner.size - 1
                    life.depth = max(life.depth, deep + inner.depth - 1)
            is_large = life.size > SMALL and life.is_used_again or life.depth > DEEP
            is_kept = temp in kept if kept is not None else bool(life.uses) and self._is_changed(life)
            life.is_kept = is_kept or is_large and bool(life.uses)

    def _is_changed(self, life: Life) -> bool:
        """Whether something that it reads may be assigned between its place and a use."""
        last, first = max(life.uses.values()), life.place.number
        for name in life.reads:
            changes = self.changes.get(name, ())
            for place in range(bisect_right(changes, first, key=lambda it: it.number), len(changes)):
                change = changes[place]
                if change.number >= last:
                    break
                self._step(1 + len(life.uses))
                if not change.is_beside(life.place) and any(change.is_before(*use) for use in life.uses.items()):
                    return True
        return False

    # Which variable keeps it.

    def _alive(self) -> list[tuple[int, int, Union[Temp, Cell]]]:
        """From where to where each kept value and each cell lives, in the order of the text."""
        spans = {it: [*span] for it, span in self.spans.items()}
        alive = []
        for temp, life in self.lives.items():
            last = max(life.uses.values(), default=0)
            if life.is_kept:
                alive.append((life.place.number, last, temp))
            for it, _ in life.parts:
                if isinstance(it, Cell) and life.uses:
                    spans[it][1] = max(spans[it][1], life.place.number if life.is_kept else last)
        for span in spans.values() if self.loops else ():
            found = self._behind(*span)
            span[1] = found[1] if found else span[1]
        return sorted([*alive, *((*span, it) for it, span in spans.items())], key=lambda it: it[:2])

    def _slots_needed(self) -> int:
        return max((number + 1 for _, number in self._numbered()), default=0)

    def _numbered(self) -> Iterator[tuple[Union[Temp, Cell], int]]:
        """Each of them with the number of its variable: the first that is free where it begins to live."""
        busy: list[tuple[int, int]] = []
        free: list[int] = []
        for first, last, it in self._alive():
            while busy and busy[0][0] <= first:
                heappush(free, heappop(busy)[1])
            number = heappop(free) if free else len(busy)
            heappush(busy, (last, number))
            yield it, number

    def _share(self) -> None:
        for it, number in self._numbered():
            self.slots[it] = self.variable(number)

    # What is written.

    def _written(self, body: Iterable[Statement]) -> list:
        found = []
        for it in body:
            if isinstance(it, Keep):
                if self.lives[it.temp].is_kept:
                    found.append(["set", self.slots[it.temp], self._value(it.temp.value, it.temp.at)])
                else:
                    self.put_in[it.temp] = self._plain(it.temp.value)
            elif isinstance(it, Fork):
                test = self._value(it.test, it.at)
                found.append(["if", test, self._written(it.yes), self._written(it.no)])
            elif isinstance(it, Repeat):
                test = self._value(it.test, it.at)
                found.append(["while", it.most, test, self._written(it.body)])
            else:
                target = self.slots[it.target] if isinstance(it.target, Cell) else it.target
                delay = [it.delay] if it.word == "schedule" else [self._value(it.place, it.at)] if it.word == "setat" else []
                found.append([it.word, target, *delay, self._value(it.value, it.at)])
        return found

    def _value(self, value: Value, at: At) -> Value:
        made = self._plain(value)
        self.values.append((at, made))
        return made

    def _plain(self, value: Value) -> Value:
        if isinstance(value, list):
            return [value[0], *map(self._plain, value[1:])]
        if isinstance(value, Temp):
            return self.slots.get(value) or self.put_in[value]
        return self.slots[value] if isinstance(value, Cell) else value
