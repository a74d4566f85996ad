"""What the records of a log tell by the definitions, and whether what sessions were told of it is one order: for `.ci/serve`."""

import bisect
from collections import defaultdict
from functools import lru_cache
from operator import ge

from loopback import Wrong, holds, same


def wrapped(value):
    return (value + 2**63) % 2**64 - 2**63


class Told:
    """What a list of records tells, over a program in which an event of origin 0 doubles the variable and adds its value, one of
    origin 1 subtracts its value, and each puts the variable."""

    def __init__(self, records):
        self.count, payloads, gone, self.announced = len(records), defaultdict(set), set(), []
        for record in records:
            word, origin, *numbers = record.split()
            origin, tag, rest = int(origin), (int(numbers[0]), int(numbers[1])), [*map(int, numbers[2:])]
            if word == "event":
                payloads[origin, tag].add(tuple(rest))
            elif word == "withdraw":
                gone.add((origin, tag))
            else:
                self.announced.append((origin, tag, *rest))
        self.names = [sorted(tag for other, tag in payloads if other == origin) for origin in (0, 1)]
        self.gone = [sorted(tag for other, tag in gone if other == origin) for origin in (0, 1)]
        self.twice = {(origin, tag) for (origin, tag), some in payloads.items() if len(some) > 1}
        self.outputs, value = [], 0
        for tag in sorted({tag for origin, tag in payloads if (origin, tag) not in gone}):
            for origin in (0, 1):
                if (origin, tag) in payloads and (origin, tag) not in gone:
                    given = max(payloads[origin, tag])[1]
                    value = wrapped(2 * value + given if origin == 0 else value - given)
            self.outputs.append((tag, value))
        self.value = value
        reached = [max([(0, 0)] + [tag for other, tag, *counts in self.announced if other == origin and self.reaches(origin, tag, *counts)])
                   for origin in (0, 1)]
        self.horizon = min(reached)

    def below(self, origin, tag):
        return bisect.bisect_left(self.names[origin], tag), bisect.bisect_left(self.gone[origin], tag)

    def reaches(self, origin, tag, events, withdrawn):
        has_events, has_withdrawn = self.below(origin, tag)
        return has_events >= events and has_withdrawn >= withdrawn

    def is_broken(self, origin):
        for other, tag, events, withdrawn in self.announced:
            if other == origin:
                has_events, has_withdrawn = self.below(origin, tag)
                if has_events > events or has_withdrawn > withdrawn or any(it[0] == origin and it[1] < tag for it in self.twice):
                    return True
        return False

    def released(self):
        return [it for it in self.outputs if it[0] < self.horizon]

    def answer(self, query):
        word, *number = query.split()
        number = int(number[0]) if number else 0
        if word == "var":
            return f"var {self.count} {self.value}"
        if word == "outputs":
            return f"outputs {self.count} {len(self.outputs)}"
        if word == "released":
            return f"released {self.count} {len(self.released())}"
        if word == "horizon":
            return f"horizon {self.count} {self.horizon[0]} {self.horizon[1]}"
        if word == "breach":
            return f"breach {self.count} {int(self.is_broken(number))}"
        if word == "lost":
            return f"lost {self.count} 0"
        if word == "collect":
            return f"collected {self.count}"
        if number < len(self.outputs):
            (at, micro), value = self.outputs[number]
            return f"output {self.count} {at} {micro} 0 {value}"
        return f"none {self.count}"


REFUSED = {"var 1": 6, "nonsense": 1, "": 1, "event 0 5 0 1 3": 5, "event 2 5 0 0 3": 2, "event 0 101 0 0 3": 3, "event 0 5 0 2 3": 4,
           "breach 2": 2, "row 4294967296": 1, "x" * 129: 9, "x" * 128: 1, "event 00 5 0 0 3": 1}


# A board of a program of version 1 or 2 takes no more rows.
MOST_ROWS = 4_096


def is_record(line):
    return line.split(" ")[0] in ("event", "withdraw", "announce")


def is_of_board(line):
    return line.split(" ")[0] in ("board", "row")


class Shown:
    """What publishing behind each record of a log in turn shows on a board: behind so many records its count of rows and its flag, and
    the rows, which stay. Where the rows no longer begin what is released it freezes."""

    def __init__(self, told, count):
        self.rows, frozen, self.behind = [], 0, []
        for length in range(count + 1):
            released = told(length).released()
            if self.rows != released[:len(self.rows)]:
                frozen = 1
            if not frozen:
                self.rows = released[:MOST_ROWS]
            self.behind.append((len(self.rows), frozen))

    def reply(self, line, length):
        """The reply to a line of the board behind so many records."""
        word, *number = line.split(" ")
        count, frozen = self.behind[length]
        if word == "board":
            return f"board {count} {frozen}"
        if int(number[0]) >= count:
            return "none"
        (at, micro), value = self.rows[int(number[0])]
        return f"row {at} {micro} 0 {value}"


def next_places(said):
    """Of each line of a session the place of the first record that it brought then or later: None behind the last."""
    places, place = [], None
    for line, reply, _, _ in reversed(said):
        if is_record(line) and reply.startswith("taken "):
            place = int(reply.split(" ")[1])
        places.append(place)
    return places[::-1]


def check_board(line, reply, shown, least, most):
    """A line of the board is answered as publishing in turn has it behind so many records at least, and at most. Returns the least
    number of these."""
    for length in range(least, most + 1):
        if shown.reply(line, length) == reply:
            return length
    raise Wrong(f"{line!r} was answered {reply!r}, where publishing behind {least} to {most} records shows "
                f"{sorted({shown.reply(line, length) for length in range(least, most + 1)})}")


def check_said(log, told, shown, talk, places):
    """Each reply of a session is that of the records of the log at its length; lengths and the board never fall along it."""
    length = 0
    for (line, reply, _, _), place_behind in zip(talk.said, next_places(talk.said)):
        word, *numbers = reply.split(" ")
        if line in REFUSED:
            same(reply, f"refused {REFUSED[line]}", f"the reply to {line!r}")
        elif is_record(line):
            place = int(numbers[0])
            holds(1 <= place <= len(log) and log[place - 1] == line, f"{line!r} was answered {reply!r}, which the log has not there")
            if word == "taken":
                holds(place > length and place not in places, f"{reply!r} was told where the log had {length}, or was told twice")
                places.add(place)
            else:
                same(word, "known", f"the reply to {line!r}")
            length = max(length, place)
        elif is_of_board(line):
            # A record that this session brings later was not there yet.
            length = check_board(line, reply, shown(), length, len(log) if place_behind is None else place_behind - 1)
        else:
            count = int(numbers[0])
            holds(length <= count <= len(log), f"{reply!r} behind a reply at length {length}, and {len(log)} at last")
            length = count
            if line.startswith("log "):
                place = int(line.split(" ")[1])
                same(reply, f"log {count} {log[place - 1]}" if 1 <= place <= count else f"none {count}", f"the reply to {line!r}")
            else:
                same(reply, told(count).answer(line), f"the reply to {line!r}")


def check_order(log, talks, is_all=True):
    """What sessions were told is one order, that of the log: and what one was told was so for each line that went out after. The board
    is published behind each record in turn. `is_all`: these sessions brought each record of the log."""
    same(len(set(log)), len(log), "the number of different records in the log")
    told, places = lru_cache(None)(lambda count: Told(log[:count])), set()
    shown = lru_cache(None)(lambda: Shown(told, len(log)))
    for talk in talks:
        check_said(log, told, shown, talk, places)
    if is_all:
        same(sorted(places), [*range(1, len(log) + 1)], "the places that were told as taken")
    said = [it for talk in talks for it in talk.said]
    check_never_falls(lengths(said))
    check_never_falls(boards(said))


def lengths(said):
    """The length of the log that each reply tells. A record that is known may stand far before its end."""
    for line, reply, asked, answered in said:
        if line not in REFUSED and not is_of_board(line):
            length = int(reply.split(" ")[1]), 0
            yield line, reply, asked, answered, length, None if reply.startswith("known") else length


def boards(said):
    """What each reply tells of the board's count and flag: a row that is there, or is not, bounds the count alone."""
    for line, reply, asked, answered in said:
        if line not in REFUSED and is_of_board(line):
            word, *number = line.split(" ")
            if word == "board":
                least = most = tuple(map(int, reply.split(" ")[1:]))
            else:
                least, most = ((0, 0), (int(number[0]), 1)) if reply == "none" else ((int(number[0]) + 1, 0), None)
            yield line, reply, asked, answered, least, most


def check_never_falls(said):
    """Of each line the reply, when both were, and what it tells, as two numbers that never fall: they are at least so much, and, if it
    tells this, at most so much. That is no less than what was told before the line was asked."""
    said = [*said]
    heard = sorted((answered, least) for _, _, _, answered, least, _ in said)
    times, highest = [at for at, _ in heard], [(0, 0)]
    for _, least in heard:
        highest.append(tuple(map(max, highest[-1], least)))
    for line, reply, asked, _, _, most in said:
        before = highest[bisect.bisect_left(times, asked)]
        holds(most is None or all(map(ge, most, before)), f"{line!r} was answered {reply!r}, asked after another session was told {before}")
