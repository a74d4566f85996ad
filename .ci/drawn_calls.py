"""Drawn calls of `warp_cases`, whose answers are worked out here from the definitions alone: for `.ci/cases`.

- Replicas of four programs take drawn records of two origins, with repeats, withdrawals and announcements, and collect now and
  then; behind each record all queries are asked. Two logs of one program are merged again and again. All of it is done over the
  timeline that rolls back and over the one that runs from the start: both answer as the definitions say. The one executes no more
  rows than those at tags from the least at which an event changed, and sixteen, where nothing came behind what was let go of, and
  none where no event changed; the other all rows where one changed.
- So they do where the program is raised on the way, to version 2, to version 3, and from the one to the other, over names of all microsteps.
- An arena takes, frees and is walked along, beside a sorted list.
"""

import json
import random
from bisect import bisect_left
from functools import partial
from importlib.machinery import SourceFileLoader
from importlib.util import module_from_spec, spec_from_loader
from pathlib import Path

from flat_calls import ECHO, program


def by_definition():
    """The rows of a run by the definitions, of the script that compares traces with them."""
    loader = SourceFileLoader("traces", str(Path(__file__).with_name("traces")))
    module = module_from_spec(spec_from_loader(loader.name, loader))
    loader.exec_module(module)
    return module


TRACES = by_definition()

# Two origins, an action, a timer and a link with a delay; each step puts an output.
MIXED = program([
    {"name": "m", "vars": [["k", 0]], "inputs": ["a"], "outputs": ["y", "z"], "actions": [["c", 2]], "timers": [["t", 3, 11]], "reactions": [
        {"on": ["a"], "writes": ["y", "c"], "body": [["set", "k", ["+", ["*", 3, "k"], "a"]], ["schedule", "c", 0, "k"], ["put", "y", "k"]]},
        {"on": ["c"], "writes": ["z"], "body": [["set", "k", ["-", "k", "c"]], ["put", "z", "k"]]},
        {"on": ["t"], "writes": ["z"], "body": [["set", "k", ["+", "k", 1]], ["put", "z", "k"]]}]},
    {"name": "n", "vars": [["s", 0]], "inputs": ["b", "x"], "outputs": ["w"], "reactions": [
        {"on": ["b", "x"], "writes": ["w"], "body": [["set", "s", ["+", ["+", "s", "b"], ["*", 7, "x"]]], ["put", "w", "s"]]}]}],
    stop=60, links=[["m.y", "n.x", 5]], inputs=[[0, "m.a"], [1, "n.b"]], outputs=["m.y", "m.z", "n.w"])
# An action that comes again at the next microstep while there is a rest; each step puts an output.
CASCADE = program([{"name": "d", "vars": [["k", 0]], "inputs": ["a", "b"], "outputs": ["y"], "actions": [["c", 0]], "reactions": [
    {"on": ["a", "b"], "writes": ["c", "y"], "body": [
        ["set", "k", ["+", "k", ["-", "a", "b"]]], ["schedule", "c", 0, ["+", "a", "b"]], ["put", "y", "k"]]},
    {"on": ["c"], "writes": ["c", "y"], "body": [
        ["set", "k", ["+", ["*", 5, "k"], "c"]], ["put", "y", "k"], ["if", ["<", 0, "c"], [["schedule", "c", 0, ["-", "c", 2]]], []]]}]}],
    stop=60, inputs=[[0, "d.a"], [1, "d.b"]], outputs=["d.y"])
# An action with a delay; the variable is the last value that came.
LATEST = program([{"name": "l", "vars": [["v", 0]], "inputs": ["a", "b"], "outputs": ["y"], "actions": [["c", 4]], "reactions": [
    {"on": ["a", "b"], "writes": ["y", "c"], "body": [["set", "v", ["-", "a", "b"]], ["schedule", "c", 0, "a"], ["put", "y", "v"]]},
    {"on": ["c"], "writes": ["y"], "body": [["put", "y", "c"]]}]}],
    stop=10_000, inputs=[[0, "l.a"], [1, "l.b"]], outputs=["l.y"])
ALL_MICROSTEPS = (0, 0, 1, 2, 14, 15, 16, 254, 255)
MIXED, CASCADE, LATEST = (json.dumps({**json.loads(text), "origins": 2}) for text in (MIXED, CASCADE, LATEST))
# In version 3 nothing is lost of what comes again 16 times.
MIXED_3, CASCADE_3 = (json.dumps({**json.loads(text), "version": 3}) for text in (MIXED, CASCADE))
# How many rows more than the changed ones may be executed again.
SLACK = 16
QUERIES = ["outputs", "horizon", "released", "lost", *(f"{word} {number}" for word in ("var", "breach", "log") for number in range(3))]


class State(TRACES.State):
    """A run that counts what is lost."""

    lost = 0

    def enter(self, tag, target, value):
        self.lost += (tag, target) not in self.pending and len(self.pending) == TRACES.MOST_PENDING
        super().enter(tag, target, value)

    def land(self, tag, delay, target, value):
        self.lost += delay == 0 and tag[1] == TRACES.LAST_MICROSTEP[self.file.tree["version"]]
        super().land(tag, delay, target, value)


class Log:
    """A log of a program, what its records tell, and the least tag at which an event changed since it was settled, if one did."""

    def __init__(self, text):
        self.file = TRACES.File(json.loads(text))
        self.records, self.places, self.lines = TRACES.Records(self.file, []), {}, []
        self.least, self.run = (0, 0), None

    def counting(self, origin, tag):
        """The payload of a name that counts."""
        payloads = self.records.payloads.get((origin, tag))
        return max(payloads) if payloads and (origin, tag) not in self.records.withdrawn else None

    def take(self, line):
        """The answer to `take LINE`."""
        if line in self.places:
            return f"known {self.places[line]}"
        word, origin, time, micro, *_ = line.split()
        name = int(origin), (int(time), int(micro))
        # A case reads lines in the widest form, so it is the program that has a reason against a microstep.
        if name[0] < self.file.tree["origins"] and name[1][1] > TRACES.LAST_MICROSTEP[self.file.tree["version"]]:
            return "refused 3"
        before, reason = self.counting(*name), self.records.take(line)
        if reason:
            return f"refused {reason}"
        if self.counting(*name) != before:
            self.least, self.run = min(self.least or name[1], name[1]), None
        self.lines.append(line)
        self.places[line] = len(self.lines)
        return f"taken {len(self.lines)}"

    def merge(self, other):
        for line in other.lines:
            self.take(line)
        return f"merged {len(other.lines)} into {len(self.lines)}"

    def raise_to(self, version):
        """The program is of this version now, where it was of no later one."""
        tree = self.file.tree
        self.file = self.records.file = TRACES.File({**tree, "version": max(version, tree["version"])})
        self.least, self.run = (0, 0), None

    def settled(self):
        """The run, made anew where an event changed."""
        if not self.run:
            events, self.run = self.records.events(), State(self.file)
            waiting = sorted(events)
            while waiting or self.run.pending:
                tag = min([*waiting[:1], *(at for at, _ in self.run.pending)])
                self.run.step(tag, events.get(tag, {}))
                waiting = waiting[1:] if waiting[:1] == [tag] else waiting
            names = self.file.outputs
            self.outputs = [(*row["tag"], names.index(name), value) for row in self.run.rows for name, value in row["outputs"].items()]
        return self.run

    def tags(self):
        return [tuple(row["tag"]) for row in self.settled().rows]

    def told(self):
        """The horizon, and which origins broke an announcement: there are more names before its end than it says, or two payloads."""
        reached, broken = [(0, 0)] * self.file.tree["origins"], set()
        two = [name for name, some in self.records.payloads.items() if len(some) > 1]
        names = [[sorted(tag for other, tag in some if other == origin) for some in (self.records.payloads, self.records.withdrawn, two)]
                 for origin in range(len(reached))]
        for origin, end, events, withdrawn in self.records.announced:
            has_events, has_withdrawn, has_two = (bisect_left(tags, end) for tags in names[origin])
            if has_events >= events and has_withdrawn >= withdrawn:
                reached[origin] = max(reached[origin], end)
            if has_events > events or has_withdrawn > withdrawn or has_two:
                broken.add(origin)
        return min(reached), broken

    def answer(self, query, horizon, broken):
        word, *number = query.split()
        length, number = len(self.lines), int(number[0]) if number else 0
        if word == "log":
            return f"log {length} {self.lines[number - 1]}" if 1 <= number <= length else f"none {length}"
        if word == "breach":
            return f"breach {length} {int(number in broken)}" if number < self.file.tree["origins"] else "refused 2"
        if word == "var":
            values = [*self.settled().variables.values()]
            return f"var {length} {values[number]}" if number < len(values) else "refused 6"
        if word == "horizon":
            return "horizon {} {} {}".format(length, *horizon)
        lost = self.settled().lost
        counts = {"outputs": len(self.outputs), "lost": lost, "released": sum(out[:2] < horizon for out in self.outputs)}
        return f"{word} {length} {counts[word]}"

    def answers(self):
        """The answers to all queries, and all outputs."""
        self.settled()
        length, (horizon, broken) = len(self.lines), self.told()
        return [*(self.answer(query, horizon, broken) for query in QUERIES),
                *("output {} {} {} {} {}".format(length, *out) for out in self.outputs), f"none {length}"]


class Watch:
    """Tests how many rows a replica executes: whether it is `slow`, whether the beginning was behind what it let go of, and how many
    records came behind."""

    def __init__(self, is_slow):
        self.is_slow, self.had, self.rows, self.behind = is_slow, False, 0, 0

    def executed(self, text):
        """The rows of a settling, which are tested with what comes next."""
        self.rows = int(text.split()[0])
        return text == f"{self.rows} rows"

    def was_bounded(self, every, most, text):
        """A slow replica executes every row or none. Another one may execute all where a record came behind, and else so many at most."""
        came = self.had and text == "behind false"
        self.had = text == "behind true"
        self.behind += came
        return self.rows == every if self.is_slow else came or self.rows <= most

    def has_raised(self, text):
        """A raised replica has let go of nothing."""
        self.had = False
        return text == "raised"

    def has_collected(self, text):
        self.had = text == "behind true"
        return text in ("behind true", "behind false")


class Play:
    """Lines for replicas, and what must be printed: a text, or a test that a `Watch` makes of it."""

    def __init__(self, name, text, least_behind=0):
        self.name, self.text, self.least_behind, self.lines, self.wanted = name, text, least_behind, [], []

    def ask(self, line, *wanted):
        self.lines.append(line)
        self.wanted += wanted

    def ask_all(self, log):
        self.lines += [*(f"answer {query}" for query in QUERIES), "outputs"]
        self.wanted += log.answers()

    def settle(self, log, most=None):
        """Settles, with so many rows at most, or those that may have changed and the slack."""
        tags, is_changed = log.tags(), log.least is not None
        changed = sum(tag >= log.least for tag in tags) + SLACK if is_changed else 0
        log.least = None
        self.ask("rows", Watch.executed)
        self.ask("behind 0 0", partial(Watch.was_bounded, every=is_changed * len(tags), most=changed if most is None else most))
        self.ask_all(log)

    def raise_to(self, version, log):
        log.raise_to(version)
        self.ask(f"raise_to {version}", Watch.has_raised)
        self.settle(log)

    def collect(self, log):
        self.ask("collect", f"collected {len(log.lines)}")
        self.ask("behind 0 0", Watch.has_collected)
        self.ask_all(log)

    def of_other(self, line, said):
        """The other replica is asked."""
        self.lines += ["exchange", line, "exchange"]
        self.wanted.append(said)


class Replayed:
    """A play over one of the timelines."""

    def __init__(self, play, word):
        self.name, self.word, self.play = f"{play.name}: {word}", word, play

    def given(self):
        return "".join(f"{line}\n" for line in (self.play.text, *self.play.lines))

    def fault(self, said):
        watch = Watch(self.word == "twins")
        for at, (text, wanted) in enumerate(zip(said, self.play.wanted), 1):
            if not (wanted(watch, text=text) if callable(wanted) else text == wanted):
                return f"line {at} is {text!r}, wanted {wanted!r}, behind {watch.rows} rows"
        if len(said) != len(self.play.wanted):
            return f"{len(said)} lines, wanted {len(self.play.wanted)}"
        few = not watch.is_slow and watch.behind < self.play.least_behind
        return f"only {watch.behind} records came behind" if few else ""


def drawn(dice, latest, microsteps=(0, 1, 2)):
    """A record of two origins: more often an event than a withdrawal or an announcement, which ends at `latest` at the latest."""
    origin, time, micro, kind = dice.randrange(2), dice.randrange(60), dice.choice(microsteps), dice.randrange(8)
    if kind < 2:
        return f"withdraw {origin} {time} {micro}"
    if kind == 2:
        return f"announce {origin} {min(time, latest)} {micro} {dice.randrange(5)} {dice.randrange(2)}"
    return f"event {origin} {time} {micro} {origin} {dice.randrange(7)}"


def taking(name, text, seed):
    """Records, each with all answers behind it, and behind each eighth it collects."""
    play, log, dice = Play(f"drawn records, {name}", text, 5), Log(text), random.Random(seed)
    play.settle(log)
    for turn in range(TURNS):
        line = drawn(dice, len(log.lines) // 8)
        play.ask(f"take {line}", log.take(line))
        play.settle(log)
        if turn % 8 == 0:
            play.collect(log)
    return play


def raising(name, text, seed, versions, least_behind=2):
    """The same, where the program is raised to these versions in turn, each time behind as many records."""
    words = " and ".join(map(str, versions))
    play, log, dice = Play(f"drawn records, {name}, raised to {words}", text, least_behind), Log(text), random.Random(seed)
    play.settle(log)
    for version in (None, *versions):
        if version:
            play.raise_to(version, log)
        for turn in range(PART):
            line = drawn(dice, len(log.lines) // 8, ALL_MICROSTEPS)
            play.ask(f"take {line}", log.take(line))
            play.settle(log)
            if turn % 8 == 0:
                play.collect(log)
    return play


def merging(name, text, seed, version=None):
    """The one takes records, and the other takes others; now and then each takes what the other has. The one collects where it
    settled, and the other settles apart. Where a version is given, both are raised to it first."""
    play, one, other, dice = Play(f"drawn records and mergings, {name}", text, 10), Log(text), Log(text), random.Random(seed)
    if version:
        one.raise_to(version), other.raise_to(version)
        play.ask(f"raise_to {version}", Watch.has_raised)
        play.of_other(f"raise_to {version}", "raised")
    for _ in range(5 * TURNS // 2):
        line, turn = drawn(dice, len(one.lines) // 8), dice.randrange(64)
        if turn < 24:
            play.of_other(f"take {line}", other.take(line))
        else:
            play.ask(f"take {line}", one.take(line))
        if turn == 0:
            play.ask("merge", one.merge(other))
            play.of_other("merge", other.merge(one))
        if turn % 4 == 1:
            play.of_other("settle", "settled")
        if turn % 4 == 2:
            play.settle(one)
            play.collect(one)
    return play


# Behind four hundred events at each tenth time: late ones, what is withdrawn, and another value. As the program keeps the
# last value alone, each costs few rows where what was executed stands once the state is again what it was.
TARDY = ["event 0 15 0 0 7", "event 1 2000 0 1 8", "withdraw 0 15 0", "event 0 20 0 0 9", "withdraw 0 2560 0"]
FEW = 50


def forgetting():
    play, log = Play("what is forgotten costs little", LATEST), Log(LATEST)
    for time in range(1, 401):
        line = f"event 0 {10 * time} 0 0 {time}"
        play.ask(f"take {line}", log.take(line))
        play.ask("rows", Watch.executed)
    log.least = None
    for line in TARDY:
        play.ask(f"take {line}", log.take(line))
        play.settle(log, FEW)
    return play


class Arena:
    """Drawn calls of an arena of three origins, beside a sorted list; behind each of them all names are told, and their links."""

    name, word = "drawn calls of an arena", "arenas"

    def __init__(self, seed, count):
        self.lines, self.said, self.names, dice = [], [], {}, random.Random(seed)
        for _ in range(count):
            self.call(dice)
            entries = [self.told(name) for name in sorted(self.names)]
            self.ask("walk", *entries)
            self.ask("links", f"{len(entries)} linked, empty {str(not entries).lower()}, full false")

    def ask(self, line, *said):
        self.lines.append(line)
        self.said += said

    def told(self, name):
        if name not in self.names:
            return "none"
        (time, micro, origin), (withdrawn, payload) = name, self.names[name]
        return " ".join(map(str, (origin, time, micro, "withdrawn" if withdrawn else "there", *(payload or ()))))

    def call(self, dice):
        time, micro, origin, kind = dice.randrange(17), dice.randrange(3), dice.randrange(3), dice.randrange(10)
        if kind == 0:
            left = {name: known for name, known in self.names.items() if name[:2] > (time, micro)}
            self.ask(f"free {time} {micro}", f"freed {len(self.names) - len(left)}")
            self.names = left
            return
        name = time, micro, origin
        self.ask(f"find {origin} {time} {micro}", self.told(name))
        withdrawn, payload = self.names.get(name, (False, None))
        way = dice.choice(["", "insert "])
        if kind < 3:
            self.names[name] = True, payload
            line = f"{way}withdraw {origin} {time} {micro}"
        else:
            put = dice.randrange(2), dice.randrange(-3, 4)
            self.names[name] = withdrawn, max(payload or put, put)
            line = f"{way}event {origin} {time} {micro} {put[0]} {put[1]}"
        self.ask(line, f"{len(self.names)} names")

    def given(self):
        return "".join(f"{line}\n" for line in ("twice", *self.lines))

    def fault(self, said):
        at = next((n for n, (one, other) in enumerate(zip(said, self.said)) if one != other), min(len(said), len(self.said)))
        if at == len(said) == len(self.said):
            return ""
        got, wanted = (lines[at] if at < len(lines) else "nothing" for lines in (said, self.said))
        return f"line {at + 1} is {got!r}, wanted {wanted!r}"


TURNS, PART = 400, 60
DRAWS = [("a timer, an action and a delayed link", MIXED, 1), ("an action that comes again", CASCADE, 2), ("one origin", ECHO, 14),
         ("the last value", LATEST, 5), ("an action that comes again, in version 3", CASCADE_3, 7),
         ("a timer, an action and a delayed link, in version 3", MIXED_3, 8)]


# Each raised from version 1: the same records have other rows where more microsteps are there, and the same where only the log is longer.
RAISED = [(*DRAWS[0][:2], 21, (2, 3)), (*DRAWS[1][:2], 22, (2, 3)), (*DRAWS[1][:2], 23, (3, 2)), (*DRAWS[2][:2], 24, (3,), 0),
          (*DRAWS[3][:2], 25, (1, 3))]


def cases():
    plays = [*(taking(*draw) for draw in DRAWS), merging("a timer, an action and a delayed link", MIXED, 4), forgetting(),
             *(raising(*draw) for draw in RAISED), merging("in version 3", MIXED, 6, 3)]
    yield from (Replayed(play, word) for play in plays for word in ("replicas", "twins"))
    yield Arena(2026, 2000)
