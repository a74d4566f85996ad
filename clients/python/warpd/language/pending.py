"""How many values may wait behind delays at once: those that timers bring, one at each of their ticks."""

from __future__ import annotations

from collections.abc import Iterator
from typing import NamedTuple

from .faults import Report
from .model import Port, Program
from .tree import At
from .values import lists_of

MOST_PENDING = 256


class Delayed(NamedTuple):
    """What leads from a trigger to another: at once, or behind a delay."""

    target: Port
    delay: int
    at: At


def warn_of_lost(program: Program, report: Report) -> None:
    """Tells the delay behind which most values wait, where they are more than entries can be pending."""
    leads = _leads(program)
    waiting: dict[At, int] = {}
    for name, it in program.instances.items():
        for timer, offset, period in it.reactor.get("timers", ()):
            ticks = _ticks(program.stop, offset, period)
            for each in _behind(leads, Port(name, timer)):
                wait = -(-each.delay // period) if period else 1
                waiting[each.at] = waiting.get(each.at, 0) + min(ticks, wait)
    if sum(waiting.values()) > MOST_PENDING:
        at = max(waiting, key=waiting.get)
        text = f"as many as {waiting[at]} values may wait here at once: at most {MOST_PENDING} entries of a program are pending"
        report.warning(at, text, "what is more is lost: take a shorter delay, or a longer period")


def _ticks(stop: int, offset: int, period: int) -> int:
    if offset > stop:
        return 0
    return (stop - offset) // period + 1 if period else 1


def _leads(program: Program) -> dict[Port, list[Delayed]]:
    """Where what comes to each trigger leads."""
    links: dict[Port, list[Delayed]] = {}
    for it in program.links:
        links.setdefault(it.source, []).append(Delayed(it.target, it.delay or 0, it.at))
    leads: dict[Port, list[Delayed]] = {}
    for name, it in program.instances.items():
        least = {action: delay for action, delay, *_ in it.reactor.get("actions", ())}
        for check, reaction in zip(it.of.reactions, it.reactor.get("reactions", ())):
            found = [each for output in reaction.get("writes", ()) for each in links.get(Port(name, output), ())]
            longest: dict[str, int] = {}
            for action, delay in _schedules(reaction.get("body", ())):
                longest[action] = max(delay, longest.get(action, 0))
            found += [Delayed(Port(name, it), least[it] + delay, check.reaction.at) for it, delay in longest.items()]
            for trigger in reaction["on"]:
                leads.setdefault(Port(name, trigger), []).extend(found)
    return leads


def _schedules(statements: list) -> Iterator[tuple[str, int]]:
    """The actions that a list schedules, with the delays that stand there."""
    for it in statements:
        if it[0] == "schedule":
            yield it[1], it[2]
        for inner in lists_of(it):
            yield from _schedules(inner)


def _behind(leads: dict[Port, list[Delayed]], start: Port) -> set[Delayed]:
    """The delays that what comes to `start` leads through."""
    found: set[Delayed] = set()
    seen, rest = {start}, [start]
    while rest:
        for each in leads.get(rest.pop(), ()):
            if each.delay:
                found.add(each)
            if each.target not in seen:
                seen.add(each.target)
                rest.append(each.target)
    return found
