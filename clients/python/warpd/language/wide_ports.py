"""Multiports and arrays of actions that are assigned, kept and scheduled as a whole: channel by channel, cell by cell."""

from __future__ import annotations

import dataclasses
from collections.abc import Iterator
from typing import TYPE_CHECKING

from . import tree
from .scope import Kind
from .tree import At
from .types import Array, Struct

if TYPE_CHECKING:
    from .forms import Form


class WidePorts:
    """What they mean in the bodies of a form."""

    def __init__(self, form: Form):
        self.form, self.node = form, form.node

    def ported(self, it):
        """What a part means that speaks of such a whole; None where it is something else."""
        match it:
            case tree.Invoke(tree.Call(tree.Name("schedule"), (tree.Reference(name), delay, *value)) as call) if self._is_wide(name):
                return tree.Block(tuple(self._scheduled(call, name, self.form.body_of(delay), value)))
            case tree.Assign(tree.Name(name), None, tree.Reference(source)) if self._is_wide(name) and self._is_many(source):
                return tree.Block(tuple(self._copied(it, name, source)))
            case tree.Assign(tree.Name(name) as kept, None, tree.Reference(source)) if self._is_wide(source) and self._is_many(name):
                return tree.Block(tuple(self._kept(kept, source, it.value.at)))
        return None

    def _is_wide(self, name: str) -> bool:
        """Whether this is a multiport of its own, or an array of actions."""
        return name in self.node.widths and name not in self.node.parts

    def _is_many(self, name: str) -> bool:
        """Whether this is that, or an array of numbers of one side."""
        type = self.node.raw.scope.types.get(name)
        return self._is_wide(name) or isinstance(type, Array) and len(type.sides) == 1 and not isinstance(type.of, Struct)

    def _values(self, source: str, count: int, at: At) -> list[tree.Expression]:
        """What so many channels get: what is on those of another multiport, or the cells of an array."""
        self.form.program.structure.take(4 * count, at, "the channels that are given as a whole come to too many parts")
        if self._is_wide(source):
            return [tree.Reference(channel, at) for channel in self.node.channels(source)[:count]]
        return [tree.Member(_cell(tree.Name(source, at), number, at), at) for number in range(count)]

    def _copied(self, it: tree.Assign, name: str, source: str) -> Iterator[tree.Statement]:
        """Puts on each channel what is on that of another multiport, where something is; or the cell of an array."""
        kind, at = self.node.kind(name), it.name.at
        if kind is not Kind.OUTPUT:
            hint = f"write `schedule({name}, delay, value);`" if kind is Kind.ACTION else "keep it in a state variable"
            self.form.report.error(at, f"`{name}` is {kind.value}: it cannot be assigned", hint)
            return
        channels = self.node.channels(name)
        for channel, value in zip(channels, self._values(source, len(channels), it.value.at)):
            put = tree.Assign(tree.Name(channel, at), None, value)
            yield _if_there(value, put) if self._is_wide(source) else put

    def _kept(self, name: tree.Name, source: str, at: At) -> Iterator[tree.Statement]:
        """Gives each cell of an array what is on the channel of a multiport, and 0 to those behind the last channel."""
        yield tree.Assign(name, None, tree.Number("0", at))
        for number, value in enumerate(self._values(source, self.node.widths[source], at)):
            yield tree.Assign(_cell(name, number, at), None, value)

    def _scheduled(self, call: tree.Call, name: str, delay: tree.Expression, value: list) -> Iterator[tree.Statement]:
        """Schedules each action of an array: with a cell of another one, with what is on a channel, where something is, or with 0."""
        channels, asks = self.node.channels(name), False
        match value:
            case []:
                values = [[]] * len(channels)
            case [tree.Reference(source, at)] if self._is_many(source):
                values, asks = [[each] for each in self._values(source, len(channels), at)], self._is_wide(source)
            case _:
                hint = f"write `schedule({name}[0], ..);` for each cell"
                self.form.report.error(value[0].at, f"`{name}` is an array: here belongs an array", hint)
                return
        for channel, each in zip(channels, values):
            scheduled = tree.Invoke(dataclasses.replace(call, parts=(tree.Reference(channel, call.parts[0].at), delay, *each)))
            yield _if_there(each[0], scheduled) if asks else scheduled


def _if_there(channel: tree.Reference, does: tree.Statement) -> tree.Statement:
    return tree.If(tree.Call(tree.Name("present", channel.at), (channel,), channel.at), (does,), ())


def _cell(name: tree.Name, number: int, at: At) -> tree.Place:
    return tree.Place(None, name, None, tree.Number(str(number), at))
