"""Ports and actions of structs: one for each field, all of which are put or scheduled together."""

from __future__ import annotations

import dataclasses
from typing import TYPE_CHECKING, Optional

from . import tree
from .faults import listed, nearest
from .scope import Kind
from .tree import At
from .types import Struct

if TYPE_CHECKING:
    from .forms import Form


class StructPorts:
    """What they mean in the members and bodies of a form."""

    def __init__(self, form: Form):
        self.form, self.node = form, form.node

    def members(self, it: tree.Part) -> list[tree.Part]:
        """A member of the reactor: an action for each field of one that has a struct, and for each cell of one that has an array."""
        struct = self._own(it.name.text) if isinstance(it, tree.Action) else None
        if not struct and not (isinstance(it, tree.Action) and it.width):
            return [it]
        at, types = it.name.at, struct.fields if struct else {}
        channels = zip(self.node.channels(it.name.text), types.values() or [None] * self.node.widths.get(it.name.text, 0))
        return [
            dataclasses.replace(it, name=tree.Name(name, at), type=tree.Name(type, at) if type else it.type, width=None)
            for name, type in channels
        ]

    def ported(self, it):
        """What a part means that is such a port or action; None where it is something else."""
        match it:
            case tree.Invoke(tree.Call(tree.Name("schedule"), (tree.Reference(name, at), *rest)) as call) if self._own(name):
                return self._schedule(call, name, rest, at)
            case tree.Member(tree.Place(tree.Name(port), tree.Name(field)) as place, at) if not place.indices and self._own(port):
                return self._field(place, port, field, at)
            case tree.Reference(name, at) if self._own(name):
                return self._whole(self._own(name), tree.Place(None, tree.Name(name, at)), at)
            case tree.Member(place, at) if self._of(place):
                return self._whole(self._of(place), place, at)
            case tree.Call(tree.Name("present"), ((tree.Reference() | tree.Member()) as part,)) if self._of(_place_of(part)):
                return self._present(it, self._names(_place_of(part), part.at))
            case tree.Invoke(tree.Call(tree.Name("put"), ((tree.Reference() | tree.Member()) as part, value))) if self._of(_place_of(part)):
                return self._put(_place_of(part), value, part.at)
            case tree.Assign(name, None, value) if self._of(place := _as_place(name)):
                return self._put(place, value, place.at)
            case tree.Assign(name) if struct := self._of(place := _as_place(name)) or place.owner and self._own(place.owner.text):
                port = place.owner or place.name
                return self._told(port.at, f"`{port.text}` is put as a whole", f"write `{port.text} = {struct}(..);`", tree.Block(()))
            case tree.Member(tree.Place(None, name) as place, at) if place.indices and self._own(name.text):
                return self._told(at, f"`{name.text}` is a struct: it has no index", "", tree.Number("0", at))
        return None

    def _told(self, at: At, text: str, hint: str, instead):
        self.form.report.error(at, text, hint)
        return instead

    def _own(self, name: str) -> Optional[Struct]:
        return self.node.struct(name)

    def _of(self, place: tree.Place) -> Optional[Struct]:
        """The struct of a port of its own, or of an instance, that a place names."""
        if not place.owner:
            return None if place.indices else self._own(place.name.text)
        bank = self.node.parts.get(place.owner.text)
        return bank[0].struct(place.name.text) if bank and not place.indices else None

    def _names(self, place: tree.Place, at: At) -> list[tree.Reference]:
        """The ports of the fields, as the form names them; none where that was told."""
        read = self.form.read_of(place) if place.owner else Kind.INPUT
        is_output = not place.owner and self.node.kind(place.name.text) is Kind.OUTPUT
        if not place.owner and self.node.kind(place.name.text) is Kind.ACTION:
            return [tree.Reference(name, at) for name in self.node.channels(place.name.text)]
        found = self.form.places.points(place, Kind.OUTPUT if is_output else Kind.INPUT, read)
        return [tree.Reference(point.seen_from(self.node), at) for point in found] or [tree.Number("0", at)] * len(self._of(place).fields)

    def _whole(self, struct: Struct, place: tree.Place, at: At) -> tree.Expression:
        return tree.Call(tree.Name(struct.name, at), tuple(self._names(place, at)), at)

    def _present(self, it: tree.Call, names: list[tree.Reference]) -> tree.Expression:
        """Whether one of the fields is there: an origin sends each by itself."""
        one, *others = (dataclasses.replace(it, parts=(name,)) if isinstance(name, tree.Reference) else name for name in names)
        for other in others:
            one = tree.Binary("||", one, other, it.at)
        return one

    def _field(self, place: tree.Place, port: str, field: str, at: At) -> tree.Expression:
        """A field, or of one that is not there what tells so."""
        struct = self._own(port)
        if field in struct.fields:
            return tree.Reference(f"{port}[{field}]", at)
        hint = nearest(field, struct.fields) or f"it has {listed(f'`{it}`' for it in struct.fields)}"
        self.form.report.error(place.name.at, f"{struct} has no field `{field}`", hint)
        return tree.Number("0", at)

    def _put(self, place: tree.Place, value: tree.Expression, at: At) -> tree.Statement:
        """Puts each field of a value, which is worked out once."""
        kind = self.node.kind(place.name.text)
        if not place.owner and kind is not Kind.OUTPUT:
            hint = f"write `schedule({place}, delay, value);`" if kind is Kind.ACTION else "keep it in a state variable"
            return self._told(at, f"`{place}` is {kind.value}: it cannot be assigned", hint, tree.Block(()))
        let, fields = self._let(self._of(place), f"{place} is put", value, at)
        puts = [tree.Assign(tree.Name(it.name, at), None, field) for it, field in zip(self._names(place, at), fields)]
        return tree.Block((let, *puts))

    def _let(self, struct: Struct, name: str, value: tree.Expression, at: At) -> tuple[tree.Let, list[tree.Member]]:
        """A name for a value of a struct, and its fields."""
        let = tree.Let(tree.Name(name, at), tree.Name(struct.name, at), self.form.body_of(value))
        return let, [tree.Member(tree.Place(tree.Name(name, at), tree.Name(field, at)), at) for field in struct.fields]

    def _schedule(self, call: tree.Call, name: str, rest: list, at: At) -> tree.Statement:
        """Schedules each field of a value, or 0 for each where none stands."""
        kind = self.node.kind(name)
        if kind is not Kind.ACTION:
            return self._told(at, f"`{name}` is {kind.value}: only an action is scheduled", "", tree.Block(()))
        if not rest:
            return tree.Invoke(call)
        struct, (delay, *value) = self._own(name), rest
        delay, names = self.form.body_of(delay), self._names(tree.Place(None, tree.Name(name, at)), at)
        let, fields = self._let(struct, f"{name} is scheduled", value[0], at) if value else (None, [tree.Number("0", at)] * len(names))
        each = [tree.Invoke(dataclasses.replace(call, parts=(it, delay, field))) for it, field in zip(names, fields)]
        return tree.Block((*filter(None, [let]), *each))


def _place_of(it: tree.Expression) -> tree.Place:
    return it.place if isinstance(it, tree.Member) else tree.Place(None, tree.Name(it.name, it.at))


def _as_place(it: object) -> tree.Place:
    return it if isinstance(it, tree.Place) else tree.Place(None, it)
