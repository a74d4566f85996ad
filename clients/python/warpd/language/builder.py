"""The parts of the tree that the rules of the grammar make."""

from __future__ import annotations

import dataclasses

from . import tree
from .lexing import Word
from .testing.building import TestBuilder

# What needs version 4 where it is not worked out when the text is compiled: operators, and functions.
BITS, WHOLE = {"&", "|", "^", "<<", ">>"}, {"mix", "muldiv"}
UNITS = {
    "n": 1, "us": 10**3, "ms": 10**6, "s": 10**9, "mi": 60 * 10**9, "h": 3600 * 10**9, "d": 86_400 * 10**9,
    "w": 604_800 * 10**9,
}


def nanoseconds(text: str) -> int:
    """What a number and a unit come to: `10 ms`."""
    number = text.rstrip("abcdefghijklmnopqrstuvwxyz \t")
    unit = text[len(number):].strip()
    return int(number) * next(each for word, each in UNITS.items() if unit.startswith(word))


def _is_group(it: tree.Name | None) -> bool:
    """Whether a type is an array of one side that is known."""
    return isinstance(it, tree.Sized) and len(it.sides) == 1 and it.sides[0] is not None


class Builder(TestBuilder):
    """Makes the parts of the tree, from the inside out. `may_need_later` says that something was made that only version 4
    of program files has."""

    may_need_later = False

    def file(self, target, *parts):
        def every(*kinds):
            return tuple(it for it in parts if isinstance(it, kinds))

        types, functions = every(tree.Enum, tree.Struct), every(tree.Function)
        return tree.File(
            *(target or (None, ())), every(tree.Constant), every(tree.Reactor), types=types, functions=functions,
            imports=every(tree.Import), tests=every(Word))

    def target(self, name, *properties):
        return name, tuple(it for it in properties if it)

    def property(self, name, value):
        return tree.Property(name, value)

    def constant(self, name, type, value):
        return tree.Constant(name, type, value)

    def enum(self, name, *parts):
        return tree.Enum(name, tuple(it for it in parts if it))

    def enumerator(self, name, value):
        return tree.Enumerator(name, value)

    def struct(self, name, *fields):
        return tree.Struct(name, fields)

    def field(self, name, type, value):
        return tree.State(name, type, value)

    def function(self, word, name, *parts):
        *parameters, type, body = parts
        given = tuple(it for it in parameters if it)
        return tree.Function(name, word.kind == "METHOD", given, type, body)

    def reactor(self, main, word, name, *parts):
        parameters = tuple(it for it in parts if isinstance(it, tree.Parameter))
        members = tuple(it for it in parts if it and not isinstance(it, (tree.Parameter, tuple)))
        extends = next((it for it in parts if isinstance(it, tuple)), ())
        at = name.at if name else (main or word).at
        return tree.Reactor(name, main is not None, parameters, members, at, extends)

    def parameter(self, name, type, value):
        return tree.Parameter(name, type, value)

    def mode(self, initial, word, name, *members):
        return tree.Mode(name, initial is not None, tuple(it for it in members if it))

    def state(self, hidden, reset, name, type, value):
        if hidden is not None:
            self.may_need_later = True
        return tree.State(name, type, value, reset is not None, hidden is not None)

    def called(self, _word, text, member):
        self.may_need_later = True
        return dataclasses.replace(member, called=text.text[1:-1])

    def ports(self, attribute, origin, kind, width, places, type):
        if _is_group(type) and width is None:
            # An array on a port is a group of ports.
            (width,), type = type.sides, tree.Name(type.text, type.at)
        return tree.Ports(origin, kind.kind == "INPUT", places, type, (attribute or kind).at, width)

    def action(self, name, arguments, type):
        width = None
        if _is_group(type):
            # An array on an action is a group of actions.
            (width,), type = type.sides, tree.Name(type.text, type.at)
        return tree.Action(name, arguments or (), type, width=width)

    def timer(self, name, arguments):
        return tree.Timer(name, arguments or ())

    def reaction(self, word, on, reads, writes, body):
        return tree.Reaction(on or (), reads or (), writes or (), body, word.at)

    def instance(self, name, width, reactor, *arguments):
        return tree.Instance(name, reactor, tuple(it for it in arguments if it), width)

    def argument(self, name, value):
        return tree.Argument(name, value)

    def unnamed(self, value):
        return tree.Argument(None, value)

    def connection(self, sources, arrow, targets, after):
        sources, is_broadcast = sources
        return tree.Connection(sources, targets, is_broadcast, after, arrow.at)

    def sources(self, places):
        return places, False

    def broadcast(self, places, _plus):
        return places, True

    def place(self, first, first_indices, second, indices):
        one, *ones = first_indices or (None,)
        two, *twos = indices or (None,)
        if second:
            return tree.Place(first, second, one, two, owner_more=tuple(ones), more=tuple(twos))
        return tree.Place(None, first, None, one, more=tuple(ones))

    def interleaved(self, place):
        return dataclasses.replace(place, is_interleaved=True)

    def transition(self, word, name):
        return tree.Place(None, name, transition=word.text)

    def list_of(self, *parts):
        return parts

    places = arguments = body = extends = indices = list_of

    def index(self, value):
        return value

    def imported(self, name, here):
        return tree.Imported(name, here or name)

    def import_(self, *parts):
        *reactors, path = parts
        return tree.Import(tuple(reactors), path.text[1:-1], path.at)

    def target_(self, first, first_indices, second, indices):
        place = self.place(first, first_indices, second, indices)
        return place.name if place.is_plain else place

    def type(self, name, *sides):
        if not sides:
            return name
        self.may_need_later = True
        return tree.Sized(name.text, name.at, sides)

    def side(self, value):
        return value

    def list(self, word, *parts):
        return tree.List(tuple(it for it in parts if it), word.at)

    def let(self, name, type, value):
        return tree.Let(name, type, value)

    def variable(self, _word, name, type, value):
        return tree.Let(name, type, value, True)

    def assign(self, name, operator, value):
        sign = operator.text[:-1]
        if sign in BITS:
            self.may_need_later = True
        return tree.Assign(name, sign or None, value)

    def step(self, name, word):
        return tree.Assign(name, word.text[0], tree.Number("1", word.at))

    def step_before(self, word, name):
        return self.step(name, word)

    def turn_of_c(self, type, name, value):
        return tree.Let(name, type, value)

    def loop(self, word, first, test, step, _most, most, body):
        self.may_need_later |= most is not None
        return tree.Loop(first, test, step, self._statements(body), word.at, most)

    def while_loop(self, word, test, _most, most, body):
        self.may_need_later = True
        return tree.While(test, most, self._statements(body), word.at)

    def leave(self, word, value=None):
        return tree.Leave(word.text, value, word.at)

    def invoke(self, call):
        return tree.Invoke(call)

    def if_else(self, _word, test, yes, no):
        return tree.If(test, self._statements(yes), self._statements(no))

    def _statements(self, it):
        if it is None:
            return ()
        return it.statements if isinstance(it, tree.Block) else (it,)

    def block(self, *statements):
        return tree.Block(statements)

    def choice(self, test, yes, no):
        return tree.Choice(test, yes, no, test.at.to(no.at))

    def binary(self, left, operator, right):
        if operator.text in BITS:
            self.may_need_later = True
        return tree.Binary(operator.text, left, right, left.at.to(right.at))

    def unary(self, operator, part):
        if operator.text == "~":
            self.may_need_later = True
        return tree.Unary(operator.text, part, operator.at.to(part.at))

    def number(self, token):
        return tree.Number(token.text, token.at)

    def duration(self, token):
        return tree.Duration(nanoseconds(token.text), token.text, token.at)

    def truth(self, token):
        return tree.Number("1" if token.text == "true" else "0", token.at)

    def reference(self, first, first_indices, second, indices):
        place = self.place(first, first_indices, second, indices)
        if place.is_plain:
            return tree.Reference(first.text, first.at)
        if place.owner and first.text == "lf":
            self.may_need_later = True
        return tree.Member(place, place.at)

    def call(self, name, parts):
        if name.text in WHOLE:
            self.may_need_later = True
        return tree.Call(name, parts or (), name.at.to(parts[-1].at) if parts else name.at)
