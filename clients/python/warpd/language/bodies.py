"""The reactions of a reactor: what stands in their headers, and their statements."""

from __future__ import annotations

from collections.abc import Iterable, Sequence
from typing import Optional, Union

from . import refused, tree
from .faults import listed, nearest, port_of
from .scope import CONSTANTS, EFFECTS, FUNCTIONS, ON_BITS, STATEMENTS, TRIGGERS, Kind, Scope
from .tree import At
from .types import FIXED, INT, Array, Type


# What stands for the old value where a value is changed.
ZERO = tree.Number("0", At(1, 1))


class Local:
    """A name of a body."""

    def __init__(self, kind: Kind, type: Type, at: At):
        self.kind, self.type, self.at = kind, type, at
        self.is_read = False


class BodyCheck:
    """Checks the header and the body of one reaction."""

    def __init__(self, scope: Scope, reaction: tree.Reaction):
        self.scope, self.reaction, self.report = scope, reaction, scope.report
        self.lets: dict[str, Local] = {}
        self.loops = 0
        # Where an expression must be constant: what it is, with what to write. And one that is all of a value.
        self.constant: Optional[tuple[str, str]] = None
        self.whole: Optional[tree.Expression] = None
        self.lists = {part: [it.name.text for it in getattr(reaction, part)] for part in ("on", "reads", "writes")}
        self.effects: set[str] = set()

    def check(self) -> None:
        if not self.reaction.on:
            self.report.error(
                self.reaction.at, "nothing triggers this reaction", "`reaction(startup)` runs once, at the beginning"
            )
        for part, kinds in (("on", TRIGGERS), ("reads", TRIGGERS), ("writes", EFFECTS)):
            for place in getattr(self.reaction, part):
                self.header_name(place, part, kinds)
        self.statements(self.reaction.body or ())

    def header_name(self, place: tree.Place, part: str, kinds: Sequence[Kind]) -> None:
        name, kind = place.name.text, self.scope.kinds.get(place.name.text)
        if place.owner:
            self.report.error(
                place.at,
                f"`{place}`: a reaction names what its own reactor declares",
                "declare an input or an output, and connect it in main",
            )
        elif name in refused.TRIGGERS and kind is None:
            self.report.error(place.at, *refused.TRIGGERS[name])
        elif kind is None:
            self.taken_as(part, name, self.scope.unknown(name, place.at, kinds))
        elif kind is Kind.VARIABLE:
            self.report.error(place.at, f"`{name}` is a state variable: it is read and assigned without standing here")
        elif kind not in kinds:
            says = {"on": "triggers nothing", "reads": "cannot be read", "writes": "is neither put nor scheduled"}[part]
            self.report.error(place.at, f"`{name}` is {kind.value}: it {says}")

    def taken_as(self, part: str, name: str, near: str) -> None:
        """Takes a name of the header that is not declared for the one that is near, or where none is for nothing: so
        that what is told of the body does not go on from a mistake that was told."""
        known = [it for it in self.scope.kinds if near and port_of(it) == near]
        self.lists[part] = [each for it in self.lists[part] for each in (known if it == name else [it])]

    def header(self, part: str, name: str) -> str:
        """The reaction's header with a name more."""
        part = part if self.lists["on"] or part != "reads" else "on"
        lists = {**self.lists, part: [*self.lists[part], name]}
        on, reads, writes = (", ".join(self.ports(lists[it])) for it in ("on", "reads", "writes"))
        return f"write `reaction({on or '..'}){' ' * bool(reads)}{reads}{' -> ' * bool(writes)}{writes}`"

    def ports(self, names: Iterable[str]) -> list[str]:
        """The names as a header has them: a multiport in the place of all its channels."""
        names = dict.fromkeys(names)
        every: dict[str, list[str]] = {}
        for it in self.scope.kinds:
            every.setdefault(port_of(it), []).append(it)
        found = (port_of(it) if all(each in names for each in every.get(port_of(it), [it])) else it for it in names)
        return list(dict.fromkeys(found))

    def is_declared(self, name: str, at: At) -> None:
        if name not in self.lists["on"] + self.lists["reads"]:
            name = _without_channel(name, self.lists["on"] + self.lists["reads"])
            self.report.error(
                at,
                f"`{name}` is neither a trigger of this reaction nor among what it reads",
                self.header("reads", name),
            )

    def is_effect(self, name: str, at: At) -> None:
        if name not in self.lists["writes"]:
            name = _without_channel(name, self.lists["writes"])
            self.report.error(
                at, f"`{name}` does not stand behind the `->` of this reaction", self.header("writes", name)
            )

    def kind_of(self, name: str) -> Optional[Kind]:
        return self.lets[name].kind if name in self.lets else self.scope.kinds.get(name)

    def type_of(self, name: str) -> Type:
        return self.lets[name].type if name in self.lets else self.scope.types.get(name, INT)

    def reads(self, name: str, at: At) -> Type:
        """Checks a name whose value is wanted, and gives its type."""
        local, kind = self.lets.get(name), self.kind_of(name)
        if local:
            local.is_read = True
        if self.constant and kind not in (*CONSTANTS, Kind.TURN, None):
            text, hint = self.constant
            self.report.error(at, f"`{name}` is {kind.value}: {text}", hint.format(name))
        elif local:
            return local.type
        elif kind in (Kind.INPUT, Kind.ACTION):
            self.is_declared(name, at)
        elif kind is Kind.OUTPUT:
            self.reads_output(name, at)
        elif kind in (Kind.TIMER, Kind.STARTUP, Kind.SHUTDOWN):
            hint = f"`present({name})` asks whether it is there"
            self.report.error(at, f"`{name}` is {kind.value}: it has no value", hint)
        elif kind is None and name in refused.VALUES:
            self.report.error(at, *refused.VALUES[name])
        elif kind is None:
            self.scope.unknown(name, at, more=self.lets)
        else:
            self.scope.read.add(name)
        return self.scope.types.get(name, INT)

    def reads_output(self, name: str, at: At) -> None:
        """Checks an output that is read: what was put on it at this tag is read where the reaction may put on it."""
        if name in self.lists["writes"]:
            self.scope.read_outputs.setdefault(name, at)
        else:
            name = _without_channel(name, self.lists["writes"])
            text = f"`{name}` is an output: it cannot be read here"
            self.report.error(at, text, f"a reaction reads what it may put: {self.header('writes', name)}")

    def fixed_at_last(self, it: tree.Expression, text: str, hint: str) -> None:
        """Checks an expression that is constant when the loops around it are written out."""
        before, self.constant = self.constant, (text, hint)
        self.scope.of_type(it, INT, self)
        self.constant = before

    def statements(self, statements: Iterable[tree.Statement]) -> None:
        """Checks statements, and forgets their lets behind them."""
        before = set(self.lets)
        for it in statements:
            self.statement(it)
        for name in set(self.lets) - before:
            local = self.lets.pop(name)
            if not local.is_read and local.kind in (Kind.LET, Kind.LOCAL):
                self.report.warning(local.at, f"`{name}` is never read")

    def statement(self, it: tree.Statement) -> None:
        match it:
            case tree.Let():
                wanted = self.scope.type(it.type, is_number=False) if it.type else None
                self.declare(it.name, Kind.LOCAL if it.is_variable else Kind.LET, self.value(it.value, wanted))
            case tree.Assign():
                self.assign(it)
            case tree.Invoke():
                self.invoke(it.call)
            case tree.If():
                self.scope.number(it.test, self)
                self.statements(it.yes)
                self.statements(it.no)
            case tree.Block():
                self.statements(it.statements)
            case tree.Loop():
                self.loop(it)
            case tree.While():
                self.while_loop(it)
            case tree.Leave():
                self.leave(it)

    def value(self, it: tree.Expression, wanted: Optional[Type]) -> Type:
        """Checks what is all of a value: here a method may be called that assigns variables."""
        self.whole = it
        return self.scope.of_type(it, wanted, self)

    def declare(self, name: tree.Name, kind: Kind, type: Type) -> None:
        known = self.kind_of(name.text)
        if known:
            hint = f"{kind.value} has a name of its own" if kind in (Kind.LET, Kind.LOCAL) else "it wants a name of its own"
            self.report.error(name.at, f"`{name.text}` is {known.value} already", hint)
        else:
            self.lets[name.text] = Local(kind, type, name.at)

    def bound(self, it: tree.Expression, is_free: bool) -> None:
        """Checks a bound of a loop; a free one need not be constant."""
        if is_free:
            self.whole = None
            self.scope.number(it, self)
        else:
            hint = "parameters and `const` are; or say how many turns there are at most: `for (..; ..; ..; most 100)`"
            self.fixed_at_last(it, "the bounds of a loop are constant", hint)

    def most(self, it: tree.Expression) -> None:
        self.fixed_at_last(it, "how many turns a loop has at most is constant", "parameters and `const` are")

    def while_loop(self, it: tree.While) -> None:
        self.bound(it.test, is_free=True)
        if it.most is None:
            hint = "a body ends always: write how many turns there are at most, `while (..; most 100)`"
            self.report.error(it.at, "this `while` has no bound", hint)
        else:
            self.most(it.most)
        self.loops += 1
        self.statements(it.body)
        self.loops -= 1

    def loop(self, it: tree.Loop) -> None:
        name, before = it.first.name.text, set(self.lets)
        if it.first.type and self.scope.named.get(it.first.type.text) != INT:
            self.report.error(it.first.type.at, f"`{it.first.type.text}`: turns are counted by an `int`")
        is_free = it.most is not None
        self.bound(it.first.value, is_free)
        # What is constant in each turn is no constant where turns are not counted beforehand.
        self.declare(it.first.name, Kind.LET if is_free else Kind.TURN, INT)
        if is_free:
            self.lets[name].is_read = True
        self.bound(it.test, is_free)
        if not isinstance(it.step.name, tree.Name) or it.step.name.text != name:
            self.report.error(it.step.name.at, f"here `{name}` is changed for the next turn", f"write `{name}++`")
        self.bound(it.step.value, is_free)
        if is_free:
            self.most(it.most)
        self.loops += 1
        self.statements(it.body)
        self.loops -= 1
        for each in set(self.lets) - before:
            del self.lets[each]

    def leave(self, it: tree.Leave) -> None:
        if it.word != "return":
            if not self.loops:
                self.report.error(it.at, f"`{it.word}` stands outside of a loop")
        elif it.value:
            self.report.error(it.value.at, "a reaction has no value", "`return;` ends it")

    def target(self, it: Union[tree.Name, tree.Place]) -> tuple[Optional[Kind], Type]:
        """What a place is that is assigned, and its type."""
        if isinstance(it, tree.Name):
            local = self.lets.get(it.text)
            return self.kind_of(it.text), local.type if local else self.scope.types.get(it.text, INT)
        owner = it.owner.text if it.owner else it.name.text
        if self.scope.is_tag(it):
            self.report.error(it.at, f"`{it}` is the tag: it cannot be assigned")
            return Kind.TYPE, INT
        kind = self.kind_of(owner)
        if kind is None or it.indices and not it.owner and not isinstance(self.type_of(owner), Array):
            if it.indices or it.owner_indices:
                self.scope.no_array(it, it.at)
            else:
                self.report.error(it.at, *refused.no_instance(owner))
            return Kind.TYPE, INT
        if not it.owner:
            return kind, self.scope.element(self.type_of(owner), it, it.indices, self)
        type = self.target(it.owner)[1]
        return kind, self.scope.part(type, it, self) if kind in (Kind.VARIABLE, Kind.LET, Kind.LOCAL, Kind.GIVEN) else INT

    def assign(self, it: tree.Assign) -> None:
        kind, type = self.target(it.name)
        first = it.name if isinstance(it.name, tree.Name) else it.name.owner or it.name.name
        name, at = first.text, first.at
        hints = {
            Kind.INPUT: "keep it in a state variable, or connect an output to it in main",
            Kind.ACTION: f"write `schedule({name}, delay, value);`",
            **dict.fromkeys((Kind.TIMER, Kind.STARTUP, Kind.SHUTDOWN, Kind.ROUTINE), ""),
            **dict.fromkeys((*CONSTANTS, Kind.GIVEN, Kind.TURN), "it is constant: take a state variable"),
            Kind.LET: "it is constant: take a `var`, or a state variable",
        }
        is_given = kind is Kind.GIVEN and isinstance(it.name, tree.Place) and isinstance(self.type_of(name), Array)
        if kind is None:
            self.scope.unknown(name, at, (Kind.VARIABLE, Kind.OUTPUT))
        elif is_given:
            kind = Kind.VARIABLE
        elif it.operator and isinstance(type, Array):
            self.report.error(at, f"`{name}` is an array: here belongs a number", f"a cell of it is one: `{name}[0]`")
            type = type.of
        elif kind in hints:
            self.report.error(at, f"`{name}` is {kind.value}: it cannot be assigned", hints[kind])
        elif kind is Kind.OUTPUT:
            self.is_effect(name, at)
            if it.operator and name in self.lists["writes"]:
                self.reads_output(name, at)
        if it.operator in ON_BITS and type == FIXED:
            self.report.error(at, f"`{name}` is `fixed`: `{it.operator}` is of whole numbers")
        elif it.operator:
            self.scope.of_type(tree.Binary(it.operator, ZERO, it.value, it.value.at), type, self)
        else:
            self.value(it.value, type if kind in (Kind.VARIABLE, Kind.LOCAL, Kind.OUTPUT) else None)
        if it.operator and kind is Kind.VARIABLE:
            self.scope.read.add(name)

    def invoke(self, call: tree.Call) -> None:
        name = call.name.text
        if name in self.scope.routines:
            self.whole = call
            self.calls(call, is_value=False)
        elif name in FUNCTIONS:
            self.report.error(call.name.at, f"`{name}` has a value, and does nothing by itself")
        elif name in refused.BODY:
            self.report.error(call.name.at, *refused.BODY[name])
        elif name not in STATEMENTS:
            near = nearest(name, [*STATEMENTS, *self.scope.routines]) or f"there are {listed(f'`{it}`' for it in STATEMENTS)}"
            self.report.error(call.name.at, f"no statement `{name}`", near)
        elif name == "schedule" and len(call.parts) == 1:
            self.report.error(call.at, "`schedule` has a delay", f"write `schedule({getattr(call.parts[0], 'name', 'c')}, 0);`")
        elif self.scope.has_parts(call, *STATEMENTS[name]) and call.parts:
            type = self.effect(call, *((Kind.OUTPUT, "put on") if name == "put" else (Kind.ACTION, "scheduled")))
            if name == "schedule":
                self.delay(call.parts[1])
            for part in call.parts[1 if name == "put" else 2:]:
                self.scope.of_type(part, type, self)

    def delay(self, it: tree.Expression) -> None:
        """Checks a delay: constant, one of two by `? :`, or one of a list by `among`."""
        text = "a delay is constant"
        hint = "so are parameters and `const`; `among({0}, 1, 5)` is 1 or 5, where `{0}` is that"
        if isinstance(it, tree.Choice):
            self.scope.number(it.test, self)
            self.delay(it.yes)
            self.delay(it.no)
        elif isinstance(it, tree.Call) and it.name.text == "among":
            if self.scope.has_parts(it, 2, None):
                self.scope.of_type(it.parts[0], INT, self)
                for part in it.parts[1:]:
                    self.fixed_at_last(part, text, hint)
        else:
            self.fixed_at_last(it, text, hint)

    def calls(self, it: tree.Call, is_value: bool) -> Type:
        """Checks a call of a function or a method of the program, and gives the type of its value."""
        name = it.name.text
        routine = self.scope.routines[name]
        if self.constant:
            self.report.error(it.at, f"`{name}` is called: {self.constant[0]}")
        if self.scope.has_parts(it, len(routine.parameters), len(routine.parameters)):
            whole = self.whole
            for part, (_, wanted) in zip(it.parts, routine.parameters):
                self.scope.handed(part, wanted, self)
            self.whole = whole
        self.scope.read.update(routine.reads)
        if is_value and routine.type is None:
            self.report.error(it.name.at, f"`{name}` has no value", f"write it as a statement: `{name}(..);`")
        elif is_value and routine.changes and it is not self.whole:
            text = f"`{name}` assigns variables: here it stands in an expression"
            self.report.error(it.name.at, text, f"give its value a name before: `let v = {name}(..);`")
        elif not is_value and not routine.changes:
            self.report.error(it.name.at, f"`{name}` assigns nothing, and does nothing by itself")
        return routine.type or INT

    def effect(self, call: tree.Call, wanted: Kind, does: str) -> Type:
        """Checks what is put on or scheduled, and gives its type."""
        first = call.parts[0]
        kind = self.scope.kinds.get(first.name) if isinstance(first, tree.Reference) else None
        if isinstance(first, tree.Member) and (first.place.index or first.place.owner_index):
            self.scope.no_array(first.place, first.at)
        elif not isinstance(first, tree.Reference):
            self.report.error(first.at, f"here belongs the name of {wanted.value}")
        elif kind is None:
            self.scope.unknown(first.name, first.at, (wanted,))
        elif kind is not wanted:
            self.report.error(first.at, f"`{first.name}` is {kind.value}: only {wanted.value} is {does}")
        else:
            self.effects.add(first.name)
            self.is_effect(first.name, first.at)
        return self.scope.types.get(first.name, INT) if isinstance(first, tree.Reference) else INT


def _without_channel(name: str, named: Iterable[str]) -> str:
    """The multiport of a channel where none of its channels is named, else the name."""
    port = port_of(name)
    return name if any(port_of(it) == port for it in named) else port
