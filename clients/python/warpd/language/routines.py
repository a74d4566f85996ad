"""Functions of the program and methods of its reactors: each is put in where it is called."""

from __future__ import annotations

from collections.abc import Iterable, Iterator, Mapping
from dataclasses import dataclass, field
from functools import cached_property
from typing import Optional

from . import tree
from .bodies import BodyCheck, Local
from .faults import Report
from .scope import Kind, Scope
from .tree import At
from .types import INT, Type


@dataclass
class Routine:
    """`changes` says that a call assigns variables, `reads` which variables one reads. `type` is None without a value."""

    tree: tree.Function
    parameters: list[tuple[str, Type]]
    type: Optional[Type]
    changes: bool = False
    reads: set[str] = field(default_factory=set)

    @property
    def name(self) -> str:
        return self.tree.name.text

    @cached_property
    def is_expression(self) -> bool:
        """Whether a call is one expression no larger than the body: it assigns nothing, has no loop, and of each `if`
        that may return one branch always does."""
        def may_go_on(it: tree.Statement) -> bool:
            returns = isinstance(it, tree.If) and any(isinstance(each, tree.Leave) for each in every((it,)))
            return returns and not always_leaves(it.yes) and not always_leaves(it.no)

        body = [*every(self.tree.body or ())]
        def is_variable(it: tree.Statement) -> bool:
            return isinstance(it, tree.Let) and it.is_variable

        is_open = any(isinstance(it, (tree.Loop, tree.While)) or is_variable(it) or may_go_on(it) for it in body)
        return not self.changes and not is_open


class RoutineCheck(BodyCheck):
    """Checks the body of one function or method."""

    def __init__(self, scope: Scope, routine: Routine):
        nothing = tree.Reaction((), (), (), routine.tree.body, routine.tree.name.at)
        super().__init__(scope, nothing)
        self.routine = routine

    def check(self) -> None:
        routine, function = self.routine, self.routine.tree
        for parameter, (name, type) in zip(function.parameters, routine.parameters):
            if name in self.lets:
                self.report.error(parameter.name.at, f"`{name}` stands twice")
            self.lets[name] = Local(Kind.GIVEN, type, parameter.name.at)
        before, self.scope.read = self.scope.read, set()
        self.statements(function.body or ())
        routine.reads |= self.scope.read
        self.scope.read = before
        if routine.type is not None and function.body is not None and not always_leaves(function.body):
            text = f"`{routine.name}` has a value, and may end without `return`"
            self.report.error(function.name.at, text, "let it end with `return ..;`")

    def is_declared(self, name: str, at: At) -> None:
        hint = f"hand it on: `{self.routine.name}({name})`"
        self.report.error(at, f"`{name}` is {self.kind_of(name).value}: a method speaks of state variables", hint)

    def reads_output(self, name: str, at: At) -> None:
        hint = f"hand it on: `{self.routine.name}({name})`"
        self.report.error(at, f"`{name}` is an output: a method speaks of state variables", hint)

    def is_effect(self, name: str, at: At) -> None:
        hint = "let it return a value, and put or schedule that in the reaction"
        self.report.error(at, f"`{name}` is {self.kind_of(name).value}: a method speaks of state variables", hint)

    def leave(self, it: tree.Leave) -> None:
        type = self.routine.type
        if it.word != "return":
            super().leave(it)
        elif it.value and type is None:
            hint = f"write its type: `{self.routine.name}(..): int`"
            self.report.error(it.value.at, f"`{self.routine.name}` has no value", hint)
        elif it.value:
            self.value(it.value, type)
        elif type is not None:
            self.report.error(it.at, f"`{self.routine.name}` has a value", "write `return ..;`")


def declared(functions: Iterable[tree.Function], scope: Scope) -> list[Routine]:
    """Takes the functions in, each before what calls it; then their bodies can be checked."""
    found: dict[str, Routine] = {}
    for it in functions:
        name = it.name.text
        parameters = [(each.name.text, scope.type(each.type, is_number=False, is_array=True)) for each in it.parameters]
        for each in it.parameters:
            if each.default:
                scope.report.error(each.default.at, "a parameter of a function has no default", "give it in each call")
        type = scope.type(it.type, is_number=False) if it.type and it.type.text != "void" else None
        if not it.is_method and scope.is_reactor or it.is_method and not scope.is_reactor:
            text = "a reactor has methods" if scope.is_reactor else "a method belongs to a reactor"
            scope.report.error(it.name.at, text, f"write `{'method' if scope.is_reactor else 'function'} {name}(..)`")
        before = scope.report.errors
        scope.declare(it.name, Kind.ROUTINE)
        if scope.report.errors == before:
            found[name] = Routine(it, parameters, type)
    scope.routines.update(found)
    return _ordered(found, scope.routines, scope.report)


def _ordered(found: Mapping[str, Routine], known: Mapping[str, Routine], report: Report) -> list[Routine]:
    """The routines, each behind those that it calls; one that calls itself is told, and left out of its own calls."""
    ordered: list[Routine] = []
    state: dict[str, bool] = {}

    def visit(name: str) -> None:
        routine, state[name] = found[name], False
        for call in calls(routine.tree.body or ()):
            other = call.name.text
            if other in found and other not in state:
                visit(other)
            elif state.get(other) is False:
                text = f"`{other}` calls itself" + (f", through `{name}`" if other != name else "")
                report.error(call.name.at, text, "a function is put in where it is called: it has no recursion")
            if other in known and known[other] is not routine:
                routine.changes |= known[other].changes
        routine.changes |= _assigns(routine.tree.body or ())
        state[name] = True
        ordered.append(routine)

    for name in found:
        if name not in state:
            visit(name)
    return ordered


def _assigns(statements: Iterable[tree.Statement]) -> bool:
    """Whether something is assigned that is there behind the call."""
    inside = [*every(statements)]
    own = {it.name.text for it in inside if isinstance(it, tree.Let) and it.is_variable}
    targets = [it.name for it in inside if isinstance(it, tree.Assign)]
    return any((it if isinstance(it, tree.Name) else it.owner or it.name).text not in own for it in targets)


def every(statements: Iterable[tree.Statement]) -> Iterator[tree.Statement]:
    """Each statement with those inside of it."""
    for it in statements:
        yield it
        match it:
            case tree.If():
                yield from every(it.yes)
                yield from every(it.no)
            case tree.Block():
                yield from every(it.statements)
            case tree.Loop() | tree.While():
                yield from every(it.body)


def calls(statements: Iterable[tree.Statement]) -> Iterator[tree.Call]:
    """Each call in statements."""
    for it in every(statements):
        match it:
            case tree.Let() | tree.Assign():
                yield from calls_in(it.value)
                if isinstance(it, tree.Assign) and isinstance(it.name, tree.Place):
                    for part in (*it.name.owner_indices, *it.name.indices):
                        yield from calls_in(part)
            case tree.Invoke():
                yield from calls_in(it.call)
            case tree.If() | tree.While():
                yield from calls_in(it.test)
            case tree.Loop():
                for part in (it.first.value, it.test, it.step.value):
                    yield from calls_in(part)
            case tree.Leave() if it.value:
                yield from calls_in(it.value)


def calls_in(it: tree.Expression) -> Iterator[tree.Call]:
    """Each call in an expression."""
    return (each for each in parts_in(it) if isinstance(each, tree.Call))


def references(it: tree.Expression) -> Iterator[tree.Reference]:
    """Each name in an expression that stands alone."""
    return (each for each in parts_in(it) if isinstance(each, tree.Reference))


def parts_in(it: tree.Expression) -> Iterator[tree.Expression]:
    """An expression with all that is in it."""
    yield it
    match it:
        case tree.Unary():
            yield from parts_in(it.part)
        case tree.Binary():
            yield from parts_in(it.left)
            yield from parts_in(it.right)
        case tree.Choice():
            for part in (it.test, it.yes, it.no):
                yield from parts_in(part)
        case tree.Call():
            for part in it.parts:
                yield from parts_in(part)
        case tree.Member():
            for part in (*it.place.owner_indices, *it.place.indices):
                yield from parts_in(part)


def always_leaves(statements: Iterable[tree.Statement]) -> bool:
    """Whether each way through these statements ends with `return`."""
    for it in statements:
        match it:
            case tree.Leave("return"):
                return True
            case tree.If() if always_leaves(it.yes) and always_leaves(it.no):
                return True
            case tree.Block() if always_leaves(it.statements):
                return True
    return False
