"""The reactors of a text, each checked by itself: its names, its constants, its reactions."""

from __future__ import annotations

from collections.abc import Iterable

from . import routines, tree
from .bodies import BodyCheck
from .faults import Report, port_of
from .model import Class, Program
from .naming import MOST_LETTERS, is_told
from .routines import RoutineCheck
from .scope import Kind, Scope
from .types import INT, Array, Struct, Type

KINDS = {tree.State: Kind.VARIABLE, tree.Action: Kind.ACTION, tree.Timer: Kind.TIMER}


def declared(it: tree.Reactor, program: Program, report: Report, constants: Iterable[str] = ()) -> Class:
    """A reactor with its names alone; `constants` are there beside those of the text."""
    before = report.errors
    for member in it.members:
        # What another reactor extends is checked again there.
        size = tree.size_of(member, program.sizes) if id(member) in program.seen else 0
        program.structure.take(size, it.at, "the reactors with what they extend come to too many parts")
        program.seen.add(id(member))
    scope = program.scope.inside()
    scope.kinds.update(dict.fromkeys(constants, Kind.CONSTANT))
    one = Class(it, scope)
    for parameter in it.parameters:
        type = scope.type(parameter.type, is_array=True)
        if parameter.default:
            scope.constant(parameter.default, type)
        scope.declare(parameter.name, Kind.PARAMETER, type)
    for member in it.members:
        _declare(scope, member, it.is_main)
        if not it.is_main and isinstance(member, tree.Ports):
            _not_in_main(report, member)
    scope.kinds["startup"] = Kind.STARTUP
    scope.kinds.setdefault("shutdown", Kind.SHUTDOWN)
    one.methods = routines.declared(it.every(tree.Function), scope)
    for name, type in [*scope.types.items()]:
        of, sides = (type.of, type.sides) if isinstance(type, Array) else (type, ())
        if isinstance(of, Struct) and scope.kinds[name] is Kind.VARIABLE:
            program.structure.take(len(of.fields), scope.places[name], "the fields of structs come to too many parts")
            scope.group(name, of, sides)
    one.is_good = report.errors == before
    return one


def checked(one: Class, report: Report) -> Class:
    """Checks the members of a reactor with its names."""
    before = report.errors
    for member in one.tree.members:
        _member(one.scope, member)
    for routine in one.methods:
        RoutineCheck(one.scope, routine).check()
    for reaction in one.tree.every(tree.Reaction):
        one.reactions.append(BodyCheck(one.scope, reaction))
        one.reactions[-1].check()
    can_be_read = all(it.tree.body is not None for it in one.methods)
    one.is_good &= can_be_read and report.errors == before
    one.is_checked = True
    return one


def _declare(scope: Scope, member: tree.Member, is_main: bool) -> None:
    if type(member) in KINDS:
        is_state = isinstance(member, tree.State)
        its = INT if isinstance(member, tree.Timer) else scope.type(member.type, False, True) if is_state else _type_of_action(scope, member)
        scope.declare(member.name, KINDS[type(member)], its)
    elif isinstance(member, tree.Ports):
        its = scope.type_of_port(member.type, member.width is not None)
        for place in member.places:
            if place.indices and not place.owner and not is_main:
                word = "input" if member.is_input else "output"
                text, hint = "the width of a multiport stands before its name", f"write `{word}[..] {place.name.text}: int`"
                scope.report.error(place.at, text, hint)
            if not place.owner:
                scope.declare(place.name, Kind.INPUT if member.is_input else Kind.OUTPUT, its)


def _type_of_action(scope: Scope, it: tree.Action) -> Type:
    found = scope.type_of_port(it.type, it.width is not None)
    if it.is_in_mode and (it.width is not None or isinstance(found, Struct)):
        text = f"`{it.name.text}` is an action of a mode: it has a number"
        scope.report.error(it.name.at, text, "let an action outside of modes have arrays and structs")
        return INT
    return found


def _member(scope: Scope, member: tree.Member) -> None:
    if getattr(member, "called", ""):
        _called(scope.report, member)
    match member:
        case tree.State() if member.start:
            scope.constant(member.start, scope.types[member.name.text])
        case tree.Action():
            _arguments(scope, member.arguments, 1, "a logical action has one number, its least delay")
        case tree.Timer():
            _arguments(scope, member.arguments, 2, "a timer has two numbers, its offset and its period")


def _called(report: Report, member: tree.Member) -> None:
    """Checks the words that something is called by."""
    is_ports = isinstance(member, tree.Ports)
    at = member.at if is_ports else member.name.at
    if not is_told(member.called):
        report.error(at, f"`@called` has 1 to {MOST_LETTERS} printed characters of ASCII, but `\"` and `\\`")
    if is_ports and any(place.owner for place in member.places) or is_ports and not member.places:
        text = "a port of an instance is called by the instance's reactor"
        report.error(at, text, f"write `@called(\"{member.called}\")` where the port is declared")
    elif is_ports and len({port_of(place.name.text) for place in member.places}) > 1:
        report.error(at, "`@called` stands before one port: here are several", "write each of them by itself")


def _arguments(scope: Scope, arguments: tuple[tree.Expression, ...], most: int, text: str) -> None:
    for it in arguments[:most]:
        scope.constant(it, INT)
    if len(arguments) > most:
        scope.report.error(arguments[most].at, text)


def _not_in_main(report: Report, member: tree.Ports) -> None:
    """Tells what stands in main alone."""
    if member.origin:
        text = "an origin owns inputs of the program: `@origin` stands in main"
        report.error(member.at, text, "write `@origin(0) input p.a;` in `main reactor`")
    for place in member.places:
        if place.owner and not member.origin:
            hint = "the program's inputs and outputs stand in `main reactor`"
            report.error(place.at, f"`{place}`: a reactor declares its own ports", hint)
