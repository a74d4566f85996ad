"""How a program file of version 4 tells people of what is in it: instances by their place in the hierarchy, fields and
channels as the text has them, arrays with their sides; and which variables it tells to nobody who does not ask."""

from __future__ import annotations

from . import tree
from .faults import as_written, port_of
from .model import Instance, Program
from .types import Array

# What a program file takes.
MOST_LETTERS = 120


def name_all(program: Program) -> None:
    """Gives each instance its names, and writes them into its reactor."""
    for it in program.instances.values():
        names = {flat: name for flat, name in _names(it) if name != flat}
        it.names = {name: text for name, text in names.items() if name and is_told(text)}
        called = it.called or it.title
        it.called = called if called != it.name and is_told(called) else ""
        it.hidden = _hidden(it)
        called = [["", it.called]] * bool(it.called) + [[name, text] for name, text in it.names.items()]
        it.reactor = {
            **it.reactor, **({"called": called} if called else {}), **({"hidden": it.hidden} if it.hidden else {})}


def is_told(text: str) -> bool:
    """Whether a program file may call something so."""
    return 0 < len(text) <= MOST_LETTERS and text.isascii() and text.isprintable() and not set(text) & {'"', "\\"}


def _names(it: Instance) -> list[tuple[str, str]]:
    """What is called otherwise than the program file names it, in the order of the file."""
    scope, found, board = it.of.scope, {}, {}
    labels = {each.name.text: each.called for each in it.of.tree.every(tree.State) if each.called}
    for group, fields in scope.fields.items():
        found.update({flat: f"{labels.get(group, group)}.{field}" for field, flat in fields.items()})
    for name, count, *_ in it.reactor.get("arrays", ()):
        sides = it.sides.get(name, ())
        if sides[1:]:
            board[name] = "".join(f"[{side}]" for side in sides)
            found[name] = found.get(name, name) + board[name]
    found.update({flat: as_written(name) for name, flat in it.of.flat.items()})
    for member in it.of.tree.members:
        if getattr(member, "called", ""):
            for each in member.places if isinstance(member, tree.Ports) else (member,):
                name, flat = each.name.text, it.of.file_name(each.name.text)
                # A board stays one, and a channel has its number.
                behind = board.get(flat, "") or name.removeprefix(port_of(name))
                found[flat] = member.called.removesuffix(behind) + behind
    every = ("vars", "arrays", "inputs", "outputs", "actions", "timers")
    names = [each if isinstance(each, str) else each[0] for key in every for each in it.reactor.get(key, ())]
    return [(name, found[name]) for name in names if name in found]


def _hidden(it: Instance) -> list[str]:
    """The compiler's own variables, and those that the text hides."""
    variables = [name for name, _ in it.reactor.get("vars", ())]
    hidden = {each.name.text for each in it.of.tree.every(tree.State) if each.is_hidden or each.is_own}
    fields = {flat for name in hidden for flat in it.of.scope.fields.get(name, {}).values()}
    return [name for name in variables if name in hidden | fields or name in variables[len(variables) - it.kept:]]
