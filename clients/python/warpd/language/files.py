"""Program files as texts: how they are written, and when two are the same program."""

from __future__ import annotations

import json
from collections.abc import Mapping

from .writing import form_of, own_names

NUMBERS, LISTS = ("version", "stop", "origins"), ("links", "inputs", "outputs")


def shown(program: Mapping) -> str:
    """A program file with a line for the head of each reactor and for each reaction."""
    head = ", ".join(f'"{key}": {program[key]}' for key in NUMBERS)
    reactors = ",\n".join(map(_reactor, program["reactors"]))
    rest = "".join(f',\n "{key}": {json.dumps(program[key])}' for key in LISTS if key in program)
    return f'{{{head},\n "reactors": [\n{reactors}]{rest}}}\n'


def _reactor(it: Mapping) -> str:
    head = ", ".join(f'"{key}": {json.dumps(value)}' for key, value in it.items() if key != "reactions")
    reactions = ",\n".join(f"    {json.dumps(each)}" for each in it.get("reactions", ()))
    return "  {" + head + (f',\n   "reactions": [\n{reactions}]' if reactions else "") + "}"


def shown_names(names: Mapping) -> str:
    """The names of a program's numbers, each list in a line."""
    return "{" + ",\n ".join(f'"{key}": {json.dumps(value)}' for key, value in names.items()) + "}\n"


def same(first: Mapping, second: Mapping) -> bool:
    """Whether two program files are the same program, with all numbers."""
    def plain(program: Mapping) -> list:
        reactors = [(it["name"], form_of(it), own_names(it)) for it in program["reactors"]]
        return [reactors, *(program[key] for key in NUMBERS), *(program.get(key, []) for key in LISTS)]

    return plain(first) == plain(second)
