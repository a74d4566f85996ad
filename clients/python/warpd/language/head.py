"""The head of a text: its target with the properties of the program, and its constants."""

from __future__ import annotations

from dataclasses import replace
from typing import Optional, Union

from . import refused, tree
from .faults import Report, nearest
from .model import LIMITS, Program, ranged
from .routines import RoutineCheck, declared
from .scope import Kind, Scope
from .types import INT, Array, Struct, Type
from .values import Cells, wrapped

PROPERTIES = ("stop", "timeout", "unit", "origins", "version", "microsteps_at_stop")


class Head:
    """Reads the head of one text into a program."""

    def __init__(self, file: tree.File, program: Program, report: Report):
        self.file, self.program, self.report = file, program, report
        self.found: dict[str, tree.Property] = {}

    def read(self) -> None:
        self._target()
        self.program.scope = Scope(self.report, self.program.unit)
        before = self.report.errors
        structs = self._types()
        self._constants()
        for it, made in structs:
            self._struct(it, made)
        for routine in declared(self.file.functions, self.program.scope):
            RoutineCheck(self.program.scope, routine).check()
        can_be_read = all(it.body is not None for it in self.file.functions)
        self.program.is_whole = can_be_read and self.report.errors == before

    def _target(self) -> None:
        program, target, before = self.program, self.file.target, self.report.errors
        if not target:
            hint = "begin with `target warpd { stop: 100 }`"
            self.report.error(self.file.at, "the program has no target", hint)
        elif target.text != "warpd":
            hint = "write `target warpd { stop: 100 }`: bodies are in warpd's own statements"
            self.report.error(target.at, f"the target is `{target.text}`", hint)
        for it in self.file.properties:
            self._property(it)
        if "unit" in self.found:
            program.unit = self._unit(self.found["unit"].value)
        stop = self.found.get("stop") or self.found.get("timeout")
        if "stop" in self.found and "timeout" in self.found:
            at = self.found["timeout"].name.at
            self.report.error(at, "`timeout` and `stop` are one thing", "leave one of them out")
        if not stop and self.report.errors == before:
            hint = "write `target warpd { stop: 100 }`: the last time that is executed"
            self.report.error(self.file.at, "the program has no stop", hint)
        program.is_stated = "version" in self.found
        program.version = self._number("version", program.version, 1, max(LIMITS))
        if stop:
            it = stop.value
            program.stop = program.ranged(self.report, self._value(it), "stop", it.at, f"`{stop.name.text}`")
        program.is_exact = not self._number("microsteps_at_stop", 0, 0, 1)
        program.origins = self._number("origins", 0, 1, program.limits.origins)

    def _property(self, it: tree.Property) -> None:
        name = it.name.text
        if name in self.found:
            self.report.error(it.name.at, f"`{name}` stands twice")
        elif name not in PROPERTIES:
            hint = nearest(name, PROPERTIES) or "there are `stop`, `timeout`, `unit`, `origins` and `version`"
            hint = "leave it out" if name in refused.PROPERTIES else hint
            self.report.error(it.name.at, f"`{name}` is no property of a program", hint)
        self.found.setdefault(name, it)

    def _unit(self, it: tree.Expression) -> Optional[int]:
        if isinstance(it, tree.Duration) and it.nanoseconds:
            return it.nanoseconds
        self.report.error(it.at, "the unit is a time", "write `unit: 1 ms`")
        return None

    def _number(self, name: str, default: int, least: int, most: int) -> int:
        it = self.found.get(name)
        if not it:
            return default
        return ranged(self.report, self._value(it.value), least, most, it.value.at, f"`{name}`")

    def _value(self, it: tree.Expression) -> Optional[int]:
        return self.program.constant(Scope(self.report, self.program.unit), it, {})

    def _constants(self) -> None:
        for it in self.file.constants:
            scope, constants = self.program.scope, self.program.constants
            wanted = scope.type(it.type, is_array=True) if it.type else None
            value = self.program.constant(scope, it.value, constants, wanted)
            if isinstance(wanted, Array):
                value = replace(value or Cells("", (1,) * len(wanted.sides), (0,)), name=it.name.text)
            if wanted is None and value is not None:
                wanted = scope.number(it.value, None)
            scope.declare(it.name, Kind.CONSTANT, wanted or INT)
            constants.setdefault(it.name.text, value or 0)

    def _types(self) -> list[tuple[tree.Struct, Struct]]:
        """Takes enums in, and the names of structs, whose fields may ask for constants; gives these."""
        scope, structs = self.program.scope, []
        for it in self.file.types:
            known = scope.named.get(it.name.text)
            if known is not None:
                self.report.error(it.name.at, f"there is a type `{it.name.text}` already")
            elif isinstance(it, tree.Enum):
                scope.named[it.name.text] = INT
                scope.enums.add(it.name.text)
                self._enum(it)
            else:
                scope.named[it.name.text] = made = Struct(it.name.text, {}, {})
                structs.append((it, made))
        return structs

    def _enum(self, it: tree.Enum) -> None:
        """Each name is a constant, one more than the one before it where no value stands."""
        value = -1
        for part in it.parts:
            given = part.value and self.program.constant(self.program.scope, part.value, self.program.constants)
            value = wrapped(value + 1) if given is None else given
            self.program.scope.declare(part.name, Kind.CONSTANT)
            self.program.constants.setdefault(part.name.text, value)

    def _struct(self, it: tree.Struct, made: Struct) -> None:
        fields, starts = made.fields, made.starts
        for field in it.fields:
            name = field.name.text
            if name in fields:
                self.report.error(field.name.at, f"`{name}` stands twice")
            fields[name] = self.program.scope.type(field.type, is_array=True)
            before = self.report.errors
            if field.start:
                self.program.scope.constant(field.start, fields[name])
            starts[name] = self._start(field, fields[name]) if self.report.errors == before else 0

    def _start(self, field: tree.State, type: Type) -> Union[int, tuple[int, ...]]:
        """What a field begins with."""
        names, scope = self.program.constants, self.program.scope
        if isinstance(type, Array):
            return self.program.started(field.start, type, names, scope, field.name.at).values
        return self.program.lowered(field.start, names, scope, type) if field.start else 0
