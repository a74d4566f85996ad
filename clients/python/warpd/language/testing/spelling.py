"""How what a test has is written in the language: expressions, records, and a whole `test` block."""

from __future__ import annotations

from collections.abc import Sequence
from typing import Union

from ... import Event, Tag, Withdraw
from .. import tree
from .plan import ASK, Arrival, Expected, Puts
from .subject import Subject, fixed

BINDS = {
    "||": 1, "&&": 2, "|": 3, "^": 4, "&": 5, "==": 6, "!=": 6, "<": 7, "<=": 7, ">": 7, ">=": 7, "<<": 8, ">>": 8,
    "+": 9, "-": 9, "*": 10, "/": 10, "%": 10,
}
UNARY, ATOM = 11, 12


def expression(it: tree.Expression, subject: Subject, around: int = 0) -> str:
    """An expression as it may be written, in brackets where what is around it binds tighter."""
    text, binds = _bound(it, subject)
    return f"({text})" if binds < around else text


def _bound(it: tree.Expression, subject: Subject) -> tuple[str, int]:
    def part(each: tree.Expression, around: int = 0) -> str:
        return expression(each, subject, around)

    match it:
        case tree.Number() | tree.Duration():
            return it.text, ATOM
        case tree.Reference():
            return subject.spelled(it.name), ATOM
        case tree.Unary():
            return f"{it.operator}{part(it.part, UNARY)}", UNARY
        case tree.Binary():
            binds = BINDS[it.operator]
            return f"{part(it.left, binds)} {it.operator} {part(it.right, binds + 1)}", binds
        case tree.Choice():
            return f"{part(it.test, 1)} ? {part(it.yes)} : {part(it.no)}", 0
        case tree.Call():
            return f"{it.name.text}({', '.join(map(part, it.parts))})", ATOM
    return str(it.place), ATOM


def moment(time: int, micro: Union[int, None] = 0, is_exact: bool = False) -> str:
    return f"({time}, {micro})" if micro or is_exact and micro is not None else str(time)


def puts(values: Sequence[tuple[Tag, int]], output: str, subject: Subject) -> str:
    """`3 at 25, 2 at (30, 1)`, or `nothing`."""
    return ", ".join(f"{subject.shown(output, value)} at {moment(*tag)}" for tag, value in values) or "nothing"


def expected(it: Union[Expected, Puts], subject: Subject) -> str:
    """What stands behind the word `expect`."""
    if isinstance(it, Puts):
        output = list(subject.outputs)[it.output]
        return f"{subject.spelled(output)} puts {puts(it.puts, output, subject)}"
    text = expression(it.value, subject)
    if it.is_always:
        return f"always {text}"
    return text if it.tag is None else f"{text} at {moment(*it.tag, is_exact=True)}"


def arrived(arrival: Arrival, subject: Subject) -> list[str]:
    """Each record, and each query, as a line of a test."""
    inputs = list(subject.inputs)
    lines = []
    for it in arrival:
        if it is ASK:
            lines.append("ask;")
        elif isinstance(it.record, Event):
            input = inputs[it.record.input]
            value = subject.shown(input, it.record.value)
            lines.append(f"{subject.spelled(input)} = {value} at {moment(*it.record.tag)};")
        elif isinstance(it.record, Withdraw):
            input = inputs[subject.owners.index(it.record.origin)]
            lines.append(f"withdraw {subject.spelled(input)} at {moment(*it.record.tag)};")
    return lines


def block(title: str, arrival: Arrival, expectations: Sequence[str], subject: Subject) -> str:
    """A `test` block, which may be put into the text."""
    lines = [*arrived(arrival, subject), *(f"expect {it};" for it in expectations)]
    return "\n".join([f'test "{title}" {{', *(f"  {it}" for it in lines), "}"])


__all__ = ["arrived", "block", "expected", "expression", "fixed", "moment", "puts"]
