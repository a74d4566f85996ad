"""Lays texts out in one way: `format_text(text)`. The program stays the same."""

from __future__ import annotations

from typing import Optional

from ..faults import Report
from ..parsing import Parser
from ..tree import At
from .layout import Layout
from .tokens import tokens


class Unreadable(ValueError):
    """The text cannot be read: `report` tells its faults."""

    def __init__(self, report: Report):
        super().__init__(str(report))
        self.report = report


def format_text(text: str, file: str = "program.lf") -> str:
    """The text as it is laid out. One that cannot be read is `Unreadable`; `file` is how its faults name it."""
    made, report = formatted(text, file)
    if made is None:
        raise Unreadable(report)
    return made


def formatted(text: str, file: str = "program.lf") -> tuple[Optional[str], Report]:
    """The text as it is laid out; None where it cannot be read, which the report tells."""
    text = text.replace("\r\n", "\n")
    report = Report(file, text)
    try:
        tree = Parser(text, report).file()
        for word in tree.tests if tree else ():
            Parser(text, report).test(word)
        if tree is None or report.errors:
            return None, report
        made = Layout(text).text()
    except RecursionError:
        report.error(At(1, 1), "the text has brackets in brackets too deep to be read")
        return None, report
    return (made if _words(made) == _words(text) else text), report


def _words(text: str) -> list[str]:
    """All words and comments but semicolons: they stay."""
    found = []
    for it in tokens(text):
        found += [" ".join(each.text.split()) for each in it.comments]
        found += [it.text] * (it.text != ";")
    return found
