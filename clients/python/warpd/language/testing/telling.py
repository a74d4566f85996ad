"""How the outcome of tests is printed, and written as JUnit's XML."""

from __future__ import annotations

import platform
import textwrap
from collections.abc import Sequence
from datetime import datetime, timezone
from xml.sax.saxutils import escape, quoteattr

from ..faults import Report
from .judging import Failure, Outcome

GAP, WIDEST = 3, 100


def line(outcome: Outcome) -> str:
    """The line of one test."""
    note = f" ({outcome.note})" if outcome.note else ""
    return f"{'FAILED' if outcome.failures else 'ok    '}  {outcome.test.name}{note}"


def failure(it: Failure, report: Report) -> str:
    """What was expected beside what was, with the place in the text and records that show it."""
    told = place(it, report)
    title = f"{told}: {it.title or 'this is not so'}"
    source = report.lines[it.at.line - 1].rstrip("\r")
    margin = f"{it.at.line - report.files[report.number(it.at)][0]:5}"
    blank = "".join(each if each == "\t" else " " for each in source[: it.at.column - 1])
    carets = "^" * max(1, min(it.at.width, len(source) - it.at.column + 1))
    lines = [title, f"{margin} | {source}", f"{'':5} | {blank}{carets}", *sides(it)]
    if it.example:
        lines += ["  a test that shows it:", "", it.example, ""]
    return textwrap.indent("\n".join(lines), "  ").replace("\n  \n", "\n\n")


def place(it: Failure, report: Report) -> str:
    """The file, line and column of a failure."""
    first, file = report.files[report.number(it.at)]
    return f"{file}:{it.at.line - first}:{it.at.column}"


def short(it: Failure) -> str:
    """What is not so, in a line."""
    if not it.expected:
        return it.title
    between = " " if it.expected[0].endswith(" puts") else ", "
    wanted, got = (between.join([*its[:3], ".."] if len(its) > 3 else its) for its in (it.expected, it.got))
    return f"expected {wanted}, got {got}" + (f" ({it.title})" if it.title else "")


def sides(it: Failure) -> list[str]:
    """What was expected on the left and what was on the right; what differs has a mark between."""
    if not it.expected:
        return []
    width = max(len(each) for each in [*it.expected, "expected"]) + GAP
    if width + max(map(len, it.got)) > WIDEST:
        return _stacked(it)
    rows = [("expected", "got", " ")]
    for number in range(max(len(it.expected), len(it.got))):
        left, right = (its[number] if number < len(its) else "" for its in (it.expected, it.got))
        rows.append((left, right, " " if left == right else "|"))
    return [f"      {left:{width}}{mark} {right}".rstrip() for left, right, mark in rows]


def _stacked(it: Failure) -> list[str]:
    """What was expected above what was, where they have no room beside each other."""
    found = []
    for number in range(max(len(it.expected), len(it.got))):
        for word, its in (("expected", it.expected), ("got", it.got)):
            found += [f"      {word:8}   {its[number]}"] if number < len(its) else []
    return found


def junit(outcomes: Sequence[Outcome], report: Report) -> str:
    """The outcomes as JUnit's XML, with the elements and attributes that pytest writes."""
    seconds = sum(it.seconds for it in outcomes)
    failed = sum(bool(it.failures) for it in outcomes)
    now = datetime.now(timezone.utc).isoformat()
    head = (
        f'<testsuite name="warpd" errors="0" failures="{failed}" skipped="0" tests="{len(outcomes)}" '
        f'time="{seconds:.3f}" timestamp="{now}" hostname={quoteattr(platform.node())}>'
    )
    cases = "".join(_case(it, report) for it in outcomes)
    return f'<?xml version="1.0" encoding="utf-8"?><testsuites>{head}{cases}</testsuite></testsuites>\n'


def _case(it: Outcome, report: Report) -> str:
    name = report.files[report.number(it.test.at)][1]
    head = f'<testcase classname={quoteattr(name)} name={quoteattr(it.test.name)} time="{it.seconds:.3f}"'
    if not it.failures:
        return f"{head} />"
    told = short(it.failures[0])
    text = "\n".join(failure(each, report) for each in it.failures)
    return f"{head}><failure message={quoteattr(told)}>{escape(text)}</failure></testcase>"
