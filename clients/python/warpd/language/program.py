"""From a tree to a program: the passes over one text, in order."""

from __future__ import annotations

import math

from . import tree
from .connecting import Connecting, Net, uses
from .ending import Ending
from .faults import Report
from .flattening import Flattening
from .forms import Form, has_structure, seen
from .head import Head
from .hierarchy import Hierarchy, Node
from .instances import Writer, check_limits, has_too_much
from .model import LATER, PLAIN, Class, NeedsLater, Program
from .naming import name_all
from .needs import FOR_OTHERS, may_need_later, needs_later, tell_needs
from .order import check_order
from .reactors import checked, declared
from .scope import count_of
from .sources import Sources
from .values import TooLarge
from .warnings import warn


def program_of(file: tree.File, sources: Sources, report: Report) -> Program:
    """The program of a tree. It means nothing where the report has an error. Where the text says no version, it has version
    4 where it needs it, and else version 2."""
    before = report.mark()
    if not may_need_later(sources):
        try:
            return _program(PLAIN, file, sources, report)
        except NeedsLater:
            report.back_to(before)
    program = _program(LATER, file, sources, report)
    if not program.is_stated and not report.errors and not needs_later(program):
        # What would have needed it was worked out, or is in no reaction.
        later = report.mark()
        report.back_to(before)
        try:
            plain = _program(PLAIN, file, sources, report)
            if not report.errors and not needs_later(plain, FOR_OTHERS):
                return plain
        except NeedsLater:
            pass
        report.back_to(later)
    return program


def _program(version: int, file: tree.File, sources: Sources, report: Report) -> Program:
    program = Program(file.at, version)
    try:
        _write(program, file, sources, report)
    except TooLarge as past:
        report.error(past.at, past.text, past.hint)
    # Tests ask for constants of it, each as long as it is written.
    program.structure.left = math.inf
    return program


def _write(program: Program, file: tree.File, sources: Sources, report: Report) -> None:
    Head(file, program, report).read()
    tell_needs(file, sources, program, report)
    raws = [declared(it, program, report) for it in file.reactors]
    mains = [one for one in _named(raws, report) if one.tree.is_main]
    program.written = sources.written
    forms = Forms([*raws, *(declared(it, program, report) for it in sources.others())], sources, program, report)
    if not mains:
        at = file.reactors[-1].at if file.reactors else file.at
        hint = "`main reactor { .. }` has the instances and their connections"
        report.error(at, "there is no main reactor", hint)
        forms.every()
        return
    for second in mains[1:]:
        report.error(second.tree.at, "there is a main reactor already", f"at {report.place(mains[0].tree.at)}")
    root = program.root = forms.of_main(mains[0])
    forms.every()
    _connect(root, program, report)
    writers = [Writer(it, program, report) for it in program.instances.values() if it.of.is_good and program.is_whole]
    for it in writers:
        it.frame()
    # What is too much already needs no bodies.
    for it in () if has_too_much(program) else writers:
        it.bodies()
    if not report.errors and not has_too_much(program):
        Ending(program, report).write()
    if program.is_later and not report.errors:
        name_all(program)
    for judge in (check_limits, check_order, warn):
        if not report.errors:
            judge(program, report)


class Forms:
    """Checks each reactor, in the form of each of its instances; where it has none, with what its parameters are by
    themselves."""

    def __init__(self, raws: list[Class], sources: Sources, program: Program, report: Report):
        self.raws, self.sources, self.program, self.report = raws, sources, program, report
        self.hierarchy = Hierarchy({id(it.tree): it for it in raws}, sources, program, report)
        self.found: dict[tree.Reactor, Class] = {}

    def of_main(self, raw: Class) -> Node:
        root = self.hierarchy.root(raw)
        self._forms(root)
        return root

    def every(self) -> None:
        """Checks those that have no instance too; of these the text's own are told, where none extends them."""
        used = set(self.hierarchy.used)
        for raw in self.raws:
            if id(raw.tree) not in used and not raw.tree.is_main:
                self._forms(self.hierarchy.root(raw))
                if not self.report.number(raw.tree.at) and raw.name not in self.sources.extended:
                    self.program.unused.append(raw)

    def _forms(self, root: Node) -> None:
        for node in root.every():
            if not has_structure(node.raw):
                if not node.raw.is_checked:
                    checked(node.raw, self.report)
                node.form = node.raw
                continue
            form = Form(node, self.program, self.report)
            made = form.made()
            if made not in self.found:
                one = declared(made, self.program, self.report, set(node.constants) - set(node.raw.scope.kinds))
                one.scope.kinds.update(seen(node))
                self.found[made] = checked(one, self.report)
            node.form, node.heard, node.fed = self.found[made], form.heard, form.fed


def _connect(root: Node, program: Program, report: Report) -> None:
    """Links what is left of the hierarchy, and gives the program its inputs and outputs."""
    net = program.net = Net()
    for node in root.every():
        uses(node, net, report)
        Connecting(node, net, program, report).read()
    Flattening(root, net, program, report).write()
    program.origins = program.origins or 1 + max((it.origin for it in program.inputs), default=0)
    for it in program.inputs:
        if it.origin >= program.origins:
            hint = f"the program has {count_of(program.origins, 'origin')}, from 0"
            report.error(it.at, f"there is no origin {it.origin}", hint)


def _named(raws: list[Class], report: Report) -> list[Class]:
    """The reactors; one that has no name or a name twice is told."""
    first: dict[str, Class] = {}
    for one in raws:
        it = one.tree
        if not it.is_main and not it.name:
            report.error(it.at, "this reactor has no name", "write `reactor NAME { .. }`, or `main reactor { .. }`")
        elif not it.is_main and it.name.text in first:
            place = report.place(first[it.name.text].tree.at)
            report.error(it.at, f"there is a reactor `{it.name.text}` already", f"at {place}")
        elif not it.is_main:
            first[it.name.text] = one
    return raws
