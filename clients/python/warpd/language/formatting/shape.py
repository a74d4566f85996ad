"""What stands in what: the words of a text by the rules of the grammar, no word left out."""

from __future__ import annotations

from collections.abc import Sequence
from dataclasses import dataclass
from typing import Union

from ..lexing import Lexer, Word
from ..tables import Grammar, grammar
from ..testing.words import collapsed
from ..words import in_place


@dataclass
class Node:
    """A part of the text: `rule` is the grammar's name of it."""

    rule: str
    parts: list[Union[Node, Word]]

    @property
    def first(self) -> Word:
        """The first word."""
        it = self.parts[0]
        return it.first if isinstance(it, Node) else it

    @property
    def last(self) -> Union[Node, Word]:
        """The last word; of a body the body itself."""
        it = next(it for it in reversed(self.parts) if isinstance(it, Node) or it.kind != "$END")
        return it.last if isinstance(it, Node) and not it.is_body else it

    @property
    def is_body(self) -> bool:
        return self.rule == "body" and isinstance(self.parts[0], Word) and self.parts[0].kind == "BODY"


def shape(text: str) -> Node:
    """The shape of a text that can be read. A body and a test is a node in the place of its word."""
    made = _read(grammar(), in_place(collapsed(Lexer(text, grammar().kinds).words())), "file")
    _inside(made)
    return made


def _inside(node: Node) -> None:
    for number, it in enumerate(node.parts):
        if isinstance(it, Node):
            _inside(it)
        elif it.kind in ("BODY", "TEST"):
            inner = _read(grammar(), it.parts, "body" if it.kind == "BODY" else "test")
            node.parts[number] = Node(it.kind.lower(), [it, *inner.parts])


def _read(table: Grammar, words: Sequence[Word], start: str) -> Node:
    first, last = table.starts[start]
    stack, found = [first], []
    for word in words:
        while (to := table.states[stack[-1]][word.kind]) < 0:
            size, rule, _ = table.rules[~to]
            parts = found[len(found) - size:] if size else []
            del found[len(found) - size:], stack[len(stack) - size:]
            found.append(Node(rule, [each for it in parts for each in _listed(it)]))
            stack.append(table.states[stack[-1]][rule])
            if stack[-1] == last and word.kind == "$END":
                return found[0]
        stack.append(to)
        found.append(word)
    raise AssertionError("the last word is `$END`")


def _listed(it: Union[Node, Word]) -> list:
    """The parts of a list that the grammar has no name for; else the part itself."""
    return it.parts if isinstance(it, Node) and it.rule.startswith("_") else [it]
