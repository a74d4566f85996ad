"""The grammar as a table, by which texts are read: `lark` makes it once, and a file of the user's cache keeps it.

What the table has for each rule is its number of words and parts, the name of the builder's method that makes a part
of the tree of them, and which of them the method takes."""

from __future__ import annotations

import json
import os
import zlib
from collections.abc import Callable, Sequence
from functools import cache
from operator import itemgetter
from pathlib import Path
from typing import Any, NamedTuple, Optional, Union

from .lexing import SIGNS, Word

GRAMMAR = Path(__file__).with_name("grammar.lark")
STARTS = ("file", "body", "test")


class Stopped(Exception):
    """The word with this number could not stand there: the kinds that could have stood in its place."""

    def __init__(self, number: int, accepted: set[str]):
        super().__init__()
        self.number, self.accepted = number, accepted


class Rule(NamedTuple):
    """`make` is None where a rule has one part and its value is that of the part."""

    size: int
    origin: str
    make: Optional[Callable[[list], Any]]


class Ways(dict):
    """Which state follows: by the state before a part, the part's rule, and the kind of the word behind it. Rules that
    only hand the part on, as a number is a product and a sum, are passed over, and each way is found once."""

    def __init__(self, states: Sequence[dict[str, int]], rules: Sequence[Rule]):
        super().__init__()
        self.states, self.rules = states, rules

    def __missing__(self, way: tuple[int, str, str]) -> int:
        before, origin, kind = way
        state = self.states[before][origin]
        while (to := self.states[state].get(kind, 0)) < 0 and not self.rules[~to].make:
            state = self.states[before][self.rules[~to].origin]
        self[way] = state
        return state


class Grammar:
    """Reads words by a table. `builder` has a method for each rule of the grammar."""

    def __init__(self, table: dict, builder: object):
        self.builder = builder
        self.kinds: dict[str, str] = table["kinds"]
        self.starts, self.states = table["starts"], table["states"]
        self.rules = [_rule(builder, *it) for it in table["rules"]]
        self.ways = Ways(self.states, self.rules)

    def read(self, words: Sequence[Word], start: str):
        """What the builder made of these words, the last of which is `$END`."""
        states, rules, ways = self.states, self.rules, self.ways
        first, last = self.starts[start]
        stack, values = [first], []
        for number, word in enumerate(words):
            kind = word.kind
            while (to := states[stack[-1]].get(kind)) is None or to < 0:
                if to is None:
                    raise Stopped(number, self._accepted(stack))
                size, origin, make = rules[~to]
                begin = len(values) - size
                parts = values[begin:]
                # The first state stands before all values.
                del values[begin:], stack[begin + 1:]
                values.append(make(parts) if make else parts[0])
                stack.append(ways[stack[-1], origin, kind])
                if stack[-1] == last and kind == "$END":
                    return values[0]
            stack.append(to)
            values.append(word.value)
        raise AssertionError("the last word is `$END`")

    def _accepted(self, stack: Sequence[int]) -> set[str]:
        """The kinds of words that can stand behind what is read."""
        return {kind for kind in self.states[stack[-1]] if (kind.isupper()) and self._takes([*stack], kind)}

    def _takes(self, stack: list[int], kind: str) -> bool:
        while (to := self.states[stack[-1]].get(kind)) is not None and to < 0:
            size, origin, _ = self.rules[~to]
            del stack[len(stack) - size:]
            stack.append(self.states[stack[-1]][origin])
            if kind == "$END" and any(stack[-1] == last for _, last in self.starts.values()):
                return True
        return to is not None


def _rule(builder: object, size: int, origin: str, method: str, takes: Union[list, int]) -> Rule:
    """`takes` has for each value of the method the place of a part, None where a part that may lack does so, and a
    list with a place where a list of parts is put in. Where it is a number, the rule hands on the part there."""
    if isinstance(takes, int):
        return Rule(size, origin, None if size == 1 else itemgetter(takes))
    if origin.startswith("_"):
        return Rule(size, origin, lambda parts: _listed(parts, takes))
    made = getattr(builder, method)
    if takes == [*range(size)]:
        return Rule(size, origin, lambda parts: made(*parts))
    if all(isinstance(it, int) for it in takes):
        return Rule(size, origin, lambda parts: made(*[parts[it] for it in takes]))
    return Rule(size, origin, lambda parts: made(*_listed(parts, takes)))


def _listed(parts: list, takes: list) -> list:
    """The values of a rule; a list that stands first grows, so that a long one is not copied again for each part."""
    found = []
    for it in takes:
        if isinstance(it, list):
            found = [*found, *parts[it[0]]] if found else parts[it[0]]
        else:
            found.append(None if it is None else parts[it])
    return found


def table_of(text: str) -> dict:
    """The table of a grammar."""
    from lark import Lark
    from lark.lexer import Lexer

    class NoLexer(Lexer):
        """The words come from `lexing`."""

        def __init__(self, _conf):
            pass

        def lex(self, _text):
            return iter(())

    lark = Lark(text, parser="lalr", lexer=NoLexer, start=[*STARTS], maybe_placeholders=True)
    confs = {it: lark.parse_interactive("", start=it).parser_state.parse_conf for it in STARTS}
    states, rules = confs[STARTS[0]].states, {}
    for row in states.values():
        for action, it in row.values():
            if action.name == "Reduce":
                rules.setdefault(it, len(rules))
    # Some names are tokens of `lark`, each comparison of which calls a function: here they are plain.
    rows = [{
        str(name): ~rules[it] if action.name == "Reduce" else it for name, (action, it) in states[number].items()
    } for number in range(len(states))]
    kinds = {sign: it.name for it in lark.terminals for sign in SIGNS if _is_written(it.pattern, sign)}
    kinds.update({it.pattern.value: it.name for it in lark.terminals if it.pattern and it.pattern.value.lstrip("@").isidentifier()})
    return {
        "kinds": kinds, "starts": {it: [conf.start_state, conf.end_state] for it, conf in confs.items()},
        "states": rows, "rules": [_row_of(it) for it in rules],
    }


def _is_written(pattern, sign: str) -> bool:
    import re

    return pattern is not None and re.fullmatch(pattern.to_regexp(), sign) is not None


def _row_of(rule) -> list:
    """A rule of `lark` as the table has it."""
    gaps = [len(it) for it in "".join(str(int(it)) for it in rule.options.empty_indices).split("0")]
    gaps = gaps if rule.options.empty_indices else [0] * (len(rule.expansion) + 1)
    takes: list = []
    for place, (gap, symbol) in enumerate(zip(gaps, rule.expansion)):
        takes += [None] * gap
        if not (symbol.is_term and symbol.filter_out):
            takes.append([place] if symbol.name.startswith("_") else place)
    takes += [None] * gaps[-1]
    is_handed_on = rule.options.expand1 and not rule.alias and len(takes) == 1 and isinstance(takes[0], int)
    method = rule.alias or rule.origin.name
    return [len(rule.expansion), str(rule.origin.name), str(method), takes[0] if is_handed_on else takes]


def _kept(source: str) -> Path:
    folder = os.environ.get("XDG_CACHE_HOME") or os.path.expanduser("~/.cache")
    return Path(folder, "warpd", f"grammar-{zlib.crc32(source.encode()):08x}.json")


def _table() -> dict:
    """The table that is kept, where it was made by this source; else it is made, and kept where that can be."""
    text = GRAMMAR.read_text()
    source = text + Path(__file__).read_text()
    kept = _kept(source)
    try:
        table = json.loads(kept.read_text())
        if table["source"] == source:
            return table
    except (OSError, ValueError, KeyError, TypeError):
        pass
    table = {"source": source, **table_of(text)}
    try:
        kept.parent.mkdir(parents=True, exist_ok=True)
        new = kept.with_name(f"{kept.name}.{os.getpid()}")
        new.write_text(json.dumps(table))
        new.replace(kept)
    except OSError:
        pass
    return table


@cache
def grammar() -> Grammar:
    from .builder import Builder

    return Grammar(_table(), Builder())
