"""Words that mean something in one place alone, and are names in all others: `import`, `from`, `as`, `extends` ...;
and in bodies `while` before its bracket, `most` in one, and `var` before a name."""

from __future__ import annotations

from collections.abc import Sequence

from .lexing import Word
from .tree import Name

SOFT = {"IMPORT", "FROM", "AS", "EXTENDS", "INTERLEAVED", "INITIAL", "MODE", "RESET", "HISTORY"}
# Those of bodies, and what a statement begins behind.
INNER = {"WHILE", "MOST", "VAR"}
BEFORE_STATEMENT = {"", "SEMICOLON", "LBRACE", "RBRACE", "RPAR", "ELSE"}


def in_place(words: list[Word]) -> list[Word]:
    """The words of a text, in which each such word that stands elsewhere is a name."""
    braces, is_import = 0, False
    for number, word in enumerate(words):
        braces += (word.kind == "LBRACE") - (word.kind == "RBRACE")
        if word.kind in INNER:
            _name(word)
        elif word.kind in SOFT:
            if not _has_place(words, number, braces, is_import):
                _name(word)
            is_import = is_import or word.kind == "IMPORT"
        elif word.kind in ("STRING", "LBRACE"):
            is_import = False
        before = ""
        for place, part in enumerate(word.parts):
            if part.kind in SOFT or part.kind in INNER and not _has_place_in_body(word.parts, place, before):
                _name(part)
            before = part.kind
    return words


def _has_place_in_body(words: Sequence[Word], number: int, before: str) -> bool:
    """Whether such a word stands where it means something; the words of a body end with one that is none."""
    behind = words[number + 1].kind
    if words[number].kind == "VAR":
        return (behind in INNER or _is_word(behind)) and before in BEFORE_STATEMENT
    if words[number].kind == "WHILE":
        return behind == "LPAR" and before in BEFORE_STATEMENT
    return before == "SEMICOLON" and behind in ("NAME", "NUMBER")


def _has_place(words: list[Word], number: int, braces: int, is_import: bool) -> bool:
    """Whether a word stands where it means something."""
    kind, before = words[number].kind, words[number - 1].kind if number else ""
    behind, next_but_one = (it.kind for it in [*words[number + 1:number + 3], words[-1], words[-1]][:2])
    if kind == "IMPORT":
        return braces == 0 and _is_word(behind) and (next_but_one == "COMMA" or next_but_one in SOFT)
    if kind == "FROM":
        return is_import and behind == "STRING"
    if kind == "AS":
        return is_import and _is_word(behind) and _is_word(before)
    if kind == "EXTENDS":
        return braces == 0 and _is_word(behind) and (_is_word(before) or before in ("RPAR", "REACTOR"))
    if kind == "MODE":
        return braces == 1 and _is_word(behind) and next_but_one == "LBRACE"
    if kind == "INITIAL":
        return braces == 1 and behind == "MODE"
    if kind == "RESET" and behind == "STATE":
        return True
    return behind == "LPAR" and before not in ("TIMER", "ACTION", "NEW")


def _is_word(kind: str) -> bool:
    return kind == "NAME" or kind in SOFT


def _name(word: Word) -> None:
    word.kind, word.value = "NAME", Name(word.text, word.at)
