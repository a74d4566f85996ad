"""The words of `test` blocks: a block is one word of its file, which has the words in it as its `parts`.

In a block a place like `player[0].lives` is one name, and words like `at` and `expect` are no names."""

from __future__ import annotations

from collections.abc import Callable, Sequence
from typing import Optional

from ..lexing import Word
from ..tree import Name

KEYWORDS = {
    "in": "IN", "every": "EVERY", "order": "WAY", "at": "AT", "to": "TO", "withdraw": "WITHDRAW", "ask": "ASK",
    "draw": "DRAW", "of": "OF", "expect": "EXPECT", "always": "ALWAYS", "puts": "PUTS", "nothing": "NOTHING",
}
# What begins a part of a file: a block that has none of its own braces ends before it.
OUTSIDE = {"REACTOR", "MAIN", "CONST", "ENUM", "STRUCT", "FUNCTION", "TARGET", "BODY"}
INDEX = ("LSQB", "NUMBER", "RSQB")


def collapsed(words: Sequence[Word]) -> list[Word]:
    """The words of a file, in which each block is one word of the kind `TEST`."""
    found, number, braces = [], 0, 0
    while number < len(words):
        word = words[number]
        braces += (word.kind == "LBRACE") - (word.kind == "RBRACE")
        number += 1
        if braces == 0 and _begins(words, number - 1):
            end = _end(words, number)
            last = words[end - 1]
            stop = Word("$END", "", last.line, last.column + len(last.text))
            word = Word("TEST", word.text, word.line, word.column, [*_parts(words[number:end]), stop])
            number = end
        found.append(word)
    return found


def _begins(words: Sequence[Word], number: int) -> bool:
    """Whether a block begins with this word; also one without a name, or with one that lacks quotation marks."""
    if words[number].text != "test" or len(words) < number + 3:
        return False
    behind = [it.kind for it in words[number + 1:number + 3]]
    is_behind_a_part = number > 0 and words[number - 1].kind in ("RBRACE", "SEMICOLON", "BODY")
    has_name = behind[0] == "STRING" or words[number + 1].text[:1] in ('"', "'")
    return has_name or is_behind_a_part and (behind[0] == "LBRACE" or behind == ["NAME", "LBRACE"])


def _end(words: Sequence[Word], number: int) -> int:
    """The place behind the block whose words begin here."""
    for place in range(number, len(words)):
        if words[place].kind == "RBRACE":
            return place + 1
        if place > number and (_is_outside(words, place) or _begins(words, place)):
            return place
    return len(words)


def _is_outside(words: Sequence[Word], number: int) -> bool:
    """Whether this word begins another part of the file, and is none of a place: `main.n`."""
    is_in_place = "DOT" in (words[number - 1].kind, words[min(number + 1, len(words) - 1)].kind)
    return words[number].kind == "$END" or words[number].kind in OUTSIDE and not is_in_place


def wrong_head(parts: Sequence[Word]) -> Optional[Word]:
    """The word of a block that stands in the way of `"NAME" {` and of `"NAME" in every order {`."""
    wanted = ("STRING", "IN", "EVERY", "WAY", "LBRACE")
    for word, kind in zip(parts, wanted[:1] + wanted[4:] if parts[1:] and parts[1].kind == "LBRACE" else wanted):
        if word.kind != kind:
            return word
    return None if len(parts) > 1 else parts[-1]


def _parts(words: Sequence[Word]) -> list[Word]:
    found, number = [], 0
    while number < len(words):
        word, number = _path(words, number)
        if word.text in KEYWORDS:
            word = Word(KEYWORDS[word.text], word.text, word.line, word.column)
        found.append(word)
    return found


def _path(words: Sequence[Word], number: int) -> tuple[Word, int]:
    """The word here, with what belongs to it as a place, and where the next one is."""
    first = words[number]
    number += 1
    if not (first.text.isidentifier() or first.text.startswith("`")):
        return first, number
    spelled = [first.text.strip("`")]
    while True:
        kinds = tuple(it.kind for it in words[number:number + 3])
        if kinds == INDEX and words[number - 1].line == words[number].line:
            spelled += [f"[{words[number + 1].text}]"]
            number += 3
        elif kinds[:1] == ("DOT",) and number + 1 < len(words) and _is_name(words[number + 1]):
            spelled += [".", words[number + 1].text.strip("`")]
            number += 2
        else:
            break
    if len(spelled) == 1:
        return first, number
    last = words[number - 1]
    word = Word("NAME", "".join(spelled), first.line, first.column)
    width = last.column + len(last.text) - first.column if last.line == first.line else len(first.text)
    word.value = Name(word.text, first.at._replace(width=width))
    return word, number


def _is_name(word: Word) -> bool:
    return word.text.isidentifier() or word.text.startswith("`")


def renamed(words: Sequence[Word], name_of: Callable[[str], str]) -> None:
    """Gives each place the name that this says."""
    for word in words:
        if word.kind == "NAME":
            word.value = Name(name_of(word.value.text), word.value.at)
