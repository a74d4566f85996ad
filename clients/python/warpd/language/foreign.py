"""What people write as other languages have it, where a text could not be read: which word it is, and what to write instead."""

from __future__ import annotations

from collections.abc import Callable, Sequence
from typing import Optional

from . import refused
from .lexing import Word

Told = Optional[tuple[Word, tuple[str, str]]]
# Two signs that stand together, and the one that is meant; in the structure of a file others.
TWO_SIGNS = {"=>": ">=", "=<": "<=", "=!": "!=", "<>": "!=", "=+": "+=", "=*": "*=", "=/": "/=", "=%": "%="}
OPERANDS = ("NAME", "NUMBER", "TIME", "RPAR", "RSQB", "TRUE", "FALSE")


def foreign_at(words: Sequence[Word], number: int, start: int, table: dict) -> Told:
    """A word that is not of this language, where what could not be read begins, at `start`, or near where it stopped, at
    `number`, with what to say of it."""
    for look in IN_FILES if table is refused.STRUCTURE else IN_BODIES if table is refused.BODY else ():
        if found := look(words, number, start):
            return found
    if words[start].text in refused.BEGINNINGS and words[start].kind != "NAME":
        return words[start], refused.BEGINNINGS[words[start].text]
    for word in (words[start], words[number], words[max(number - 1, 0)]):
        key = {"STRING": '"', "ATTRIBUTE": "@"}.get(word.kind, word.text)
        if key in table and word.text != "@origin" and word.kind != "BODY":
            return word, table[key]
    return None


def _joined(one: Word, other: Word) -> str:
    """The signs of two words that stand together; of others nothing."""
    is_near = (one.line, one.column + len(one.text)) == (other.line, other.column)
    return one.text + other.text if is_near and not (one.text + other.text).isalnum() else ""


def _text(words: Sequence[Word], number: int) -> str:
    return words[number].text if 0 <= number < len(words) else ""


def _behind(words: Sequence[Word], number: int) -> Word:
    return words[min(number + 1, len(words) - 1)]


# In the structure of a file.


def _state(words: Sequence[Word], number: int, start: int) -> Told:
    """Sides and starts of variables, and what stands without its colon."""
    word, before = words[number], words[max(number - 1, 0)]
    if words[start].kind == "STATE":
        if "[" in (word.text, before.text):
            bracket = number if word.text == "[" else number - 1
            is_start = _text(words, bracket - 1) in ("=", ",", "[")
            first = _behind(words, bracket)
            return words[bracket], (refused.BRACES, f"write `{{{first}, ..}}`") if is_start else refused.SIDES
        bracket = _start_bracket(words, number)
        if bracket is not None:
            is_array = _text(words, bracket - 1) == "]"
            first = words[bracket + 2] if words[bracket + 1].text == "{" else words[bracket + 1]
            return words[bracket], ("a start stands behind `=`", f"write `= {{{first}, ..}}`" if is_array else f"write `= {first}`")
    if words[start].kind in ("STATE", "INPUT", "OUTPUT") and [it.kind for it in words[start + 1:start + 3]] == ["NAME", "NAME"]:
        name, type = words[start + 1:start + 3]
        if name.line == type.line:
            return type, ("a type stands behind a colon", f"write `{words[start]} {name}: {type}`")
    return None


def _start_bracket(words: Sequence[Word], number: int) -> Optional[int]:
    """Where the bracket stands that other languages have before a start or a default: `int(3)`, `int{3}`."""
    if words[number].text == "{" and _text(words, number - 2) == ":" or (_text(words, number - 1), words[number].text) == ("]", "{"):
        return number
    return next((place for place in (number - 1, number) if _text(words, place) == "("), None)


def _first_word(words: Sequence[Word], number: int, start: int) -> Told:
    first, word = words[start], words[number]
    if first.text in refused.C_TYPES and first.kind == "NAME" and word.kind == "NAME":
        if _is_in_struct(words, start):
            return first, ("a type stands behind a colon", f"write `{word}: int`")
        return first, ("a variable of a reactor begins with `state`", f"write `state {word}: int`")
    second = _behind(words, start)
    if first.kind == "CONST" and second.text in refused.C_TYPES:
        return second, ("a constant has its name first", f"write `const {word} = ..`")
    if first.kind in ("FUNCTION", "METHOD") and second.text in refused.C_TYPES:
        return second, ("a function has its name first", f"write `{first} {word}(x: int): int`")
    if first.kind in ("FUNCTION", "METHOD") and words[number - 1].text in refused.C_TYPES and word.kind == "NAME":
        return words[number - 1], ("a type stands behind a colon", f"write `{word}: int`")
    if first.kind == "TIMER" and word.kind in ("NUMBER", "TIME"):
        return word, ("the times of a timer stand in brackets", f"write `timer {words[number - 1]}({word})`")
    if first.kind == "REACTION" and word.text == "{":
        return word, ("a body stands between `{=` and `=}`", "")
    if first.kind == "IMPORT" and word.text == "from":
        return _behind(words, number), ("the path of a file stands between quotation marks", 'write `from "lib/counts.lf"`')
    if word.kind == "STRING" and words[number - 1].text == "test":
        return words[number - 1], refused.TEST_INSIDE
    return None


def _is_in_struct(words: Sequence[Word], start: int) -> bool:
    """Whether the brace around a member is that of a struct."""
    brace = next((place for place in range(start - 1, 1, -1) if words[place].kind in ("LBRACE", "RBRACE", "BODY")), 0)
    return words[brace].kind == "LBRACE" and words[max(brace - 2, 0)].text == "struct"


def _other_kinds(words: Sequence[Word], number: int, start: int) -> Told:
    """What reactors of Lingua Franca have more: generics, names of reactions, target code as types and values."""
    word, before = words[number], words[max(number - 1, 0)]
    if word.text in ("{=", "=}") or word.kind == "BODY":
        if before.text == ":":
            return word, ("warpd has no target code", "a type is `int`, `bool`, `time`, `fixed`, an enum or a struct")
        if before.text in ("=", "(", ","):
            return word, ("warpd has no target code", "write the value itself")
    if word.text == "<" and before.kind == "NAME" and _text(words, number - 2) in ("reactor", "new"):
        return word, ("warpd has no reactors of any type", f"write `{before}` alone")
    if word.text == "*" and before.kind == "NAME":
        return word, ("warpd has no pointers", "an array of three is `int[3]`")
    if words[start].kind == "REACTION" and word.kind == "NAME" and before.kind == "REACTION":
        return word, ("a reaction has no name", "write `reaction(..)`")
    if word.text == "continue" and _behind(words, number).text == "(":
        return word, ("there is no `continue` of a mode", f"write `history({_text(words, number + 2)})`")
    if before.text in refused.LATE and (word.text == "(" or word.kind == "BODY"):
        return before, (f"there is no `{before}`: no event is refused as late", "what comes late is executed at its tag, and what is behind that again")
    if before.text == "at" and _text(words, number - 2) == ")":
        return before, ("warpd has no federates", "leave `at` out: each replica runs the whole program")
    if word.kind == "CONST" and _behind(words, number).kind == "METHOD":
        return word, ("a method has no `const`", "leave it out")
    if before.text == "serializer":
        return before, ("warpd has no serializers", "leave it out")
    if words[start].kind == "LOGICAL" and word.kind == "STRING":
        return word, ("a logical action has one number, its least delay", "there are no spacings and no policies")
    if word.text == "#" and _behind(words, number).text in ("define", "include"):
        return word, ("warpd has no preprocessor", "write `const N = 3`, or `import A from \"lib/a.lf\"`")
    return None


def _given(words: Sequence[Word], number: int, start: int) -> Told:
    """Defaults and values of parameters, and widths of banks."""
    word, before = words[number], words[max(number - 1, 0)]
    if word.text == ":" and before.kind == "NAME" and any(it.kind == "NEW" for it in words[start:number]):
        return word, ("a value of a parameter stands behind `=`", f"write `{before} = {_behind(words, number)}`")
    if word.text in ("(", "{") and (_text(words, number - 2) == ":" or before.text == "]"):
        of = f"{{{_behind(words, number)}, ..}}" if before.text == "]" else f"{_behind(words, number)}"
        return word, ("a default stands behind `=`", f"write `= {of}`")
    is_behind = (before.text, word.text) == (")", "[") and any(it.kind == "NEW" for it in words[start:number])
    is_before = (before.text, word.text) == ("]", "=") and _behind(words, number).kind == "NEW"
    is_inside = word.text == "[" and _text(words, number - 2) == "new"
    if is_behind or is_before or is_inside:
        return word, ("the width of a bank stands behind `new`", "write `p = new[3] Player();`")
    return None


def _arrow(words: Sequence[Word], number: int, start: int) -> Told:
    signs = _joined(words[number], _behind(words, number))
    if signs == "=>":
        return words[number], ("`=>` is no arrow", "write `->`")
    if signs == "<-":
        return words[number], ("a connection leads to the right", "write `a.y -> b.x`")
    return None


# In bodies.


def _signs(words: Sequence[Word], number: int, start: int) -> Told:
    before, word = words[max(number - 1, 0)], words[number]
    for one, other in ((word, _behind(words, number)), (before, word)):
        signs = _joined(one, other)
        if signs in TWO_SIGNS:
            return one, (f"`{signs}` is not there", f"write `{TWO_SIGNS[signs]}`")
        if signs == "**":
            return one, ("`**` is not there", "write `a * a`")
    if word.text in ("*", "&") and before.kind not in OPERANDS:
        return word, ("a body has no pointers", "a name alone is its value")
    return None


def _cast(words: Sequence[Word], number: int, start: int) -> Told:
    """`(int) a`: it stops behind the bracket."""
    is_type = [_text(words, number - 3), _text(words, number - 1)] == ["(", ")"] and _text(words, number - 2) in refused.C_TYPES
    if not is_type or words[number].kind not in ("NAME", "NUMBER", "LPAR", "MINUS"):
        return None
    hint = f"leave `({words[number - 2]})` out; `floor(..)` makes an `int` of a `fixed` number"
    return words[number - 3], ("a body has no casts: each value has 64 bits", hint)


def _of_tag(words: Sequence[Word], number: int, start: int) -> Told:
    """`lf.time.logical()`, `lf_tag().time`."""
    for place in range(number - 1, max(start - 1, number - 6), -1):
        word = words[place]
        is_lf = word.text == "lf" and _text(words, place + 1) == "."
        if words[number].text in ("(", ".") and (is_lf or refused.CALLS.get(word.text) is refused.READS_TAG):
            asked = _text(words, place + 2) if is_lf else ""
            if f"lf_{asked}" in refused.BODY:
                return word, refused.BODY[f"lf_{asked}"]
            text, hint = refused.READS_TAG
            return word, (text.format("".join(it.text for it in words[place:number]).removesuffix("()")), hint)
    return None


def _method_call(words: Sequence[Word], number: int, start: int) -> Told:
    """`x.get()`, `y.set(3)`, `ctx.set(y, 3)`: it stops at the bracket."""
    if words[number].text != "(" or _text(words, number - 2) != "." or words[number - 1].text not in refused.METHODS:
        return None
    owner = words[number - 3]
    return owner, (refused.NO_CODE, refused.METHODS[words[number - 1].text].format(owner))


def _second_dot(words: Sequence[Word], number: int, start: int) -> Told:
    """`p.y.x`: a field of a port of an instance."""
    if words[number].text != "." or words[max(number - 1, 0)].kind not in ("NAME", "RSQB"):
        return None
    word = _behind(words, number)
    if word.text in refused.PARTS:
        text = "a port stands by its name alone" if word.text == "value" else "whether a port is there is asked by `present`"
        return word, (text, "write `p.y`, and `present(p.y)`")
    return words[number], ("a place has one `.`", "give what stands before it a name: `let v = p.y;`, then `v.x`")


def _time(words: Sequence[Word], number: int, start: int) -> Told:
    word, before = words[number], words[max(number - 1, 0)]
    if before.kind != "NUMBER" or word.kind != "NAME" or word.line != before.line:
        return None
    if "." in before.text and word.text in refused.UNITS:
        return before, (f"`{before} {word}`: a time is a whole number of its unit", "take a smaller one, as in `500 ms`")
    if word.text in refused.OTHER_UNITS:
        return word, (f"there is no unit `{word}`", f"write `{before} {refused.OTHER_UNITS[word.text]}`")
    return None


def _statements(words: Sequence[Word], number: int, start: int) -> Told:
    first, word, before = words[start], words[number], words[max(number - 1, 0)]
    if first.kind == "FOR" and word.text in (",", ":", "in"):
        return word, ("a loop has one counter, with its bounds", "write `for (let i = 0; i < 4; i++)`")
    if first.kind == "FOR" and before.kind == "FOR" and word.kind == "NAME":
        return word, ("a loop has its counter in brackets", "write `for (let i = 0; i < 4; i++)`")
    if word.kind == "EQUALITY" and word.text == "==" and first.kind == "NAME" and before.kind in ("NAME", "RSQB"):
        return word, ("`==` compares", "`=` assigns")
    if word.text == ";" and before.text in ("request_stop", "lf_request_stop"):
        return before, (f"`{before}` has brackets", "write `request_stop();`")
    if word.text == "," and any(it.kind == "LSQB" for it in words[start:number]) and before.kind in ("NUMBER", "NAME"):
        return word, ("each side has brackets of its own", "write `a[1][2]`")
    if word.text == "{" and before.kind == "NAME" and _text(words, number - 2) in ("=", "return", "("):
        return word, ("a struct has its parts in round brackets", f"write `{before}(..)`")
    if word.text == ":" and _behind(words, number).text == ":":
        return word, ("a name of an enum stands alone", f"write `{_text(words, number + 2)}`")
    return None


def _declares(words: Sequence[Word], number: int, start: int) -> Told:
    first, word = words[start], words[number]
    if first.text in ("let", "var") and word.text in (",", ";") and first.kind in ("LET", "VAR", "NAME"):
        if word.text == ",":
            return word, (f"a `{first}` declares one name", f"write `{first} {_behind(words, number)} = ..;` by itself")
        return first, (f"a `{first}` begins with a value", f"write `{first} {words[number - 1]} = 0;`")
    if word.text == "{" and words[number - 1].text == "=":
        return word, ("a list stands only where an array begins", "assign its cells one by one: `a[0] = 1;`")
    if word.text == ";" and [_text(words, number - 2), _text(words, number - 1)] == ["for", "("]:
        hint = "write `for (let i = 0; i < 4; i++)`; what goes on for ever is an action that schedules itself"
        return word, ("a loop begins with its counter", hint)
    return None


def mended(words: Sequence[Word], number: int, start: int) -> list[Word]:
    """The words with a declaration as this language has it, where others have its parts in another order; else none."""
    def sign(kind: str, text: str) -> Word:
        return Word(kind, text, words[number].line, words[number].column)

    first, name, type = (words[min(start + it, len(words) - 1)] for it in range(3))
    bracket = _start_bracket(words, number)
    if bracket is not None and (first.kind == "STATE" or _text(words, bracket - 2) == ":" or _text(words, bracket - 1) == "]"):
        closing = "RPAR" if words[bracket].text == "(" else "RBRACE"
        end = next((place for place in range(bracket, len(words)) if words[place].kind == closing), 0)
        given = words[bracket + 1:end]
        if _text(words, bracket - 1) == "]" and given and given[0].text != "{":
            given = [sign("LBRACE", "{"), *given, sign("RBRACE", "}")]
        return [*words[:bracket], sign("EQUALS", "="), *given, *words[end + 1:]] if end else []
    if first.kind in ("STATE", "INPUT", "OUTPUT") and name.kind == type.kind == "NAME":
        return [*words[:start + 2], sign("COLON", ":"), *words[start + 2:]]
    if first.kind == name.kind == "NAME" and first.text in refused.C_TYPES:
        begins = [] if _is_in_struct(words, start) else [sign("STATE", "state")]
        return [*words[:start], *begins, name, sign("COLON", ":"), first, *words[start + 2:]]
    return []


Look = Callable[[Sequence[Word], int, int], Told]
IN_FILES: tuple[Look, ...] = (_other_kinds, _state, _first_word, _given, _arrow, _time)
IN_BODIES: tuple[Look, ...] = (_signs, _cast, _of_tag, _method_call, _second_dot, _time, _statements, _declares)
