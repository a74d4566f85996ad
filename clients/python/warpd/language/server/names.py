"""What a text declares and where it mentions names, found by its words alone: so that a text which does not parse has
names too, and they stand where they are now.

Names of a body (`let`, the counters of loops, what a function is given) are found at once; what any other name means is
found by `resolving`, which knows the imported files."""

from __future__ import annotations

from collections.abc import Iterator
from dataclasses import dataclass, field
from typing import Optional

from ..lexing import Lexer, Word
from ..tables import grammar
from ..tree import At
from ..words import in_place

# What begins a member or a part of a file: here ends whatever stood before.
BEGINS = {
    "TARGET", "CONST", "IMPORT", "ENUM", "STRUCT", "FUNCTION", "METHOD", "MAIN", "REACTOR", "STATE", "INPUT", "OUTPUT",
    "LOGICAL", "TIMER", "REACTION", "INITIAL", "MODE", "ATTRIBUTE",
}
DECLARES = {"STATE": "state", "TIMER": "timer", "ACTION": "action", "MODE": "mode"}
# So many dots stand between a name and what it is a member of.
DEEPEST = 32
TEST_WORDS = set("in every order at to withdraw ask draw of expect always puts nothing".split())
TOPS = {"CONST": "constant", "ENUM": "enum", "STRUCT": "struct", "FUNCTION": "function", "METHOD": "method"}


@dataclass(eq=False)
class Symbol:
    """Something that has a name. `at` is where the name is declared in its text, `begins` and `ends` what the
    declaration takes up. `type` and `of` are what was written as its type, and as the reactor of an instance or the
    imported name. `members` has those of a reactor, the fields of a struct and the names of an enum, by their names;
    `bases` what a reactor extends. `is_plain` says that something is imported under its own name. `values` are the
    names that stand in what it starts with."""

    kind: str
    name: str
    at: At
    file: Names
    begins: At
    ends: At
    owner: Optional[Symbol] = None
    type: Optional[Word] = None
    of: Optional[Word] = None
    path: str = ""
    is_main: bool = False
    is_bank: bool = False
    is_plain: bool = False
    has_value: bool = False
    bases: list[Word] = field(default_factory=list)
    members: dict[str, Symbol] = field(default_factory=dict)
    parts: list[Symbol] = field(default_factory=list)
    values: list[Use] = field(default_factory=list)


@dataclass(eq=False)
class Use:
    """A name that is mentioned. `role` is what can stand there: a `value`, a `type`, a `reactor`, a `member` of
    `owner`, an `argument` of the reactor `of`, something `imported`, a `property`, or what a `test` names of main.
    `home` is the reactor around it, `local` what it means where a body declares that, and `declares` where it is that
    name itself."""

    word: Word
    role: str
    file: Names
    home: Optional[Symbol] = None
    local: Optional[Symbol] = None
    owner: Optional[Use] = None
    of: Optional[Word] = None
    path: str = ""
    declares: Optional[Symbol] = None
    has_member: bool = False
    depth: int = 0

    @property
    def text(self) -> str:
        return text_of(self.word)

    @property
    def at(self) -> At:
        return self.word.at

    @property
    def is_of_test(self) -> bool:
        """Whether a test names it: by itself, or behind what it names."""
        first = self
        while first.owner:
            first = first.owner
        return first.role == "test"


def text_of(word: Word) -> str:
    return word.text.strip("`")


class Names:
    """The names of one text. `symbols` has all that it declares and `uses` all that it mentions, declarations too, both
    in the order of the text; `reactors` and `shared` those that other texts can mention, by their names."""

    def __init__(self, text: str):
        self.text, self.lines = text, text.split("\n")
        self.words = in_place(Lexer(text, grammar().kinds).words())
        self.symbols: list[Symbol] = []
        self.uses: list[Use] = []
        self.outline: list[Symbol] = []
        self.reactors: dict[str, Symbol] = {}
        self.shared: dict[str, Symbol] = {}
        self.imports: list[str] = []
        self.aliases: dict[str, Symbol] = {}
        self.main: Optional[Symbol] = None
        Scan(self).file()
        self.uses.sort(key=lambda it: it.at)

    def use_at(self, line: int, column: int) -> Optional[Use]:
        """What is mentioned at a place, or ends there."""
        return next((it for it in self.uses if _covers(it.at, line, column)), None)

    def every_word(self) -> Iterator[Word]:
        for it in self.words:
            yield it
            yield from it.parts

    def word_at(self, line: int, column: int) -> Optional[Word]:
        found = [it for it in self.every_word() if _covers(it.at, line, column) and it.text]
        return found[-1] if found else None

    def home_at(self, line: int, column: int) -> Optional[Symbol]:
        """The reactor around a place."""
        found = [it for it in self.outline if it.kind == "reactor" and it.begins <= (line, column) <= it.ends]
        return found[-1] if found else None


def _covers(at: At, line: int, column: int) -> bool:
    return at.line == line and at.column <= column <= at.column + at.width


class Scan:
    """Goes once over the words of a text."""

    def __init__(self, names: Names):
        self.names, self.words = names, names.words
        self.home: Optional[Symbol] = None
        self.mode: Optional[Symbol] = None
        self.depth = 0

    # Parts of a file.

    def file(self) -> None:
        place, last = 0, len(self.words) - 1
        while place < last:
            word = self.words[place]
            if word.kind in TOPS or word.kind in ("MAIN", "REACTOR", "IMPORT", "TARGET"):
                place = self._part(word.kind, place)
            elif word.text == "test" and self._kind(place + 1) == "STRING":
                place = self._test(place)
            else:
                place += 1

    def _part(self, kind: str, place: int) -> int:
        match kind:
            case "IMPORT":
                return self._import(place + 1)
            case "TARGET":
                return self._target(place + 1)
            case "ENUM" | "STRUCT":
                return self._group(place, TOPS[kind])
            case "CONST":
                return self._constant(place)
            case "FUNCTION" | "METHOD":
                return self._routine(place)
            case _:
                return self._reactor(place)

    def _kind(self, place: int) -> str:
        return self.words[min(place, len(self.words) - 1)].kind

    def _declare(self, kind: str, word: Word, begins: Word, **more) -> Symbol:
        ends = At(word.line, word.column + len(word.text))
        made = Symbol(kind, text_of(word), word.at, self.names, begins.at, ends, self.home, **more)
        self.names.symbols.append(made)
        role = "reactor" if kind in ("reactor", "alias") else "type" if kind in ("enum", "struct") else "value"
        self.names.uses.append(Use(word, role, self.names, self.home, declares=made))
        return made

    def _use(self, word: Word, role: str, **more) -> Use:
        made = Use(word, role, self.names, self.home, **more)
        self.names.uses.append(made)
        return made

    def _ended(self, symbol: Symbol, place: int) -> None:
        """A declaration ends behind the word before this place."""
        word = self.words[max(place - 1, 0)]
        last = word.parts[-1] if word.kind == "BODY" else word
        symbol.ends = max(symbol.ends, At(last.line, last.column + (2 if word.kind == "BODY" else len(last.text))))

    def _test(self, place: int) -> int:
        """`test "NAME" { .. }`: what stands in it names what main has."""
        begins, name, depth = self.words[place], self.words[place + 1], 0
        made = Symbol("test", name.text[1:-1], name.at, self.names, begins.at, name.at)
        self.names.outline.append(made)
        links = Links(self, "test")
        place += 2
        while (word := self.words[place]).kind not in ("$END", "MAIN", "REACTOR", "TARGET") or self._is_in_place(place):
            depth += (word.kind == "LBRACE") - (word.kind == "RBRACE")
            place += 1
            is_member, is_name = self._kind(place - 2) == "DOT", word.kind == "NAME" or self._is_in_place(place - 1)
            if is_name and (is_member or word.text not in TEST_WORDS):
                links.name(word, is_member)
            elif not is_name:
                links.sign(word.kind)
            if word.kind == "RBRACE" and depth <= 0:
                break
        self._ended(made, place)
        return place

    def _is_in_place(self, place: int) -> bool:
        """Whether a word of the language stands in a place of a test: `main.n`."""
        return self.words[place].text.isidentifier() and "DOT" in (self._kind(place - 1), self._kind(place + 1))

    def _import(self, place: int) -> int:
        found: list[tuple[Word, Optional[Word]]] = []
        while self._kind(place) in ("NAME", "COMMA", "AS", "FROM"):
            word = self.words[place]
            if word.kind == "NAME" and self._kind(place - 1) == "AS" and found:
                found[-1] = (found[-1][0], word)
            elif word.kind == "NAME":
                found.append((word, None))
            place += 1
        path = self.words[place].text[1:-1] if self._kind(place) == "STRING" else ""
        if path:
            self.names.imports.append(path)
        for word, here in found:
            self._use(word, "imported", path=path)
            name = text_of(word)
            alias = Symbol("alias", name, word.at, self.names, word.at, word.at, of=word, path=path, is_plain=True)
            if here:
                alias = self._declare("alias", here, here, of=word, path=path)
            self.names.aliases.setdefault(alias.name, alias)
        return place + bool(path)

    def _target(self, place: int) -> int:
        place += 1
        if self._kind(place) != "LBRACE":
            return place
        while self._kind(place) not in ("RBRACE", "$END") and self._kind(place) not in BEGINS:
            if self._kind(place) == "NAME" and self._kind(place - 1) in ("LBRACE", "COMMA"):
                self._use(self.words[place], "property")
            place += 1
        return place + 1

    def _constant(self, place: int) -> int:
        begins, place = self.words[place], place + 1
        if self._kind(place) != "NAME":
            return place
        made = self._declare("constant", self.words[place], begins)
        self._share(made)
        place = Expressions(self, place + 1, made).read(None)
        self._ended(made, place)
        return place

    def _share(self, made: Symbol) -> None:
        self.names.shared.setdefault(made.name, made)
        self.names.outline.append(made)

    def _group(self, place: int, kind: str) -> int:
        """`enum NAME { A, B = 2 }` or `struct NAME { x: int = 0; y: fixed }`."""
        begins, place = self.words[place], place + 1
        if self._kind(place) != "NAME":
            return place
        made = self._declare(kind, self.words[place], begins)
        self._share(made)
        place += 1
        if self._kind(place) != "LBRACE":
            return place
        place += 1
        while self._kind(place) not in ("RBRACE", "$END") and self._kind(place) not in BEGINS:
            if self._kind(place) != "NAME":
                place += 1
                continue
            word = self.words[place]
            part = self._declare("enumerator" if kind == "enum" else "field", word, word)
            part.owner = made
            made.members.setdefault(part.name, part)
            made.parts.append(part)
            if kind == "enum":
                self.names.shared.setdefault(part.name, part)
            place = Expressions(self, place + 1, part).read("COMMA")
        self._ended(made, place + 1)
        return place + 1

    def _given(self, place: int, kind: str, owner: Symbol) -> tuple[int, list[Symbol]]:
        """What stands in brackets behind the name of a reactor or a function."""
        made: list[Symbol] = []
        place += 1
        while self._kind(place) not in ("RPAR", "LBRACE", "BODY", "$END") and self._kind(place) not in BEGINS:
            if self._kind(place) != "NAME":
                place += 1
                continue
            word = self.words[place]
            made.append(self._declare(kind, word, word))
            made[-1].owner = owner
            place = Expressions(self, place + 1, made[-1]).read("COMMA")
        return place + (self._kind(place) == "RPAR"), made

    def _routine(self, place: int) -> int:
        kind = TOPS[self._kind(place)]
        begins, place = self.words[place], place + 1
        if self._kind(place) != "NAME":
            return place
        made = self._declare(kind, self.words[place], begins)
        if self.home:
            self._member(made)
        else:
            self._share(made)
        place, given = place + 1, []
        if self._kind(place) == "LPAR":
            place, given = self._given(place, "given", made)
        made.parts = given
        if self._kind(place) == "COLON" and self._kind(place + 1) == "NAME":
            made.type = self.words[place + 1]
            self._use(made.type, "type")
            place += 2
        if self._kind(place) == "BODY":
            Bodies(self, {it.name: it for it in given}).read(self.words[place].parts)
            place += 1
        self._ended(made, place)
        return place

    # Reactors.

    def _reactor(self, place: int) -> int:
        begins = self.words[place]
        is_main = begins.kind == "MAIN"
        place += 1 + (is_main and self._kind(place + 1) == "REACTOR")
        if self._kind(place) == "NAME":
            made = self._declare("reactor", self.words[place], begins, is_main=is_main)
            place += 1
        else:
            made = Symbol("reactor", "", begins.at, self.names, begins.at, begins.at, is_main=is_main)
        self.names.outline.append(made)
        if is_main:
            self.names.main = self.names.main or made
        elif made.name:
            self.names.reactors.setdefault(made.name, made)
        self.home = made
        if self._kind(place) == "LPAR":
            place, given = self._given(place, "parameter", made)
            for it in given:
                self._member(it)
        if self._kind(place) == "EXTENDS":
            place += 1
            while self._kind(place) in ("NAME", "COMMA"):
                if self._kind(place) == "NAME":
                    made.bases.append(self.words[place])
                    self._use(self.words[place], "reactor")
                place += 1
        if self._kind(place) == "LBRACE":
            place = self._members(place + 1)
        self._ended(made, place)
        self.home = self.mode = None
        return place

    def _member(self, made: Symbol) -> None:
        made.owner = self.home
        self.home.members.setdefault(made.name, made)
        (self.mode or self.home).parts.append(made)

    def _members(self, place: int) -> int:
        """The members of the reactor whose brace is open; gives the place behind it."""
        while (kind := self._kind(place)) != "$END":
            if kind == "RBRACE":
                place += 1
                if not self.mode:
                    return place
                self._ended(self.mode, place)
                self.mode = None
            elif kind in ("MAIN", "REACTOR", "IMPORT", "TARGET", "CONST", "ENUM", "STRUCT", "FUNCTION"):
                return place
            else:
                place = self._one(kind, place)
        return place

    def _one(self, kind: str, place: int) -> int:
        """One member; gives the place behind it, or behind its beginning where it could not be read."""
        begins = self.words[place]
        if kind in ("LOGICAL", "RESET", "INITIAL") and self._kind(place + 1) in DECLARES:
            place += 1
            kind = self._kind(place)
        if kind in DECLARES and self._kind(place + 1) == "NAME":
            made = self._declare(DECLARES[kind], self.words[place + 1], begins)
            self._member(made)
            if kind == "MODE":
                self.mode = made
                return place + 2 + (self._kind(place + 2) == "LBRACE")
            return self._tail(made, place + 2)
        if kind in ("INPUT", "OUTPUT"):
            return self._ports(place)
        if kind == "METHOD":
            return self._routine(place)
        if kind == "REACTION":
            return self._reaction(place)
        if kind == "CALLED":
            return min(place + 4, len(self.words) - 1) if self._kind(place + 2) == "STRING" else place + 1
        if kind == "NAME" and self._kind(place + 1) == "EQUALS" and self._kind(place + 2) == "NEW":
            return self._instance(place)
        if kind in BEGINS or kind in ("RESET", "SEMICOLON"):
            if kind == "ATTRIBUTE":
                return Expressions(self, place + 1, None).read(None)
            return place + 1
        return max(Expressions(self, place, None).read(None), place + 1)

    def _tail(self, made: Symbol, place: int) -> int:
        place = Expressions(self, place, made).read(None)
        self._ended(made, place)
        return place

    def _ports(self, place: int) -> int:
        begins, kind = self.words[place], self._kind(place).lower()
        place, made, is_bank = place + 1, [], False
        if self._kind(place) == "LSQB":
            place, is_bank = Expressions(self, place, None).index(), True
        while self._kind(place) == "NAME":
            word, behind = self.words[place], self._kind(place + 1)
            if behind in ("DOT", "LSQB"):
                place = Expressions(self, place, None).read("COMMA")
            else:
                made.append(self._declare(kind, word, begins if not made else word, is_bank=is_bank))
                self._member(made[-1])
                place += 1
            if self._kind(place) != "COMMA":
                break
            place += 1
        if self._kind(place) == "COLON" and self._kind(place + 1) == "NAME":
            self._use(self.words[place + 1], "type")
            for it in made:
                it.type = self.words[place + 1]
            place += 2
            while self._kind(place) == "LSQB":
                place = Expressions(self, place, None).index()
        for it in made[-1:]:
            self._ended(it, place)
        return place

    def _reaction(self, place: int) -> int:
        begins = self.words[place]
        made = Symbol("reaction", "", begins.at, self.names, begins.at, begins.at, self.home)
        (self.mode or self.home).parts.append(made)
        while self._kind(place + 1) not in BEGINS | {"BODY", "RBRACE", "FOREIGN", "$END"}:
            place = max(Expressions(self, place + 1, None).read("BODY"), place + 2) - 1
        place += 1
        made.name = _header(self.names, begins, self.words[place])
        if self._kind(place) == "BODY":
            Bodies(self, {}).read(self.words[place].parts)
            place += 1
        self._ended(made, place)
        return place

    def _instance(self, place: int) -> int:
        word = self.words[place]
        made = self._declare("instance", word, word)
        self._member(made)
        place += 3
        if self._kind(place) == "LSQB":
            place, made.is_bank = Expressions(self, place, None).index(), True
        if self._kind(place) != "NAME":
            return place
        made.of = self.words[place]
        self._use(made.of, "reactor")
        place += 1
        if self._kind(place) == "LPAR":
            place = Expressions(self, place, None).arguments(made.of)
        self._ended(made, place)
        return place


def _header(names: Names, begins: Word, ends: Word) -> str:
    """How a reaction is told of in an outline: `reaction(a, b) c -> d`."""
    if begins.line == ends.line:
        return names.lines[begins.line - 1][begins.column - 1:ends.column - 1].strip()
    first = names.lines[begins.line - 1][begins.column - 1:]
    between = names.lines[begins.line:ends.line - 1]
    return " ".join(" ".join([first, *between, names.lines[ends.line - 1][:ends.column - 1]]).split())


OPERANDS = {"NAME", "NUMBER", "TIME", "TRUE", "FALSE", "RPAR", "RSQB"}


class Links:
    """Follows dots: whose member a name is, with indices and calls between."""

    def __init__(self, scan: Scan, role: str = "value"):
        self.scan, self.role = scan, role
        self.last: Optional[Use] = None
        self.open: list[Optional[Use]] = []
        self.questions: list[int] = [0]
        self.is_choice = False

    def sign(self, kind: str) -> None:
        """Takes in a word that is no name. `is_choice` says that it is the colon of a `? :`."""
        self.is_choice = kind == "COLON" and self.questions[-1] > 0
        if kind in ("LSQB", "LPAR"):
            self.open.append(self.last if kind == "LSQB" else None)
            self.questions.append(0)
            self.last = None
        elif kind in ("RSQB", "RPAR"):
            self.last = self.open.pop() if self.open else None
            if len(self.questions) > 1:
                self.questions.pop()
        elif kind == "QMARK":
            self.questions[-1] += 1
            self.last = None
        elif self.is_choice:
            self.questions[-1] -= 1
            self.last = None
        elif kind != "DOT":
            self.last = None

    def name(self, word: Word, is_member: bool, local: Optional[Symbol] = None) -> Use:
        """Takes in a name."""
        if is_member:
            owner = self.last if self.last and self.last.depth < DEEPEST else None
            if owner:
                owner.has_member = True
            self.last = self.scan._use(word, "member", owner=owner, depth=owner.depth + 1 if owner else 0)
        else:
            self.last = self.scan._use(word, self.role, local=local)
        return self.last


class Expressions:
    """Reads what stands behind a name, or between members: its type, and what it mentions."""

    def __init__(self, scan: Scan, place: int, of: Optional[Symbol]):
        self.scan, self.words, self.place, self.of = scan, scan.words, place, of
        self.links = Links(scan)
        # How many lists are open: `{1, 2}`.
        self.lists = 0

    def read(self, ends: Optional[str]) -> int:
        """Goes up to the end of an expression, a list of places or a connection; gives the place behind it. `ends` is a
        word that ends it too."""
        depth, words, start = 0, self.words, self.place
        while (word := words[self.place]).kind != "$END":
            kind, before = word.kind, words[self.place - 1].kind
            if self._is_of_list(kind, before):
                depth += 1 if kind == "LBRACE" else -1
                self.place += 1
                continue
            if kind in BEGINS or kind in ("LBRACE", "RBRACE", "FOREIGN") or kind in ("BODY", ends) and depth == 0:
                break
            if kind == "SEMICOLON" and depth == 0:
                return self.place + 1
            is_first = self.place == start and not self.of
            if kind == "NAME" and depth == 0 and not is_first and self._begins_anew(before):
                break
            depth += (kind in ("LPAR", "LSQB")) - (kind in ("RPAR", "RSQB"))
            if depth < 0:
                break
            self._take(word, before)
            self.place += 1
        return self.place

    def _is_of_list(self, kind: str, before: str) -> bool:
        """Whether a brace begins or ends a list of values."""
        if kind == "LBRACE" and (before == "EQUALS" or self.lists and before in ("LBRACE", "COMMA")):
            self.lists += 1
            return True
        is_end = kind == "RBRACE" and self.lists > 0
        self.lists -= is_end
        return is_end

    def _begins_anew(self, before: str) -> bool:
        """Whether the name here begins a member, where the one before has no semicolon."""
        behind, next_but_one = (self.words[min(self.place + it, len(self.words) - 1)].kind for it in (1, 2))
        return before in OPERANDS or (behind, next_but_one) == ("EQUALS", "NEW")

    def _take(self, word: Word, before: str) -> None:
        is_type = before == "COLON" and self.of and not (self.of.type or self.of.has_value or self.links.is_choice)
        if word.kind == "NAME" and is_type:
            self.of.type = word
            self.scan._use(word, "type")
        elif word.kind == "NAME":
            use = self.links.name(word, before == "DOT")
            if self.of:
                self.of.values.append(use)
        else:
            self.links.sign(word.kind)
        if self.of and word.kind == "EQUALS":
            self.of.has_value = True

    def index(self) -> int:
        """Reads `[ .. ]`; gives the place behind it."""
        self.place += 1
        self.read(None)
        return self.place + (self.words[self.place].kind == "RSQB")

    def arguments(self, of: Word) -> int:
        """Reads `(name = expression, ..)` of an instance of this reactor; gives the place behind it."""
        depth = 0
        while (word := self.words[self.place]).kind not in BEGINS | {"$END", "BODY", "SEMICOLON"}:
            before, behind = (self.words[self.place + it].kind for it in (-1, 1))
            if self._is_of_list(word.kind, before):
                depth += 1 if word.kind == "LBRACE" else -1
                self.place += 1
                continue
            if word.kind in ("LBRACE", "RBRACE"):
                break
            depth += (word.kind in ("LPAR", "LSQB")) - (word.kind in ("RPAR", "RSQB"))
            if word.kind == "NAME" and depth == 1 and behind == "EQUALS" and before in ("LPAR", "COMMA"):
                self.scan._use(word, "argument", of=of)
            else:
                self._take(word, before)
            self.place += 1
            if depth == 0:
                break
        return self.place


@dataclass
class Frame:
    """The names that a block declares, or a loop, which ends with its statement."""

    names: list[str] = field(default_factory=list)
    is_loop: bool = False


class Bodies:
    """Reads the words of one body."""

    def __init__(self, scan: Scan, given: dict[str, Symbol]):
        self.scan, self.frames = scan, [Frame()]
        # What each name means here, the innermost last.
        self.meanings: dict[str, list[Symbol]] = {name: [it] for name, it in given.items()}
        self.links = Links(scan)
        self.pending: Optional[Symbol] = None
        self.depth = 0

    def read(self, words: list[Word]) -> None:
        for place, word in enumerate(words[:-1]):
            before = words[place - 1].kind if place else ""
            behind = words[place + 1].kind
            if word.kind == "NAME":
                self._name(words, place, before, behind)
                continue
            self.depth += (word.kind == "LPAR") - (word.kind == "RPAR")
            self.links.sign(word.kind)
            if self.pending and word.kind == "EQUALS":
                self.pending.has_value = True
            if word.kind == "FOR":
                self.frames.append(Frame(is_loop=True))
            elif word.kind == "LBRACE":
                self._known()
                self.frames.append(Frame())
            elif word.kind == "RBRACE":
                self._closed(behind)
            elif word.kind == "SEMICOLON":
                self._known()
                if self.depth <= 0:
                    self.depth = 0
                    self._ended(behind)
        self._known()

    def _name(self, words: list[Word], place: int, before: str, behind: str) -> None:
        word = words[place]
        is_head = [it.kind for it in words[max(place - 2, 0):place]] == ["FOR", "LPAR"]
        if before in ("LET", "VAR"):
            self._declare(word, "let" if before == "LET" else "var", words[place - 1])
        elif is_head and behind == "EQUALS" or before == "NAME" and words[max(place - 2, 0)].kind == "LPAR":
            self._declare(word, "turn", word)
        elif is_head and behind == "NAME" or before == "COLON" and self.pending and not self.pending.has_value:
            if self.pending:
                self.pending.type = word
            self.scan._use(word, "type")
        else:
            use = self.links.name(word, before == "DOT", self._local(text_of(word)) if before != "DOT" else None)
            if self.pending:
                self.pending.values.append(use)
                self.pending.has_value = True

    def _declare(self, word: Word, kind: str, begins: Word) -> None:
        self._known()
        self.pending = self.scan._declare(kind, word, begins)

    def _local(self, name: str) -> Optional[Symbol]:
        found = self.meanings.get(name)
        return found[-1] if found else None

    def _known(self) -> None:
        """What was declared is known from here on."""
        if self.pending:
            self.frames[-1].names.append(self.pending.name)
            self.meanings.setdefault(self.pending.name, []).append(self.pending)
            self.pending = None

    def _leave(self) -> Frame:
        """A block or a loop has ended, and what it declares is not known any more."""
        frame = self.frames.pop()
        for name in frame.names:
            self.meanings[name].pop()
        return frame

    def _ended(self, behind: str) -> None:
        """A statement has ended, and with it the loops of which it is the last one."""
        while behind != "ELSE" and len(self.frames) > 1 and self.frames[-1].is_loop:
            self._leave()

    def _closed(self, behind: str) -> None:
        self._known()
        while len(self.frames) > 1 and self._leave().is_loop:
            pass
        self._ended(behind)
