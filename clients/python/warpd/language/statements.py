"""From the statements of a checked body to those of a program file.

A `let` means its value at its place. A function is put in where it is called: one that has neither
loops nor assignments as the expression that it comes to, another as its statements. A loop is written out, turn by turn; in
version 4 one that is long, or whose turns are not known beforehand, is a loop of the program file. What stands behind a
`return`, `break` or `continue` is put into the other branch of the `if` that it stands in; where that can not be, a
variable of the compiler's own says that it was reached."""

from __future__ import annotations

from collections.abc import Callable, Mapping, Sequence
from itertools import count, product
from typing import NamedTuple, Optional, Union

from . import tree
from .arrays import started
from .faults import Report
from .keeping import Fork, Keep, Keeper, Repeat, Step
from .lowering import NOW, Echo, Made, Maker, binary, converted
from .routines import Routine, calls, every, references
from .tree import At
from .types import INT, Array, Struct, Type
from .values import Cell, Cells, Parts, Temp, TooLarge, Value, is_simple, made, size

# So many turns all loops of a body may have together that are written out. In version 4 one that comes to more parts than
# so many is a loop of the program file.
MOST_TURNS, MOST_WRITTEN, MOST_COUNTED = 1_024, 256, 65_536
# So many times the bounds of a loop are worked out that depend on the loops around it.
MOST_WAYS = 4_096
# What is asked before each turn is put into the loop's test where it has at most so many parts.
MOST_ASKED = 64
# So many statements, one of which may leave, are put into each other's branches.
MOST_NESTED = 8


class Label:
    """The end of a body, of a loop or of a turn, to which a `return`, `break` or `continue` leads. Those that were made
    first have the least `number`."""

    numbers = count()

    def __init__(self, at: At):
        self.flag, self.is_flagged, self.number = Cell(at), False, next(self.numbers)


class Mark(NamedTuple):
    """Where what ends with a label begins, or where that is left for its end."""

    label: Label
    is_left: bool


class Left(NamedTuple):
    """Which labels statements may lead to, and whether they always lead to one."""

    labels: frozenset[Label] = frozenset()
    always: bool = False

    def behind(self, label: Label) -> Left:
        """What is left behind the end that the label has."""
        return Left(self.labels - {label}, self.always and label not in self.labels)


class Slot(NamedTuple):
    """A cell of an array that is assigned."""

    array: str
    place: Value


Item = Callable[[], Left]
Target = Union[str, Cell, Slot, Cells, dict[str, Union[str, Slot]]]


class TooMany(Exception):
    """A loop has too many turns; `is_free` says that they are not known beforehand."""

    def __init__(self, at: At, is_free: bool = False):
        super().__init__()
        self.at, self.is_free = at, is_free


class Body(Maker):
    """Makes the statements of one body. `values` has what was made of each expression, `delays` each delay."""

    def __init__(
        self, names: Mapping[str, Made], types: Mapping[str, Type], unit: int, named: Mapping[str, Type],
        routines: Mapping[str, Routine], outputs: set[str], parts: Parts, report: Report, is_later: bool = False,
    ):
        """`parts` are left for all bodies of the program together; `is_later` says that it has version 4."""
        super().__init__(dict(names), dict(types), unit, named)
        self.is_later = is_later
        # How many turns each loop may have at most; of loops around that are not written out the numbers of their turns.
        self.mosts: list[tuple[At, int]] = []
        self.counted: dict[str, list[int]] = {}
        # Whether nothing may be kept at this place, since it is worked out again and again.
        self.is_asked = False
        self.sizes: dict[int, tuple[object, int]] = {}
        self.report = report
        self.left, self.parts = parts.left, parts
        self.base = names, types
        self.routines, self.outputs = routines, outputs
        # The outputs that are read, by what the program file calls them.
        self.echoed: dict[str, Echo] = {}
        self.values: list[tuple[At, Value]] = []
        self.delays: list[tuple[At, int]] = []
        self.out: list = []
        self.turns = 0
        self.labels: dict[str, Label] = {}
        self.result: Optional[tuple[Made, Type]] = None
        self.calling: list[tree.Call] = []

    def made(self, statements: Sequence[tree.Statement], variable: Callable[[int], str], at: At) -> list:
        """`variable` names the compiler's variable with this number, from 0; several bodies share them."""
        end = self.labels["return"] = Label(at)
        self.out.append(Mark(end, False))
        self._sequence(self._items(statements))
        self.parts.left = self.left
        keeper = Keeper(_without_marks(self.out), variable, self.parts, at, self.is_later)
        made_ = keeper.statements()
        self.values = keeper.values
        return made_

    def too_large(self, at: At) -> TooLarge:
        if not self.calling:
            return TooLarge(at, "the program comes to too many parts here", "a loop is written out, turn by turn, in each instance")
        name, at = self.calling[0].name.text, self.calling[0].at
        hint = "a function is put in where it is called, and so is what it calls: call each of them less often"
        return TooLarge(at, f"with `{name}` put in here the program comes to too many parts", hint)

    # Values.

    def once(self, value: Value, at: At) -> Value:
        return value if is_simple(value) else self._temp(value, at)

    def _temp(self, value: Value, at: At) -> Value:
        if isinstance(value, (int, Temp)) or self.is_asked and size(value) <= MOST_ASKED:
            return value
        temp = Temp(value, at)
        self.out.append(Keep(temp))
        return temp

    def _named(self, made_: Made, at: At) -> Made:
        """What stands for a value behind its place; an array stands for itself."""
        if isinstance(made_, Cells):
            return made_
        if isinstance(made_, dict):
            return {name: self._named(value, at) for name, value in made_.items()}
        return self._temp(made_, at)

    # Statements in turn.

    def _items(self, statements: Sequence[tree.Statement]) -> list[Item]:
        return [lambda it=it: self._statement(it) for it in statements]

    def _sequence(self, items: Sequence[Item], nests: bool = True) -> Left:
        """Makes one after the other; what stands behind one that may leave is made for where it has not: in the other
        branch of an `if`, or where that nests too deep behind a flag."""
        labels: frozenset[Label] = frozenset()
        for place, item in enumerate(items):
            left = item()
            labels |= left.labels
            if left.always or left.labels and not items[place + 1:]:
                return Left(labels, left.always)
            if left.labels:
                other = _other_branch(self.out, left.labels)
                if nests and other is not None:
                    rest = self._into(other, items[place + 1:])
                    return Left(labels | rest.labels, rest.always)
                return self._guarded(items[place + 1:], labels)
        return Left(labels)

    def _guarded(self, items: Sequence[Item], labels: frozenset[Label]) -> Left:
        """Each of these is reached only where no label was left for."""
        for item in items:
            rest: list = []
            test: Value = 0
            # In one order, so that a text always makes the same program.
            for label in sorted(labels, key=lambda it: it.number):
                label.is_flagged = True
                test = label.flag if test == 0 else made("or", test, label.flag)
            before, self.out = self.out, rest
            left = item()
            self.out = before
            if rest:
                self.out.append(Fork(test, [], rest, _place(rest)))
            labels |= left.labels
            if left.always:
                return Left(labels, True)
        return Left(labels)

    def _into(self, out: list, items: Sequence[Item]) -> Left:
        """Makes statements into a list; their names end with them."""
        before, names, types = self.out, dict(self.names), dict(self.types)
        self.out = out
        left = self._sequence(items)
        self.out, self.names, self.types = before, names, types
        return left

    def _labelled(self, label: Label, items: Sequence[Item]) -> Left:
        self.out.append(Mark(label, False))
        return self._sequence(items, len(items) <= MOST_NESTED).behind(label)

    def _statement(self, it: tree.Statement) -> Left:
        self.left -= 1
        match it:
            case tree.Let():
                self._let(it)
            case tree.Assign():
                self._assign(it)
            case tree.Invoke(tree.Call(tree.Name("put"), (output, value))):
                to = self.names.get(output.name, output.name)
                self._put(to, self.value(value, self.types.get(output.name, INT)), value.at)
            case tree.Invoke(tree.Call(tree.Name("request_stop", at))):
                self._step("stop", "", 1, at)
            case tree.Invoke(tree.Call(tree.Name("schedule"), (action, delay, *value))):
                made_ = self.value(value[0], self.types.get(action.name, INT)) if value else 0
                return self._schedule(self.names.get(action.name, action.name), delay, made_, (value or [delay])[0].at)
            case tree.Invoke(call):
                self.called(call)
            case tree.If():
                return self._if(it)
            case tree.Block():
                return self._sequence(self._items(it.statements))
            case tree.Loop():
                return self._loop(it)
            case tree.While():
                return self._repeated(it, it.body, it.test, self._most(it.most), None)
            case tree.Leave():
                return self._leave(it)
        return Left()

    def _step(self, word: str, target: Union[str, Cell], value: Value, at: At, delay: int = 0) -> None:
        self.out.append(Step(word, target, value, at, delay))

    def _set(self, target: Union[str, Cell, Slot], value: Value, at: At) -> None:
        if isinstance(target, Slot):
            self.out.append(Step("setat", target.array, value, at, 0, target.place))
        elif target in self.outputs:
            self._put(target, value, at)
        else:
            self._step("set", target, value, at)

    def _put(self, output: str, value: Value, at: At) -> None:
        """Puts a value, and keeps it where it is read again."""
        echo = self.echoed.get(output)
        if echo:
            self._step("set", echo.value, value, at)
            self._step("set", echo.tag, NOW, at)
        self._step("put", output, echo.value if echo else value, at)

    def _let(self, it: tree.Let) -> None:
        made_, type = self.typed(it.value)
        wanted = self.named[it.type.text] if it.type else type
        value, at = converted(made_, type, wanted), it.value.at
        self.names[it.name.text] = self._variable(value, at) if it.is_variable else self._named(value, at)
        self.types[it.name.text] = wanted

    def _variable(self, value: Made, at: At) -> Made:
        """A variable of the body that begins with a value."""
        if isinstance(value, dict):
            return {name: self._variable(each, at) for name, each in value.items()}
        cell = Cell(at)
        self._step("set", cell, value, at)
        return cell

    def _assign(self, it: tree.Assign) -> None:
        target, type = self._target(it.name)
        if isinstance(it.value, tree.List):
            return self._begin(target, type, it.value)
        if isinstance(type, Array):
            made_ = self.value(it.value, type.of)
            for name in target if isinstance(target, dict) else [None]:
                one, value = (target, made_) if name is None else (target[name], made_[name])
                self._fill(one, value, it.value.at)
            return
        if isinstance(target, Slot) and it.operator:
            old = ["at", target.array, target.place]
            made_, found = binary(it.operator, (old, type), self.typed(it.value), self.is_later)
            return self._set(target, converted(made_, found, type), it.name.at.to(it.value.at))
        value = it.value
        if it.operator:
            old = tree.Member(it.name, it.name.at) if isinstance(it.name, tree.Place) else tree.Reference(it.name.text, it.name.at)
            value = tree.Binary(it.operator, old, it.value, it.name.at.to(it.value.at))
        made_ = self.value(value, type)
        if isinstance(made_, dict):
            for (name, each), to in zip(self._named(made_, value.at).items(), target.values()):
                self._set(to, each, value.at)
        else:
            self._set(target, made_, value.at)

    def _begin(self, cells: Cells, type: Array, it: tree.List) -> None:
        """Gives an array the values of a list again: the reset of a mode does so."""
        values = started(it, type, self.value, {}, self.report, it.at).values
        self._fill(cells, 0, it.at)
        for place, value in enumerate(values):
            if value:
                self._set(Slot(cells.name, place), value, it.at)

    def _target(self, it: Union[tree.Name, tree.Place]) -> tuple[Target, Type]:
        """What is assigned, and its type. Which cell of an array it is is worked out here, and once."""
        if isinstance(it, tree.Name):
            self.left -= 1
            return self.names.get(it.text, it.text), self.types.get(it.text, INT)
        found, type = self.found(it, it.at)
        indices = [self.value(each) for each in (*it.owner_indices, *it.indices)]
        if not indices:
            return found, type
        if isinstance(found, dict):
            return {name: self._slot(each, indices, it.at) for name, each in found.items()}, type.of
        return self._slot(found, indices, it.at), type.of

    def _slot(self, cells: Cells, indices: Sequence[Value], at: At) -> Slot:
        return Slot(cells.name, self.once(self.place(cells, indices, at), at))

    def _fill(self, cells: Cells, made_: Made, at: At) -> None:
        """Gives all cells of an array a value, or those of another array."""
        value = made_ if isinstance(made_, Cells) else self.once(made_, at)
        counter = Cell(at, (0, cells.count - 1))
        self._step("set", counter, 0, at)
        if isinstance(value, Cells):
            value = self.cell(value, [counter], at)
        turn = [Step("setat", cells.name, value, at, 0, counter), Step("set", counter, ["+", counter, 1], at)]
        self.out.append(Repeat(cells.count, ["<", counter, cells.count], turn, at))

    def _schedule(self, action: str, delay: tree.Expression, value: Value, at: At) -> Left:
        """A delay that is one of several is asked for: no two of them are scheduled."""
        match delay:
            case tree.Choice():
                value, test = self.once(value, at), self.value(delay.test)
                ways: list[list] = [[], []]
                for out, way in zip(ways, (delay.yes, delay.no)):
                    self._into(out, [lambda way=way: self._schedule(action, way, value, at)])
                self._fork(test, *ways, delay.test.at)
            case tree.Call(tree.Name("among"), (asked, *listed)):
                value, test = self.once(value, at), self.once(self.value(asked), asked.at)
                for number, each in {self.value(each): each for each in listed}.items():
                    self.delays.append((each.at, number))
                    step = Step("schedule", action, value, at, number)
                    self._fork(made("=", test, number), [step], [], asked.at)
            case _:
                number = self.value(delay)
                self.delays.append((delay.at, number))
                self._step("schedule", action, value, at, number)
        return Left()

    def _fork(self, test: Value, yes: list, no: list, at: At) -> None:
        if isinstance(test, int):
            self.out += yes if test else no
        else:
            self.out.append(Fork(test, yes, no, at))

    def _if(self, it: tree.If) -> Left:
        test = self.value(it.test)
        if isinstance(test, int):
            return self._sequence(self._items(it.yes if test else it.no))
        yes, no = [], []
        one, other = self._into(yes, self._items(it.yes)), self._into(no, self._items(it.no))
        self.out.append(Fork(test, yes, no, it.test.at))
        return Left(one.labels | other.labels, one.always and other.always)

    def _leave(self, it: tree.Leave) -> Left:
        if it.value:
            result, type = self.result
            self._give(result, self.value(it.value, type), it.value.at)
        label = self.labels[it.word]
        self.out.append(Mark(label, True))
        return Left(frozenset([label]), True)

    def _most(self, it: tree.Expression) -> int:
        """How many turns a loop has at most."""
        most = self.value(it)
        self.mosts.append((it.at, most))
        return most

    def _give(self, result: Made, value: Made, at: At) -> None:
        if isinstance(result, dict):
            for name, each in self._named(value, at).items():
                self._step("set", result[name], each, at)
        else:
            self._step("set", result, value, at)

    # Loops.

    def _turns(self, it: tree.Loop) -> list[int]:
        """The numbers of the turns of a loop. What asks for them counts as a part for each, since nothing of it stays."""
        name, numbers, left = it.first.name.text, [], self.left
        self.types[name], self.names[name] = INT, self.value(it.first.value)
        if self.is_later and (found := self._range(it, name)) is not None:
            if len(found) > MOST_COUNTED:
                raise TooMany(it.at)
            self.turns, self.left = self.turns + len(found), left - len(found)
            return [*found]
        old = tree.Reference(name, it.at)
        step = tree.Binary(it.step.operator, old, it.step.value, it.at) if it.step.operator else it.step.value
        while self.value(it.test):
            self.turns += 1
            if self.turns > (MOST_COUNTED if self.is_later else MOST_TURNS):
                raise TooMany(it.at)
            numbers.append(self.names[name])
            self.names[name] = self.value(step)
        self.left = left - len(numbers)
        return numbers

    def _range(self, it: tree.Loop, name: str) -> Optional[range]:
        """The numbers of a loop that counts by a constant to another one; None of any other loop."""
        match it.test:
            case tree.Binary(("<" | "<=" | ">" | ">=") as sign, tree.Reference(counter), end) if counter == name:
                parts = (end, it.step.value)
            case _:
                return None
        if it.step.operator not in ("+", "-") or any(each.name == name for part in parts for each in references(part)):
            return None
        end, by = map(self.value, parts)
        by, is_up = -by if it.step.operator == "-" else by, sign in ("<", "<=")
        end += (sign == "<=") - (sign == ">=")
        first = self.names[name]
        if (by > 0) == is_up and by:
            return range(first, end, by)
        return range(0) if (first >= end if is_up else first <= end) else range(MOST_COUNTED + 1)

    def _loop(self, it: tree.Loop) -> Left:
        if it.most:
            return self._for(it, self._most(it.most), [])
        ways = self._ways(it) if self.counted else []
        if ways or self.is_later and not self._has_delay(it) and self._weight(it) > MOST_WRITTEN:
            turns = self.turns
            most, numbers = self._counts(it, ways)
            self.turns = turns
            return self._for(it, most, numbers)
        before, end = dict(self.labels), Label(it.at)
        turns = [lambda number=number: self._turn(it, number, end) for number in self._turns(it)]
        left = self._labelled(end, turns)
        self.labels = before
        return left

    # Loops of the program file.

    def _ways(self, it: tree.Loop) -> list[str]:
        """The loops around that are not written out, on which the bounds of this one depend."""
        names = {each.name for part in (it.first.value, it.test, it.step.value) for each in references(part)}
        return [name for name in self.counted if name in names and name != it.first.name.text]

    def _counts(self, it: tree.Loop, ways: Sequence[str]) -> tuple[int, list[int]]:
        """How many turns a loop has at most, and their numbers, whatever turns the loops around it are in."""
        before, most, numbers = dict(self.names), 0, set()
        for way, values in enumerate(product(*(self.counted[name] for name in ways))):
            if way >= MOST_WAYS:
                raise TooMany(it.at, True)
            self.names.update(zip(ways, values))
            found = self._turns(it)
            most = max(most, len(found))
            numbers.update(found)
        self.names = before
        return most, sorted(numbers)

    def _weight(self, it: tree.Loop) -> int:
        """How many parts a loop comes to where it is written out; more than enough where one in it is not."""
        before = dict(self.names), self.turns, self.left
        try:
            numbers = self._turns(it)
            self.names[it.first.name.text] = numbers[0] if numbers else 0
            found = [self._size(each) for each in it.body]
            return len(numbers) * sum(found) if max(found, default=0) <= MOST_WRITTEN else MOST_WRITTEN + 1
        except TooMany:
            return MOST_WRITTEN + 1
        finally:
            self.names, self.turns, self.left = before

    def _size(self, it: tree.Statement) -> int:
        """How many parts a statement comes to, with the functions that it calls and its loops written out."""
        match it:
            case tree.Loop() if not it.most and not self._ways(it):
                return self._weight(it)
            case tree.If():
                return tree.size_of(it.test, self.sizes) + sum(map(self._size, (*it.yes, *it.no)))
            case tree.Block():
                return sum(map(self._size, it.statements))
        bodies = [self.routines[call.name.text].tree.body or () for call in calls((it,)) if call.name.text in self.routines]
        return tree.size_of(it, self.sizes) + sum(self._size(each) for body in bodies for each in body)

    def _has_delay(self, it: tree.Loop) -> bool:
        """Whether a delay in a loop depends on the number of its turn: then it must be written out."""
        name = it.first.name.text
        delays = [call.parts[1] for call in calls(it.body) if call.name.text == "schedule" and call.parts[1:]]
        return any(each.name == name for delay in delays for each in references(delay))

    def _for(self, it: tree.Loop, most: int, numbers: Sequence[int]) -> Left:
        """A loop that counts in a variable."""
        name, at = it.first.name.text, it.at
        if not most and not it.most:
            return Left()
        counter = Cell(at, (numbers[0], numbers[-1])) if numbers else Cell(at)
        before = self.names.get(name), self.types.get(name), self.counted
        self._step("set", counter, self.value(it.first.value), it.first.value.at)
        self.names[name], self.types[name] = counter, INT
        self.counted = {**self.counted, name: [*numbers]} if numbers else self.counted
        old = tree.Reference(name, at)
        step = tree.Binary(it.step.operator, old, it.step.value, at) if it.step.operator else it.step.value
        left = self._repeated(it, it.body, it.test, most, lambda: self._step("set", counter, self.value(step), at))
        self.names[name], self.types[name], self.counted = before
        return left

    def _repeated(
        self, it: tree.Statement, body: Sequence[tree.Statement], test: tree.Expression, most: int,
        step: Optional[Callable[[], None]],
    ) -> Left:
        """`step` is what ends each turn. The test is asked before each turn, and not behind one that left the loop."""
        before, end, turn, inner = dict(self.labels), Label(it.at), Label(it.at), []
        self.out.append(Mark(end, False))
        asked = self._asked(test)
        cell = None if asked is not None else Cell(test.at)

        def ask() -> Left:
            self._step("set", cell, self.value(test), test.at)
            return Left()

        def count() -> Left:
            step()
            return Left()

        if cell:
            ask()
        self.labels = {**self.labels, "break": end, "continue": turn}
        items = [lambda: self._labelled(turn, self._items(body)), *[count] * bool(step), *[ask] * bool(cell)]
        left = self._into(inner, items)
        self.labels = before
        goes_on = asked if cell is None else cell
        for label in sorted(left.labels, key=lambda it: it.number):
            label.is_flagged = True
            goes_on = made("and", made("not", label.flag), goes_on)
        self.out.append(Repeat(most, goes_on, inner, test.at))
        return Left(left.labels - {end})

    def _asked(self, test: tree.Expression) -> Optional[Value]:
        """What a test comes to as one expression; None where it is none, or is large."""
        out, left, self.out, self.is_asked = self.out, self.left, [], True
        value, rest = self.value(test), self.out
        self.out, self.left, self.is_asked = out, left, False
        return value if not rest and size(value) <= MOST_ASKED else None

    def _turn(self, it: tree.Loop, number: int, end: Label) -> Left:
        if self.left < 0:
            raise self.too_large(it.at)
        self.names[it.first.name.text] = number
        self.labels = {**self.labels, "break": end, "continue": Label(it.at)}
        return self._labelled(self.labels["continue"], self._items(it.body))

    # Functions.

    def called(self, it: tree.Call) -> tuple[Made, Type]:
        if self.left < 0:
            raise self.too_large(it.at)
        routine = self.routines[it.name.text]
        given = [self._named(self.value(part, type), part.at) for part, (_, type) in zip(it.parts, routine.parameters)]
        if any(each.name.text == routine.name for each in self.calling):
            return 0, INT
        before = self.names, self.types, self.labels, self.result, self.counted, self.echoes
        self.names, self.types = ({**base} for base in self.base)
        self.counted, self.echoes = {}, {}
        for (name, type), value in zip(routine.parameters, given):
            self.names[name], self.types[name] = value, type
        self.calling.append(it)
        if routine.is_expression:
            made_ = self._result([*routine.tree.body], routine.type)
        else:
            made_ = self._performed(routine, it.at)
        self.calling.pop()
        self.names, self.types, self.labels, self.result, self.counted, self.echoes = before
        return made_, routine.type or INT

    def _performed(self, routine: Routine, at: At) -> Made:
        """Makes the statements of a function, and gives where its value is."""
        result: Made = 0
        if isinstance(routine.type, Struct):
            result = {name: Cell(at) for name in routine.type.fields}
        elif routine.type is not None:
            result = Cell(at)
        end = Label(at)
        self.labels, self.result = {"return": end}, (result, routine.type)
        self._labelled(end, self._items(routine.tree.body))
        return result

    def _result(self, items: list, type: Type) -> Made:
        """The value of the `return` that these statements of a function lead to."""
        while items:
            it = items.pop(0)
            match it:
                case tree.Let():
                    self._let(it)
                case tree.Block():
                    items[:0] = it.statements
                case tree.If() if any(isinstance(each, tree.Leave) for each in every((it,))):
                    return self._either(it, items, type)
                case tree.Leave():
                    return self.value(it.value, type)
        return 0

    def _either(self, it: tree.If, items: list, type: Type) -> Made:
        test = self.value(it.test)
        if isinstance(test, int):
            return self._result([*(it.yes if test else it.no), *items], type)
        names, types = dict(self.names), dict(self.types)
        yes = self._result([*it.yes, *items], type)
        self.names, self.types = names, types
        no = self._result([*it.no, *items], type)
        if isinstance(yes, dict):
            return {name: made("if", test, yes[name], no[name]) for name in yes}
        return made("if", test, yes, no)


def _other_branch(out: list, labels: frozenset[Label]) -> Optional[list]:
    """Of an `if` that stands last and one branch of which always leaves for one of these labels: the other branch,
    where that never does."""
    fork = out[-1] if out else None
    if not isinstance(fork, Fork):
        return None
    for leaves, other in ((fork.yes, fork.no), (fork.no, fork.yes)):
        last = leaves[-1] if leaves else None
        if isinstance(last, Mark) and last.is_left and last.label in labels and not _may_leave(other):
            return other
    return None


def _may_leave(out: list) -> bool:
    return any(
        isinstance(it, Mark) and it.is_left or isinstance(it, Fork) and (_may_leave(it.yes) or _may_leave(it.no))
        or isinstance(it, Repeat) and _may_leave(it.body) for it in out
    )


def _without_marks(out: list) -> list:
    """The statements; where a label has a flag, marks set it."""
    found = []
    for it in out:
        if isinstance(it, Fork):
            had_any = it.yes or it.no
            it.yes, it.no = _without_marks(it.yes), _without_marks(it.no)
            if it.yes or it.no or not had_any:
                found.append(it)
        elif not isinstance(it, Mark):
            if isinstance(it, Repeat):
                it.body = _without_marks(it.body)
            found.append(it)
        elif it.label.is_flagged:
            found.append(Step("set", it.label.flag, int(it.is_left), it.label.flag.at))
    return found


def _place(out: list) -> At:
    first = next((it for it in out if not isinstance(it, Mark)), None)
    if isinstance(first, Keep):
        return first.temp.at
    return first.at if first else At(1, 1)
