"""Drawn bodies for `.ci/cases`, with what they come to, worked out here from their trees alone.

Each reaction of the drawn programs has a body of all kinds of statements and expressions, to the greatest depth of a file. `warp_cases`
runs it compiled and by the walk along its tree, from drawn variables and drawn presence, and says whether the two agree; what the
compiled one leaves is compared with what is worked out here.
"""

import json
import random
from dataclasses import dataclass

FILES, REACTIONS, LEAST, MOST = 8, 250, -(2**63), 2**63 - 1
VARIABLES, INPUTS, OUTPUTS = [f"v{n}" for n in range(6)], [f"i{n}" for n in range(3)], [f"o{n}" for n in range(3)]
ACTIONS, TIMERS = [f"c{n}" for n in range(2)], [f"t{n}" for n in range(2)]
TARGETS = INPUTS + ACTIONS + TIMERS
NUMBERS = [0, 1, -1, 2, 3, 7, 1000, -20, 2**31, -(2**31) - 1, 2**32 + 5, LEAST, MOST]


def wrapped(number):
    return (number - LEAST) % 2**64 + LEAST


def quotient(a, b):
    """The Euclidean one: what is left is never negative."""
    return wrapped((a - a % abs(b)) // b) if b else 0


OPERATORS = {
    "+": lambda a, b: wrapped(a + b), "-": lambda a, b: wrapped(a - b), "*": lambda a, b: wrapped(a * b),
    "/": quotient, "%": lambda a, b: a % abs(b) if b else 0,
    "=": lambda a, b: int(a == b), "<": lambda a, b: int(a < b),
    "and": lambda a, b: int(a != 0 and b != 0), "or": lambda a, b: int(a != 0 or b != 0),
}


@dataclass
class Now:
    """Variables, what is present, and the wishes so far."""

    variables: dict
    present: dict
    wishes: list

    def value(self, term):
        if isinstance(term, int):
            return term
        if isinstance(term, str):
            return self.variables[term] if term in self.variables else self.present.get(term, 0)
        word, *parts = term
        if word == "present":
            return int(parts[0] in self.present)
        if word == "if":
            return self.value(parts[1] if self.value(parts[0]) else parts[2])
        values = [self.value(part) for part in parts]
        if word == "not":
            return int(values[0] == 0)
        return wrapped(-values[0]) if word == "neg" else OPERATORS[word](*values)

    def run(self, body):
        for word, *parts in body:
            if word == "if":
                self.run(parts[1] if self.value(parts[0]) else parts[2])
            elif word == "set":
                self.variables[parts[0]] = self.value(parts[1])
            elif word == "put":
                self.present[parts[0]] = self.value(parts[1])
            else:
                self.wishes.append(f"{ACTIONS.index(parts[0])} {parts[1]} {self.value(parts[2])}")


def leaf(dice):
    kind = dice.randrange(6)
    if kind == 0:
        return ["present", dice.choice(TARGETS)]
    return dice.choice(VARIABLES) if kind < 3 else dice.choice(INPUTS + ACTIONS if kind == 3 else NUMBERS + [dice.randint(-50, 50)])


def term(dice, depth):
    """An expression of at most this depth; now and then one side goes on to the end of it."""
    if depth == 1 or dice.random() < 0.3:
        return leaf(dice)
    word = dice.choice(["neg", "not", "if", *OPERATORS, *OPERATORS])
    count = {"neg": 1, "not": 1, "if": 3}.get(word, 2)
    deep = dice.randrange(count)
    return [word, *(term(dice, depth - 1 if n == deep else min(depth - 1, dice.randint(1, 3))) for n in range(count))]


def chain(dice, depth, right):
    """An expression of just this depth, deep on one side, so that each level waits for a register."""
    if depth == 1:
        return leaf(dice)
    word, other = dice.choice([*OPERATORS]), [dice.choice(["+", "-", "<"]), leaf(dice), leaf(dice)] if depth > 2 else leaf(dice)
    deep = chain(dice, depth - 1, right)
    return [word, other, deep] if right else [word, deep, other]


# The longest delay of each version.
LONGEST = {1: 1_000_000, 2: 10_000_000, 3: 15_624_999}


def statement(dice, depth, room, longest):
    """A statement whose lists are at most so deep, and how many schedulings are in it, which are as many as there is room for."""
    kind = dice.randrange(6 if depth > 1 else 4)
    value = chain(dice, dice.choice([3, 9, 12, 24]), dice.random() < 0.7) if dice.random() < 0.1 else term(dice, dice.choice([1, 2, 3, 3, 4, 5]))
    if kind < 2:
        return ["set", dice.choice(VARIABLES), value], 0
    if kind == 2 or kind == 3 and not room:
        return ["put", dice.choice(OUTPUTS), value], 0
    if kind == 3:
        return ["schedule", dice.choice(ACTIONS), dice.choice([0, 1, 5, longest]), value], 1
    first, one = body(dice, depth - 1, room, longest)
    second, two = body(dice, depth - 1, room - one, longest)
    return ["if", value, first, second], one + two


def body(dice, depth, room, longest):
    statements, asked = [], 0
    for _ in range(dice.choice([0, 1, 1, 2, 2, 3])):
        one, count = statement(dice, depth, room - asked, longest)
        statements.append(one)
        asked += count
    return statements, asked


def nested(dice, depth):
    """An `if` in an `if`, as deep as a file may have them."""
    inner = [["set", dice.choice(VARIABLES), leaf(dice)]] if depth == 1 else [nested(dice, depth - 1)]
    lists = [inner, [["put", dice.choice(OUTPUTS), leaf(dice)]]]
    dice.shuffle(lists)
    return ["if", term(dice, 2), *lists] if depth > 1 else inner[0]


def file(dice, version):
    longest = LONGEST[version]
    bodies = [[nested(dice, dice.choice([8, 24]))] if n % 25 == 0 else body(dice, dice.choice([1, 2, 3, 4]), 16, longest)[0]
              for n in range(REACTIONS)]
    reaction = {"on": INPUTS[:1], "reads": INPUTS[1:] + ACTIONS + TIMERS, "writes": OUTPUTS + ACTIONS}
    reactor = {
        "name": "r", "vars": [[name, 0] for name in VARIABLES], "inputs": INPUTS, "outputs": OUTPUTS,
        "actions": [[name, 0] for name in ACTIONS], "timers": [[name, 0, longest] for name in TIMERS],
        "reactions": [{**reaction, "body": one} for one in bodies]}
    return json.dumps({"version": version, "stop": longest, "origins": 1, "reactors": [reactor]}), bodies


def calls(dice, bodies):
    """The lines of all bodies, and what is said of each."""
    now, lines, said = Now(dict.fromkeys(VARIABLES, 0), {}, []), [], []
    for number, one in enumerate(bodies):
        now.present, now.wishes = {}, []
        lines.append("clear")
        for kind, names in (("set", VARIABLES), ("timer", TIMERS), ("action", ACTIONS), ("port", INPUTS)):
            for place, name in enumerate(names):
                if dice.random() < 0.5:
                    value = dice.choice([*NUMBERS, dice.randint(-30, 30)])
                    (now.variables if kind == "set" else now.present)[name] = value
                    lines.append(f"{kind} {place} {value}")
        now.run(one)
        lines.append(f"run {number}")
        said += [str(now.variables[name]) for name in VARIABLES]
        said += [str(now.present.get(name, "-")) for name in INPUTS + OUTPUTS] + now.wishes + ["same true"]
    return lines, said


LONG = 20_000


def long_file():
    """Bodies of many statements, alone and in both lists of an `if`: a branch passes over as many instructions."""
    more = [["set", "v0", ["+", "v0", 1]]] * (LONG // 2)
    bodies = [more, [["if", "i0", more, [["set", "v1", 7]]]], [["if", "i0", [["set", "v1", 8]], more]]]
    reactor = {"name": "r", "vars": [["v0", 0], ["v1", 0]], "inputs": ["i0"],
               "reactions": [{"on": ["i0"], "body": one} for one in bodies]}
    lines = ["run 0", "port 0 1", "run 1", "run 2", "clear", "run 1", "run 2"]
    ran = [(1, 0, "-"), (2, 0, "1"), (2, 8, "1"), (2, 7, "-"), (3, 7, "-")]
    said = [line for count, v1, port in ran for line in (str(count * LONG // 2), str(v1), port, "same true")]
    return json.dumps({"version": 1, "stop": 100, "origins": 1, "reactors": [reactor]}, separators=(",", ":")), lines, said


def cases(flat):
    text, lines, said = long_file()
    yield flat(f"bodies of {LONG // 2:,} statements", "bodies", text, lines, said)
    for number in range(FILES):
        dice = random.Random(f"bodies {number}")
        text, bodies = file(dice, 1 + number % 3)
        yield flat(f"drawn bodies, file {number}", "bodies", text, *calls(dice, bodies))
