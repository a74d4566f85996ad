"""Drawn statements of the language, each with its text and with what it does to the values of the names: for
`.ci/language`. The values of `fixed` names are 65,536ths, those of arrays lists. Later ones have what only a program file
of version 4 has."""

from body_calls import LEAST, MOST, OPERATORS, quotient, wrapped

INT, FIXED, ONE = "int", "fixed", 65_536
NUMBERS = [0, 1, -1, 2, 5, -7, 1000, LEAST, MOST]
POINTS = {"0.5": 32_768, "1.25": 81_920, "0.1": 6_554, "100.7": 6_599_475, "3.0": 196_608}
SIGNS = {
    **{sign: OPERATORS[sign] for sign in ("+", "-", "*", "/", "%")}, "&&": OPERATORS["and"], "||": OPERATORS["or"],
}
ORDERS = {
    "<": lambda a, b: a < b, "==": lambda a, b: a == b, "!=": lambda a, b: a != b, ">": lambda a, b: a > b,
    "<=": lambda a, b: a <= b, ">=": lambda a, b: a >= b,
}
FUNCTIONS = {"min": min, "max": max, "clamp": lambda it, low, high: low if it < low else high if high < it else it}
VARIABLES = {"a": INT, "b": INT, "c": INT, "u": FIXED, "v": FIXED, "s.n": INT, "s.f": FIXED}
COLORS = {"RED": 0, "GREEN": 4, "BLUE": 5}
# The most turns of a drawn loop: more than are put into each other's branches.
MOST_TURNS = 11
# The arrays of later ones with their sides; a function may have one of one side handed.
ARRAYS = {"h": (5,), "g": (3, 4), "q": (4,), "ps.n": (3,)}
BITS = {
    "&": lambda a, b: a & b, "|": lambda a, b: a | b, "^": lambda a, b: a ^ b, "<<": lambda a, b: wrapped(a << b % 64),
    ">>": lambda a, b: a >> b % 64,
}


def split_mix(seed, number):
    """Output `number` of SplitMix64, by its state."""
    state, it = seed % 2**64, 0
    state = (state + number * 0x9E3779B97F4A7C15) % 2**64
    it = (state ^ (state >> 30)) * 0xBF58476D1CE4E5B9 % 2**64
    it = (it ^ (it >> 27)) * 0x94D049BB133111EB % 2**64
    return wrapped(it ^ (it >> 31))


def whole_quotient(a, b, c):
    """Of a product that is not wrapped."""
    return wrapped((a * b - a * b % abs(c)) // c) if c else 0


def place_of(sides, indices):
    """The number of a cell; None where there is none."""
    if len(indices) == 1:
        count = sides[0] * (sides[1] if sides[1:] else 1)
        return indices[0] if 0 <= indices[0] < count else None
    (lines, width), (line, column) = sides, indices
    return line * width + column if 0 <= line < lines and 0 <= column < width else None


class Drawer:
    """Draws one program. What a name stands for is told by its type, what a function does by its statements."""

    def __init__(self, dice, is_later=False):
        self.dice, self.is_later = dice, is_later
        self.numbers = iter(range(10_000))
        self.functions = {}
        self.loops = 0

    # Expressions: the text, and what gives the value, as one of the type that is wanted.

    def expression(self, names, wanted=INT, depth=2):
        dice, kind = self.dice, self.dice.random()
        if depth == 0 or kind < 0.2:
            return self.leaf(names, wanted)
        if self.is_later and wanted == INT and dice.random() < 0.4:
            return self.later(names, depth)
        if kind < 0.3:
            test, asks = self.expression(names, INT, depth - 1)
            (one, yes), (other, no) = (self.expression(names, wanted, depth - 1) for _ in range(2))
            return f"({test} ? {one} : {other})", lambda now: yes(now) if asks(now) else no(now)
        if kind < 0.5:
            return self.function(names, wanted, depth)
        if kind < 0.6:
            return self.call(names, wanted, depth)
        if kind < 0.75 and wanted == INT:
            return self.asked(names, depth)
        return self.operation(names, wanted, depth)

    def later(self, names, depth):
        """What version 4 has more: a cell, operators on bits, a draw, a whole product."""
        dice, has_arrays = self.dice, any(it in ARRAYS for it in names)
        word = dice.choice([*["cell"] * 3 * has_arrays, "~", "mix", "muldiv", *BITS])
        if word == "cell":
            text, place = self.cell(names, depth)
            return text, lambda now: now[place.array][at] if (at := place(now)) is not None else 0
        count = {"~": 1, "muldiv": 3}.get(word, 2)
        texts, gives = zip(*(self.expression(names, INT, depth - 1) for _ in range(count)))
        if word in ("mix", "muldiv"):
            does = split_mix if word == "mix" else whole_quotient
            return f"{word}({', '.join(texts)})", lambda now: does(*(it(now) for it in gives))
        if word == "~":
            return f"(~{texts[0]})", lambda now: ~gives[0](now)
        return f"({texts[0]} {word} {texts[1]})", lambda now: BITS[word](*(it(now) for it in gives))

    def cell(self, names, depth):
        """A cell of an array, and what gives its number in it."""
        dice = self.dice
        array = dice.choice([it for it in names if it in ARRAYS])
        sides = ARRAYS[array]
        count = dice.choice([1, len(sides)])
        small = dice.random() < 0.7
        texts, gives = zip(*(self.expression(names, INT, min(depth - 1, 1)) for _ in range(count)))
        if small:
            texts, gives = zip(*((f"({text}) % {3 + n}", lambda now, it=it, n=n: it(now) % (3 + n)) for n, (text, it) in enumerate(zip(texts, gives))))

        def place(now):
            return place_of(sides, [it(now) for it in gives])

        place.array = array
        name, _, field = array.partition(".")
        return f"{name}[{']['.join(texts)}]{'.' * bool(field)}{field}", place

    def leaf(self, names, wanted):
        dice = self.dice
        fitting = [name for name, type in names.items() if type == wanted and name not in COLORS]
        if fitting and dice.random() < 0.8:
            lets = [name for name in fitting if name[0] in "lw"]
            name = dice.choice(lets if lets and dice.random() < 0.5 else fitting)
            return name, lambda now: now[name]
        if wanted == FIXED and dice.random() < 0.6:
            text = dice.choice([*POINTS])
            return text, lambda now: POINTS[text]
        if wanted == INT and dice.random() < 0.2:
            name = dice.choice([*COLORS])
            return name, lambda now: now[name]
        number = dice.choice(NUMBERS if wanted == INT and dice.random() < 0.2 else NUMBERS[:7])
        if wanted == FIXED:
            return f"fixed({number})", lambda now: number * ONE
        return f"({number})", lambda now: number

    def function(self, names, wanted, depth):
        word = self.dice.choice([*FUNCTIONS, "abs"])
        count = {"clamp": 3, "abs": 1}.get(word) or self.dice.choice([2, 3])
        texts, gives = zip(*(self.expression(names, wanted, depth - 1) for _ in range(count)))
        if word == "abs":
            return f"abs({texts[0]})", lambda now: wrapped(-gives[0](now)) if gives[0](now) < 0 else gives[0](now)
        return f"{word}({', '.join(texts)})", lambda now: FUNCTIONS[word](*(it(now) for it in gives))

    def asked(self, names, depth):
        """What is `int`, of numbers of any type."""
        types = [self.dice.choice([INT, FIXED]) for _ in range(2)]
        (one, left), (other, right) = (self.expression(names, type, depth - 1) for type in types)
        left, right = (lifted(it, type, types) for it, type in zip((left, right), types))
        if self.dice.random() < 0.3:
            inner, value = self.expression(names, FIXED, depth - 1)
            word, up = self.dice.choice([("floor", 0), ("round", ONE // 2)])
            return f"{word}({inner})", lambda now: wrapped(value(now) + up) // ONE
        sign = self.dice.choice([*ORDERS])
        return f"({one} {sign} {other})", lambda now: int(ORDERS[sign](left(now), right(now)))

    def operation(self, names, wanted, depth):
        dice = self.dice
        if wanted == INT:
            (one, left), (other, right) = (self.expression(names, INT, depth - 1) for _ in range(2))
            sign = dice.choice([*SIGNS])
            return f"({one} {sign} {other})", lambda now: SIGNS[sign](left(now), right(now))
        types = dice.choice([(FIXED, FIXED), (FIXED, INT), (INT, FIXED)])
        (one, left), (other, right) = (self.expression(names, type, depth - 1) for type in types)
        sign = dice.choice("+-*/%")
        if self.is_later and sign == "*" and types == (FIXED, FIXED):
            return f"({one} * {other})", lambda now: whole_quotient(left(now), right(now), ONE)
        if self.is_later and sign == "/" and types[1] == FIXED:
            by = ONE if types[0] == FIXED else ONE * ONE
            return f"({one} / {other})", lambda now: whole_quotient(left(now), by, right(now))
        if sign == "*":
            by = ONE if types == (FIXED, FIXED) else 1
            return f"({one} * {other})", lambda now: wrapped(left(now) * right(now)) // by
        first, second = lifted(left, types[0], types), lifted(right, types[1], types)
        if sign == "/" and types[1] == INT:
            return f"({one} / {other})", lambda now: quotient(left(now), right(now))
        if sign == "/":
            return f"({one} / {other})", lambda now: quotient(wrapped(first(now) * ONE), second(now))
        return f"({one} {sign} {other})", lambda now: SIGNS[sign](first(now), second(now))

    def call(self, names, wanted, depth, changes=False):
        """A call of a drawn function that changes variables, or does not."""
        fitting = [it for it in self.functions.items() if it[1][1] == wanted and it[1][3] == changes]
        if not fitting:
            return self.leaf(names, wanted)
        name, (parameters, _, does, _) = self.dice.choice(fitting)
        texts, gives = zip(*(self.expression(names, type, depth - 1) for type in parameters.values()))

        def value(now):
            now.update(dict(zip(parameters, [it(now) for it in gives])))
            does(now)
            return now.get("result")

        return f"{name}({', '.join(texts)})", value

    # Statements: the text, and what does it: it gives the word by which it leaves, if it does.

    def statements(self, names, depth=2, assigns=True, returns=None):
        """`returns` is the type of what `return` gives, None where it gives nothing."""
        names, texts, acts = dict(names), [], []
        for _ in range(self.dice.randint(2, 3) + 4 * (depth == 2)):
            text, act = self.statement(names, depth, assigns, returns)
            texts.append(text)
            acts.append(act)
        return "\n".join(texts), in_turn(acts)

    def statement(self, names, depth, assigns, returns):
        kind = self.dice.random()
        if kind < 0.3:
            return self.let(names, assigns)
        if not assigns and kind < 0.65:
            return self.leave(names, returns)
        if kind < 0.4 and depth:
            test, asks = self.asked(names, 1)
            (yes, do_yes), (no, do_no) = (self.statements(names, depth - 1, assigns, returns) for _ in range(2))
            text = f"if ({test}) {{ {yes} }} else {{ {no} }}"
            return text, lambda now: do_yes(now) if asks(now) else do_no(now)
        if (kind < 0.5 or not assigns) and depth:
            if self.is_later and self.dice.random() < 0.6:
                return self.free_loop(names, depth, assigns, returns)
            return self.loop(names, depth, assigns, returns)
        if kind < 0.55:
            return self.leave(names, returns)
        own = [name for name in names if name[0] == "w"]
        if own and self.dice.random() < 0.5:
            return self.assign(names, assigns, own)
        return self.assign(names) if assigns else self.let(names, assigns)

    def let(self, names, assigns):
        """A name of a value, or a variable of the body."""
        word = self.dice.choice(["let", "let", "var"])
        type, name = self.dice.choice([INT, FIXED]), f"{'w' if word == 'var' else 'l'}{next(self.numbers)}"
        changes = assigns and self.dice.random() < 0.2
        text, value = self.call(names, type, 1, changes=True) if changes else self.expression(names, type)
        names[name] = type
        return f"{word} {name} = {text};", lambda now: now.update({name: value(now)})

    def assign(self, names, calls=True, own=()):
        """Assigns a variable of the reactor, or of the body one of its `own`; `calls` says that a call may change others."""
        dice = self.dice
        if self.is_later and "h" in names and not own and dice.random() < 0.5:
            return self.assign_cell(names)
        name, sign = dice.choice([*(own or VARIABLES)]), dice.choice(["", "", "+", "-"])
        if calls and dice.random() < 0.2:
            text, value = self.call(names, names[name], 1, changes=True)
            return f"{name} = {text};", lambda now: now.update({name: value(now)})
        text, value = self.expression(names, names[name])
        if dice.random() < 0.1 and names[name] == INT:
            return f"{name}++;", lambda now: now.update({name: wrapped(now[name] + 1)})
        change = SIGNS[sign] if sign else lambda _, new: new
        return f"{name} {sign}= {text};", lambda now: now.update({name: change(now[name], value(now))})

    def assign_cell(self, names):
        dice = self.dice
        if dice.random() < 0.1:
            one, other = dice.sample(["h", "q"], 2)
            if dice.random() < 0.5:
                text, value = self.expression(names)

                def fills(now):
                    now[one][:] = [value(now)] * len(now[one])

                return f"{one} = {text};", fills

            def copies(now):
                now[one][:] = (now[other] + [0])[: len(now[one])]

            return f"{one} = {other};", copies
        text, place = self.cell(names, 2)
        sign = dice.choice(["", "", "+", "-", "^", "<<"])
        given, value = self.call(names, INT, 1, changes=True) if not sign and dice.random() < 0.2 else self.expression(names)
        change = {**SIGNS, **BITS}[sign] if sign else lambda _, new: new

        def does(now):
            at = place(now)
            new = value(now)
            if at is not None:
                now[place.array][at] = change(now[place.array][at], new)

        return f"{text} {sign}= {given};", does

    def leave(self, names, returns):
        test, asks = self.asked(names, 1)
        word = self.dice.choice(["return", *["break", "continue"] * bool(self.loops)])
        if word == "return" and returns:
            text, value = self.expression(names, returns)

            def gives(now):
                if asks(now):
                    now["result"] = value(now)
                    return word
                return None

            return f"if ({test}) return {text};", gives
        return f"if ({test}) {word};", lambda now: word if asks(now) else None

    def loop(self, names, depth, assigns, returns):
        name, turns = f"i{next(self.numbers)}", self.dice.randint(0, MOST_TURNS)
        first, step = self.dice.randint(-3, 3), self.dice.choice([1, 1, 2, -1])
        self.loops += 1
        body, does = self.statements({**names, name: INT}, depth - 1, assigns, returns)
        self.loops -= 1
        test = f"{name} {'<' if step > 0 else '>'} {first + step * turns}"

        def repeats(now):
            for turn in range(turns):
                now[name] = first + step * turn
                left = does(now)
                if left == "return":
                    return left
                if left == "break":
                    break
            return None

        return f"for (let {name} = {first}; {test}; {name} += {step}) {{ {body} }}", repeats

    def free_loop(self, names, depth, assigns, returns):
        """A loop whose turns are not known beforehand: a `while`, or a `for` that says how many there are at most."""
        dice, most = self.dice, self.dice.randint(1, MOST_TURNS)
        test, asks = self.asked(names, 1)
        if dice.random() < 0.5:
            test, asks = self.expression(names)
        self.loops += 1
        if dice.random() < 0.5:
            body, does = self.statements(names, depth - 1, assigns, returns)
            self.loops -= 1
            return f"while ({test}; most {most}) {{ {body} }}", turning(most, asks, does)
        name, (first, begins) = f"i{next(self.numbers)}", self.expression(names, INT, 1)
        inner = {**names, name: INT}
        step, goes_on = self.expression(inner, INT, 1)
        body, does = self.statements(inner, depth - 1, assigns, returns)
        self.loops -= 1

        def counts(now):
            now[name] = begins(now)
            return turning(most, lambda now: asks(now) and now[name] < 100, does, lambda now: now.update({name: wrapped(now[name] + goes_on(now))}))(now)

        return f"for (let {name} = {first}; ({test}) && {name} < 100; {name} += {step}; most {most}) {{ {body} }}", counts

    # Functions.

    def declared(self, name, word, state):
        """A function of the program, or a method that reads and assigns these variables."""
        parameters = {f"{name}p{it}": self.dice.choice([INT, FIXED]) for it in range(self.dice.randint(1, 3))}
        returns, changes = self.dice.choice([INT, FIXED]), bool(state) and self.dice.random() < 0.7
        names = {**parameters, **state, **dict.fromkeys(COLORS, INT)}
        body, does = self.statements(names, 1, changes, returns)
        if changes:
            text, act = self.assign(names)
            body, does = f"{body}\n{text}", in_turn([does, act])
        last, value = self.expression(names, returns)

        def performs(now):
            if does(now) != "return":
                now["result"] = value(now)

        self.functions[name] = parameters, returns, performs, changes
        given = ", ".join(f"{it}: {type}" for it, type in parameters.items())
        return f"{word} {name}({given}): {returns} {{=\n{body}\nreturn {last};\n=}}\n"


def turning(most, asks, does, counts=None):
    def repeats(now):
        for _ in range(most):
            if not asks(now):
                break
            left = does(now)
            if left == "return":
                return left
            if left == "break":
                break
            if counts:
                counts(now)
        return None

    return repeats


def in_turn(acts):
    def does(now):
        return next((left for left in (act(now) for act in acts) if left), None)

    return does


def lifted(meaning, type, types):
    """The value as a `fixed` one, where another beside it is."""
    return (lambda now: wrapped(meaning(now) * ONE)) if type == INT and FIXED in types else meaning


def text_program(dice, is_later=False):
    """A text with one reaction, what its variables come to over some events, and these events' values."""
    it = Drawer(dice, is_later)
    arrays = dict.fromkeys(ARRAYS, "array") if is_later else {}
    functions = "".join(it.declared(f"f{number}", "function", {}) for number in range(2))
    methods = "".join(it.declared(f"m{number}", "method", {**VARIABLES, **arrays}) for number in range(2))
    body, does = it.statements({**VARIABLES, **arrays, "x": INT, "step": INT, **dict.fromkeys(COLORS, INT)})
    starts = {name: dice.choice(NUMBERS[:7]) for name in VARIABLES}
    step = dice.choice(NUMBERS)
    states = "".join(f"  state {name}: {type} = {starts[name]};\n" for name, type in VARIABLES.items() if "." not in name)
    states += f"  state s: Pair = Pair({starts['s.n']}, {starts['s.f']});\n"
    if is_later:
        states += "  state h: int[5] = {4, -1};\n  state g: int[3][4] = {{1, 2}, {}, {3, 4, 5, 6}};\n  state q: int[] = {7, 8, 9, 10};\n  state ps: Pair[3];\n"
    reactor = f"reactor R(step: int) {{\n{states}{methods}  input x: int;\n  reaction(x) {{=\n{body}\n=}}\n}}\n"
    main = f"main reactor {{ r = new R(step = {step}); @origin(0) input r.x; }}\n"
    head = "target warpd { stop: 9 }\nenum Color { RED, GREEN = 4, BLUE }\nstruct Pair { n: int; f: fixed }\n"
    given = [dice.choice([*NUMBERS, 3]) for _ in range(4)]
    now = {name: starts[name] * (ONE if type == FIXED else 1) for name, type in VARIABLES.items()}
    now.update(COLORS, step=step)
    if is_later:
        now.update({"h": [4, -1, 0, 0, 0], "g": [1, 2, 0, 0, 0, 0, 0, 0, 3, 4, 5, 6], "q": [7, 8, 9, 10], "ps.n": [0, 0, 0]})
    for number in given:
        now["x"] = number
        does(now)
    wanted = {name.replace(".", "_"): now[name] for name in VARIABLES}
    wanted.update({name.replace(".", "_"): now[name] for name in arrays})
    return head + functions + reactor + main, given, wanted
