"""Drawn networks of reactors in reactors, banks and multiports, and a simulator of tags that says what they do.

The simulator goes over the instances as they stand in each other: what is put on a port goes along connections to the
ports behind it, at the same tag or after a delay, and each reaction runs behind those whose ports it reads and those
before it in its reactor. A mode that is left loses what it had begun; where `history` leads back to it, its timers and what waits
on its actions go on with the time that was left. Nothing is executed behind microstep 0 of the
stop, or behind the tag after a `request_stop`."""

import heapq
from dataclasses import dataclass, field

STOP, MODULUS, MOST_MICROSTEPS = 12, 1009, 200


class Endless(Exception):
    """The network never leaves a time."""


@dataclass(frozen=True)
class Place:
    """What a connection or a header names: `owner` is an instance, each index a number or None for all."""

    owner: str | None
    port: str
    owner_index: int | None = None
    index: int | None = None
    is_interleaved: bool = False

    def __str__(self):
        owner = "" if self.owner is None else self.owner + ("" if self.owner_index is None else f"[{self.owner_index}]")
        text = ".".join(filter(None, [owner, self.port + ("" if self.index is None else f"[{self.index}]")]))
        return f"interleaved({text})" if self.is_interleaved else text


@dataclass
class Reaction:
    """`on`, `reads` and `writes` name ports by places, and actions, timers, `startup` and `shutdown` by names. Of a
    mode's reaction `mode` is its number, and `leads` the word and the number of a mode to which it may lead. One that
    `echoes` reads what is on the ports on which it puts, before it does so and behind that."""

    on: list
    reads: list
    writes: list
    actions: list
    numbers: list
    asks: bool = False
    mode: int | None = None
    leads: tuple | None = None
    echoes: bool = False


@dataclass
class Mode:
    """Its timers and actions are of the form of a reactor's. `start` is that of a variable which a reset sets anew."""

    timers: dict
    actions: dict
    start: int | None


@dataclass
class Kind:
    """A reactor: each port has its width, None where it is one; each instance its kind, width and arguments."""

    name: str
    inputs: dict = field(default_factory=dict)
    outputs: dict = field(default_factory=dict)
    actions: dict = field(default_factory=dict)
    timers: dict = field(default_factory=dict)
    instances: dict = field(default_factory=dict)
    connections: list = field(default_factory=list)
    reactions: list = field(default_factory=list)
    given: list = field(default_factory=list)
    shown: list = field(default_factory=list)
    modes: list = field(default_factory=list)

    @property
    def every_action(self):
        """The delays of all its actions, those of its modes among them."""
        return {**self.actions, **{name: delay for mode in self.modes for name, delay in mode.actions.items()}}


# Drawing.


def leaf(dice, name):
    kind = Kind(name)
    kind.inputs = {each: width(dice) for each in ["a", "b"][: dice.randint(1, 2)]}
    kind.outputs = {each: width(dice) for each in ["y", "z"][: dice.randint(1, 2)]}
    own_members(dice, kind)
    places = [Place(None, each) for each in kind.inputs], [Place(None, each) for each in kind.outputs]
    kind.reactions = [reaction(dice, kind, *places) for _ in range(dice.randint(1, 3))]
    return kind


def modal(dice, name, longest=3):
    """A reactor with modes, the first of which is the initial one."""
    kind = Kind(name, inputs={"a": None}, outputs={"y": None})
    for number in range(dice.randint(2, 3)):
        is_plain = dice.random() < 0.2
        timers = {f"t{number}": (dice.choice([0, 0, 1, 2]), dice.randint(0, longest))} if not is_plain else {}
        actions = {f"c{number}": dice.choice([0, 1, 2, 3])} if not is_plain and dice.random() < 0.6 else {}
        kind.modes.append(Mode(timers, actions, dice.choice([None, 5])))
    for number, mode in enumerate(kind.modes):
        for _ in range(dice.randint(1, 3 if mode.actions else 2)):
            triggers = [Place(None, "a"), *mode.timers, *mode.timers, *mode.actions, *mode.actions, "reset", "startup", "shutdown"]
            on = list(dict.fromkeys(dice.sample(triggers, dice.randint(1, 3))))
            actions = [it for it in mode.actions if dice.random() < 0.8]
            it = Reaction(on, [], [Place(None, "y")], actions, [dice.randint(1, 9) for _ in range(4)], mode=number)
            it.echoes = dice.random() < 0.2
            target = dice.randrange(len(kind.modes))
            word = "history" if dice.random() < 0.6 else "reset"
            it.leads = (word, target) if dice.random() < 0.7 else None
            kind.reactions.append(it)
    return kind


def width(dice):
    return dice.choice([None, None, None, 1, 2, 3])


def own_members(dice, kind):
    kind.actions = {"c": dice.choice([0, 0, 0, 1, 3])} if dice.random() < 0.6 else {}
    kind.timers = {"t": (dice.choice([0, 1, 3, STOP]), dice.choice([0, 2, 3, 5]))} if dice.random() < 0.5 else {}


def reaction(dice, kind, inputs, outputs, asks=0.0):
    triggers = [*inputs, *inputs, *kind.actions, *kind.timers, "startup", "shutdown"]
    on = dice.sample(triggers, dice.randint(1, 2))
    reads = [it for it in dice.sample(inputs, dice.randint(0, len(inputs))) if it not in on]
    writes = dice.sample(outputs, dice.randint(0, len(outputs)))
    actions = [it for it in kind.actions if dice.random() < 0.5]
    numbers = [dice.randint(1, 9) for _ in range(4)]
    unique = [it for place, it in enumerate(on) if it not in on[:place]]
    return Reaction(unique, reads, writes, actions, numbers, dice.random() < asks, echoes=dice.random() < 0.2)


def container(dice, name, kinds, is_main=False):
    kind = Kind(name)
    if not is_main:
        kind.inputs = {each: width(dice) for each in ["a", "b"][: dice.randint(0, 2)]}
        kind.outputs = {each: width(dice) for each in ["y", "z"][: dice.randint(0, 2)]}
    own_members(dice, kind)
    for number in range(dice.randint(1, 3 + is_main)):
        kind.instances[f"i{number}"] = (dice.choice(kinds), dice.choice([None, None, None, 1, 2, 3]))
    heard = [Place(owner, port) for owner, (of, _) in kind.instances.items() for port in of.outputs]
    fed = [Place(owner, port) for owner, (of, _) in kind.instances.items() for port in of.inputs]
    own = [Place(None, each) for each in kind.inputs], [Place(None, each) for each in kind.outputs]
    puts = dice.sample(fed, min(len(fed), dice.choice([0, 0, 1])))
    puts += dice.sample(own[1], min(len(own[1]), dice.choice([0, 1])))
    for _ in range(dice.choice([0, 1, 2, 3])):
        kind.reactions.append(reaction(dice, kind, own[0] + heard, puts, 0.15 if is_main else 0.05))
    put = [it for each in kind.reactions for it in each.writes]
    targets = [it for it in fed + own[1] if it not in put]
    dice.shuffle(targets)
    if is_main:
        kind.given = [targets.pop() for _ in range(min(2, len(targets)))]
        kind.shown = dice.sample(heard, min(3, len(heard)))
    while targets and heard + own[0]:
        count = dice.randint(1, min(2, len(targets)))
        right = [targets.pop() for _ in range(count)]
        left = [dice.choice(heard + own[0]) for _ in range(dice.randint(1, count))]
        is_broadcast = len(left) < len(right) or dice.random() < 0.3
        delay = dice.choice([None, None, None, 0, 0, 1, 3])
        sides = [[interleave(dice, it) for it in side] for side in (left, right)]
        kind.connections.append((*sides, is_broadcast, delay))
    return kind


def interleave(dice, place):
    return Place(place.owner, place.port, is_interleaved=place.owner is not None and dice.random() < 0.2)


def network(dice):
    """The kinds of a drawn network, its main reactor last."""
    kinds = [leaf(dice, "Leaf0"), leaf(dice, "Leaf1"), modal(dice, "Modal0")]
    for number in range(dice.randint(0, 2)):
        kinds.append(container(dice, f"Box{number}", kinds))
    return [*kinds, container(dice, "Main", kinds, True)]


def modal_network(dice):
    """A network of one reactor with modes, to which an origin sends."""
    main = Kind("Main", instances={"i0": (modal(dice, "Modal0", 6), None)}, given=[Place("i0", "a")], shown=[Place("i0", "y")])
    return [main.instances["i0"][0], main]


# The text.


def text_of(kinds):
    return f"target warpd {{ timeout: {STOP} }}\n" + "".join(map(reactor_text, kinds))


def reactor_text(kind):
    is_main = kind.name == "Main"
    widths = {} if is_main else {f"{port}_size": size for port, size in {**kind.inputs, **kind.outputs}.items() if size}
    named = ", ".join(f"{name}: int = {size}" for name, size in widths.items())
    lines = [f"{'main ' * is_main}reactor {kind.name}{f'({named})' * bool(named)} {{", "  state n: int = 1;"]
    for word, ports in (("input", kind.inputs), ("output", kind.outputs)):
        lines += [f"  {word}{f'[{port}_size]' if size else ''} {port}: int;" for port, size in ports.items()]
    lines += begun_text(kind)
    for name, (of, size) in kind.instances.items():
        lines.append(f"  {name} = new{f'[{size}]' if size else ''} {of.name}();")
    for left, right, is_broadcast, delay in kind.connections:
        left, right = (", ".join(map(str, side)) for side in (left, right))
        left = f"({left})+" if is_broadcast else left
        lines.append(f"  {left} -> {right}{'' if delay is None else f' after {delay}'};")
    lines += [f"  @origin(0) input {place};" for place in kind.given]
    lines += [f"  output {place};" for place in kind.shown]
    lines += [reaction_text(kind, it) for it in kind.reactions if it.mode is None]
    for number, mode in enumerate(kind.modes):
        start = [] if mode.start is None else [f"  reset state r{number}: int = {mode.start};"]
        lines += [f"  {'initial ' * (not number)}mode M{number} {{", *start, *begun_text(mode)]
        lines += [*(reaction_text(kind, it) for it in kind.reactions if it.mode == number), "  }"]
    return "\n".join([*lines, "}", ""])


def begun_text(kind):
    lines = [f"  logical action {name}({delay}): int;" for name, delay in kind.actions.items()]
    return lines + [f"  timer {name}({offset}, {period});" for name, (offset, period) in kind.timers.items()]


def reaction_text(kind, it):
    on, reads, writes = (", ".join(map(str, names)) for names in (it.on, it.reads, [*it.writes, *it.actions]))
    one, two, three, four = it.numbers
    terms = [f"{three}"]
    for name in [*it.on, *it.reads]:
        ports = channels(kind, name) if isinstance(name, Place) else []
        terms += [f"(present({each}) ? {each} : {four})" for each in ports]
        terms += [f"present({name}) * {two}"] if isinstance(name, str) and name != "reset" else []
        terms += [f"{name}"] if name in kind.every_action else []
        terms += [f"{name.port}[n % 3]"] if indexed(kind, name) else []
    echo = [f"n = (n + (present({each}) ? {each} : {four})) % {MODULUS};" for place in it.writes for each in channels(kind, place)]
    body = [*echo * it.echoes, f"n = (n * {one} + {' + '.join(terms[:8])}) % {MODULUS};"]
    body += [f"n = (n + {term}) % {MODULUS};" for term in terms[8:]]
    for place in it.writes:
        for number, each in enumerate(channels(kind, place)):
            body.append(f"if ((n + {number}) % {1 + two} != 0) {each} = n + {number};")
        if indexed(kind, place):
            body.append(f"{place.port}[n % 4] = n * 2;")
    body += echo * it.echoes
    body += [f"if (n % {2 + three} < 2) schedule({action}, {four % 3}, n);" for action in it.actions]
    body += ["if (n % 5 == 0) request_stop();"] * it.asks
    if it.mode is not None and kind.modes[it.mode].start is not None:
        body = [f"r{it.mode} = r{it.mode} + 1;", f"n = n + r{it.mode};", *body]
    if it.leads:
        writes = ", ".join([*filter(None, [writes]), f"{it.leads[0]}(M{it.leads[1]})"])
        body.append(f"if (n % {1 + one} < 2) set_mode(M{it.leads[1]});")
    arrow = f" -> {writes}" if writes else ""
    return f"  reaction({on}) {reads}{arrow} {{= {' '.join(body)} =}}"


def indexed(kind, name):
    """Whether an index of this name is worked out."""
    return isinstance(name, Place) and name.owner is None and {**kind.inputs, **kind.outputs}[name.port]


def channels(kind, place):
    """The channels of all instances of a place, each as a place of its own, the first instance's first."""
    of, size = (kind, None) if place.owner is None else kind.instances[place.owner]
    width = {**of.inputs, **of.outputs}[place.port]
    owners, indices = (range(it) if it else [None] for it in (size, width))
    return [Place(place.owner, place.port, owner, index) for owner in owners for index in indices]


# The simulator.


class Node:
    def __init__(self, kind, path=()):
        self.kind, self.path, self.n = kind, path, 1
        # How long the timers of modes that were left would still have taken; None of those that would not come again. And what waited on
        # their actions, each value with how long it would have taken.
        self.rest, self.waiting = {}, {}
        self.mode, self.next, self.counts = 0, None, [mode.start for mode in kind.modes]
        # The tag at which its mode began anew, and that at which each was entered first.
        self.begun, self.first = None, {0: (0, 0)}
        self.parts = {}
        for name, (of, size) in kind.instances.items():
            for index in range(size) if size else [None]:
                label = name if index is None else f"{name}_{index}"
                self.parts[name, index] = Node(of, (*path, label))

    def every(self):
        yield self
        for it in self.parts.values():
            yield from it.every()

    def point(self, place):
        """One channel's place as a port: its node, its name and its channel."""
        node = self if place.owner is None else self.parts[place.owner, place.owner_index]
        return id(node), place.port, place.index

    def points(self, place):
        found = [self.point(it) for it in channels(self.kind, place)]
        if place.is_interleaved:
            size = self.kind.instances[place.owner][1] or 1
            each = len(found) // size
            found = [found[owner * each + index] for index in range(each) for owner in range(size)]
        return found


class Simulator:
    def __init__(self, main):
        self.root = Node(main)
        self.leads, self.now, self.queue, self.entries, self.count = {}, {}, [], {}, 0
        self.reactions = [(node, it) for node in self.root.every() for it in node.kind.reactions]
        for node in self.root.every():
            for left, right, is_broadcast, delay in node.kind.connections:
                sources, targets = ([it for place in side for it in node.points(place)] for side in (left, right))
                if is_broadcast:
                    sources = [sources[number % len(sources)] for number in range(len(targets))]
                for source, target in zip(sources, targets):
                    self.leads.setdefault(source, []).append((target, delay))
        self.order = self.sorted()
        self.end, self.tag, self.out = (STOP, 0), (0, 0), []

    def reached(self, point):
        """The ports to which a port leads at the same tag, itself among them."""
        found, rest = {point}, [point]
        while rest:
            for target, delay in self.leads.get(rest.pop(), []):
                if delay is None and target not in found:
                    found.add(target)
                    rest.append(target)
        return found

    def sorted(self):
        """The numbers of reactions in an order that keeps to what they wait for; None where they wait in a circle."""
        readers = {}
        for number, (node, it) in enumerate(self.reactions):
            for name in [*it.on, *it.reads]:
                for point in node.points(name) if isinstance(name, Place) else ():
                    readers.setdefault(point, set()).add(number)
        behind = {number: set() for number in range(len(self.reactions))}
        for number, (node, it) in enumerate(self.reactions):
            if number + 1 < len(self.reactions) and self.reactions[number + 1][0] is node:
                behind[number].add(number + 1)
            for place in it.writes:
                for point in node.points(place):
                    behind[number].update(*(readers.get(target, ()) for target in self.reached(point)))
        waits = {number: sum(number in it for it in behind.values()) for number in behind}
        free, order = [number for number, count in waits.items() if not count], []
        while free:
            number = free.pop()
            order.append(number)
            for it in behind[number]:
                waits[it] -= 1
                free += [it] * (not waits[it])
        return order if len(order) == len(behind) else None

    def enter(self, tag, target, value):
        """What comes at a tag; of several values for one target the last counts."""
        if (tag, target) not in self.entries:
            self.count += 1
            heapq.heappush(self.queue, (tag, self.count, target))
        self.entries[tag, target] = value

    def landing(self, delay):
        time, micro = self.tag
        if micro == MOST_MICROSTEPS:
            raise Endless
        return (time + delay, 0) if delay else (time, micro + 1)

    def put(self, point, value):
        self.now[point] = value
        for target, delay in self.leads.get(point, []):
            if delay is None:
                self.put(target, value)
            else:
                self.enter(self.landing(delay), target, value)

    def run(self, events):
        """The outputs [time, microstep, number, value] of these events [time, microstep, input, value]."""
        given = [point for place in self.root.kind.given for point in self.root.points(place)]
        shown = [point for place in self.root.kind.shown for point in self.root.points(place)]
        self.enter((0, 0), "startup", 1)
        self.enter((STOP, 0), "end", 1)
        for time, micro, number, value in events:
            self.enter((time, micro), given[number], value)
        for node in self.root.every():
            for kind in (node.kind, *node.kind.modes[:1]):
                for name, times in kind.timers.items():
                    self.begin(node, name, *times)
        while self.queue and self.queue[0][0] <= self.end:
            self.tag, self.now = self.queue[0][0], {}
            while self.queue and self.queue[0][0] == self.tag:
                _, _, target = heapq.heappop(self.queue)
                if (self.tag, target) in self.entries:
                    self.put(target, self.entries.pop((self.tag, target)))
            for number in self.order:
                self.react(*self.reactions[number])
            for node in self.root.every():
                self.turn(node)
            put = [(number, point) for number, point in enumerate(shown) if point in self.now]
            self.out += [[*self.tag, number, self.now[point]] for number, point in put]
        return self.out

    def begin(self, node, name, offset, period):
        """Lets a timer come from this tag on, at once where it has no offset."""
        time, micro = self.tag
        for each in range(time + offset, STOP + 1, period or STOP + 1):
            self.enter((each, 0 if each > time else micro), (id(node), name, None), 1)

    def turn(self, node):
        """Lets a node be in the mode that was set at this tag, from the next microstep on."""
        if node.next is None or self.tag == self.end:
            return
        (word, number), before, node.next = node.next, self.tag, None
        left, mode = node.kind.modes[node.mode], node.kind.modes[number]
        begun = [(tag, target) for tag, target in self.entries if target[0] == id(node) and target[1] in (*left.timers, *left.actions)]
        for name in left.timers:
            node.rest[name] = min((tag[0] - before[0] for tag, target in begun if target[1] == name), default=None)
        for name in left.actions:
            node.waiting[name] = [(tag[0] - before[0], self.entries[tag, target]) for tag, target in begun if target[1] == name]
        for tag, target in begun:
            del self.entries[tag, target]
        node.mode, entered = number, self.landing(0)
        self.tag = entered
        self.enter(entered, (id(node), "entered", None), 1)
        node.first.setdefault(number, entered)
        if word == "reset":
            node.begun, node.counts[number] = entered, mode.start
        for name, (offset, period) in mode.timers.items():
            rest = offset if word == "reset" else node.rest.get(name, offset)
            if rest is not None:
                self.begin(node, name, rest, period)
        for name in mode.actions if word == "history" else ():
            for rest, value in node.waiting.get(name, ()):
                self.enter((entered[0] + rest, 0) if rest else entered, (id(node), name, None), value)
        self.tag = before

    def seen(self, node, name, mode=None):
        """The values of what a reaction names: None where it is absent."""
        if name == "reset":
            return [1 if node.begun == self.tag else None]
        if name == "startup" and mode is not None:
            return [1 if node.first.get(mode) == self.tag else None]
        if name == "shutdown" and mode is not None:
            return [1 if self.tag == self.end and mode in node.first else None]
        if isinstance(name, Place):
            return [self.now.get(point) for point in node.points(name)]
        if name == "shutdown":
            return [1 if self.tag == self.end else None]
        return [self.now.get(name if name == "startup" else (id(node), name, None))]

    def react(self, node, it):
        is_in = it.mode in (None, node.mode)
        on = [name for name in it.on if is_in or name == "shutdown"]
        if all(value is None for name in on for value in self.seen(node, name, it.mode)):
            return
        if it.mode is not None and node.counts[it.mode] is not None:
            node.counts[it.mode] += 1
            node.n += node.counts[it.mode]
        self.echo(node, it)
        one, two, three, four = it.numbers
        terms = [three]
        for name in [*it.on, *it.reads]:
            values = self.seen(node, name, it.mode)
            if isinstance(name, Place):
                terms += [four if value is None else value for value in values]
            else:
                terms += [(values[0] is not None) * two] * (name != "reset")
                terms += [values[0] or 0] if name in node.kind.every_action else []
            if indexed(node.kind, name):
                terms.append(lambda values=values: dict(enumerate(values)).get(node.n % 3) or 0)
        old = [term() if callable(term) else term for term in terms[:8]]
        node.n = (node.n * one + sum(old)) % MODULUS
        for term in terms[8:]:
            node.n = (node.n + (term() if callable(term) else term)) % MODULUS
        self.effects(node, it)

    def echo(self, node, it):
        for point in [point for place in it.writes for point in node.points(place)] if it.echoes else ():
            node.n = (node.n + self.now.get(point, it.numbers[3])) % MODULUS

    def effects(self, node, it):
        one, two, three, four = it.numbers
        for place in it.writes:
            points = node.points(place)
            for number, point in enumerate(points):
                if (node.n + number) % (1 + two) != 0:
                    self.put(point, node.n + number)
            if indexed(node.kind, place) and node.n % 4 < len(points):
                self.put(points[node.n % 4], node.n * 2)
        self.echo(node, it)
        for action in it.actions:
            if node.n % (2 + three) < 2:
                self.enter(self.landing(node.kind.every_action[action] + four % 3), (id(node), action, None), node.n)
        if it.asks and node.n % 5 == 0 and self.tag < self.end:
            self.end = min(self.end, self.landing(0))
            self.enter(self.end, "end", 1)
        if it.leads and node.n % (1 + one) < 2:
            node.next = it.leads


def events_of(dice, simulator):
    """Events of a network's inputs, one of each name: time, microstep, input and value."""
    given = sum(len(simulator.root.points(place)) for place in simulator.root.kind.given)
    tags = {(dice.randrange(STOP), dice.choice([0, 0, 1])) for _ in range(dice.choice([6, 12]) if given else 0)}
    return [[*tag, dice.randrange(given), dice.randint(-3, 9)] for tag in sorted(tags)]


def kept(simulator):
    """What each instance has kept, by the names that a program file has for them."""
    return {f"{'_'.join(it.path) or 'main'}.n": it.n for it in simulator.root.every()}
