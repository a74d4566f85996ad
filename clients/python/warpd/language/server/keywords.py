"""What each word of the language means, in a line."""

KEYWORDS = {
    "target": "The first line of a text: `target warpd { stop: 100 }`.",
    "const": "A constant, worked out when the text is compiled: `const WIDTH = 8`.",
    "import": "Reactors of another file: `import Count, Sum as Adder from \"lib/counts.lf\"`.",
    "from": "The file of an import; its path leads from the folder of this text.",
    "as": "The name that an imported reactor has here.",
    "enum": "Constants that count up from 0: `enum Phase { WAITING, FALLING = 5 }`.",
    "struct": "A group of variables: `struct Ball { height: fixed = 20; speed: fixed }`.",
    "function": "Statements with a value, put in where they are called: `function f(a: int): int {= return a; =}`.",
    "method": "A function of a reactor, which reads and assigns its variables.",
    "main": "The reactor that has the instances, their connections, and the inputs and outputs of the program.",
    "reactor": "A kind of which there may be many instances: variables, ports, actions, timers and reactions.",
    "extends": "The reactor has all that these have, before what is its own.",
    "state": "A variable of the reactor and its start, 0 where none stands.",
    "input": "A port to which a connection, an origin or a reaction of the reactor around it brings values.",
    "output": "A port on which reactions put values.",
    "logical": "`logical action c(5): int`: what the reactor schedules for itself, at least 5 later.",
    "action": "`logical action c(5): int`: what the reactor schedules for itself, at least 5 later.",
    "timer": "`timer t(10, 2)` comes at 10, then every 2; `timer t(10)` once.",
    "reaction": "`reaction(a) b -> y {= .. =}` runs when `a` is there, may read `b`, and puts on `y`.",
    "new": "An instance: `p = new Player(id = 1)`; a bank of four: `p = new[4] Player()`.",
    "after": "It comes so much later; `after 0` is one microstep later.",
    "interleaved": "The first channel of each instance of a bank, then the second of each.",
    "initial": "The mode in which a reactor begins.",
    "mode": "What a mode has counts in it alone; `set_mode(M)` leads to another at the next microstep.",
    "reset": "Begins anew: `-> reset(M)` a mode, `reset state` its variables, `reaction(reset)` when a mode does so.",
    "history": "`-> history(M)`: the mode, which goes on as it was left.",
    "startup": "A trigger that is there at time 0 alone, and in a mode when it is entered for the first time.",
    "shutdown": "A trigger that is there at the last tag of the program.",
    "var": "A variable of this body: `var n = 0;`, which may be assigned up to the end of the block.",
    "let": "A name for a value at this place, up to the end of the block. It is constant.",
    "if": "`if (E) S else S`: the first where E is not 0.",
    "else": "`if (E) S else S`: the first where E is not 0.",
    "for": "`for (let i = 0; i < 4; i++) S`: S for each `i`. The bounds are constant, or `; most 100` stands behind them.",
    "while": "`while (E; most 100) S`: S again and again while E is not 0, so many times at most.",
    "most": "How many turns a loop has at most: `while (E; most 100) S`.",
    "return": "Ends the body, or gives the value of a function.",
    "break": "Ends the loop.",
    "continue": "Ends this turn of the loop.",
    "true": "1", "false": "0",
}
BUILT_IN = {
    "put": "`put(y, E);` puts a value on an output; of several at one tag the last counts.",
    "schedule": "`schedule(c, d, E);` schedules an action with the value E, after its own delay and the delay `d`.",
    "request_stop": "`request_stop();` ends the program at the next microstep.",
    "set_mode": "`set_mode(M);` leads to the mode M at the next microstep.",
    "among": "`schedule(c, among(d, 5, 10))`: the delay `d`, which is one of these.",
    "present": "`present(a)`: 1 where the input, action, timer or `startup` is there at this tag, else 0.",
    "min": "`min(a, b)`: the smallest of two or more.", "max": "`max(a, b)`: the greatest of two or more.",
    "abs": "`abs(a)`: without its sign.", "clamp": "`clamp(a, low, high)`: the nearest value from `low` to `high`.",
    "floor": "`floor(a)`: the whole number that is not above.", "round": "`round(a)`: the nearest whole number.",
    "fixed": "`fixed`: a number with a point, kept as a whole number of 65,536ths; `fixed(n)` makes one of an `int`.",
    "mix": "`mix(seed, n)`: draw n of this seed, the first for n = 1; the same numbers give the same draw.",
    "muldiv": "`muldiv(a, b, c)`: a * b / c, with a product that is not cut to 64 bits.",
    "lf": "`lf.time`, `lf.microstep`: the tag that is executed.",
    "bank_index": "The place of an instance in its bank, from 0.",
    "int": "A whole number of 64 bits.", "bool": "The same as `int`: 0 or 1.", "time": "The same as `int`: a time.",
    "stop": "The last time that is executed.", "timeout": "The last time that is executed.",
    "unit": "What 1 of time is: `unit: 1 ms`.", "origins": "How many origins there are.",
    "version": "The version of the program file: where it does not stand 2, or 4 where the program needs it.",
    "microsteps_at_stop": "`true`: later microsteps of the stop are executed too.",
}
# What the words of tests mean, which are words in tests alone.
IN_TESTS = {
    "test": "A test of the program: `test \"NAME\" { .. }`, run by `warpd-compile --test`.",
    "in every order": "The records above each `expect` come again in twelve other orders.",
    "expect": "`expect E;`: E is not 0 behind what stands above; `expect E at 30;`, `expect y puts 1 at 30;`.",
    "always": "`expect always E;`: at the beginning, and behind each tag at which something runs.",
    "draw": "`draw 0 to 20 of p.a = 1, withdraw p.a at 0 to 100;`: so many of these at some of these times.",
    "withdraw": "`withdraw p.a at 11;`: what the origin of this input has at that tag does not count.",
    "ask": "`ask;`: what has come is executed.",
    "at": "A time, or a time and a microstep: `at 30`, `at (30, 1)`.",
    "to": "From one to the other, both counted: `0 to 100`.",
    "every": "`at 0 to 300 every 10`: at 0, 10 and so on.",
    "of": "`draw 0 to 20 of p.a = 1`: what is drawn.",
    "puts": "`expect y puts 1 at 12, 0 at (31, 1);`: all that this output puts.",
    "nothing": "`expect y puts nothing;`",
    "lost": "`expect lost == 0;`: how much the run lost.",
}
# What begins a statement of a test, and what may follow in one that begins with a word: "" is an event.
STATEMENTS_OF_TESTS = ("expect", "draw", "withdraw", "ask")
FOLLOWING = {"expect": ("at", "puts"), "draw": ("to", "of", "at"), "withdraw": ("at",), "": ("at", "to", "every")}
TOP_WORDS = ("const", "import", "enum", "struct", "function", "main reactor", "reactor", "target", "test")
MEMBER_WORDS = (
    "state", "input", "output", "logical action", "timer", "reaction", "method", "mode", "initial mode", "reset state",
)
BODY_WORDS = ("let", "var", "if", "else", "for", "while", "return", "break", "continue", "true", "false")
STATEMENT_CALLS = ("put", "schedule", "request_stop", "set_mode")
VALUE_CALLS = ("present", "min", "max", "abs", "clamp", "floor", "round", "fixed", "mix", "muldiv")
TYPE_WORDS = ("int", "bool", "time", "fixed")
PROPERTY_WORDS = ("stop", "timeout", "unit", "origins", "version", "microsteps_at_stop")
