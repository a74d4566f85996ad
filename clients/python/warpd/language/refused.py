"""What Lingua Franca or C have and warpd has not: each by its word, with what to do instead."""

import re

STRUCTURE = {
    "physical": (
        "warpd has no physical actions: no clock is read",
        "declare an `input`, and let its origin send what happens outside",
    ),
    "deadline": ("warpd has no deadlines: no clock is read", "let a timer look whether something has come"),
    **dict.fromkeys(
        ("preamble", "public", "private"), ("warpd has no target code", "constants stand outside of reactors: `const NAME = 3;`")),
    "mutable": ("warpd has no mutable inputs", "write `input`, and keep in a state variable what changes"),
    "federated": ("warpd has no federates", "write `main reactor`: each replica runs the whole program"),
    "watchdog": ("warpd has no watchdogs: no clock is read", "let a timer look whether something has come"),
    "realtime": ("warpd has no realtime reactors", "write `reactor`"),
    "~>": ("warpd has no physical connections", "write `->`, and `after` for a delay"),
    '"': ("warpd has no texts: each value is an integer of 64 bits", ""),
    "{=": ("this `{=` is never closed", "a body ends with `=}`"),
    "#": ("a comment begins with `//`", ""),
    "@": (
        "warpd knows no such attribute",
        "`@origin(0)` stands before an `input` of main, `@hidden` before a `state`, `@called(\"the door\")` before what has a name",
    ),
}

NO_CODE = "a body is no target code"
_DECLARES = (
    "a body declares no variables by their types",
    "write `let NAME = ..;`, `var NAME = ..;` where it is assigned again, or `state NAME: int = 0;` before the reactions",
)
_PRINTS = ("a body prints nothing, and is no target code", "put what is to be seen on an output")
_PRINTED = (
    "printf", "fprintf", "print", "puts", "lf_print", "lf_print_error", "lf_print_error_and_exit", "lf_print_warning", "lf_print_log",
    "lf_print_debug",
)
C_TYPES = (
    "int", "bool", "int8_t", "int16_t", "int32_t", "int64_t", "uint8_t", "uint16_t", "uint32_t", "uint64_t",
    "size_t", "long", "short", "char", "unsigned", "signed", "float", "double", "fixed", "interval_t", "instant_t",
    "time_t", "tag_t", "static", "auto",
)
_LOOPS = ("a body has no such loop", "write `while (..; most 100)`: what goes on for ever is an action that schedules itself")

# How a reactor names itself.
ITSELF = ("self", "this")
OF_ITSELF = (NO_CODE, "a state variable stands by its name alone")


def no_instance(name: str) -> tuple[str, str]:
    """What is said of a name before a dot that is no instance."""
    if name in ITSELF:
        return OF_ITSELF
    return f"there is no instance `{name}` in this reactor", "an instance stands in its reactor: `p = new Player();`"


BODY = {
    **dict.fromkeys(("do", "goto"), _LOOPS),
    "switch": ("a body has no `switch`", "write `if (..) .. else if (..) ..`"),
    **{word: (f"`{word}` is not there", "write `else if`") for word in ("elseif", "elif", "elsif")},
    **dict.fromkeys(_PRINTED, _PRINTS),
    **dict.fromkeys(("assert", "lf_assert"), ("a body asserts nothing", "put it on an output, or write a `test` outside of reactors")),
    "exit": (NO_CODE, "write `request_stop();`"),
    "#": ("a comment begins with `//`", ""),
    "'": ("warpd has no letters: each value is an integer of 64 bits", "write the letter's number, by a `const`"),
    "lf_set": (NO_CODE, "write `y = e;` or `put(y, e);`"),
    **dict.fromkeys(("lf_schedule", "lf_schedule_int"), (NO_CODE, "write `schedule(c, delay, value);`")),
    "lf_set_mode": (NO_CODE, "write `set_mode(M);`"),
    "lf_request_stop": (NO_CODE, "write `request_stop();`"),
    "self": OF_ITSELF,
    **dict.fromkeys((*C_TYPES, "const"), _DECLARES),
    **dict.fromkeys(("++", "--"), ("this has no value, and stands by itself", "write `n++;` before the statement or behind it")),
    "then": ("`then` is not there", "write `if (..) S else S`"),
    "and": ("`and` is not there", "write `&&`"),
    "or": ("`or` is not there", "write `||`"),
    "not": ("`not` is not there", "write `!`"),
    "->": (NO_CODE, "`a->value` is `a`, and `a->is_present` is `present(a)`"),
    '"': ("warpd has no texts: each value is an integer of 64 bits", ""),
}

_EXPECTS = ("a test compares by `expect`", "write `expect door.found == 2;`, and `at 30` behind it for a time")
TEST = {
    **dict.fromkeys(("assert", "check", "require", "assert_eq"), _EXPECTS),
    **dict.fromkeys(("event", "send", "inject"), ("an event is written as what it says", "write `door.push = 1 at 27;`")),
    "after": ("a time in a test is counted from the beginning", "write `at 27`"),
    "let": ("a test has no `let`", "`const NAME = 3` stands outside of reactors"),
    "for": ("a test has no loops", "write `door.push = 1 at 0 to 30 every 10;`, or take `warpd.testing` of Python"),
    "if": ("a test has no `if`", "write `expect` with `&&`, `||` or `? :`, or take `warpd.testing` of Python"),
    '"': ("a text stands only as the name of a test", ""),
}

TEST_INSIDE = ("a test stands outside of reactors", "put it behind the `}` of this one")

SIDES = ("the sides of an array stand behind its type", "write `state a: int[8]`")
BRACES = "the values of an array stand between braces"

# What stands behind a reaction, for events that come late.
LATE = ("STP", "STAA", "tardy", "maxwait")

# What other targets call of a port, an action or what a reaction is given.
METHODS = {
    "get": "`{0}.get()` is `{0}`", "set": "write `y = e;` or `put(y, e);`", "is_present": "`{0}.is_present()` is `present({0})`",
    "schedule": "write `schedule(c, delay, value);`", "size": "the width of `{0}` is `{0}_width`",
}

# What C writes behind the name of an input or an action.
PARTS = {
    "value": ("`{0}.value` is `{0}`", "a name alone is its value"),
    "is_present": ("`{0}.is_present` is `present({0})`", ""),
}

# The width of a multiport or a bank, as other languages ask for it.
OF_WIDTH = ("`{0}.{1}` is not there", "the width of `{0}` is `{0}_width`")
WIDTHS = ("width", "size", "length", "len")

# The constants of an enum, as other languages name them.
OF_ENUM = ("`{0}.{1}`: a name of an enum stands alone", "write `{1}`")

# Names and functions of C, and of Lingua Franca's library, in expressions.
_DRAWN = ("`{0}(..)` is not there", "`mix(seed, n)` is draw n of a seed: count n in a state variable")
_COUNTS = (
    "`{0}(..)` is not there",
    "`m_width` is the width of a multiport or a bank `m`; how many cells an array has is a constant",
)
_TAKES = ("`{0}(..)` is not there", "`state a: int[8]` is an array: it is there from the beginning")
READS_TAG = ("`{0}(..)` is not there", "`lf.time` is the time of the tag, and `lf.microstep` its microstep")
CALLS = {
    **dict.fromkeys(("rand", "random", "lrand48", "rand_r", "randint", "srand"), _DRAWN),
    **{
        word: (f"`{word}(..)` is not there", f"write `{{0}} {unit}`") for word, unit in {
            "NSEC": "ns", "NSECS": "ns", "USEC": "us", "USECS": "us", "MSEC": "ms", "MSECS": "ms", "SEC": "s",
            "SECS": "s", "MINUTE": "min", "MINUTES": "min", "HOUR": "hours", "HOURS": "hours", "DAY": "days",
            "DAYS": "days", "WEEK": "weeks", "WEEKS": "weeks",
        }.items()
    },
    **dict.fromkeys(("lf_time_logical", "lf_time_logical_elapsed", "lf_tag", "get_elapsed_logical_time"), READS_TAG),
    **dict.fromkeys(("sizeof", "widthof", "len", "length"), _COUNTS), **dict.fromkeys(("malloc", "calloc"), _TAKES),
    "sqrt": ("warpd has no roots", "`x * x < y` compares squares"),
    **dict.fromkeys(("fmin", "fmax"), ("it is not there", "write `min(..)` or `max(..)`")),
    "fabs": ("it is not there", "write `abs(..)`"),
}
VALUES = {
    "forever": ("there is no `forever`", "the stop is the last time: write a number"),
    "FOREVER": ("there is no `FOREVER`", "the stop is the last time: write a number"),
    **{word: (f"there is no `{word}`", f"write `lf.{word}`, which is of the tag") for word in ("time", "microstep")},
    "never": ("there is no `never`", "a timer with an offset past the stop never comes"),
    "NULL": ("there is no `NULL`", "`present(a)` asks whether something is there"),
    "self": OF_ITSELF,
    **{word: (f"there is no `{word}`", f"write `{word.lower()}`") for word in ("TRUE", "FALSE", "True", "False")},
    "bank_index": ("`bank_index` is not declared here", "it is a parameter: `reactor NAME(bank_index: int = 0)`"),
}
UNITS = (
    "ns", "nsec", "us", "usec", "ms", "msec", "s", "sec", "secs", "second", "seconds", "min", "minute", "minutes", "h", "hour", "hours",
    "d", "day", "days",
)
OTHER_UNITS = {
    **dict.fromkeys(("hr", "hrs"), "hour"), **dict.fromkeys(("milli", "millis", "millisecond", "milliseconds", "mseconds"), "ms"),
    **dict.fromkeys(("micros", "microsecond", "microseconds"), "us"), **dict.fromkeys(("nanos", "nanosecond", "nanoseconds"), "ns"),
    **dict.fromkeys(("sek", "S"), "s"), **dict.fromkeys(("m", "M"), "min"), "wk": "weeks",
}
# What Lingua Franca's targets have, and warpd needs not.
PROPERTIES = ("keepalive", "fast", "threading", "workers", "logging", "build", "files", "coordination", "docker", "tracing", "scheduler")


def plain_number(text: str) -> str:
    """A number of another language as this one has it; nothing where it is none."""
    try:
        if re.fullmatch(r"0[xXbBoO]\w+", text):
            return str(int(text.rstrip("uUlL"), 0))
        plain = re.sub(r"_|[uUlL]+$|(?<=\d)[fF]$", "", text)
        if re.fullmatch(r"[1-9][0-9]*[eE][0-9]{1,2}", plain):
            return str(int(float(plain)))
        return plain if re.fullmatch(r"(0|[1-9][0-9]*)(\.[0-9]+)?", plain) else ""
    except ValueError:
        return ""


# Types of other languages.
_FIXED = "write `fixed`: a number with 16 bits behind the point"
WITH_POINT = ("float", "double", "real")
TYPES = {
    **dict.fromkeys(WITH_POINT, _FIXED),
    **dict.fromkeys((
        "long", "short", "char", "int8_t", "int16_t", "int32_t", "uint8_t", "uint16_t", "uint32_t", "uint64_t", "size_t",
        "unsigned",
    ), "write `int`: each has 64 bits"),
    **dict.fromkeys(("string", "str"), "warpd has no texts: number them, by an `enum`"),
    **dict.fromkeys(("interval_t", "instant_t"), "write `time`"),
}

# What begins a member of a reactor or a part of a file.
MEMBERS = (
    "state", "input", "output", "logical", "timer", "reaction", "reactor", "main", "const", "target", "function",
    "method", "enum", "struct", "test",
)

# What is not all of a beginning.
BEGINNINGS = {
    "action": ("an action of warpd is logical", "write `logical action ..`"),
}

TRIGGERS = {
    "reset": ("`reset` triggers reactions of modes alone", "outside of modes an input or an action does"),
}
