"""Calls of the program of `warp_cases`, with what each must come to, also where it was refused memory.

A case is a list of steps. A step is lines for standard input, what they print, and what may be printed in the place of
that where one request for memory of one of its calls was refused: `otherwise`, of which each must be seen in some run.
What stands behind a refused step is printed as if nothing had been refused. All that must be printed comes from the
definitions and the answers that the reference gives.

A call that takes no memory (`is_quiet`) must make no request, and come to the same where each would be refused.
"""

import re
from dataclasses import dataclass, field
from pathlib import Path

EXAMPLES = Path(__file__).resolve().parent.parent / "examples"
NO_MEMORY = "no memory"
REFUSED = "refused 8"


@dataclass
class Step:
    said: list
    lines: list = field(default_factory=list)
    # How many calls it makes, and which of these are refused memory: all, or those with these numbers, from 0.
    calls: int = 1
    targets: tuple = None
    otherwise: list = field(default_factory=list)
    is_quiet: bool = False


@dataclass
class Calls:
    name: str
    word: str
    program: str
    steps: list
    # Behind the program, where the calls are always the same.
    rest: str = ""

    def given(self):
        return "\n".join([self.program, *(line for step in self.steps for line in step.lines)]) + "\n" + self.rest


def forty(first=1):
    return [(f"take event 0 {time} 0 0 1", f"taken {time}") for time in range(first, 41)]


def before(calls):
    """Calls that are refused nothing."""
    return Step([said for _, said in calls if said], [line for line, _ in calls], sum(bool(said) for _, said in calls), ())


def twice(call, said, looks, last, refused=REFUSED, after=None, again=None):
    """A call and looks, and the same again. `last` is what the looks said before the call, `looks` what they say after it; where
    the call is refused they say `after`, which is as before where it is not given."""
    again = said.replace("taken", "known") if again is None else again
    questions, answers = [look for look, _ in looks], [answer for _, answer in looks]
    size = 1 + len(looks)
    return Step(
        [said, *answers, again, *answers], [call, *questions] * 2, 2 * size, (0, size),
        [[refused, *(last if after is None else after), said, *answers]],
    )


def quiet(calls):
    return [Step([said], [line], is_quiet=True) for line, said in calls]


# The records of `tardy_event` in rows/events.rows, and further ones; with each, what the looks say behind it.
LOOKS = ("ask var 0", "ask outputs", "ask horizon")
RECORDS = [
    ("event 0 5 0 0 3", ("var 1 3", "outputs 1 1", "horizon 1 0 0")),
    ("event 1 2 0 1 4", ("var 2 -5", "outputs 2 2", "horizon 2 0 0")),
    ("withdraw 1 2 0", ("var 3 3", "outputs 3 1", "horizon 3 0 0")),
    ("announce 0 10 0 1 0", ("var 4 3", "outputs 4 1", "horizon 4 0 0")),
    ("announce 1 10 0 1 1", ("var 5 3", "outputs 5 1", "horizon 5 10 0")),
]


def taking(word, verb):
    last = ["var 0 0", "outputs 0 0", "horizon 0 0 0"]
    steps = [before(list(zip(LOOKS, last)))]
    for place, (text, looks) in enumerate(RECORDS, 1):
        steps.append(twice(f"{verb} {text}", f"taken {place}", list(zip(LOOKS, looks)), last))
        last = list(looks)
    return Calls(f"{word}: {verb}, each record", word, "twice", steps)


def settling(word):
    """Unsettled, whole; a later settling gives the answers of the run."""
    step = twice("settle", "settled", [("is_settled", "settled true")], [], NO_MEMORY, ["settled false"])
    step.calls, step.targets = 2, (0, 1)
    tail = [("take event 1 32 0 1 1", "taken 41"), ("settle", "settled"), ("answer var 0", "var 41 1099511627519")]
    return Calls(f"{word}: settling forty events", word, "twice", [before(forty()), step, before(tail)])


def tardy(word):
    """Where settling was refused, a late record is taken all the same."""
    steps = [before(forty()), Step(["settled"], ["settle"], otherwise=[[NO_MEMORY]])]
    tail = [("take event 1 32 0 1 1", "taken 41"), ("settle", "settled"), ("answer var 0", "var 41 1099511627519")]
    return Calls(f"{word}: a late record behind forty that were not settled", word, "twice", [*steps, before(tail)])


def going_back(word):
    """Settling again after a late record, whose rollback set rows aside."""
    calls = [*forty(), ("settle", "settled"), ("take event 1 32 0 1 1", "taken 41")]
    step = twice("settle", "settled", [("is_settled", "settled true")], [], NO_MEMORY, ["settled false"])
    step.calls, step.targets = 2, (0, 1)
    return Calls(f"{word}: settling after a late record", word, "twice",
                 [before(calls), step, before([("answer var 0", "var 41 1099511627519")])])


def collected(time, events):
    return [*forty(), (f"ask announce 0 {time} 0 {events} 0", "taken 41"), (f"ask announce 1 {time} 0 0 0", "taken 42"),
            ("ask collect", "collected 42"), ("ask var 0", "var 42 1099511627775")]


def behind(word):
    step = twice("take event 1 20 0 1 1", "taken 43", [("ask var 0", "var 43 1099510579199")], ["var 42 1099511627775"])
    tail = [("ask var 0", "var 43 1099510579199"), ("ask breach 1", "breach 43 1")]
    return Calls(f"{word}: a record behind what was collected", word, "twice", [before(collected(41, 40)), step, before(tail)])


def merging(word):
    """The log is the first i records, and the next merge takes all."""
    other = [("exchange", ""), *((f"take {text}", f"taken {place}") for place, (text, _) in enumerate(RECORDS[:3], 1)), ("exchange", "")]
    totals = ("var 0 0", "var 1 3", "var 2 -5", "var 3 3")
    whole = ["merged 3 into 3", "length 3", totals[3]]
    step = Step([*whole, *whole], ["merge", "length", "ask var 0"] * 2, 4, (0, 2), [
        [f"{REFUSED} after {count} into {count}", f"length {count}", totals[count], *whole] for count in range(3)
    ])
    return Calls(f"{word}: merging a log of three", word, "twice", [before(other), step])


def asking(word):
    """A query settles first."""
    calls = [(f"take {text}", f"taken {place}") for place, (text, _) in enumerate(RECORDS, 1)]
    step = twice("ask released", "released 5 1", [("is_settled", "settled true")], [], REFUSED, ["settled false"])
    step.calls, step.targets = 2, (0, 1)
    return Calls(f"{word}: a query", word, "twice", [before(calls), step])


def at_once(word):
    """A replica that answers a line is settled as soon as it took a record."""
    settled = ("is_settled", "settled true")
    calls = [("ask event 0 5 0 0 3", "taken 1"), settled, ("ask event 1 2 0 1 4", "taken 2"), settled]
    step = Step([said for _, said in calls], [line for line, _ in calls], 2, ())
    return Calls(f"{word}: settled at once", word, "twice", [step])


def without(word):
    """Answers and collecting take no memory."""
    calls = [("answer var 0", "var 42 1099511627775"), ("answer outputs", "outputs 42 40"),
             ("answer output 39", "output 42 40 0 0 1099511627775"), ("answer horizon", "horizon 42 20 0"), ("answer released", "released 42 19"), ("answer lost", "lost 42 0"),
             ("answer breach 0", "breach 42 0"), ("answer log 1", "log 42 event 0 1 0 0 1"), ("collect", "collected 42")]
    first = collected(20, 19)[:-2] + [("settle", "settled")]
    return Calls(f"{word}: answers and collecting", word, "twice", [before(first), *quiet(calls), *quiet(calls)])


# Its action comes one microstep behind what schedules it.
ECHO = (
    '{"version":%d,"stop":100,"origins":1,"reactors":[{"name":"e","vars":[["n",0]],"inputs":["a"],"outputs":["y"],"actions":[["c",0]],'
    '"reactions":[{"on":["a"],"writes":["c"],"body":[["schedule","c",0,"a"]]},'
    '{"on":["c"],"writes":["y"],"body":[["set","n",["+","n","c"]],["put","y","n"]]}]}],"inputs":[[0,"e.a"]],"outputs":["e.y"]}'
)
# How replicas are raised, from which version, and the last microstep before and after.
RAISED = [("raise", 1, 15, 255), ("raise_to 2", 1, 15, 255), ("raise_to 3", 1, 15, 255), ("raise_to 3", 2, 255, 255)]


def raising(word, call, version, last, most):
    """What was lost past the last microstep is there where the raised replica has further ones; where raising was refused, the old one
    is as before."""
    questions, record = ["ask lost", "ask outputs", "ask output 0", "ask log 1"], f"event 0 5 {last} 0 3"
    old = ["lost 1 1", "outputs 1 0", "none 1", f"log 1 {record}"]
    new = ["lost 1 0", "outputs 1 1", f"output 1 5 {last + 1} 0 3", f"log 1 {record}"] if most > last else old
    size = 1 + len(questions)
    step = Step(["raised", *new] * 2, [call, *questions] * 2, 2 * size, (0, size),
                [[REFUSED, *old, "raised", *new], ["raised", *new, REFUSED, *new]])
    further = f"take event 0 5 {last + 1} 0 1"
    first = [(f"take {record}", "taken 1"), *([(further, "refused 3")] if most > last else []), *zip(questions, old)]
    tail = [(further, "taken 2"), ("ask lost", "lost 2 0"), ("ask var 0", "var 2 4")] if most > last else [("ask var 0", "var 1 0")]
    return Calls(f"{word}: {call} from version {version}", word, ECHO % version, [before(first), step, before(tail)])


def replicas():
    for word in ("replicas", "twins"):
        yield taking(word, "take")
        yield taking(word, "ask")
        yield settling(word)
        yield tardy(word)
        yield going_back(word)
        yield behind(word)
        yield at_once(word)
        yield asking(word)
        yield without(word)
        yield merging(word)
        for raised in RAISED:
            yield raising(word, *raised)


def made():
    """Something is made two times."""
    return Step(["made", "made"], calls=2, otherwise=[[NO_MEMORY, "made"], ["made", NO_MEMORY]])


def worlds():
    schedule = EXAMPLES / "three_replicas.schedule"
    text = schedule.with_suffix(".answers").read_text()
    moves = len(schedule.read_text().splitlines()) - 1
    lost, read, told = "out of memory", f"3 replicas, {moves} moves", [*text.splitlines(), ""]
    totals = re.findall("var .*", text)
    lengths = [f"length {total.split()[1]}" for total in totals]
    after = [["made", *totals]] * 2
    # Its last move settles and collects the first replica.
    some = [[NO_MEMORY, *totals[:count], *lengths[count:], *after[1]] for count in (1, 2)]
    settle = Step(sum(after, []), calls=2, otherwise=some)
    return Calls("a schedule and its world", "worlds", "twice", [
        Step([read, read], calls=2, otherwise=[[lost, read], [read, lost]]), made(), settle,
        Step([*told, *told], calls=2, otherwise=[[lost, *told], [*told, lost]]),
    ], schedule.read_text())


def cases():
    yield worlds()
    yield from replicas()
