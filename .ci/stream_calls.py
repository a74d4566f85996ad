"""Sessions and pulls of `warp_cases`, over readers and writers that give and take a byte at a time, fail or end.

What a session has written and how many records it took follows from the lines and their answers alone, and what a pull came to
from what each reply leads to.
"""

from calls import NO_MEMORY, Calls, Step
from flat_calls import TWICE, of_version

# `tardy_event` of rows/events.rows: lines, answers, and how many records there are behind each.
ROW = [("event 0 5 0 0 3", "taken 1", 1), ("var 0", "var 1 3", 1), ("event 1 2 0 1 4", "taken 2", 2), ("var 0", "var 2 -5", 2),
       ("outputs", "outputs 2 2", 2), ("output 0", "output 2 2 0 0 -4", 2), ("output 1", "output 2 5 0 0 -5", 2)]
LINES = "".join(f"{line}\n" for line, _, _ in ROW)
# The same where the first record was refused, and where the second was.
FIRST_REFUSED = ["refused 8", "var 0 0", "taken 1", "var 1 -4", "outputs 1 1", "output 1 2 0 0 -4", "none 1"]
SECOND_REFUSED = ["taken 1", "var 1 3", "refused 8", "var 1 3", "outputs 1 1", "output 1 5 0 0 3", "none 1"]
# The same where the first query was, behind which there was memory to execute.
QUERY_REFUSED = ["taken 1", "refused 8", *(answer for _, answer, _ in ROW[2:])]


def told(end, records, written):
    return [f"{end}: {records} records", *written.split("\n")]


def answers(count):
    return "".join(f"{answer}\n" for _, answer, _ in ROW[:count])


def records(count):
    return ROW[count - 1][2] if count else 0


def read(count, end):
    """A session of which so many bytes were read."""
    given = LINES[:count]
    whole = given.count("\n")
    torn = "refused 1\n" if end == "end" and given and given[-1] != "\n" else ""
    return told(end, records(whole), answers(whole) + torn)


def written(count):
    """A session of which so many bytes were written, one by one: the line whose reply was on its way was the last."""
    front = answers(len(ROW))[:count]
    return told("write fault", records(front.count("\n") + 1), front)


def several(texts):
    """Calls that are refused nothing."""
    return Step(sum(texts, []), calls=len(texts), targets=())


WHOLE = told("end", 2, answers(len(ROW)))


def session():
    less = [told("end", count, "".join(f"{answer}\n" for answer in text))
            for count, text in ((1, FIRST_REFUSED), (1, SECOND_REFUSED), (2, QUERY_REFUSED))]
    return Calls("a session", "session", "twice", [Step(WHOLE, otherwise=[told(NO_MEMORY, 0, ""), *less])], LINES)


def sessions():
    """The first takes nothing of the first reply, which is of a record."""
    return Calls("a tardy event against each reader and writer", "sessions", "twice", [
        Step(told("write fault", 1, ""), otherwise=[told(NO_MEMORY, 0, ""), told("write fault", 0, "")]),
        several([WHOLE]),
        several([read(count, "read fault") for count in range(len(LINES) + 1)]),
        several([read(count, "end") for count in range(len(LINES))]),
        several([written(count) for count in range(len(answers(len(ROW))))]),
    ], LINES)


def full():
    """The log takes 100,000 records."""
    most = 100_000
    lines = [f"event 0 5 0 0 {value}" for value in range(1, most + 1)]
    said = [f"taken {value}" for value in range(1, most + 1)]
    lines += ["event 0 5 0 0 0", "event 0 5 0 0 1", "var 0"]
    said += ["refused 7", "known 1", f"var {most} {most}"]
    text = told("end", most, "".join(f"{reply}\n" for reply in said))
    return Calls("a log of 100,000 records", "session", "twice", [several([text])], "".join(f"{line}\n" for line in lines))


GOT, HELD, OVER = "got", "held", "over"
LONG = "x" * 200
TAKEN = "event 0 5 0 0 3"
# The same program in version 3, whose stop is 100 too.
LATER = of_version(TWICE, 3)
# What a peer replies, with what each reply leads to and how many records there are then; how the pull ends by the last of
# these, or None where the bytes end before; and how it ends where its one record was refused, with records and questions.
PEERS = [
    ([("log 1 event 9 5 0 0 3", OVER, 0)], "", "held 2", None),
    ([("log 1 event 40 5 0 0 3", OVER, 0)], "", "strange", None),
    ([("log 1 event 0 5 16 0 3", OVER, 0)], "", "strange", None),
    ([("log 0 event 0 5 0 0 3", OVER, 0)], "", "strange", None),
    ([("taken 1", OVER, 0)], "", "strange", None),
    ([("refused 8", HELD, 0), ("none 0", OVER, 0)], "", "quiet", None),
    ([(LONG, OVER, 0)], "", "strange", None),
    ([(f"log 9 {TAKEN}", GOT, 1), (f"log 9 {TAKEN}", GOT, 1), ("none 2", OVER, 1)], "", "quiet", ("strange", 1, 3)),
    ([(f"log 1 {TAKEN}", GOT, 1)], "log 2 wi", None, ("end", 0, 2)),
    ([("log 100001 event 0 5 0 0 3", OVER, 0)], "", "strange", None),
]
# The same of a peer of version 3.
LATER_PEERS = [
    ([("log 1 event 0 15625000 0 0 3", OVER, 0)], "", "held 3", None),
    ([("log 1 event 0 15625001 0 0 3", OVER, 0)], "", "strange", None),
    ([("log 10000001 event 0 5 0 0 3", OVER, 0)], "", "strange", None),
    ([("log 10000000 announce 0 5 255 10000000 10000000", GOT, 1), ("none 1", OVER, 1)], "", "quiet", ("strange", 0, 2)),
]
# Each question is `log N` and a line feed, with N below 10.
QUESTION = 6


def pulled(end, count, questions):
    return [end, f"{count} records, {QUESTION * questions} bytes"]


class Peer:
    def __init__(self, replies, torn, end):
        self.replies, self.end = replies, end
        self.text = "".join(f"{line}\n" for line, _, _ in replies) + torn

    def had(self, lines):
        return self.replies[lines - 1][2] if lines else 0

    def read(self, count, end):
        """A pull of which so many bytes were read: it has ended, or ends so."""
        lines = self.text[:count].count("\n")
        if self.end and lines == len(self.replies):
            return pulled(self.end, self.had(lines), lines)
        return pulled(end, self.had(lines), lines + 1)

    def written(self, count):
        """One of which so many bytes were written, one by one."""
        return ["fault", f"{self.had(count // QUESTION)} records, {count} bytes"]

    def steps(self, refused):
        whole, size = self.read(len(self.text), "end"), len(self.text)
        questions = len(self.replies) + (self.end is None)
        lacking = [pulled(NO_MEMORY, 0, 0), *([pulled(*refused)] if refused else [])]
        return [
            Step(whole, otherwise=lacking),
            Step(pulled("fault", 0, 0), otherwise=lacking[:1]),
            several([whole]),
            several([self.read(count, "fault") for count in range(size + 1)]),
            several([self.read(count, "end") for count in range(size)]),
            several([self.written(count) for count in range(QUESTION * questions)]),
        ]


def pulls():
    for program, peers in (("twice", PEERS), (LATER, LATER_PEERS)):
        for replies, torn, end, refused in peers:
            peer = Peer(replies, torn, end)
            yield Calls(f"a peer that replies {peer.text[:30]!r}", "pulls", program, peer.steps(refused), peer.text)


def exhausted():
    """A desk that has no memory asks for the same place again and again: each turn is a question or a read."""
    step = several([["too many turns", f"{500_000 * QUESTION} bytes, 500000 questions for place 1"]])
    return Calls("a pull into a desk without memory", "exhausted", "1", [step], f"log 1 {TAKEN}\n")


def cases():
    yield session()
    yield sessions()
    yield full()
    yield from pulls()
    yield exhausted()
