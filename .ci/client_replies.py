"""What a client for Python makes of another side that says what is no reply, or says it too slowly: for `.ci/clients`. No case needs the
built program, and each other side ends by itself."""

import json
import socket
import sys
import threading
import time
from contextlib import suppress
from pathlib import Path

ROOT = Path(__file__).resolve().parent.parent
sys.path[:0] = [str(ROOT / "clients" / "python"), str(ROOT / ".ci")]
import warpd  # noqa: E402
from loopback import SECONDS, free_port  # noqa: E402
from warpd import Client, Ended, HostClient, Refused, Tag  # noqa: E402

NAMES = b'names {"vars":["r.total"],"inputs":[[0,"r.a"]],"outputs":[]}\n'
# What is no reply to a line: of another kind, with a number that no reply has, or spelled as none is.
NO_REPLIES = {
    "event 0 5 0 0 3": (b"var 1 2", b"taken 0", b"taken 10000001", b"taken 1 2", b"none"),
    "var 0": (b"horizon 1 0 0", b"none 1", b"none", b"var 1 9223372036854775808", b"var 01 2", b"var 1 -0", b"var  1 2", b"taken 1"),
    "outputs": (b"released 1 1", b"outputs 1 -1"), "lost": (b"outputs 1 1",), "released": (b"released 1 18446744073709551616",),
    "output 0": (b"none", b"row 5 0 0 3", b"output 1 5 0 256 3", b"output 1 15625001 0 0 3", b"output 1 5 256 0 3"),
    "horizon": (b"lost 1 1", b"horizon 10000001 0 0"), "breach 0": (b"breach 1 2", b"board 1 0"), "collect": (b"taken 1",),
    "log 1": (b"none", b"log 1 event 64 5 0 0 3", b"log 1 announce 0 5 0 10000001 0", b"log 1 announce * 5 0 1", b"log 1 var 0", b"log 1", b"log 1 withdraw 0 5"),
    "board": (b"board 1000000000000000000 0", b"board 1048577 0", b"row 5 0 0 3"), "row 0": (b"none 1", b"output 1 5 0 0 3"),
    "counts 0": (b"counts 1 0 1 0 5", b"reached 1 0 5 0"), "reached 0": (b"reached 1 64 5 0",),
    "nonsense": (b"refused 0", b"refused x", b""),
}
LONG = (b"9" * 1_000_000, b"Infinity", b"board " + b"9" * 1_000_000 + b" 0")
DEEP, ENDLESS = b"[" * 100_000, b"a" * (warpd.LONGEST + 1)
# What is no list of names, by the key where it stands.
NO_NAMES = {
    "vars": ([1], ["r.total"] * 1_025), "outputs": ([[]], ["r.y"] * 257),
    "inputs": ([[0]], [["0", "r.a"]], [[64, "r.a"]], [[-1, "r.a"]], [[True, "r.a"]], [[0, "r.a"]] * 257),
    "arrays": ([["r.a", 0]], [["r.a", -1, 1]], [["r.a", 0, "1"]], [[1, 0, 1]], [["r.a", 0, 66_561]], [["r.a", 0, 1]] * 257),
    "hidden": (["r.a"], [-1], [True]), "origins": (65, -1, True),
}
NO_ORIGINS = (b"Infinity", b"-Infinity", b"NaN", b"1e999", b"0.0", b"-0", b"9" * 30_000)
# What is no step, by its key.
STEP = {"tag": [5, 0], "given": {}, "due": [], "changed": {}, "outputs": {}, "pending": 0}
NO_STEPS = {
    "tag": ([5], [5, 256], [-1, 0], "50"), "given": ({str(it): 0 for it in range(257)}, [], {"r.a": 0.5}),
    "due": ([{}], [{"target": 1, "value": 2}], {}), "changed": ({str(it): 0 for it in range(66_561)}, {"r.total": True}),
    "outputs": ({"r.y": None},), "pending": (257, "0", -1),
    "rollback": ({"from": [9, 0], "to": 5, "again": 1}, {"from": [9, 0], "to": None, "again": -1}, {"from": [9, 0], "again": 1}, 5, None),
}
NO_PUSHES = (
    b"log 1", b"released 1", b"vars x", b"step " + DEEP, b"step 5", b'step {"tag":5}', b"step " + ENDLESS, b"breach 1" + b" 0" * 65,
    b'step {"rollback":{"from":[NaN,0],"to":null,"again":Infinity}}', b"breach 1 64", b"horizon 1 0", b"vars 1" + b" 1" * 1_025,
    b"cells 1", b"cells 1 x", b"cells 1 0 x", b"cells 1 0" + b" 1" * 4_097,
    b"skipped -1", b"frozen 1", b"log 10000001 event 0 5 0 0 3", b"log 1 event 0 5 0 0", b"released 4294967296 5 0 0 3",
    b"vars 1 " + b"9" * 1_000_000,
)


def scripted(*replies):
    """The address of who takes one connection, and has these replies for the lines that come, whatever they are."""
    listener = socket.create_server(("127.0.0.1", free_port()))

    def serve():
        # A client that has closed hears no more.
        with suppress(OSError), listener, listener.accept()[0] as made, made.makefile("rb") as lines:
            for reply, _ in zip(replies, lines):
                made.sendall(reply)

    threading.Thread(target=serve, daemon=True).start()
    return listener.getsockname()


def dribbling(piece, *replies, pause=0.01):
    """The address of who takes one connection, has these replies for its first lines, and then says a piece again and again, with these
    seconds between, 400 times."""
    listener = socket.create_server(("127.0.0.1", free_port()))

    def serve():
        with suppress(OSError), listener, listener.accept()[0] as made, made.makefile("rb") as lines:
            for reply, _ in zip(replies, lines):
                made.sendall(reply)
            for _ in range(400):
                made.sendall(piece)
                time.sleep(pause)

    threading.Thread(target=serve, daemon=True).start()
    return listener.getsockname()


def raises(kind, call):
    try:
        call()
    except kind:
        return True
    return False


def ended(call):
    """What an exchange says that breaks off."""
    try:
        return f"it goes on: {call()}"
    except Ended as it:
        return str(it)


def refusal(call):
    try:
        call()
    except Refused as it:
        return it.number, it.line
    return None


def other_kinds():
    """A reply of another kind than the line asks for ends a client in words; so does one whose numbers no reply has."""
    for line, replies in NO_REPLIES.items():
        for reply in (*replies, *LONG):
            with Client(*scripted(reply + b"\n"), timeout=SECONDS) as it:
                told = ended(lambda: it.ask(line))
                assert told.startswith(f"no reply to {line!r}: {reply.decode()[:50]!r}"[:-1]) and len(told) < 300, told
                assert raises(Ended, lambda: it.ask(line)), "a client goes on behind it"


def told_to_be_there():
    """What a log or a board was told to have, and has not, ends what reads them; nothing is read without an end."""
    with Client(*scripted(b"horizon 10000000 0 0\n", b"none 10000000\n" * 256), timeout=SECONDS) as it:
        assert ended(lambda: [*it.records()]) == "no reply to 'log 1', which was told to be there"
        assert raises(Ended, it.length)
    for rows in (Client.rows, Client.released_rows):
        with Client(*scripted(b"board 1048576 0\n", b"none\n" * 256), timeout=SECONDS) as it:
            assert ended(lambda: [*rows(it)]) == "no reply to 'row 0', which was told to be there"
        with Client(*scripted(b"board 2 0\n", b"row 5 0 0 3\nrefused 8\n"), timeout=SECONDS) as it:
            assert refusal(lambda: [*rows(it)]) == (8, "row 1")


def late():
    """A call has its time as a whole, however the bytes come: one by one, as pushes in front of the reply, or not at all."""
    push, within = b"* horizon 1 0 0\n", "within 0.3 seconds"
    for call in (lambda it: it.var(0), lambda it: it.many(["var 0"] * 256), lambda it: it.say("var 0"), lambda it: [*it.records()]):
        with Client(*dribbling(b"1"), timeout=0.3) as it:
            assert within in (told := ended(lambda: call(it))) and told.startswith("no reply to "), told
            assert raises(Ended, lambda: it.var(0))
    with Client(*dribbling(b"breach 0 0\n", pause=0.1), timeout=0.3) as it:
        assert within in ended(it.shape)
    with Client(*dribbling(b""), timeout=0.3) as it:
        assert ended(lambda: it.say("a" * 50_000_000)) == f"the other side takes no line {within}"
    for piece in (b"n", push, b""):
        assert ended(lambda: HostClient(*dribbling(piece), timeout=0.3)) == f"no reply to 'names' {within}"
    assert ended(lambda: HostClient(*dribbling(b"m"), timeout=0.3, token="secret")) == f"no reply to 'token ..' {within}"
    with HostClient(*dribbling(push, NAMES), timeout=0.3) as it:
        assert ended(it.horizon) == f"no reply to 'horizon' {within}"


def late_pushes():
    """What a watch waits for has the time of a call once a line has begun; and what comes without an end is handed out."""
    watching, within = b"watching 1\n", "within 0.3 seconds"
    for call in (lambda it, pushes: next(pushes), lambda it, pushes: it.arrived("horizon", SECONDS)):
        with HostClient(*dribbling(b"*", NAMES, watching), timeout=0.3) as it:
            pushes = it.watch("horizon")
            assert ended(lambda: call(it, pushes)) == f"no reply to 'watch horizon' {within}"
            assert raises(Ended, it.horizon)
    with HostClient(*dribbling(b"* horizon 1 0 0\n" * 20_000, NAMES, watching), timeout=0.3) as it:
        it.watch("horizon")
        assert len(it.arrived("horizon", SECONDS)) > 0 and len(it.arrived("horizon", SECONDS)) > 0


def malformed():
    """What a host tells that is no name and no reply, or a line without an end, ends a client in words."""
    lists = {"vars": [], "inputs": [], "outputs": []}
    wrong = [json.dumps({**lists, key: it}).encode() for key, each in NO_NAMES.items() for it in (*each, {}, "r.a", None)]
    wrong += [b'{"vars":[],"inputs":[[%s,"r.a"]],"outputs":[]}' % it for it in NO_ORIGINS]
    for told in (b"5", b"[]", b"{", DEEP, b"\xff", *wrong, ENDLESS):
        said = ended(lambda: HostClient(*scripted(b"names " + told + b"\n"), timeout=SECONDS))
        assert said.startswith("no reply to 'names': ") and len(said) < 300, said
    calls = {"program": HostClient.program, "vars": HostClient.vars, "releases": HostClient.releases}
    for word, call in calls.items():
        kind = word.encode()
        own = (b"", b" 1 2 3 4", b" 1 2 2") if word != "vars" else (b"",)
        for told in (*(kind + it for it in (*own, b" x y z", b" 1" * 1_100)), b"taken 1", b"none 1", b"horizon 1 0 0"):
            with HostClient(*scripted(NAMES, told + b"\n"), timeout=SECONDS) as it:
                assert ended(lambda: call(it)).startswith(f"no reply to {word!r}: "), told
                assert raises(Ended, it.horizon), "a client goes on behind it"


def malformed_words():
    """So does what answers another word than the one that was said. A token is never told."""
    words = {
        "watch log 1": lambda it: it.watch("log"), "unwatch log": lambda it: it.unwatch("log"), "release 0": lambda it: it.release(0),
    }
    for line, call in words.items():
        for told in (b"taken 1\n", b"may *\n", b"output 1 5 0 0 3\n"):
            with HostClient(*scripted(NAMES, told), timeout=SECONDS) as it:
                assert ended(lambda: call(it)).startswith(f"no reply to {line!r}: ") and raises(Ended, it.horizon)
    assert ended(lambda: HostClient(*scripted(b"taken 1\n"), timeout=SECONDS, token="secret")) == "no reply to 'token ..': 'taken 1'"
    try:
        HostClient(*scripted(b"refused 13\n"), timeout=SECONDS, token="secret")
    except Refused as it:
        assert str(it) == "refused 13: this client may not send that: token .."
    else:
        raise AssertionError("a wrong token is taken")


def malformed_pushes():
    """So does a push that is none, or has more in it than a program has."""
    steps = [b"step " + json.dumps({**STEP, key: it}).encode() for key, each in NO_STEPS.items() for it in each]
    for told in (*NO_PUSHES, *steps):
        it = HostClient(*scripted(NAMES, b"* " + told + b"\n"), timeout=SECONDS)
        assert len(said := ended(it.horizon)) < 300 and said.startswith("no "), said


def pushes_by_name():
    """What is pushed stands where the documents call it, beside the other names of the module."""
    for name in ("Logged", "Released", "Frozen", "Variables", "Horizon", "Broken", "Step", "Due", "Rollback", "Skipped"):
        assert name in warpd.__all__ and getattr(warpd, name).__name__ == name
    assert all(hasattr(warpd, name) for name in warpd.__all__)
    pushed = [warpd.hosted._push_of(text) for text in ("skipped 7", 'step {"rollback":{"from":[9,0],"to":null,"again":2}}', "frozen")]
    assert pushed == [("steps", warpd.Skipped(7)), ("steps", warpd.Rollback(Tag(9), None, 2)), ("released", warpd.Frozen())]
    assert [type(it) for _, it in pushed] == [warpd.Skipped, warpd.Rollback, warpd.Frozen]


CASES = (other_kinds, told_to_be_there, late, late_pushes, malformed, malformed_words, malformed_pushes, pushes_by_name)
