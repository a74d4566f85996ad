"""Tries a language server that runs in this process: over all texts of the repository, over spoilt texts, over drawn
edits, over what is no message, and over a long text, whose cost is counted."""

import json
import re
import subprocess
import sys
import types
from pathlib import Path

from editor_session import Session
from warpd.language import compiled, read
from warpd.language.server import Server
from warpd.language.server.names import Names
from warpd.language.server.renaming import shape
from warpd.language.server.resolving import KNOWN, Program

SECONDS, FAILED = 60, -32803
# The calls of functions for a line of a long text, at most: to say what is wrong after a change, and for a request.
MOST_TO_COMPILE, MOST_TO_ANSWER = 700, 250
NEW, MOST_RENAMED = "other_name_9", 25
ASKED = ("hover", "definition", "references", "completion", "documentHighlight")


class Near:
    """A server without a process."""

    def __init__(self, folder=None):
        self.sent, self.number = [], 0
        self.server = Server(self.sent.append)
        folders = [{"uri": Path(folder).as_uri()}] if folder else []
        self.ask("initialize", {"capabilities": {}, "workspaceFolders": folders})

    def ask(self, method, given):
        self.number += 1
        self.server.take({"id": self.number, "method": method, "params": given})
        return self.sent[-1]

    def note(self, method, given):
        self.server.take({"method": method, "params": given})

    def open(self, path, text):
        self.note("textDocument/didOpen", {"textDocument": {"uri": path.as_uri(), "version": 1, "text": text}})
        self.server.settle()

    def at(self, method, path, at, **more):
        place = {"line": at[0] - 1, "character": at[1] - 1}
        return self.ask(f"textDocument/{method}", {"textDocument": {"uri": path.as_uri()}, "position": place, **more})


def loaded(path):
    return Names(path.read_text()) if path.exists() else None


def names_are_found(path):
    """Each name of a text that can be compiled means something."""
    program = Program(path, loaded)
    for file, names in program.files.items():
        for use in names.uses:
            is_found = program.symbol(use) or use.text in KNOWN.get(use.role, ())
            assert is_found, f"{file}:{use.at}: `{use.text}` is not found"
    return sum(len(names.uses) for names in program.files.values())


def renamed(path, dice):
    """Things of a text get another name, all or as many as are drawn: it is compiled to the same program, but for
    names."""
    near, text = Near(path.parent), path.read_text()
    near.open(path, text)
    before, names = compiled(text, path.name, path.parent).program, Names(text)
    assert before, path
    for symbol in dice.sample(names.symbols, min(MOST_RENAMED, len(names.symbols))):
        answer = near.at("rename", path, symbol.at, newName=NEW)
        if symbol.name == "bank_index" and symbol.kind == "parameter":
            assert answer["error"]["code"] == FAILED, answer
            continue
        assert "result" in answer, f"{path.name}:{symbol.at}: `{symbol.name}`: {answer['error']['message']}"
        changes = answer["result"]["changes"]
        assert path.as_uri() in changes, answer
        texts = {}
        for uri, edits in changes.items():
            file = Path(uri.removeprefix("file://"))
            texts[file] = written(file.read_text(), edits)
            assert NEW in texts[file]
        program, report, _ = read(texts[path], path.name, path.parent, lambda file: texts.get(file) or file.read_text())
        assert not report.errors and shape(program.file()) == shape(before), f"`{symbol.name}` of {path.name}\n{report}"


def written(text, edits):
    """A text with edits of the protocol; all of its letters take one code unit."""
    lines = text.split("\n")
    for it in sorted(edits, key=lambda it: (*it["range"]["start"].values(),), reverse=True):
        start, end = it["range"]["start"], it["range"]["end"]
        line = lines[start["line"]]
        assert start["line"] == end["line"]
        lines[start["line"]] = line[:start["character"]] + it["newText"] + line[end["character"]:]
    return "\n".join(lines)


def taken_names_are_refused(path):
    """A name that another member of the reactor has is refused, for each pair of members of each reactor."""
    near, text = Near(), path.read_text()
    near.open(path, text)
    count = 0
    for reactor in (it for it in Names(text).outline if it.kind == "reactor"):
        members = list(reactor.members.values())
        for one, other in zip(members, members[1:]):
            answer = near.at("rename", path, one.at, newName=other.name)
            is_refused = answer.get("error", {}).get("code") == FAILED
            assert is_refused, f"`{one.name}` of {path.name} is made `{other.name}`: {answer}"
            assert re.search("is taken|is a word of|in a bank by its name", answer["error"]["message"]), answer
            count += 1
    return count


def spoilt(spoiler, dice, count):
    """Of spoilt texts each request is answered, and what was refused says why."""
    near, path, answered = Near(), Path("/nowhere/game.lf"), 0
    near.open(path, "")
    for number in range(count):
        text = spoiler.spoilt(dice)
        change = {"textDocument": {"uri": path.as_uri(), "version": number + 2}, "contentChanges": [{"text": text}]}
        near.note("textDocument/didChange", change)
        near.server.settle()
        lines = text.split("\n")
        for method in (*ASKED, "prepareRename", "rename"):
            more = {"newName": "some_name"} if method == "rename" else {}
            line = dice.randrange(len(lines))
            answer = near.at(method, path, (line + 1, dice.randint(0, len(lines[line])) + 1), **more)
            assert "result" in answer or answer["error"]["code"] == FAILED, f"{method}: {answer}\n{text}"
            answered += bool(answer.get("result"))
        answer = near.ask("textDocument/documentSymbol", {"textDocument": {"uri": path.as_uri()}})
        assert "result" in answer, f"{answer}\n{text}"
    assert answered > count, f"only {answered} requests have an answer"


def impossible_paths():
    """An import by what can be no file's name is a fault of the text, and requests are answered behind it."""
    for name in ("a\0b.lf", "a/" * 3_000 + "b.lf", "\ud800.lf"):
        near, path = Near(), Path("/nowhere/game.lf")
        near.open(path, f'import A from "{name}"\nmain reactor {{ a = new A(); }}\n')
        told = [it["params"] for it in near.sent if it.get("method") == "textDocument/publishDiagnostics"]
        assert told and told[-1]["diagnostics"], f"{name!r} is no fault: {near.sent}"
        for method in ASKED:
            answer = near.at(method, path, (2, 24))
            assert "result" in answer, f"{method}: {answer}"


# Texts that have something many times.
MANY = {
    "blocks": ("main reactor { reaction(startup) {= ", "{ let x = x; ", "=} }"),
    "dots": ("main reactor { reaction(startup) {= a", ".a", " = 1; =} }"),
    "brackets": ("main reactor { state a: int = ", "(a[", " }"),
    "loops": ("main reactor { reaction(startup) {= ", "for (let i = i; ", "=} }"),
    "reactors": ("", "reactor A extends A, B { state x: int = y } ", ""), "bodies": ("main reactor { ", "{= x ", ""),
    "imports": ("", 'import A as B from "a.lf" ', ""), "tests": ('test "a" ', "{ a.b = ", "}"),
}


def many(part, folder):
    """Four times the text costs four times as much to find its names and what they mean."""
    begins, each, ends = MANY[part]

    def costs(count):
        def find():
            path = Path(folder, "game.lf")
            program = Program(path, lambda it: Names(begins + each * count + ends) if it == path else None)
            for use in program.files[path].uses:
                program.symbol(use)

        return calls(find)

    short, long = costs(500), costs(2_000)
    assert long < 6 * short, f"{short} calls, and {long} for four times as much"


def edits(dice, count):
    """Drawn edits, several at once, leave the text that the editor has: lines end in several ways, and some letters
    take two code units."""
    near, path = Near(), Path("/nowhere/game.lf")
    letters = ["a", "é", "𝒜", "🙂", "\n", "\r\n", " "]
    near.open(path, "")
    lines = [[]]
    for number in range(count):
        changes = []
        for _ in range(dice.randint(1, 3)):
            start, end = sorted(drawn_place(dice, lines) for _ in range(2))
            new = "".join(dice.choices(letters, k=dice.randint(0, 6)))
            changes.append({"range": {"start": placed(lines, start), "end": placed(lines, end)}, "text": new})
            lines = edited(lines, start, end, new)
        near.note("textDocument/didChange", {
            "textDocument": {"uri": path.as_uri(), "version": number + 2}, "contentChanges": changes})
        got = near.server.workspace.open[path.as_uri()].text.replace("\r\n", "\n")
        assert got == "\n".join(map("".join, lines)), f"after {changes}\n{got!r}"


def drawn_place(dice, lines):
    line = dice.randrange(len(lines))
    return line, dice.randint(0, len(lines[line]))


def edited(lines, start, end, new):
    """Lines of letters with a text in the place of what is between two places."""
    before, behind = lines[start[0]][:start[1]], lines[end[0]][end[1]:]
    middle = [list(it) for it in new.replace("\r\n", "\n").split("\n")]
    middle[0] = before + middle[0]
    middle[-1] = middle[-1] + behind
    return lines[:start[0]] + middle + lines[end[0] + 1:]


def placed(lines, place):
    """A place in code units: some letters take two."""
    return {"line": place[0], "character": sum(1 + (it > "\uffff") for it in lines[place[0]][:place[1]])}


def formats():
    """A text is formatted by what formats texts, which stands in here; one that it cannot read stays as it is."""
    def format_text(text):
        if "{" not in text:
            raise ValueError("line 1: it has no brace")
        return text.replace("  ", " ")

    name = "warpd.language.formatting"
    before = sys.modules.get(name)
    sys.modules[name] = types.SimpleNamespace(format_text=format_text)
    try:
        near, path = Near(), Path("/nowhere/game.lf")
        assert near.sent[0]["result"]["capabilities"]["documentFormattingProvider"] is True
        document = {"textDocument": {"uri": path.as_uri()}, "options": {"tabSize": 2, "insertSpaces": True}}
        for text, wanted in (("target  warpd {}\n🙂  end", "target warpd {}\n🙂 end"), ("target warpd {}", None)):
            near.open(path, text)
            edits = near.ask("textDocument/formatting", document)["result"]
            assert [it["newText"] for it in edits] == [wanted] * bool(wanted), edits
            assert not wanted or edits[0]["range"]["end"] == {"line": 1, "character": 7}, edits
        near.open(path, "target")
        answer = near.ask("textDocument/formatting", document)
        assert answer["error"]["code"] == FAILED and "it has no brace" in answer["error"]["message"], answer
    finally:
        del sys.modules[name]
        if before:
            sys.modules[name] = before


def watches_files():
    """An editor that can watch files is asked to, and another is not."""
    for can in (True, False):
        sent = []
        server = Server(sent.append)
        abilities = {"workspace": {"didChangeWatchedFiles": {"dynamicRegistration": can}}}
        server.take({"id": 1, "method": "initialize", "params": {"capabilities": abilities}})
        server.take({"method": "initialized", "params": {}})
        asked = [it["params"]["registrations"][0] for it in sent if it.get("method") == "client/registerCapability"]
        assert len(asked) == can, sent
        assert not can or asked[0]["registerOptions"] == {"watchers": [{"globPattern": "**/*.lf"}]}, asked
        server.take({"id": "texts", "result": None})
        assert len(sent) == 1 + can, sent


def cost(text):
    """What a long text costs is counted."""
    near, path = Near(), Path("/nowhere/long.lf")
    near.open(path, text)
    lines = text.split("\n")
    size = len(lines)
    version = [1]

    def changed():
        version[0] += 1
        place = {"line": 0, "character": len(lines[0])}
        near.note("textDocument/didChange", {
            "textDocument": {"uri": path.as_uri(), "version": version[0]},
            "contentChanges": [{"range": {"start": place, "end": place}, "text": " "}]})

    changed()
    told = calls(near.server.settle)
    assert told < MOST_TO_COMPILE * size, f"{told} calls to compile {size} lines"
    number = next(number for number, line in enumerate(lines) if number > size // 2 and "most = max" in line)
    at = (number + 1, lines[number].index("most") + 2)
    for method in ASKED:
        changed()
        told = calls(lambda method=method: near.at(method, path, at))
        assert near.sent[-1].get("result"), near.sent[-1]
        assert told < MOST_TO_ANSWER * size, f"{told} calls for {method} in {size} lines"


def calls(does):
    count = 0

    def called(_frame, event, _given):
        nonlocal count
        count += event in ("call", "c_call")

    sys.setprofile(called)
    try:
        does()
    finally:
        sys.setprofile(None)
    return count


# What is no message.


def framed(message):
    body = message if isinstance(message, bytes) else json.dumps(message).encode()
    return b"Content-Length: %d\r\n\r\n%b" % (len(body), body)


def asked(uri, line):
    place = {"line": line, "character": 0}
    return {"id": 9, "method": "textDocument/hover", "params": {"textDocument": {"uri": uri}, "position": place}}


def bad_messages(uri):
    """What is sent, with the codes of the errors that must come back."""
    return {
        "no JSON": (framed(b"{{{{{"), [-32700]),
        "no text": (framed(b"\xff\xfe\xff"), [-32700]),
        "deep brackets": (framed(b"[" * 200_000), [-32700]),
        "a list": (framed([]), [-32600]),
        "a number": (framed(42), [-32600]),
        "no method": (framed({}), [-32600]),
        "a method that is a number": (framed({"id": 1, "method": 1}), [-32600]),
        "no length": (b"Content-Type: text\r\n\r\n", [-32600]),
        "a length of words": (b"Content-Length: many\r\n\r\n", [-32600]),
        "a negative length": (b"Content-Length: -5\r\n\r\n", [-32600]),
        "a header that never ends": (b"x" * 10_000 + framed({}), [-32600]),
        "an unknown method": (framed({"id": 9, "method": "nobody/knows"}), [-32601]),
        "initialize again": (framed({"id": 9, "method": "initialize", "params": {}}), [-32600]),
        "parameters that are a number": (framed({"id": 9, "method": "textDocument/hover", "params": 5}), [-32602]),
        "no parameters": (framed({"id": 9, "method": "textDocument/rename"}), [-32602]),
        "a text that is not open": (framed(asked("file:///nowhere", 0)), [-32602]),
        "a place before the text": (framed(asked(uri, -1)), [-32602]),
        "a place of words": (framed(asked(uri, "first")), [-32602]),
    }


def malformed(folder, command):
    """Each of these is answered with its errors, and the session goes on."""
    with Session(command, folder) as session:
        uri = session.open("game.lf", "target warpd { stop: 9 }\n")
        session.settled(uri, 1)
        for name, (data, codes) in bad_messages(uri).items():
            session.raw(data)
            got = [session.next().get("error", {}).get("code") for _ in codes]
            assert got == codes, f"{name}: {got}"
        session.send({"method": "nobody/knows"})
        session.send({"method": "textDocument/didChange", "params": []})
        session.send({"id": 3, "result": None})
        found = session.at("hover", "game.lf", 1, 2)["result"]
        assert "first line" in found["contents"]["value"], found
        assert "Traceback" not in session.errors(), session.errors()


def endings(folder, command):
    """How a session ends: with its input, by `exit`, in the midst of a message; and before `initialize`."""
    hello = framed({"id": 1, "method": "initialize", "params": {"capabilities": {}}})
    shut, leave = framed({"id": 2, "method": "shutdown"}), framed({"method": "exit"})
    for data, status, answers in (
        (b"", 1, 0), (hello, 1, 1), (hello + leave, 1, 1), (hello + shut, 0, 2), (hello + shut + leave + hello, 0, 2),
        (hello[:-3], 1, 0), (hello + b"Content-Length: 99\r\n\r\n{", 1, 1), (hello + shut + hello, 0, 3), (shut, 1, 1),
    ):
        ran = subprocess.run(command, input=data, capture_output=True, timeout=SECONDS, check=False, cwd=folder)
        assert ran.returncode == status and ran.stdout.count(b"Content-Length") == answers, f"{data}: {ran}"
        assert b"Traceback" not in ran.stderr, ran.stderr
    said = subprocess.run(command, input=shut, capture_output=True, timeout=SECONDS, check=False).stdout
    assert b"-32002" in said, said

