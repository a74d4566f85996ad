"""Runs rows of `clients/editors/tests/*.rows` over a language server: the head of each file has their format."""

import re
import shutil
from pathlib import Path

MAIN = "game.lf"


def rows_of(path):
    """Each row: its name, its files, and what is asked with the lines that must come back."""
    rows = []
    for line in path.read_text().splitlines():
        if line.startswith("row "):
            rows.append((line[4:], {MAIN: []}, []))
            text = rows[-1][1][MAIN]
        elif line.startswith("+ "):
            text = rows[-1][1].setdefault(line[2:], [])
        elif line.startswith("|"):
            text.append(line[2:].replace("\\r", "\r"))
        elif line.startswith(">"):
            rows[-1][2].append((line[2:], []))
        elif line.startswith("<"):
            rows[-1][2][-1][1].append(line[2:])
    return rows


class Asker:
    """Asks what one row does, and gives the lines that come back."""

    def __init__(self, session, files):
        self.session, self.version = session, 1
        self.texts = {name: "".join(line + "\n" for line in lines) for name, lines in files.items()}
        for name, text in self.texts.items():
            Path(session.folder, name).parent.mkdir(exist_ok=True)
            Path(session.folder, name).write_text(text, newline="")
        session.open(MAIN, self.texts[MAIN])
        self.opened = [MAIN]

    def done(self):
        for name in self.opened:
            self.session.close(name)
        self.session.versions.clear()
        for path in self.session.folder.iterdir():
            if path.name != "errors":
                shutil.rmtree(path) if path.is_dir() else path.unlink()

    def lines(self, asked):
        word, _, rest = asked.partition(" ")
        return getattr(self, word.replace("-", "_"))(rest) or []

    # What is said of places.

    def place(self, text):
        line, column = text.split(":")
        return int(line), int(column)

    def shown(self, range_, uri=None):
        start, end = range_["start"], range_["end"]
        assert start["line"] == end["line"], range_
        name = uri and self.name(uri)
        place = f"{start['line'] + 1}:{start['character'] + 1}-{end['character'] + 1}"
        return f"{name} {place}" if name and name != MAIN else place

    def name(self, uri):
        return uri.removeprefix(self.session.folder.as_uri() + "/")

    def result(self, method, rest, **more):
        line, column = self.place(rest.split()[0])
        answer = self.session.at(method, MAIN, line, column, **more)
        if "error" in answer:
            assert answer["error"]["code"] == -32803, answer
            raise Refused(answer["error"]["message"])
        return answer["result"]

    # What is asked.

    def faults(self, name):
        name = name or MAIN
        uri = self.session.uri(name)
        if name == MAIN:
            found = self.session.settled(uri, self.version)
        else:
            # What is said of a file that is not open comes with what is said of the text that imports it.
            self.session.ask("textDocument/documentSymbol", {"textDocument": {"uri": self.session.uri(MAIN)}})
            found = self.session.faults.get(uri, [])
        kinds = {1: "error", 2: "warning", 3: "information"}
        assert all(it["source"] == "warpd" for it in found)
        texts = [it["message"].replace("\n", " / ") for it in found]
        return [f"{self.shown(it['range'])} {kinds[it['severity']]} {text}" for it, text in zip(found, texts)]

    def hover(self, rest):
        found = self.result("hover", rest)
        lines = found["contents"]["value"].splitlines() if found else []
        return [it for it in lines if it and not it.startswith("```")]

    def definition(self, rest):
        found = self.result("definition", rest)
        return [self.shown(found["range"], found["uri"])] if found else []

    def references(self, rest):
        found = self.result("references", rest, context={"includeDeclaration": True})
        return sorted((self.shown(it["range"], it["uri"]) for it in found), key=_in_order)

    def highlight(self, rest):
        return [self.shown(it["range"]) for it in self.result("documentHighlight", rest)]

    def can_rename(self, rest):
        try:
            found = self.result("prepareRename", rest)
        except Refused as refused:
            return [f"refused: {refused}"]
        return [f"{self.shown(found['range'])} {found['placeholder']}"]

    def rename(self, rest):
        try:
            found = self.result("rename", rest, newName=rest.split(" ")[1])
        except Refused as refused:
            return [f"refused: {refused}"]
        edits = [(uri, it) for uri, its in found["changes"].items() for it in its]
        return sorted((f"{self.shown(it['range'], uri)} {it['newText']}" for uri, it in edits), key=_in_order)

    def fixes(self, rest):
        line, column = self.place(rest)
        at = {"line": line - 1, "character": column - 1}
        uri = self.session.uri(MAIN)
        given = {"textDocument": {"uri": uri}, "range": {"start": at, "end": at}, "context": {"diagnostics": []}}
        found = self.session.ask("textDocument/codeAction", given)["result"]
        edits = [edit for it in found for edit in it["edit"]["changes"][uri]]
        return [f"{self.shown(it['range'])} {it['newText']}" for it in edits]

    def outline(self, _):
        answer = self.session.ask("textDocument/documentSymbol", {"textDocument": {"uri": self.session.uri(MAIN)}})
        lines = []

        def tell(symbols, indent):
            for it in symbols:
                inner, outer = it["selectionRange"], it["range"]
                assert _key(outer["start"]) <= _key(inner["start"]) <= _key(inner["end"]) <= _key(outer["end"]), it
                lines.append(f"{indent}{it['name']} {it.get('detail', '')}".rstrip())
                tell(it.get("children", ()), indent + "  ")

        tell(answer["result"], "")
        return lines

    def complete(self, rest):
        return self.complete_in(f"{MAIN} {rest}")

    def complete_in(self, rest):
        name, place, *words = (it.replace("+", " ") for it in rest.split(" "))
        answer = self.session.at("completion", name, *self.place(place))
        found = {it["label"] for it in answer["result"]["items"]}
        has = [it for it in words if not it.startswith("-")]
        wrong = [it for it in has if it not in found] + [it for it in words if it.startswith("-") and it[1:] in found]
        assert not wrong, f"{wrong} of {sorted(found)}"

    def change(self, rest):
        place, _, text = rest.partition(" ")
        line, start, end = re.fullmatch(r"(\d+):(\d+)-(\d+)", place).groups()
        ends = ({"line": int(line) - 1, "character": int(it) - 1} for it in (start, end))
        self.version += 1
        change = {"range": dict(zip(("start", "end"), ends)), "text": text.replace("\\n", "\n")}
        self.session.change(MAIN, [change], self.version)

    def open(self, name):
        self.session.open(name, self.texts[name])
        self.opened.append(name)
        self.session.settled(self.session.uri(name), 1)

    def close(self, name):
        self.opened.remove(name)
        self._again(lambda: self.session.close(name))

    def write(self, rest):
        name, _, text = rest.partition(" ")
        Path(self.session.folder, name).write_text(text + "\n")
        changes = [{"uri": self.session.uri(name), "type": 2}]
        self._again(lambda: self.session.note("workspace/didChangeWatchedFiles", {"changes": changes}))

    def _again(self, does):
        """Waits for what is said of the text again."""
        uri = self.session.uri(MAIN)
        self.session.settled(uri, self.version)
        del self.session.versions[uri]
        does()
        self.session.settled(uri, self.version)


class Refused(Exception):
    """The server has refused a request."""


def _key(place):
    return place["line"], place["character"]


def _in_order(line):
    file, place = line.split(" ")[0], line
    if ":" in file:
        file, place = "", line
    else:
        place = line.split(" ")[1]
    first, second = re.match(r"(\d+):(\d+)", place).groups()
    return file, int(first), int(second)


def run_row(session, files, asked):
    """Raises `AssertionError` where another answer comes than must."""
    asker = Asker(session, files)
    try:
        for request, wanted in asked:
            got = asker.lines(request)
            is_open = wanted[-1:] == [".."]
            wanted = wanted[:-1] if is_open else wanted
            seen = got[:len(wanted)] if is_open else got
            assert seen == wanted, f"> {request}\n" + "".join(f"< {line}\n" for line in got)
    finally:
        asker.done()
