"""Answers an editor: reads its messages one after another, and says what is wrong with a text when nothing waits."""

from __future__ import annotations

import re
import sys
import traceback
from collections.abc import Callable
from pathlib import Path
from typing import Any, BinaryIO, Optional

from ..faults import Fault
from ..tables import grammar
from .asking import Asking, Spot
from .completing import Completing
from .documents import UTF_16, UTF_32, Document, Positions, path_of, place_of, plain
from .frames import INVALID_REQUEST, Frames, Malformed
from .renaming import Refused, Renaming
from .workspace import Workspace

METHOD_NOT_FOUND, INVALID_PARAMS, INTERNAL_ERROR = -32601, -32602, -32603
NOT_INITIALIZED, REQUEST_FAILED = -32002, -32803
SEVERITIES = {"error": 1, "warning": 2, "information": 3}
MOST_FAULTS = 200


class Failed(Exception):
    """A request cannot be answered: the code of the error, and what it says."""

    def __init__(self, code: int, text: str):
        super().__init__(text)
        self.code = code


def formatter() -> Optional[Callable[[str], str]]:
    """What formats a text, where it is there."""
    try:
        from ..formatting import format_text
    except ImportError:
        return None
    return format_text


class Server:
    """One session. `send` takes what is said to the editor."""

    def __init__(self, send: Callable[[dict], None]):
        self.send = send
        self.workspace = Workspace()
        self.asking, self.renaming = Asking(self.workspace), Renaming(self.workspace)
        self.completing = Completing(self.workspace)
        self.is_ready = self.is_shut = self.is_ended = self.can_watch = False
        # The texts of which it was not said yet what is wrong, and for which files that was said of each program.
        self.changed: dict[Path, None] = {}
        self.said: dict[Path, dict[Path, list[dict]]] = {}
        self.methods = {
            "initialize": self.initialize, "shutdown": self.shutdown, "textDocument/hover": self.hover,
            "textDocument/definition": self.definition, "textDocument/references": self.references,
            "textDocument/documentHighlight": self.highlight, "textDocument/documentSymbol": self.outline,
            "textDocument/prepareRename": self.prepare_rename, "textDocument/rename": self.rename,
            "textDocument/completion": self.completion, "textDocument/formatting": self.formatting,
            "textDocument/codeAction": self.fixes,
        }
        self.notes = {
            "initialized": self.watch_files,
            "textDocument/didOpen": self.opened, "textDocument/didChange": self.was_changed,
            "textDocument/didClose": self.closed, "textDocument/didSave": self.saved,
            "workspace/didChangeWatchedFiles": self.files_changed,
            "workspace/didChangeWorkspaceFolders": self.folders_changed,
        }

    # Messages.

    def take(self, message: Any) -> None:
        """Takes one message in, and answers it where it is a request."""
        if not isinstance(message, dict) or not isinstance(message.get("method"), str):
            if not isinstance(message, dict) or "result" not in message and "error" not in message:
                self.fail(None, Failed(INVALID_REQUEST, "a message is an object with a `method`"))
            return
        method, number, given = message["method"], message.get("id"), message.get("params")
        if method == "exit":
            self.is_ended = True
            return
        try:
            result = self._answer(method, {} if given is None else given, "id" in message)
            if "id" in message:
                self.send({"id": number, "result": result})
        except (Failed, Refused) as failed:
            code = failed.code if isinstance(failed, Failed) else REQUEST_FAILED
            self._told(number, "id" in message, Failed(code, str(failed)))
        except (KeyError, TypeError, ValueError, AttributeError, IndexError) as error:
            if not _is_of_message(error):
                traceback.print_exc(file=sys.stderr)
            self._told(number, "id" in message, Failed(INVALID_PARAMS, f"`{method}`: {type(error).__name__} {error}"))
        except Exception as error:
            traceback.print_exc(file=sys.stderr)
            self._told(number, "id" in message, Failed(INTERNAL_ERROR, f"`{method}`: {type(error).__name__} {error}"))

    def _answer(self, method: str, given: Any, is_request: bool) -> Any:
        if not is_request:
            if method in self.notes and self.is_ready and not self.is_shut:
                self.notes[method](given)
            return None
        if method not in self.methods:
            raise Failed(METHOD_NOT_FOUND, f"no method `{method}`")
        if self.is_shut:
            raise Failed(INVALID_REQUEST, "the server is shut down")
        if not self.is_ready and method != "initialize":
            raise Failed(NOT_INITIALIZED, "`initialize` comes first")
        return self.methods[method](given)

    def _told(self, number: Any, is_request: bool, failed: Failed) -> None:
        if is_request:
            self.fail(number, failed)

    def fail(self, number: Any, failed: Exception) -> None:
        self.send({"id": number, "error": {"code": failed.code, "message": str(failed)}})

    # The session.

    def initialize(self, given: dict) -> dict:
        if self.is_ready:
            raise Failed(INVALID_REQUEST, "`initialize` comes once")
        general = (given.get("capabilities") or {}).get("general") or {}
        files = ((given.get("capabilities") or {}).get("workspace") or {}).get("didChangeWatchedFiles") or {}
        self.can_watch = bool(files.get("dynamicRegistration"))
        encoding = UTF_32 if UTF_32 in (general.get("positionEncodings") or ()) else UTF_16
        self.workspace.positions = Positions(encoding)
        folders = [it["uri"] for it in given.get("workspaceFolders") or ()] or [given.get("rootUri")]
        self.workspace.folders = [path_of(it) for it in folders if isinstance(it, str) and it.startswith("file:")]
        self.is_ready = True
        abilities = {
            "positionEncoding": encoding,
            "textDocumentSync": {"openClose": True, "change": 2, "save": True},
            "hoverProvider": True, "definitionProvider": True, "referencesProvider": True,
            "documentHighlightProvider": True, "documentSymbolProvider": True,
            "renameProvider": {"prepareProvider": True},
            "codeActionProvider": {"codeActionKinds": ["quickfix"]},
            "completionProvider": {"triggerCharacters": [".", "(", ":"]},
            "workspace": {"workspaceFolders": {"supported": True, "changeNotifications": True}},
        }
        if formatter():
            abilities["documentFormattingProvider"] = True
        return {"capabilities": abilities, "serverInfo": {"name": "warpd-compile"}}

    def watch_files(self, _given: dict) -> None:
        """Asks the editor to say when a text changes that is not open, where it can."""
        if self.can_watch:
            watchers = {"id": "texts", "method": "workspace/didChangeWatchedFiles", "registerOptions": {
                "watchers": [{"globPattern": "**/*.lf"}]}}
            self.send({"id": "texts", "method": "client/registerCapability", "params": {"registrations": [watchers]}})

    def shutdown(self, _given: dict) -> None:
        self.is_shut = True

    def folders_changed(self, given: dict) -> None:
        event = given["event"]
        gone = [path_of(it["uri"]) for it in event["removed"]]
        folders = [it for it in self.workspace.folders if it not in gone]
        self.workspace.folders = folders + [path_of(it["uri"]) for it in event["added"]]

    # Texts.

    def opened(self, given: dict) -> None:
        it = given["textDocument"]
        uri, text = it["uri"], plain(it["text"])
        document = Document(uri, path_of(uri), it.get("version", 0), text, self.workspace.positions)
        self.workspace.open[uri] = document
        self.workspace.forget(document.path)
        self._touch(document.path)

    def was_changed(self, given: dict) -> None:
        it = given["textDocument"]
        document = self._document(given)
        document.change(given["contentChanges"], it.get("version") or 0)
        self._touch(document.path)

    def saved(self, given: dict) -> None:
        self._touch(self._document(given).path)

    def closed(self, given: dict) -> None:
        document = self._document(given)
        del self.workspace.open[document.uri]
        self.workspace.forget(document.path)
        self._touch(document.path)
        self.changed.pop(document.path, None)
        self._say(document.path, {}, document.uri)

    def files_changed(self, given: dict) -> None:
        for it in given["changes"]:
            self._touch(path_of(it["uri"]))

    def _document(self, given: dict) -> Document:
        uri = given["textDocument"]["uri"]
        if uri not in self.workspace.open:
            raise Failed(INVALID_PARAMS, f"{uri} is not open")
        return self.workspace.open[uri]

    def _touch(self, path: Path) -> None:
        """A text has changed: of it, and of those that import it, it is to be said what is wrong."""
        for it in self.workspace.open.values():
            found = self.workspace.found.get(it.path)
            if it.path == path or found and path in found.texts:
                self.changed[it.path] = None

    def settle(self) -> None:
        """Says what is wrong with each text that has changed."""
        for path in list(self.changed):
            del self.changed[path]
            found = self.workspace.compile(path)
            if not any(it.kind == "error" for it in found.faults.get(path, ())):
                self.completing.keep(path)
            self._say(path, {it: self._diagnostics(it, faults) for it, faults in found.faults.items()}, "")

    def _say(self, main: Path, told: dict[Path, list[dict]], uri: str) -> None:
        """What is wrong with each file, of which several programs may have something to say."""
        before = self.said.get(main, {})
        self.said[main] = told
        for path in dict.fromkeys((main, *told, *before)):
            every = [it for one in self.said.values() for it in one.get(path, ())]
            unique = [it for number, it in enumerate(every) if it not in every[:number]]
            document = self.workspace.document(path)
            where = document.uri if document else uri or self.workspace.uri(path)
            note = {"uri": where, "diagnostics": unique[:MOST_FAULTS]}
            if document:
                note["version"] = document.version
            self.send({"method": "textDocument/publishDiagnostics", "params": note})

    def _diagnostics(self, path: Path, faults: list[Fault]) -> list[dict]:
        lines = (self.workspace.text(path) or "").split("\n")
        return [{
            "range": self.workspace.positions.range(lines, it.at), "severity": SEVERITIES[it.kind], "source": "warpd",
            "message": it.text + (f"\n{it.hint}" if it.hint else ""),
        } for it in faults]

    # Requests.

    def _at(self, given: dict) -> tuple[Path, int, int]:
        document = self._document(given)
        return document.path, *document.column(place_of(given["position"]))

    def _location(self, spot: Spot) -> dict:
        return {"uri": self.workspace.uri(spot.path), "range": self._range(spot)}

    def _range(self, spot: Spot) -> dict:
        return self.workspace.positions.range(spot.names.lines, spot.at)

    def hover(self, given: dict) -> Optional[dict]:
        path, line, column = self._at(given)
        found = self.asking.hover(path, line, column)
        if found is None:
            return None
        text, at = found
        lines = self.workspace.names(path).lines
        return {"contents": {"kind": "markdown", "value": text}, "range": self.workspace.positions.range(lines, at)}

    def definition(self, given: dict) -> Optional[dict]:
        found = self.asking.declared(*self._at(given))
        return found and self._location(found)

    def references(self, given: dict) -> Optional[list[dict]]:
        symbol, uses = self.asking.uses(*self._at(given))
        wanted = (given.get("context") or {}).get("includeDeclaration", True)
        return [self._location(spot) for spot, is_declared in uses if wanted or not is_declared] if symbol else None

    def highlight(self, given: dict) -> Optional[list[dict]]:
        return [{"range": self._range(it)} for it in self.asking.uses_here(*self._at(given))]

    def outline(self, given: dict) -> list[dict]:
        return self.asking.outline(self._document(given).path)

    def prepare_rename(self, given: dict) -> dict:
        spot = self.renaming.can_be(*self._at(given))
        line, column, width = spot.at
        name = spot.names.lines[line - 1][column - 1:column - 1 + width]
        return {"range": self._range(spot), "placeholder": name.strip("`")}

    def rename(self, given: dict) -> dict:
        if not isinstance(given["newName"], str):
            raise Failed(INVALID_PARAMS, "`newName` is a text")
        edits = self.renaming.edits(*self._at(given), given["newName"])
        return {"changes": {
            self.workspace.uri(path): [{"range": self._range(spot), "newText": new} for spot, new in its]
            for path, its in edits.items()
        }}

    def fixes(self, given: dict) -> list[dict]:
        """What was meant, for each name in this range of which a hint says that."""
        document, wanted = self._document(given), given["range"]
        self.settle()
        told = [it for one in self.said.values() for it in one.get(document.path, ()) if _meet(it["range"], wanted)]
        found = {}
        for it in told:
            meant = re.search(r"^did you mean `(.*)`\?$", it["message"], re.MULTILINE)
            if meant:
                edit = {"range": it["range"], "newText": meant[1]}
                found[str(edit)] = {
                    "title": f"write `{meant[1]}`", "kind": "quickfix", "diagnostics": [it],
                    "edit": {"changes": {document.uri: [edit]}}}
        return list(found.values())

    def completion(self, given: dict) -> dict:
        return {"isIncomplete": False, "items": self.completing.proposals(*self._at(given))}

    def formatting(self, given: dict) -> Optional[list[dict]]:
        made, document = formatter(), self._document(given)
        if made is None:
            raise Failed(METHOD_NOT_FOUND, "there is no formatter")
        try:
            new = made(document.text)
        except Exception as error:
            raise Failed(REQUEST_FAILED, f"the text cannot be read, and stays as it is: {error}") from error
        lines = document.text.split("\n")
        whole = {"start": {"line": 0, "character": 0}, "end": {
            "line": len(lines) - 1, "character": self.workspace.positions.units(lines[-1])}}
        return [{"range": whole, "newText": new}] if new != document.text else []


def _meet(one: dict, other: dict) -> bool:
    """Whether two ranges have a place in common, or touch."""
    (start, end), (first, last) = (
        [(it[side]["line"], it[side]["character"]) for side in ("start", "end")] for it in (one, other))
    return start <= last and first <= end


def _is_of_message(error: BaseException) -> bool:
    """Whether an error is of what a message has, and not of the server."""
    frame = error.__traceback__
    while frame.tb_next:
        frame = frame.tb_next
    return Path(frame.tb_frame.f_code.co_filename).name in ("serving.py", "documents.py")


def serve(source: BinaryIO, target: BinaryIO) -> int:
    """Answers until the editor says `exit`, or its stream ends. The status is 0 where it has said `shutdown` before."""
    grammar()
    frames = Frames(source, target)
    server = Server(frames.write)
    try:
        while not server.is_ended:
            if server.changed and not frames.is_waiting():
                server.settle()
            try:
                server.take(frames.read())
            except Malformed as malformed:
                server.fail(None, malformed)
    except (EOFError, BrokenPipeError, KeyboardInterrupt):
        pass
    return 0 if server.is_shut else 1
