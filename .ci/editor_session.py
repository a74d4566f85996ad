"""A session with the language server of programs' texts, as an editor has it: a process, and messages over its
streams."""

import json
import os
import select
import subprocess
import time
from pathlib import Path

SECONDS = 60


class Session:
    """A server that runs. `notes` has what it said by itself, of each text what is wrong with it in `faults`."""

    def __init__(self, command, folder, is_ready=True):
        self.folder = Path(folder)
        # Its errors go to a file, so that nobody waits for who reads them.
        self.said = open(self.folder / "errors", "w+b")
        self.process = subprocess.Popen(command, stdin=subprocess.PIPE, stdout=subprocess.PIPE, stderr=self.said)
        self.bytes, self.number, self.faults, self.versions = b"", 0, {}, {}
        if is_ready:
            folders = [{"uri": self.folder.as_uri(), "name": "texts"}]
            self.ask("initialize", {"capabilities": {}, "workspaceFolders": folders})
            self.note("initialized", {})

    def __enter__(self):
        return self

    def __exit__(self, *_):
        self.process.stdin.close()
        try:
            self.process.wait(SECONDS)
        finally:
            self.process.kill()
            self.process.wait()
            self.process.stdout.close()
            self.said.close()

    def errors(self):
        self.said.flush()
        return Path(self.folder, "errors").read_text()

    def raw(self, data):
        self.process.stdin.write(data)
        self.process.stdin.flush()

    def send(self, message):
        body = json.dumps({"jsonrpc": "2.0", **message}).encode()
        self.raw(b"Content-Length: %d\r\n\r\n" % len(body) + body)

    def note(self, method, given):
        self.send({"method": method, "params": given})

    def ask(self, method, given):
        """The answer to a request."""
        self.number += 1
        self.send({"id": self.number, "method": method, "params": given})
        while True:
            message = self.next()
            if message.get("id") == self.number and "method" not in message:
                return message

    def next(self):
        """The next message; what is wrong with a text is kept."""
        deadline = time.monotonic() + SECONDS
        while (message := self._whole()) is None:
            ready, _, _ = select.select([self.process.stdout], [], [], max(deadline - time.monotonic(), 0))
            piece = os.read(self.process.stdout.fileno(), 65_536) if ready else b""
            assert piece, f"the server says nothing more: {self.errors()}"
            self.bytes += piece
        assert message.get("jsonrpc") == "2.0", message
        if message.get("method") == "textDocument/publishDiagnostics":
            given = message["params"]
            self.faults[given["uri"]] = given["diagnostics"]
            self.versions[given["uri"]] = given.get("version")
        return message

    def _whole(self):
        head, found, rest = self.bytes.partition(b"\r\n\r\n")
        length = int(head.split(b":")[1]) if found else 0
        if not found or len(rest) < length:
            return None
        self.bytes = rest[length:]
        return json.loads(rest[:length])

    def settled(self, uri, version):
        """What is wrong with a text, when it was said of this version."""
        while self.versions.get(uri) != version:
            self.next()
        return self.faults[uri]

    # Texts.

    def uri(self, name):
        return Path(self.folder, name).as_uri()

    def open(self, name, text, version=1):
        uri = self.uri(name)
        document = {"uri": uri, "languageId": "warpd", "version": version, "text": text}
        self.note("textDocument/didOpen", {"textDocument": document})
        return uri

    def close(self, name):
        self.note("textDocument/didClose", {"textDocument": {"uri": self.uri(name)}})

    def change(self, name, changes, version):
        given = {"textDocument": {"uri": self.uri(name), "version": version}, "contentChanges": changes}
        self.note("textDocument/didChange", given)

    def at(self, method, name, line, column, **more):
        """The answer to what is asked of a place, which counts from 1."""
        place = {"line": line - 1, "character": column - 1}
        return self.ask(f"textDocument/{method}", {"textDocument": {"uri": self.uri(name)}, "position": place, **more})
