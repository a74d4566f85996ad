"""Headless Firefox by WebDriver BiDi, which it speaks itself: for `.ci/tab`. It is ended by its own word."""

import asyncio
import json
import os
import re
import shutil
import subprocess
import tempfile
import threading
from contextlib import suppress

try:
    import websockets
except ImportError:
    websockets = None

from loopback import Wrong, holds

SECONDS = 60
# An answer has so many bytes at most.
MOST_BYTES = 1 << 27


def missing():
    """What is not installed of what it needs."""
    return [] if shutil.which("firefox-esr") else ["firefox-esr"]


class Firefox:
    """A Firefox with a profile of its own, and what is done in its one tab."""

    def __init__(self):
        self.folder = tempfile.TemporaryDirectory(prefix="warpd-firefox-")
        words = ["firefox-esr", "--headless", "--no-remote", "--profile", self.folder.name, "--remote-debugging-port", "0"]
        env = {**os.environ, "HOME": self.folder.name, "MOZ_HEADLESS": "1"}
        self.process = subprocess.Popen(words, stdout=subprocess.DEVNULL, stderr=subprocess.PIPE, text=True, env=env)
        self.loop = asyncio.new_event_loop()
        self.count, self.errors, self.socket = 0, [], None
        try:
            self.socket = self.loop.run_until_complete(asyncio.wait_for(self.connect(self.address()), SECONDS))
            self.ask("session.new", capabilities={})
            self.ask("session.subscribe", events=["log.entryAdded"])
            self.tab = self.ask("browsingContext.getTree")["contexts"][0]["context"]
        except BaseException:
            self.end()
            raise

    def address(self):
        """Where it listens, as it says itself."""
        timer = threading.Timer(SECONDS, self.process.kill)
        timer.start()
        try:
            found = next((it for line in self.process.stderr if (it := re.search(r"WebDriver BiDi listening on (ws://\S+)", line))), None)
        finally:
            timer.cancel()
        holds(found, "Firefox does not listen")
        # What it says further is read, so that nothing holds it up.
        threading.Thread(target=self.process.stderr.read, daemon=True).start()
        return found[1]

    async def connect(self, address):
        return await websockets.connect(f"{address}/session", max_size=MOST_BYTES, ping_interval=None)

    async def talk(self, question):
        await self.socket.send(json.dumps(question))
        while True:
            said = json.loads(await self.socket.recv())
            if said.get("method") == "log.entryAdded" and said["params"]["level"] in ("warn", "error"):
                self.errors.append(said["params"]["text"])
            if said.get("id") == question["id"]:
                return said

    def ask(self, method, seconds=SECONDS, **params):
        """What it answers."""
        self.count += 1
        question = {"id": self.count, "method": method, "params": params}
        try:
            said = self.loop.run_until_complete(asyncio.wait_for(self.talk(question), seconds))
        except (asyncio.TimeoutError, websockets.WebSocketException) as error:
            raise Wrong(f"{method}: {error!r}") from error
        holds(said["type"] == "success", f"{method}: {said.get('message')}")
        return said["result"]

    def open(self, address):
        self.ask("browsingContext.navigate", context=self.tab, url=address, wait="complete")

    def run(self, code, *words, seconds=SECONDS):
        """What this function gives in the page, which may be a promise; words and value are JSON."""
        text = f"async (...words) => JSON.stringify(await ({code})(...words.map(it => JSON.parse(it)))) ?? 'null'"
        words = [{"type": "string", "value": json.dumps(it)} for it in words]
        said = self.ask("script.callFunction", seconds, functionDeclaration=text, arguments=words, target={"context": self.tab}, awaitPromise=True)
        holds(said["type"] == "success", f"in the page: {said.get('exceptionDetails', {}).get('text')}")
        return json.loads(said["result"]["value"])

    def called(self, name, *words, seconds=SECONDS):
        """What a function of the page gives."""
        return self.run("(name, ...words) => window[name](...words)", name, *words, seconds=seconds)

    def close(self):
        try:
            self.ask("browser.close")
            self.process.wait(SECONDS)
        finally:
            self.end()

    def end(self):
        with suppress(Exception):
            self.loop.run_until_complete(asyncio.wait_for(self.socket.close(), SECONDS))
        if self.process.poll() is None:
            self.process.kill()
            self.process.wait()
        self.loop.close()
        self.folder.cleanup()
