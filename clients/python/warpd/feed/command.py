"""`python3 -m warpd feed`."""

from __future__ import annotations

import argparse
import signal
import subprocess
import sys
from collections.abc import Sequence
from pathlib import Path
from typing import Optional
from urllib.parse import urlsplit, urlunsplit

from .. import spelled
from . import DEAD, Feed, State, Stopped, Unusable, opened

EPILOG = """URL is redis://HOST:PORT/NAME, or postgresql://USER@HOST:PORT/DATABASE/TABLE. NAME.dead has what no server takes,
with the reason.
It prints `ready HOST:PORT` when the host has what the stream had, and goes on until it is interrupted.
With a COMMAND behind `--` it starts this first, and ends it at its own end: one command for a replica that comes from
the stream alone.
Status 0: interrupted; 1: stopped, standard error says why; 2: wrong words; 4: a package is missing."""


def parser() -> argparse.ArgumentParser:
    it = argparse.ArgumentParser(
        "python3 -m warpd feed",
        "%(prog)s --server HOST:PORT --stream URL [--state FILE] [--token-file FILE] [-- COMMAND..]",
        "Keeps a host, or a server, and a stream of a log engine equal.", EPILOG,
        formatter_class=argparse.RawDescriptionHelpFormatter)
    it.add_argument("--server", required=True, metavar="HOST:PORT", type=address,
                    help="the host, or server, that is fed and followed")
    it.add_argument("--stream", required=True, metavar="URL", help="the stream that all feeds share")
    it.add_argument("--state", metavar="FILE", type=Path,
                    help="where the feed keeps how far it is; without it the stream is read from its start")
    it.add_argument("--token-file", metavar="FILE", type=Path,
                    help="a file with the token for a host that wants one; `warpd serve` knows none")
    return it


def address(text: str) -> tuple[str, int]:
    host, _, port = text.rpartition(":")
    if not host or not port.isdecimal() or not 0 < int(port) < 65_536:
        raise ValueError(text)
    return host, int(port)


def named(url: str) -> str:
    """The stream without a password."""
    it = urlsplit(url)
    return urlunsplit(it._replace(netloc=it.netloc.rpartition("@")[2]))


def tell(text: str) -> None:
    print(f"feed: {spelled(text)}", file=sys.stderr, flush=True)


class Child:
    """The server that the feed started. It is looked at in each turn."""

    def __init__(self, words: Sequence[str]):
        # What it prints goes to standard error: `ready` is said once, when it has what the stream has.
        self._process = subprocess.Popen(words, stdin=subprocess.DEVNULL, stdout=sys.stderr.fileno())

    def watch(self) -> None:
        status = self._process.poll()
        if status is not None:
            raise Stopped(f"the command ended with status {status}")

    def end(self) -> None:
        if self._process.poll() is None:
            self._process.terminate()
        self._process.wait()


def interrupt(*_: object) -> None:
    raise KeyboardInterrupt


def main(words: Sequence[str]) -> int:
    at = words.index("--") if "--" in words else len(words)
    mine, command = list(words[:at]), list(words[at + 1:])
    chosen = parser().parse_args(mine)
    name = "{}:{}".format(*chosen.server)
    try:
        streams = opened(chosen.stream), opened(chosen.stream, DEAD)
        token = chosen.token_file.read_text().strip() if chosen.token_file else None
    except (OSError, ValueError) as error:
        parser().error(str(error))
    signal.signal(signal.SIGTERM, interrupt)
    child: Optional[Child] = None
    feed: Optional[Feed] = None
    try:
        child = Child(command) if command else None
        state = State(chosen.state, name, named(chosen.stream), tell) if chosen.state else None
        feed = Feed(
            chosen.server, *streams, state=state, token=token, tell=tell,
            ready=lambda: print(f"ready {name}", flush=True), watch=child.watch if child else lambda: None)
        feed.run()
    except KeyboardInterrupt:
        return 0
    except Stopped as why:
        tell(str(why))
        return 1
    except Unusable as why:
        tell(f"the stream cannot be used: {why}")
        return 1
    finally:
        if feed:
            feed.close()
        if child:
            child.end()
