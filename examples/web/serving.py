"""What the starters of the games beside this file share: the host, the pages' files, and a link that brings all late."""

import argparse
import itertools
import json
import queue
import signal
import socket
import subprocess
import sys
import tempfile
import threading
import time
from contextlib import contextmanager, suppress
from functools import partial
from http.server import SimpleHTTPRequestHandler, ThreadingHTTPServer
from pathlib import Path

ROOT = Path(__file__).resolve().parents[2]
sys.dont_write_bytecode = True
sys.path.insert(0, str(ROOT / "clients" / "python"))
from warpd import Announcer, Client, Ended  # noqa: E402

ENGINE = ROOT / "out" / "engine.wasm"
ANNOUNCE_EVERY = 8


class Game:
    """What all pages have to know, and with what it was started."""

    def __init__(self, words):
        self.words, self.host, self.link = words, None, None
        self.delay, self.tick, self.ticks = words.delay, words.tick, words.ticks

    def program(self, file, folder):
        """The program's file; a game may have another one in this folder."""
        return file

    def host_words(self):
        """What the host is told beside where it listens."""
        return []

    def begins(self, start):
        """Starts the host, at once or when its players are there."""
        start()

    def told(self):
        return {"host": self.host, "link": self.link, "tick": self.tick, "ticks": self.ticks}


class Link:
    """Hands connections on to an address: what passes waits for half of the delay of the game, each way."""

    def __init__(self, target, game):
        self.listener, self.target, self.game = socket.create_server(("127.0.0.1", 0)), target, game
        self.address = f"127.0.0.1:{self.listener.getsockname()[1]}"
        threading.Thread(target=self.accept, daemon=True).start()

    def accept(self):
        while True:
            near, _ = self.listener.accept()
            try:
                far = socket.create_connection(self.target)
            except OSError:
                near.close()
                continue
            for source, sink in ((near, far), (far, near)):
                source.setsockopt(socket.IPPROTO_TCP, socket.TCP_NODELAY, 1)
                waiting = queue.Queue()
                threading.Thread(target=self.take, args=(source, waiting), daemon=True).start()
                threading.Thread(target=self.give, args=(waiting, sink), daemon=True).start()

    def take(self, source, waiting):
        data = b"first"
        while data:
            try:
                data = source.recv(65_536)
            except OSError:
                data = b""
            waiting.put((time.monotonic() + self.game.delay / 2_000, data))

    def give(self, waiting, sink):
        try:
            while True:
                due, data = waiting.get()
                time.sleep(max(0, due - time.monotonic()))
                if not data:
                    break
                sink.sendall(data)
            sink.shutdown(socket.SHUT_WR)
        except OSError:
            sink.close()


class Pages(SimpleHTTPRequestHandler):
    """The pages' files, and what they ask of the game: by `told()`, and by `heard(path, text)`, which is None where it makes no sense."""

    game = engine = program = None
    extensions_map = {**SimpleHTTPRequestHandler.extensions_map, ".js": "text/javascript", ".wasm": "application/wasm"}

    def translate_path(self, path):
        """What is not beside the starter stands elsewhere in the repository."""
        elsewhere = {"/engine.wasm": self.engine, f"/{self.program.name}": self.program}
        elsewhere |= {f"/{it.name}": it for it in (ROOT / "clients" / "js").glob("*.js")}
        return str(elsewhere.get(path.partition("?")[0]) or super().translate_path(path))

    def do_GET(self):
        if self.path == "/game":
            return self.answer(self.game.told())
        return super().do_GET()

    def do_POST(self):
        text = self.rfile.read(min(int(self.headers.get("Content-Length") or 0), 100)).decode("ascii", "replace")
        said = self.game.heard(self.path, text)
        return self.send_error(400) if said is None else self.answer(said)

    def answer(self, value):
        data = json.dumps(value).encode()
        self.send_response(200)
        self.send_header("Content-Type", "application/json")
        self.send_header("Content-Length", str(len(data)))
        self.send_header("Cache-Control", "no-store")
        self.end_headers()
        self.wfile.write(data)

    def log_message(self, *_):
        pass


def start_host(program, file, port, allowed, more):
    """A host of a program file, which ends with its standard input. Pages reach it by the names that are allowed."""
    words = [program, "host", file, "--listen", f"127.0.0.1:{port}", "--until-input-ends", *more]
    for origin in allowed:
        words += ["--allow-origin", origin]
    host = subprocess.Popen(words, stdin=subprocess.PIPE, stdout=subprocess.PIPE, stderr=subprocess.DEVNULL, text=True)
    if not host.stdout.readline().startswith("ready "):
        raise SystemExit("the host does not listen")
    return host


def free_port():
    """A port that nobody listens at."""
    with socket.create_server(("127.0.0.1", 0)) as tried:
        return tried.getsockname()[1]


def make_ready(program, engine):
    """Lets ./try and ./warpd build what they become, and say so, before the host begins; and builds the engine where it is not given."""
    try:
        subprocess.run([program, "--version"], stdout=subprocess.DEVNULL, stdin=subprocess.DEVNULL, check=True)
        if engine is None and not is_new(ENGINE):
            ENGINE.parent.mkdir(exist_ok=True)
            subprocess.run([ROOT / "clients" / "wasm" / "build", ENGINE], stdin=subprocess.DEVNULL, check=True)
    except (OSError, subprocess.CalledProcessError) as error:
        raise SystemExit(f"{sys.argv[0]}: {error}") from error


def is_new(file):
    """Whether no source has changed since this was built."""
    sources = [*(ROOT / "crates").glob("*/src/**/*.rt"), *(ROOT / "clients" / "wasm").glob("*.*")]
    return file.exists() and file.stat().st_mtime > max(it.stat().st_mtime for it in sources)


@contextmanager
def served(name, game):
    """Serves the game of this name: a host of examples/NAME.json, a link to it, and the pages, of which this is the address."""
    folder, words = Path(__file__).resolve().parent / name, game.words
    make_ready(words.program, words.engine)
    port = free_port()
    link = Link(("127.0.0.1", port), game)
    game.host, game.link = f"127.0.0.1:{port}", link.address
    made = tempfile.TemporaryDirectory()
    program = game.program(ROOT / "examples" / f"{name}.json", Path(made.name))
    Pages.game, Pages.engine, Pages.program = game, words.engine or ENGINE, program
    server = ThreadingHTTPServer(("127.0.0.1", 0), partial(Pages, directory=str(folder)))
    threading.Thread(target=server.serve_forever, daemon=True).start()
    address = f"http://127.0.0.1:{server.server_port}"
    signal.signal(signal.SIGTERM, lambda *_: sys.exit(0))
    hosts, allowed = [], (address, f"http://{link.address}")
    try:
        game.begins(lambda: hosts.append(start_host(words.program, program, port, allowed, game.host_words())))
        threading.Thread(target=run_until_end, args=(game,), daemon=True).start()
        yield address
    except KeyboardInterrupt:
        pass
    finally:
        for host in hosts:
            host.stdin.close()
            host.wait(15)
        made.cleanup()


def beats(game, pause=0):
    """The clock, origin 0, near the host: ticks, each at its time, and says now and then that none before comes any more. Then it
    gives the client and the tick, also behind the last one, until the host ends."""
    host, _, port = game.host.rpartition(":")
    with Client(host, int(port)) as client:
        clock, begin = Announcer(client, 0), time.monotonic() + pause
        for count in itertools.count(1):
            time.sleep(max(0, begin + count * game.tick / 1_000 - time.monotonic()))
            if count <= game.ticks:
                clock.event(time=count, input=0, value=1)
            if count % ANNOUNCE_EVERY == 0 or count == game.ticks:
                tick = min(count, game.ticks)
                clock.announce(time=tick + 1)
                yield client, tick


def run_until_end(game):
    """Has the game run until the host ends."""
    with suppress(Ended):
        game.run()


def read_words(name, about, delay, most_delay, ticks, most_ticks, more=None):
    """What the command line says; `more` has further options."""
    parser = argparse.ArgumentParser(prog=f"examples/web/{name}/start", description=about.split("\n")[0])
    parser.add_argument("program", metavar="PROGRAM", nargs="?", default=str(ROOT / "warpd"), help="./warpd where none is given")
    parser.add_argument("--engine", type=Path, metavar="FILE", help="the engine of the pages: out/engine.wasm, which is built where it is not there")
    parser.add_argument("--delay", type=int, default=delay, metavar="MS", help=f"how late a page hears of another one at first: {delay}")
    parser.add_argument("--tick", type=int, default=100, metavar="MS", help="how long a tick is: 100")
    parser.add_argument("--ticks", type=int, default=ticks, metavar="N", help=f"how many ticks are played: {ticks}, at most {most_ticks}")
    for option, how in (more or {}).items():
        parser.add_argument(option, **how)
    words = parser.parse_args()
    if not (0 <= words.delay <= most_delay and 1 <= words.tick <= 10_000 and 1 <= words.ticks <= most_ticks):
        parser.error("out of range")
    return words


def wait():
    """Waits for an interrupt, or the end of standard input where that is no terminal."""
    if sys.stdin is None or sys.stdin.isatty():
        signal.pause()
    while sys.stdin.read(4_096):
        pass
