"""A server of the built program on 127.0.0.1, and sessions with it that remember what they were told: for the scripts of this
folder. Nothing here waits for longer than SECONDS, and a server is ended by its own process alone."""

import os
import random
import re
import resource
import signal
import socket
import struct
import subprocess
import tempfile
import threading
import time
from pathlib import Path

SECONDS = 300
HOST = "127.0.0.1"
# Where ports are drawn from: below those that the system gives to who connects.
PORTS = range(10_000, 32_000)


class Wrong(Exception):
    """What was said or done is not what had to be."""


def same(got, wanted, what):
    if got != wanted:
        raise Wrong(f"{what}: wanted {excerpt(wanted)}, got {excerpt(got)}")


def holds(is_right, what):
    if not is_right:
        raise Wrong(what)


def excerpt(value):
    text = repr(value)
    return text if len(text) < 300 else f"{text[:200]} .. {text[-80:]}"


def wait_for(found, what, seconds=SECONDS):
    """Looks again and again until there is something, which it gives."""
    end = time.monotonic() + seconds
    while True:
        value = found()
        if value:
            return value
        holds(time.monotonic() < end, f"within {seconds} seconds not: {what}")
        time.sleep(0.002)


def give_up_after(seconds):
    """Has this process raise Wrong where it waits by then; and it ends without a word where that holds it for a minute more."""
    def raise_wrong(*_):
        signal.signal(signal.SIGALRM, signal.SIG_DFL)
        signal.alarm(50)
        raise Wrong(f"it took more than {seconds} seconds")

    signal.signal(signal.SIGALRM, raise_wrong)
    signal.alarm(seconds)


def free_port():
    """A port that nobody listens at."""
    while True:
        port = random.SystemRandom().choice(PORTS)
        with socket.socket() as tried:
            try:
                tried.bind((HOST, port))
                return port
            except OSError:
                continue


class Server:
    """A process `warpd serve`. As a context it ends with its last session, and must end well: with this status, on standard output
    the line `ready P` alone, on standard error what `errors` says, one text or any of several. A peer may name the server's own
    port by `{port}`. It may have no more than so many `files` open, and so many bytes of address `space`, where these are given, and has
    these standard streams `closed`."""

    def __init__(self, program, served, sessions, *peers, errors="", status=0, port=None, files=None, space=None, closed=()):
        self.talks, self.errors, self.status = [], (errors,) if isinstance(errors, str) else errors, status

        def prepare():
            if files:
                resource.setrlimit(resource.RLIMIT_NOFILE, (files, files))
            if space:
                resource.setrlimit(resource.RLIMIT_AS, (space, space))
            for descriptor in closed:
                os.close(descriptor)

        for _ in range(5):
            self.port = port or free_port()
            self.files = [tempfile.TemporaryFile() for _ in range(2)]
            words = [program, "serve", served, "--port", str(self.port), "--sessions", str(sessions),
                     *(it.format(port=self.port) for it in peers)]
            self.process = subprocess.Popen(list(map(str, words)), stdin=subprocess.DEVNULL, stdout=self.files[0], stderr=self.files[1],
                                            preexec_fn=prepare)
            try:
                wait_for(lambda: "\n" in self.printed(0) or self.process.poll() is not None, "the line ready")
            except Wrong:
                self.kill()
                raise
            if self.printed(1) != "cannot listen\n":
                break
        if self.printed(0) != f"ready {self.port}\n":
            self.kill()
            raise Wrong(f"no line ready, but {self.printed(0)!r}, {self.printed(1)!r}, status {self.process.returncode}")

    def printed(self, number):
        """What stands on standard output, 0, or error, 1."""
        file = self.files[number]
        return os.pread(file.fileno(), os.fstat(file.fileno()).st_size, 0).decode("utf-8", "replace")

    @property
    def address(self):
        return HOST, self.port

    def talk(self):
        """The next session."""
        made = Talk(self.address)
        self.talks.append(made)
        return made

    def memory(self):
        """The most memory so far, in MiB."""
        text = Path(f"/proc/{self.process.pid}/status").read_text()
        return int(re.search(r"VmHWM:\s+(\d+)", text)[1]) / 1024

    def processor_seconds(self):
        fields = Path(f"/proc/{self.process.pid}/stat").read_text().rpartition(")")[2].split()
        return (int(fields[11]) + int(fields[12])) / os.sysconf("SC_CLK_TCK")

    def finish(self):
        """Ends what is left of its sessions, and looks at how it ends itself."""
        for talk in self.talks:
            talk.close()
        wait_for(lambda: self.process.poll() is not None, "the server's end")
        same(self.process.returncode, self.status, "the server's status")
        same(self.printed(0), f"ready {self.port}\n", "the server's standard output")
        holds(self.printed(1) in self.errors, f"standard error: wanted {' or '.join(map(repr, self.errors))}, got {self.printed(1)!r}")

    def kill(self):
        for talk in self.talks:
            talk.close()
        if self.process.poll() is None:
            self.process.kill()
        self.process.wait()

    def __enter__(self):
        return self

    def __exit__(self, kind, *_):
        try:
            if kind is None:
                self.finish()
        finally:
            self.kill()


class Talk:
    """A session: lines go out, replies come in. `said` has each line that was asked, its reply, and when both were."""

    def __init__(self, address, connect=socket.create_connection):
        self.socket = connect(address, SECONDS)
        self.socket.setsockopt(socket.IPPROTO_TCP, socket.TCP_NODELAY, 1)
        self.replies = self.socket.makefile("rb")
        self.said = []

    def send(self, data):
        self.socket.sendall(data)

    def line(self):
        """The next reply, without its line feed."""
        text = self.replies.readline()
        holds(text.endswith(b"\n"), f"a reply, not {text!r} and the end")
        return text[:-1].decode("ascii", "replace")

    def ask_all(self, lines):
        """The replies to lines that go out at once; they have to fit into the buffers on the way."""
        asked = time.monotonic()
        self.send("".join(line + "\n" for line in lines).encode())
        replies = []
        for line in lines:
            replies.append(self.line())
            self.said.append((line, replies[-1], asked, time.monotonic()))
        return replies

    def ask(self, line):
        return self.ask_all([line])[0]

    def tell(self, *pairs):
        """Asks lines one by one, each of which has to be answered so."""
        for line, wanted in pairs:
            same(self.ask(line), wanted, f"the reply to {line!r}")

    def stream(self, lines, window=512):
        """The replies to any number of lines: one thread sends, and this one reads."""
        sender = threading.Thread(target=self.send_all, args=(lines, window), daemon=True)
        sender.start()
        replies = [self.line() for _ in lines]
        sender.join()
        return replies

    def send_all(self, lines, window):
        for start in range(0, len(lines), window):
            self.send("".join(line + "\n" for line in lines[start:start + window]).encode())

    def log(self):
        """The records of the log, in order."""
        count = int(self.ask("horizon").split()[1])
        replies = self.stream([f"log {place}" for place in range(1, count + 1)])
        for reply in replies:
            holds(reply.startswith("log "), f"a record of the log, not {reply!r}")
        return [reply.split(" ", 2)[2] for reply in replies]

    def end(self):
        """Sends no more, and gives what still comes."""
        self.socket.shutdown(socket.SHUT_WR)
        return self.replies.read()

    def reset(self):
        """Breaks the connection off, so that the other side's reads and writes fail."""
        self.socket.setsockopt(socket.SOL_SOCKET, socket.SO_LINGER, struct.pack("ii", 1, 0))
        self.close()

    def close(self):
        self.replies.close()
        self.socket.close()
