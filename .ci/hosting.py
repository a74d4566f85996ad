"""A host of the built program on 127.0.0.1, and connections with it: for `.ci/host`. A host is ended by its own process alone."""

import base64
import os
import re
import resource
import socket
import struct
import subprocess
import tempfile
import time
from pathlib import Path

from loopback import HOST, SECONDS, Talk, Wrong, excerpt, free_port, holds, same, wait_for

ROOT = Path(__file__).resolve().parent.parent
# The program that cases try, unless another is given.
PROGRAM = ROOT / "crates" / "warpd" / "out" / "warpd"
TWICE = "builtin:twice"


def is_usual(line):
    """Whether a host without trouble says this on standard error: on its start, on its journal, on its end in order."""
    return bool(re.match(r"started: |standard input ended|journal: \d+ records?$|journal: begun, since it was empty or not there$", line))


class Hosted:
    """A process `warpd host`, whose standard input stays open. As a context it is ended by the end of its input, and must end well;
    each line of its standard error must be the first, on its start, or begin as one of `remarks` does. It has the environment `env`, and
    calls `before` when its process begins."""

    def __init__(self, program, hosted, *words, remarks=(), port=None, files=None, env=None, before=None):
        self.remarks, self.talks = list(remarks), []

        def prepare():
            if files:
                resource.setrlimit(resource.RLIMIT_NOFILE, (files, files))
            if before:
                before()

        for _ in range(5):
            self.port = port or free_port()
            self.files = [tempfile.TemporaryFile() for _ in range(2)]
            command = [program, "host", hosted, "--listen", f"{HOST}:{self.port}", "--until-input-ends", *words]
            self.process = subprocess.Popen([str(it).format(port=self.port) for it in command], stdin=subprocess.PIPE,
                                            stdout=self.files[0], stderr=self.files[1], preexec_fn=prepare, env=env)
            wait_for(lambda: "\n" in self.printed(0) or self.process.poll() is not None, "the line ready")
            if not self.printed(1).endswith("cannot listen\n"):
                break
        if self.printed(0) != f"ready {HOST}:{self.port}\n":
            self.kill()
            raise Wrong(f"no line ready, but {self.printed(0)!r}, {self.printed(1)!r}, status {self.process.returncode}")

    def printed(self, number):
        """What stands on standard output, 0, or error, 1."""
        file = self.files[number]
        return os.pread(file.fileno(), os.fstat(file.fileno()).st_size, 0).decode("utf-8", "replace")

    @property
    def address(self):
        return HOST, self.port

    def talk(self):
        """The next connection that speaks lines."""
        made = Talk(self.address)
        self.talks.append(made)
        return made

    def web(self, path="/ws", headers=(), **more):
        return Web(self.address, path, headers, **more)

    def memory(self, which="VmRSS"):
        """The memory that is taken, in MiB."""
        for line in Path(f"/proc/{self.process.pid}/status").read_text().splitlines():
            if line.startswith(which):
                return int(line.split()[1]) / 1024

    def processor_seconds(self):
        fields = Path(f"/proc/{self.process.pid}/stat").read_text().rpartition(")")[2].split()
        return (int(fields[11]) + int(fields[12])) / os.sysconf("SC_CLK_TCK")

    def finish(self):
        """Ends its input, and looks at how it ends itself."""
        for talk in self.talks:
            talk.close()
        self.process.stdin.close()
        wait_for(lambda: self.process.poll() is not None, "the host's end", 60)
        same(self.process.returncode, 0, "the host's status")
        same(self.printed(0), f"ready {HOST}:{self.port}\n", "the host's standard output")
        for line in self.printed(1).splitlines():
            holds(is_usual(line) or line.startswith(tuple(self.remarks)), f"standard error has {line!r}")

    def kill(self):
        for talk in self.talks:
            talk.close()
        if self.process.poll() is None:
            self.process.kill()
        self.process.wait()

    def __enter__(self):
        return self

    def __exit__(self, kind, *_):
        try:
            if kind is None:
                self.finish()
        finally:
            self.kill()


def begun(*words, program=TWICE, **more):
    """A host of the program that cases try."""
    return Hosted(PROGRAM, program, *words, **more)


def narrow(address, seconds):
    """A connection of which the system's buffers hold little: some ten KiB at this end and some more at the other."""
    made = socket.socket()
    made.settimeout(seconds)
    made.setsockopt(socket.SOL_SOCKET, socket.SO_RCVBUF, 4_096)
    made.setsockopt(socket.IPPROTO_TCP, socket.TCP_MAXSEG, 536)
    made.connect(address)
    return made


def frame(opcode, payload, is_last=True, is_masked=True, length=None):
    """A frame of WebSocket, as a client sends one."""
    size = len(payload) if length is None else length
    head = bytes([opcode | (0x80 if is_last else 0)])
    mask = 0x80 if is_masked else 0
    if size < 126:
        head += bytes([mask | size])
    elif size < 65_536:
        head += bytes([mask | 126]) + struct.pack(">H", size)
    else:
        head += bytes([mask | 127]) + struct.pack(">Q", size)
    if not is_masked:
        return head + payload
    key = os.urandom(4)
    return head + key + bytes(byte ^ key[at % 4] for at, byte in enumerate(payload))


TEXT, BINARY, CLOSE, PING, PONG = 1, 2, 8, 9, 10


class Web:
    """A connection that speaks WebSocket, frame by frame."""

    def __init__(self, address, path="/ws", headers=(), host=None, connect=socket.create_connection):
        self.socket = connect(address, SECONDS)
        self.socket.setsockopt(socket.IPPROTO_TCP, socket.TCP_NODELAY, 1)
        key = base64.b64encode(os.urandom(16)).decode()
        lines = [f"GET {path} HTTP/1.1", f"Host: {host or '%s:%d' % address}", "Upgrade: websocket", "Connection: keep-alive, Upgrade",
                 f"Sec-WebSocket-Key: {key}", "Sec-WebSocket-Version: 13", *headers, "", ""]
        self.socket.sendall("\r\n".join(lines).encode())
        self.coming = self.socket.makefile("rb")
        self.status = int(self.coming.readline().split()[1])
        while self.coming.readline() not in (b"\r\n", b""):
            pass

    def send(self, data):
        self.socket.sendall(data)

    def say(self, text):
        self.send(frame(TEXT, text.encode()))

    def next_frame(self):
        """The next frame: its opcode and payload, or nothing at the end."""
        head = self.coming.read(2)
        if len(head) < 2:
            return None
        holds(head[0] & 0x70 == 0 and head[1] & 0x80 == 0, f"a frame begins with {head!r}")
        size = head[1] & 0x7F
        if size == 126:
            size = struct.unpack(">H", self.coming.read(2))[0]
        elif size == 127:
            size = struct.unpack(">Q", self.coming.read(8))[0]
        return head[0] & 0x0F, self.coming.read(size)

    def lines(self, count):
        """The next so many lines, over any number of messages."""
        found = []
        while len(found) < count:
            got = self.next_frame()
            holds(got is not None and got[0] == TEXT, f"a text message, not {got!r}")
            found += got[1].decode().split("\n")
        same(len(found), count, "lines of messages")
        return found

    def ask(self, *lines):
        self.say("\n".join(lines))
        return self.lines(len(lines))

    def closed(self):
        """The code of the close that comes next."""
        got = self.next_frame()
        holds(got is not None and got[0] == CLOSE, f"a close, not {got!r}")
        return struct.unpack(">H", got[1][:2])[0] if got[1] else None

    def close(self):
        self.coming.close()
        self.socket.close()


def read_text(web):
    """The text messages that come until the end, and behind them the code of the close, if there is one."""
    messages = []
    while True:
        got = web.next_frame()
        if got is None:
            return None, messages
        if got[0] == CLOSE:
            return struct.unpack(">H", got[1][:2])[0], messages
        same(got[0], TEXT, "a text message")
        messages.append(got[1].decode())


def http(address, text, seconds=SECONDS):
    """What is answered to these bytes of HTTP, up to the end."""
    with socket.create_connection(address, seconds) as one:
        one.sendall(text if isinstance(text, bytes) else text.replace("\n", "\r\n").encode())
        one.settimeout(seconds)
        return read_all(one)


def read_all(one):
    pieces = []
    while True:
        try:
            piece = one.recv(65_536)
        except ConnectionResetError:
            break
        if not piece:
            break
        pieces.append(piece)
    return b"".join(pieces)


def get(address, path, *headers, method="GET", host=None):
    """The status, the headers and the body that a request is answered with."""
    lines = [f"{method} {path} HTTP/1.1", f"Host: {host or '%s:%d' % address}", *headers, "Connection: close", "", ""]
    answer = http(address, "\r\n".join(lines).encode())
    head, _, body = answer.partition(b"\r\n\r\n")
    first, *fields = head.decode("latin-1").split("\r\n")
    holds(first.startswith("HTTP/1.1 "), f"an answer of HTTP, not {excerpt(answer)}")
    return int(first.split()[1]), {name.lower(): value for name, value in (it.split(": ", 1) for it in fields)}, body
