"""Cases of `.ci/host` on what a host does with the system: its sockets are kept alive, standard error that nobody reads holds up nobody, and
who watches values and reads nothing costs little."""

import fcntl
import os
import select
import subprocess
import tempfile
import threading
import time
from pathlib import Path

import hosting
from disks import Disk
from hosting import TWICE, narrow
from hosting import begun as Hosted
from host_crowds import look_at_values, program_of
from loopback import HOST, Talk, Wrong, free_port, holds, same, wait_for

LEFT_OUT = "notes left out: "


def timers(port):
    """The kinds of timers that the system has for connections at which one end has this port, by the local ports and the others."""
    found = {}
    for line in Path("/proc/net/tcp").read_text().splitlines()[1:]:
        _, local, other, state, _, timer, *_ = line.split()
        ends = tuple(int(it.split(":")[1], 16) for it in (local, other))
        if state == "01" and port in ends:
            found[ends] = int(timer.split(":")[0])
    return found


def is_kept_alive(port, ends):
    """Whether the system has a timer for it at which nothing was sent: that of a silent connection."""
    return timers(port).get(ends) == 2


def kept_alive():
    """The system asks silent clients and silent peers for a sign of them."""
    with Hosted() as host:
        talk = host.talk()
        same(talk.ask("var 0"), "var 0 0", "a client")
        wait_for(lambda: is_kept_alive(host.port, (host.port, talk.socket.getsockname()[1])), "a timer for a client", 30)
        with Hosted("--peer", f"{HOST}:{host.port}", remarks=["peer "]) as follower:
            wait_for(lambda: f"peer {HOST}:{host.port} found" in follower.printed(1), "the follower has found it", 60)
            ours = {talk.socket.getsockname()[1]}
            wait_for(lambda: any(other == host.port and local not in ours and kind == 2
                                 for (local, other), kind in timers(host.port).items()), "a timer for a peer", 30)


class Unread:
    """A host with an operator, whose standard error is a pipe that holds 4,096 bytes and that nobody reads until `read`. It is ended by the
    word `stop`."""

    def __init__(self, *words, env=None):
        self.ours, theirs = os.pipe()
        fcntl.fcntl(theirs, fcntl.F_SETPIPE_SZ, 4_096)
        for _ in range(5):
            self.port = free_port()
            line = [hosting.PROGRAM, "host", TWICE, "--listen", f"{HOST}:{self.port}", "--operator", *words]
            self.process = subprocess.Popen(list(map(str, line)), stdin=subprocess.PIPE, stdout=subprocess.PIPE, stderr=theirs, env=env)
            if self.process.stdout.readline() == f"ready {HOST}:{self.port}\n".encode():
                break
        # The same pipe by a descriptor of its own, so that its being filled without a wait is no matter of the host's.
        self.filler = os.open(f"/proc/self/fd/{theirs}", os.O_WRONLY | os.O_NONBLOCK)
        os.close(theirs)
        self.got = b""

    def fill(self):
        """Fills the pipe to its last byte."""
        for size in (4_096, 1):
            try:
                while True:
                    os.write(self.filler, b"\n" * size)
            except BlockingIOError:
                pass

    def read(self):
        """Reads from now on."""
        os.close(self.filler)
        threading.Thread(target=self.read_all, daemon=True).start()

    def read_all(self):
        while piece := os.read(self.ours, 65_536):
            self.got += piece

    def told(self):
        """What standard error had so far, line by line."""
        return [it for it in self.got.decode().split("\n") if it]

    def talk(self, *lines):
        made = Talk((HOST, self.port))
        made.socket.settimeout(20)
        for line in lines:
            made.ask(line)
        return made

    def ask(self, line):
        """The answer to a word of the operator."""
        self.process.stdin.write(f"{line}\n".encode())
        self.process.stdin.flush()
        holds(select.select([self.process.stdout], [], [], 20)[0], f"an answer to {line!r}")
        return self.process.stdout.readline().decode().rstrip("\n")

    def __enter__(self):
        return self

    def __exit__(self, kind, *_):
        try:
            if kind is None:
                same(self.ask("stop"), "ok", "the answer to stop")
                wait_for(lambda: self.process.poll() is not None, "its end", 60)
                same(self.process.returncode, 0, "its status")
        finally:
            self.process.kill()
            self.process.wait()


def ask_within_a_second(talk):
    """Asks a query, which has to be answered within a second."""
    began = time.monotonic()
    holds(talk.ask("var 0").startswith("var "), "an answer")
    holds(time.monotonic() - began < 1, "an answer within a second")


def unread_errors():
    """While nobody reads standard error all clients are served, and when it is read what was told first is there, and then how many notes
    were left out."""
    with tempfile.TemporaryDirectory() as folder:
        # Each note on this file has some 3 KiB.
        long = Path(folder, *["f" * 250] * 6)
        long.mkdir(parents=True)
        file = long / "tokens"
        file.write_text("all *\n")
        file.chmod(0o600)
        with Unread("--tokens", file, "--clients", "2") as host:
            honest, other = host.talk("token all"), host.talk("token all")
            host.fill()
            file.chmod(0o644)
            for at in range(100):
                same(host.ask("tokens"), "no tokens: others may read or write their file", "the answer to tokens")
                ask_within_a_second(honest)
                if at % 10 == 0:
                    Talk((HOST, host.port)).close()
            wait_for(lambda: ask_within_a_second(other) or host.ask("status").startswith("ok clients 2 2 "), "two clients", 30)
            host.read()
            wait_for(lambda: any(it.startswith(LEFT_OUT) for it in host.told()), "how many notes were left out", 30)
            end = next(at for at, it in enumerate(host.told()) if it.startswith(LEFT_OUT))
            told, last = host.told()[1:end], host.told()[end]
            # Each word has two lines.
            note = f"{file}: others may read or write it (mode 644; chmod 600 {file})"
            again = "tokens: not read again, the old ones hold: others may read or write it"
            same([it for it in told if it != again][:5], [note] * 5, "what was told first")
            notes, agains = told.count(note), told.count(again)
            refused = sum(it.startswith("clients refused: ") for it in told)
            same(notes + agains + refused, len(told), "whole lines, each once")
            holds(7 <= notes <= 22, f"what 64 KiB hold, not {notes} notes")
            count, why = last[len(LEFT_OUT):].split(", ", 1)
            same(why, "nobody read standard error", "why")
            holds(200 - notes - agains <= int(count) <= 210 - notes - agains, f"the others are left out, not {count} of them")
            same(host.ask("tokens"), "no tokens: others may read or write their file", "the answer to tokens")
            wait_for(lambda: note in host.told()[end + 1:], "a note that is told at once", 30)


def unread_errors_of_a_journal():
    """While nobody reads standard error a journal that can't be written is written anew, as ever."""
    with Disk() as disk, tempfile.TemporaryDirectory() as folder:
        with Unread("--journal", Path(folder, "kept.journal"), env=disk.under()) as host:
            talk = host.talk()
            same(talk.ask("event 0 5 0 0 3"), "taken 1", "a record")
            host.fill()
            disk.fail("write")
            talk.send(b"event 0 6 0 0 4\n")
            wait_for(lambda: host.ask("status").endswith(" failing 1"), "a journal that can't be written", 30)
            disk.heal("write")
            same(talk.line(), "taken 2", "the record that waited for the journal")
            ask_within_a_second(talk)
            host.read()
            wait_for(lambda: any("written anew, with" in it for it in host.told()), "what the journal told", 30)


def unread_end():
    """A host whose standard error nobody reads ends in order."""
    with Unread() as host:
        ask_within_a_second(host.talk())
        host.fill()


def private_memory(host):
    """The memory that a host has for itself, in MiB."""
    for line in Path(f"/proc/{host.process.pid}/smaps_rollup").read_text().splitlines():
        if line.startswith("Private_Dirty:"):
            return int(line.split()[1]) / 1024
    raise Wrong("no memory of its own")


def unread_values():
    """Many who watch long values and read nothing take little memory and hold up nobody. Who reads on gets some of the values in order, the
    newest last, and is not told to be too slow; the log is told whole beside them."""
    values = " ".join(str(-(2 ** 62) - at) for at in range(1, 256))
    crowd, rounds, most = 200, 600, 64
    with tempfile.TemporaryDirectory() as folder, Hosted(program=program_of(folder, 256)) as host:
        asker = host.talk()
        readers = [Talk(host.address, narrow) for _ in range(crowd)]
        host.talks += readers
        same(readers[0].ask("watch log 1"), "watching 1", "a watch")
        for it in readers:
            holds(it.ask("watch vars").startswith("watching "), "a watch")
        web = host.web(connect=narrow)
        web.say("watch vars")
        before = private_memory(host)
        for at in range(rounds):
            same(asker.ask(f"event 0 {at} 0 0 1"), f"taken {at + 1}", "an event")
        grown = private_memory(host) - before
        print(f"{crowd} who watch values and read nothing: {grown:.1f} MiB")
        holds(grown < most, f"less than {most} MiB more, not {grown:.1f}")
        newest = f"* vars {rounds} {rounds} {values}"
        same(sorted(read_until(readers[0], newest, values)), list(range(1, rounds + 1)), "the log")
        for it in readers[1:20]:
            same(read_until(it, newest, values), [], "pages")
        said = []
        while not said or said[-1] != newest:
            said += web.next_frame()[1].decode().split("\n")
        same(said.pop(0), "watching 1", "the answer")
        look_at_values(said, values)
        web.close()
        same(asker.ask(f"event 0 {rounds} 0 0 1"), f"taken {rounds + 1}", "an event")
        for it in readers[1:20]:
            same(it.line(), f"* vars {rounds + 1} {rounds + 1} {values}", "the next value")


def read_until(talk, newest, values):
    """Reads pushes until the newest value has come; the places of the log among them."""
    said, places = [], []
    while not said or said[-1] != newest:
        line = talk.line()
        if line.startswith("* log "):
            places.append(int(line.split(" ")[2]))
        else:
            said.append(line)
    look_at_values(said, values)
    return places


CASES = [unread_values, unread_errors, unread_errors_of_a_journal, unread_end, kept_alive]
