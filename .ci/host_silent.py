"""Cases of `.ci/host` on who says nothing: connections that bring no token where one is wanted, places that are kept from them, and a peer
that is gone without an end of its connection."""

import contextlib
import multiprocessing
import re
import select
import socket
import tempfile
import threading
import time
from pathlib import Path

import hosting
from hosting import get
from loopback import HOST, Talk, holds, same, wait_for

# A token is brought within so many seconds, which the host looks at once a second; a busy machine may be some more behind.
WITHIN, LATE = 10, 10
# For how long who attacks connects again and again, in how many processes, with so many connections each that it keeps.
FLOOD, PROCESSES, EACH = 8, 4, 90

Hosted = hosting.begun


@contextlib.contextmanager
def guarded(*words, **more):
    """A host that wants tokens."""
    with tempfile.TemporaryDirectory() as folder:
        file = Path(folder, "tokens")
        file.write_text("secret *\nlook read\n")
        file.chmod(0o600)
        remarks = ["clients closed: ", *more.pop("remarks", [])]
        with Hosted("--tokens", file, *words, remarks=remarks, **more) as host:
            yield host


def is_closed(one):
    """Whether the other end has closed this connection; what came of it else is dropped."""
    while select.select([one], [], [], 0)[0]:
        try:
            if not one.recv(65_536):
                return True
        except OSError:
            return True
    return False


def asked(host, path, *headers):
    """A request that keeps its connection."""
    return "".join(f"{line}\r\n" for line in (f"GET {path} HTTP/1.1", f"Host: {HOST}:{host.port}", *headers, "")).encode()


class Silent:
    """A connection that says this at first, and this each second."""

    def __init__(self, host, first=b"", each=b""):
        self.each, self.came, self.lasted = each, time.monotonic(), None
        self.socket = socket.create_connection(host.address, 10)
        if first:
            self.socket.sendall(first)

    def look(self):
        """Goes on, and notes how long it lasted."""
        if self.lasted is None and is_closed(self.socket):
            self.lasted = time.monotonic() - self.came
        if self.lasted is None and self.each:
            with contextlib.suppress(OSError):
                self.socket.sendall(self.each)


def upgrade(host, path="/ws", *headers):
    """A request for WebSocket."""
    return asked(host, path, "Upgrade: websocket", "Connection: Upgrade", "Sec-WebSocket-Key: dGhlIHNhbXBsZSBub25jZQ==", "Sec-WebSocket-Version: 13",
                 *headers)


def silent_without_token():
    """Where tokens are wanted, a connection that has brought none in ten seconds is closed, whatever it speaks and says meanwhile; one that
    brought its token by a line, for WebSocket or with a request stays, and so does a host that follows."""
    bearer, says = "Authorization: Bearer look", hosting.frame(hosting.TEXT, b"program")
    with guarded("--clients", "60") as host, tempfile.TemporaryDirectory() as folder:
        given = Path(folder, "given")
        given.write_text(f"{HOST}:{host.port} secret\n")
        given.chmod(0o600)
        with Hosted("--peer", f"{HOST}:{host.port}", "--peer-tokens", given, remarks=["peer "]) as follower:
            wait_for(lambda: b"\nwarpd_peers_connected 1\n" in get(follower.address, "/metrics")[2], "a follower", 30)
            late = {
                "nothing": Silent(host), "half a line": Silent(host, b"token secr"), "the program": Silent(host, b"program\n", b"program\n"),
                "a wrong token": Silent(host, b"token secre\n", b"program\n"), "half a head": Silent(host, b"GET /healthz"),
                "pages": Silent(host, asked(host, "/healthz"), asked(host, "/healthz")),
                "a wrong bearer": Silent(host, asked(host, "/names.json", "Authorization: Bearer loo"), asked(host, "/healthz")),
                "WebSocket": Silent(host, upgrade(host)), "WebSocket that speaks": Silent(host, upgrade(host), says),
            }
            known = {
                "a line": Silent(host, b"program\ntoken look\n"), "a line that is told": Silent(host, b"token secret\nwatch log 1\n"),
                "pages": Silent(host, asked(host, "/names.json", bearer), asked(host, "/healthz")),
                "WebSocket": Silent(host, upgrade(host, "/ws?token=look")), "WebSocket with a bearer": Silent(host, upgrade(host, "/ws", bearer)),
                "WebSocket with a line": Silent(host, upgrade(host) + hosting.frame(hosting.TEXT, b"token look"))}
            end = time.monotonic() + WITHIN + LATE
            while time.monotonic() < end and not all(it.lasted for it in late.values()):
                time.sleep(1)
                for it in (*late.values(), *known.values()):
                    it.look()
            for kind, it in late.items():
                holds(it.lasted, f"who brings no token but {kind} is there behind {WITHIN + LATE} seconds")
                holds(kind == "half a head" or it.lasted > WITHIN - 1, f"who brings no token but {kind} was closed behind {it.lasted:.1f} seconds")
            time.sleep(3)
            for kind, it in known.items():
                it.look()
                same(it.lasted, None, f"for how long one lasted with a token by {kind}")
            closed = [re.fullmatch(r"clients closed: (\d+), they brought no token in time", line) for line in host.printed(1).splitlines()]
            holds(sum(int(it[1]) for it in closed if it) >= len(late) - 1, f"an operator is told how many were closed, not {host.printed(1)!r}")
            host.talk().tell(("token secret", "may *"), ("event 0 1 0 0 1", "taken 1"))
            wait_for(lambda: follower.talk().ask("horizon") == "horizon 1 0 0", "the record at the follower", 30)
            same(follower.printed(1).count("peer "), 1, "lines about the peer")
    with Hosted() as host:
        silent = [socket.create_connection(host.address, 10) for _ in range(3)]
        time.sleep(WITHIN + 3)
        for one in silent:
            one.sendall(b"var 0\n")
            same(one.recv(100), b"var 0 0\n", "a client of a host that wants no token")
            one.close()


def clients_of(host):
    """How many clients there are, as the page of metrics tells it to who has a token."""
    text = get(host.address, "/metrics", "Authorization: Bearer look")[2]
    return int(re.search(rb"^warpd_clients (\d+)$", text, re.MULTILINE)[1])


def with_token(host):
    """A client that has said its token, or nothing where it was turned away."""
    made = Talk(host.address)
    try:
        made.send(b"token look\n")
        if made.replies.readline() == b"may read\n":
            return made
    except OSError:
        pass
    made.close()
    return None


def places_for_tokens():
    """Of the places that who has a token leaves sixteen are kept from who brings none, or half where they leave fewer than 32: the one that
    waits longest is closed for one that comes. So anybody gets in until all places are held with tokens."""
    for places, most in ((40, 24), (20, 10), (3, 2), (2, 1), (1, 1)):
        with guarded("--clients", str(places), remarks=["clients refused: "]) as host:
            silent = []
            for _ in range(3 * most + 20):
                silent.append(socket.create_connection(host.address, 10))
                gone = len(silent) - most
                wait_for(lambda gone=gone, silent=silent: gone < 1 or is_closed(silent[gone - 1]), "the one that waits longest is closed", 8)
            same([is_closed(it) for it in silent], [True] * (len(silent) - most) + [False] * most, f"who is closed, of {places} places")
            same(get(host.address, "/healthz")[0], 200, "a page")
            holds(places < 3 or clients_of(host) <= most + 1, "how many are told to be there")
            known = []
            for at in range(places):
                known.append(with_token(host))
                holds(known[-1], f"client {at} with a token, of {places} places")
                # Who brings no token keeps coming.
                silent.append(socket.create_connection(host.address, 10))
            wait_for(lambda silent=silent: all(is_closed(it) for it in silent), "all without a token are closed", 20)
            for it in known:
                same(it.ask("var 0"), "var 0 0", "a client with a token")
            same(with_token(host), None, "one more where all have a token")
            known.pop().close()
            wait_for(lambda host=host, known=known: known.append(with_token(host)) or known[-1], "a place again", 20)
            wait_for(lambda host=host, places=places: f", there are {places} already" in host.printed(1), "who was turned away is told", 20)
            for it in (*silent, *filter(None, known)):
                it.close()


def come_again(port, end, counts, number):
    """Connects until then, and keeps so many connections that are not closed by the host."""
    kept = []
    while time.time() < end:
        kept = [it for it in kept if not is_closed(it)] if len(kept) >= EACH else kept
        if len(kept) >= EACH:
            time.sleep(0.01)
            continue
        with contextlib.suppress(OSError):
            kept.append(socket.create_connection((HOST, port), 1))
            counts[number] += 1
    for it in kept:
        it.close()


def tokens_through_floods():
    """While others connect again and again and say nothing, who says a token at once is served, and so is who asks for a page."""
    with guarded("--clients", "300", remarks=["clients refused: "]) as host:
        counts, end = multiprocessing.Array("L", PROCESSES), time.time() + FLOOD
        attackers = [multiprocessing.Process(target=come_again, args=(host.port, end, counts, number)) for number in range(PROCESSES)]
        for it in attackers:
            it.start()
        wait_for(lambda: sum(counts) > PROCESSES * EACH, "a flood", 30)
        tries, served, pages = 0, 0, 0
        while time.time() < end:
            tries += 1
            one = with_token(host)
            if one:
                served += one.ask("var 0") == "var 0 0"
                one.close()
            with contextlib.suppress(OSError, hosting.Wrong):
                pages += get(host.address, "/healthz")[0] == 200
            time.sleep(0.02)
        for it in attackers:
            it.join()
        print(f"{sum(counts)} connections without a token; {served} of {tries} with one were served, and {pages} pages")
        # A process that stands still between its connection and its first byte may be too late.
        holds(tries >= 10 and served >= 0.9 * tries and pages >= 0.9 * tries, f"{served} of {tries} were served, and {pages} pages")


class Proxy:
    """Passes bytes between who connects and this port. From `cut` on those connections that are there pass nothing and are told no end, and
    others are passed to what listens then."""

    def __init__(self, port):
        self.port_to, self.made, self.cut_at = port, 0, 0
        self.listener = socket.create_server((HOST, 0))
        self.name = f"{HOST}:{self.listener.getsockname()[1]}"
        threading.Thread(target=self.serve, daemon=True).start()

    def cut(self):
        self.cut_at = self.made

    def serve(self):
        while True:
            try:
                one, _ = self.listener.accept()
            except OSError:
                return
            try:
                other = socket.create_connection((HOST, self.port_to))
            except OSError:
                one.close()
                continue
            self.made += 1
            for ends in ((one, other), (other, one)):
                threading.Thread(target=self.carry, args=(*ends, self.made), daemon=True).start()

    def carry(self, one, other, number):
        with contextlib.suppress(OSError):
            while piece := one.recv(65_536):
                if number > self.cut_at:
                    other.sendall(piece)
            if number > self.cut_at:
                other.shutdown(socket.SHUT_WR)


def peer_gone_without_end():
    """A peer that loses its power, so that no end of its connection comes, is lost behind fifteen seconds of silence, once told, and is
    followed again where it is back; one that has nothing to say is asked, and stays."""
    with tempfile.TemporaryDirectory() as folder, Hosted() as idle:
        journal, quiet = Path(folder, "journal"), Proxy(idle.port)
        there = Hosted("--journal", journal)
        try:
            proxy = Proxy(there.port)
            with Hosted("--peer", proxy.name, "--peer", quiet.name, remarks=["peer "]) as host:

                def connected(count):
                    return f"\nwarpd_peers_connected {count}\n".encode() in get(host.address, "/metrics")[2]

                wait_for(lambda: connected(2), "two peers", 30)
                same(there.talk().ask("event 0 1 0 0 1"), "taken 1", "a record of the peer")
                wait_for(lambda: host.talk().ask("log 1") == "log 1 event 0 1 0 0 1", "it came", 30)
                proxy.cut()
                began = time.monotonic()
                there.kill()
                wait_for(lambda: connected(1), "a peer is lost", 40)
                seconds = time.monotonic() - began
                holds(13 <= seconds, f"it was lost behind {seconds:.1f} seconds")
                there = Hosted("--journal", journal)
                proxy.port_to = there.port
                same(there.talk().ask("event 0 2 0 0 1"), "taken 2", "a record of the peer that is back")
                wait_for(lambda: connected(2), "it is followed again", 40)
                wait_for(lambda: host.talk().ask("horizon") == "horizon 2 0 0", "its record", 30)
                about = [line for line in host.printed(1).splitlines() if line.startswith(f"peer {proxy.name} ")]
                same(sum("lost: " in line for line in about), 1, f"how often it is told to be lost, of {about}")
                same((quiet.made, host.printed(1).count(f"peer {quiet.name} ")), (1, 1), "connections to the other, and lines about it")
        finally:
            there.kill()


CASES = [silent_without_token, peer_gone_without_end, tokens_through_floods, places_for_tokens]
