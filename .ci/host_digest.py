"""Cases of `.ci/host` on digests of logs: what a host answers, whatever the order of its records, and that peers compare them. Digests are
worked out here, by the reference. Peers that tell another digest, or none, are played."""

import hashlib
import random
import re
import tempfile
import time
from pathlib import Path

from host_seen import FULL, MOST_RECORDS, PEER_REMARKS, number, played, ready
from hosting import begun as Hosted
from hosting import get
from loopback import HOST, same, wait_for

NUMBERS = 2**128


def digest_of(records):
    """The answer to `digest` of a log of these lines."""
    total = sum(int.from_bytes(hashlib.sha256(it.encode()).digest()[:16], "big") for it in records)
    return f"digest {len(records)} {total % NUMBERS:032x}"


def records_of(count):
    """So many records of all kinds, of the program `twice`."""
    return [f"event {at % 2} {at % 101} {at // 101 % 16} {at % 2} {(-1) ** at * at}" if at % 10 else f"withdraw {at % 2} {at % 101} {at % 16}"
            for at in range(count)]


def any_order():
    """The digest of a log is that of the set of its records: the order in which they came plays no part, what is known is not counted again,
    and each further record makes another."""
    records = [*records_of(300), "announce 0 50 0 3 0", "announce 1 7 1 0 0"]
    assert len(set(records)) == len(records)
    told = []
    for seed in range(3):
        sent = list(records)
        random.Random(seed).shuffle(sent)
        with Hosted() as host:
            talk = host.talk()
            same(talk.ask("digest"), digest_of([]), "an empty log")
            for at, it in enumerate(sent):
                same(talk.ask(it), f"taken {at + 1}", "a record")
                if at % 40 == 0:
                    same(talk.ask("digest"), digest_of(sent[: at + 1]), "the first records")
            told.append(talk.ask("digest"))
            same(talk.ask(sent[7]).split()[0], "known", "a record again")
            same(talk.ask("digest"), told[-1], "behind a record that is known")
            same(talk.ask("digest "), "refused 1", "another line")
            same(talk.ask("digest 0"), "refused 1", "with a number")
    same(set(told), {digest_of(records)}, "in three orders")


def behind_lines():
    """The digest is of no fewer records than the client's own lines before it brought, over lines and over WebSocket, at 100,000 records as at
    few; while it is counted others are answered."""
    with Hosted() as host:
        talk = host.talk()
        lines = [f"event 0 {at % 101} 0 0 {at}" for at in range(60_000)]
        same(talk.stream([*lines, "digest"], 4096)[-1], digest_of(lines), "behind many lines")
        other = host.talk()
        more = [f"event 1 {at % 101} 0 1 {at}" for at in range(30_000)]
        answers = other.stream([it for pair in zip(more, ["digest"] * len(more)) for it in pair][:2_000], 512)
        for at in range(0, 2_000, 2):
            same(answers[at], f"taken {60_001 + at // 2}", "a record")
            same(answers[at + 1].split()[1], str(60_001 + at // 2), "how many are counted")
        same(answers[-1], digest_of([*lines, *more[:1_000]]), "the last digest")
        same(host.web().ask("digest"), [answers[-1]], "over WebSocket")


def kept():
    """A host that begins anew with its journal tells the same digest; with tokens it is told to who may read alone."""
    records = records_of(2_000)
    with tempfile.TemporaryDirectory() as folder:
        words = ("--journal", Path(folder, "kept"))
        with Hosted(*words) as host:
            host.talk().stream(records, 512)
            same(host.talk().ask("digest"), digest_of(records), "before the end")
        tokens = Path(folder, "tokens")
        tokens.write_text("reader read\n")
        tokens.chmod(0o600)
        with Hosted(*words, "--tokens", tokens) as host:
            talk = host.talk()
            same(talk.ask("digest"), "refused 13", "without a token")
            same(talk.ask("token reader"), "may read", "the token")
            same(talk.ask("digest"), digest_of(records), "behind the start")


def differs_row(port):
    return f'warpd_peer_differs{{peer="{HOST}:{port}"}}'


def told_of(host, port):
    """The lines on standard error that a peer differs."""
    return re.findall(rf"^peer {HOST}:{port} differs: .*$", host.printed(1), re.M)


def peers_differ():
    """A peer whose log is as long and has another digest is told of once, counted, and keeps the host from being ready until its digest is the
    same. Digests of other lengths say nothing."""
    records = ["event 0 5 0 0 1", "event 1 6 0 1 2"]
    other = digest_of(["event 0 5 0 0 1", "event 1 6 0 1 3"])
    says, asked = [digest_of(records[:1])], []
    with Hosted() as twin:
        program = twin.talk().ask("program")

    def answer(line, _):
        asked.append(line)
        if line == "program":
            return [program]
        if line.startswith("watch log 1"):
            return ["watching 1", *(f"* log {at + 1} {it}" for at, it in enumerate(records))]
        return [says[0]] if line == "digest" else ["refused 1"]

    with played(answer) as port:
        with Hosted("--peer", f"{HOST}:{port}", remarks=["peer "]) as host:
            wait_for(lambda: "digest" in asked, "it is asked", 30)
            same((ready(host), number(host, differs_row(port))), ((200, "ready\n"), 0), "at another length")
            says[0] = other
            wait_for(lambda: ready(host) == (503, f"peer {HOST}:{port} differs\n"), "another digest", 30)
            wait_for(lambda: number(host, differs_row(port)) == 1, "the row", 30)
            same(get(host.address, "/healthz")[2], b"ok\n", "/healthz")
            before = asked.count("digest")
            wait_for(lambda: asked.count("digest") > before, "it is asked again", 30)
            time.sleep(1.5)
            same(len(told_of(host, port)), 1, "how often that is told")
            says[0] = digest_of(records)
            wait_for(lambda: ready(host) == (200, "ready\n"), "the same digest", 30)
            wait_for(lambda: number(host, differs_row(port)) == 0, "the row", 30)
            same(host.talk().ask("digest"), says[0], "its own")


def older_peers():
    """A peer that does not know the word is asked once a connection, and what says nothing then; it stays followed, and a server is not asked."""
    asked = {"host": [], "server": []}
    with Hosted() as twin:
        program = twin.talk().ask("program")

    def host_says(line, _):
        asked["host"].append(line)
        return {"program": [program], "watch log 1": ["watching 1", "* log 1 event 0 5 0 0 1"]}.get(line, ["refused 1"])

    def server_says(line, _):
        asked["server"].append(line)
        return {"log 1": ["log 1 event 0 5 0 0 1"], "log 2": ["none 1"]}.get(line, ["refused 1"])

    with played(host_says) as port, played(server_says) as other:
        with Hosted("--peer", f"{HOST}:{port}", "--peer", f"{HOST}:{other}", remarks=["peer "]) as host:
            wait_for(lambda: asked["host"].count("program") >= 3, "it is asked what says nothing", 60)
            same(asked["host"].count("digest"), 1, "how often it is asked for its digest")
            same("digest" in asked["server"], False, "a server")
            same((ready(host), number(host, "warpd_peers_connected")), ((200, "ready\n"), 2), "both are followed")


def peers_agree():
    """Hosts that follow each other compare their digests, which are the same, and stay ready; one that takes records now and then is not asked."""
    records = records_of(200)
    with Hosted() as first:
        with Hosted("--peer", f"{HOST}:{first.port}", remarks=PEER_REMARKS) as second:
            first.talk().stream(records[:100], 64)
            second.talk().stream(records[100:], 64)
            first.talk().stream(records[100:], 64)
            time.sleep(12)
            same([host.talk().ask("digest") for host in (first, second)], [digest_of(records)] * 2, "digests")
            same((ready(second), number(second, differs_row(first.port))), ((200, "ready\n"), 0), "they agree")


def full_apart():
    """Two hosts that became full apart stay different: who follows the other says so, and is not ready."""
    def fill(host, origin):
        lines = [f"event {origin} {at % 101} 0 {origin} {at}" for at in range(MOST_RECORDS)]
        same(host.talk().stream(lines, 4096)[-1], f"taken {MOST_RECORDS}", "the last record")
        return digest_of(lines)

    with tempfile.TemporaryDirectory() as folder, Hosted(remarks=[FULL[:-1]]) as first:
        one = fill(first, 0)
        words = ("--journal", Path(folder, "kept"), "--sync", "never")
        with Hosted(*words, remarks=[FULL[:-1]]) as alone:
            other = fill(alone, 1)
        with Hosted(*words, "--peer", f"{HOST}:{first.port}", remarks=["peer ", FULL[:-1]]) as second:
            expected = (503, f"{FULL}peer {HOST}:{first.port} differs\n")
            wait_for(lambda: ready(second) == expected, "it differs", 120)
            same(len(told_of(second, first.port)), 1, "how often that is told")
            same([host.talk().ask("digest") for host in (first, second)], [one, other], "the digests")


CASES = [any_order, behind_lines, kept, peers_differ, older_peers, peers_agree, full_apart]
