"""Cases of `.ci/host` on who watches a log of which not all may be told yet: its disk is slow."""

import contextlib
import tempfile
from pathlib import Path

from disks import Disk, is_silent
from hosting import begun as Hosted
from loopback import HOST, holds, same, wait_for

# A sync takes so many seconds, longer at each try.
SLOW = 2, 8, 30
# The sync of the first record is under way when the others are written.
FIRST = ["event 0 5 0 0 3"]
OTHERS = ["event 0 6 0 0 4", "announce 0 50 0 2 0", "announce 1 50 0 0 0"]


def send_unsynced(talk, file, lines):
    """Sends records that are in the file then, and not answered: their sync takes long."""
    before = file.read_text()
    talk.send("".join(f"{line}\n" for line in lines).encode())
    wait_for(lambda: lines[-1] in file.read_text()[len(before):], "the records in the file", 60)


def begun_watch(host):
    """A client that was told that it watches the log and what is released, and no more than that."""
    talk = host.talk()
    same(talk.ask_all(["watch log 1", "watch released 0"]), ["watching 1", "watching 2"], "the watches")
    return talk


def told_of(talk, count, seconds):
    """The places of the log and the numbers of what is released that a watcher is told, so many of both at most, within so many seconds each."""
    told = {"log": [], "released": []}
    talk.socket.settimeout(seconds)
    with contextlib.suppress(TimeoutError):
        for _ in range(count):
            _, word, place, *_ = talk.line().split(" ")
            told[word].append(int(place))
    return told


def begin_at_once(slow):
    """Whether clients and a follower began to watch before any of them was told a record. In any case each must be told all."""
    with Disk() as disk, tempfile.TemporaryDirectory() as folder:
        file = Path(folder, "kept.journal")
        with Hosted("--journal", file, env=disk.under(slow=slow)) as host:
            writer, most = host.talk(), 4 * slow + 30
            disk.fail("slow")
            send_unsynced(writer, file, FIRST)
            early = begun_watch(host)
            with Hosted("--peer", f"{HOST}:{host.port}", remarks=["peer "]) as follower:
                wait_for(lambda: f"peer {HOST}:{host.port} found" in follower.printed(1), "the follower has found it", 60)
                send_unsynced(writer, file, OTHERS)
                late = begun_watch(host)
                at_once = is_silent(writer)
                for it in early, late:
                    same(told_of(it, 6, most), {"log": [1, 2, 3, 4], "released": [0, 1]}, "what a watcher is told")
                asker = follower.talk()
                wait_for(lambda: asker.ask("vars").startswith("vars 4 "), "all records at the follower", most)
                disk.heal("slow")
    return at_once


def watch_at_once():
    """Two clients, and a host that follows, begin to watch while records wait for a slow disk: each is told all."""
    holds(any(begin_at_once(slow) for slow in SLOW), "they began before a record was told")


CASES = [watch_at_once]
