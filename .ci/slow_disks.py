"""The cases of `.ci/journal` over disks that are slow: a sync takes seconds, and nothing waits for it but who has to; so does a write."""

import re
import signal
import time

from disks import Disk, is_silent
from hosting import get
from journals import Room, numbers, read, remarks
from loopback import holds, same, wait_for

# A sync takes so long on a disk that is slow, in seconds: longer than what is told of.
SLOW = 6.0


def is_told(line):
    return line.startswith("journal: the disk is slow: a sync takes more than five seconds, and ")


def fill_while_slow(host, room, seconds):
    """Sends records for so long, each 60 of them behind the answers to the last; what was answered is in the file by then."""
    talk, sent, began, longest = host.talk(), [], time.monotonic(), 0
    while (start := time.monotonic()) < began + seconds and len(sent) < 60_000:
        more = [f"event 0 {len(sent) + at} 0 0 1" for at in range(60)]
        same(talk.ask_all(more)[-1], f"taken {len(sent) + 60}", "the last answer")
        sent += more
        longest = max(longest, time.monotonic() - start)
        if len(sent) % 3_000 == 0:
            same(room.records()[:len(sent)], sent, "the records of the file")
        time.sleep(0.005)
    return sent, longest


def slow_syncs():
    """With `--sync 10` answers wait for no sync: all that was answered is in the file behind a kill and behind SIGTERM, a sync that takes more
    than five seconds is told once, the page of metrics tells what waits, and the host holds no more memory than one that starts over it."""
    for end in (signal.SIGKILL, signal.SIGTERM):
        with Disk() as disk, Room() as room:
            host = room.host("--sync", "10", env=disk.under(slow=SLOW))
            try:
                disk.fail("slow")
                sent, longest = fill_while_slow(host, room, 2 * SLOW + 1)
                holds(len(sent) > 600 and longest < SLOW, f"{len(sent)} records were answered, one batch after {longest} s")
                seen = wait_for(lambda: (it := numbers(host))["unsynced_records"] and it, "what is not synced", 10)
                holds(seen["records"] + seen["unsynced_records"] <= len(sent) and 0 < seen["unsynced_seconds"] < 3 * SLOW,
                      f"the page tells {seen} of {len(sent)} records")
                holds(len(remarks(host)) == 1 and is_told(remarks(host)[0]), f"what is said: {remarks(host)}")
                same(room.records()[:len(sent)], sent, "the records of the file")
                ran = host.memory()
            finally:
                host.process.send_signal(end)
                host.process.wait(60)
                host.kill()
            same(read(room.file.read_bytes()).records, sent, f"the records behind {end.name}")
            disk.heal("slow")
            with room.host() as host:
                same(host.talk().log(), sent, "the log behind it")
                holds(ran < 1.25 * host.memory(), f"it held {ran} MiB, and one that starts holds {host.memory()}")


def waits(host):
    """What the page of metrics says of records that may not be told and of lines that have no answer."""
    names = "log_untold_records|line_waiting_seconds"
    return {name: float(value) for name, value in re.findall(rf"^warpd_({names}) (\S+)$", get(host.address, "/metrics")[2].decode(), re.M)}


def slow_always():
    """With `always` an answer waits for its sync, however slow, while later records are written; and a host that ends waits for it."""
    with Disk() as disk, Room() as room:
        host = room.host(env=disk.under(slow=2))
        try:
            talk, other = host.talk(), host.talk()
            disk.fail("slow")
            talk.send(b"event 0 1 0 0 1\n")
            wait_for(lambda: len(room.records()) == 1, "the first record in the file")
            other.send(b"event 0 2 0 0 1\n")
            wait_for(lambda: len(room.records()) == 2, "the second record in the file", 1.5)
            holds(is_silent(talk) and is_silent(other), "a record is told that is not synced")
            wait_for(lambda: (it := waits(host))["log_untold_records"] and it["line_waiting_seconds"], "what waits is told", 10)
            same((talk.line(), other.line()), ("taken 1", "taken 2"), "the answers")
            talk.send(b"event 0 3 0 0 1\n")
            wait_for(lambda: len(room.records()) == 3, "the third record in the file")
            host.finish()
        finally:
            host.kill()
        room.checked(3)


def slow_and_failing():
    """A disk that fails while a sync hangs: the journal is written anew, and what comes of the old sync counts no more."""
    with Disk() as disk, Room() as room:
        host = room.host("--sync", "10", env=disk.under(slow=3))
        try:
            talk = host.talk()
            disk.fail("slow")
            same(talk.ask("event 0 1 0 0 1"), "taken 1", "a record")
            time.sleep(0.3)
            disk.heal("slow")
            disk.fail("write")
            talk.send(b"event 0 2 0 0 1\n")
            wait_for(lambda: remarks(host), "that it fails")
            disk.heal("write")
            same(talk.line(), "taken 2", "a record that was held")
            other = host.talk()
            same(wait_for(lambda: (it := other.ask("event 0 3 0 0 1")) != "refused 14" and it, "a record is taken"), "taken 3",
                 "a record while the old sync hangs")
            time.sleep(3)
            same(host.talk().ask("event 0 4 0 0 1"), "taken 4", "a record behind it")
            wait_for(lambda: numbers(host)["records"] == 4, "all is synced", 10)
            same(len(remarks(host)), 2, "how much is said")
            host.finish()
        finally:
            host.kill()
        room.holds_log([f"event 0 {at} 0 0 1" for at in range(1, 5)])


def stuck_write():
    """A write that takes more than five seconds is told once, and the page of metrics tells what waits for it; what was answered is in the file."""
    with Disk() as disk, Room() as room:
        host = room.host("--sync", "10", env=disk.under(slow=SLOW + 2))
        try:
            talk = host.talk()
            same(talk.ask("event 0 1 0 0 1"), "taken 1", "a record")
            wait_for(lambda: numbers(host)["records"] == 1, "it is synced", 10)
            disk.fail("stuck")
            talk.send(b"event 0 2 0 0 1\n")
            seen = wait_for(lambda: (it := numbers(host))["unsynced_seconds"] > 2 and it, "what waits", 10)
            same((seen["records"], seen["unsynced_records"]), (1, 1), "what the page tells")
            wait_for(lambda: remarks(host), "that it is slow", 10)
            holds(is_silent(talk), "a record is told that is not written")
            disk.heal("stuck")
            same(talk.line(), "taken 2", "the answer")
            same(host.talk().ask("event 0 3 0 0 1"), "taken 3", "a record behind it")
            same(remarks(host), ["journal: the disk is slow: a write takes more than five seconds, and 1 record is not written"], "what is said")
            host.finish()
        finally:
            host.kill()
        room.checked(3)


CASES = [slow_syncs, slow_always, slow_and_failing, stuck_write]
