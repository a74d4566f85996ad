"""Hosts over journals, and what a journal's file has to be, by docs/reference/journal.md: for `.ci/journal` and `bench/journal`."""

import hashlib
import json
import os
import random
import re
import subprocess
import tempfile
import threading
import time
from pathlib import Path
from typing import NamedTuple

import hosting
from loopback import Talk, holds, same, wait_for

# The program that is tried: a script sets it.
PROGRAM = Path(__file__).resolve().parent.parent / "crates" / "warpd" / "out" / "warpd"
# How many clients a host has that is killed.
CLIENTS = 16
NUMBER = r"(?:0|[1-9]\d*)"
RECORD = re.compile(rf"event {NUMBER} {NUMBER} {NUMBER} {NUMBER} (?:{NUMBER}|-[1-9]\d*)|withdraw {NUMBER} {NUMBER} {NUMBER}"
                    rf"|announce {NUMBER} {NUMBER} {NUMBER} {NUMBER} {NUMBER}")


def long_program(folder):
    """A program that takes events for long: its variable is the sum of their values."""
    file = Path(folder, "program.json")
    file.write_text(json.dumps({"version": 1, "stop": 1_000_000, "origins": 1, "reactors": [
        {"name": "r", "vars": [["total", 0]], "inputs": ["a"], "outputs": ["y"], "reactions": [
            {"on": ["a"], "writes": ["y"], "body": [["set", "total", ["+", "total", "a"]], ["put", "y", "total"]]}]}],
        "inputs": [[0, "r.a"]], "outputs": ["r.y"]}))
    return file


class Room:
    """A folder with a program and the path of a journal."""

    def __init__(self):
        self.folder = tempfile.TemporaryDirectory()
        self.program, self.file = long_program(self.folder.name), Path(self.folder.name, "kept.journal")

    def __enter__(self):
        return self

    def __exit__(self, *_):
        self.folder.cleanup()

    def host(self, *words, **more):
        more.setdefault("remarks", ["journal: "])
        return hosting.Hosted(PROGRAM, self.program, "--journal", self.file, *words, **more)

    def ended(self, *words, status, error, printed=""):
        """A call that ends by itself: so, and with this at the end of standard error."""
        said = subprocess.run([PROGRAM, *map(str, words)], stdin=subprocess.DEVNULL, capture_output=True, text=True, timeout=60)
        same((said.returncode, said.stdout), (status, printed), f"how {words} ends, with {said.stderr!r}")
        holds(said.stderr.endswith(error), f"{words} says {said.stderr!r}")
        return said.stderr

    def refused(self, status, error, program=None, file=None):
        return self.ended("host", program or self.program, "--listen", "127.0.0.1:0", "--journal", file or self.file, status=status,
                          error=error)

    def ended_at_start(self, env, number):
        """A host in this environment does not start, since its journal fails, for which the system gives this number."""
        said = subprocess.run([PROGRAM, "host", self.program, "--listen", "127.0.0.1:0", "--journal", self.file], stdin=subprocess.DEVNULL,
                              capture_output=True, text=True, timeout=60, env=env)
        same((said.returncode, said.stdout, said.stderr), (4, "", unusable(self.file, number)), "how a host ends whose journal fails")

    def checked(self, count, ending="whole", status=0, error=""):
        """`warpd journal check` tells of so many records, and this of the end."""
        fingerprint = self.file.read_bytes().split(b"\n", 1)[0].decode().split(" ")[4]
        self.ended("journal", "check", self.file, status=status, error=error,
                   printed=f"version 1\nfingerprint {fingerprint}\nrecords {count}\n{ending}\n")

    def holds_log(self, wanted, said=()):
        """A host that starts now says so, and has this log; and when it has ended, so has the file."""
        with self.host() as host:
            same(host.talk().log(), wanted, "the log behind a start")
            same(remarks(host), list(said), "what a start says")
        same(read(self.file.read_bytes())[:2], (wanted, self.file.stat().st_size), "the file")
        holds(not Path(f"{self.file}.new").exists(), "the fresh file is left")

    def records(self):
        return [it for it in self.file.read_text().splitlines()[1:] if not it.startswith("= ")]


def remarks(host):
    """What a host said on standard error, but for its start and its end in order."""
    return [it for it in host.printed(1).splitlines() if not hosting.is_usual(it)]


def wait_until_refused(host):
    """Waits until the host's worker knows that the disk fails: what the journal's thread says on standard error may be read before that."""
    wait_for(lambda: hosting.get(host.address, "/readyz")[0] == 503, "records are refused")


def numbers(host):
    """What the page of metrics says of the journal, by name."""
    _, _, page = hosting.get(host.address, "/metrics")
    return {name: float(value) for name, value in re.findall(r"^warpd_journal_(\w+) (\S+)$", page.decode(), re.M)}


def fails(why):
    return f"journal: it can't be written: {why}; records are refused 14 until it is written anew, which is tried each second"


def renewed(count):
    return f"journal: written anew, with {count} record{'s' * (count != 1)}"


def is_cut(file, number, why, cut):
    """What a start says that cut so many bytes off, from this line on."""
    return f"journal: line {number} {why}; {cut} byte{'s are' if cut != 1 else ' is'} cut off, and kept in {file}.damaged"


def is_kept(file, count):
    """What a start says that found so many bytes in the fresh file, with what the journal has not."""
    return f"journal: FILE.new had what FILE has not; its {count} byte{'s are' if count != 1 else ' is'} kept at the end of {file}.damaged"


def in_use(file):
    return f"journal {file}: another process has it\nthe journal is in use\n"


def is_other(file):
    return f"journal {file}: its first line is none, or another program's\nthat is no journal of this program\n"


def unusable(file, number):
    """What a host says that can't use its journal, since the system says this."""
    return f"journal {file}: {os.strerror(number)} (os error {number})\ncannot use the journal\n"


def old_first(data):
    """The first line of form 1, without its line feed, of the journal with these bytes."""
    return data.split(b"\n", 1)[0].replace(b"warpd journal 2 ", b"warpd journal 1 ")


OLD = "journal: it was of form 1; it was written anew, of form 2"
ONLY_COPY = ("journal {file}: it has no record, and FILE.new may have some: put that in its place, or move it away\n"
             "cannot use the journal\n")
LEFT = "journal: it could not be written when a host ended; it was written anew"
NO_RECORD = "is no record of this program's form, and no sum"
WRONG_SUM = "is not the sum of what stands before it"
# Of a torn batch so many lines may stand behind the one that does not go on, and no line of it has more bytes than this.
MOST_TORN, LONGEST = 1_024, 128


# Of a sum of form 2, what stands behind its digest.
SECONDS = re.compile(rb" (?:0|[1-9]\d*)")


class Read(NamedTuple):
    """What a journal's bytes are: the records of the lines that are kept, how many bytes these are, the number of the line behind them,
    what is wrong with it, if anything is, and whether that is damage."""
    records: list
    kept: int
    number: int
    why: str = ""
    is_damaged: bool = False


def is_sum(line, before, form, count):
    """Whether this line is the sum of so many records and what has this digest."""
    front = b"= %d " % count
    if not line.startswith(front):
        return False
    behind = line.removeprefix(front + before.hexdigest().encode())
    return behind == b"" if form == 1 else SECONDS.fullmatch(behind) is not None


def read(data):
    end = data.index(b"\n") + 1
    kept, records, number, digest = end, [], 2, hashlib.sha256(data[:end])
    form = 1 if data.startswith(b"warpd journal 1 ") else 2
    while (end := data.find(b"\n", kept) + 1) > 0:
        line = data[kept:end - 1]
        if is_sum(line, digest, form, len(records)):
            pass
        elif RECORD.fullmatch(line.decode("latin-1")):
            records.append(line.decode())
        else:
            *rest, torn = data[kept:].split(b"\n")
            later = len(rest) > MOST_TORN + 1 or len(torn) > LONGEST or any(b"=" in it or len(it) > LONGEST for it in rest)
            return Read(records, kept, number, WRONG_SUM if line.startswith(b"= ") else NO_RECORD, later)
        digest.update(data[kept:end])
        kept, number = end, number + 1
    torn = data[kept:]
    if len(torn) > LONGEST:
        return Read(records, kept, number, WRONG_SUM if torn.startswith(b"= ") else NO_RECORD, True)
    return Read(records, kept, number, "is torn" if torn else "")


def summed(first, records, every=1_024):
    """The bytes of a journal with this first line and these records, with a sum behind each so many and at the end."""
    digest, pieces = hashlib.sha256(), []

    def add(line):
        pieces.append(line)
        digest.update(line)
    add(first + b"\n")
    seconds = b" 1700000000" * first.startswith(b"warpd journal 2 ")
    for place, record in enumerate(records, 1):
        add(record.encode() + b"\n")
        if place % every == 0 or place == len(records):
            add(b"= %d %s%s\n" % (place, digest.hexdigest().encode(), seconds))
    return b"".join(pieces)


def fill(host, batches, size=3):
    """Sends so many batches of records, each behind the answers to the last, and gives all."""
    talk, sent = host.talk(), []
    for batch in range(batches):
        lines = [f"event 0 {batch * size + at} 0 0 {batch + at}" for at in range(size)]
        talk.ask_all(lines)
        sent += lines
    return sent


class Client(threading.Thread):
    """Sends records of its own until the host is gone. Of each it remembers whether it was sent, and the place that it was told."""

    def __init__(self, address, number, ahead, pause=0):
        super().__init__(daemon=True)
        self.address, self.number, self.ahead, self.pause = address, number, ahead, pause
        self.sent, self.told, self.longest, self.others = [], {}, 0, []

    def run(self):
        dice = random.Random(self.number)
        try:
            talk = Talk(self.address)
            for at in range(2_000):
                lines = [f"event 0 {CLIENTS * (self.ahead + at) + self.number} {it} 0 1" for it in range(dice.randrange(1, 12))]
                self.sent += lines
                self.take(talk, lines)
                time.sleep(self.pause)
        except (OSError, hosting.Wrong):
            pass  # (the host was killed)

    def take(self, talk, lines):
        talk.send("".join(it + "\n" for it in [*lines, "var 0"]).encode())
        for line in lines:
            word, _, place = talk.line().partition(" ")
            if word == "taken":
                self.told[line] = int(place)
            else:
                self.others.append((line, word, place))
        self.longest = max(self.longest, int(talk.line().split(" ")[1]))


class Watcher(threading.Thread):
    """Watches the log until the host is gone."""

    def __init__(self, address):
        super().__init__(daemon=True)
        self.address, self.seen = address, {}

    def run(self):
        try:
            talk = Talk(self.address)
            talk.ask("watch log 1")
            while True:
                _, _, place, line = talk.line().split(" ", 3)
                self.seen[line] = int(place)
        except (OSError, hosting.Wrong, ValueError):
            pass


class Crowd:
    """What clients and watchers of hosts over one journal sent, and what they were told."""

    def __init__(self):
        self.sent, self.told, self.longest, self.refused = set(), {}, 0, set()

    def come(self, host, ahead, until, may_fail=False):
        """Clients come, and send until the host is killed. Where its disk may fail, records may be refused 14, and clients take their time."""
        crowd = [*(Client(host.address, number, ahead, may_fail / 20) for number in range(CLIENTS)), Watcher(host.address)]
        for it in crowd:
            it.start()
        until()
        host.process.kill()
        for it in crowd:
            it.join(60)
        for it in crowd[:-1]:
            self.refused |= {line for line, *answer in it.others if may_fail and answer == ["refused", "14"]}
            same([other for other in it.others if other[0] not in self.refused], [], "answers but `taken`")
            self.sent |= set(it.sent)
            self.told |= it.told
            self.longest = max(self.longest, it.longest)
        self.told |= crowd[-1].seen

    def look(self, log):
        """What was told is there, and nothing that was never sent, or that was refused."""
        holds(len(log) >= self.longest, f"a log of {len(log)} records, of which {self.longest} were told")
        holds(set(log) <= self.sent - self.refused and len(set(log)) == len(log), "a record that was never sent, was refused, or stands twice")
        for line, place in self.told.items():
            same(log[place - 1], line, f"the record that was told to be at place {place}")
