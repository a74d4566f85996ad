"""`python3 -m warpd recast` over the built program: the rows of clients/python/tests/recast.rows, what becomes of files, a long journal,
and what the guide shows. For `.ci/clients`. Whether a journal that was written is one, `warpd journal check` says, and a host that starts
with it."""

import os
import re
import subprocess
import sys
import tempfile
import time
from concurrent.futures import ThreadPoolExecutor
from pathlib import Path

from hosting import Hosted
from journals import summed
from loopback import SECONDS

ROOT = Path(__file__).resolve().parent.parent
PROGRAM = Path(sys.argv[1]).resolve() if sys.argv[1:] else ROOT / "crates" / "warpd" / "out" / "warpd"
ROWS, GUIDE = ROOT / "clients" / "python" / "tests" / "recast.rows", ROOT / "docs" / "guide" / "journal.md"
# How many there are at least: who adds one raises it.
LEAST_ROWS = 47
# So many rows run side by side.
AT_ONCE = 4
WORDS = "old.json new.json old.journal -o new.journal"
# A sum over records, which puts the sum.
TOTAL = """{"version":3,"stop":1000000,"origins":1,"reactors":[{"name":"r","vars":[["total",0]],"inputs":["a"],"outputs":["y"],"reactions":[
  {"on":["a"],"writes":["y"],"body":[["set","total",["+","total","a"]],["put","y","total"]]}]}],"inputs":[[0,"r.a"]],"outputs":["r.y"]}"""


def rows_of(path):
    """The files that each row has, and the rows by their names."""
    files, rows, lines = {}, {}, None
    for line in path.read_text().splitlines():
        sign, _, rest = line.partition(" ")
        if sign == "file":
            lines = files[rest] = []
        elif sign == "row":
            assert rest not in rows, f"the row {rest!r} stands twice"
            row = rows[rest] = {it: [] for it in "+~-$%<!=?"}
        elif sign == "+":
            lines = []
            row["+"].append((rest, lines))
        elif sign == "|":
            lines.append(rest)
        elif sign in ("~", "-", "$", "%", "<", "!", "=", "?"):
            row[sign].append(rest)
        else:
            assert not line or sign == "#", line
    return files, rows


class Room:
    """A folder with programs and journals."""

    def __init__(self, files):
        self.folder = tempfile.TemporaryDirectory()
        self.path = Path(self.folder.name)
        for name, lines in files.items():
            self.file(name).write_text("".join(f"{line}\n" for line in lines))

    def __enter__(self):
        return self

    def __exit__(self, *_):
        self.folder.cleanup()

    def file(self, name):
        return self.path / name

    def edit(self, text):
        """Does what a line of a row says behind its `~`."""
        name, _, rest = text.partition(" ")
        file = self.file(name)
        if rest.startswith("< "):
            file.write_text(self.file(rest[2:]).read_text())
            return
        before, _, after = rest.partition(" =>")
        was = (file if file.exists() else self.file("old.json")).read_text()
        assert was.count(before) == 1, f"{before} stands {was.count(before)} times in {name}"
        file.write_text(was.replace(before, after.lstrip()))

    def fingerprint(self, program):
        said = subprocess.run([PROGRAM, "check", "--fingerprint", program], cwd=self.path, capture_output=True, text=True, check=True)
        return re.search(r"^fingerprint (\S+)$", said.stdout, re.M)[1]

    def first(self, program, form=2):
        """The first line of a program's journal."""
        version = 1 if program.startswith("builtin:") else re.search(r'"version":(\d)', self.file(program).read_text())[1]
        return f"warpd journal {form} {version} {self.fingerprint(program)}".encode()

    def journal(self, program, records, name="old.journal", form=2):
        self.file(name).write_bytes(summed(self.first(program, form), records))

    def recast(self, words=WORDS):
        """The status, and what is printed on each stream."""
        path = {**os.environ, "PYTHONPATH": str(ROOT / "clients" / "python"), "PYTHONDONTWRITEBYTECODE": "1", "COLUMNS": "200"}
        command = [sys.executable, "-m", "warpd", "recast", *words.split(" "), "--warpd", str(PROGRAM)]
        # A long journal takes minutes where there are five times as many processes as cores.
        ran = subprocess.run(command, cwd=self.path, env=path, capture_output=True, text=True, timeout=4 * SECONDS)
        return ran.returncode, ran.stdout.splitlines(), ran.stderr.splitlines()

    def holds(self, program, records, name="new.journal"):
        """The file is a whole journal of the program with these records, and with sums where the reference wants them."""
        lines = self.file(name).read_bytes().decode().splitlines()
        assert lines[0].encode() == self.first(program), lines[0]
        assert [it for it in lines[1:] if not it.startswith("= ")] == records, lines
        sums = [it.split(" ")[1] for it in lines if it.startswith("= ")]
        wanted = [*range(1_024, len(records) + 1, 1_024)] + [len(records)] * (len(records) % 1_024 > 0)
        assert sums == [str(it) for it in wanted] and lines[-1].startswith("= ") == bool(records), sums
        said = subprocess.run([PROGRAM, "journal", "check", self.file(name)], capture_output=True, text=True, timeout=SECONDS)
        assert said.returncode == 0 and said.stdout.endswith(f"records {len(records)}\nwhole\n"), said
        assert self.file(name).stat().st_mode & 0o777 == 0o600, "others may read it"

    def names(self):
        return sorted(it.name for it in self.path.iterdir())


def is_told(room, status, wanted, printed):
    """Standard error has these lines, whose fingerprints are those of files."""
    lines = [re.sub(r"\{([\w.:]+)\}", lambda it: room.fingerprint(it[1]), line) for line in wanted]
    if status == 2:
        assert printed[-1].partition("error: ")[2] == "".join(lines) and printed[0].startswith("usage: "), printed
    else:
        assert printed == [f"recast: {it}" for it in lines], printed


def row_says(files, row):
    with Room({**files, **dict(row["+"])}) as room:
        for it in row["~"]:
            room.edit(it)
        words, status = "".join(row["$"]) or WORDS, int("".join(row["?"]) or 0)
        room.journal("".join(row["%"]) or words.split(" ")[0], row["-"])
        before = room.names()
        data = room.file("old.journal").read_bytes()
        got, printed, told = room.recast(words)
        assert (got, printed) == (status, row["<"]), f"status {got}, {printed}, {told}"
        is_told(room, status, row["!"], told)
        assert room.file("old.journal").read_bytes() == data, "the old journal was changed"
        if status or " -o " not in words:
            assert room.names() == before, f"files are left: {room.names()}"
        else:
            assert room.names() == sorted([*before, "new.journal"]), f"files are left: {room.names()}"
            program = words.split(" ")[1]
            if program.endswith(".json"):
                room.holds(program, row["="])


def recast_rows():
    files, rows = rows_of(ROWS)
    assert len(rows) >= LEAST_ROWS, f"there are {len(rows)} rows, {LEAST_ROWS} are wanted"
    with ThreadPoolExecutor(AT_ONCE) as pool:
        told = pool.map(lambda it: row_fails(files, *it), rows.items())
        assert not (failed := [it for it in told if it]), "\n".join(failed)


def row_fails(files, name, row):
    """What is wrong with a row, or nothing."""
    try:
        return row_says(files, row)
    except Exception as error:
        return f"{name}: {type(error).__name__} {error}"


def door(*records):
    """A room with a journal of the door's program, and a new program, in which it shuts after three."""
    room = Room(rows_of(ROWS)[0])
    room.edit('new.json "close",5 => "close",3')
    room.journal("old.json", list(records) or ["event 0 8 0 0 1", "event 0 27 0 0 1", "announce 0 40 0 2 0"])
    return room


DIFFER = ["records 3", "horizon (40, 0)", "released outputs differ first at (30, 0)", "OLD door.seen 2", "NEW door.seen 1"]
RECORDS = ["event 0 8 0 0 1", "event 0 27 0 0 1", "announce 0 40 0 2 0"]


def recast_hosted():
    """A host starts with what was written, and has each record at its place."""
    with door() as room:
        assert room.recast() == (0, DIFFER, []), "it differs at 30"
        with Hosted(PROGRAM, room.file("new.json"), "--journal", room.file("new.journal"), remarks=["journal: 3 records"]) as host:
            talk = host.talk()
            assert talk.log() == RECORDS
            talk.tell(("var 1", "var 3 1"), ("event 0 8 0 0 1", "known 1"), ("event 0 50 0 0 1", "taken 4"))


def recast_over():
    """What is there is not written over, but with --force; and what is no file, or has a host, not even so."""
    with door() as room:
        new = room.file("new.journal")
        new.write_text("mine\n")
        is_there = ["recast: new.journal: it is there; --force writes over it"]
        assert room.recast() == (4, [], is_there) and new.read_text() == "mine\n"
        assert room.recast(f"{WORDS} --force") == (0, DIFFER, [])
        room.holds("new.json", RECORDS)
        with Hosted(PROGRAM, room.file("new.json"), "--journal", new, remarks=["journal: 3 records"]) as host:
            assert room.recast(f"{WORDS} --force") == (4, [], ["recast: new.journal: another process has it"])
            assert host.talk().log() == RECORDS
        room.holds("new.json", RECORDS)
        assert room.recast() == (4, [], is_there)
        for wrong in ("old.journal", "./old.journal"):
            status, printed, told = room.recast(f"old.json new.json old.journal -o {wrong} --force")
            assert (status, printed) == (2, []) and told[-1].endswith("-o old.journal would take the place of the old journal"), told
        room.file("link").symlink_to(new)
        room.file("away").symlink_to("nowhere")
        for name in ("link", "away"):
            words = WORDS.replace("-o new.journal", f"-o {name}")
            assert room.recast(words) == (4, [], [f"recast: {name}: it is there; --force writes over it"])
            assert room.recast(f"{words} --force") == (4, [], [f"recast: {name}: it is no regular file"])
        status, printed, told = room.recast("old.json new.json old.journal -o nowhere/new.journal")
        assert (status, printed, told) == (4, [], ["recast: nowhere: No such file or directory"]), told
        assert [it for it in room.names() if "new.journal." in it] == ["new.journal.lock"], room.names()


def recast_forms():
    """Journals of form 1, torn and cut ones are read as a start of a host reads them; damaged ones, others and none are not."""
    with door() as room:
        old, two = room.file("old.journal"), room.file("old.journal").read_bytes()
        room.journal("old.json", RECORDS, form=1)
        assert old.read_bytes().count(b" 1700000000\n") == 0 and room.recast() == (0, DIFFER, [])
        room.holds("new.json", RECORDS)
        one = old.read_bytes()
        old.write_bytes(summed(room.first("old.json"), RECORDS, every=1))
        assert room.recast(f"{WORDS} --force") == (0, DIFFER, []) and old.read_bytes().count(b"= ") == 3
        room.holds("new.json", RECORDS)
        for data in (one, two):
            for torn in (b"event 0 9", b"= 3 ab"):
                old.write_bytes(data + torn)
                told = [f"recast: old.journal: torn: line 6 is not whole; {len(torn)} bytes, left out"]
                assert room.recast(f"{WORDS} --force") == (0, DIFFER, told) and old.read_bytes() == data + torn
                room.holds("new.json", RECORDS)
        no_record = "is no record of this program's form, and no sum"
        old.write_bytes(two + b"event 0 9\n")
        assert room.recast(f"{WORDS} --force") == (0, DIFFER, [f"recast: old.journal: cut: line 6 {no_record}; 10 bytes, left out"])
        new = room.file("new.journal").read_bytes()
        no_sum, nothing = "is not the sum of what stands before it", "recast: nothing was written"
        for data, why in (
            (two.replace(b"event 0 8 ", b"event 0 9 "), f"damaged: line 5 {no_sum}; {len(two.splitlines(True)[-1])} bytes"),
            (b"", "empty: a start begins it"), (b"hello\n", "its first line is none, or another program's"),
            (two[:9], "torn: line 1 is not whole; 9 bytes; a start begins it"),
        ):
            old.write_bytes(data)
            assert room.recast(f"{WORDS} --force") == (1, [], [f"recast: old.journal: {why}", nothing]), room.recast(f"{WORDS} --force")
        assert room.file("new.journal").read_bytes() == new
        old.unlink()
        assert room.recast(f"{WORDS} --force") == (4, [], ["recast: old.journal: No such file or directory (os error 2)"])


def recast_words():
    """Help goes to standard output; what is no words is told with the usage; so is a text with a fault, with its place; and a program that
    does not run."""
    with door() as room:
        status, printed, told = room.recast("--help")
        assert status == 0 and not told and printed[0].startswith("usage: python3 -m warpd recast OLD NEW OLD.journal"), printed
        for words in ("old.json new.json", "old.json new.json old.journal more", f"{WORDS} --nothing", f"{WORDS} --rename"):
            status, printed, told = room.recast(words)
            assert (status, printed) == (2, []) and told[0].startswith("usage: python3 -m warpd recast "), told
        room.file("new.lf").write_text("target warpd { stop: 60 }\nmain reactor { state n: int = m; }\n")
        status, printed, told = room.recast(WORDS.replace("new.json", "new.lf"))
        assert (status, printed) == (1, []) and told[0].startswith("new.lf:2:") and told[-2:] == [
            "recast: new.lf: it has a fault", "recast: nothing was written"], told
        said = room.recast(f"{WORDS} --warpd nowhere")
        assert said[0] == 0, "the last --warpd counts, which the call adds"
        for text in ("exit 5", "exit 0"):
            room.file("ends").write_text(f"#!/bin/sh\n[ $1 = run ] || exec {PROGRAM} \"$@\"\n{text}\n")
            room.file("ends").chmod(0o755)
            ran = subprocess.run([sys.executable, "-m", "warpd", "recast", *WORDS.replace("new.j", "other.j", 2).replace(
                "other.json", "new.json").split(" "), "--warpd", "./ends"], cwd=room.path, capture_output=True, text=True, timeout=SECONDS,
                env={**os.environ, "PYTHONPATH": str(ROOT / "clients" / "python"), "PYTHONDONTWRITEBYTECODE": "1"})
            assert ran.returncode == 4 and ran.stderr.startswith("recast: warpd run ended: "), ran
        assert "other.journal" not in room.names()


def recast_long():
    """100,005 records, of which the last five are more than a log of version 1 takes; and in which the total that the 70,000th puts is
    otherwise. How long it took is printed."""
    events = [f"event 0 {time} 0 0 1" for time in range(100_000)]
    records = [*events, *(f"announce 0 {time} 0 {time} 0" for time in (20_000, 40_000, 60_000, 80_000, 100_000))]
    with Room({"old.json": [TOTAL]}) as room:
        room.journal("old.json", records)
        room.edit('new.json ["set","total",["+","total","a"]] => ["set","total",["+","total",["if",["=","total",69999],2,"a"]]]')
        began = time.monotonic()
        said = room.recast()
        print(f"recast of 100,005 records and 100,000 outputs: {time.monotonic() - began:.1f} seconds", flush=True)
        wanted = ["records 100005", "horizon (100000, 0)", "released outputs differ first at (69999, 0)", "OLD r.y 70000", "NEW r.y 70001"]
        assert said == (0, wanted, []), said
        room.holds("new.json", records)
        room.edit('same.json "stop":1000000 => "stop":1000001')
        said = room.recast("old.json same.json old.journal")
        assert said == (0, [*wanted[:2], "released outputs do not differ: 100000 before (100000, 0)"], []), said
        room.edit('short.json "version":3 => "version":1')
        told = ["5 records refused 7: the log is full", *(f"  line {100_099 + at}: {it}" for at, it in enumerate(records[-5:])),
                "nothing was written"]
        said = room.recast("old.json short.json old.journal -o short.journal")
        assert said == (1, [], [f"recast: {it}" for it in told]), said


def recast_guide():
    """What the guide shows is what is printed."""
    (shown,) = re.findall(r"```console\n\$ python3 -m warpd recast (.*)\n((?:.*\n)*?)```", GUIDE.read_text())
    words, printed = shown
    with door() as room:
        room.file("game.journal").write_bytes(room.file("old.journal").read_bytes())
        room.file("game.json").write_bytes(room.file("old.json").read_bytes())
        assert room.recast(words) == (0, printed.splitlines(), []), room.recast(f"{words} --force")


CASES = [recast_rows, recast_hosted, recast_over, recast_forms, recast_words, recast_long, recast_guide]
