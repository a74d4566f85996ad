"""The cases of `.ci/journal` over where a journal stands: other names of one file, a lock that is gone, what stands beside it, and a file
that is removed, renamed, cut short, written to or replaced while a host writes it."""

import contextlib
import errno
import os
import subprocess
import time
from pathlib import Path

import hosting
import journals
from disks import is_silent
from journals import Room, fill, in_use, is_kept, remarks, renewed
from loopback import holds, same, wait_for

GONE, SHORT, LONG = "it was removed, renamed or replaced", "it was cut short", "another wrote to it"
NO_FRESH = "journal: it can't be written anew: FILE.new is a folder"
# A user who is neither root nor the one of these scripts.
ANOTHER_USER = 54_321
ANOTHER = "journal: it can't be written anew: another file stands under its name"


def lost(why):
    return f"journal: {why}; records are refused 14 until it is written anew, which is tried each second"


def one_host():
    """By a hard link, and with the lock's file removed, a second host is refused, and so is a repair; also behind a journal that was written
    anew, and by a link to the old file of one that was."""
    with Room() as room, room.host() as host:
        sent = fill(host, 2)
        hard, lock = Path(room.folder.name, "hard.journal"), Path(f"{room.file}.lock")
        hard.hardlink_to(room.file)
        for _ in range(2):
            lock.unlink()
            for file in (hard, room.file):
                same(room.refused(6, in_use(file), file=file), in_use(file), "what is said")
                room.ended("journal", "repair", file, status=6, error=in_use(file))
            room.checked(len(sent))
            hard.unlink()
            room.file.unlink()
            wait_for(lambda: room.file.exists() and len(remarks(host)) % 2 == 0, "the journal written anew")
            hard.hardlink_to(room.file)
        sent += ["event 0 99 0 0 1"]
        same(host.talk().ask(sent[-1]), f"taken {len(sent)}", "a record of the first host")
        same(remarks(host), [lost(GONE), renewed(6)] * 2, "what is said")
        same(room.records(), sent, "the records of the file")


def remove(file):
    file.unlink()


def rename(file):
    file.rename(f"{file}.old")


def cut_short(file):
    os.truncate(file, 100)


def empty(file):
    file.write_bytes(b"")


def written_to(file):
    with file.open("ab") as it:
        it.write(b"event 0 5000 0 0 1\n")


def moved():
    """A journal that is removed, renamed, cut short or written to by another is a disk that fails: it is told within some seconds, also
    where nothing is sent, and written anew from the log; with `always` nothing is told that is in no file of that name."""
    for how, why in ((remove, GONE), (rename, GONE), (cut_short, SHORT), (empty, SHORT), (written_to, LONG)):
        for words in ((), ("--sync", "10"), ("--sync", "never")):
            with Room() as room:
                host = room.host(*words)
                try:
                    sent = fill(host, 3)
                    how(room.file)
                    if words:
                        wait_for(lambda: len(remarks(host)) == 2, f"what is said of {how.__name__} with {words}", 30)
                    sent.append("event 0 99 0 0 1")
                    talk = host.talk()
                    answer = wait_for(lambda: (it := talk.ask(sent[-1])) != "refused 14" and it, "a record is taken", 30)
                    same(answer, "taken 10", "a record")
                    wait_for(lambda: len(remarks(host)) == 2, f"what is said of {how.__name__} with {words}", 30)
                    same(remarks(host)[0], lost(why), "what is said")
                    holds(remarks(host)[1] in (renewed(9), renewed(10)), f"what is said: {remarks(host)}")
                    same(room.records(), sent, "the records of the file")
                    host.finish()
                finally:
                    host.kill()
                room.checked(10)
                room.holds_log(sent)


def replaced():
    """Where another file is put in its place, that stays as it is: the journal is written anew when it is gone."""
    with Room() as room:
        other = Path(room.folder.name, "other")
        other.write_bytes(b"what somebody put there\n")
        host = room.host()
        try:
            sent = fill(host, 3)
            other.rename(room.file)
            talk = host.talk()
            wait_for(lambda: remarks(host) == [lost(GONE), ANOTHER], "what is said", 30)
            talk.send(b"event 0 98 0 0 1\n")
            same(talk.line(), "refused 14", "a record meanwhile")
            same(room.file.read_bytes(), b"what somebody put there\n", "another's file")
            holds(is_silent(talk), "nothing more is told")
            room.file.unlink()
            wait_for(lambda: remarks(host) == [lost(GONE), ANOTHER, renewed(9)], "what is said", 30)
            host.finish()
        finally:
            host.kill()
        room.holds_log(sent)


def permissions():
    """A journal that is written anew may be read and written by those who might before, whatever stands under its name by then."""
    with Room() as room:
        with room.host() as host:
            sent = fill(host, 1)
        room.file.chmod(0o640)
        other = Path(room.folder.name, "other")
        host = room.host()
        try:
            for count in range(2):
                other.write_bytes(b"what somebody put there\n")
                other.chmod(0o666)
                if count:
                    other.rename(room.file)
                    wait_for(lambda: remarks(host)[-1] == ANOTHER, "what is said", 30)
                room.file.unlink()
                wait_for(lambda count=count: remarks(host)[-1:] == [renewed(3)] and len(remarks(host)) > 2 * count, "what is said", 30)
                same(room.file.stat().st_mode & 0o777, 0o640, "who may read and write it")
            host.finish()
        finally:
            host.kill()
        room.holds_log(sent)
        same(room.file.stat().st_mode & 0o777, 0o640, "who may read and write it")


def beside():
    """What stands beside a journal under a name of its own, and is no regular file, holds no start and is not written through."""
    with Room() as room:
        with room.host() as host:
            sent = fill(host, 1)
        data, victim = room.file.read_bytes(), Path(room.folder.name, "victim")
        victim.write_bytes(b"another's\n")
        lock, aside, fresh = (Path(f"{room.file}.{it}") for it in ("lock", "damaged", "new"))
        lock.unlink()
        for file, there in ((lock, data), (aside, data + b"event")):
            room.file.write_bytes(there)
            words = f"journal {room.file}: FILE{file.suffix} is no regular file\ncannot use the journal\n"
            for make in (os.mkfifo, os.mkdir, lambda path: os.symlink(victim, path), lambda path: os.symlink("/nowhere", path)):
                make(file)
                same(room.refused(4, words), words, f"a start beside {file.name}")
                room.ended("journal", "repair", room.file, status=4, error=words)
                file.rmdir() if file.is_dir() else file.unlink()
            same((room.file.read_bytes(), victim.read_bytes()), (there, b"another's\n"), "the files")
        other_name = f"journal {room.file}: FILE.damaged has a second name, or is another user's\ncannot use the journal\n"
        # Here the journal ends with a torn line, so that there is something to keep aside.
        os.link(victim, aside)
        same(room.refused(4, other_name), other_name, "a start beside a second name of a file")
        room.ended("journal", "repair", room.file, status=4, error=other_name)
        same((room.file.read_bytes(), victim.read_bytes()), (data + b"event", b"another's\n"), "the files")
        aside.unlink()
        if os.geteuid() == 0:
            aside.write_bytes(b"")
            os.chown(aside, ANOTHER_USER, -1)
            same(room.refused(4, other_name), other_name, "a start beside another user's file")
            aside.unlink()
        room.file.write_bytes(data)
        fresh.mkdir()
        is_folder = f"journal {room.file}: FILE.new is a folder\ncannot use the journal\n"
        same(room.refused(4, is_folder), is_folder, "a start beside a folder")
        fresh.rmdir()
        host = room.host()
        try:
            fresh.mkdir()
            room.file.unlink()
            wait_for(lambda: remarks(host) == [lost(GONE), NO_FRESH], "what is said", 30)
            time.sleep(3)
            same(remarks(host), [lost(GONE), NO_FRESH], "what is said behind more tries")
            fresh.rmdir()
            wait_for(lambda: remarks(host) == [lost(GONE), NO_FRESH, renewed(3)], "what is said", 30)
            host.finish()
        finally:
            host.kill()
        for make in (lambda path: os.symlink(victim, path), lambda path: os.link(victim, path)):
            make(fresh)
            room.holds_log(sent, said=[journals.LEFT])
            same((victim.read_bytes(), room.file.is_symlink(), room.file.stat().st_nlink), (b"another's\n", False, 1), "the files")
        # A pipe is no mark of a host's, and goes when the journal is written anew.
        os.mkfifo(fresh)
        host = room.host()
        try:
            room.file.unlink()
            wait_for(lambda: remarks(host) == [lost(GONE), renewed(3)], "what is said", 30)
            host.finish()
        finally:
            host.kill()
        room.holds_log(sent)


def no_file():
    """What is there and is no file of bytes is no journal: a pipe, a device."""
    with Room() as room:
        pipe = Path(room.folder.name, "pipe")
        os.mkfifo(pipe)
        for path in (pipe, "/dev/null", "/dev/full"):
            words = [journals.PROGRAM, "host", room.program, "--listen", f"{hosting.HOST}:0", "--journal", path]
            said = subprocess.run(words, stdin=subprocess.DEVNULL, capture_output=True, text=True, timeout=60)
            same((said.returncode, said.stdout, said.stderr), (4, "", journals.unusable(path, 22)), f"a start over {path}")
            for action in ("check", "repair"):
                room.ended("journal", action, path, status=4, error=journals.unusable(path, 22))
        for action in ("check", "repair"):
            room.ended("journal", action, room.file, status=4, error=journals.unusable(room.file, errno.ENOENT))
        same(sorted(it.name for it in Path(room.folder.name).iterdir()), ["pipe", "program.json"], "what stands there")


def holds_records(file, records):
    """Whether this file is a journal of these records, whole."""
    with contextlib.suppress(OSError, ValueError):
        data = file.read_bytes()
        return journals.read(data)[:2] == (records, len(data))
    return False


def left_with_more():
    """A start that finds a fresh file with what the journal has not keeps that in `FILE.damaged` first, byte for byte, and says so: the journal
    was replaced by an older copy, and the host was killed while it wrote it anew. One that has first records of the journal alone goes."""
    with Room() as room:
        fresh, aside = (Path(f"{room.file}.{it}") for it in ("new", "damaged"))
        with room.host() as host:
            old = fill(host, 2)
        older = room.file.read_bytes()
        host = room.host()
        try:
            sent = [f"event 0 {at} 0 0 1" for at in range(50, 60)]
            same(host.talk().ask_all(sent)[-1], "taken 16", "the last record")
            copy = Path(room.folder.name, "copy")
            copy.write_bytes(older)
            copy.rename(room.file)
            wait_for(lambda: remarks(host) == [lost(GONE), ANOTHER], "what is said", 30)
            wait_for(lambda: holds_records(fresh, old + sent), "the fresh file", 30)
        finally:
            host.kill()
        data = fresh.read_bytes()
        room.holds_log(old, said=[is_kept(room.file, len(data)), journals.LEFT])
        same((aside.read_bytes(), aside.stat().st_mode & 0o777), (data, 0o600), "what is kept aside")
        # What is kept is a journal, and is told by how many bytes it has.
        first, kept = older[:older.index(b"\n")], aside.read_bytes()
        few = journals.summed(first, [*old, "event 0 77 0 0 1"])
        other = journals.summed(first, [*old[:-1], "event 0 77 0 0 1"])
        many = journals.summed(first, old, 1)
        holds(len(few) < len(many), "a fresh file with more records and fewer bytes")
        for there in (few, other, few[:-3], b"no journal\n", journals.summed(first.replace(b" 2 1 ", b" 2 2 "), old),
                      journals.summed(first, old) + b"x" * 200 + b"\n" + journals.summed(first, old)):
            room.file.write_bytes(many)
            fresh.write_bytes(there)
            kept += there
            room.holds_log(old, said=[is_kept(room.file, len(there)), journals.LEFT])
            same(aside.read_bytes(), kept, "what is kept aside")
        for there in (b"", first[:20], first + b"\n", many, older, journals.summed(first, old), journals.summed(first, old)[:-3], many[:300],
                      journals.summed(journals.old_first(older), old)):
            room.file.write_bytes(many)
            fresh.write_bytes(there)
            room.holds_log(old, said=[journals.LEFT])
            same(aside.read_bytes(), kept, "what is kept aside")
        # What can't be kept aside is not written over.
        aside.rename(f"{aside}.old")
        os.symlink("/nowhere", aside)
        room.file.write_bytes(many)
        fresh.write_bytes(few)
        words = f"journal {room.file}: FILE.damaged is no regular file\ncannot use the journal\n"
        same(room.refused(4, words), words, "a start that can't keep it aside")
        same((room.file.read_bytes(), fresh.read_bytes()), (many, few), "the files")


def left_at_the_end():
    """A fresh file that has the whole log and can't take the journal's place is written once, and stays as it is where the host ends in order:
    the next start keeps it. A file that was removed just before the end is told, or is written anew by then."""
    with Room() as room:
        fresh, aside = (Path(f"{room.file}.{it}") for it in ("new", "damaged"))
        with room.host() as host:
            old = fill(host, 2)
        copy = Path(room.folder.name, "copy")
        copy.write_bytes(room.file.read_bytes())
        host = room.host()
        try:
            sent = [f"event 0 {at} 0 0 1" for at in range(50, 60)]
            same(host.talk().ask_all(sent)[-1], "taken 16", "the last record")
            copy.rename(room.file)
            wait_for(lambda: remarks(host) == [lost(GONE), ANOTHER], "what is said", 30)
            data, before = fresh.read_bytes(), fresh.stat()
            holds(holds_records(fresh, old + sent), "the fresh file")
            time.sleep(2.5)
            host.process.stdin.close()
            same(host.process.wait(60), 4, "the status")
            same(remarks(host), [lost(GONE), ANOTHER, "cannot write the journal"], "what is said")
        finally:
            host.kill()
        after = fresh.stat()
        same((after.st_ino, after.st_mtime_ns), (before.st_ino, before.st_mtime_ns), "when the fresh file was written")
        room.holds_log(old, said=[is_kept(room.file, len(data)), journals.LEFT])
        same(aside.read_bytes(), data, "what is kept aside")
        host = room.host()
        try:
            room.file.unlink()
            host.process.stdin.close()
            status = host.process.wait(60)
            same(remarks(host)[0], lost(GONE), "what is said")
            same(status, 0 if room.file.exists() else 4, "the status")
        finally:
            host.kill()


def left_by_users():
    """What a host left in the fresh file is kept also where the journal's file is another user's, as a copy that was put in its place. What
    neither of the two owns is not touched, and no host starts."""
    holds(os.geteuid() == 0, "only root can give files to others")
    with Room() as room:
        fresh, aside = (Path(f"{room.file}.{it}") for it in ("new", "damaged"))
        with room.host() as host:
            old = fill(host, 1)
        data = room.file.read_bytes()
        more = journals.summed(data[:data.index(b"\n")], [*old, "event 0 77 0 0 1"])
        fresh.write_bytes(more)
        os.chown(room.file, ANOTHER_USER, -1)
        room.holds_log(old, said=[is_kept(room.file, len(more)), journals.LEFT])
        same((aside.read_bytes(), aside.stat().st_uid), (more, 0), "what is kept aside")
        kept = room.file.read_bytes()
        fresh.write_bytes(more)
        os.chown(fresh, ANOTHER_USER, -1)
        words = f"journal {room.file}: FILE.new is another user's: move it away\ncannot use the journal\n"
        same(room.refused(4, words), words, "a start beside another user's")
        same((room.file.read_bytes(), fresh.read_bytes(), aside.read_bytes()), (kept, more, more), "the files")
        os.chown(room.file, ANOTHER_USER, -1)
        room.holds_log(old, said=[is_kept(room.file, len(more)), journals.LEFT])
        same(aside.read_bytes(), more * 2, "what is kept aside")


def own_lock():
    """The file of a lock is made for its owner alone: who may read it may hold it. One that is there keeps its mode."""
    with Room() as room:
        lock = Path(f"{room.file}.lock")
        for make in (lambda: None, lambda: lock.chmod(0o640), lock.unlink):
            make()
            mode = lock.stat().st_mode & 0o777 if lock.exists() else 0o600
            with room.host():
                same(lock.stat().st_mode & 0o777, mode, "who may read and write the lock")


def open_files(host):
    """What the descriptors of a host lead to."""
    found = []
    for it in Path(f"/proc/{host.process.pid}/fd").iterdir():
        with contextlib.suppress(OSError):
            found.append(os.readlink(it))
    return found


def lets_go():
    """When a journal is written anew, nothing holds its old file any longer, also where no record comes."""
    for words in ((), ("--sync", "10"), ("--sync", "never")):
        with Room() as room, room.host(*words) as host:
            fill(host, 2)
            for count in range(1, 3):
                room.file.rename(f"{room.file}.old{count}")
                wait_for(lambda count=count: remarks(host) == [lost(GONE), renewed(6)] * count, "the journal written anew", 30)
                wait_for(lambda: not any(f"{room.file.name}.old" in it for it in open_files(host)), f"the old file is let go of with {words}", 5)
                holds(any(it.endswith(room.file.name) for it in open_files(host)), "the new file is open")
            same(host.talk().ask("event 0 99 0 0 1"), "taken 7", "a record")


def not_begun():
    """`check` and `repair` of a file that is empty, or has a front of a first line, say so, and make no file beside it; nor does a `repair` of
    what is no journal."""
    with Room() as room:
        with room.host() as host:
            fill(host, 1)
        data = room.file.read_bytes()
        first = data[:data.index(b"\n")]
        Path(f"{room.file}.lock").unlink()
        room.program.unlink()
        for front in (b"", b"w", first[:16], first[:17], first[:18], first[:40], first, journals.old_first(data)[:50]):
            room.file.write_bytes(front)
            line = f"torn: line 1 is not whole; {len(front)} bytes; a start begins it\n" if front else "empty: a start begins it\n"
            for action in ("check", "repair"):
                same(room.ended("journal", action, room.file, status=0, error="", printed=line), "", "what is said")
        words = journals.is_other(room.file)
        for other in (b"\n", b"wa\n", b"x", first + b"0", first[:16] + b"4", first[:17] + b"x", first[:-1] + b"g", first.upper(), data[1:], b"x" * 70_000):
            room.file.write_bytes(other)
            for action in ("check", "repair"):
                same(room.ended("journal", action, room.file, status=3, error=words), words, f"what is said of {other[:90]!r}")
            same(room.file.read_bytes(), other, "the file")
        same([it.name for it in Path(room.folder.name).iterdir()], [room.file.name], "what stands there")


CASES = [one_host, moved, replaced, permissions, beside, no_file, left_with_more, left_at_the_end, left_by_users, own_lock, lets_go, not_begun]
