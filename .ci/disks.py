"""Disks that fail, or are slow, when a script says so, and the cases of `.ci/journal` that are over them. A few lines of C, which the C compiler of the
system makes into a library that is loaded before all others, stand between a host and the files that have `.journal` in their names."""

import errno
import os
import random
import resource
import shutil
import signal
import socket
import subprocess
import tempfile
import time
from concurrent.futures import ThreadPoolExecutor
from pathlib import Path

import hosting
import journals
from journals import LEFT, Client, Crowd, Room, fails, fill, numbers, read, remarks, renewed, unusable, wait_until_refused
from loopback import Wrong, holds, same, wait_for

FAILING = r"""
#define _GNU_SOURCE
#include <dlfcn.h>
#include <errno.h>
#include <stdio.h>
#include <stdlib.h>
#include <string.h>
#include <sys/stat.h>
#include <time.h>
#include <unistd.h>

static long writes, syncs, folders, renames;

static long word(const char *name, long otherwise) {
    const char *text = getenv(name);
    return text ? atol(text) : otherwise;
}

static int is_journal(int file) {
    char link[64], path[4096];
    snprintf(link, sizeof link, "/proc/self/fd/%d", file);
    ssize_t size = readlink(link, path, sizeof path - 1);
    if (size < 0) return 0;
    path[size] = 0;
    return strstr(path, ".journal") && !strstr(path, ".lock");
}

/* A sync takes so many milliseconds where there is a file `slow` in the folder FAULTS, a write where there is one `stuck`. */
static void nap(const char *name) {
    char path[4096];
    const char *folder = getenv("FAULTS");
    long long_ms = word("SLOW", 0);
    struct timespec span = {long_ms / 1000, long_ms % 1000 * 1000000};
    if (!folder || !long_ms) return;
    snprintf(path, sizeof path, "%s/%s", folder, name);
    if (access(path, F_OK) == 0) nanosleep(&span, 0);
}

/* Whether this call is one of those that fail: there is a file of this name in the folder FAULTS, or the call has such a number. */
static int fails(long *count, const char *name) {
    char path[4096];
    const char *folder = getenv("FAULTS"), *first = getenv("FIRST"), *which = getenv("WHICH");
    long number = __sync_add_and_fetch(count, 1);
    if (folder) {
        snprintf(path, sizeof path, "%s/%s", folder, name);
        if (access(path, F_OK) == 0) return 1;
    }
    return first && which && !strcmp(which, name) && number >= atol(first) && number < atol(first) + word("MANY", 1);
}

ssize_t write(int file, const void *buffer, size_t size) {
    static ssize_t (*next)(int, const void *, size_t);
    if (!next) next = (ssize_t (*)(int, const void *, size_t))dlsym(RTLD_NEXT, "write");
    if (is_journal(file)) nap("stuck");
    if (!is_journal(file) || !fails(&writes, "write")) return next(file, buffer, size);
    if (word("HALF", 0) && size > 1 && next(file, buffer, size / 2) < 0) return -1;
    errno = ENOSPC;
    return -1;
}

int fdatasync(int file) {
    static int (*next)(int);
    if (!next) next = (int (*)(int))dlsym(RTLD_NEXT, "fdatasync");
    if (is_journal(file)) nap("slow");
    if (!is_journal(file) || !fails(&syncs, "sync")) return next(file);
    errno = EDQUOT;
    return -1;
}

int fsync(int file) {
    static int (*next)(int);
    struct stat about;
    if (!next) next = (int (*)(int))dlsym(RTLD_NEXT, "fsync");
    int is_folder = fstat(file, &about) == 0 && S_ISDIR(about.st_mode);
    if (!(is_folder ? fails(&folders, "folder") : is_journal(file) && fails(&syncs, "sync"))) return next(file);
    errno = EDQUOT;
    return -1;
}

int rename(const char *from, const char *to) {
    static int (*next)(const char *, const char *);
    if (!next) next = (int (*)(const char *, const char *))dlsym(RTLD_NEXT, "rename");
    if (!fails(&renames, "rename")) return next(from, to);
    errno = EROFS;
    return -1;
}
"""
# What the host says of these.
NO_SPACE, NO_QUOTA = "No space left on device (os error 28)", "Disk quota exceeded (os error 122)"
READ_ONLY = "Read-only file system (os error 30)"


class Disk:
    """A folder in which the library stands, and the faults that it has now: `write`, `sync`, `folder` and `rename`."""

    def __init__(self):
        compiler = next(filter(None, map(shutil.which, ("cc", "gcc", "clang"))), None)
        if not compiler:
            raise Wrong("there is no C compiler")
        self.held = tempfile.TemporaryDirectory()
        self.folder = Path(self.held.name)
        self.library = self.folder / "failing.so"
        source = self.folder / "failing.c"
        source.write_text(FAILING)
        subprocess.run([compiler, "-O2", "-shared", "-fPIC", "-o", self.library, source, "-ldl"], check=True)

    def __enter__(self):
        return self

    def __exit__(self, *_):
        self.held.cleanup()

    def under(self, which=None, first=0, many=1, half=False, slow=0):
        """What the environment of a host over this disk has: where `which` is given, so many of these calls fail from the first on. A sync
        takes so many seconds while the disk has the fault `slow`, and a write while it has `stuck`."""
        named = {"WHICH": which, "FIRST": str(first), "MANY": str(many)} if which else {}
        return {**os.environ, "LD_PRELOAD": str(self.library), "FAULTS": str(self.folder), "SLOW": str(round(1_000 * slow)), **named,
                **({"HALF": "1"} if half else {})}

    def fail(self, *faults):
        for it in faults:
            (self.folder / it).touch()

    def heal(self, *faults):
        for it in faults:
            (self.folder / it).unlink()


def one_failure(disk, which, first, many, half=False):
    """This call fails, and so do those behind it up to so many: that is said, and nothing that was told is lost."""
    why = NO_SPACE if which == "write" else NO_QUOTA
    with Room() as room:
        if first == 1:
            room.ended_at_start(disk.under(which, 1, many, half), errno.ENOSPC if which == "write" else errno.EDQUOT)
            room.holds_log([])
            return
        host = room.host(env=disk.under(which, first, many, half))
        try:
            sent = [f"event 0 {at} 0 0 {at}" for at in range(7)]
            talk = host.talk()
            talk.tell(*((line, f"taken {place}") for place, line in enumerate(sent, 1)))
            same(talk.ask("var 0"), "var 7 21", "the sum")
            same(host.talk().log(), sent, "the log")
            same(remarks(host), [fails(why), renewed(first - 1)], f"what is said of {which} {first}")
            host.finish()
        finally:
            host.kill()
        same(read(room.file.read_bytes())[:2], (sent, room.file.stat().st_size), "the file")
        room.checked(7)
        room.holds_log(sent)


def each_fails():
    """Each write and each sync fails in turn, once and for a while."""
    runs = [(which, first, many) for which in ("write", "sync") for first in range(1, 7) for many in (1, 3)]
    runs += [("write", first, 2, True) for first in range(1, 7)]
    with Disk() as disk, ThreadPoolExecutor(6) as pool:
        for done in [pool.submit(one_failure, disk, *it) for it in runs]:
            done.result()


def is_silent(talk, seconds=0.3):
    """Whether nothing comes for so long."""
    talk.socket.settimeout(seconds)
    try:
        return not talk.socket.recv(1, socket.MSG_PEEK)
    except TimeoutError:
        return True
    finally:
        talk.socket.settimeout(hosting.SECONDS)


def held():
    """While the disk fails, answers past the synced length are held, queries included; new records are refused 14, and words and looks are
    answered. Behind it all is told, in order."""
    with Disk() as disk, Room() as room:
        host = room.host(env=disk.under())
        try:
            first, asking, watching, late, other = (host.talk() for _ in range(5))
            sent = [f"event 0 {at} 0 0 1" for at in range(5)]
            first.tell(*((line, f"taken {place}") for place, line in enumerate(sent[:3], 1)))
            same(watching.ask("watch log 1"), "watching 1", "a watch")
            same([watching.line() for _ in range(3)], [f"* log {place} {line}" for place, line in enumerate(sent[:3], 1)], "pushes")
            disk.fail("sync")
            first.send(f"{sent[3]}\n{sent[4]}\nvar 0\n".encode())
            wait_for(lambda: remarks(host), "what is said")
            wait_until_refused(host)
            for line in (sent[3], "event 0 70 0 0 1", "withdraw 0 1 0", "announce 0 9 0 9 1"):
                same(late.ask(line), "refused 14", f"the answer to {line} while the disk fails")
            asking.send(b"var 0\n")
            same([it.split()[0] for it in other.ask_all(["board", "row 0", "program", "names"])], ["board", "none", "program", "names"], "looks")
            same([hosting.get(host.address, it)[0] for it in ("/healthz", "/metrics")], [200, 200], "pages")
            same(hosting.get(host.address, "/readyz")[::2], (503, b"the journal cannot be written: records are refused\n"), "it is not ready")
            holds(is_silent(first, 2.5) and is_silent(asking) and is_silent(watching), "something past the synced length is told")
            first.send(b"event 0 71 0 0 1\n")
            same(late.ask("event 0 72 0 0 1"), "refused 14", "a record later on")
            same(remarks(host), [fails(NO_QUOTA)], "what is said")
            disk.heal("sync")
            same([first.line() for _ in range(4)], ["taken 4", "taken 5", "var 5 5", "refused 14"], "what was held")
            same(asking.line(), "var 5 5", "a query that was held")
            same([watching.line() for _ in range(2)], [f"* log {place} {line}" for place, line in enumerate(sent[3:], 4)], "pushes behind it")
            wait_for(lambda: len(remarks(host)) == 2, "what is said behind it")
            wait_for(lambda: hosting.get(host.address, "/readyz")[::2] == (200, b"ready\n"), "it is ready", 10)
            sent.append("event 0 72 0 0 1")
            same(wait_for(lambda: (it := late.ask(sent[-1])) != "refused 14" and it, "a record is taken"), "taken 6", "a record behind it")
            same(watching.line(), f"* log 6 {sent[-1]}", "a push behind it")
            same(remarks(host), [fails(NO_QUOTA), renewed(5)], "what is said")
            host.finish()
        finally:
            host.kill()
        room.checked(6)
        room.holds_log(sent)


def failing_end():
    """A host that ends while its disk fails says so, and a host that is killed then does not trust what may be in no disk: the next has what
    was told, and writes the journal again."""
    for how in ("ends", "ends with a client", "killed"):
        with Disk() as disk, Room() as room:
            host = room.host(env=disk.under())
            try:
                sent = fill(host, 3)
                disk.fail("sync")
                talk = host.talk()
                talk.send(b"event 0 70 0 0 1\n")
                wait_for(lambda: remarks(host), "what is said")
                if how != "killed":
                    if how == "ends":
                        talk.close()
                    host.process.stdin.close()
                    same(host.process.wait(60), 4, "the status")
                    same(how == "ends" or talk.replies.read(), how == "ends" or b"", "what is told at the end")
                    same(remarks(host), [fails(NO_QUOTA), "cannot write the journal"], "what is said")
                else:
                    time.sleep(1.2)
                    host.process.kill()
            finally:
                host.kill()
            holds(Path(f"{room.file}.new").exists(), "there is no fresh file")
            # It was written, and may be there.
            room.holds_log([*sent, "event 0 70 0 0 1"], said=[LEFT])
            room.checked(10)


def no_fresh_file():
    """A fresh file that cannot be made, take its place, or be found again: each new reason is said, and it goes on when that is mended."""
    with Disk() as disk, Room() as room:
        fresh = Path(f"{room.file}.new")
        host = room.host(env=disk.under())
        try:
            sent = fill(host, 1)
            fresh.mkdir()
            disk.fail("write")
            talk = host.talk()
            talk.send(b"event 0 70 0 0 1\n")
            wait_for(lambda: len(remarks(host)) == 2, "that there is a folder")
            disk.heal("write")
            disk.fail("rename")
            fresh.rmdir()
            wait_for(lambda: len(remarks(host)) == 3, "that the name can't be given")
            disk.fail("folder")
            disk.heal("rename")
            wait_for(lambda: len(remarks(host)) == 4, "that the folder can't be synced")
            holds(is_silent(talk, 1.5), "a record is told while the folder can't be synced")
            disk.heal("folder")
            same(talk.line(), "taken 4", "a record that was held")
            sent.append("event 0 70 0 0 1")
            wait_for(lambda: len(remarks(host)) == 5, "what is said")
            anew = "journal: it can't be written anew: "
            same(remarks(host), [fails(NO_SPACE), anew + "FILE.new is a folder", anew + READ_ONLY, anew + NO_QUOTA, renewed(4)], "what is said")
            host.finish()
        finally:
            host.kill()
        room.holds_log(sent)


def killed_while_it_writes_anew():
    """Killed at drawn moments while it writes its journal anew: what was told is there, and the next host goes on."""
    dice = random.Random(5)
    with Disk() as disk, Room() as room:
        sent = []
        with room.host() as host:
            sent = fill(host, 40, 100)
        said = []
        for number in range(6):
            host = room.host(env=disk.under())
            try:
                same(host.talk().ask("horizon").split()[1], str(len(sent)), f"the length of the log behind kill {number}")
                same(read(room.file.read_bytes())[:2], (sent, room.file.stat().st_size), "the file")
                same(remarks(host), said, "what a start says")
                disk.fail("sync")
                talk = host.talk()
                line = f"event 0 {200_000 + number} 0 0 1"
                talk.send(f"{line}\n".encode())
                wait_for(lambda: remarks(host)[len(said):], "that it fails")
                disk.heal("sync")
                time.sleep(0.98 + dice.uniform(0, 0.12))
                host.process.kill()
                told = talk.replies.read()
                holds(told in (b"", f"taken {len(sent) + 1}\n".encode()), f"what was told: {told!r}")
            finally:
                host.kill()
            sent.append(line)
            said = [LEFT] if Path(f"{room.file}.new").exists() else []
        room.holds_log(sent, said=said)


def fails_and_heals(disk, dice):
    """The disk fails at drawn moments, in drawn ways, for some seconds."""
    for _ in range(6):
        time.sleep(dice.uniform(0.05, 0.4))
        faults = dice.sample(("write", "sync", "rename", "folder"), dice.randrange(1, 3))
        disk.fail(*faults)
        time.sleep(dice.uniform(0.01, 1.6))
        disk.heal(*faults)
    time.sleep(dice.uniform(0, 1.2))


def kills_while_it_fails():
    """A disk that fails and heals at drawn moments under sixteen clients, and hosts that are killed over it: nothing that was told is lost, and
    nothing is there that was refused."""
    dice, crowd = random.Random(9), Crowd()
    with Disk() as disk, Room() as room:
        for number in range(4):
            is_left = Path(f"{room.file}.new").exists()
            host = room.host(env=disk.under())
            try:
                log = host.talk().log()
                crowd.look(log)
                same(LEFT in remarks(host), is_left, f"that the journal is written again is said: {remarks(host)}")
                crowd.come(host, (number + 1) * 2_000, lambda: fails_and_heals(disk, dice), may_fail=True)
                holds(all(it.startswith("journal: ") for it in remarks(host)), f"what is said: {remarks(host)}")
            finally:
                host.kill()
        with room.host() as host:
            crowd.look(host.talk().log())
        room.checked(len(read(room.file.read_bytes()).records))
        holds(crowd.told and crowd.refused, f"{len(crowd.told)} records were told, and {len(crowd.refused)} refused")


def no_room():
    """A file that may grow no more, and a disk that is full: what was told is kept, records are refused, and it goes on when there is room.
    Where the system's signal for large files is not ignored it kills the host, and nothing that was told is lost."""
    def ignored():
        signal.signal(signal.SIGXFSZ, signal.SIG_IGN)

    with Room() as room:
        host = room.host(before=ignored)
        try:
            told, talk = fill(host, 5, 100), host.talk()
            # The journal is longer, also where it is written anew, and what is said is not.
            resource.prlimit(host.process.pid, resource.RLIMIT_FSIZE, (4_000, resource.RLIM_INFINITY))
            told.append("event 0 10000 0 0 1")
            talk.send(f"{told[-1]}\n".encode())
            wait_until_refused(host)
            same(host.talk().ask("event 0 20000 0 0 1"), "refused 14", "a record while there is no room")
            holds(is_silent(talk, 1.5), "a record is told that has no room")
            same(remarks(host), [fails("File too large (os error 27)")], "what is said")
            resource.prlimit(host.process.pid, resource.RLIMIT_FSIZE, (resource.RLIM_INFINITY, resource.RLIM_INFINITY))
            same(talk.line(), f"taken {len(told)}", "a record that was held")
            goes_on(host, told)
            host.finish()
        finally:
            host.kill()
        room.holds_log(told)
    with Room() as room:
        host = room.host(before=lambda: resource.setrlimit(resource.RLIMIT_FSIZE, (4_000, 4_000)))
        try:
            client = Client(host.address, 1, 0)
            client.start()
            same(host.process.wait(60), -signal.SIGXFSZ, "the status")
            client.join(60)
        finally:
            host.kill()
        with room.host() as host:
            log = host.talk().log()
            holds(len(client.told) > 3 and set(log) <= set(client.sent), f"{len(client.told)} records were told")
            for line, place in client.told.items():
                same(log[place - 1], line, f"the record that was told to be at place {place}")


def until_refused(host):
    """Sends records one by one until one is not told within a second; another client is refused then. Those that were told, and the last."""
    talk, lines = host.talk(), []
    for at in range(10_000):
        lines.append(f"event 0 {at} 0 0 1")
        talk.send(f"{lines[-1]}\n".encode())
        while (is_held := is_silent(talk, 1)) and hosting.get(host.address, "/readyz")[0] == 200:
            pass
        if is_held:
            break
        same(talk.line(), f"taken {at + 1}", "a record")
    talk.close()
    same(host.talk().ask("event 0 20000 0 0 1"), "refused 14", "a record while there is no room")
    return lines


def goes_on(host, lines):
    """The host takes records again, within some seconds."""
    wait_for(lambda: len(remarks(host)) == 2, "the journal written anew", 30)
    same(remarks(host)[1], renewed(len(lines)), "what is said")
    talk = host.talk()
    lines.append("event 0 20001 0 0 1")
    same(wait_for(lambda: (it := talk.ask(lines[-1])) != "refused 14" and it, "a record is taken"), f"taken {len(lines)}", "a record behind it")
    same(talk.log(), lines, "the log")


def full_disk():
    """A file system that is full: so too. It is mounted where this process may do that."""
    with Room() as room, tempfile.TemporaryDirectory() as place:
        mounted = subprocess.run(["mount", "-t", "tmpfs", "-o", "size=64k", "warpd", place], capture_output=True)
        if mounted.returncode:
            print("full_disk: nothing may be mounted here, so it is not tried", flush=True)
            return
        try:
            room.file = Path(place, "kept.journal")
            ballast = Path(place, "ballast")
            ballast.write_bytes(bytes(40_000))
            host = room.host()
            try:
                lines = until_refused(host)
                same(remarks(host), [fails(NO_SPACE)], "what is said")
                ballast.unlink()
                goes_on(host, lines)
                host.finish()
            finally:
                host.kill()
            room.holds_log(lines)
        finally:
            subprocess.run(["umount", "-l", place], check=True)


def read_only():
    """In a folder that may not be written a host does not start; in one that becomes so its journal can't be written anew until it may be."""
    def nobody():
        if os.geteuid() == 0:
            os.setgid(65_534)
            os.setuid(65_534)

    with Disk() as disk, Room() as room:
        folder = Path(room.folder.name)
        program = folder / "warpd"
        shutil.copy(journals.PROGRAM, program)
        for it in (folder, disk.folder, room.program, program):
            it.chmod(0o755)
        if os.geteuid() == 0:
            os.chown(folder, 65_534, 65_534)
        folder.chmod(0o555)
        words = [program, "host", room.program, "--listen", "127.0.0.1:0", "--journal", room.file]
        said = subprocess.run(words, stdin=subprocess.DEVNULL, capture_output=True, text=True, timeout=60, preexec_fn=nobody)
        same((said.returncode, said.stdout, said.stderr), (4, "", unusable(room.file, errno.EACCES)), "a start in a folder that is read-only")
        folder.chmod(0o755)
        host = hosting.Hosted(program, room.program, "--journal", room.file, env=disk.under(), before=nobody)
        try:
            sent = fill(host, 1)
            folder.chmod(0o555)
            disk.fail("sync")
            talk = host.talk()
            talk.send(b"event 0 70 0 0 1\n")
            wait_for(lambda: len(remarks(host)) == 2, "what is said")
            disk.heal("sync")
            same(remarks(host), [fails(NO_QUOTA), "journal: it can't be written anew: Permission denied (os error 13)"], "what is said")
            folder.chmod(0o755)
            same(talk.line(), "taken 4", "a record that was held")
            wait_for(lambda: remarks(host)[2:] == [renewed(4)], "what is said behind it")
        finally:
            host.kill()
        room.holds_log([*sent, "event 0 70 0 0 1"])


def stays_itself():
    """A journal that is written anew may be read by those who might before, and a symbolic link to it stays one."""
    with Disk() as disk, Room() as room:
        real = Path(room.folder.name, "real.journal")
        room.file.symlink_to(real)
        with room.host() as host:
            sent = fill(host, 1)
        real.chmod(0o640)
        disk.fail("write")
        host = room.host(env=disk.under())
        try:
            talk = host.talk()
            talk.send(b"event 0 70 0 0 1\n")
            wait_for(lambda: remarks(host), "that it fails")
            disk.heal("write")
            same(talk.line(), "taken 4", "a record that was held")
            host.finish()
        finally:
            host.kill()
        holds(room.file.is_symlink() and not real.is_symlink(), "the link is a link")
        same(real.stat().st_mode & 0o7777, 0o640, "the permissions")
        room.holds_log([*sent, "event 0 70 0 0 1"])


def peers_wait():
    """While the disk fails, a peer's records wait, at no cost; they come when it is mended."""
    with Disk() as disk, Room() as other, Room() as room, other.host() as peer:
        sent = fill(peer, 1)
        host = room.host("--peer", f"127.0.0.1:{peer.port}", env=disk.under(), remarks=["journal: ", "peer "])
        try:
            wait_for(lambda: host.talk().ask("horizon").split()[1] == "3", "the peer's records")
            disk.fail("sync")
            more = [f"event 0 {at} 0 0 1" for at in range(50, 60)]
            peer.talk().ask_all(more[:5])
            wait_for(lambda: fails(NO_QUOTA) in remarks(host), "that it fails")
            peer.talk().ask_all(more[5:])
            spent = host.processor_seconds()
            time.sleep(2)
            holds(host.processor_seconds() - spent < 0.5, f"it worked for {host.processor_seconds() - spent} s while it waits")
            same(host.talk().ask("event 0 70 0 0 1"), "refused 14", "a record meanwhile")
            disk.heal("sync")
            wait_for(lambda: host.talk().ask("horizon").split()[1] == "13", "the peer's records")
            same(host.talk().log(), [*sent, *more], "the log")
            host.finish()
        finally:
            host.kill()
        room.holds_log([*sent, *more])


def lazy_failures():
    """With MILLISECONDS and `never` too, what the file has not is not told: it is held while the disk fails, new records are refused, and
    behind it all is told and in the journal."""
    for word in ("10", "never"):
        with Disk() as disk, Room() as room:
            host = room.host("--sync", word, env=disk.under())
            try:
                sent, asking, late = fill(host, 20, 100), host.talk(), host.talk()
                wait_for(lambda: word == "never" or numbers(host)["records"] == 2_000, "all is synced")
                disk.fail("write")
                talk = host.talk()
                sent.append("event 0 70000 0 0 1")
                talk.send(f"{sent[-1]}\n".encode())
                wait_for(lambda: remarks(host), "that it fails")
                wait_until_refused(host)
                same(late.ask("event 0 70001 0 0 1"), "refused 14", "a record while the disk fails")
                asking.send(b"horizon\n")
                holds(is_silent(talk, 1.5) and is_silent(asking), "something past what was written is told")
                disk.heal("write")
                same((talk.line(), asking.line()), ("taken 2001", "horizon 2001 0 0"), "what was held")
                wait_for(lambda: len(remarks(host)) == 2, "what is said behind it")
                sent.append("event 0 70001 0 0 1")
                same(wait_for(lambda: (it := late.ask(sent[-1])) != "refused 14" and it, "a record is taken"), "taken 2002", "a record behind it")
                same(remarks(host), [fails(NO_SPACE), renewed(2_001)], "what is said")
                host.finish()
            finally:
                host.kill()
            room.checked(2_002)
            room.holds_log(sent)


def lazy_syncs():
    """With MILLISECONDS a sync that fails loses nothing either: what was written is told, and the journal is written anew."""
    holds(any(fails_behind_a_write() for _ in range(4)), "what was written is told while syncs fail")


def fails_behind_a_write():
    """Whether a record was written before a sync failed: where it was not, it is told once the journal is written anew."""
    with Disk() as disk, Room() as room:
        host = room.host("--sync", "10", env=disk.under())
        try:
            sent, talk = fill(host, 5, 10), host.talk()
            wait_for(lambda: numbers(host)["records"] == 50, "all is synced")
            disk.fail("sync")
            sent.append("event 0 70000 0 0 1")
            talk.send(f"{sent[-1]}\n".encode())
            if is_silent(talk, 20):
                disk.heal("sync")
                same(talk.line(), "taken 51", "a record that was not written")
                return False
            same(talk.line(), "taken 51", "a record that is written")
            wait_for(lambda: remarks(host), "that it fails")
            wait_until_refused(host)
            same([talk.ask(it) for it in ("event 0 70001 0 0 1", "horizon")], ["refused 14", "horizon 51 0 0"], "while the disk fails")
            disk.heal("sync")
            wait_for(lambda: remarks(host) == [fails(NO_QUOTA), renewed(51)], "what is said")
            same(wait_for(lambda: (it := talk.ask("event 0 70001 0 0 1")) != "refused 14" and it, "a record is taken"), "taken 52", "behind it")
            host.finish()
        finally:
            host.kill()
        room.holds_log([*sent, "event 0 70001 0 0 1"])
        return True


CASES = [each_fails, held, failing_end, no_fresh_file, killed_while_it_writes_anew, kills_while_it_fails, no_room, full_disk, read_only,
         stays_itself, peers_wait, lazy_failures, lazy_syncs]
