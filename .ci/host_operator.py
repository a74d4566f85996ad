"""Cases of `.ci/host` on the channel of an operator: standard input of a host with `--operator`, and `tools/warpd-service`, which holds it."""

import os
import re
import shutil
import signal
import subprocess
import tempfile
import time
from pathlib import Path

import hosting
from hosting import TWICE, Web, get
from loopback import HOST, Talk, free_port, holds, same, wait_for

SERVICE = hosting.ROOT / "tools" / "warpd-service"
STATUS = re.compile(r"ok clients (\d+) (\d+) records (\d+) (\d+) synced (\d+) peers (\d+) (\d+) horizon (\d+) (\d+) full ([01]) failing ([01])")
NO_LEVEL = "no level: error, warn or info"
NO_WORD = "no word: stop, status, tokens, log-level L"
HELD = "tokens: not read again, the old ones hold: "


class Operated:
    """A host whose standard input and output are pipes. It is ended by the word `stop`, and must end well."""

    def __init__(self, *words, command=None, env=None):
        self.folder = tempfile.TemporaryDirectory()
        self.errors = Path(self.folder.name, "errors")
        for _ in range(5):
            self.port = free_port()
            begun = command or [hosting.PROGRAM, "host"]
            line = [*begun, TWICE, "--listen", f"{HOST}:{self.port}", *([] if command else ["--operator"]), *words]
            with open(self.errors, "wb") as errors:
                # Where a shell runs this behind `&`, SIGINT is ignored from there on.
                self.process = subprocess.Popen(list(map(str, line)), stdin=subprocess.PIPE, stdout=subprocess.PIPE, stderr=errors, env=env,
                                                preexec_fn=lambda: signal.signal(signal.SIGINT, signal.SIG_DFL))
            first = self.process.stdout.readline().decode()
            if first or not self.told().endswith("cannot listen\n"):
                break
        same(first, f"ready {HOST}:{self.port}\n", f"the line ready, beside {self.told()!r}")

    @property
    def address(self):
        return HOST, self.port

    def told(self):
        return self.errors.read_text("utf-8", "replace")

    def tell(self, text):
        self.process.stdin.write(text.encode())
        self.process.stdin.flush()

    def heard(self):
        return self.process.stdout.readline().decode().rstrip("\n")

    def ask(self, line):
        self.tell(f"{line}\n")
        return self.heard()

    def status(self):
        """The numbers of its status."""
        said = self.ask("status")
        found = STATUS.fullmatch(said)
        holds(found, f"a status, not {said!r}")
        return list(map(int, found.groups()))

    def ended(self, status=0):
        """Waits for its end."""
        wait_for(lambda: self.process.poll() is not None, "its end", 60)
        same(self.process.returncode, status, f"the status: {self.told()!r}")

    def __enter__(self):
        return self

    def __exit__(self, kind, *_):
        if self.process.poll() is None:
            if kind is None:
                self.process.stdin.write(b"stop\n")
                self.process.stdin.close()
                self.process.stdout.read()
                self.ended()
            else:
                self.process.kill()
        self.process.wait()
        self.folder.cleanup()


def operator_words():
    """Each word has its answer, and what is none changes nothing."""
    with Operated() as host:
        for line in ("", "stop now", " stop", "Status", "status ", "stat", "reload", "status\r", "x" * 5_000, "\xff"):
            same(host.ask(line), NO_WORD, f"the answer to {line[:20]!r}")
        for line in ("log-level", "log-level ", "log-level debug", "log-level  info", "log-level info "):
            same(host.ask(line), NO_LEVEL, f"the answer to {line!r}")
        for level in ("error", "warn", "info"):
            same(host.ask(f"log-level {level}"), "ok", "a level")
        same(host.ask("tokens"), "no tokens: the host began without --tokens", "tokens of none")
        same(host.status(), [0, 1024, 0, 100_000, 0, 0, 0, 0, 0, 0, 0], "a host of nobody")
        # Lines that come in pieces, and several at once.
        host.tell("sta")
        time.sleep(0.2)
        host.tell("tus\nstatus\nwhat")
        same([bool(STATUS.fullmatch(host.heard())) for _ in range(2)], [True, True], "two statuses")
        host.tell("\n" + "status\nno\n" * 200)
        same(host.heard(), NO_WORD, "the rest of a line")
        answers = [host.heard() for _ in range(400)]
        same([bool(STATUS.fullmatch(it)) for it in answers], [True, False] * 200, "four hundred answers")
        same(Talk(host.address).ask("var 0"), "var 0 0", "a reply")


def operator_status():
    """The status tells clients, records, what is on the disk, peers, the horizon, and a full log."""
    with tempfile.TemporaryDirectory() as folder, Operated() as other:
        peer = Talk(other.address)
        peer.tell(("event 0 5 0 0 3", "taken 1"))
        with Operated("--journal", Path(folder, "kept"), "--peer", f"{HOST}:{other.port}", "--peer", f"{HOST}:1", "--clients", 20) as host:
            talks = [Talk(host.address) for _ in range(3)]
            for talk in talks:
                same(talk.ask("token x"), "may *", "a reply")
            wait_for(lambda: host.status()[2] == 1, "the peer's record", 60)
            talks[0].tell(("announce 0 30 0 1 0", "taken 2"), ("announce 1 20 2 0 0", "taken 3"), ("horizon", "horizon 3 20 2"))
            same(host.status(), [3, 20, 3, 100_000, 3, 1, 2, 20, 2, 0, 0], "its status")
            talks[0].close()
            wait_for(lambda: host.status()[0] == 2, "two clients", 60)
            for start in range(3, 100_000, 10_000):
                count = min(10_000, 100_000 - start)
                talks[1].send("".join(f"event 1 {(start + at) % 101} 0 1 {start + at}\n" for at in range(count)).encode())
                for _ in range(count):
                    talks[1].line()
            wait_for(lambda: host.status()[2:5] == [100_000] * 3, "a full log on the disk", 120)
            same(host.status()[9:], [1, 0], "a full log")
            wait_for(lambda: "the log is full: no further record is taken\n" in host.told(), "that is told", 60)


def operator_stops():
    """`stop` ends a host in order: what it has read is answered, and stands in the journal."""
    with tempfile.TemporaryDirectory() as folder:
        for at in range(6):
            file = Path(folder, f"{at}.journal")
            words = ("--journal", file, *(["--sync", "never"] if at % 2 else []))
            host = Operated(*words)
            ends_so(host, file, lambda: same(host.ask("stop"), "ok", "the answer to stop"))
            holds("stopped by its operator: the host ends\n" in host.told(), f"that is told: {host.told()!r}")
        host = Operated()
        host.process.stdin.write(b"status\nstop\nstop\nstatus\n")
        host.process.stdin.close()
        answers = host.process.stdout.read().decode().splitlines()
        host.ended()
        holds(STATUS.fullmatch(answers[0]) and answers[1] == "ok", f"the answers before the end: {answers}")


def ends_so(host, file, stop):
    """Stops a host with a journal while a client sends; what was told stands in its journal."""
    talk = Talk(host.address)
    lines = [f"event 0 {at % 101} 0 0 {at}" for at in range(5_000)]
    talk.send("".join(f"{line}\n" for line in lines).encode())
    same(talk.line(), "taken 1", "the first reply")
    stop()
    told = 1
    try:
        for line in talk.replies:
            told += 1
            same(line.decode().rstrip("\n"), f"taken {told}", "a reply")
    except ConnectionResetError:
        # Bytes that it left unread break the connection off.
        pass
    host.ended()
    kept = [line for line in file.read_text().splitlines()[1:] if not line.startswith("= ")]
    holds(len(kept) >= told, f"{told} were told, and the journal has {len(kept)}")
    same(kept, lines[:len(kept)], "the journal")
    said = subprocess.run([hosting.PROGRAM, "journal", "check", file], capture_output=True, text=True, timeout=60)
    same((said.returncode, "whole" in said.stdout), (0, True), f"the journal is whole: {said.stdout!r}")


def operator_leaves():
    """The end of standard input ends a host where that is asked for, and else leaves it."""
    with tempfile.TemporaryFile() as unread:
        host = Operated()
        host.tell("stop")
        host.process.stdin.close()
        same(host.heard(), NO_WORD, "the answer to a line without an end")
        for _ in range(5):
            time.sleep(0.3)
            same(Talk(host.address).ask("var 0"), "var 0 0", "a reply")
        before = processor_seconds(host)
        time.sleep(2)
        holds(processor_seconds(host) - before < 0.2, "it does not look for what can't come")
        host.process.terminate()
        host.ended(-signal.SIGTERM)
        ends = Operated("--until-input-ends")
        same(ends.status()[0], 0, "nobody")
        ends.process.stdin.close()
        ends.ended()
        holds("standard input ended: the host ends\n" in ends.told(), "that is told")
        unread.write(b"log-level warn\nstop\n")
        unread.seek(0)
        run = subprocess.run([hosting.PROGRAM, "host", TWICE, "--listen", f"{HOST}:0", "--operator"], stdin=unread, capture_output=True,
                             text=True, timeout=60)
        same((run.returncode, run.stdout.splitlines()[1:]), (0, ["ok", "ok"]), "lines of a file")


def processor_seconds(host):
    fields = Path(f"/proc/{host.process.pid}/stat").read_text().rpartition(")")[2].split()
    return (int(fields[11]) + int(fields[12])) / os.sysconf("SC_CLK_TCK")


def operator_unread():
    """Who reads no answers, or reads none any more, holds up nobody, also where each byte is a line."""
    for lines in (b"status\n" * 100, b"\n" * 700):
        unread_answers(lines)


def unread_answers(lines):
    """An operator sends these lines again and again, and reads no answer for a time, and then none any more."""
    host = Operated()
    os.set_blocking(host.process.stdin.fileno(), False)
    for _ in range(200):
        try:
            os.write(host.process.stdin.fileno(), lines)
        except BlockingIOError:
            time.sleep(0.02)
    talk = Talk(host.address)
    same(talk.ask("var 0"), "var 0 0", "a reply while nobody reads answers")
    answers = 0
    os.set_blocking(host.process.stdout.fileno(), False)
    while piece := wait_for(lambda: read_some(host), "answers", 60):
        answers += piece.count(b"\n")
        if answers > 2_000:
            break
    host.process.stdout.close()
    os.set_blocking(host.process.stdin.fileno(), True)
    for _ in range(20):
        host.tell("status\n")
        same(talk.ask("var 0"), "var 0 0", "a reply where nobody can read answers")
    talk.close()
    host.tell("stop\n")
    host.ended()
    host.folder.cleanup()


def read_some(host):
    try:
        return os.read(host.process.stdout.fileno(), 65_536)
    except BlockingIOError:
        return b""


def operator_tokens():
    """The file of tokens is read again: who lost theirs is closed, all others stay, and what can't be read changes nothing."""
    with tempfile.TemporaryDirectory() as folder:
        file = Path(folder, "tokens")

        def write(text, mode=0o600):
            file.write_text(text)
            file.chmod(mode)

        write("all *\nzero 0\none 1\nlook read\n")
        with Operated("--tokens", file) as host:
            talks = {name: Talk(host.address) for name in ("all", "zero", "one", "look", "nobody", "changed")}
            for name, rights in (("all", "*"), ("zero", "0"), ("one", "1"), ("look", "read")):
                same(talks[name].ask(f"token {name}"), f"may {rights}", "a token")
            # The last token counts.
            talks["changed"].tell(("token zero", "may 0"), ("token one", "may 1"))
            webs = {name: Web(host.address, f"/ws?token={name}") for name in ("zero", "one")}
            said = Web(host.address, "/ws?token=zero")
            same(said.ask("token one"), ["may 1"], "a token over WebSocket")
            same(talks["nobody"].ask("token two"), "refused 13", "a wrong token")
            for text, mode, why in (("all 0,9\n", 0o600, "line 1: no such origin 9"), ("one 1\nall\n", 0o600, "line 2: there is nothing behind the token"),
                                    ("one 1\none 0\n", 0o600, "line 2: its token stands in a line in front of it too"),
                                    ("", 0o600, "it has no token"), ("all *\n", 0o640, "others may read or write their file")):
                write(text, mode)
                same(host.ask("tokens"), f"no tokens: {why}", "a file that can't be taken")
                holds(host.told().endswith(f"{HELD}{why.replace('their file', 'it')}\n"), f"that is told: {host.told()!r}")
            holds(f"{file}: others may read or write it (mode 640; chmod 600 {file})\n" in host.told(), "what is wrong is told")
            file.unlink()
            same(host.ask("tokens"), "no tokens: their file can't be read", "no file")
            holds(host.told().endswith(f"{HELD}their file can't be read\n"), f"that is told: {host.told()!r}")
            same(talks["zero"].ask("event 0 5 0 0 3"), "taken 1", "nothing has changed")
            other = Talk(host.address)
            same(other.ask("token zero"), "may 0", "nothing has changed")
            other.close()
            wait_for(lambda: host.status()[0] == 9, "the others", 60)
            # `zero` is gone, `look` may do something else, `new` is there.
            write("# changed\nnew 0,1\none 1\nlook *\nall *\n")
            same(host.ask("tokens"), "ok closed 3", "who lost theirs")
            holds(host.told().endswith("tokens: read again, 3 closed\n"), f"that is told: {host.told()!r}")
            for name in ("zero", "look"):
                same(talks[name].replies.read(), b"", f"{name} is closed")
            same(webs["zero"].next_frame(), None, "the token of a request")
            same(talks["all"].ask("event 0 6 0 0 3"), "taken 2", "who kept theirs")
            same(talks["one"].ask("event 1 6 0 1 3"), "taken 3", "who kept theirs")
            same(talks["changed"].ask("event 1 7 0 1 3"), "taken 4", "who kept its last")
            same(webs["one"].ask("event 1 8 0 1 3"), ["taken 5"], "who kept theirs over WebSocket")
            same(said.ask("event 1 9 0 1 3"), ["taken 6"], "who kept its last over WebSocket")
            same(talks["nobody"].ask("token zero"), "refused 13", "a token that is gone")
            same(talks["nobody"].ask("token new"), "may 0 1", "a new token")
            same(get(host.address, "/metrics", "Authorization: Bearer zero")[0], 401, "a token that is gone over HTTP")
            same(get(host.address, "/metrics", "Authorization: Bearer new")[0], 200, "a new token over HTTP")
            same(host.ask("tokens"), "ok closed 0", "the same file")


def operator_levels():
    """Which notes are told goes by the level."""
    with Operated("--clients", 1) as host:
        first = Talk(host.address)
        same(first.ask("var 0"), "var 0 0", "a reply")

        def refuse():
            for _ in range(3):
                with Talk(host.address).socket as one:
                    same(one.recv(1), b"", "it is turned away")

        same(host.ask("log-level error"), "ok", "a level")
        refuse()
        time.sleep(2.5)
        holds("clients refused" not in host.told(), "what is no fault is not told")
        same(host.ask("log-level warn"), "ok", "a level")
        refuse()
        wait_for(lambda: re.search("clients refused: [123], there are 1 already\n", host.told()), "a warning", 30)
        first.close()
        same(host.ask("stop"), "ok", "the end")
        host.ended()
        holds("stopped by its operator" not in host.told(), f"the end is not told: {host.told()!r}")


def operator_levels_of_peers():
    """What comes of a peer is told at `warn` and not at `error`."""
    peer = hosting.begun()
    try:
        with Operated("--peer", "{}:{}".format(*peer.address)) as host:
            wait_for(lambda: " found: " in host.told(), "a peer that is found", 30)
            same(host.ask("log-level error"), "ok", "a level")
            peer.kill()
            time.sleep(3)
            holds(" lost: " not in host.told(), f"at error it is not told that the peer is lost: {host.told()!r}")
            same((host.ask("stop"), host.ended()), ("ok", None), "the end")
    finally:
        peer.kill()


def serviced(*words, **environment):
    """A host that the service starts, with these variables of its environment."""
    return Operated(*words, command=[SERVICE], env={**os.environ, "WARPD": str(hosting.PROGRAM), **environment})


def service_ends():
    """TERM and INT of the service end its host in order: lines are answered, the journal is synced, the status is 0."""
    with tempfile.TemporaryDirectory() as folder:
        for at, number in enumerate((signal.SIGTERM, signal.SIGINT) * 3):
            file = Path(folder, f"{at}.journal")
            words = ("--journal", file, *(["--sync", "never"] if at > 3 else []))
            host = serviced(*words)
            ends_so(host, file, lambda: host.process.send_signal(number))
            same(host.process.stdout.read(), b"ok\n", "what it prints behind the line ready")
            holds(host.told().endswith("stopped by its operator: the host ends\n"), f"standard error is the host's: {host.told()!r}")
            host.folder.cleanup()


def service_words():
    """HUP and USR1 are words too, and come in any number; what the host says goes on."""
    with tempfile.TemporaryDirectory() as folder:
        file = Path(folder, "tokens")
        file.touch(0o600)
        file.write_text("one *\n")
        host = serviced("--tokens", file)
        talk = Talk(host.address)
        same(talk.ask("token one"), "may *", "a token")
        for _ in range(20):
            host.process.send_signal(signal.SIGUSR1)
            holds(STATUS.fullmatch(host.heard()), "a status")
        file.write_text("two *\n")
        host.process.send_signal(signal.SIGHUP)
        same(host.heard(), "ok closed 1", "tokens")
        holds(host.told().endswith("tokens: read again, 1 closed\n"), f"that is told: {host.told()!r}")
        same(talk.replies.read(), b"", "who lost theirs")
        host.process.terminate()
        same(host.heard(), "ok", "the end")
        host.ended()
        host.folder.cleanup()


def child_of(host):
    """The process of the host that a service runs."""
    return int(Path(f"/proc/{host.process.pid}/task/{host.process.pid}/children").read_text().split()[0])


def is_there(process):
    try:
        return Path(f"/proc/{process}/stat").read_text().rpartition(")")[2].split()[0] != "Z"
    except FileNotFoundError:
        return False


def service_statuses():
    """The status of the service is the host's; KILL stays KILL."""
    environment = {**os.environ, "WARPD": str(hosting.PROGRAM)}
    for words, status, error in (([TWICE, "--listen", "nowhere"], 2, "--listen nowhere: no address in numbers with a port\nwhere to listen is ADDRESS:PORT\n"),
                                 ([hosting.ROOT / "examples" / "refused.json"], 3, None), ([TWICE, "--what"], 2, None)):
        run = subprocess.run([SERVICE, *words], stdin=subprocess.DEVNULL, capture_output=True, text=True, timeout=60, env=environment)
        same((run.returncode, run.stdout), (status, ""), f"{words}: {run.stderr!r}")
        holds(error in (None, run.stderr), f"{words}: {run.stderr!r}")
    run = subprocess.run([SERVICE], capture_output=True, text=True, timeout=60, env=environment)
    holds(run.returncode == 2 and run.stderr.startswith("Usage: warpd-service PROGRAM"), f"no words: {run.stderr!r}")
    run = subprocess.run([SERVICE, TWICE], capture_output=True, text=True, timeout=60, env={**environment, "WARPD": "/nowhere/warpd"})
    same(run.returncode, 127, f"no program: {run.stderr!r}")
    host = serviced()
    # HUP of a terminal that closes reaches the host too.
    os.kill(child_of(host), signal.SIGHUP)
    same(Talk(host.address).ask("var 0"), "var 0 0", "a reply behind HUP")
    os.kill(child_of(host), signal.SIGKILL)
    host.ended(128 + signal.SIGKILL)
    host.folder.cleanup()
    # Where the service itself is killed its host ends in order.
    host = serviced()
    process, talk = child_of(host), Talk(host.address)
    same(talk.ask("var 0"), "var 0 0", "a reply")
    host.process.kill()
    host.ended(-signal.SIGKILL)
    wait_for(lambda: not is_there(process), "the host's end", 60)
    holds(host.told().endswith("standard input ended: the host ends\n"), f"how it ended: {host.told()!r}")
    host.folder.cleanup()


class Slow:
    """Programs of these names, found in PATH, that wait at their end, or begin late. What the service makes stands in `rooms`."""

    def __init__(self):
        self.folder = tempfile.TemporaryDirectory()
        self.rooms, self.held, self.reached, programs = (Path(self.folder.name, it) for it in ("rooms", "held", "reached", "programs"))
        self.rooms.mkdir()
        programs.mkdir()
        wait = f': >{self.reached}; while [ -e {self.held} ]; do sleep 0.02; done'
        write_program(programs / "mktemp", f'made=$({shutil.which("mktemp")} "$@") || exit\n{wait}\necho "$made"')
        self.host = write_program(Path(self.folder.name, "host"), f'{wait}\nexec {hosting.PROGRAM} "$@"')
        self.slow_rooms = {"PATH": f"{programs}:{os.environ['PATH']}", "WARPD": str(hosting.PROGRAM)}

    def run(self, number, **environment):
        """What the service prints, with its status, that has this signal while the slow program waits."""
        self.held.touch()
        self.reached.unlink(missing_ok=True)
        with subprocess.Popen([SERVICE, TWICE, "--listen", f"{HOST}:0"], stdin=subprocess.DEVNULL, stdout=subprocess.PIPE,
                              stderr=subprocess.DEVNULL, env={**os.environ, "TMPDIR": str(self.rooms), **environment},
                              preexec_fn=lambda: signal.signal(signal.SIGINT, signal.SIG_DFL)) as process:
            wait_for(self.reached.exists, "the slow program", 60)
            process.send_signal(number)
            time.sleep(0.1)
            self.held.unlink()
            first = process.stdout.readline().decode()
            same(list(self.rooms.iterdir()), [], "what is left in the folder for temporary files")
            process.terminate()
            return first.startswith("ready "), process.stdout.read().decode(), process.wait(60)


def write_program(file, text):
    file.write_text(f"#!/bin/sh\n{text}\n")
    file.chmod(0o755)
    return file


def service_early():
    """A signal that comes before there is a host, or while that begins, is heeded, and nothing is left behind."""
    slow = Slow()
    with slow.folder:
        for number in (signal.SIGTERM, signal.SIGINT):
            same(slow.run(number, **slow.slow_rooms), (False, "", 0), f"{number.name} before there is a host")
            same(slow.run(number, WARPD=str(slow.host))[::2], (True, 0), f"{number.name} while the host begins")
        for number in (signal.SIGHUP, signal.SIGUSR1):
            same(slow.run(number, **slow.slow_rooms), (True, "ok\n", 0), f"{number.name} before there is a host")
        same(slow.run(signal.SIGHUP, WARPD=str(slow.host)), (True, "no tokens: the host began without --tokens\nok\n", 0),
             "SIGHUP while the host begins")


def service_program():
    """Which program is run, and that none gets the words of the operator as a file."""
    with tempfile.TemporaryDirectory() as folder:
        folder = Path(folder)
        script = folder / "warpd" / "tools" / "warpd-service"
        beside, path = script.parent / "warpd", folder / "path" / "warpd"
        built = folder / "warpd" / "crates" / "warpd" / "out" / "warpd"
        for it in (script, path, built):
            it.parent.mkdir(parents=True)
        shutil.copy(SERVICE, script)
        # What stands above the script is never taken: a folder of this name, or what proves for long in a checkout.
        write_program(folder / "warpd" / "warpd", "echo above")
        environment = {it: value for it, value in os.environ.items() if it != "WARPD"}
        environment["PATH"] = f"{path.parent}:/usr/bin:/bin"

        def run(*words, **more):
            got = subprocess.run([script, *words], stdin=subprocess.DEVNULL, capture_output=True, text=True, timeout=60, env={**environment, **more})
            return got.returncode, got.stdout

        same(run("x"), (127, ""), "no program")
        # The script of a checkout, which may begin a proof, is no program, wherever it is found.
        for at in (path, beside):
            at.symlink_to(hosting.ROOT / "warpd")
            got = subprocess.run([script, "x"], capture_output=True, text=True, timeout=60, env=environment)
            same((got.returncode, got.stdout), (127, ""), "the script of a checkout")
            holds(f"there is no warpd, and {at} is the script of a checkout, " in got.stderr, f"that is told: {got.stderr!r}")
            write_program(built, "echo built")
            same(run("x"), (0, "built\n"), "the proved program in the place of the script of a checkout")
            for it in (at, built):
                it.unlink()
        for at in (built, path, beside):
            write_program(at, f'echo "{at}" "$@"')
            same(run("x", "--open"), (0, f"{at} host --operator --until-input-ends x --open\n"), "the program")
        same(run("x", WARPD=str(path)), (0, f"{path} host --operator --until-input-ends x\n"), "the program that is named")
        beside.unlink()
        beside.mkdir()
        same(run("x")[1].split()[0], str(path), "a folder beside it is no program")
        for words in (("x", "--tokens", "/dev/stdin"), ("x", "--tokens=/dev/stdin"), ("/dev/stdin",), ("x", "--peer-tokens", "/dev/fd/0")):
            same(run(*words), (2, ""), f"{words}")


CASES = [operator_status, operator_words, operator_stops, operator_leaves, operator_unread, operator_tokens, operator_levels, operator_levels_of_peers, service_ends,
         service_words, service_statuses, service_early, service_program]
