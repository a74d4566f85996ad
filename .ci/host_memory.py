"""The case of `.ci/host` on want of memory: each request for memory of a host is refused in turn, from its start on, while clients speak
lines, WebSocket and HTTP with it. It ends at its start, or it goes on: who wants what there is no memory for is answered `refused 8`, or
closed, and all others are served. The library that refuses is that of `.ci/memory`."""

import importlib.machinery
import importlib.util
import os
import shutil
import socket
import subprocess
import tempfile
from concurrent.futures import ThreadPoolExecutor
from pathlib import Path

import hosting
from hosting import TEXT, TWICE, Web, get
from loopback import HOST, Talk, Wrong, free_port, holds, same

ROOT = Path(__file__).resolve().parent.parent
AT_ONCE, WORKERS, MOST = 32, 4, 4_000
WAIT = 60
PATHS = ("/", "/readyz", "/metrics", "/names.json", "/program.json")
LINES = {"event 0 5 0 0 3": ("taken 1", "known 1"), "var 0": (), "vars": (), "names": (), "program": (), "watch log 1": ("watching 1",),
         "watch released 0": (), "watch vars": (), "watch horizon": (), "event 1 2 0 1 4": (), "announce 0 50 0 1 0": (), "announce 1 50 0 1 0": (),
         "releases": (), "release 0": (), "counts 0": (), "reached 1": (), "board": (), "nonsense": ("refused 1",), "collect": (), "var 1": ("refused 6",)}
# What the reply to a line of this word begins with.
WORDS = {"event": ("taken", "known"), "announce": ("taken", "known"), "var": ("var",), "vars": ("vars",), "names": ("names",),
         "program": ("program",), "watch": ("watching",), "releases": ("releases",), "release": ("release", "none"), "board": ("board",),
         "collect": ("collected",), "counts": ("counts",), "reached": ("reached",)}


def refusing(folder):
    """The library that refuses a request."""
    loader = importlib.machinery.SourceFileLoader("memory", str(ROOT / ".ci" / "memory"))
    module = importlib.util.module_from_spec(importlib.util.spec_from_loader("memory", loader))
    loader.exec_module(module)
    source, library = Path(folder, "refusing.c"), Path(folder, "refusing.so")
    source.write_text(module.REFUSING)
    compiler = shutil.which("cc") or shutil.which("gcc")
    holds(compiler, "there is no C compiler")
    subprocess.run([compiler, "-O2", "-shared", "-fPIC", "-o", library, source], check=True)
    return library


def look_at(asked, replies, may_lack):
    """Looks at the replies to lines, one for one from the first on; how many they were."""
    for line, reply in zip(asked, replies):
        word = line.split(" ")[0]
        fits = reply in LINES[line] or not (LINES[line] and LINES[line][0].startswith("refused")) and reply.split(" ")[0] in WORDS[word]
        holds(fits or may_lack and reply == "refused 8", f"{reply!r} to {line!r}")
    holds(may_lack or len(replies) == len(asked), f"{len(replies)} replies")
    return len(replies)


def say_lines(port, may_lack):
    """A client that speaks lines, and ends what it sends."""
    with socket.create_connection((HOST, port), WAIT) as one:
        try:
            one.sendall("".join(line + "\n" for line in LINES).encode())
            one.shutdown(socket.SHUT_WR)
            said = hosting.read_all(one).decode()
        except OSError:
            # A client without memory is closed, whatever it has sent.
            holds(may_lack, "a connection that lasts")
            return 0
        whole = said[:said.rfind("\n") + 1].splitlines()
        holds(may_lack or said.endswith("\n"), f"whole lines, not {said!r}")
        return look_at(list(LINES), [it for it in whole if not it.startswith("* ")], may_lack)


def say_messages(port, may_lack):
    """A client that speaks WebSocket, a line a message."""
    try:
        web = Web((HOST, port))
    except (ValueError, IndexError, OSError):
        holds(may_lack, "an answer to an upgrade")
        return 0
    web.socket.settimeout(WAIT)
    replies = []
    try:
        for line in LINES:
            web.say(line)
            while len(replies) < len(LINES) and (got := web.next_frame()) is not None and got[0] == TEXT:
                answers = [it for it in got[1].decode().split("\n") if not it.startswith("* ")]
                replies += answers
                if answers:
                    break
    except OSError:
        holds(may_lack, "a connection that lasts")
    finally:
        web.close()
    return look_at(list(LINES), replies, may_lack)


def ask_pages(port, may_lack):
    """How many pages are answered, each with 200."""
    count = 0
    for path in PATHS:
        try:
            same(get((HOST, port), path, f"Origin: http://{HOST}:{port}")[0], 200, path)
            count += 1
        except Exception:
            holds(may_lack, f"an answer to {path}")
    return count


def value_of(log):
    """What the program `twice` has behind these records."""
    total = 0
    for _, origin, value in sorted((tuple(map(int, it.split(" ")[2:4])), *map(int, it.split(" ")[4:6])) for it in log if it.startswith("event")):
        total = 2 * total + value if origin == 0 else total - value
    return total


def ask_last(port):
    """What a client is told behind all others: the state is that of the log."""
    talk = Talk((HOST, port))
    try:
        count = int(talk.ask("horizon").split(" ")[1])
        same(talk.ask("vars").split(" ")[1:2], [str(count)], "the length of the log")
        log = [talk.ask(f"log {place}").split(" ", 2)[2] for place in range(1, count + 1)]
        same(talk.ask("vars"), f"vars {count} {value_of(log)}", "the state")
    finally:
        talk.close()


def serve(library, number):
    """Whether the request with this number was refused, and how many replies, refusals of none among them, there were."""
    hears, tells = os.pipe()
    port = free_port()
    environment = {"LD_PRELOAD": str(library), "REFUSED_TO": str(tells), "REFUSED": str(number)}
    words = [hosting.PROGRAM, "host", TWICE, "--listen", f"{HOST}:{port}", "--until-input-ends", "--clients", "20"]
    with subprocess.Popen(words, stdin=subprocess.PIPE, stdout=subprocess.PIPE, stderr=subprocess.PIPE, env=environment, pass_fds=[tells]) as host:
        os.close(tells)
        os.set_blocking(hears, False)
        try:
            ready, counts = host.stdout.readline(), None
            if ready:
                counts = converse(port)
            _, error = host.communicate(timeout=WAIT)
            was_refused = was_told(hears)
        finally:
            host.kill()
            os.close(hears)
    look_at_end(number, was_refused, counts, host.returncode, error.decode())
    return was_refused


def was_told(hears):
    try:
        return os.read(hears, 1) == b"x"
    except BlockingIOError:
        return False


def converse(port):
    """What clients are told, or nothing where the host ended before any was told something."""
    counts = []
    try:
        for speak in (say_lines, say_messages, ask_pages):
            counts.append(speak(port, True))
        try:
            ask_last(port)
        except (OSError, ValueError, IndexError, Wrong):
            # That request was the one: the next client is served.
            ask_last(port)
    except OSError:
        holds(not any(counts), f"the host goes on that told {counts}")
        return None
    return counts


def look_at_end(number, was_refused, counts, status, error):
    """A host whose clients were told something ends with its input; one that met no want of memory told them all."""
    last = error.splitlines(True)[-1:] or [""]
    if counts is None:
        holds(was_refused and (status, last[0]) in ((5, "no memory\n"), (6, "cannot accept\n")), f"request {number}: status {status}, {error!r}")
        return
    same((status, last[0]), (0, "standard input ended: the host ends\n"), f"how it ended with request {number} refused")
    holds(was_refused or counts == [len(LINES), len(LINES), len(PATHS)], f"with no request refused clients were told {counts}")


def memory_refused():
    """Each request for memory is refused in turn."""
    with tempfile.TemporaryDirectory() as folder, ThreadPoolExecutor(WORKERS) as workers:
        library = refusing(folder)
        for first in range(1, MOST, AT_ONCE):
            refused = list(workers.map(lambda number: serve(library, number), range(first, first + AT_ONCE)))
            if not any(refused):
                print(f"{first - 1} requests for memory of a host, each refused in turn")
                return
        holds(False, f"more than {MOST} requests")


CASES = [memory_refused]
