"""Cases of `.ci/host` on how a host starts: what keeps it from that, who may send what, and which pages may read what it answers."""

import collections
import errno
import os
import re
import resource
import shutil
import socket
import subprocess
import tempfile
from pathlib import Path

import hosting
from hosting import TWICE, get
from hosting import begun as Hosted
from loopback import HOST, holds, same, wait_for

# A user who is neither root nor the one of these scripts.
ANOTHER_USER = 54_321


def ended(*words, status, error, output="", mode=None):
    """A run with these words ends so, where a file or folder has this mode."""
    if mode:
        os.chmod(*mode)
    run = subprocess.run([str(hosting.PROGRAM), *map(str, words)], stdin=subprocess.DEVNULL, capture_output=True, text=True, timeout=60)
    same((run.returncode, run.stdout, run.stderr), (status, output, error), f"{words}")


def in_system_words(number):
    return f"{os.strerror(number)} (os error {number})"


def refused_starts():
    """What keeps a host from beginning is told, with its status: the particulars, and behind them the line for the status."""
    absent, is_folder = in_system_words(errno.ENOENT), in_system_words(errno.EISDIR)
    with tempfile.TemporaryDirectory() as folder:
        none = Path(folder, "none")
        ended("host", none, status=4, error=f"{none}: {absent}\ncannot read the program\n")
        ended("host", folder, status=4, error=f"{folder}: it cannot be read\ncannot read the program\n")
        bad = Path(folder, "bad.json")
        bad.write_text("{")
        ended("host", bad, status=3, error=f"{bad}: line 1, column 1: the JSON text ends too early\nprogram refused 1\n")
        for which, words in (("", "--tokens"), (" of peers", "--peer-tokens")):
            ended("host", TWICE, words, none, status=4, error=f"{none}: {absent}\ncannot read the tokens{which}\n")
            ended("host", TWICE, words, folder, status=3, error=f"{folder}: others may read or write it (mode 755; chmod 600 {folder})\n"
                  f"others may read or write the tokens{which}\n", mode=(folder, 0o755))
            ended("host", TWICE, words, folder, status=3, error=f"{folder}: others may read or write it (mode 720; chmod 600 {folder})\n"
                  f"others may read or write the tokens{which}\n", mode=(folder, 0o720))
            ended("host", TWICE, words, folder, status=4, error=f"{folder}: {is_folder}\ncannot read the tokens{which}\n", mode=(folder, 0o700))
            if os.geteuid() == 0:
                other = Path(folder, "other")
                other.write_text("one *\n")
                other.chmod(0o600)
                os.chown(other, ANOTHER_USER, -1)
                ended("host", TWICE, words, other, status=3, error=f"{other}: user {ANOTHER_USER}, whose it is, may read or write it "
                      f"(chown it to the host's user)\nothers may read or write the tokens{which}\n")
        ended("host", TWICE, "--listen", "0.0.0.0:0", status=2,
              error="--listen 0.0.0.0:0: other machines may reach it\nlistening there wants --tokens, or --open if that is meant\n")
        for word in ("nowhere", "localhost:7070", "127.0.0.1", "127.0.0.1:65536", ":7070"):
            ended("host", TWICE, "--listen", word, status=2,
                  error=f"--listen {word}: no address in numbers with a port\nwhere to listen is ADDRESS:PORT\n")
        ended("host", TWICE, *["--peer", "127.0.0.1:1"] * 65, status=2, error="--peer: 65 of them, of at most 64\ntoo many peers\n")
        for word in ("foo", "foo:", ":7070", "foo:0", "foo:65536", "foo:x", "127.0.0.1", "[::1]", "::1", "http://foo:7070", "foo:70/"):
            ended("host", TWICE, "--peer", word, status=2, error=f"--peer {word}: no host with a port\n--peer is HOST:PORT\n")
        for words, why in ((["--journal", Path(folder, "none.journal")], "no such time"), ([], "there is no --journal")):
            ended("host", TWICE, "--sync", "soon", *words, status=2,
                  error=f"--sync soon: {why}\n--sync is always, never or MILLISECONDS, 1 to 60000\n")
        with socket.create_server((HOST, 0)) as taken:
            port = taken.getsockname()[1]
            ended("host", TWICE, "--listen", f"{HOST}:{port}", status=6,
                  error=f"listen {HOST}:{port}: {in_system_words(errno.EADDRINUSE)}\ncannot listen\n")
        ended("host", TWICE, "--listen", "203.0.113.1:7070", "--open", status=6,
              error=f"listen 203.0.113.1:7070: {in_system_words(errno.EADDRNOTAVAIL)}\ncannot listen\n")


def no_files():
    """What is neither a file nor a folder is not opened, so that no start waits for who writes to a pipe; but a descriptor that the program
    was given is read."""
    with tempfile.TemporaryDirectory() as folder:
        pipe, link, why = Path(folder, "pipe"), Path(folder, "link"), "it is no regular file"
        os.mkfifo(pipe, 0o600)
        link.symlink_to(pipe)
        # The system makes what stands under /proc as it is read, some of it when there is something.
        for path in (pipe, link, "/dev/zero", "/proc/version"):
            ended("host", path, status=4, error=f"{path}: {why}\ncannot read the program\n")
            ended("check", path, status=4, error=f"cannot read the program\n{why}\n")
            for which, words in (("", "--tokens"), (" of peers", "--peer-tokens")):
                ended("host", TWICE, words, path, status=4, error=f"{path}: {why}\ncannot read the tokens{which}\n")
        program = hosting.ROOT / "examples" / "twice.json"
        told = subprocess.run([hosting.PROGRAM, "check", program], capture_output=True, text=True, timeout=60, check=True).stdout
        hosts = f"host {TWICE} --listen {HOST}:0 --until-input-ends"
        for command, said in ((f'cat {program} | "$0" check /dev/stdin', told), (f'"$0" check /dev/stdin < {program}', told),
                              (f'"$0" check <(cat {program})', told), (f'"$0" {hosts} --tokens <(echo "secret *")', None)):
            words = ["bash", "-c", command, hosting.PROGRAM]
            run = subprocess.run(words, stdin=subprocess.DEVNULL, capture_output=True, text=True, timeout=60)
            same(run.returncode, 0, f"the status of {command}: {run.stderr}")
            if said:
                same(run.stdout, said, f"what {command} tells")
            else:
                holds("; tokens are wanted\n" in run.stderr, f"what {command} tells: {run.stderr!r}")


def tokens_of_peers():
    """Two lines for one peer are refused, and a line for no peer is told of."""
    name, other = f"{HOST}:1", f"{HOST}:2"
    peers = ("--peer", other, "--peer", name)
    with tempfile.TemporaryDirectory() as folder:
        file = Path(folder, "tokens")
        file.touch(0o600)
        for text, line in ((f"{name} a\n{name} b\n", 2), (f"# x y\n{name} a\n\n{other} a\nelsewhere:1 a\n{name} a first", 6),
                           (f"{other} a first\n{other} a first\n", 2)):
            file.write_text(text)
            ended("host", TWICE, *peers, "--peer-tokens", file, status=3,
                  error=f"{file}: line {line}: its peer has a line in front of it too\ntokens of peers refused at line {line}\n")
        file.write_text(f"# {HOST}:3 x\n{HOST}:3 a\n{name} a\n{HOST}:10 a first\n{HOST}:3 b\n")
        with Hosted(*peers, "--peer-tokens", file, remarks=["peer ", f"{file}: "]) as host:
            wait_for(lambda: "\nstarted: " in host.printed(1), "the start")
            told = [line for line in host.printed(1).splitlines() if line.startswith(str(file))]
            why = "no --peer has this name, so its token is not used"
            same(told, [f"{file}: line {line}: {why}" for line in (2, 4, 5)], "lines of no peer")


def little_memory():
    """In an address space that is too small a host ends with its status, and tells why, also behind its line that it is ready. Its journal
    has records, so that there is one in which they do not fit."""
    ends = collections.Counter()
    with tempfile.TemporaryDirectory() as folder:
        kept = Path(folder, "kept")
        with Hosted("--journal", kept) as host:
            talk = host.talk()
            talk.send("".join(f"event 0 {at % 100} 0 0 {at}\n" for at in range(20_000)).encode())
            for _ in range(20_000):
                talk.line()
        for space in range(8, 72):
            def prepare():
                resource.setrlimit(resource.RLIMIT_AS, (space << 19, space << 19))

            if subprocess.run([hosting.PROGRAM, "--version"], capture_output=True, timeout=60, preexec_fn=prepare).returncode != 0:
                # The system cannot even load it.
                continue
            journal = shutil.copy(kept, Path(folder, f"{space}.journal"))
            more = ("--journal", journal, "--peer", "localhost:1")
            words = [hosting.PROGRAM, "host", TWICE, "--listen", f"{HOST}:0", "--until-input-ends", *more]
            run = subprocess.run(words, stdin=subprocess.DEVNULL, capture_output=True, text=True, timeout=60, preexec_fn=prepare)
            last = run.stderr.splitlines()[-2:]
            if run.returncode == 6:
                same(last[1:], ["cannot accept"], f"with {space}")
                holds(last[0].startswith("the host can't go on: no thread for the "), f"with {space}: {run.stderr!r}")
            elif run.returncode == 5:
                same(last[-1:], ["no memory"], f"with {space}")
            else:
                same((run.returncode, last[-1:]), (0, ["standard input ended: the host ends"]), f"the status with {space}: {run.stderr!r}")
            ends[run.returncode] += 1
    holds(min(ends[status] for status in (0, 5, 6)) > 0, f"how they ended: {ends}")


def refused_tokens():
    """Which line of a file of tokens is refused is told, and why."""
    rights = "behind the token is neither * nor read nor ORIGIN[,ORIGIN].."
    characters = "a token is 1 to 122 characters from ! to ~"
    nothing = "there is nothing behind the token"
    with tempfile.TemporaryDirectory() as folder:
        file = Path(folder, "tokens")
        file.touch(0o600)
        for text, line, why in (
                ("all *\nnone\n", 2, f"line 2: {nothing}"), ("# x\n\nall *\none 0,2\n", 4, "line 4: no such origin 2"),
                ("one 9", 1, "line 1: no such origin 9"), ("one 32\n", 1, "line 1: no such origin 32"),
                ("one 4294967296\n", 1, f"line 1: {rights}"), ("one 0,\n", 1, f"line 1: {rights}"), ("one 00\n", 1, f"line 1: {rights}"),
                ("one  0\n", 1, f"line 1: {rights}"), ("one all\n", 1, f"line 1: {rights}"), ("one *\r\n", 1, "line 1: it ends with a carriage return"),
                (" *\n", 1, f"line 1: {characters}"), (" 9\n", 1, f"line 1: {characters}"), ("x" * 123 + " *\n", 1, f"line 1: {characters}"),
                ("ä *\n", 1, f"line 1: {characters}"), ("one *\ntwo 0\n#\none read\n", 4, "line 4: its token stands in a line in front of it too"),
                ("", 1, "it has no token"), ("# nothing\n\n", 1, "it has no token")):
            file.write_text(text)
            ended("host", TWICE, "--tokens", file, status=3, error=f"{file}: {why}\ntokens refused at line {line}\n")
        for text, line in (("a:1 x\nb:1\n", 2), ("# x\n x\n", 2), ("a:1 \n", 1), ("a:1 x y\n", 1), ("a:1 x firs\n", 1), ("a:1  first\n", 1), ("a:1 x first \n", 1),
                           ("a:1 x first first\n", 1), ("a:1 " + "x" * 123, 1)):
            file.write_text(text)
            ended("host", TWICE, "--peer-tokens", file, status=3, error=f"{file}: line {line}: neither HOST:PORT TOKEN nor HOST:PORT TOKEN first\n"
                  f"tokens of peers refused at line {line}\n")
        file.write_bytes(b"#" * 1_048_577)
        for which, words in (("", "--tokens"), (" of peers", "--peer-tokens")):
            ended("host", TWICE, words, file, status=4, error=f"{file}: it has more than 1,048,576 bytes\ncannot read the tokens{which}\n")
        # The longest token, and what is passed over.
        file.write_text("#\n\n" + "x" * 122 + " 0,1,1\none read")
        with Hosted("--tokens", file) as host:
            same(host.talk().ask("token one"), "may read", "a token")
            same(host.talk().ask("token " + "x" * 122), "may 0 1", "the longest that a line can say")


def journals():
    """Why a host cannot go on with a journal is told, and why one cannot be checked or repaired."""
    with tempfile.TemporaryDirectory() as folder:
        file, none, other = Path(folder, "kept.journal"), Path(folder, "none", "kept.journal"), Path(folder, "other")
        other.write_text("other\n")
        absent, is_folder = in_system_words(errno.ENOENT), in_system_words(errno.EISDIR)
        at = ("host", TWICE, "--listen", f"{HOST}:0", "--journal")
        in_use = f"journal {file}: another process has it\nthe journal is in use\n"
        no_first = f"journal {other}: its first line is none, or another program's\nthat is no journal of this program\n"
        with Hosted("--journal", file):
            ended(*at, file, status=6, error=in_use)
            ended("journal", "repair", file, status=6, error=in_use)
        ended(*at, none, status=4, error=f"journal {none}: {absent}\ncannot use the journal\n")
        ended(*at, folder, status=4, error=f"journal {folder}: {is_folder}\ncannot use the journal\n")
        ended(*at, other, status=3, error=no_first)
        for action in ("check", "repair"):
            ended("journal", action, none, status=4, error=f"journal {none}: {absent}\ncannot use the journal\n")
            ended("journal", action, other, status=3, error=no_first)
        with file.open("a") as more:
            more.write("event 0 5 0 0 3\nevent 0 5 0 0 3\n")
        ended(*at, file, status=3, error="journal: the record of line 3 stands in front of it too\njournal refused at line 3\n")
        ended("journal", "mend", file, status=2, error="a journal is for check or repair\n")
    # A folder's lock stands beside it.
    Path(f"{folder}.lock").unlink(missing_ok=True)


def allowed_origins():
    """What is no origin of a page is refused at the start; what is one may be one of several."""
    said = "--allow-origin is http://HOST[:PORT] or https://HOST[:PORT]\n"
    for word in ("nonsense", "*", "null", "game.example", "ftp://game.example", "https://", "http://:80", "https://game.example/", "https://game.example:",
                 "https://game.example:port", "https://game.example:65536", "https://game.example:08", "https://[::1", "https://[]", "https://[::g]",
                 "https://[::1]x", "https://a b", "https://a@b", "HTTPS://game.example", "https://a:1:2", "https://spiel.büro", "https://Game.example",
                 "https://game.example:443", "http://game.example:80", "http://game.example:0", "http://[::A]"):
        ended("host", TWICE, "--allow-origin", "https://good.example", "--allow-origin", word, status=2,
              error=f"--allow-origin {word}: no origin of a page\n{said}")
    good = ["https://game.example", "http://game.example:8080", "https://a-b_c.example:65535", "http://192.0.2.1", "https://[2001:db8::1]:80", "http://[::1]"]
    words = [it for origin in good for it in ("--allow-origin", origin)]
    with Hosted(*words, remarks=["pages refused: "]) as host:
        for origin in [*good, f"http://localhost:{host.port}"]:
            for path, status in (("/", 200), ("/names.json", 200), ("/none", 404), ("/ws", 426)):
                fields = same_status(host, path, origin, status)
                same((fields.get("access-control-allow-origin"), fields.get("vary")), (origin, "Origin"), f"{path} for {origin}")
        for headers in ((), ("Origin: https://evil.example",), ("Origin: https://game.example:443",)):
            status, fields, _ = get(host.address, "/names.json", *headers)
            same((status, fields.get("access-control-allow-origin"), fields.get("vary")), (403 if headers else 200, None, None), f"{headers}")
        refused = re.compile(r"^pages refused: (\d+), their origin or the host's name in their requests is not allowed \(see --allow-origin\)$", re.M)
        wait_for(lambda: sum(map(int, refused.findall(host.printed(1)))) == 2, "that two pages were refused")
        holds(b"\nwarpd_http_forbidden_total 2\n" in get(host.address, "/metrics")[2], "the count of pages refused")


def same_status(host, path, origin, status):
    found, fields, _ = get(host.address, path, f"Origin: {origin}")
    same(found, status, f"{path} for {origin}")
    return fields


def started():
    """The first line for an operator: how many clients, which version and program, and whether tokens are wanted."""
    version = subprocess.run([hosting.PROGRAM, "--version"], capture_output=True, text=True, timeout=60, check=True).stdout.strip()
    with tempfile.TemporaryDirectory() as folder:
        file = Path(folder, "tokens")
        file.write_text("one *\n")
        file.chmod(0o600)
        for words, clients, wanted in (((), 1_024, "no tokens are wanted"), (("--clients", "7", "--tokens", file), 7, "tokens are wanted")):
            with Hosted(*words) as host:
                talk = host.talk()
                talk.ask("token one")
                wait_for(lambda: "\n" in host.printed(1), "the line on the start")
                same(host.printed(1), f"started: {clients} clients at a time; {version}; {talk.ask('program')}; {wanted}\n", "the start")


def wrong_tokens():
    """Requests that bring no token, or a wrong one, are counted."""
    with tempfile.TemporaryDirectory() as folder:
        file = Path(folder, "tokens")
        file.write_text("one *\n")
        file.chmod(0o600)
        with Hosted("--tokens", file) as host:
            for _ in range(3):
                same(get(host.address, "/metrics", "Authorization: Bearer two")[0], 401, "a wrong token")
                same(get(host.address, "/names.json")[0], 401, "no token")
            same(host.web("/ws?token=two").status, 401, "a wrong token at /ws")
            same(get(host.address, "/healthz")[0], 200, "what is open")
            same(host.talk().ask("token two"), "refused 13", "a wrong token over lines")

            def counted():
                text = get(host.address, "/metrics", "Authorization: Bearer one")[2]
                return b"\nwarpd_http_unauthorized_total 7\n" in text and b'\nwarpd_refused_total{number="13"} 1\n' in text

            wait_for(counted, "the counts", 30)


CASES = [refused_starts, no_files, tokens_of_peers, little_memory, refused_tokens, journals, allowed_origins, started, wrong_tokens]
