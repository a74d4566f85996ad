"""Cases of `.ci/host` on steps: what a host executes while somebody watches it."""

import json
import socket
import subprocess
import tempfile
import threading
import time
from pathlib import Path

import hosting
from hosting import TWICE
from hosting import begun as Hosted
from loopback import Talk, holds, same, wait_for

# Fewer than a log has room for.
MANY = 60_000


def traced(lines):
    """What `warpd trace --steps` prints for these lines."""
    text = "".join(f"{line}\n" for line in lines)
    return subprocess.run([hosting.PROGRAM, "trace", "--steps", TWICE], input=text, capture_output=True, text=True, check=True).stdout.splitlines()


def next_steps(talk, count):
    """The next so many lines of steps."""
    lines = [talk.line() for _ in range(count)]
    holds(all(it.startswith("* step {") for it in lines), f"steps, not {lines!r}")
    return [it.removeprefix("* step ") for it in lines]


def steps():
    """Who watches steps is told what is executed from then on, as a trace prints it: also how far a late record goes back."""
    lines = ["event 0 5 0 0 3", "event 0 9 0 0 4", "event 0 30 0 0 1", "event 1 7 0 1 2", "withdraw 0 9 0", "event 1 40 0 1 5"]
    with Hosted() as host:
        asker, watcher, other = host.talk(), host.talk(), host.talk()
        same(asker.ask(lines[0]), "taken 1", "a record before the watch")
        same(watcher.ask("watch steps"), "watching 1", "the watch")
        same(watcher.ask("watch log 6"), "watching 2", "another watch")
        for place, line in enumerate(lines[1:-1], 2):
            same(asker.ask(line), f"taken {place}", "a record")
        wanted = traced(lines[:-1])[1:]
        got = next_steps(watcher, len(wanted))
        same(got, wanted, "steps")
        # By the definitions: the event at 7 comes behind that at 30, and goes back to before 7.
        back = [json.loads(it)["rollback"] for it in got if "rollback" in it]
        same([it["from"] for it in back], [[30, 0], [30, 0]], "from where it went back")
        holds(all(it["to"] is None or it["to"] < [7, 0] for it in back), f"to where it went back: {back!r}")
        again = got[got.index(next(it for it in got if "rollback" in it)) + 1:]
        tags = [json.loads(it)["tag"] for it in again[:back[0]["again"]]]
        same(tags[-2:], [[9, 0], [30, 0]], "what was executed again")
        # What is not executed is not told: a query, what is known, what is refused.
        asker.tell((lines[0], "known 1"), ("event 0 101 0 0 1", "refused 3"), ("collect", "collected 5"))
        same(other.ask("unwatch steps"), "watching 0", "who never watched")
        # A line behind the watch, in one piece with it, comes after the watch has begun.
        same(other.ask_all(["watch steps", lines[-1]]), ["watching 1", "taken 6"], "a watch and a record in one piece")
        wanted = traced(lines)[-1:]
        same(next_steps(other, 1), wanted, "the step of that record")
        same(sorted([watcher.line(), watcher.line()]), sorted([f"* step {wanted[0]}", "* log 6 event 1 40 0 1 5"]), "and another's pushes")
        same(watcher.ask("unwatch steps"), "watching 1", "no steps any more")
        same(asker.ask("event 0 50 0 0 1"), "taken 7", "a record behind the watch")
        same(watcher.line(), "* log 7 event 0 50 0 0 1", "the log alone")
        same(watcher.ask("watch steps 1"), "refused 1", "steps have no number")


def steps_by_rights():
    """Who may read may watch steps."""
    with tempfile.TemporaryDirectory() as folder:
        file = Path(folder, "tokens")
        file.write_text("all *\nlook read\n")
        file.chmod(0o600)
        with Hosted("--tokens", file) as host:
            talk, writer = host.talk(), host.talk()
            talk.tell(("watch steps", "refused 13"), ("token look", "may read"), ("watch steps", "watching 1"))
            writer.tell(("token all", "may *"), ("event 0 5 0 0 3", "taken 1"))
            same(next_steps(talk, 1), traced(["event 0 5 0 0 3"]), "a step")


def long_program(folder):
    file = Path(folder, "program.json")
    file.write_text(json.dumps({"version": 1, "stop": 1_000_000, "origins": 1, "reactors": [
        {"name": "r", "vars": [["total", 0]], "inputs": ["a"], "outputs": ["y"], "reactions": [
            {"on": ["a"], "writes": ["y"], "body": [["set", "total", ["+", "total", "a"]], ["put", "y", "total"]]}]}],
        "inputs": [[0, "r.a"]], "outputs": ["r.y"]}))
    return file


def lazy_talk(host):
    """A connection that takes little from the system while nobody reads."""
    talk = Talk.__new__(Talk)
    talk.socket = socket.socket()
    talk.socket.setsockopt(socket.SOL_SOCKET, socket.SO_RCVBUF, 8_192)
    talk.socket.connect(host.address)
    talk.replies, talk.said = talk.socket.makefile("rb"), []
    host.talks.append(talk)
    return talk


def read_lines(talk, lines):
    """Reads lines until the end."""
    for line in talk.replies:
        lines.append(line.decode().removesuffix("\n"))


def counted(lines):
    """How many of these lines tell what was executed, and how many more they say were left out."""
    skipped = [int(line.split()[2]) for line in lines if line.startswith("* skipped ")]
    return len(lines) - len(skipped), sum(skipped)


def steps_left_out():
    """A watcher that does not read holds up nobody, and is told how many lines of steps were left out for it; the others are there in order."""
    with tempfile.TemporaryDirectory() as folder, Hosted(program=long_program(folder)) as host:
        writer, lazy = host.talk(), lazy_talk(host)
        same(lazy.ask("watch steps"), "watching 1", "a watch")
        began = time.monotonic()
        writer.stream([f"event 0 {at} 0 0 1" for at in range(1, MANY + 1)])
        print(f"{MANY:,} records while steps are watched: {time.monotonic() - began:.1f} seconds, {host.memory():.0f} MiB")
        holds(host.memory() < 200, f"{host.memory()} MiB are taken")
        lines = []
        reader = threading.Thread(target=read_lines, args=(lazy, lines), daemon=True)
        reader.start()
        # What is left out is told once there is room, also where no step follows.
        wait_for(lambda: sum(counted(lines)) == MANY, "all steps are told or counted")
        holds(lines[-1].startswith("* skipped "), f"the last line: {lines[-1]}")
        # Who watches from then on is told of nothing that was before.
        newer = host.talk()
        same(newer.ask("watch steps"), "watching 1", "another watch")
        last = MANY + 1
        same(writer.ask(f"event 0 {last} 0 0 1"), f"taken {last}", "one record more")
        same(json.loads(next_steps(newer, 1)[0])["tag"], [last, 0], "its step")
        wait_for(lambda: f'"tag":[{last},0]' in lines[-1], "its step for the first watcher")
        lazy.socket.shutdown(socket.SHUT_RDWR)
        reader.join()
        told, left_out = 0, 0
        for line in lines:
            if line.startswith("* skipped "):
                left_out += int(line.split()[2])
                continue
            told += 1
            same(json.loads(line.removeprefix("* step "))["tag"], [told + left_out, 0], "the step that comes next")
        holds(left_out > 0, "nothing was left out")
        same(told + left_out, last, "steps")
        same(writer.ask("var 0"), f"var {last} {last}", "the replica")


def nobody_watches():
    """While nobody watches steps none is told, also to who watched them and went, or watches else."""
    with Hosted() as host:
        asker, one, other = host.talk(), host.talk(), host.talk()
        same(one.ask("watch steps"), "watching 1", "a watch")
        one.close()
        same(other.ask_all(["watch steps", "unwatch steps", "watch log 1"]), ["watching 1", "watching 0", "watching 1"], "watches")
        asker.tell(*((f"event 0 {at} 0 0 1", f"taken {at}") for at in range(1, 21)))
        same([other.line() for _ in range(20)], [f"* log {at} event 0 {at} 0 0 1" for at in range(1, 21)], "pushes")


def steps_behind_the_disk():
    """With a journal no step is told of a record that is not on the disk."""
    with tempfile.TemporaryDirectory() as folder:
        journal = Path(folder, "journal")
        with Hosted("--journal", journal) as host:
            asker, watcher = host.talk(), host.talk()
            same(watcher.ask("watch steps"), "watching 1", "a watch")
            for at in range(1, 51):
                asker.send(f"event 0 {at} 0 0 1\n".encode())
                step = json.loads(next_steps(watcher, 1)[0])
                same(step["tag"], [at, 0], "the step's tag")
                holds(f"event 0 {at} 0 0 1\n" in journal.read_text(), f"the step at {at} is told, and its record is not in the journal")
                same(asker.line(), f"taken {at}", "the reply")


CASES = [steps_left_out, steps, steps_by_rights, nobody_watches, steps_behind_the_disk]
