"""Cases of `.ci/host` on many clients: who come and go, who are too many, who read slowly, and where descriptors run out."""

import asyncio
import contextlib
import json
import os
import random
import resource
import socket
import tempfile
import threading
import time
from pathlib import Path

from hosting import CLOSE, TEXT, Web, frame, get, narrow, read_all, read_text
from hosting import begun as Hosted
from loopback import SECONDS, Talk, Wrong, holds, same, wait_for

VISITORS, VISITING = 1_000, 60
# Fewer than a log has room for.
MOST_EVENTS = 90_000
MOST_ROUNDS = 4
WORDS = {"var 0": "var", "vars": "vars", "releases": "releases", "nonsense": "refused", "horizon": "horizon", "program": "program",
         "counts 0": "counts", "reached 0": "reached", "event 1 0 0 0 0": "refused"}
RESET = b"\1\0\0\0\0\0\0\0"


def program_of(folder, variables, stop=1_000_000):
    """A program of so many variables: the first is the sum of the events' values, the others are long numbers."""
    file = Path(folder, "program.json")
    others = [[f"v{at}", -(2 ** 62) - at] for at in range(1, variables)]
    file.write_text(json.dumps({"version": 1, "stop": stop, "origins": 1, "reactors": [
        {"name": "r", "vars": [["total", 0], *others], "inputs": ["a"], "outputs": ["y"], "reactions": [
            {"on": ["a"], "writes": ["y"], "body": [["set", "total", ["+", "total", "a"]], ["put", "y", "total"]]}]}],
        "inputs": [[0, "r.a"]], "outputs": ["r.y"]}))
    return file


class Crowd:
    """What the visitors of a host have in common: the places that their records were told to be at, and what they did."""

    def __init__(self, port, seconds):
        self.port, self.end = port, time.monotonic() + seconds
        self.sent, self.told, self.visits, self.lines, self.most, self.here = 0, {}, 0, 0, 0, 0

    def drawn(self, dice):
        """Lines, each with the word that its reply begins with."""
        drawn = []
        for _ in range(dice.randrange(1, 12)):
            if dice.random() < 0.2 and self.sent < MOST_EVENTS:
                drawn.append((f"event 0 {self.sent} 0 0 1", "taken"))
                self.sent += 1
            else:
                drawn.append(dice.choice(list(WORDS.items())))
        return drawn

    def hear(self, asked, replies):
        """Looks at the replies to what was asked, one for one."""
        same(len(replies), len(asked), "how many replies came")
        for (line, word), reply in zip(asked, replies):
            same(reply.split(" ")[0], word, f"the reply to {line!r}")
            if word == "taken":
                place = int(reply.split(" ")[1])
                holds(place not in self.told, f"place {place} was told twice")
                self.told[place] = line
        self.lines += len(asked)


class LineVisit:
    """A client that speaks lines."""

    def __init__(self, reader, writer):
        self.reader, self.writer = reader, writer

    @classmethod
    async def connect(cls, port):
        return cls(*await asyncio.open_connection("127.0.0.1", port))

    @classmethod
    async def come(cls, port):
        """The next one; its first line is one, or it would be closed."""
        made = await cls.connect(port)
        holds((await made.ask(["program"]))[0].startswith("program "), "the reply to the first line")
        return made

    async def ask(self, lines):
        self.writer.write("".join(line + "\n" for line in lines).encode())
        return [(await self.reader.readuntil(b"\n"))[:-1].decode() for _ in lines]

    async def part(self):
        """Ends what it sends; nothing more comes."""
        self.writer.write_eof()
        same(await self.reader.read(), b"", "what comes behind the last reply")

    def break_off(self, dice):
        """Goes in the middle of something."""
        self.writer.write(dice.choice([b"", b"var 0\n" * 20, b"event 0 1", b"watch log 1\nwatch vars\nvar 0\nva"]))


class WebVisit(LineVisit):
    """A client that speaks WebSocket."""

    @classmethod
    async def come(cls, port):
        made = await cls.connect(port)
        made.writer.write(f"GET /ws HTTP/1.1\r\nHost: 127.0.0.1:{port}\r\nUpgrade: websocket\r\nConnection: Upgrade\r\n"
                          "Sec-WebSocket-Key: dGhlIHNhbXBsZSBub25jZQ==\r\nSec-WebSocket-Version: 13\r\n\r\n".encode())
        head = await made.reader.readuntil(b"\r\n\r\n")
        holds(head.startswith(b"HTTP/1.1 101 "), f"an upgrade, not {head!r}")
        return made

    async def next_frame(self):
        first, size = await self.reader.readexactly(2)
        if size == 126:
            size = int.from_bytes(await self.reader.readexactly(2), "big")
        return first & 0x0F, await self.reader.readexactly(size)

    async def ask(self, lines):
        self.writer.write(frame(TEXT, "\n".join(lines).encode()))
        replies = []
        while len(replies) < len(lines):
            opcode, text = await self.next_frame()
            same(opcode, TEXT, "a text message")
            replies += text.decode().split("\n")
        return replies

    async def part(self):
        self.writer.write(frame(CLOSE, b"\x03\xe8"))
        same(await self.next_frame(), (CLOSE, b"\x03\xe8"), "what comes behind the last reply")

    def break_off(self, dice):
        whole = frame(TEXT, b"var 0\n" * 20 + b"watch log 1")
        self.writer.write(whole[:dice.randrange(len(whole) + 1)])


async def visit(crowd, dice):
    """Comes, asks a few times, and goes."""
    made = await (WebVisit if dice.random() < 0.5 else LineVisit).come(crowd.port)
    crowd.here += 1
    crowd.most = max(crowd.most, crowd.here)
    try:
        for _ in range(dice.randrange(MOST_ROUNDS)):
            asked = crowd.drawn(dice)
            crowd.hear(asked, await made.ask([line for line, _ in asked]))
            await asyncio.sleep(dice.random() * 2)
        crowd.visits += 1
        if dice.random() < 0.6:
            await made.part()
        else:
            made.break_off(dice)
            if dice.random() < 0.5:
                made.writer.get_extra_info("socket").setsockopt(socket.SOL_SOCKET, socket.SO_LINGER, RESET)
    finally:
        crowd.here -= 1
        made.writer.close()


async def visit_often(crowd, number):
    dice = random.Random(number)
    await asyncio.sleep(dice.random() * 5)
    while time.monotonic() < crowd.end:
        await visit(crowd, dice)
        await asyncio.sleep(dice.random())


async def crowd_in(crowd):
    await asyncio.gather(*(visit_often(crowd, number) for number in range(VISITORS)))


def come_and_go():
    """A thousand clients come and go for a minute, over lines and WebSocket, in order and not: each line is answered once, and in order, and
    each record that was taken stands at its place."""
    with tempfile.TemporaryDirectory() as folder, Hosted("--clients", 2 * VISITORS, program=program_of(folder, 1)) as host:
        crowd = Crowd(host.port, VISITING)
        asyncio.run(crowd_in(crowd))
        print(f"{crowd.visits} visits, {crowd.most} at a time, and {crowd.lines} lines: {host.memory():.0f} MiB at last")
        holds(crowd.visits > VISITORS and crowd.most > VISITORS // 4, "they came and went")
        wait_for(lambda: b"\nwarpd_clients 1\n" in get(host.address, "/metrics")[2], "all but one gone", 30)
        talk = host.talk()
        count = int(talk.ask("horizon").split(" ")[1])
        same(talk.ask("watch log 1"), "watching 1", "a watch")
        log = [talk.line() for _ in range(count)]
        for place, line in crowd.told.items():
            same(log[place - 1], f"* log {place} {line}", "a record that was taken")
        same(len(set(line.split(" ", 3)[3] for line in log)), count, "records that stand there once")


def too_many():
    """More clients than may be are turned away; who is there is served; when some go, others may come."""
    with Hosted("--clients", "20", remarks=["clients refused: "]) as host:
        talks = [host.talk() for _ in range(20)]
        for talk in talks:
            same(talk.ask("var 0"), "var 0 0", "one of twenty")
        for _ in range(200):
            with socket.create_connection(host.address, SECONDS) as one:
                same(read_all(one), b"", "one too many")
        for talk in talks[:10]:
            same(talk.ask("var 0"), "var 0 0", "one of twenty")
            talk.close()
        wait_for(lambda: is_served(host), "a place again", 30)


def is_served(host):
    try:
        with contextlib.closing(Talk(host.address)) as talk:
            talk.send(b"var 0\n")
            return talk.replies.readline() == b"var 0 0\n"
    except OSError:
        return False


def refused_in(text, why):
    """How many clients were refused so, as standard error tells."""
    lines = [it for it in text.splitlines() if it.startswith("clients refused: ") and it.endswith(why)]
    return sum(int(it.split(" ")[2].rstrip(",")) for it in lines)


def flood():
    """A flood of connections, as fast as they come, past those that may be: each is turned away and counted, and who is there is served."""
    seconds, counts = 4, [0] * 6

    def come(host, number):
        end = time.monotonic() + seconds
        while time.monotonic() < end:
            with socket.create_connection(host.address, SECONDS) as one:
                if number % 2:
                    one.sendall(b"var 0\nGET / HTTP/1.1\r\n\r\n"[number:])
                same(read_all(one), b"", "one too many")
            counts[number] += 1

    with Hosted("--clients", "20", remarks=["clients refused: "]) as host:
        talks = [host.talk() for _ in range(20)]
        for talk in talks:
            same(talk.ask("var 0"), "var 0 0", "one of twenty")
        threads = [threading.Thread(target=come, args=(host, number), daemon=True) for number in range(len(counts))]
        for it in threads:
            it.start()
        asked = 0
        while any(it.is_alive() for it in threads):
            same(talks[asked % 20].ask("var 0"), "var 0 0", "one of twenty")
            asked += 1
        count = sum(counts)
        holds(all(counts) and asked >= 20, f"{counts} came, and {asked} lines were asked meanwhile")
        wait_for(lambda: refused_in(host.printed(1), ", there are 20 already") == count, f"{count} are told to be refused", 30)
        holds(len(host.printed(1).splitlines()) <= seconds + 30, "a line a second at most")
        for talk in talks[:5]:
            talk.close()
        wait_for(lambda: is_served(host), "a place again", 30)
        wait_for(lambda: refused_by_metrics(host) >= count, "they are counted", 30)


def refused_by_metrics(host):
    """How many connections the page of metrics tells to be refused; 0 where it is not told."""
    try:
        text = get(host.address, "/metrics")[2]
    except (OSError, Wrong):
        return 0
    return int(text.partition(b"\nwarpd_clients_refused_total ")[2].split(b"\n")[0])


def few_descriptors():
    """The limit on descriptors is looked at in the start: if they are few, so many clients there may be."""
    with Hosted("--clients", "500", files=60, remarks=["clients refused: "]) as host:
        wait_for(lambda: "\n" in host.printed(1), "the line on the start", 30)
        most = int(host.printed(1).split()[1])
        holds(30 <= most < 60, f"{host.printed(1)!r}")
        said = f"started: {most} clients at a time, since there are descriptors for no more (500 were asked for); warpd "
        holds(host.printed(1).startswith(said), f"{host.printed(1)!r}")
        talks = []
        for _ in range(most):
            talks.append(host.talk())
            same(talks[-1].ask("var 0"), "var 0 0", "a client")
        for _ in range(50):
            with socket.create_connection(host.address, SECONDS) as one:
                same(read_all(one), b"", "one too many")
        same(talks[0].ask("var 0"), "var 0 0", "the first")


def no_descriptors():
    """Where descriptors run out, who comes is refused, who is there is served, and others may come when there are some again."""
    with Hosted("--clients", "200", remarks=["clients refused: "]) as host:
        talks = [host.talk() for _ in range(10)]
        for talk in talks:
            same(talk.ask("var 0"), "var 0 0", "one of ten")
        pid = host.process.pid
        whole = resource.prlimit(pid, resource.RLIMIT_NOFILE)
        open_files = max(int(it) for it in os.listdir(f"/proc/{pid}/fd")) + 1
        resource.prlimit(pid, resource.RLIMIT_NOFILE, (open_files, whole[1]))
        for at in range(100):
            with socket.create_connection(host.address, SECONDS) as one:
                same(read_all(one), b"", "one without a descriptor")
            same(talks[at % 10].ask("var 0"), "var 0 0", "one of ten")
        wait_for(lambda: refused_in(host.printed(1), ", there are no descriptors left") == 100, "a hundred are told to be refused", 30)
        resource.prlimit(pid, resource.RLIMIT_NOFILE, whole)
        wait_for(lambda: is_served(host), "a descriptor again", 30)
        wait_for(lambda: b"\nwarpd_clients_refused_total 100\n" in get(host.address, "/metrics")[2], "they are counted", 30)


def slow_reader():
    """Who reads nothing holds up nobody, and gets the log when it reads."""
    with tempfile.TemporaryDirectory() as folder, Hosted(program=program_of(folder, 1), remarks=["clients closed: "]) as host:
        writer, slow = host.talk(), host.talk()
        same(slow.ask("watch log 1"), "watching 1", "a watch")
        lazy = [host.talk() for _ in range(200)]
        for it in lazy:
            same(it.ask("watch log 1"), "watching 1", "a watch")
        sent = [f"event 0 {at} 0 0 1" for at in range(60_000)]
        began = time.monotonic()
        writer.stream(sent)
        took = time.monotonic() - began
        print(f"60,000 records beside 201 clients that read nothing: {took:.1f} seconds, {host.memory():.0f} MiB")
        # It goes on with the log from its front, unless it was too slow.
        for place in range(1, len(sent) + 1):
            line = slow.line()
            if line == "* gone slow":
                same(slow.replies.read(), b"", "what comes behind that")
                break
            same(line, f"* log {place} {sent[place - 1]}", "a push")
        same(writer.ask("var 0"), "var 60000 60000", "the others")


def gone_slow():
    """Who watches the log and reads nothing is told that it is too slow, behind whole pushes in order, and closed; others are served."""
    with tempfile.TemporaryDirectory() as folder, Hosted(program=program_of(folder, 1), remarks=["clients closed: "]) as host:
        asker = host.talk()
        lines = Talk(host.address, narrow)
        same(lines.ask("watch log 1"), "watching 1", "a watch")
        count = ask_until_slow(host, asker, 0, 1)
        said = lines.replies.read().decode().splitlines()
        same(said.pop(), "* gone slow", "the last line")
        look_at_log(said, 1)
        lines.close()
        web = host.web(connect=narrow)
        web.say(f"watch log {count + 1}")
        first = count + 1
        count = ask_until_slow(host, asker, count, 2)
        code, messages = read_text(web)
        said = "\n".join(messages).split("\n")
        same((said.pop(0), said.pop()), ("watching 1", "* gone slow"), "the first line and the last")
        look_at_log(said, first)
        same(code, 1001, "the code of the close")
        web.close()
        holds(asker.ask("var 0").startswith(f"var {count} "), "who reads")


def record(at):
    """The record at this place of the log, a long one."""
    return f"event 0 {at} 0 0 {-(2 ** 62) - at}"


def ask_until_slow(host, asker, count, slow):
    """Sends events, some at once, until so many clients are told to be too slow, which is told once a second; how many were sent then."""
    wanted = count + 22_000
    while closed_in(host.printed(1)) < slow:
        holds(wanted < MOST_EVENTS, "a client is told to be too slow")
        while count < wanted:
            more = range(count + 1, count + 65)
            same(asker.ask_all([record(at) for at in more]), [f"taken {at}" for at in more], "events")
            count += len(more)
        wanted += 2_000
        time.sleep(1.5)
    return count


def look_at_log(said, first):
    """Pushes of the log, in order from this place on."""
    same(said, [f"* log {at} {record(at)}" for at in range(first, first + len(said))], "pushes")


def closed_in(text):
    """How many clients were closed as too slow, as standard error tells."""
    return sum(int(it.split(" ")[2].rstrip(",")) for it in text.splitlines() if it.startswith("clients closed: "))


def look_at_values(said, values):
    """Pushes of all variables, each of a later record."""
    newest = -1
    for line in said:
        star, word, count, total, rest = line.split(" ", 4)
        same((star, word, total, rest), ("*", "vars", count, values), "a push")
        holds(int(count) > newest, f"{count} behind {newest}")
        newest = int(count)

def late_program(folder):
    """Two origins, and a timer at each of a million times: an event at time 1 has all of these executed again."""
    file = Path(folder, "late.json")
    file.write_text(json.dumps({"version": 1, "stop": 1_000_000, "origins": 2, "reactors": [
        {"name": "r", "vars": [["total", 0]], "inputs": ["a", "b"], "timers": [["tick", 1, 1]], "reactions": [
            {"on": ["a"], "body": [["set", "total", ["+", "total", "a"]]]},
            {"on": ["b"], "body": [["set", "total", ["+", "total", "b"]]]},
            {"on": ["tick"], "body": [["set", "total", ["+", "total", 1]]]}]}],
        "inputs": [[0, "r.a"], [1, "r.b"]], "outputs": []}))
    return file


def late_events():
    """Sixteen connections of one token send events before all that is executed, again and again: who has another token has an
    answer within a few rollbacks."""
    with tempfile.TemporaryDirectory() as folder, tempfile.NamedTemporaryFile() as tokens:
        tokens.write(b"many 0\nhonest 1\n")
        tokens.flush()
        os.chmod(tokens.name, 0o600)
        with Hosted("--tokens", tokens.name, program=late_program(folder)) as host:
            asker = host.talk()
            same(asker.ask("token honest"), "may 1", "a token")
            same(asker.ask("event 1 0 1 1 1"), "taken 1", "an event")
            one = max(seconds_of(asker, number) for number in range(1, 4))
            with sending(host, 16):
                took = [seconds_of(asker, None) for _ in range(5)]
            print(f"one rollback {one:.3f} seconds; a query among late events at most {max(took):.3f}")
            holds(max(took) < 4 * one + 0.5, f"a query took {max(took):.3f} seconds, a rollback {one:.3f}")


def seconds_of(asker, number):
    """How long a query takes, behind a late event of this number if it has one."""
    began = time.monotonic()
    if number is not None:
        asker.send(f"event 1 {number} 1 1 1\n".encode())
    asker.send(b"var 0\n")
    if number is not None:
        holds(asker.line().startswith("taken "), "an event")
    holds(asker.line().startswith("var "), "a query")
    return time.monotonic() - began


@contextlib.contextmanager
def sending(host, count):
    """So many connections send late events, each 20 milliseconds behind its last one's reply."""
    ends = threading.Event()

    def send(which):
        with contextlib.closing(host.talk()) as talk:
            talk.ask("token many")
            number = which
            while not ends.is_set():
                talk.ask(f"event 0 {number} 1 0 1")
                number += count
                time.sleep(0.02)

    threads = [threading.Thread(target=send, args=(it,)) for it in range(count)]
    for it in threads:
        it.start()
    time.sleep(0.2)
    try:
        yield
    finally:
        ends.set()
        for it in threads:
            it.join()



CASES = [come_and_go, too_many, flood, few_descriptors, no_descriptors, slow_reader, gone_slow, late_events]
