"""Log engines of the system's packages, each a process of its own on 127.0.0.1 with a folder of its own: for scripts
that try feeds.

An engine is started, killed, started again with what it kept, and ended, by its own process alone. Nothing outlives a
script that calls `end`; PostgreSQL does not run as root, so root runs it as the user `postgres`."""

import os
import shutil
import signal
import subprocess
import tempfile
from contextlib import suppress
from pathlib import Path

from loopback import HOST, free_port, holds, wait_for

ENOUGH = 60


class Engine:
    """A process that keeps streams in its folder."""

    user = None

    def __init__(self):
        self.port = free_port()
        self.folder = Path(tempfile.mkdtemp(prefix="warpd-engine-"))
        self.process = None

    def start(self):
        # What it says goes to a file: a pipe that nobody reads would hold it up.
        with open(self.folder / "said", "ab") as said:
            self.process = subprocess.Popen(self.words(), stdin=subprocess.DEVNULL, stdout=said, stderr=said,
                                            cwd=self.folder, **self.as_user())
        wait_for(lambda: self.answers() or self.process.poll() is not None, f"an answer of {self.words()[0]}", ENOUGH)
        holds(self.process.poll() is None, f"{self.words()[0]} ended: {(self.folder / 'said').read_text()[-500:]}")
        return self

    def as_user(self):
        return {"user": self.user, "group": self.user, "extra_groups": []} if self.user and os.geteuid() == 0 else {}

    def kill(self):
        self.process.send_signal(self.killing)
        self.process.wait(ENOUGH)

    def restart(self):
        self.kill()
        self.start()

    def put_back(self, copy):
        """Its files are again those of an older copy, which was made while it was not running."""
        self.kill()
        for it in self.folder.iterdir():
            shutil.rmtree(it) if it.is_dir() else it.unlink()
        subprocess.run(["cp", "-a", f"{copy}/.", str(self.folder)], check=True)
        if self.as_user():
            subprocess.run(["chown", "-R", f"{self.user}:{self.user}", str(self.folder)], check=True)
        self.start()

    def end(self):
        if self.process and self.process.poll() is None:
            with suppress(Exception):
                self.kill()
            if self.process.poll() is None:
                self.process.kill()
                self.process.wait()
        shutil.rmtree(self.folder, ignore_errors=True)

    def __enter__(self):
        try:
            return self.start()
        except BaseException:
            self.end()
            raise

    def __exit__(self, *_):
        self.end()


class RedisServer(Engine):
    """Redis, which answers an append when it is in its file."""

    killing = signal.SIGKILL

    def words(self):
        return ["redis-server", "--port", str(self.port), "--bind", HOST, "--dir", str(self.folder), "--save", "",
                "--appendonly", "yes", "--appendfsync", "always"]

    def url(self, name):
        return f"redis://{HOST}:{self.port}/{name}"

    def connection(self):
        import redis

        return redis.Redis(HOST, self.port, socket_timeout=ENOUGH)

    def answers(self):
        import redis

        with suppress(redis.RedisError), self.connection() as it:
            return it.ping()

    def unusable(self):
        """The URL of something that is no stream."""
        with self.connection() as it:
            it.set("text", "1")
        return self.url("text")

    def texts(self, name):
        with self.connection() as it:
            return [fields.get(b"line", b"?").decode() for _, fields in it.xrange(name)]

    def put(self, name, text):
        with self.connection() as it:
            it.xadd(name, {b"line": text})

    def cut(self, name, keep):
        """The stream loses what stands behind so many entries."""
        with self.connection() as it:
            gone = [entry for entry, _ in it.xrange(name)][keep:]
            it.xdel(name, *gone)


class PostgresqlServer(Engine):
    """PostgreSQL with a cluster of its own."""

    user = "postgres"
    killing = signal.SIGQUIT

    def __init__(self):
        super().__init__()
        programs = sorted(Path("/usr/lib/postgresql").glob("*/bin"), key=lambda it: int(it.parent.name))
        holds(programs, "PostgreSQL is not there: .ci/setup installs it")
        self.programs = programs[-1]
        if os.geteuid() == 0:
            shutil.chown(self.folder, self.user, self.user)
        words = [self.programs / "initdb", "-D", self.folder / "data", "-U", "warpd", "-A", "trust", "--no-sync",
                 "-E", "UTF8", "--locale=C"]
        subprocess.run(words, check=True, stdin=subprocess.DEVNULL, stdout=subprocess.DEVNULL, cwd=self.folder,
                       **self.as_user())

    def words(self):
        return [str(self.programs / "postgres"), "-D", str(self.folder / "data"), "-k", str(self.folder),
                "-h", HOST, "-p", str(self.port),
                # What a killed process has written stays: only the end of the machine asks for more.
                "-c", "fsync=off"]

    def url(self, name):
        return f"postgresql://warpd@{HOST}:{self.port}/postgres/{name}"

    def connection(self):
        import psycopg2

        return psycopg2.connect(host=HOST, port=self.port, user="warpd", dbname="postgres", connect_timeout=ENOUGH)

    def answers(self):
        import psycopg2

        with suppress(psycopg2.Error):
            self.connection().close()
            return True

    def ask(self, text, *values):
        made = self.connection()
        try:
            with made, made.cursor() as cursor:
                cursor.execute(text, values)
                return cursor.fetchall() if cursor.description else []
        finally:
            made.close()

    def unusable(self):
        return self.url("name").replace("/postgres/", "/nowhere/")

    def texts(self, name):
        there = self.ask("SELECT to_regclass(%s) IS NOT NULL", f'"{name}"')[0][0]
        return [line for line, in self.ask(f'SELECT line FROM "{name}" ORDER BY transaction, number')] if there else []

    def put(self, name, text):
        self.ask(f'INSERT INTO "{name}" (line) VALUES (%s) ON CONFLICT (line) DO NOTHING', text)

    def cut(self, name, keep):
        kept = f'SELECT number FROM "{name}" ORDER BY transaction, number LIMIT %s'
        self.ask(f'DELETE FROM "{name}" WHERE number NOT IN ({kept})', keep)


ENGINES = {"redis": RedisServer, "postgresql": PostgresqlServer}
