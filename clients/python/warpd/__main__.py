"""`python3 -m warpd WORD ..`: what the package does from a command line."""

import os
import sys
import time
from collections.abc import Sequence
from pathlib import Path

from . import Carrier, Differ, spelled

USAGE = """usage: python3 -m warpd carry [--until-equal] HOST:PORT HOST:PORT..
       python3 -m warpd feed --server HOST:PORT --stream URL [--state FILE] [--token-file FILE] [-- COMMAND..]
       python3 -m warpd recast OLD NEW OLD.journal [-o NEW.journal] [--rename A=B].. [--force]
       python3 -m warpd compile FILE.lf [-o FILE.json]
       python3 -m warpd compile --back FILE.json [-o FILE.lf]
       python3 -m warpd compile --test FILE.lf [TESTS..]
       python3 -m warpd compile --format FILE.lf..
       python3 -m warpd compile --picture FILE.lf [-o FILE.svg]
       python3 -m warpd compile --watch FILE.lf [-o FILE.json]
       python3 -m warpd compile --lsp"""
SYSTEM = "/usr/bin/python3"


def _is_address(host: str, port: str) -> bool:
    return bool(host) and port.isdecimal() and 0 < int(port) < 65_536


def carry_command(words: Sequence[str]) -> int:
    """Keeps the servers at these addresses equal, up to an interrupt, or until nothing is left to be carried. Status 1
    says that they are not equal: programs differ, a server is not there, or refused a record; standard error has it in
    words."""
    until_equal = words[:1] == ["--until-equal"]
    addresses = [it.rpartition(":") for it in words[until_equal:]]
    if len(addresses) < 2 or not all(_is_address(host, port) for host, _, port in addresses):
        return usage()
    carrier = Carrier(
        [(host, int(port)) for host, _, port in addresses],
        tell=lambda text: print(f"carry: {spelled(text)}", file=sys.stderr, flush=True))
    try:
        while True:
            if not carrier.round():
                if until_equal and carrier.complete:
                    break
                time.sleep(0.05)
    except KeyboardInterrupt:
        pass
    except Differ as difference:
        print(f"carry: {spelled(str(difference))}", file=sys.stderr)
        return 1
    finally:
        status = int(carrier.amiss)
        carrier.close()
    return status


def feed_command(words: Sequence[str]) -> int:
    """Keeps a server and a stream of a log engine equal, over the engine's package."""
    return _with_packages("feed", words, {"redis": "python3-redis", "psycopg2": "python3-psycopg2"})


def compile_command(words: Sequence[str]) -> int:
    """Compiles a program's text."""
    return _with_packages("compile", words, {"lark": "python3-lark"})


def recast_command(words: Sequence[str]) -> int:
    """Brings a journal's records under a new program. Texts of programs want the compiler's package."""
    return _with_packages("recast", words, {"lark": "python3-lark"})


def _with_packages(word: str, words: Sequence[str], packages: dict[str, str]) -> int:
    """Does what wants more than the standard library. Where a package is one of the system's Python, and another one
    is the first on the path, that of the system does it."""
    try:
        if word == "feed":
            from .feed.command import main as done
        elif word == "recast":
            from .recast.command import main as done
        else:
            from .language.command import main as done
        return done(words)
    except ModuleNotFoundError as missing:
        if os.path.exists(SYSTEM) and os.path.realpath(sys.executable) != os.path.realpath(SYSTEM):
            path = {"PYTHONPATH": str(Path(__file__).resolve().parent.parent)}
            os.execve(SYSTEM, [SYSTEM, "-m", "warpd", word, *words], {**os.environ, **path})
        debian = packages.get(missing.name, missing.name)
        print(f"warpd {word} wants the package `{missing.name}` (Debian: apt-get install {debian})", file=sys.stderr)
        return 4


def usage() -> int:
    print(USAGE, file=sys.stderr)
    return 2


COMMANDS = {"carry": carry_command, "compile": compile_command, "feed": feed_command, "recast": recast_command}


def main(words: Sequence[str]) -> int:
    return COMMANDS[words[0]](words[1:]) if words and words[0] in COMMANDS else usage()


if __name__ == "__main__":
    sys.exit(main(sys.argv[1:]))
