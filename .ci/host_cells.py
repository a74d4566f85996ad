"""Cases of `.ci/host` on arrays: what `cells` answers, what is pushed to who watches cells, and what clients make of it."""

import json
import tempfile
from pathlib import Path

from hosting import begun as Hosted
from hosting import narrow
from loopback import HOST, holds, same, wait_for
from warpd.hosted import Cells, HostClient

# Cell n / 1,000 of an array of twenty has the value n % 1,000 behind an event n. A variable is hidden, and there is one of those that are told.
BOARD = {"version": 4, "stop": 1_000_000, "origins": 1, "reactors": [
    {"name": "r", "vars": [["kept", 7], ["count", 0]], "arrays": [["a", 20, [5, -5]], ["wide", 4096, 0]],
     "inputs": ["set", "fill"], "reactions": [
        {"on": ["set"], "body": [["setat", "a", ["/", "set", 1000], ["%", "set", 1000]], ["set", "count", ["+", "count", 1]]]},
        {"on": ["fill"], "body": [["set", "kept", 0], ["while", 4096, ["<", "kept", 4096], [
            ["setat", "wide", "kept", ["+", "fill", "kept"]], ["set", "kept", ["+", "kept", 1]]]]]}],
     "called": [["a", "a[4][5]"]], "hidden": ["kept"]}],
    "inputs": [[0, "r.set"], [0, "r.fill"]]}
FIRST = "5 -5" + " 0" * 18
WIDE = 22, 4096
BIG = 10**15


def board_host(folder):
    file = Path(folder, "board.json")
    file.write_text(json.dumps(BOARD))
    return Hosted(program=file)


def set_cell(asker, time, cell, value):
    same(asker.ask(f"event 0 {time} 0 0 {cell * 1000 + value}"), f"taken {time}", "an event")


def cells_asked():
    """`cells` answers so many variables from one on; `vars` leaves cells and hidden variables out."""
    with tempfile.TemporaryDirectory() as folder, board_host(folder) as host:
        asker = host.talk()
        same(asker.ask("names"), 'names {"form":4,"origins":1,"stop":1000000,"vars":["r.kept","r.count"],"arrays":[["r.a[4][5]",2,20],'
             '["r.wide",22,4096]],"hidden":[0],"inputs":[[0,"r.set"],[0,"r.fill"]],"outputs":[]}', "the names")
        same(asker.ask("vars"), "vars 0 0", "the variables that are told")
        same(asker.ask("cells 0 4"), "cells 0 0 7 0 5 -5", "variables and cells")
        set_cell(asker, 1, 3, 8)
        same(asker.ask("cells 2 20"), "cells 1 2 5 -5 0 8" + " 0" * 16, "an array")
        same(asker.ask("cells 4117 4096"), "cells 1 4117 0", "as far as there are such")
        same([asker.ask(it) for it in ("cells 4118 1", "cells 4294967295 1")], ["refused 6"] * 2, "behind the last")
        wrong = ["cells 0 0", "cells 0 4097", "cells 0", "cells 0 1 1", "cells 01 1", "cells -1 1", "watch cells", "watch cells 0", "watch cells 0 0",
                 "watch cells 0 4097", "watch cells 4294967296 1", "watch cell 0 1", "unwatch cells 0 1"]
        same([asker.ask(it) for it in wrong], ["refused 1"] * len(wrong), "what is no word")


def cells_watched():
    """Who watches cells is pushed them, and then those from the first to the last that changed."""
    with tempfile.TemporaryDirectory() as folder, board_host(folder) as host:
        asker, watcher, other = host.talk(), host.talk(), host.talk()
        same(watcher.ask("watch cells 2 20"), "watching 1", "a watch of an array")
        same(watcher.line(), f"* cells 0 2 {FIRST}", "all cells")
        set_cell(asker, 1, 3, 8)
        same(watcher.line(), "* cells 1 5 8", "the cell that changed")
        set_cell(asker, 2, 0, 5)
        same(asker.ask("event 0 3 0 0 19009"), "taken 3", "the last cell")
        same(watcher.line(), "* cells 3 21 9", "nothing where no cell changed, and the last cell")
        # One that begins is pushed all, who watches already nothing; of another range all of that.
        same(other.ask("watch cells 2 20"), "watching 1", "a second watch")
        same(other.line(), "* cells 3 2 5 -5 0 8" + " 0" * 15 + " 9", "all cells as they are")
        same(other.ask("watch cells 4 2"), "watching 1", "another range in its place")
        same(other.line(), "* cells 3 4 0 8", "all of that")
        same(watcher.ask("watch vars"), "watching 2", "variables beside them")
        same(watcher.line(), "* vars 3 3", "those that are told")
        set_cell(asker, 4, 2, 1)
        same(sorted(watcher.line() for _ in range(2)), ["* cells 4 4 1", "* vars 4 4"], "a change")
        same(other.line(), "* cells 4 4 1", "the same at the other")
        # What was done is taken back.
        same(asker.ask("withdraw 0 1 0"), "taken 5", "a withdrawal")
        same(sorted(watcher.line() for _ in range(2)), ["* cells 5 5 0", "* vars 5 3"], "what was taken back")
        same(other.line(), "* cells 5 5 0", "the same at the other")
        same(watcher.ask("unwatch cells"), "watching 1", "no cells any more")
        same(other.ask("watch cells 4118 3"), "watching 1", "what the program has not")
        set_cell(asker, 6, 4, 4)
        same(watcher.line(), "* vars 6 4", "no cells are pushed")
        same(other.ask("cells 6 1"), "cells 6 6 4", "nothing is pushed of it")
        same(other.ask("unwatch cells"), "watching 0", "none any more")


def cells_unread():
    """Who does not read is not closed for cells, and is pushed all of the newest once it reads."""
    with tempfile.TemporaryDirectory() as folder, board_host(folder) as host:
        asker, watcher = host.talk(), narrow((HOST, host.port), 60)
        first, count = WIDE
        watcher.sendall(f"watch cells {first} {count}\n".encode())
        for time in range(1, 41):
            same(asker.ask(f"event 0 {time} 0 1 {BIG * time}"), f"taken {time}", "an event")
            asker.ask("vars")
        holds(host.memory() < 60, f"{host.memory()} MiB of a host whose watcher reads nothing")
        said, values = b"", {}
        while (values.get(first), len(values)) != (BIG * 40, count):
            piece = watcher.recv(65_536)
            holds(piece, "the connection stays")
            *lines, said = (said + piece).split(b"\n")
            for line in lines:
                words = line.decode().split(" ")
                if words[:2] == ["*", "cells"]:
                    values.update({int(words[3]) + at: int(value) for at, value in enumerate(words[4:])})
        same(values, {first + at: BIG * 40 + at for at in range(count)}, "the newest cells")
        watcher.close()


def cells_of_clients():
    """The client for Python has arrays by their names and sides, at each push all cells."""
    with tempfile.TemporaryDirectory() as folder, board_host(folder) as host:
        with HostClient(HOST, host.port) as client, HostClient(HOST, host.port) as writer:
            same((client.names.array("r.a"), client.names.sides("r.a"), client.names.var("r.a[1][2]")), ((2, 20), (4, 5), 9), "the names")
            pushes = client.watch("cells", "r.a")
            same(next(pushes), Cells(0, 2, (5, -5, *[0] * 18)), "the first push")
            writer.ask("event 0 1 0 0 7003")
            same(next(pushes), Cells(1, 2, (5, -5, *[0] * 5, 3, *[0] * 12)), "the second")
            same(client.cells("r.a"), Cells(1, 2, (5, -5, *[0] * 5, 3, *[0] * 12)), "what is asked")
            same(client.cells("r.wide").values, (0,) * 4096, "a longer one")
            client.reconnect()
            wait_for(lambda: client.pushed("cells") != [], "all anew behind a new connection")
            pushes = client.watch("cells", (8, 2))
            same(next(pushes), Cells(1, 8, (0, 3)), "a range")
            client.unwatch("cells")


CASES = [cells_asked, cells_watched, cells_unread, cells_of_clients]
