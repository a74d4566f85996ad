"""The page of examples/web/back in a browser, for `.ci/tab`: for each time that is chosen it shows variables and boards as the built
program has them over the records up to there, also behind a record that came late; it asks its own host alone, and sends it no record."""

import json
import random
import re
import subprocess
import tempfile
from pathlib import Path

from hosting import Hosted, get
from loopback import holds, same

ROOT = Path(__file__).resolve().parent.parent
TANKS = ROOT / "examples" / "tanks.json"
TICKS, MOVES, MOST_TOLD, SECONDS = 60, 40, 12, 60
TICK, CLOCK = 0, 0
# Moves the slider, to its end where no time is given.
SLIDE = """const slider = document.querySelector('.warpd-scrubber input')
slider.value = arguments[0] ?? slider.max
slider.dispatchEvent(new Event('input'))"""
SAID = "return document.querySelector('.warpd-scrubber output').textContent"
LABEL = "return document.getElementById('cells').ariaLabel"
VARS = "return Object.fromEntries([...document.getElementById('vars').rows].map(it => [...it.cells].map(cell => cell.textContent)))"
MARKED = "return [...document.querySelectorAll('#vars .new')].map(it => it.cells[0].textContent)"
COLOURS = """const { width, height } = document.getElementById('cells')
const { data } = document.getElementById('cells').getContext('2d').getImageData(0, 0, width, height)
return new Set(new Uint32Array(data.buffer)).size"""


def lines_of(dice):
    """A game of two tanks: who joins, all ticks, and moves, in the order of their times."""
    inputs = {origin: 3 * origin - 2 for origin in (1, 2)}
    found = {(0, origin): (inputs[origin], 1) for origin in inputs}
    found |= {(time, CLOCK): (TICK, 1) for time in range(1, TICKS + 1)}
    for _ in range(MOVES):
        origin = dice.choice(list(inputs))
        found[dice.randint(1, TICKS), origin] = dice.choice([(inputs[origin] + 1, dice.randint(0, 4)), (inputs[origin] + 2, 1)])
    return [f"event {origin} {time} 0 {number} {value}" for (time, origin), (number, value) in sorted(found.items())]


class Truth:
    """What the built program has over the records up to a time, by the names that a host tells."""

    def __init__(self, program, names, lines):
        self.program, self.names, self.lines = program, names, lines

    def at(self, time):
        """The variables by name, and each array's cells, as texts."""
        arrays = [(label.partition("[")[0], first, count) for label, first, count in self.names["arrays"]]
        count = max(first + count for _, first, count in arrays)
        given = [line for line in self.lines if int(line.split()[2]) <= time] + [f"var {it}" for it in range(count)]
        text = "".join(f"{line}\n" for line in given)
        done = subprocess.run([self.program, "run", TANKS], input=text, capture_output=True, text=True, timeout=SECONDS, check=True)
        values = [line.split()[2] for line in done.stdout.splitlines() if line.startswith("var ")]
        same(len(values), count, "how many variables the program tells")
        hidden = self.names.get("hidden", [])
        told = {name: values[at] for at, name in enumerate(self.names["vars"]) if at not in hidden}
        return told, {name: values[first:first + count] for name, first, count in arrays}


def words_of(name, sides, cells):
    """A board in words."""
    counts = {}
    for cell in cells:
        counts[int(cell)] = counts.get(int(cell), 0) + 1
    told = [f"{counts[it]} of {it}" for it in sorted(counts)[:MOST_TOLD]]
    return f"{name}, {sides[0]} rows of {sides[1]}: {', '.join(told)}{' and others' if len(counts) > MOST_TOLD else ''}"


def shows(browser, truth, time, slides=True):
    """By the slider the page shows what was so at a time."""
    if slides:
        browser.run(SLIDE, time)
        same(browser.run(SAID), f"at {time}", "what the slider says")
    told, arrays = truth.at(time)
    browser.wait(f"{LABEL} === {words_of('field.board', (24, 40), arrays['field.board'])!r}", f"the board at {time}")
    same(browser.run(VARS), told, f"the variables at {time}")
    return told, arrays


def laid(engine, folder):
    """A site with the page, laid as the guide says; no file of it takes another's place."""
    shown = re.findall(r"^```(\w*)\n(.*?)^```$", (ROOT / "docs" / "guide" / "tab.md").read_text(), re.M | re.S)
    laying, _, adding = (text.splitlines() for kind, text in shown if not kind)
    for name in ("clients", "examples"):
        (folder / name).symlink_to(ROOT / name)
    for line in laying + adding:
        subprocess.run(line.replace("clients/wasm/build", f"cp {engine}"), shell=True, cwd=folder, check=True)
    for file in (ROOT / "clients" / "js").glob("*.js"):
        same((folder / "game" / file.name).read_text(), file.read_text(), f"{file.name} in the site")
    return folder / "game"


def goes_back(browser, program, engine):
    """A game of tanks, back and forth. It gives what was seen, in words."""
    dice = random.Random(73)
    with tempfile.TemporaryDirectory(prefix="warpd-back-") as name, Hosted(program, TANKS, "--site", laid(engine, Path(name))) as host:
        truth = Truth(program, json.loads(get(host.address, "/names.json")[2]), lines_of(dice))
        talk = host.talk()
        for number, line in enumerate(truth.lines, 1):
            talk.tell((line, f"taken {number}"))
        own = f"{host.address[0]}:{host.address[1]}"
        browser.open(f"http://{own}/site/back.html")
        browser.wait_text("state", f"{len(truth.lines)} records, up to {TICKS}; all before 0 is final.")
        shows(browser, truth, TICKS, slides=False)
        for time in (30, 1, 0, TICKS - 1, 31):
            shows(browser, truth, time)
        before = truth.at(31)[0]
        told, arrays = shows(browser, truth, 32)
        same(browser.run(MARKED), [it for it in told if told[it] != before[it]], "what is marked")
        holds(browser.run(COLOURS) > 3, "the board has no colours")
        # A move at a time that is gone changes what is shown of the past.
        late = "event 1 20 5 1 0"
        talk.tell((late, f"taken {len(truth.lines) + 1}"))
        truth.lines.append(late)
        browser.wait_text("state", f"{len(truth.lines)} records")
        holds(shows(browser, truth, 32, slides=False)[1] != arrays, "the late move changes nothing")
        shows(browser, truth, 33)
        shows(browser, truth, 32)
        browser.choose("board", "field.painted, 5")
        browser.wait(f"{LABEL} === {words_of('field.painted', (1, 5), truth.at(32)[1]['field.painted'])!r}", "another array")
        browser.choose("board", "field.board, 24 by 40")
        browser.run(SLIDE)
        shows(browser, truth, TICKS, slides=False)
        same(browser.run(SAID), "now", "what the slider says at its end")
        asked = {it.partition("?")[0] for it in browser.asked()}
        holds(all(it.startswith((f"http://{own}/", f"ws://{own}/")) for it in asked), f"the page asks {asked}")
        same(talk.ask("horizon").split()[1], f"{len(truth.lines)}", "the records of the host")
        browser.is_quiet(("willReadFrequently",))
    browser.wait_text("state", "The connection is lost: what is shown is what the page has.")
    shows(browser, truth, 12)
    wants_token(browser, program, engine)
    return f"a page goes back through {len(truth.lines)} records of tanks"


def wants_token(browser, program, engine):
    """Where the host wants a token, the page says so, and takes it from behind its address."""
    with tempfile.TemporaryDirectory(prefix="warpd-back-") as name:
        tokens = Path(name) / ".tokens"
        tokens.write_text("secret read\n")
        tokens.chmod(0o600)
        # A browser may connect and ask for nothing.
        with Hosted(program, TANKS, "--site", laid(engine, Path(name)), "--tokens", tokens, remarks=["clients closed: "]) as host:
            address = f"http://{host.address[0]}:{host.address[1]}/site/back.html"
            browser.open(address)
            browser.wait_text("state", "This page cannot go on: the host wants a token: write it behind the address, as #TOKEN")
            browser.open(f"{address}#secret")
            browser.wait_text("state", "0 records, up to 0; all before 0 is final.")
            browser.said()
