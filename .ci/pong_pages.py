"""The game of examples/web/pong in a browser, for `.ci/tab`: that two tabs play it to a known score, that it is steered by hand, and,
frame by frame, that the player's own moves show at once, however late the host is."""

import random
import re
import subprocess
import sys
import threading
import time
import urllib.request
from contextlib import contextmanager
from pathlib import Path

from browsing import Keys
from loopback import holds, same

ROOT = Path(__file__).resolve().parent.parent
sys.path.insert(0, str(ROOT / "clients" / "python"))
from warpd import Event, HostClient  # noqa: E402

OVER = "The game is over, and all of it is final."
# A game lasts 90 seconds; where each frame takes long, fewer keys are pressed in this time.
MOST_MILLISECONDS = 60_000
# Notes in a page whether a point that may change was ever listed.
NOTE = """const points = document.getElementById("points")
new MutationObserver(() => (window.wasOpen ||= points.textContent.includes("may change"))).observe(points, { childList: true })"""
OVERLAY = "return document.querySelector('.warpd-overlay').shadowRoot.firstChild.textContent"
# Where the game's rules leave Ben's row, and over how many milliseconds the page takes a correction of it in.
ROWS, OVER_MILLISECONDS, TICK, FRAME = 6, 150, 100, 16
# Presses and releases keys, and looks at each frame behind the page's own drawing: how many frames it takes from a key until the
# player's own paddle is drawn otherwise, and how far the other's is moved in a frame, in rows, with what the frame took.
FRAMES = """const [presses, milliseconds, done] = arguments
const end = performance.now() + milliseconds
const canvas = document.getElementById("field")
const pen = canvas.getContext("2d", { willReadFrequently: true })
const [wide, high] = [canvas.width / 25, canvas.height / 7]
const column = left => pen.getImageData(Math.round(left * wide), 0, Math.round(wide * 0.4), canvas.height)
const press = (key, kind) => window.dispatchEvent(new KeyboardEvent(kind, { key }))
const row = ({ data, width, height }) => {
  let [sum, ink] = [0, 0]
  for (let y = 0; y < height; y += 1) for (let x = 0; x < width; x += 1) {
    const dark = 255 - data[4 * (y * width + x)]
    sum += dark * (y + 0.5)
    ink += dark
  }
  return sum / ink / high - 0.5
}
const state = { own: null, rest: 0, key: null, frames: 0, wait: 20, at: 0 }
const [found, moved] = [[], []]
function own(now, image) {
  const same = state.own && image.data.every((it, at) => it === state.own.data[at])
  state.own = image
  if (state.key && state.frames >= 0) {
    state.frames += 1
    if (same) return
    found.push({ frames: state.frames, milliseconds: now - state.at })
    state.frames = -1
    state.wait = 10
  } else if (state.key) {
    state.wait -= 1
    if (state.wait > 0) return
    press(state.key, "keyup")
    state.key = null
    state.rest = 0
  } else {
    state.rest = same ? state.rest + 1 : 0
    if (state.rest < 12 || state.isPlanned) return
    state.isPlanned = true
    setTimeout(() => {
      Object.assign(state, { isPlanned: false, key: row(state.own) < 3 ? "ArrowDown" : "ArrowUp", frames: 0, at: performance.now() })
      press(state.key, "keydown")
    }, Math.random() * 100)
  }
}
let before = null
requestAnimationFrame(function frame(now) {
  own(performance.now(), column(0.2))
  const other = row(column(24.4))
  if (before) moved.push([now - before.now, Math.abs(other - before.other)])
  before = { now, other }
  if (found.length < presses && now < end) return requestAnimationFrame(frame)
  if (state.key) press(state.key, "keyup")
  done({ found, moved })
})"""


def moments_of(ann, ben, first, ticks):
    """Pong where each player goes as a rule says, which looks at the tick alone: worked out from the rules of the game, not by warpd. Behind
    each tick from the first on both rows, where the ball is, and who has a point, if somebody does."""
    rows, (x, y, dx, dy) = [3, 3], (12, 3, 1, 1)
    for tick in range(first, ticks + 1):
        rows = [min(ROWS, max(0, row + rule(tick))) for row, rule in zip(rows, (ann, ben))]
        x, y = x + dx, y + dy
        dy = -dy if y in (0, 6) else dy
        if x == 1 and abs(y - rows[0]) < 2:
            dx = 1
        if x == 23 and abs(y - rows[1]) < 2:
            dx = -1
        point = {0: "Ben", 24: "Ann"}.get(x)
        x = 12 if point else x
        yield tick, rows, (x, y), point


class Started:
    """A game of examples/web that was started, and the addresses that it prints."""

    def __init__(self, name, program, engine, *words):
        command = [ROOT / "examples" / "web" / name / "start", program, "--engine", engine, *words]
        self.process = subprocess.Popen(list(map(str, command)), stdin=subprocess.PIPE, stdout=subprocess.PIPE, text=True)

    def __enter__(self):
        self.addresses = []
        while not self.addresses or "The host is shown" not in line:
            line = self.process.stdout.readline()
            holds(line, "the starter ended")
            self.addresses.append(line.split()[-1])
        return self

    def __exit__(self, *_):
        self.process.stdin.close()
        try:
            same(self.process.wait(30), 0, "the starter's status")
        finally:
            self.process.kill()


class Pong(Started):
    def __init__(self, *words):
        super().__init__("pong", *words)

    def __enter__(self):
        super().__enter__()
        self.ann, self.ben, self.host = self.addresses
        return self

    def delay(self, milliseconds):
        """Sets what the slider of the pages does."""
        address = f"{self.ann.partition('?')[0]}delay"
        urllib.request.urlopen(address, data=str(milliseconds).encode(), timeout=30).close()

    @contextmanager
    def spikes(self, milliseconds):
        """Now and then it is three times as late, for a moment."""
        end = threading.Event()
        dice = random.Random(milliseconds)

        def draw():
            while not end.wait(dice.uniform(0.3, 1.0)):
                self.delay(3 * milliseconds)
                end.wait(dice.uniform(0.05, 0.3))
                self.delay(milliseconds)

        thread = threading.Thread(target=draw)
        thread.start()
        try:
            yield
        finally:
            end.set()
            thread.join()


def first_tick(game):
    """The first tick that the host sent."""
    host, port = game.host.strip("/").rpartition("/")[2].split(":")
    with HostClient(host, int(port)) as client:
        return next(it.tag.time for it in client.records() if isinstance(it, Event) and it.origin == 0)


def known_score(browser, program, engine):
    """Two rules play to a known score over a host that hears of each tab late, and takes all that comes within ten seconds: both tabs go back,
    and end with the same points. Nobody announces but the host."""
    ticks = 400
    words = ("--delay", 300, "--tick", 30, "--ticks", ticks, "--grace", 10_000)
    with Pong(program, engine, *words) as game, browser.tab() as tabs:
        for tab, address in zip(tabs, (f"{game.ann}&rule=sweep", f"{game.ben}&rule=shuttle")):
            browser.driver.switch_to.window(tab)
            browser.open(address)
            browser.wait_text("told", "300")
            browser.run(NOTE)
        browser.wait_text("state", OVER, 90)
        first = first_tick(game)
        moments = {it[0]: it[1:] for it in moments_of(lambda tick: 1 if tick % 10 < 5 else -1, lambda tick: -1 if tick % 10 < 5 else 1, first, ticks)}
        points = [(point, tick) for tick, (_, _, point) in moments.items() if point]
        holds(points, "the rules make no point")
        for tab in tabs:
            browser.driver.switch_to.window(tab)
            browser.wait_text("state", OVER, 60)
            score = ", ".join(f"{name} {sum(it == name for it, _ in points)}" for name in ("Ann", "Ben"))
            same((browser.text("score"), browser.text("final")), (score, score), "the score")
            said = browser.run("return [...document.querySelectorAll('#points li')].map(it => it.textContent)")
            same(said, [f"{name} at {tick}, final" for name, tick in points], "the points")
            holds(int(browser.text("back").split()[0]) > 5, f"it went back {browser.text('back')}")
            for tick in (first, first + 16, (first + ticks) // 2, ticks - 1):
                back_in_time(browser, tick, *moments[tick][:2])
            # The first page was there before the game began.
            holds(tab != tabs[0] or browser.run("return window.wasOpen"), "no point was told that may change")
            browser.is_quiet()


def back_in_time(browser, tick, rows, ball):
    """By the slider the page shows what was so behind a tick; at its end it is now again."""
    slide = "const it = document.querySelector('.warpd-scrubber input'); it.value = arguments[0] ?? it.max; it.dispatchEvent(new Event('input'))"
    label = "return document.getElementById('field').getAttribute('aria-label')"
    now = browser.run(label)
    browser.run(slide, tick)
    then = f"The ball at {ball[0]}, {ball[1]}; Ann at row {rows[0]}, Ben at row {rows[1]}"
    browser.wait(f"{label} === {then!r}", f"behind tick {tick}: {then}")
    same(browser.run("return document.querySelector('.warpd-scrubber output').textContent"), f"at {tick}", "what the slider says")
    browser.run(slide)
    browser.wait(f"{label} === {now!r}", "the page shows what is so now")


def hold(browser, key, kind="keydown"):
    browser.run("window.dispatchEvent(new KeyboardEvent(arguments[1], { key: arguments[0] }))", key, kind)


def by_hand(browser, program, engine):
    """A player steers by keys, and the slider of one page sets the delay of both: the other sees the next move so much later."""
    ben_is_at = "return document.getElementById('field').ariaLabel.endsWith('Ben at row {}')"
    with Pong(program, engine, "--delay", 0, "--tick", 50) as game, browser.tab() as tabs:
        for tab, address in zip(tabs, (game.ann, game.ben)):
            browser.driver.switch_to.window(tab)
            browser.open(address)
            browser.wait_text("state", "player's page" if tab == tabs[0] else "The game is on.")
        hold(browser, "ArrowUp")
        browser.driver.switch_to.window(tabs[0])
        browser.wait(ben_is_at.format(0), "Ann sees Ben at the top")
        browser.driver.switch_to.window(tabs[1])
        browser.field("delay").send_keys(Keys.END)
        browser.wait_text("told", "3000")
        hold(browser, "ArrowUp", "keyup")
        time.sleep(0.5)
        hold(browser, "ArrowDown")
        began = time.monotonic()
        browser.wait(ben_is_at.format(6), "Ben at the bottom")
        browser.driver.switch_to.window(tabs[0])
        browser.wait_text("told", "3000")
        browser.wait(ben_is_at.format(6), "Ann sees Ben at the bottom")
        holds(time.monotonic() - began > 2.9, "the move came sooner than the slider says")
        browser.wait_text("back", "back to tick")
        browser.is_quiet()


def frame_by_frame(browser, program, engine, delay, presses=12):
    """The player's own paddle is drawn otherwise in the frame behind the key, and the other's is never moved by a jump. It gives what
    was seen, in words."""
    with Pong(program, engine, "--delay", delay) as game, browser.tab() as (first, second):
        browser.driver.switch_to.window(first)
        browser.open(f"{game.ben}&rule=shuttle")
        browser.wait_text("state", "player's page")
        browser.driver.switch_to.window(second)
        browser.open(f"{game.ann}&stats")
        browser.wait("return parseInt(document.getElementById('back').textContent) > 0", "a move of Ben that came late")
        with game.spikes(delay):
            said = browser.driver.execute_async_script(FRAMES, presses, MOST_MILLISECONDS)
        told = dict(re.findall(r"^(\S+(?: \S+)*)  +(\d+)", browser.run(OVERLAY), re.M))
        holds(int(told["rollbacks"]) > 0 and int(told["rows again"]) >= int(told["rollbacks"]) and int(told["depth"]) > 0, f"the overlay: {told}")
        holds(int(told["round trip"]) >= delay, f"the overlay: {told}")
        browser.is_quiet(("willReadFrequently",))
    frames = [it["frames"] for it in said["found"]]
    holds(len(frames) >= presses / 3, f"the game ended after {len(frames)} of {presses} moves")
    # A key right at a tick moves what is drawn by less than can be seen, and a busy machine leaves frames out. By way of the host it
    # would be six frames at least over the longest link.
    holds(max(frames) <= 3 and frames.count(1) >= 0.5 * len(frames), f"own moves showed after {frames} frames")
    # A row a tick, and a correction over all rows.
    least = [passed * (1 / TICK + ROWS / OVER_MILLISECONDS) + 0.1 for passed, _ in said["moved"]]
    jumps = [(passed, by) for most, (passed, by) in zip(least, said["moved"]) if by > most]
    holds(not jumps, f"Ben's paddle jumped: {jumps}")
    late = max(it["milliseconds"] for it in said["found"])
    fastest = max(by / max(passed, FRAME) for passed, by in said["moved"])
    return (f"pong at {delay} ms with spikes: of {len(frames)} moves {frames.count(1)} showed in the first frame, {frames.count(2)} in the second, "
            f"after {late:.0f} ms at most; Ben's paddle moved by {fastest * FRAME:.2f} rows in {FRAME} ms at most")
