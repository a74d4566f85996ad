"""The game of examples/web/tanks in browsers, for `.ci/tab`: over a slow link each page's own tank obeys in the frame behind the key; who comes
late has the board as it is, who leaves is gone and holds nothing up; and in the end all pages and the host have the same."""

import sys
from contextlib import contextmanager
from pathlib import Path
from urllib.parse import urlsplit

from loopback import holds, same, wait_for
from pong_pages import Started

sys.path.insert(0, str(Path(__file__).resolve().parent.parent / "clients" / "python"))
from warpd import HostClient  # noqa: E402

OVER = "The game is over, and all of it is final."
DELAY, TICK, TICKS, TICKS_ALONE = 200, 50, 1_500, 400
# How long a game may take beyond its ticks, in seconds.
MORE_SECONDS = 60
PRESSES = 12
ARRAYS = ("board", "painted", "hits")
# Presses keys, each when the page's own tank stands, down or up and right or left in turn, towards the middle; and counts the frames until its barrel
# points that way, from where it is drawn: there is its colour then, through which nothing is seen as through paint.
FRAMES = """const [seat, presses, done] = arguments
const pen = document.getElementById("field").getContext("2d", { willReadFrequently: true })
const own = [[], [255, 111, 97], [46, 196, 182], [255, 193, 69], [155, 134, 255]][seat]
const WAYS = [["ArrowRight", 1, 0], ["ArrowDown", 0, 1], ["ArrowLeft", -1, 0], ["ArrowUp", 0, -1]]
const place = () => ["x", "y"].map(it => replica.smooth[`tank[${seat - 1}].${it}`])
const points = ([, across, down]) => {
  const [x, y] = place()
  const { data } = pen.getImageData(Math.round(24 * (x + 0.5 + 1.1 * across)), Math.round(24 * (y + 0.5 + 1.1 * down)), 1, 1)
  return data[3] === 255 && own.every((it, place) => Math.abs(it - data[place]) < 3)
}
const press = (way, kind) => dispatchEvent(new KeyboardEvent(kind, { key: way[0] }))
const found = []
function once(number) {
  if (number === presses) return done(found)
  const [x, y] = place()
  const way = WAYS[number % 2 ? (x < 20 ? 0 : 2) : (y < 12 ? 1 : 3)]
  if (points(way)) return found.push(-1), done(found)
  press(way, "keydown")
  let frames = 0
  requestAnimationFrame(function frame() {
    frames += 1
    if (!points(way) && frames < 60) return requestAnimationFrame(frame)
    found.push(frames)
    press(way, "keyup")
    setTimeout(once, 400 + 37 * number, number + 1)
  })
}
setTimeout(once, 100, 0)"""
# Drives about and fires, as drawn from a number, until it is told to stop.
ROAM = """let [seed] = arguments
let last = null
const draw = most => (seed = (seed * 48271) % 2147483647) % most
const press = (key, kind) => dispatchEvent(new KeyboardEvent(kind, { key }))
setInterval(() => {
  if (last) press(last, "keyup")
  last = ["ArrowRight", "ArrowDown", "ArrowLeft", "ArrowUp"][draw(4)]
  press(last, "keydown")
  if (draw(3) === 0) press(" ", "keydown")
}, 330)"""
# What a page has: of the host's log alone, and as it shows it.
HAS = """const arrays = Object.fromEntries(arguments[0].map(it => [it, [...replica.array(`field.${it}`)].map(Number)]))
const vars = it => Object.values(it).map(Number)
return { ...arrays, vars: vars(replica.vars), confirmed: vars(replica.confirmed), refused: replica.stats.refused }"""
# The board as it was at a time, where that is final; else null.
PAINTED = "return replica.horizon.time > arguments[0] ? [...replica.array('field.board', arguments[0])].map(Number) : null"


@contextmanager
def tabs(browser, count):
    """So many further tabs: their handles."""
    first, made = browser.driver.current_window_handle, []
    # What the page before says of its host, which has ended, is not of this game.
    browser.open("about:blank")
    try:
        for _ in range(count):
            browser.driver.switch_to.new_window("tab")
            made.append(browser.driver.current_window_handle)
        yield made
    finally:
        for handle in set(made) & set(browser.driver.window_handles):
            browser.driver.switch_to.window(handle)
            browser.driver.close()
        browser.driver.switch_to.window(first)


def sit(browser, handle, address, seat):
    """A page of the game, whose player gets this seat, and is on the field."""
    browser.driver.switch_to.window(handle)
    browser.open(address)
    browser.wait(f"return window.replica && Number(replica.vars['tank[{seat - 1}].here'] ?? 0)", f"seat {seat} is taken")
    holds("you are" in browser.text("who"), f"the page says {browser.text('who')!r}")
    browser.is_quiet()


def look_on(browser, handle, address):
    """A page that has no seat, and sends nothing."""
    browser.driver.switch_to.window(handle)
    browser.open(f"{address}?watch")
    browser.wait_text("who", "you look on")
    browser.wait("return window.replica?.origin === null", "it follows")


def own_tank(browser, handle, seat):
    """The page's own tank obeys in the frame behind the key, though the host is late. It gives in which frames it did."""
    browser.driver.switch_to.window(handle)
    frames = browser.driver.execute_async_script(FRAMES, seat, PRESSES)
    took = browser.driver.execute_async_script("replica.ping().then(arguments[0])")
    holds(took >= 0.95 * DELAY, f"the host answers after {took} ms")
    same(frames, [1] * PRESSES, "the frames behind the keys in which the own tank obeyed")
    return took


def leave(browser, gone, other, seat):
    """A page that is closed."""
    browser.driver.switch_to.window(gone)
    browser.driver.close()
    is_gone(browser, other, seat)


def fall_silent(browser, silent, other, seat):
    """A page that cannot say any more that it is there: it sends nothing more, by itself."""
    browser.driver.switch_to.window(silent)
    browser.run("window.fetch = () => Promise.reject(new Error('no network'))")
    browser.wait("return replica.client.state === 'closed'", "it has closed its connection")
    is_gone(browser, other, seat)


def is_gone(browser, other, seat):
    """A tank goes from the others' fields, and what is final goes on without it."""
    browser.driver.switch_to.window(other)
    browser.wait(f"return replica.vars['tank[{seat - 1}].here'] === 0n", f"tank {seat} is gone")
    now = browser.run("return replica.tick.time")
    browser.wait(f"return replica.horizon.time > {now}", "what is final goes on")


def painted_at(browser, tick):
    """The board as the page in front has it behind a tick, once that is final."""
    return wait_for(lambda: browser.run(PAINTED, tick), "what was painted is final", MORE_SECONDS)


def has(browser, handle):
    """What a page has in the end, which is all that there is: what it shows is what the host's log says."""
    browser.driver.switch_to.window(handle)
    browser.wait_text("state", OVER, TICKS * TICK / 1_000 + MORE_SECONDS)
    said = is_equal(browser.run(HAS, ARRAYS))
    said["events"] = browser.run("return [...document.querySelectorAll('#events li')].map(it => it.textContent)")
    holds(all(it.endswith(", final") for it in said["events"]), f"the events are {said['events']}")
    return said


def host_has(address):
    """The same of the host."""
    with HostClient(address.hostname, address.port) as client:
        return {**{name: list(client.cells(f"field.{name}").values) for name in ARRAYS}, "vars": list(client.vars().values)}


def is_equal(said):
    """What a page says that it has, without what has to be so of each page: it shows what the host's log says, and nothing was refused."""
    same(said["vars"], said.pop("confirmed"), "what is shown, beside what is confirmed")
    same(said.pop("refused"), 0, "own events that were refused")
    return said


def alone(browser, program, engine):
    """A player in Firefox, which has one tab here: the own tank obeys in the frame behind the key, and page and host end with the same."""
    def called(code, *words):
        return browser.run(f"(...words) => new Promise(done => (function () {{ {code} }})(...words, done))", *words)

    def until(code, what, seconds):
        wait_for(lambda: browser.run(f"() => {code}"), what, seconds)

    with Started("tanks", program, engine, "--delay", DELAY, "--tick", TICK, "--ticks", TICKS_ALONE) as game:
        address, host = game.addresses[0], urlsplit(game.addresses[-1])
        browser.open(address)
        until("Boolean(window.replica && Number(replica.vars['tank[0].here']))", "a seat is taken", MORE_SECONDS)
        frames = called(FRAMES, 1, PRESSES)
        same(frames, [1] * PRESSES, "the frames behind the keys in which the own tank obeyed")
        until(f"document.getElementById('state').textContent === '{OVER}'", "the end", TICKS_ALONE * TICK / 1_000 + MORE_SECONDS)
        same(host_has(host), is_equal(browser.run(f"(...words) => (function () {{ {HAS} }})(...words)", ARRAYS)), "what the host has")
    return f"in Firefox, tanks at {DELAY} ms: {PRESSES} of {PRESSES} moves showed in the first frame"


def played(browser, program, engine):
    """A game of four seats: one is taken twice, one by a page that falls silent, one by nobody. It gives what was seen, in words."""
    with Started("tanks", program, engine, "--delay", DELAY, "--tick", TICK, "--ticks", TICKS) as game, tabs(browser, 5) as (first, second, third, last, watcher):
        address, host = game.addresses[0], urlsplit(game.addresses[-1])
        sit(browser, first, address, 1)
        sit(browser, second, address, 2)
        took = own_tank(browser, second, 2)
        for handle, seed in ((first, 11), (second, 12)):
            browser.driver.switch_to.window(handle)
            browser.run(ROAM, seed)
        browser.wait("return replica.array('field.painted')[1] > 20n", "Coral has painted")
        began = browser.run("return replica.tick.time")
        painted = painted_at(browser, began)
        holds(sum(map(bool, painted)) > 20, "too little was painted")
        sit(browser, third, address, 3)
        same(painted_at(browser, began), painted, "what was painted before, for who comes late")
        browser.run(ROAM, 13)
        leave(browser, first, third, 1)
        sit(browser, last, address, 1)
        browser.run(ROAM, 14)
        look_on(browser, watcher, address)
        fall_silent(browser, third, last, 3)
        holds(browser.run("return replica.horizon.time") <= TICKS, "the game was over before all had played")
        ends = [has(browser, it) for it in (second, last, watcher)]
        for it in ends[1:]:
            same(it, ends[0], "what another page has")
        events = ends[0].pop("events")
        same(host_has(host), ends[0], "what the host has")
        browser.is_quiet(("willReadFrequently",))
    return f"tanks at {DELAY} ms: {PRESSES} of {PRESSES} moves showed in the first frame, the host answers after {took:.0f} ms; {len(events)} events were listed"
