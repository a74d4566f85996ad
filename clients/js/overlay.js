// What a replica does behind its picture, in a corner of the page: how often it goes back and how deep, how long the host takes, and
// how far it is ahead of the clock.
//
//     import { overlay } from "./overlay.js"
//
//     overlay(replica)

const EVERY = 100
const SECOND = 1_000
// So many samples are drawn, each so wide, in pixels; and so many come before what is told in words is told again.
const SAMPLES = 90
const WIDE = 2
const HIGH = 36
const TELL_EVERY = 5
const INK = "#e4e8ec"
const AGAIN = "#ff9a57"
const AHEAD = "#7f93a8"

const BOX = {
  position: "fixed", top: "8px", right: "8px", zIndex: "1000", padding: "6px 8px", borderRadius: "6px", pointerEvents: "none",
  background: "rgba(20, 24, 29, 0.86)", color: INK, font: "12px/1.4 ui-monospace, monospace", whiteSpace: "pre",
}

const whole = number => `${Math.round(number)}`
const milliseconds = number => (number === null ? "-" : `${whole(number)} ms`)

/** What is told in words: pairs of a name and what it is, of the counts now and those of so many milliseconds ago. */
export function rowsOf(stats, tick, before, passed) {
  const rate = name => whole(((stats[name] - before[name]) * SECOND) / Math.max(1, passed))
  return [
    ["rollbacks", `${stats.rollbacks}, ${rate("rollbacks")} a second`],
    ["depth", `${stats.depth}, at most ${stats.deepest}`],
    ["rows again", `${stats.again}, ${rate("again")} a second`],
    ["round trip", milliseconds(stats.roundTrip)],
    ["ahead", tick ? `${tick.ahead} tick${tick.ahead === 1 ? "" : "s"}` : "-"],
    ["records", `${stats.records}, ${stats.refused} refused`],
  ]
}

/** The heights of bars, of which the highest is as high as there is room, and one at least as high as a pixel. */
export function heightsOf(values, most, room) {
  return values.map(it => (it > 0 ? Math.max(1, Math.round((it * room) / Math.max(1, most))) : 0))
}

/** The last so many samples: what was executed again in each, and how far it was ahead. */
class Samples {
  #again = []
  #ahead = []
  #total

  constructor(total) {
    this.#total = total
  }

  take(stats, tick) {
    this.#again.push(stats.again - this.#total)
    this.#ahead.push(tick?.ahead ?? 0)
    this.#total = stats.again
    for (const it of [this.#again, this.#ahead]) if (it.length > SAMPLES) it.shift()
  }

  /** Bars of what was executed again, and before them marks of how far it was ahead. */
  draw(pen) {
    const most = Math.max(1, ...this.#again, ...this.#ahead)
    const first = WIDE * (SAMPLES - this.#again.length)
    pen.clearRect(0, 0, WIDE * SAMPLES, HIGH)
    pen.fillStyle = AGAIN
    heightsOf(this.#again, most, HIGH).forEach((high, at) => pen.fillRect(first + WIDE * at, HIGH - high, WIDE - 0.5, high))
    pen.fillStyle = AHEAD
    heightsOf(this.#ahead, most, HIGH).forEach((high, at) => high && pen.fillRect(first + WIDE * at, HIGH - high, WIDE, 1))
  }
}

/** The parts of the page: the words, and the picture under them. */
function made(parent) {
  const [box, words, picture] = ["div", "div", "canvas"].map(it => document.createElement(it))
  box.className = "warpd-overlay"
  Object.assign(box.style, BOX)
  const ratio = globalThis.devicePixelRatio || 1
  Object.assign(picture, { width: WIDE * SAMPLES * ratio, height: HIGH * ratio })
  Object.assign(picture.style, { display: "block", marginTop: "4px", width: `${WIDE * SAMPLES}px`, height: `${HIGH}px` })
  // No style of the page reaches what stands in it.
  box.attachShadow({ mode: "open" }).append(words, picture)
  parent.append(box)
  const pen = picture.getContext("2d")
  pen.scale(ratio, ratio)
  return { box, words, pen }
}

/**
 * Shows it in a corner of the page, until `stop()`. It asks the host for little each second. In words: how often what is shown went
 * back; how many tags of records that executed again the last time, and at most; all of them; how long the host took to answer; how
 * many ticks it is ahead of the last that came. In the picture each bar is a tenth of a second: orange for what was executed again,
 * with a mark for how far it was ahead.
 */
export function overlay(replica, { parent = document.body } = {}) {
  const { box, words, pen } = made(parent)
  const samples = new Samples(replica.stats.again)
  let count = 0
  let before = { at: performance.now(), stats: { ...replica.stats } }
  const tell = () => {
    const now = performance.now()
    const rows = rowsOf(replica.stats, replica.tick, before.stats, now - before.at)
    words.textContent = rows.map(([name, what]) => `${name.padEnd(12)}${what}`).join("\n")
    if (now - before.at >= SECOND) before = { at: now, stats: { ...replica.stats } }
  }
  const sample = () => {
    samples.take(replica.stats, replica.tick)
    samples.draw(pen)
    if (count % TELL_EVERY === 0) tell()
    if (count % (SECOND / EVERY) === 0) replica.ping().catch(() => {})
    count += 1
  }
  const timer = setInterval(sample, EVERY)
  sample()
  return {
    element: box,
    stop() {
      clearInterval(timer)
      box.remove()
    },
  }
}
