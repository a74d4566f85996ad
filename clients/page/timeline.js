// The timeline: records by tag, a lane for each origin, the horizon, and an arrow for each record that came late.

import { tagText } from "./tags.js"

const GUTTER = 30
const EDGE = 12
const ARROWS = 6
const ARROW = 17
const AXIS = 22

/** Steps of 1, 2 or 5 with zeros behind, at most `most` of them in this range. */
function stepOf(range, most) {
  const least = Math.max(1, range / most)
  const ten = 10 ** Math.floor(Math.log10(least))
  return [1, 2, 5, 10].map(it => it * ten).find(it => it >= least)
}

function rangeOf(records, horizon) {
  let low = horizon ? horizon.time : Infinity
  let high = horizon ? horizon.time : -Infinity
  for (const { record, back } of records) {
    low = Math.min(low, record.time)
    high = Math.max(high, record.time, back ? back.time : 0)
  }
  if (low > high) [low, high] = [0, 1]
  const free = Math.max(0.5, (high - low) * 0.02)
  return { low: Math.max(0, low - free), high: high + free + 1 }
}

/** Draws onto a canvas in the colours of the page. */
export class Timeline {
  #canvas
  #pen
  #colours = {}

  constructor(canvas) {
    this.#canvas = canvas
    this.#pen = canvas.getContext("2d")
  }

  /** Draws these records, the newest first, and what is known of origins and the horizon. */
  draw({ records, origins, reachOf, horizon, micros }) {
    const lane = Math.max(5, Math.min(24, 260 / Math.max(1, origins.length)))
    const late = records.filter(it => it.back).slice(0, ARROWS)
    const width = this.#canvas.clientWidth
    const lanes = Math.max(1, origins.length) * lane
    this.#size(width, lanes + ARROWS * ARROW + AXIS + 16)
    const { low, high } = rangeOf(records, horizon)
    const scale = (width - GUTTER - EDGE) / (high - low)
    const x = tag => GUTTER + (tag.time + tag.micro / micros - low) * scale
    const plan = { low, high, x, lane, lanes, width, origins, top: 16 }
    this.#back(plan, horizon)
    this.#axis(plan)
    for (let at = records.length - 1; at >= 0; at -= 1) this.#record(plan, records[at])
    origins.forEach((origin, number) => {
      const { announced, tag } = reachOf(origin)
      this.#bracket(plan, "faint", number, announced)
      this.#bracket(plan, "good", number, tag)
    })
    late.forEach((it, at) => this.#arrow(plan, it, at))
  }

  #size(width, height) {
    const ratio = window.devicePixelRatio || 1
    const [across, down] = [Math.round(width * ratio), Math.round(height * ratio)]
    if (this.#canvas.width !== across || this.#canvas.height !== down) {
      Object.assign(this.#canvas, { width: across, height: down })
      this.#canvas.style.height = `${height}px`
    }
    this.#pen.setTransform(ratio, 0, 0, ratio, 0, 0)
    this.#pen.clearRect(0, 0, width, height)
    this.#pen.font = "12px system-ui, sans-serif"
    const style = getComputedStyle(document.documentElement)
    for (const name of ["ink", "faint", "rule", "accent", "late", "shade", "good"]) {
      this.#colours[name] = style.getPropertyValue(`--${name}`)
    }
  }

  #line(colour, from, to, { width = 1, dash = [] } = {}) {
    const pen = this.#pen
    pen.strokeStyle = this.#colours[colour]
    pen.lineWidth = width
    pen.setLineDash(dash)
    pen.beginPath()
    pen.moveTo(...from)
    pen.lineTo(...to)
    pen.stroke()
  }

  #text(colour, text, x, y, align = "left") {
    this.#pen.fillStyle = this.#colours[colour]
    this.#pen.textAlign = align
    this.#pen.fillText(text, x, y)
  }

  /** The ground before the horizon, the horizon, and the lanes. */
  #back({ x, top, lane, lanes, width, origins }, horizon) {
    const at = horizon ? Math.min(x(horizon), width - EDGE) : GUTTER
    if (at > GUTTER) {
      this.#pen.fillStyle = this.#colours.shade
      this.#pen.fillRect(GUTTER, top, at - GUTTER, lanes)
    }
    origins.forEach((origin, number) => {
      const y = top + (number + 0.5) * lane
      this.#line("rule", [GUTTER, y], [width - EDGE, y])
      if (lane > 11) this.#text("faint", `${origin}`, GUTTER - 8, y + 4, "right")
    })
    if (!horizon) return
    this.#line("good", [at, top - 2], [at, top + lanes], { width: 2, dash: [5, 3] })
    const align = at < width / 2 ? "left" : "right"
    this.#text("good", `horizon ${tagText(horizon)}`, at + (align === "left" ? 3 : -3), top - 4, align)
  }

  #axis({ low, high, x, top, lanes, width }) {
    const y = top + lanes + ARROWS * ARROW + 4
    const step = stepOf(high - low, width / 70)
    this.#line("faint", [GUTTER, y], [width - EDGE, y])
    for (let time = Math.ceil(low / step) * step; time <= high; time += step) {
      const at = x({ time, micro: 0 })
      const half = this.#pen.measureText(`${time}`).width / 2
      this.#line("faint", [at, y], [at, y + 4])
      this.#text("faint", `${time}`, Math.min(at, width - half), y + 16, "center")
    }
  }

  #bracket({ x, top, lane, low, high }, colour, number, tag) {
    if (!tag || tag.time < low || tag.time > high) return
    const [at, y, half] = [x(tag), top + (number + 0.5) * lane, Math.max(2, lane * 0.32)]
    this.#line(colour, [at, y - half], [at, y + half], { width: 2 })
    this.#line(colour, [at - 4, y - half], [at, y - half], { width: 2 })
    this.#line(colour, [at - 4, y + half], [at, y + half], { width: 2 })
  }

  #record({ x, top, lane, origins }, { record, back }) {
    if (record.kind === "announce") return
    const [at, y] = [x(record), top + (origins.indexOf(record.origin) + 0.5) * lane]
    const size = Math.max(2, Math.min(4.5, lane / 3))
    const colour = back ? "late" : "accent"
    if (record.kind === "withdraw") {
      this.#line(colour, [at - size, y - size], [at + size, y + size], { width: 2 })
      this.#line(colour, [at - size, y + size], [at + size, y - size], { width: 2 })
      return
    }
    this.#pen.fillStyle = this.#colours[colour]
    this.#pen.beginPath()
    this.#pen.arc(at, y, size, 0, 2 * Math.PI)
    this.#pen.fill()
  }

  /** From the newest tag that there was back to the late one; the newest arrow is the boldest. */
  #arrow({ x, top, lanes, width }, { record, back }, number) {
    const y = top + lanes + (number + 0.6) * ARROW
    const [from, to] = [x(back), x(record)]
    const pen = this.#pen
    pen.globalAlpha = 1 - number * 0.07
    this.#line("late", [from, y], [to, y], { width: number === 0 ? 2.5 : 1.5 })
    this.#line("late", [from, y - 4], [from, y + 4], { width: 1.5 })
    pen.fillStyle = this.#colours.late
    pen.beginPath()
    pen.moveTo(to - 1, y)
    pen.lineTo(to + 7, y - 4.5)
    pen.lineTo(to + 7, y + 4.5)
    pen.fill()
    const text = `${tagText(back)} back to ${tagText(record)}`
    const wide = 6 + pen.measureText(text).width
    if (from + wide < width) this.#text("late", text, from + 6, y + 4)
    else if (to > wide) this.#text("late", text, to - 6, y + 4, "right")
    else this.#text("late", text, Math.max(wide, from - 6), y - 3, "right")
    pen.globalAlpha = 1
  }
}

/** What the timeline shows, in words. */
export function inWords({ records, horizon }, lateCount) {
  if (!records.length) return "No records yet"
  const [last, first] = [records[0], records.at(-1)]
  const late = records.find(it => it.back)
  return [
    `Records ${first.place} to ${last.place} by tag`,
    horizon ? `the horizon at ${tagText(horizon)}` : "no horizon",
    late ? `${lateCount} came late, the last went from ${tagText(late.back)} back to ${tagText(late.record)}` : "none came late",
  ].join(", ")
}

