// What is seen of a replica: kept from the pushes of its host, and no more of it than is shown.

import { Last, MOST } from "./lists.js"
import { Reach } from "./reach.js"
import { orderOf, tagText } from "./tags.js"

const OPEN_SHOWN = 20

export class Replica {
  constructor() {
    this.records = new Last()
    // Those that are no announcements.
    this.acts = new Last()
    this.released = new Last()
    this.clear()
  }

  /** As before the first push of a connection. */
  clear() {
    this.records.clear()
    this.acts.clear()
    this.released.clear()
    Object.assign(this, { log: 0, newest: null, late: 0, lastLate: null, horizon: null, values: [], frozen: false })
    Object.assign(this, { changed: new Set(), broken: new Set(), origins: new Map(), all: new Reach(), cells: [] })
    Object.assign(this, { outputs: 0, lost: 0, asked: [], askedFrom: 0 })
    this.clearSteps()
  }

  /** As before the first push of steps. */
  clearSteps() {
    Object.assign(this, { steps: 0, rollbacks: 0, again: 0, lastRollback: null, skipped: 0 })
  }

  /** A step, a going back before steps, or how many of these were left out. */
  takeStep({ rollback, skipped = 0 }) {
    this.skipped += skipped
    if (rollback) {
      this.rollbacks += 1
      this.again += rollback.again
      this.lastRollback = rollback
    } else if (!skipped) this.steps += 1
  }

  /** A record, the next of the log; what a watch before this one brings is passed over. */
  takeRecord({ place, record }) {
    if (place !== this.log + 1) return
    this.log = place
    const { origin } = record
    if (origin !== null && !this.origins.has(origin)) this.origins.set(origin, new Reach())
    this.origins.get(origin)?.take(record)
    // An announcement of all origins together counts the names of all.
    if (origin === null || record.kind !== "announce") this.all.take(record)
    const item = { place, record, back: null }
    this.records.add(item)
    if (record.kind === "announce") return
    this.acts.add(item)
    if (this.newest && orderOf(record, this.newest) < 0) this.#takeLate(item)
    else this.newest = { time: record.time, micro: record.micro }
  }

  #takeLate(item) {
    item.back = this.newest
    this.late += 1
    this.lastLate = item
  }

  takeReleased(row) {
    if (row.frozen) this.frozen = true
    else if (row.index === this.released.added) this.released.add(row)
  }

  takeVars({ values }) {
    const before = this.values
    this.changed = new Set([...values.keys()].filter(at => before.length && values[at] !== before[at]))
    this.values = values
  }

  takeHorizon({ time, micro }) {
    this.horizon = { time, micro }
  }

  takeBreach({ origins, jointly }) {
    this.broken = new Set(jointly ? [...origins, "*"] : origins)
  }

  /** Asks for what is not released yet: how much it is, and the first of it; and how much was lost. */
  async askOpen(client) {
    const [{ count }, lost] = await Promise.all([client.outputs(), client.lost()])
    const first = this.released.added
    const length = Math.max(0, Math.min(count - first, OPEN_SHOWN))
    const rows = await Promise.all(Array.from({ length }, (_, at) => client.output(first + at)))
    Object.assign(this, { outputs: count, lost: lost.count, asked: rows.filter(Boolean), askedFrom: first })
  }

  /** The outputs that are not released, of those that were asked for. */
  get open() {
    return this.asked.slice(this.released.added - this.askedFrom)
  }

  /** What an origin announced, how far that is reached, and whether it may be farther: the horizon is the least of all. */
  reachOf(origin) {
    const { announced = null, tag = null, isLost = false } = (origin === "*" ? this.all : this.origins.get(origin)) ?? {}
    const isLeast = isLost || this.broken.has(origin)
    const isBehind = isLeast && this.horizon && (!tag || orderOf(tag, this.horizon) < 0)
    return { announced, tag: isBehind ? this.horizon : tag, isLeast }
  }

  /** How many names of an origin, or of all (`*`), have an event, and a withdrawal, before a tag; null where not the whole log is kept. */
  countBefore(origin, tag) {
    if (this.log > MOST) return null
    const names = { event: new Set(), withdraw: new Set() }
    for (let age = 0; age < this.records.length; age += 1) {
      const { record } = this.records.at(age)
      const isOf = origin === "*" || record.origin === Number(origin)
      const isCounted = isOf && record.kind in names && orderOf(record, tag) < 0
      if (isCounted) names[record.kind].add(`${record.origin} ${tagText(record)}`)
    }
    return { events: names.event.size, withdrawn: names.withdraw.size }
  }
}
