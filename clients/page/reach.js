// How far an origin's announcements are reached, by the records that came.

import { MOST } from "./lists.js"
import { orderOf, tagText } from "./tags.js"

/** What an origin announced, and how far that is reached. Of its names those before that tag are only counted. */
export class Reach {
  /** The greatest tag that it announced. */
  announced = null
  /** The greatest tag whose announcement is reached. */
  tag = null
  /** Whether there are more names, or announcements to wait for, than are kept: it may be farther from here on. */
  isLost = false
  #names = { event: new Map(), withdraw: new Map() }
  #before = { event: 0, withdraw: 0 }
  #waiting = []

  take(record) {
    if (record.kind !== "announce") this.#takeName(record)
    else this.#takeWord(record)
    if (this.#names.event.size + this.#names.withdraw.size + this.#waiting.length > MOST) this.#lose()
  }

  #isBehind(tag) {
    return this.isLost || (this.tag !== null && orderOf(tag, this.tag) < 0)
  }

  /** A name before the tag that is reached is known, or breaks the origin's word: then it may be farther too. */
  #takeName({ kind, origin, time, micro }) {
    const tag = { time, micro }
    const [names, name] = [this.#names[kind], `${origin} ${tagText(tag)}`]
    if (this.#isBehind(tag) || names.has(name)) return
    names.set(name, tag)
    for (const word of this.#waiting) if (orderOf(tag, word.tag) < 0) word.missing[kind] -= 1
    this.#goOn()
  }

  #takeWord({ time, micro, events, withdrawn }) {
    const tag = { time, micro }
    if (!this.announced || orderOf(this.announced, tag) < 0) this.announced = tag
    if (this.#isBehind(tag)) return
    const missing = { event: events - this.#countBefore("event", tag), withdraw: withdrawn - this.#countBefore("withdraw", tag) }
    this.#waiting.push({ tag, missing })
    this.#goOn()
  }

  #countBefore(kind, tag) {
    let count = this.#before[kind]
    for (const name of this.#names[kind].values()) if (orderOf(name, tag) < 0) count += 1
    return count
  }

  /** The greatest announcement that is reached now, and no name before it is kept any more. */
  #goOn() {
    const reached = this.#waiting.filter(({ missing }) => missing.event <= 0 && missing.withdraw <= 0).map(it => it.tag)
    if (!reached.length) return
    this.tag = reached.reduce((one, other) => (orderOf(one, other) < 0 ? other : one))
    this.#waiting = this.#waiting.filter(({ tag }) => orderOf(this.tag, tag) < 0)
    for (const kind of ["event", "withdraw"]) {
      for (const [text, name] of this.#names[kind]) {
        if (!this.#isBehind(name)) continue
        this.#names[kind].delete(text)
        this.#before[kind] += 1
      }
    }
  }

  #lose() {
    this.isLost = true
    this.#waiting = []
    for (const names of Object.values(this.#names)) names.clear()
  }
}
