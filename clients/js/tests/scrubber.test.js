// The slider through time, over a replica that answers when the test says, in a page of stand-ins.

import assert from "node:assert/strict"
import { test } from "node:test"
import { scrubber } from "../scrubber.js"

/** An element as far as the slider needs one. */
class Stand extends EventTarget {
  style = {}
  textContent = ""
  value = 0
  max = 0
  isThere = true
  /** @type {any[]} */
  parts = []

  /** @param {any[]} parts */
  append(...parts) {
    this.parts.push(...parts)
  }

  get valueAsNumber() {
    return Number(this.value)
  }

  setAttribute() {}

  remove() {
    this.isThere = false
  }
}

/** A slider at ticks 0 to 50, and what it asked for and showed. */
function begun({ span = Infinity } = {}) {
  Object.assign(globalThis, { document: { createElement: () => new Stand() } })
  /** @type {{ time: number, answer: (vars: object) => void, fail: (error: Error) => void }[]} */
  const asked = []
  /** @type {any[]} */
  const shown = []
  /** @type {any} */
  const replica = {
    newest: { time: 50, micro: 0 },
    at: (/** @type {number} */ time) => new Promise((answer, fail) => asked.push({ time, answer, fail })),
    array: (/** @type {string} */ name, /** @type {number} */ time) => `${name} at ${time}`,
  }
  /** @type {any} */
  const parent = new Stand()
  const made = scrubber(replica, { show: past => shown.push(past), parent, span })
  const [slider, told] = parent.parts[0].parts
  /** @param {number} time */
  const slide = time => {
    slider.value = time
    slider.dispatchEvent(new Event("input"))
  }
  const turn = () => new Promise(resolve => setTimeout(resolve, 0))
  return { asked, shown, made, slider, told, slide, turn, parent }
}

test("what was so at the time that is chosen is shown, and those between are left out", async () => {
  const { asked, shown, made, told, slide, turn, slider } = begun()
  assert.deepEqual([slider.min, slider.max, slider.value, told.textContent], [0, 50, 50, "now"])
  for (const time of [30, 20, 10]) slide(time)
  assert.deepEqual([asked.map(it => it.time), told.textContent], [[30], "at 10"])
  asked[0].answer({ x: 3n })
  await turn()
  assert.deepEqual([asked.map(it => it.time), shown], [[30, 10], []])
  asked[1].answer({ x: 1n })
  await turn()
  assert.deepEqual(shown.map(({ time, vars, array }) => [time, vars, array("r.board")]), [[10, { x: 1n }, "r.board at 10"]])
  slide(50)
  await turn()
  assert.deepEqual([shown[1], told.textContent, asked.length], [null, "now", 2])
  made.stop()
})

test("it goes back so far as it is said, and its end leaves nothing behind", async () => {
  const { asked, shown, made, slider, slide, turn, parent } = begun({ span: 20 })
  assert.deepEqual([slider.min, slider.max], [30, 50])
  slide(35)
  asked[0].answer({})
  await turn()
  made.stop()
  assert.deepEqual([shown.length, shown[1], parent.parts[0].isThere], [2, null, false])
})

test("what cannot be told is said beside the slider, and the next time is asked for", async () => {
  const { asked, shown, made, told, slide, turn } = begun()
  slide(30)
  asked[0].fail(new Error("no memory"))
  await turn()
  assert.deepEqual([told.textContent, shown], ["no memory", []])
  slide(20)
  slide(10)
  asked[1].fail(new Error("no memory"))
  await turn()
  assert.equal(told.textContent, "at 10")
  asked[2].answer({ x: 1n })
  await turn()
  assert.deepEqual([asked.map(it => it.time), shown.map(it => it.time)], [[30, 20, 10], [10]])
  made.stop()
})
