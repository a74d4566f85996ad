// Tries the tags that a run has executed, beside a plain set of them.

import assert from "node:assert/strict"
import { test } from "node:test"
import { Executed, placeOf, tagOf } from "../executed.js"

test("a tag is a number in the order of tags, and back", () => {
  assert.deepEqual([placeOf({ time: 0, micro: 0 }), placeOf({ time: 1, micro: 0 }), placeOf({ time: 7, micro: 255 })], [0, 256, 2_047])
  assert.deepEqual([tagOf(0), tagOf(255), tagOf(256)], [{ time: 0, micro: 0 }, { time: 0, micro: 255 }, { time: 1, micro: 0 }])
})

test("how many are at a place or behind it, whatever order they came in", () => {
  let state = 7
  /** @param {number} most */
  const draw = most => (state = (state * 48_271) % 2_147_483_647) % most
  const executed = new Executed()
  /** @type {Set<number>} */
  const plain = new Set()
  assert.deepEqual([executed.last, executed.from(0), executed.has(0)], [-1, 0, false])
  for (let turn = 0; turn < 200; turn += 1) {
    const places = Array.from({ length: draw(5) }, () => (turn * 3) + draw(draw(4) === 0 ? 600 : 6))
    executed.add(places)
    for (const it of places) plain.add(it)
    const place = draw(700)
    assert.equal(executed.from(place), [...plain].filter(it => it >= place).length)
    assert.equal(executed.has(place), plain.has(place))
    assert.equal(executed.last, Math.max(-1, ...plain))
  }
})
