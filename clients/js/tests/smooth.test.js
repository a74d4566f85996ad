// Tries `smooth.js` with times that are handed in: the rows are worked out by hand.

import assert from "node:assert/strict"
import { test } from "node:test"
import { Smooth } from "../smooth.js"

/**
 * A number x that was 3, and is 5 by a tick at 1,000 of 100 milliseconds.
 * @param {import("../smooth.js").Glide} options
 */
function begun(options = {}) {
  const smooth = new Smooth({ x: options })
  smooth.tick({ x: 3n }, 900, 100)
  smooth.tick({ x: 5n, other: 9n }, 1_000, 100)
  return smooth
}

/**
 * @param {Smooth} smooth
 * @param {number[]} times
 */
const xs = (smooth, ...times) => times.map(now => smooth.at(now).x)

test("between two ticks a number goes evenly, and stays where the next tick does not come", () => {
  assert.deepEqual(xs(begun(), 1_000, 1_025, 1_050, 1_100, 5_000, 0), [3, 3.5, 4, 5, 5, 3])
})

test("before the first tick it stands, and the first one moves nothing", () => {
  const smooth = new Smooth({ x: {} })
  assert.deepEqual(smooth.at(7), { x: 0 })
  smooth.tick({ x: 3 }, 10, 100)
  assert.deepEqual(xs(smooth, 10, 50, 110), [3, 3, 3])
})

test("a correction is not seen when it comes, and is whole after its time", () => {
  const smooth = begun()
  smooth.correct({ x: 9n }, 1_050)
  assert.deepEqual(xs(smooth, 1_050, 1_100, 1_125, 1_150, 1_200), [4, 7, 8, 9, 9])
})

test("a second correction goes on from what is shown", () => {
  const smooth = begun()
  smooth.correct({ x: 9n }, 1_100)
  assert.deepEqual(xs(smooth, 1_100, 1_150), [5, 7])
  smooth.correct({ x: 1n }, 1_150)
  assert.deepEqual(xs(smooth, 1_150, 1_200, 1_250), [7, 4, 1])
})

test("what changes nothing leaves a correction as it goes", () => {
  const smooth = begun()
  smooth.correct({ x: 9n }, 1_050)
  smooth.correct({ x: 9n }, 1_100)
  assert.deepEqual(xs(smooth, 1_100, 1_150), [7, 9])
})

test("a correction goes on over the ticks that come meanwhile", () => {
  const smooth = begun({ over: 200 })
  smooth.correct({ x: 9n }, 1_000)
  smooth.tick({ x: 11n }, 1_100, 100)
  assert.deepEqual(xs(smooth, 1_100, 1_150, 1_200), [7, 9, 11])
})

test("one's own turn shows at once, as far as the way is gone, and does not move where it came from", () => {
  const smooth = begun()
  smooth.turn({ x: 7n })
  assert.deepEqual(xs(smooth, 1_000, 1_050, 1_100), [3, 5, 7])
})

test("over no time a correction is there at once", () => {
  const smooth = begun({ over: 0 })
  smooth.correct({ x: 9n }, 1_050)
  assert.deepEqual(xs(smooth, 1_050, 1_100), [8, 9])
})

test("what jumps is there at once, in a tick, a turn and a correction", () => {
  const tick = begun({ jump: 1 })
  assert.deepEqual(xs(tick, 1_000, 1_050), [5, 5])
  const turn = begun({ jump: 3 })
  turn.turn({ x: 9n })
  assert.deepEqual(xs(turn, 1_000, 1_050), [9, 9])
  const correction = begun({ jump: 3 })
  correction.correct({ x: 9n }, 1_050)
  assert.deepEqual(xs(correction, 1_050, 1_100), [8, 9])
  const least = begun({ jump: 2 })
  least.correct({ x: 7n }, 1_050)
  assert.deepEqual(xs(least, 1_050, 1_100, 1_150), [4, 6, 7])
})

test("numbers with no clock are corrected alone", () => {
  const smooth = new Smooth({ x: {}, y: { over: 50 } })
  smooth.correct({ x: 3, y: 3 }, 0)
  smooth.correct({ x: 5, y: 5 }, 100)
  assert.deepEqual(smooth.at(125), { x: 3.5, y: 4 })
  assert.deepEqual(smooth.at(200), { x: 5, y: 5 })
  assert.deepEqual(smooth.names, ["x", "y"])
})

test("what is not there, and options out of range, are refused", () => {
  assert.throws(() => new Smooth({ x: {} }).tick({ y: 1n }, 0, 100), RangeError)
  assert.throws(() => new Smooth({ x: { over: -1 } }), RangeError)
  assert.throws(() => new Smooth({ x: { jump: NaN } }), RangeError)
})
