// Tries what the overlay says and how high its bars are. That it is there, and what it shows of a game, is tried in a browser.

import assert from "node:assert/strict"
import { test } from "node:test"
import { heightsOf, rowsOf } from "../overlay.js"

const NONE = { rollbacks: 0, depth: 0, deepest: 0, again: 0, rebuilt: 0, records: 0, refused: 0, answered: null, roundTrip: null }

test("counts are told with what they rose in a second", () => {
  const before = { ...NONE, rollbacks: 2, again: 10 }
  const now = { ...NONE, rollbacks: 8, depth: 4, deepest: 12, again: 70, records: 90, refused: 1, roundTrip: 203.6 }
  assert.deepEqual(rowsOf(now, { time: 20, ahead: 7 }, before, 2_000), [
    ["rollbacks", "8, 3 a second"],
    ["depth", "4, at most 12"],
    ["rows again", "70, 30 a second"],
    ["round trip", "204 ms"],
    ["ahead", "7 ticks"],
    ["records", "90, 1 refused"],
  ])
})

test("without a clock, and before an answer, there is a dash", () => {
  assert.deepEqual(rowsOf(NONE, null, NONE, 1_000).slice(3, 5), [["round trip", "-"], ["ahead", "-"]])
})

test("the highest bar has all the room, and what is more than nothing is seen", () => {
  assert.deepEqual(heightsOf([0, 1, 50, 100], 100, 36), [0, 1, 18, 36])
  assert.deepEqual(heightsOf([0, 0], 0, 36), [0, 0])
})
