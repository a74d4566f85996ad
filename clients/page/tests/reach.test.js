// How far an origin's announcements are reached, against the definition over all records that came.

import assert from "node:assert/strict"
import { test } from "node:test"
import { MOST } from "../lists.js"
import { Reach } from "../reach.js"
import { orderOf, tagText } from "../tags.js"

/** The greatest tag whose announcement has as many names before it as it says. */
function reachedBy(records) {
  const counts = (kind, end) => new Set(records.filter(it => it.kind === kind && orderOf(it, end) < 0).map(tagText)).size
  const isReached = it => counts("event", it) >= it.events && counts("withdraw", it) >= it.withdrawn
  const reached = records.filter(it => it.kind === "announce" && isReached(it)).sort(orderOf)
  return reached.length ? tagText(reached.at(-1)) : null
}

const shown = tag => tag && tagText(tag)
const event = (time, micro = 0) => ({ kind: "event", time, micro })
const withdraw = (time, micro = 0) => ({ kind: "withdraw", time, micro })
const announce = (time, events, withdrawn, micro = 0) => ({ kind: "announce", time, micro, events, withdrawn })

/** Numbers that look drawn, the same in each run. */
function drawn(seed) {
  let state = seed
  return most => {
    state = (state * 1_103_515_245 + 12_345) % 2 ** 31
    return Math.floor((state / 2 ** 31) * most)
  }
}

/** The records of an origin that keeps to its word, in some order, and some of them twice. */
function wordKept(below) {
  const names = Array.from({ length: below(12) }, () => (below(3) ? event : withdraw)(below(20), below(2)))
  const words = Array.from({ length: 1 + below(5) }, () => {
    const end = { time: below(22), micro: below(2) }
    const count = kind => new Set(names.filter(it => it.kind === kind && orderOf(it, end) < 0).map(tagText)).size
    return announce(end.time, count("event"), count("withdraw"), end.micro)
  })
  const all = [...names, ...words, ...names.slice(0, below(4))]
  return all.map(it => [below(1_000), it]).sort((one, other) => one[0] - other[0]).map(it => it[1])
}

test("announcements are reached as the definition has it, whatever the order", () => {
  const below = drawn(7)
  let isAnyReached = false
  for (let trial = 0; trial < 2_000; trial += 1) {
    const records = wordKept(below)
    const reach = new Reach()
    records.forEach((record, at) => {
      reach.take(record)
      const came = records.slice(0, at + 1)
      assert.equal(shown(reach.tag), reachedBy(came), JSON.stringify(came))
      isAnyReached ||= reach.tag !== null
    })
    const words = records.filter(it => it.kind === "announce").sort(orderOf)
    assert.equal(shown(reach.announced), tagText(words.at(-1)))
  }
  assert.equal(isAnyReached, true)
})

test("an announcement waits for its names, and for what is withdrawn", () => {
  const reach = new Reach()
  for (const [record, tag] of [
    [event(5), null], [announce(10, 2, 1), null], [event(5), null], [withdraw(5), null], [event(10), null], [event(9, 3), "10"],
    [announce(8, 1, 1), "10"], [announce(20, 4, 1), "10"], [event(12), "20"],
  ]) {
    reach.take(record)
    assert.equal(shown(reach.tag), tag)
  }
})

test("of an origin that never announces no more is kept than is shown", () => {
  const reach = new Reach()
  for (let time = 0; time <= MOST; time += 1) {
    assert.equal(reach.isLost, false)
    reach.take(event(time))
  }
  assert.equal(reach.isLost, true)
  reach.take(announce(5, 5, 0))
  assert.deepEqual([shown(reach.announced), reach.tag, reach.isLost], ["5", null, true])
})

test("of an origin that announces names before that are counted alone", () => {
  const reach = new Reach()
  for (let time = 0; time < 3 * MOST; time += 1) {
    reach.take(event(time))
    if (time % 1_000 === 999) reach.take(announce(time + 1, time + 1, 0))
  }
  assert.deepEqual([shown(reach.tag), reach.isLost], [`${3 * MOST}`, false])
})
