// Tries `clients/js/replica.js` over hosts that keep origins by a clock: one's own events go by `send`, show at once, and count where the
// host says. Nobody announces. `WARPD=PROGRAM ENGINE=FILE node --test` runs it.

import assert from "node:assert/strict"
import { readFileSync } from "node:fs"
import { test } from "node:test"
import { Engine } from "../../js/engine.js"
import { Replica } from "../../js/replica.js"
import { Client } from "../../js/warpd.js"
import { Host, SECONDS, WebSocket, fileOf, freePort } from "../../js/tests/hosting.js"

const MODULE = await WebAssembly.compile(readFileSync(process.env.ENGINE ?? "engine.wasm"))
const PONG = JSON.stringify({
  ...JSON.parse(readFileSync(new URL("../../../examples/pong.json", import.meta.url), "utf8")), version: 4, stop: 1_000_000,
})
const HERTZ = 20
const TICKING = ["--clock", `${HERTZ}`, "--tick", "clock.tick"]
const sleep = milliseconds => new Promise(resolve => setTimeout(resolve, milliseconds))

async function until(holds) {
  for (let turn = 0; turn < 1_000; turn += 1) {
    if (await holds()) return
    await sleep(10)
  }
  throw new Error(`it never came to ${holds}`)
}

/** A test over a host of pong with these words: it is given `player(origin)`, a replica that shows a picture each 10 milliseconds. */
function hosted(name, words, body) {
  test(name, { timeout: 3 * SECONDS }, async () => {
    const host = new Host(await freePort(), [...TICKING, ...words], fileOf("hosted.json", PONG))
    await host.start()
    const engine = await Engine.load(MODULE)
    const [clients, timers] = [[], []]
    const player = async origin => {
      clients.push(new Client(host.url, { WebSocket }))
      const clock = { input: "clock.tick", value: "tick", hertz: HERTZ }
      const replica = new Replica(clients.at(-1), { engine, program: PONG, origin, clock })
      await replica.ready
      timers.push(setInterval(() => replica.frame(), 10))
      await until(() => replica.tick.time > 2)
      return replica
    }
    try {
      await body({ player })
    } finally {
      timers.forEach(clearInterval)
      for (const it of clients) it.close()
      await host.stop()
    }
  })
}

hosted("one's own event shows at once, and counts at the tick that was shown", ["--grace", "40"], async ({ player }) => {
  const ann = await player(1)
  const act = ann.act("ann.steer", 1)
  assert.deepEqual([ann.vars["ann.goes"], ann.confirmed["ann.goes"]], [1n, 0n])
  assert.equal(act.time, ann.tick.time + 1)
  const { place, isNew } = await act.answered
  assert.equal(isNew, true)
  await until(() => ann.confirmed["ann.goes"] === 1n)
  const { record } = await ann.client.log(place)
  assert.deepEqual([record.origin, record.time, record.micro, record.value], [1, act.time, 0, 1n])
  // The ticks that were executed before they came are what the host sends.
  await until(() => ann.tick.time > act.time + HERTZ)
  assert.deepEqual([ann.stats.rebuilt, ann.stats.refused], [0, 0])
  await assert.rejects(ann.announce({ time: 9 }), TypeError)
})

hosted("what comes too late for its tick is shown where the host put it", ["--grace", "3"], async ({ player }) => {
  const [ann, ben] = [await player(1), await player(2)]
  const told = []
  ann.onrefused = record => told.push(record)
  await until(() => ann.horizon.time > 2)
  const act = ann.act("ann.steer", 1, { time: 2 })
  assert.deepEqual([act.time, ann.vars["ann.goes"]], [2, 1n])
  const { place } = await act.answered
  const { record } = await ann.client.log(place)
  assert.ok(record.time > 2)
  await until(() => ann.confirmed["ann.goes"] === 1n && ben.confirmed["ann.goes"] === 1n)
  // It counts once, from the later tick on, and all agree.
  assert.equal(ann.at(record.time - 1)["ann.goes"], 0n)
  assert.deepEqual([ann.at(record.time), told], [ben.at(record.time), []])
  assert.ok(ann.stats.rebuilt > 0)
})

const TWO = ["--grace", "40", "--inputs-a-tick", "2"]

hosted("several of one tick all count in their order, up to what the host takes", TWO, async ({ player }) => {
  const ann = await player(1)
  const told = []
  ann.onrefused = (record, error) => told.push([record.value, error.number])
  const time = ann.tick.time + 10
  const acts = [1, -1, 0].map(way => ann.act("ann.steer", way, { time }))
  assert.deepEqual(acts.map(it => [it.time, it.micro]), [[time, 0], [time, 1], [time, 2]])
  assert.deepEqual((await Promise.all(acts.map(it => it.answered))).map(it => it?.isNew), [true, true, undefined])
  assert.deepEqual([told, ann.stats.refused, ann.vars["ann.goes"]], [[[0n, 18]], 1, -1n])
  await until(() => ann.tick.ahead >= 0 && ann.confirmed["ann.goes"] === -1n)
})

hosted("nobody announces, and what is final comes to all alike, also behind one that vanished", ["--grace", "3"], async ({ player }) => {
  const [ann, ben, gone] = [await player(1), await player(2), await player(2)]
  const seen = [[], []]
  for (const [at, it] of [ann, ben].entries()) it.onfinal = row => seen[at].push([row.index, row.time, row.value])
  await gone.act("ben.steer", 1).answered
  gone.client.close()
  // Nobody hits the ball for long: Ben goes to the bottom and Ann stays, so a point comes within 40 ticks.
  await until(() => seen.every(it => it.length > 0))
  await until(() => seen[0].length === seen[1].length)
  assert.deepEqual(seen[0], seen[1])
  assert.ok(ann.horizon.time > seen[0][0][1])
})
