// Tries what the client has of programs of version 4 over a real host: arrays, and announcements of all origins together.

import assert from "node:assert/strict"
import { test } from "node:test"
import { Client } from "../warpd.js"
import { Host, SECONDS, WebSocket, fileOf, freePort } from "./hosting.js"

// An event n sets cell n / 1,000 of an array of six to n % 1,000; a far one is past what a number keeps.
const PROGRAM = {
  version: 4,
  stop: 1000,
  origins: 1,
  reactors: [{
    name: "r",
    vars: [["kept", 7], ["count", 0]],
    arrays: [["a", 6, [5, -5]], ["far", 2, 0]],
    inputs: ["set", "far_set"],
    reactions: [
      { on: ["set"], body: [["setat", "a", ["/", "set", 1000], ["%", "set", 1000]], ["set", "count", ["+", "count", 1]]] },
      { on: ["far_set"], body: [["setat", "far", 1, ["*", "far_set", "far_set"]]] },
    ],
    called: [["a", "a[2][3]"]],
    hidden: ["kept"],
  }],
  inputs: [[0, "r.set"], [0, "r.far_set"]],
}

test("arrays by their names, and what changes of them", { timeout: SECONDS }, async () => {
  const host = new Host(await freePort(), [], fileOf("board.json", JSON.stringify(PROGRAM)))
  await host.start()
  const client = new Client(host.url, { WebSocket })
  try {
    await client.ready
    assert.deepEqual(client.names.arrays, [{ name: "r.a", first: 2, count: 6, sides: [2, 3] }, { name: "r.far", first: 8, count: 2, sides: [2] }])
    assert.deepEqual([client.names.var("r.a[1][0]"), client.names.var("r.a[3]"), client.names.var("r.count")], [5, 5, 1])
    assert.throws(() => client.names.var("r.a[2][0]"), RangeError)
    assert.deepEqual(await client.readVars(), { log: 0, values: { "r.count": 0n } })
    assert.deepEqual(await client.array("r.a"), Float64Array.of(5, -5, 0, 0, 0, 0))
    const pushes = client.watch("cells", null, { array: "r.a" })[Symbol.asyncIterator]()
    assert.deepEqual((await pushes.next()).value, { log: 0, first: 2, values: Float64Array.of(5, -5, 0, 0, 0, 0) })
    await client.event("r.set", { time: 1, value: 4003 })
    assert.deepEqual((await pushes.next()).value, { log: 1, first: 2, values: Float64Array.of(5, -5, 0, 0, 3, 0) })
    await client.event("r.far_set", { time: 2, value: 2 ** 31 - 1 })
    assert.deepEqual(await client.array("r.far"), BigInt64Array.of(0n, (2n ** 31n - 1n) ** 2n))
    assert.deepEqual(await client.cells(0, 3), { log: 2, first: 0, values: [7n, 1n, 5n] })
    const far = client.watch("cells", null, { from: 9, count: 4096 })
    assert.equal((await far.started).count, 1)
    assert.deepEqual((await far[Symbol.asyncIterator]().next()).value, { log: 2, first: 9, values: BigInt64Array.of((2n ** 31n - 1n) ** 2n) })
    await far.stop()
    for (const range of [{}, { from: 0 }, { count: 3 }])
      assert.throws(() => client.watch("cells", null, range), error => error instanceof TypeError && /^which cells to watch is missing/.test(error.message))
    // @ts-expect-error
    await assert.rejects(client.cells(), error => error instanceof TypeError && /^which cells is missing/.test(error.message))
    await assert.rejects(client.cells(0, 4097), RangeError)
    assert.throws(() => client.watch("cells", null, { from: 0, count: 0 }), RangeError)
    assert.throws(() => client.watch("vars", null, { count: 3 }), RangeError)
  } finally {
    client.close()
    await host.stop()
  }
})

test("an announcement of all origins together", { timeout: SECONDS }, async () => {
  const host = new Host(await freePort(), [], fileOf("together.json", JSON.stringify({ ...PROGRAM, origins: 2 })))
  await host.start()
  const client = new Client(host.url, { WebSocket })
  try {
    await client.event("r.set", { time: 3, value: 1 })
    const word = { time: 6, micro: 2, events: 1 }
    assert.deepEqual(await client.announce("*", word), { place: 2, isNew: true })
    assert.deepEqual(await client.announce("*", word), { place: 2, isNew: false })
    const record = { kind: "announce", origin: null, time: 6, micro: 2, events: 1, withdrawn: 0 }
    assert.deepEqual(await client.log(2), { log: 2, record })
    // It stands for each origin, also for the one that sent nothing.
    assert.deepEqual(await client.horizon(), { log: 2, time: 6, micro: 2 })
    assert.equal((await client.breach("*")).broken, false)
    await client.event("r.set", { time: 5, value: 2 })
    assert.equal((await client.breach("*")).broken, true)
    for (const origin of ["all", -1, 64, 0.5])
      // @ts-expect-error
      await assert.rejects(client.announce(origin, word), RangeError)
    await assert.rejects(client.announce("*", { time: 6, events: -1 }), RangeError)
  } finally {
    client.close()
    await host.stop()
  }
})
