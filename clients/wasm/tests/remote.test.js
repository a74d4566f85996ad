// Tries `clients/js/remote.js` and `worker.js` with workers of Node, over real hosts: a replica in a worker tells what one in this
// process tells. `WARPD=PROGRAM ENGINE=FILE node --test` runs it.

import assert from "node:assert/strict"
import { readFileSync } from "node:fs"
import { createRequire } from "node:module"
import { test } from "node:test"
import { Worker } from "node:worker_threads"
import { Engine, ProgramRefused } from "../../js/engine.js"
import { RemoteReplica } from "../../js/remote.js"
import { OtherProgram, Replica } from "../../js/replica.js"
import { Announcer, Client } from "../../js/warpd.js"
import { Host, SECONDS, WebSocket, fileOf, freePort } from "../../js/tests/hosting.js"

const BYTES = readFileSync(process.env.ENGINE ?? "engine.wasm")
const MODULE = await WebAssembly.compile(BYTES)
const program = name => readFileSync(new URL(`../../../examples/${name}.json`, import.meta.url), "utf8")
const PONG = JSON.stringify({ ...JSON.parse(program("pong")), version: 3, stop: 1_000_000 })
const WS = createRequire(import.meta.url).resolve(process.env.WS ?? "/usr/share/nodejs/ws")
const CLOCK = { input: "clock.tick", hertz: 100 }
const sleep = milliseconds => new Promise(resolve => setTimeout(resolve, milliseconds))

async function until(holds) {
  for (let turn = 0; turn < 1_000; turn += 1) {
    if (await holds()) return
    await sleep(10)
  }
  throw new Error(`it never came to ${holds}`)
}

/** A test over a host of pong, or of another program: it is given `remoteOf(options)` and `client()`. */
function hosted(name, body, text = PONG) {
  test(name, { timeout: 3 * SECONDS }, async () => {
    const host = new Host(await freePort(), [], fileOf("hosted.json", text))
    await host.start()
    const [clients, workers] = [[], []]
    const client = () => {
      clients.push(new Client(host.url, { WebSocket }))
      return clients.at(-1)
    }
    const remoteOf = options => {
      workers.push(new Worker(new URL("../../js/worker.js", import.meta.url)))
      return new RemoteReplica(workers.at(-1), { url: host.url, engine: MODULE, program: text, webSocketFrom: WS, ...options })
    }
    try {
      await body({ host, client, remoteOf })
    } finally {
      for (const it of clients) it.close()
      for (const it of workers) await it.terminate()
      await host.stop()
    }
  })
}

const tickTo = (clock, from, to) => Promise.all(Array.from({ length: to - from + 1 }, (_, at) => clock.event("clock.tick", { time: from + at, value: 1 })))

hosted("a replica in a worker tells what one in this process does", async ({ remoteOf, client }) => {
  const remote = await remoteOf({ origin: 1 }).ready
  const near = new Replica(client(), { engine: await Engine.load(MODULE), program: PONG, origin: 2 })
  await near.ready
  const [final, went] = [[], []]
  remote.onfinal = row => final.push([row.index, row.time, row.output, row.value])
  remote.onrollback = it => went.push([it.from.time, it.to.time, it.again])
  const clock = client()
  const ticker = new Announcer(clock, 0)
  await Promise.all(Array.from({ length: 90 }, (_, at) => ticker.event("clock.tick", { time: at + 1, value: 1 })))
  await until(() => remote.records === 90 && near.records === 90)
  await near.act("ben.steer", -1, { time: 2 }).answered
  const act = remote.act("ann.steer", 1, { time: 3 })
  const record = await act.record
  assert.deepEqual([record.time, record.micro, record.value, remote.vars["ann.goes"]], [3, 0, 1n, 1n])
  assert.equal((await act.answered).isNew, true)
  await until(() => remote.records === 92 && near.records === 92)
  assert.deepEqual([remote.vars, remote.confirmed, await remote.outputs(), await remote.at(30)], [near.vars, near.confirmed, near.outputs(), near.at(30)])
  assert.deepEqual([remote.newest, near.newest], [{ time: 90, micro: 0 }, { time: 90, micro: 0 }])
  assert.deepEqual(went, [[90, 2, 89]])
  await Promise.all([ticker, new Announcer(clock, 2)].map(it => it.announce({ time: 91 })))
  await remote.announce({ time: 91 })
  await until(() => remote.horizon.time === 91 && final.length === near.outputs().length)
  assert.deepEqual(final, near.outputs().map(it => [it.index, it.time, it.output, it.value]))
  assert.ok((await remote.ping()) > 0)
  await until(() => remote.stats.roundTrip > 0)
  await remote.close()
})

hosted("ticks that are due are executed there, and numbers glide here", async ({ remoteOf, client }) => {
  const remote = await remoteOf({ origin: 1, clock: CLOCK, smooth: { "ann.row": {} } }).ready
  const clock = client()
  await clock.ready
  await tickTo(clock, 1, 1)
  const rows = []
  const frame = () => {
    remote.frame()
    if ("ann.row" in remote.smooth) rows.push(remote.smooth["ann.row"])
    return remote.tick?.time ?? 0
  }
  await until(() => frame() > 10)
  assert.ok(remote.tick.ahead > 0)
  const act = remote.act("ann.steer", 1)
  const { time } = await act.record
  await until(() => frame() > time + 10)
  // (before the first tick it is 0, which a slow machine may show)
  assert.deepEqual([rows.includes(3), rows.at(-1), remote.vars["ann.row"]], [true, 6, 6n])
  assert.ok(rows.every((it, at) => at === 0 || it >= rows[at - 1]), `${rows}`)
  assert.ok((await act.answered).isNew)
  await remote.close()
})

hosted("what the host refuses is taken back there, and told here", async ({ remoteOf }) => {
  const remote = await remoteOf({ origin: 1, engine: BYTES }).ready
  const told = []
  remote.onrefused = (record, error) => told.push([record.time, error.name, error instanceof RangeError])
  await remote.announce({ time: 20 })
  const act = remote.act("ann.steer", 1, { time: 10 })
  assert.equal(await act.answered, null)
  await until(() => remote.stats.refused === 1)
  assert.deepEqual([told, remote.vars["ann.goes"]], [[[10, "RangeError", true]], 0n])
})

hosted("what cannot be is rejected here, each as what it is there", async ({ remoteOf }) => {
  const other = remoteOf({ program: program("pong") })
  const told = []
  other.onerror = error => told.push(error)
  await assert.rejects(other.ready, error => error instanceof OtherProgram && /^[0-9a-f]{64}$/.test(error.host))
  assert.deepEqual(told, [other.error])
  await assert.rejects(remoteOf({ program: "{}" }).ready, error => error instanceof ProgramRefused && error.number === 2)
  const watcher = await remoteOf({}).ready
  const act = watcher.act("ann.steer", 1, { time: 5 })
  await assert.rejects(act.record, TypeError)
  await assert.rejects(act.answered, TypeError)
  await assert.rejects(watcher.at({}), Error)
})

hosted("a board comes from there as it is shown, and as it was", async ({ remoteOf, client }) => {
  const [remote, clock] = [await remoteOf({ origin: 1 }).ready, client()]
  await clock.ready
  await remote.act("tank[0].join", 1, { time: 1 }).answered
  await Promise.all([1, 2, 3].map(time => clock.event("main.tick", { time, value: 1 })))
  await until(() => remote.records === 4)
  // The tank stands at 3 3: a cell is 8 times the tick at which it was painted, and who did.
  const painted = async time => (await remote.array("field.board", time))[3 * 40 + 3]
  assert.deepEqual([await painted(), await painted(2), await painted(0)], [25n, 17n, 0n])
  await assert.rejects(remote.array("field.boards"), RangeError)
}, program("tanks"))

test("a worker that does not run is told", async () => {
  const worker = new Worker(new URL("./nowhere.js", import.meta.url))
  const remote = new RemoteReplica(worker, { url: "ws://127.0.0.1:1/ws", engine: MODULE, program: PONG })
  await assert.rejects(remote.ready, Error)
  await worker.terminate()
})
