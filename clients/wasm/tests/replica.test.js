// Tries `clients/js/replica.js` over real hosts, with the engine in WebAssembly: what shows at once, what comes late, what is refused,
// what is final, and what a lost connection and a host that began anew do. `WARPD=PROGRAM ENGINE=FILE node --test` runs it.

import assert from "node:assert/strict"
import { readFileSync } from "node:fs"
import { test } from "node:test"
import { Engine, NoMemory, ProgramRefused } from "../../js/engine.js"
import { OtherProgram, Replica } from "../../js/replica.js"
import { Announcer, Client } from "../../js/warpd.js"
import { Host, SECONDS, WebSocket, fileOf, freePort } from "../../js/tests/hosting.js"

const MODULE = await WebAssembly.compile(readFileSync(process.env.ENGINE ?? "engine.wasm"))
const program = name => readFileSync(new URL(`../../../examples/${name}.json`, import.meta.url), "utf8")
const PONG = JSON.stringify({ ...JSON.parse(program("pong")), version: 3, stop: 1_000_000 })
const sleep = milliseconds => new Promise(resolve => setTimeout(resolve, milliseconds))

async function until(holds) {
  for (let turn = 0; turn < 1_000; turn += 1) {
    if (await holds()) return
    await sleep(10)
  }
  throw new Error(`it never came to ${holds}`)
}

/** A test over a host of pong, or of another program: it is given `replicaOf(options)`, `client()` and the host. */
function hosted(name, body, { words = [], text = PONG } = {}) {
  test(name, { timeout: 3 * SECONDS }, async () => {
    const host = new Host(await freePort(), words, fileOf("hosted.json", text))
    await host.start()
    const engine = await Engine.load(MODULE)
    const clients = []
    const client = () => {
      clients.push(new Client(host.url, { WebSocket }))
      return clients.at(-1)
    }
    const replicaOf = async options => {
      const replica = new Replica(client(), { engine, program: text, ...options })
      await replica.ready
      return replica
    }
    try {
      await body({ host, client, replicaOf, engine })
    } finally {
      for (const it of clients) it.close()
      await host.stop()
    }
  })
}

/** The variables of a host, once it has so many records. */
async function hostVars(client, records) {
  await until(async () => (await client.horizon()).log >= records)
  return (await client.readVars()).values
}

/** Sends ticks up to this one. */
async function tickTo(client, from, to) {
  const lines = Array.from({ length: to - from + 1 }, (_, at) => client.event("clock.tick", { time: from + at, value: 1 }))
  await Promise.all(lines)
}

test("an engine answers lines, and tells values", async () => {
  const engine = await Engine.load(MODULE)
  const tab = engine.open(program("twice"))
  const lines = "event 0 5 0 0 3\nvar 0\nnonsense\nannounce 0 10 0 1 0\nannounce 1 10 0 0 0\n"
  assert.equal(tab.answer(lines), "taken 1\nvar 1 3\nrefused 1\ntaken 2\ntaken 3\n")
  assert.deepEqual([...tab.vars()], [3n])
  assert.deepEqual(tab.horizon(), { time: 10, micro: 0 })
  assert.deepEqual(tab.released(), [{ index: 0, time: 5, micro: 0, output: 0, value: 3n }])
  assert.deepEqual(tab.released(1), [])
  assert.deepEqual(tab.released(9), [])
  tab.drop()
  assert.throws(() => engine.open("{}"), error => error instanceof ProgramRefused && error.number === 2)
})

test("replicas of one engine do not see each other's records", async () => {
  const engine = await Engine.load(MODULE)
  const [one, other] = [engine.open(program("twice")), engine.open(program("twice"))]
  one.answer("event 0 5 0 0 3\n")
  assert.deepEqual([[...one.vars()], [...other.vars()]], [[3n], [0n]])
  one.drop()
  other.answer("event 1 6 0 1 4\n")
  assert.equal(other.vars().length, 1)
})

test("a copy of an engine has what that has, and what is tried in it is unknown to the first", async () => {
  const engine = await Engine.load(MODULE)
  const lines = Array.from({ length: 1_440 }, (_, at) => `event 0 ${at % 90} ${Math.floor(at / 90)} 0 1\n`).join("")
  const tab = engine.open(program("twice"))
  tab.answer(lines)
  const before = [...tab.vars()]
  const copied = engine.another()
  copied.open(program("door"))
  copied.copy(engine)
  const copy = tab.within(copied)
  assert.deepEqual([...copy.vars()], before)
  assert.equal(copy.answer("event 1 3 0 1 4\nlog 1441\n"), tab.answer("event 1 3 0 1 4\nlog 1441\n"))
  assert.deepEqual([...copy.vars()], [...tab.vars()])
  copied.copy(engine)
  assert.equal(copy.answer("event 1 4 0 1 4\n"), "taken 1442\n")
  assert.equal(tab.answer("log 1442\n"), "none 1441\n")
  assert.notEqual(copy.answer("outputs\n"), tab.answer("outputs\n"))
  copied.copy(engine)
  assert.equal(copy.answer("log 1442\n"), "none 1441\n")
  assert.deepEqual([...copy.vars()], [...tab.vars()])
})

test("a copy is exact at each size, also in an engine that had much itself", async () => {
  const engine = await Engine.load(MODULE)
  const [copied, tab] = [engine.another(), engine.open(PONG)]
  // The copy's own room stands where the other's records come to be.
  copied.open(program("door")).answer("outputs\n".repeat(20_000))
  let asked = ""
  for (let first = 1; first < 12_000; first += 750) {
    const times = Array.from({ length: 750 }, (_, at) => first + at)
    tab.answer(times.map(time => `event 0 ${time} 0 0 1\n`).join(""))
    asked += times.map(time => `log ${time}\n`).join("")
    copied.copy(engine)
    const copy = tab.within(copied)
    assert.ok(copy.answer(`${asked}outputs\n`) === tab.answer(`${asked}outputs\n`), `a copy of ${times.at(-1)} records`)
    assert.deepEqual([...copy.vars()], [...tab.vars()])
  }
})

test("a fork has the same log, what is tried in it is unknown to the first, and its drop takes nothing along", async () => {
  const engine = await Engine.load(MODULE)
  const tab = engine.open(program("twice"))
  tab.answer("event 0 5 0 0 3\nevent 0 6 0 0 4\nannounce 0 6 0 1 0\nannounce 1 6 0 0 0\n")
  const asked = "log 1\nlog 2\nlog 3\nlog 4\nlog 5\noutputs\nreleased\nhorizon\nvar 0\nevent 0 6 0 0 4\n"
  const before = [tab.answer(asked), [...tab.vars()], tab.released()]
  const fork = tab.fork()
  assert.deepEqual([fork.answer(asked), [...fork.vars()], fork.released()], before)
  assert.equal(fork.answer("event 1 2 0 1 9\nwithdraw 0 6 0\n"), "taken 5\ntaken 6\n")
  assert.notDeepEqual([...fork.vars()], before[1])
  assert.deepEqual([tab.answer(asked), [...tab.vars()], tab.released()], before)
  fork.drop()
  assert.deepEqual([tab.answer(asked), [...tab.vars()], tab.released()], before)
  engine.refuse(1)
  assert.throws(() => tab.fork(), NoMemory)
  assert.deepEqual([tab.answer(asked), [...tab.fork().vars()]], [before[0], before[1]])
})

test("what is let go of is used again: memory does not grow", async () => {
  const engine = await Engine.load(MODULE)
  const lines = Array.from({ length: 200 }, (_, at) => `event 0 ${at % 90} ${Math.floor(at / 90)} 0 1\n`).join("")
  let size = 0
  for (let turn = 0; turn < 200; turn += 1) {
    const tab = engine.open(program("twice"))
    tab.answer(lines)
    tab.drop()
    if (turn === 20) size = engine.size
  }
  assert.equal(engine.size, size)
})

test("a call that was refused memory has changed nothing, and the next one does it", async () => {
  const engine = await Engine.load(MODULE)
  const tab = engine.open(program("twice"))
  engine.refuse(1)
  assert.throws(() => tab.answer("event 0 5 0 0 3\n"), error => error instanceof NoMemory && !error.isCut)
  assert.deepEqual([...tab.vars()], [0n])
  assert.equal(tab.answer("event 0 5 0 0 3\n"), "taken 1\n")
})

hosted("one's own event shows at once, and the host has it then", async ({ replicaOf, client }) => {
  const replica = await replicaOf({ origin: 1 })
  const before = replica.records
  const act = replica.act("ann.steer", 1, { time: 7 })
  assert.deepEqual([replica.vars["ann.goes"], replica.confirmed["ann.goes"], before], [1n, 0n, 0])
  assert.deepEqual(replica.newest, { time: 7, micro: 0 })
  assert.equal((await act.answered).isNew, true)
  await until(() => replica.records === 1)
  assert.equal(replica.confirmed["ann.goes"], 1n)
  assert.equal((await hostVars(client(), 1))["ann.goes"], 1n)
  assert.deepEqual([replica.stats.rebuilt, replica.stats.refused], [0, 0])
})

hosted("two at one tick take two microsteps", async ({ replicaOf }) => {
  const replica = await replicaOf({ origin: 1 })
  const acts = [replica.act("ann.steer", 1, { time: 7 }), replica.act("ann.steer", -1, { time: 7 })]
  assert.deepEqual(acts.map(it => [it.time, it.micro]), [[7, 0], [7, 1]])
  assert.equal(replica.vars["ann.goes"], -1n)
  await Promise.all(acts.map(it => it.answered))
  await until(() => replica.records === 2)
  assert.equal(replica.confirmed["ann.goes"], -1n)
})

hosted("what comes late from another goes back, and replicas agree with the host", async ({ replicaOf, client }) => {
  const [ann, ben, clock] = [await replicaOf({ origin: 1 }), await replicaOf({ origin: 2 }), client()]
  await clock.ready
  await tickTo(clock, 1, 40)
  await until(() => ann.records === 40 && ben.records === 40)
  const straight = ben.vars["ann.row"]
  await ann.act("ann.steer", 1, { time: 3 }).answered
  await ben.act("ben.steer", -1, { time: 2 }).answered
  await until(() => ann.records === 42 && ben.records === 42)
  assert.notEqual(ben.vars["ann.row"], straight)
  const host = await hostVars(clock, 42)
  assert.deepEqual([ann.vars, ben.vars, ann.confirmed], [host, host, host])
  const third = await replicaOf({})
  assert.deepEqual(third.vars, host)
  assert.throws(() => third.act("ann.steer", 1, { time: 50 }), TypeError)
})

hosted("what the host refuses is taken back, and told", async ({ replicaOf, client }) => {
  const [replica, other] = [await replicaOf({ origin: 1 }), client()]
  const told = []
  replica.onrefused = (record, error) => told.push([record.time, error.name])
  await replica.announce({ time: 20 })
  const act = replica.act("ann.steer", 1, { time: 10 })
  assert.equal(replica.vars["ann.goes"], 1n)
  assert.equal(await act.answered, null)
  assert.deepEqual([told, replica.vars["ann.goes"], replica.stats.rebuilt, replica.stats.refused], [[[10, "RangeError"]], 0n, 1, 1])
  assert.equal((await hostVars(other, 1))["ann.goes"], 0n)
})

hosted("what is final is told once, in order, and never before the host's log has it", async ({ replicaOf, client }) => {
  const [replica, clock] = [await replicaOf({ origin: 1 }), client()]
  const final = []
  replica.onfinal = row => final.push([row.index, row.time, row.output])
  const ticker = new Announcer(clock, 0)
  await Promise.all(Array.from({ length: 90 }, (_, at) => ticker.event("clock.tick", { time: at + 1, value: 1 })))
  const ben = new Announcer(clock, 2)
  await Promise.all([ticker.announce({ time: 91 }), ben.announce({ time: 91 })])
  await until(() => replica.records === 92)
  assert.deepEqual([final, replica.horizon], [[], { time: 0, micro: 0 }])
  await replica.announce({ time: 40 })
  await until(() => replica.horizon.time === 40)
  assert.deepEqual(final, [[0, 34, "ball.point"]])
  await replica.announce({ time: 91 })
  await until(() => replica.horizon.time === 91)
  const { count } = await clock.released()
  assert.ok(count > 0)
  const rows = await Promise.all(Array.from({ length: count }, (_, at) => clock.output(at)))
  assert.deepEqual(final, rows.map((row, at) => [at, row.time, "ball.point"]))
})

hosted("ticks that are due are executed before they come, and one that is passed over is taken back", async ({ replicaOf, client }) => {
  let now = 0
  const options = { input: "clock.tick", hertz: 100, ahead: 5 }
  const [replica, clock] = [await replicaOf({ origin: 1, now: () => now, clock: options }), client()]
  await clock.ready
  assert.equal(replica.frame(), 0)
  now = 100
  await clock.event("clock.tick", { time: 10, value: 1 })
  await until(() => replica.records === 1)
  now = 130
  assert.deepEqual([replica.frame(), replica.tick], [3, { time: 13, ahead: 3 }])
  now = 1_000
  assert.deepEqual([replica.frame(), replica.tick.time], [2, 15])
  assert.deepEqual([replica.stats.rebuilt, replica.act("ann.steer", 1).time], [0, 16])
  await tickTo(clock, 11, 12)
  await until(() => replica.records === 4)
  assert.deepEqual([replica.stats.rebuilt, replica.vars["ann.goes"]], [0, 1n])
  await tickTo(clock, 15, 15)
  await until(() => replica.records === 5)
  assert.equal(replica.stats.rebuilt, 1)
  assert.deepEqual(replica.vars, await hostVars(clock, 5))
})

hosted("a tick that comes with another value than was expected is taken as it came", async ({ replicaOf, client }) => {
  let now = 100
  const [replica, clock] = [await replicaOf({ now: () => now, clock: { input: "clock.tick", hertz: 100 } }), client()]
  await clock.ready
  await tickTo(clock, 10, 10)
  await until(() => replica.records === 1)
  now = 130
  assert.equal(replica.frame(), 3)
  await clock.event("clock.tick", { time: 11, value: 7 })
  await until(() => replica.records === 2)
  assert.deepEqual([replica.stats.rebuilt, replica.tick], [1, { time: 13, ahead: 2 }])
})

hosted("what is announced leaves room for what one does next, and for nothing before it", async ({ replicaOf, client }) => {
  const ticker = client()
  await ticker.ready
  await tickTo(ticker, 10, 10)
  for (const [origin, name, smooth] of [[1, "ann", null], [2, "ben", { "ben.row": {} }]]) {
    const replica = await replicaOf({ origin, smooth, now: () => 100, clock: { input: "clock.tick", hertz: 100 } })
    replica.frame()
    await replica.announce()
    const { time, answered } = replica.act(`${name}.steer`, 1)
    assert.ok(await answered, `${name} at ${time}`)
    assert.equal(await replica.act(`${name}.steer`, -1, { time: time - 1 }).answered, null)
  }
})

/** A replica whose own events wait here once `state.isHeld`, and are counted. */
async function holding({ host, engine }, options) {
  const state = { isHeld: false, count: 0 }
  class Holding extends WebSocket {
    send(text) {
      if (state.isHeld && /^event /m.test(`${text}`)) state.count += 1
      else super.send(text)
    }
  }
  const client = new Client(host.url, { WebSocket: Holding })
  return { state, client, replica: await new Replica(client, { engine, program: PONG, origin: 1, ...options }).ready }
}

hosted("what is final is told of the host's log, and not of what is shown", async given => {
  const { state, client, replica } = await holding(given)
  try {
    const [clock, final] = [given.client(), []]
    replica.onfinal = row => final.push([row.time, row.value])
    await clock.ready
    const origins = [0, 1, 2].map(it => new Announcer(clock, it))
    state.isHeld = true
    // Ann would be where the ball comes at 34. Meanwhile another has announced for her, so at the host it is final that she is not.
    replica.act("ann.steer", -1, { time: 30 })
    await Promise.all(Array.from({ length: 40 }, (_, at) => origins[0].event("clock.tick", { time: at + 1, value: 1 })))
    await Promise.all(origins.map(it => it.announce({ time: 41 })))
    await until(() => replica.horizon.time === 41)
    assert.deepEqual([state.count, replica.outputs(), final], [1, [], [[34, 2n]]])
  } finally {
    client.close()
  }
})

hosted("what is shown anew has own events that wait, and ticks that are expected", async given => {
  let now = 0
  const { state, client, replica } = await holding(given, { now: () => now, clock: { input: "clock.tick", hertz: 100 } })
  try {
    const clock = given.client()
    await clock.ready
    now = 100
    await tickTo(clock, 10, 10)
    await until(() => replica.records === 1)
    now = 130
    assert.equal(replica.frame(), 3)
    state.isHeld = true
    assert.equal(replica.act("ann.steer", 1).time, 14)
    // Tick 11 is passed over.
    await tickTo(clock, 12, 12)
    await until(() => replica.records === 2)
    const { vars, confirmed, stats } = replica
    assert.deepEqual([stats.rebuilt, vars["ann.goes"], vars["ball.x"], confirmed["ann.goes"], confirmed["ball.x"]], [1, 1n, 15n, 0n, 14n])
  } finally {
    client.close()
  }
})

/** How many ticks each of so many pictures brings, one every 10 milliseconds, where each tick is heard so much after it was due. */
async function picturesOf({ replicaOf, client }, pictures, lateAt) {
  let now = 0
  const [replica, clock] = [await replicaOf({ now: () => now, clock: { input: "clock.tick", hertz: 100, ahead: 100 } }), client()]
  await clock.ready
  const brought = []
  for (let tick = 1; tick <= pictures; tick += 1) {
    await clock.event("clock.tick", { time: tick, value: 1 })
    now = 10 * tick + lateAt(tick)
    await until(() => replica.records === tick)
    now = 10 * tick + 400
    brought.push(replica.frame(now))
  }
  assert.equal(replica.stats.rebuilt, 0)
  return { brought, replica }
}

hosted("a link that gets slower holds no picture up, and the clock goes over to it", async given => {
  const { brought, replica } = await picturesOf(given, 500, tick => (tick < 50 ? 0 : 60))
  // From tick 350 on all of the last 300 came 60 milliseconds later: that is gone over to within 600, with a tick a picture but for six.
  assert.equal(brought[0], 40)
  assert.ok(brought.slice(1).every(it => it === 0 || it === 1))
  assert.ok(brought.every((it, at) => it || brought[at + 1] !== 0), `two pictures bring nothing: ${brought}`)
  assert.deepEqual([brought.filter(it => !it).length, replica.tick.ahead], [6, 34])
})

hosted("a tick that comes quicker than all before makes no picture jump", async given => {
  const { brought, replica } = await picturesOf(given, 120, tick => (tick < 20 ? 200 : 100))
  assert.ok(brought.slice(1).every(it => it === 1 || it === 2), `${brought}`)
  assert.deepEqual([brought.filter(it => it === 2).length, replica.tick.ahead], [10, 30])
})

hosted("what is known to be wrong by more than a second is right at once", async given => {
  const { brought } = await picturesOf(given, 3, tick => (tick < 3 ? 1_200 : -9))
  assert.deepEqual(brought, [0, 0, 40])
})

hosted("a clock that ends has no tick behind its last one", async ({ replicaOf, client }) => {
  let now = 0
  const options = { input: "clock.tick", hertz: 100, last: 12 }
  const [replica, clock] = [await replicaOf({ origin: 1, now: () => now, clock: options }), client()]
  await clock.ready
  await tickTo(clock, 10, 10)
  await until(() => replica.records === 1)
  now = 500
  assert.deepEqual([replica.frame(), replica.tick.time, replica.frame()], [2, 12, 0])
})

/** A player whose numbers glide, at 100 ticks a second; the first that came is tick 1, at 0. */
async function gliding({ replicaOf, client }, smooth) {
  const at = { now: 0 }
  const replica = await replicaOf({ origin: 1, now: () => at.now, clock: { input: "clock.tick", hertz: 100 }, smooth })
  const clock = client()
  await clock.ready
  await tickTo(clock, 1, 1)
  await until(() => replica.records === 1)
  const shown = (now, name) => {
    at.now = now
    replica.frame(now)
    return replica.smooth[name]
  }
  return { replica, clock, shown: Object.assign(shown, { clock: at }) }
}

hosted("between two ticks numbers go evenly, with the tick that comes next executed already", async given => {
  const { replica, shown } = await gliding(given, { "ball.x": { jump: 2 } })
  // The ball is at 13 behind tick 1, which came at 0, and at 14 behind tick 2.
  assert.deepEqual([0, 5, 10, 15, 20].map(it => shown(it, "ball.x")), [13, 13.5, 14, 14.5, 15])
  assert.deepEqual([replica.tick, replica.vars["ball.x"]], [{ time: 4, ahead: 3 }, 16n])
  // Over many ticks at once it is where it would be: Ben hits it at tick 11, and at tick 34 it is past Ann and jumps to the middle.
  assert.deepEqual([105, 125, 315, 325, 335].map(it => shown(it, "ball.x")), [22.5, 20.5, 1.5, 12, 11.5])
})

hosted("one's own move shows in the picture of the same time, at the tick to which that goes", async given => {
  const { replica, shown } = await gliding(given, { "ann.row": {}, "ball.x": {} })
  assert.deepEqual([shown(15, "ann.row"), replica.tick.time], [3, 3])
  const act = replica.act("ann.steer", 1)
  assert.deepEqual([act.time, shown(15, "ann.row"), shown(20, "ann.row"), shown(25, "ann.row")], [3, 3.5, 4, 4.5])
  assert.equal((await act.answered).isNew, true)
  assert.deepEqual([replica.stats.rebuilt, replica.stats.rollbacks], [0, 0])
  await replica.announce()
  assert.equal(replica.act("ann.steer", 0).time, replica.tick.time)
})

hosted("what is corrected is what the last picture showed, however late the next one is", async given => {
  const { replica, clock, shown } = await gliding(given, { "ben.row": { over: 20 } })
  await clock.event("ben.steer", { time: 6, value: 1 })
  await until(() => replica.records === 2)
  assert.deepEqual([shown(75, "ben.row"), replica.tick.time], [6, 9])
  // The next picture is of 76, though the correction comes when it is 85 already. Behind tick 9 Ben is at 3 then.
  shown.clock.now = 85
  await clock.event("ben.steer", { time: 8, value: -1 })
  await until(() => replica.records === 3)
  assert.deepEqual([replica.vars["ben.row"], shown(76, "ben.row"), shown(79, "ben.row")], [3n, 3 + 3 * 0.95, 3 + 3 * 0.8])
})

hosted("what comes late from another goes over its time, and is told as a going back", async given => {
  const { replica, clock, shown } = await gliding(given, { "ben.row": { over: 20 } })
  const told = []
  replica.onrollback = went => told.push([went.from.time, went.to.time, went.again])
  assert.equal(shown(55, "ben.row"), 3)
  await clock.event("ben.steer", { time: 6, value: 1 })
  await until(() => replica.records === 2)
  // Behind tick 7 Ben is at 5, and the picture is at 3. The two rows are taken in over 20 milliseconds, while he goes on to 6.
  assert.equal(replica.vars["ben.row"], 5n)
  assert.deepEqual([55, 60, 65, 75].map(it => shown(it, "ben.row")), [3, 5 - 1.5, 5.5 - 1, 6])
  assert.deepEqual(told, [[7, 6, 2]])
  const { rollbacks, depth, deepest, again } = replica.stats
  assert.deepEqual({ rollbacks, depth, deepest, again }, { rollbacks: 1, depth: 2, deepest: 2, again: 2 })
  await clock.event("ben.steer", { time: 3, value: 0 })
  await until(() => replica.records === 3)
  assert.deepEqual([told[1], replica.stats.again, replica.stats.deepest], [[9, 3, 7], 9, 7])
})

hosted("a number that is not there is told in the beginning", async ({ replicaOf }) => {
  await assert.rejects(replicaOf({ smooth: { "ball.z": {} } }), /no variable is called "ball.z"/)
})

hosted("outputs that are not final are told too, and a ping tells the round trip", async ({ replicaOf, client }) => {
  const [replica, clock] = [await replicaOf({ origin: 1 }), client()]
  await clock.ready
  assert.deepEqual(replica.outputs(), [])
  await tickTo(clock, 1, 60)
  await until(() => replica.records === 60)
  const { count } = await clock.outputs()
  const rows = await Promise.all(Array.from({ length: count }, (_, at) => clock.output(at)))
  const wanted = rows.map(({ time, micro, value }, index) => ({ index, time, micro, output: "ball.point", value }))
  assert.ok(count > 1)
  assert.deepEqual([replica.outputs(), replica.outputs(1), replica.outputs(count + 1)], [wanted, wanted.slice(1), []])
  const took = await replica.ping()
  assert.ok(took > 0 && replica.stats.roundTrip === took)
})

hosted("what was so at a time is told of the host's log", async ({ replicaOf, client }) => {
  const [replica, clock] = [await replicaOf({}), client()]
  await clock.ready
  await tickTo(clock, 1, 30)
  await until(() => replica.records === 30)
  const rows = [1, 2, 12, 30].map(time => replica.at(time)["ball.x"])
  assert.deepEqual(rows.slice(0, 2), [13n, 14n])
  assert.equal(rows[3], replica.vars["ball.x"])
  assert.deepEqual(replica.at(30), replica.confirmed)
  assert.equal(replica.at(0)["ball.x"], 12n)
  // What comes late changes what was so, also at the time that was asked for last.
  assert.equal(replica.at(25)["ann.goes"], 0n)
  await clock.event("ann.steer", { time: 20, value: 1 })
  await until(() => replica.records === 31)
  assert.deepEqual([replica.at(25)["ann.goes"], replica.at(19)["ann.goes"]], [1n, 0n])
})

hosted("what was so at a time has timers and delays up to there", async ({ replicaOf }) => {
  const replica = await replicaOf({})
  const times = [1, 2, 5, 6, 8, 9].map(time => [replica.at(time)["p.k"], replica.at(time)["q.s"]])
  assert.deepEqual(times, [[100n, 0n], [101n, 0n], [102n, 0n], [102n, 101n], [103n, 101n], [103n, 203n]])
}, { text: program("pulse") })

hosted("what is let go of behind the horizon changes nothing that is told, and what comes late is taken in", async ({ replicaOf, client }) => {
  const asked = []
  const watching = (engine, asks) => ({ ...engine, another: () => watched(engine.another(), asks), fingerprint: it => engine.fingerprint(it) })
  const watched = (made, asks) => Object.assign(made, { open: text => {
    const tab = Engine.prototype.open.call(made, text)
    const answer = tab.answer.bind(tab)
    return Object.assign(tab, { answer: lines => (asks.push(...lines.match(/^collect$/gm) ?? []), answer(lines)) })
  } })
  const [replica, clock] = [await replicaOf({ origin: 1, engine: watching(await Engine.load(MODULE), asked) }), client()]
  const [ticker, ben] = [new Announcer(clock, 0), new Announcer(clock, 2)]
  const final = []
  replica.onfinal = row => final.push([row.index, row.time, row.value])
  const early = []
  for (let tick = 0; tick < 1_600; tick += 100) {
    await Promise.all(Array.from({ length: 100 }, (_, at) => ticker.event("clock.tick", { time: tick + at + 1, value: 1 })))
    await Promise.all([ticker, ben].map(it => it.announce({ time: tick + 61 })))
    await replica.announce({ time: tick + 61 })
    if (tick === 0) early.push(await until(() => replica.records === 103).then(() => replica.at(30)))
  }
  await replica.act("ann.steer", 1, { time: 1_580 }).answered
  await until(() => replica.records === 1_600 + 48 + 1)
  const [host, { count }] = [await hostVars(clock, 1_649), await clock.released()]
  const rows = await Promise.all(Array.from({ length: count }, (_, at) => clock.output(at)))
  assert.ok(asked.length > 0)
  assert.deepEqual([replica.vars, replica.confirmed, replica.at(30), replica.horizon.time], [host, host, early[0], 1_561])
  assert.deepEqual(final, rows.map((row, at) => [at, row.time, row.value]))
})

hosted("a board is told as it is shown, and as it was", async ({ replicaOf, client }) => {
  const [replica, clock] = [await replicaOf({ origin: 1, clock: { input: "main.tick", hertz: 10 } }), client()]
  await clock.ready
  await replica.act("tank[0].join", 1, { time: 1 }).answered
  await replica.act("tank[0].steer", 1, { time: 3 }).answered
  await Promise.all([1, 2, 3, 4, 5].map(time => clock.event("main.tick", { time, value: 1 })))
  await until(() => replica.records === 7)
  const painted = values => Array.from(values, Number).flatMap((it, place) => (it ? [[place % 40, Math.floor(place / 40), it >> 3, it & 7]] : []))
  assert.deepEqual(painted(replica.array("field.board")), [[3, 3, 2, 1], [4, 3, 3, 1], [5, 3, 4, 1], [6, 3, 5, 1]])
  assert.deepEqual(painted(replica.array("field.board", 3)), [[3, 3, 2, 1], [4, 3, 3, 1]])
  assert.deepEqual([replica.at(3)["tank[0].x"], replica.array("field.painted", 3)[1], replica.array("field.painted")[1]], [4n, 2n, 4n])
  // What the host has not answered is shown on the board, too.
  replica.act("tank[0].steer", 2, { time: 4 })
  assert.deepEqual(painted(replica.array("field.board")), [[3, 3, 2, 1], [4, 3, 3, 1], [4, 4, 4, 1], [4, 5, 5, 1]])
  assert.throws(() => replica.array("field.boards"), /no array is called "field.boards"/)
}, { text: program("tanks") })

hosted("a connection that is lost is made again, and the log goes on", async ({ host, replicaOf, client }) => {
  const [replica, clock] = [await replicaOf({ origin: 1 }), client()]
  await clock.ready
  await replica.act("ann.steer", 1, { time: 7 }).answered
  await tickTo(clock, 12, 12)
  await until(() => replica.records === 2)
  await host.stop()
  const late = replica.act("ann.steer", -1, { time: 9 })
  assert.deepEqual([replica.vars["ann.goes"], replica.newest.time], [-1n, 12])
  await host.start()
  // The host began anew with no record: the announcer says again what it had sent, nobody says the tick, and the replica begins from the new log.
  assert.ok(await late.answered)
  const fresh = client()
  await until(() => replica.records === 2 && replica.newest.time === 9)
  assert.deepEqual([replica.confirmed, replica.vars["ann.goes"]], [await hostVars(fresh, 2), -1n])
})

/** An engine that has no memory once `state.isFull`. */
function filling(engine, state) {
  const real = engine.another()
  const full = {
    another: () => full,
    copy() {},
    fingerprint: text => real.fingerprint(text),
    open(text) {
      const tab = real.open(text)
      const answer = lines => {
        if (state.isFull) throw new NoMemory()
        return tab.answer(lines)
      }
      const opened = { answer, within: () => opened, vars: () => tab.vars(), horizon: () => tab.horizon(), released: () => [], drop() {} }
      return opened
    },
  }
  return full
}

hosted("where memory ends it follows no more, and says so", async ({ engine, client }) => {
  const state = { isFull: false }
  const replica = new Replica(client(), { engine: filling(engine, state), program: PONG })
  await replica.ready
  const told = []
  replica.onerror = error => told.push(error.name)
  state.isFull = true
  const clock = client()
  await clock.ready
  await tickTo(clock, 1, 3)
  await until(() => told.length)
  await tickTo(clock, 4, 5)
  assert.deepEqual([told, replica.error instanceof NoMemory], [["NoMemory"], true])
})

hosted("where memory ends at a tick or at an own event, that is told too, and no further tick is executed", async ({ engine, client }) => {
  for (const does of [replica => replica.frame(150), replica => assert.throws(() => replica.act("ann.steer", 1), NoMemory)]) {
    const [state, told] = [{ isFull: false }, []]
    const options = { engine: filling(engine, state), program: PONG, origin: 1, clock: { input: "clock.tick", hertz: 100 }, now: () => 100 }
    const replica = await new Replica(client(), options).ready
    replica.onerror = error => told.push(error.name)
    const clock = client()
    await clock.ready
    await tickTo(clock, 1, 3)
    await until(() => replica.records === 3)
    const before = replica.vars
    state.isFull = true
    does(replica)
    state.isFull = false
    assert.deepEqual([told, replica.error instanceof NoMemory, replica.frame(200), replica.vars], [["NoMemory"], true, 0, before])
  }
})

hosted("who is closed before the log has come is told so", async ({ client, replicaOf }) => {
  const other = client()
  await other.ready
  await tickTo(other, 1, 2)
  const closed = client()
  const replica = new Replica(closed, { engine: await Engine.load(MODULE), program: PONG })
  closed.close()
  await assert.rejects(replica.ready)
  assert.equal((await replicaOf({})).records, 2)
})

hosted("who is closed tells what it had, also where an event was under way", async ({ replicaOf, client, host }) => {
  const [replica, clock] = [await replicaOf({ origin: 1 }), client()]
  await clock.ready
  await tickTo(clock, 1, 3)
  await until(() => replica.records === 3)
  const before = replica.confirmed
  await host.stop()
  const act = replica.act("ann.steer", 1, { time: 9 })
  const closed = replica.close()
  replica.client.close()
  await closed
  assert.equal(await act.answered, null)
  assert.deepEqual([replica.confirmed, replica.vars, replica.records, replica.frame()], [before, before, 3, 0])
})

hosted("who looks on sends no record, and cannot", async ({ host, client, engine }) => {
  const [sent, clock] = [[], client()]
  class Noting extends WebSocket {
    send(text) {
      sent.push(...`${text}`.split("\n"))
      super.send(text)
    }
  }
  const looking = new Client(host.url, { WebSocket: Noting })
  try {
    const replica = await new Replica(looking, { engine, program: PONG, clock: { input: "clock.tick", hertz: 100 } }).ready
    await clock.ready
    await tickTo(clock, 1, 5)
    await until(() => replica.records === 5)
    replica.frame()
    replica.at(3)
    await replica.ping()
    assert.throws(() => replica.act("ann.steer", 1, { time: 9 }), TypeError)
    await assert.rejects(replica.announce(), error => error instanceof TypeError && /^who acts or announces/.test(error.message))
    assert.ok(sent.includes("horizon"))
    assert.deepEqual([sent.filter(it => /^(event|withdraw|announce|collect)/.test(it)), (await clock.horizon()).log], [[], 5])
  } finally {
    looking.close()
  }
})

hosted("a program that is not the host's is refused, and one that is only laid out in another way is not", async ({ client, engine }) => {
  const other = new Replica(client(), { engine, program: program("pong") })
  await assert.rejects(other.ready, error => error instanceof OtherProgram && /^[0-9a-f]{64}$/.test(error.host))
  const same = new Replica(client(), { engine, program: JSON.stringify(JSON.parse(PONG), null, 2) })
  assert.equal((await same.ready).records, 0)
  assert.throws(() => engine.fingerprint("{}"), error => error instanceof ProgramRefused && error.number === 2)
})
