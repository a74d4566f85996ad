// Tries the announcer over real hosts: what it asks and says, by the lines that go out, over logs that are long and connections
// that are lost. Nothing here asks for speed: round trips and lines are counted.

import assert from "node:assert/strict"
import { readFileSync } from "node:fs"
import { test } from "node:test"
import { Announcer, Client, Refused } from "../warpd.js"
import { Host, SECONDS, WebSocket, fileOf, freePort } from "./hosting.js"

const LONG = 6 * SECONDS
const TWICE = readFileSync(new URL("../../../examples/twice.json", import.meta.url), "utf8")
const tick = () => new Promise(resolve => setTimeout(resolve, 10))

/** What goes out, message by message, with the sockets in the order in which they were made. */
class Line extends WebSocket {
  /** @type {Line[]} */
  static made = []
  /** @type {string[]} */
  sent = []

  /** @param {string} url */
  constructor(url) {
    super(url)
    Line.made.push(this)
  }

  /** @param {string} text */
  send(text) {
    this.sent.push(text)
    super.send(text)
  }
}

/**
 * A host of a program whose time is long, and a client of it that is ready.
 * @param {string} name
 * @param {(given: { host: Host, client: Client }) => Promise<void>} body
 */
function hosted(name, body) {
  test(name, { timeout: LONG }, async () => {
    const host = new Host(await freePort(), [], fileOf("long.json", TWICE.replace('"stop":100', '"stop":1000000')))
    await host.start()
    Line.made = []
    const client = new Client(host.url, { WebSocket: Line })
    try {
      await client.ready
      await body({ host, client })
    } finally {
      client.close()
      await host.stop()
    }
  })
}

/**
 * Puts lines, so many at a time that no side waits for the other.
 * @param {Client} client
 * @param {string[]} lines
 */
async function fill(client, lines) {
  for (let first = 0; first < lines.length; first += 2_000) {
    for (const answer of await taken(client, lines.slice(first, first + 2_000))) assert.ok(answer.isNew)
  }
}

/**
 * The answers to records.
 * @param {Client} client
 * @param {string[]} lines
 */
const taken = async (client, lines) => /** @type {import("../warpd.js").Taken[]} */ (await client.many(lines))

/**
 * The lines that are asked from now on, and how often one was asked that came behind an answer.
 * @param {Client} client
 */
function heard(client) {
  /** @type {{ lines: string[], rounds: number }} */
  const told = { lines: [], rounds: 0 }
  const { ask } = client
  let isBehindAnAnswer = true
  client.ask = line => {
    if (isBehindAnAnswer) told.rounds += 1
    isBehindAnAnswer = false
    told.lines.push(line)
    const answer = ask.call(client, line)
    answer.catch(() => {}).then(() => (isBehindAnAnswer = true))
    return answer
  }
  return told
}

/** @param {number} count */
const eventsUpTo = count => Array.from({ length: count }, (_, at) => `event 0 ${at + 1} 0 0 1`)

hosted("at a log of 99,984 records it begins in one round trip, with the counts that are there", async ({ client }) => {
  await fill(client, [...eventsUpTo(99_980), "withdraw 0 5 0", "withdraw 0 6 0", "withdraw 0 200000 0", "announce 0 150000 0 99980 2"])
  const told = heard(client)
  const announcer = new Announcer(client, 0)
  await announcer.began
  assert.deepEqual([told.lines, told.rounds], [["counts 0", "reached 0"], 1])
  assert.deepEqual([announcer.announced, announcer.last], [{ time: 150_000, micro: 0 }, { time: 200_000, micro: 0 }])
  await assert.rejects(announcer.event("r.a", { time: 149_999, value: 1 }), RangeError)
  await Promise.all([
    announcer.event("r.a", { time: 200_001, value: 1 }),
    ...[200_001, 200_003].map(time => announcer.withdraw({ time })),
    ...[200_002, 300_000].map(time => announcer.announce({ time })),
  ])
  assert.deepEqual(told.lines.slice(2), [
    ...["event 0 200001 0 0 1", "withdraw 0 200001 0", "withdraw 0 200003 0"],
    ...["announce 0 200002 0 99981 4", "announce 0 300000 0 99981 5"],
  ])
  assert.deepEqual(await client.counts(0), { log: 99_989, origin: 0, events: 99_981, withdrawn: 5, last: { time: 200_003, micro: 0 } })
  assert.deepEqual(await client.reached(0), { log: 99_989, origin: 0, time: 300_000, micro: 0 })
  assert.equal((await client.breach(0)).broken, false)
  const { log, digits } = await client.digest()
  assert.deepEqual([log, /^[0-9a-f]{32}$/.test(digits)], [99_989, true])
})

hosted("before the last name that was there it reads the log, once, and keeps to its word as ever", async ({ client }) => {
  await fill(client, ["event 0 5 0 0 3", "event 0 9 0 0 1", "withdraw 0 7 0", "event 1 6 0 1 1", "announce 0 3 0 0 0"])
  const announcer = new Announcer(client, 0)
  await announcer.began
  const told = heard(client)
  const second = announcer.event("r.a", { time: 9, value: 2 })
  const same = announcer.event("r.a", { time: 9, value: 1 })
  const word = announcer.announce({ time: 9 })
  await assert.rejects(second, RangeError)
  await Promise.all([same, word])
  const read = ["horizon", ...Array.from({ length: 5 }, (_, at) => `log ${at + 1}`)]
  assert.deepEqual(told.lines, [...read, "event 0 9 0 0 1", "announce 0 9 0 1 1"])
  await announcer.withdraw({ time: 10 })
  assert.equal(told.lines.length, read.length + 3)
  assert.equal((await client.breach(0)).broken, false)
})

hosted("names come in any order, and each is counted once", async ({ client }) => {
  const announcer = new Announcer(client, 0)
  const times = Array.from({ length: 5_000 }, (_, at) => 1 + ((at * 1_237) % 5_000))
  await Promise.all(times.map(time => announcer.event("r.a", { time, value: 1 })))
  await Promise.all(times.filter(time => time % 5 === 0).map(time => announcer.withdraw({ time })))
  await Promise.all(times.filter(time => time % 7 === 0).map(time => announcer.event("r.a", { time, value: 1 })))
  const told = heard(client)
  for (const time of [2_501, 4_000, 5_001]) await announcer.announce({ time })
  assert.deepEqual(told.lines, ["announce 0 2501 0 2500 500", "announce 0 4000 0 3999 799", "announce 0 5001 0 5000 1000"])
  assert.deepEqual(await client.reached(0), { log: 6_003, origin: 0, time: 5_001, micro: 0 })
})

hosted("over another connection only what was not answered is sent", async ({ client }) => {
  const announcer = new Announcer(client, 0)
  for (let time = 1; time <= 200; time += 1) await announcer.event("r.a", { time, value: 1 })
  await announcer.announce({ time: 150 })
  const [first] = Line.made
  // Nothing more is heard from here: what is sent now is not answered.
  first.onmessage = () => {}
  const late = announcer.event("r.a", { time: 300, value: 1 })
  while (!first.sent.at(-1)?.includes("event 0 300")) await tick()
  first.close()
  await late
  await announcer.announce({ time: 400 })
  const lines = Line.made[1].sent.flatMap(text => text.trim().split("\n"))
  assert.deepEqual(lines, ["names", "program", "event 0 300 0 0 1", "counts 0", "reached 0", "announce 0 400 0 201 0"])
})

hosted("a host that began anew is sent all that was sent, and is counted anew", async ({ host, client }) => {
  await fill(client, ["event 0 1 0 0 3", "withdraw 0 2 0", "announce 0 3 0 1 1"])
  const announcer = new Announcer(client, 0)
  await announcer.event("r.a", { time: 5, value: 3 })
  await announcer.withdraw({ time: 6 })
  await announcer.announce({ time: 7 })
  await host.stop()
  const late = announcer.event("r.a", { time: 9, value: 1 })
  await host.start()
  await late
  await announcer.announce({ time: 10 })
  // What was there before the announcer was lost with the host: it never had it.
  const sent = ["event 0 5 0 0 3", "withdraw 0 6 0", "announce 0 7 0 2 2", "event 0 9 0 0 1", "announce 0 10 0 2 1"]
  assert.deepEqual((await taken(client, sent)).map(({ isNew }) => isNew), sent.map(() => false))
  assert.deepEqual(await client.reached(0), { log: 5, origin: 0, time: 10, micro: 0 })
  assert.equal((await client.breach(0)).broken, false)
})

hosted("where the host knows no such word its log is read, each place once", async ({ client }) => {
  await fill(client, eventsUpTo(9_000))
  const { ask } = client
  client.ask = line => (/^(counts|reached)/.test(line) ? Promise.reject(new Refused(1, line)) : ask.call(client, line))
  const told = heard(client)
  const announcer = new Announcer(client, 0)
  await announcer.began
  assert.equal(told.lines.length, 2 + 1 + 9_000)
  assert.ok(told.rounds <= 12, `${told.rounds} round trips`)
  await announcer.announce({ time: 5_000 })
  assert.equal(told.lines.at(-1), "announce 0 5000 0 4999 0")
})

hosted("what waits for a connection is sent in messages that a host takes", async ({ host, client }) => {
  await host.stop()
  while (client.state !== "connecting") await tick()
  const answers = taken(client, eventsUpTo(20_000))
  await host.start()
  assert.ok((await answers).every(({ isNew }) => isNew))
  const messages = Line.made[Line.made.length - 1].sent
  assert.ok(messages.length < 40, `${messages.length} messages`)
  assert.ok(messages.every(text => text.length <= 16_384))
})

hosted("of what is watched and nobody asks for the newest state is kept, and every record", async ({ client }) => {
  const [vars, log] = [client.watch("vars"), client.watch("log")]
  await Promise.all([vars.started, log.started])
  await fill(client, eventsUpTo(50))
  while ((await client.horizon()).log < 50 || client.vars["r.total"] === undefined) await tick()
  await client.ask("vars")
  /**
   * @template Push
   * @param {import("../warpd.js").Watch<Push>} watch
   */
  const next = async watch => (await watch[Symbol.asyncIterator]().next()).value
  const places = []
  while (places.length < 50) places.push((await next(log)).place)
  assert.deepEqual(places, Array.from({ length: 50 }, (_, at) => at + 1))
  while (client.vars["r.total"] !== (await client.var(0)).value) await tick()
  assert.equal((await next(vars)).log, 50)
})
