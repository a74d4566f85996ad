// Two players and a clock over connections that are late by 60 milliseconds each way and more, one of which breaks: each player's own
// events show at once, and in the end all replicas, one that comes late too, have what the host has.

import assert from "node:assert/strict"
import { readFileSync } from "node:fs"
import { test } from "node:test"
import { Engine } from "../../js/engine.js"
import { Replica } from "../../js/replica.js"
import { Client } from "../../js/warpd.js"
import { Host, SECONDS, WebSocket, fileOf, freePort } from "../../js/tests/hosting.js"

const MODULE = await WebAssembly.compile(readFileSync(process.env.ENGINE ?? "engine.wasm"))
const PONG = JSON.stringify({
  ...JSON.parse(readFileSync(new URL("../../../examples/pong.json", import.meta.url), "utf8")),
  version: 3,
  stop: 1_000_000,
})
const DELAY = 60
const HERTZ = 60
const PLAYED = 4_000
const ACTS = 12
const sleep = milliseconds => new Promise(resolve => setTimeout(resolve, milliseconds))

/** Numbers that look drawn, the same each time. */
function drawer(seed) {
  let state = seed
  return most => {
    state = (state * 48_271) % 2_147_483_647
    return state % most
  }
}

/** A connection on which all comes late, in order. */
class Late {
  static made = []
  #socket
  #ready = [0, 0]
  #waiting = [[], []]
  #draw = drawer(Late.made.length + 11)

  constructor(url) {
    Late.made.push(this)
    this.#socket = new WebSocket(url)
    this.#socket.onopen = () => this.#later(0, () => this.onopen?.())
    this.#socket.onmessage = event => this.#later(0, () => this.onmessage?.(event))
    this.#socket.onclose = () => this.onclose?.()
    this.#socket.onerror = () => {}
  }

  #later(way, call) {
    const at = Math.max(this.#ready[way], performance.now() + DELAY + this.#draw(20))
    this.#ready[way] = at
    this.#waiting[way].push(call)
    // (Timers of different lengths may end in another order.)
    setTimeout(() => this.#waiting[way].shift()(), at - performance.now())
  }

  send(text) {
    this.#later(1, () => this.#socket.readyState === WebSocket.OPEN && this.#socket.send(text))
  }

  close() {
    this.#socket.close()
  }

  break() {
    this.#socket.terminate()
  }
}

async function until(holds) {
  for (let turn = 0; turn < 1_000; turn += 1) {
    if (await holds()) return
    await sleep(10)
  }
  throw new Error(`it never came to ${holds}`)
}

/** The clock, near the host: ticks as time passes, and announces them. */
class Ticker {
  time = 0
  #client
  #began = performance.now()

  constructor(client) {
    this.#client = client
  }

  tick() {
    this.time += 1
    this.#client.event("clock.tick", { time: this.time, value: 1 })
    if (this.time % 8 === 0) this.#client.announce(0, { time: this.time + 1, events: this.time })
  }

  due() {
    while (this.time < ((performance.now() - this.#began) * HERTZ) / 1_000) this.tick()
  }
}

/** A player, who acts now and then, and announces now and then. */
class Player {
  acts = []
  #frames = 0

  constructor(replica, name, seed) {
    this.replica = replica
    this.name = name
    this.draw = drawer(seed)
  }

  frame() {
    this.replica.frame()
    this.#frames += 1
    if (this.draw(8) === 0) this.act()
    if (this.#frames % 16 === 0) this.replica.announce().catch(() => {})
  }

  act() {
    const value = BigInt(this.draw(3) - 1)
    const made = this.replica.act(`${this.name}.steer`, value)
    // The tick that follows shows what was done at it.
    this.acts.push({ value, shown: this.replica.vars[`${this.name}.goes`], answered: made.answered })
  }
}

/** Plays until each player has acted so often; in the middle the first player's connection breaks. */
async function played(players, ticker) {
  const began = performance.now()
  let isBroken = false
  // A machine that has other work shows fewer pictures.
  const isPlayed = part => performance.now() - began > part * PLAYED && players.every(it => it.acts.length >= part * ACTS)
  while (!isPlayed(1)) {
    ticker.due()
    for (const player of players) player.frame()
    if (!isBroken && isPlayed(0.5)) {
      isBroken = true
      Late.made[0].break()
    }
    await sleep(8)
  }
}

/** Each event showed at once, and none was refused. */
async function areAnswered(players) {
  const acts = players.flatMap(it => it.acts)
  assert.deepEqual(acts.map(it => it.shown), acts.map(it => it.value))
  const answers = await Promise.all(acts.map(it => it.answered))
  assert.ok(answers.every(it => it !== null))
  assert.deepEqual(players.map(it => it.replica.stats.refused), [0, 0])
}

/** What is final at a host, in words. */
async function finalAt(client) {
  const { count } = await client.releases()
  const rows = await Promise.all(Array.from({ length: count }, (_, at) => client.release(at)))
  return rows.map((row, at) => `${at} ${row.time} ${row.micro} ${row.value}`)
}

/** A replica over connections of this kind, which keeps what it was told as final. */
async function replicaOf(client, options) {
  const replica = new Replica(client, options)
  replica.final = []
  replica.onfinal = row => replica.final.push(`${row.index} ${row.time} ${row.micro} ${row.value}`)
  await replica.ready
  return replica
}

/** All replicas, one that comes late too, have what the host has. */
async function areEqual(replicas, near, late) {
  const { log } = await near.horizon()
  await until(() => replicas.every(it => it.records === log))
  const all = [...replicas, await late()]
  const [{ values }, final] = [await near.readVars(), await finalAt(near)]
  assert.deepEqual(all.map(it => it.confirmed), all.map(() => values))
  assert.deepEqual(all.map(it => it.vars), all.map(() => values))
  assert.deepEqual(all.map(it => it.final), all.map(() => final))
}

test("players over late connections, one of which breaks", { timeout: 4 * SECONDS }, async () => {
  const host = new Host(await freePort(), [], fileOf("pong.json", PONG))
  await host.start()
  const engine = await Engine.load(MODULE)
  const clients = []
  const connect = socket => {
    clients.push(new Client(host.url, { WebSocket: socket }))
    return clients.at(-1)
  }
  const join = options => replicaOf(connect(Late), { engine, program: PONG, ...options })
  try {
    const clock = { input: "clock.tick", hertz: HERTZ, ahead: HERTZ }
    const [ann, ben] = await Promise.all([join({ origin: 1, clock }), join({ origin: 2, clock })])
    const players = [new Player(ann, "ann", 3), new Player(ben, "ben", 7)]
    const near = connect(WebSocket)
    await near.ready
    const ticker = new Ticker(near)
    await played(players, ticker)
    await areAnswered(players)
    assert.equal(ann.client.connections, 2)
    // No record came twice: the log went on where it was.
    assert.equal(ann.stats.records, ann.records)
    // The clock goes on to the last tick that a player was shown.
    while (ticker.time < Math.max(ann.tick.time, ben.tick.time) || ticker.time % 8) ticker.tick()
    await Promise.all([ann, ben].map(it => it.announce({ time: ticker.time + 1 })))
    await areEqual([ann, ben], near, join)
    assert.equal(ann.horizon.time, ticker.time + 1)
  } finally {
    for (const it of clients) it.close()
    await host.stop()
  }
})
