// Tries the client over a host that is none: a socket that says what a test has it say, as a host that is broken, old, or means no
// good might. Nothing that it says comes out of the client as an exception.

import assert from "node:assert/strict"
import { test } from "node:test"
import { Client, Ended, replyOf } from "../warpd.js"

/** Lets all that is due happen. */
const settled = () => new Promise(resolve => setImmediate(resolve))

/** A socket to a host that greets, and says what it is told to. */
class Said {
  /** @type {Said[]} */
  static made = []
  /** @type {Record<string, string>} */
  static answers = {}
  isClosed = false
  onopen = () => {}
  onclose = () => {}
  /** @param {{ data: string }} _event */
  onmessage = _event => {}

  constructor() {
    Said.made.push(this)
    queueMicrotask(() => this.onopen())
  }

  /** @param {string} text */
  send(text) {
    const lines = text.trim().split("\n").map(line => Said.answers[line.split(" ")[0]]).filter(it => it !== undefined)
    if (lines.length) queueMicrotask(() => this.say(...lines))
  }

  /** @param {string[]} lines */
  say(...lines) {
    this.onmessage({ data: lines.join("\n") })
  }

  close() {
    this.isClosed = true
  }
}

const GREETING = {
  names: 'names {"vars":["r.x"],"inputs":[],"outputs":[]}', program: `program 1 ${"0123456789abcdef".repeat(4)}`, watch: "watching 1", horizon: "horizon 0 0 0",
}

/**
 * A client whose host greets it as `answers` has it, once it is over with that.
 * @param {Record<string, string>} answers
 * @param {import("../warpd.js").ClientOptions} options
 */
async function greeted(answers = GREETING, options = {}) {
  Said.made = []
  Said.answers = answers
  const client = new Client("ws://127.0.0.1:1/ws", { WebSocket: Said, ...options })
  await settled()
  return { client, socket: Said.made[0] }
}

/**
 * The client has ended with these words, and has closed its socket.
 * @param {Client} client
 * @param {Said} socket
 * @param {string} words
 */
function ended(client, socket, words) {
  const said = client.error?.message ?? ""
  assert.equal(client.state, "closed", words)
  assert.ok(client.error instanceof Ended, words)
  assert.ok(said.includes(words), `${said} has not ${words}`)
  assert.ok(socket.isClosed, words)
}

test("pushes of a kind that is not known are passed over, whatever it is called", async () => {
  const { client, socket } = await greeted()
  for (const kind of ["__proto__", "toString", "constructor", "hasOwnProperty", "valueOf", "rolled", "gone slow", ""]) {
    socket.say(`* ${kind} 1 2`, `* ${kind}`)
    assert.equal(client.state, "open", kind)
  }
  assert.deepEqual(await client.horizon(), { log: 0, time: 0, micro: 0 })
  client.close()
})

test("a push that does not read ends the client with its words, and what stands behind it is not taken", async () => {
  const malformed = [
    "log x event 0 1 0 0 1", "log", "log 1 event 0 1 0 0", "log 1 event 0 1 0 0 1.5", "released 0 1 0 0 y", "released", "vars 1 z", "vars",
    "horizon 0 0", "breach 1 x", "skipped", "skipped -1", "step {", "step", "step {}", 'step {"tag":5}', 'step {"rollback":{"from":1}}',
    "step null",
  ]
  for (const push of malformed) {
    const { client, socket } = await greeted()
    /** @type {unknown[]} */
    const pushed = []
    client.watch("vars", it => pushed.push(it))
    const asked = client.horizon()
    socket.say(`* ${push}`, "* vars 1 5")
    ended(client, socket, JSON.stringify(`* ${push}`))
    await assert.rejects(asked, Ended)
    assert.deepEqual(pushed, [], push)
  }
})

test("a reply that does not read ends the client, and whoever waits for it is told so", async () => {
  const unread = [
    "toString", "__proto__ 1", "constructor", "hasOwnProperty 1", "horizon", "horizon 1 x 0", "var 1 z", "refused x", "names {",
    "names null", "nonsense",
  ]
  for (const reply of unread) {
    const { client, socket } = await greeted({ ...GREETING, horizon: reply })
    await assert.rejects(client.horizon(), error => error instanceof Ended && error.message.includes(JSON.stringify(reply)), reply)
    ended(client, socket, JSON.stringify(reply))
    assert.throws(() => replyOf(reply, "horizon"), Ended, reply)
  }
})

test("a reply that nobody waits for ends the client", async () => {
  const { client, socket } = await greeted()
  socket.say("taken 1")
  ended(client, socket, "nobody waits for")
})

test("a greeting that is none ends the client", async () => {
  const { names, program } = GREETING
  const none = "none 0"
  for (const answers of [
    { names: "taken 1", program }, { names, program: none }, { names: none, program: none }, { names, program: "program 1" },
    { names: 'names {"inputs":5}', program },
  ]) {
    const { client, socket } = await greeted(answers)
    ended(client, socket, "no reply to \"")
    await assert.rejects(client.ready, Ended)
  }
})

test("what is told of a lie is short, has its signs spelled, and no token", async () => {
  const { client, socket } = await greeted({ ...GREETING, horizon: `\u001b[2J${"x".repeat(1_000_000)}` })
  await assert.rejects(client.horizon(), Ended)
  ended(client, socket, `no reply to "horizon": "\\u001b[2J${"x".repeat(196)}..": of another kind`)
  for (const answer of ["refused 13", "taken 1"]) {
    const { client, socket } = await greeted({ ...GREETING, token: answer }, { token: "secret" })
    await assert.rejects(client.ready, error => !error.message.includes("secret") && error.message.includes("token .."))
    assert.equal(client.state, "closed", answer)
    assert.ok(socket.isClosed, answer)
  }
})

test("a connection that says nothing is given up, and made again; what is pushed and watched is a sign of it", async () => {
  const { client, socket } = await greeted(GREETING, { timeout: 400 })
  /** @type {unknown[]} */
  const pushed = []
  client.watch("released", it => pushed.push(it))
  const asked = client.var(0)
  for (let index = 0; index < 12; index += 1) {
    await new Promise(resolve => setTimeout(resolve, 100))
    socket.say(`* released ${index} 5 0 0 1`)
    assert.equal(client.state, "open")
  }
  Said.answers = { ...GREETING, var: "var 12 7" }
  assert.deepEqual(await asked, { log: 12, value: 7n })
  assert.deepEqual([pushed.length, client.connections, socket.isClosed], [12, 2, true])
  // It was answered in between, so that the next silence is a first one again.
  Said.answers = GREETING
  const late = client.var(0)
  while (client.connections < 3) await new Promise(resolve => setTimeout(resolve, 20))
  assert.equal(client.state, "open")
  await assert.rejects(late, Ended)
  client.close()
})

test("what a callback throws is uncaught, and all that the host says is read", async t => {
  /** @type {(() => void)[]} */
  const thrown = []
  const { client, socket } = await greeted()
  client.watch("vars", () => {
    throw new RangeError("mine")
  })
  await settled()
  const asked = client.var(0)
  await settled()
  t.mock.method(globalThis, "queueMicrotask", (/** @type {() => void} */ later) => thrown.push(later))
  socket.say("* vars 1 5", "var 1 5")
  assert.deepEqual(await asked, { log: 1, value: 5n })
  assert.equal(thrown.length, 1)
  assert.throws(thrown[0], RangeError)
  assert.equal(client.state, "open")
  client.close()
})

test("pauses grow while connections are closed behind their greeting, until one lasted or brought a record", async t => {
  /** @type {number[]} */
  const pauses = []
  let now = 0
  t.mock.method(performance, "now", () => now)
  t.mock.method(globalThis, "setTimeout", (/** @type {() => void} */ later, /** @type {number} */ pause) => {
    pauses.push(pause)
    queueMicrotask(later)
  })
  const { client } = await greeted()
  client.watch("log")
  const lose = async () => {
    await settled()
    assert.equal(client.state, "open")
    Said.made[Said.made.length - 1].onclose()
  }
  for (let times = 0; times < 8; times += 1) await lose()
  assert.deepEqual(pauses.splice(0), [100, 200, 400, 800, 1_600, 3_200, 5_000, 5_000], "connections that were greeted alone")
  await settled()
  now += 1_000
  await lose()
  await lose()
  assert.deepEqual(pauses.splice(0), [100, 200], "behind one that lasted a second")
  await settled()
  Said.made[Said.made.length - 1].say("* log 1 event 0 1 0 0 1")
  await lose()
  await lose()
  assert.deepEqual(pauses.splice(0), [100, 200], "behind one that brought a record")
  Said.answers = {}
  for (let times = 0; times < 3; times += 1) {
    await settled()
    Said.made[Said.made.length - 1].onclose()
  }
  assert.deepEqual(pauses, [400, 800, 1_600], "connections that were not greeted")
  client.close()
})
