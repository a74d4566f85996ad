// What the client is tried by, in Node and in browsers alike: each case has a host of its own, and a client of it.
//
// A case is called with `assert`, the `client`, `connect(options)` for another client of the same host, and the `host`, which has
// `stop()` and `start()`. Where it has `tokens`, the host has a file of these lines.

import { Announcer, Ended, Refused } from "../warpd.js"
import { NO_NAMES, NO_PROGRAMS, NO_PUSHES, NO_REPLIES, lying, saying } from "./lies.js"

/** @param {number} milliseconds */
const sleep = milliseconds => new Promise(resolve => setTimeout(resolve, milliseconds))

/** @type {Case[]} */
export const CASES = []

/**
 * @param {string} name
 * @param {Case["body"]} body
 * @param {{ tokens?: string } & import("../warpd.js").ClientOptions} words
 */
function hosted(name, body, { tokens, ...options } = {}) {
  CASES.push({ name, body, tokens, options })
}

/** @param {() => unknown} holds */
async function until(holds) {
  for (let turn = 0; turn < 1_000; turn += 1) {
    if (holds()) return
    await sleep(10)
  }
  throw new Error(`it never came to ${holds}`)
}

hosted("lines have answers as values, and names stand for numbers", async ({ assert, client }) => {
  assert.deepEqual(client.names.vars, ["r.total"])
  assert.deepEqual(client.names.inputs, [{ origin: 0, name: "r.a" }, { origin: 1, name: "r.b" }])
  assert.deepEqual(await client.event("r.a", { time: 5, value: 3 }), { place: 1, isNew: true })
  assert.deepEqual(await client.event("r.a", { time: 5, value: 3 }), { place: 1, isNew: false })
  assert.deepEqual(await client.var("r.total"), { log: 1, value: 3n })
  assert.deepEqual(await client.readVars(), { log: 1, values: { "r.total": 3n } })
  assert.deepEqual(await client.output(0), { log: 1, time: 5, micro: 0, output: 0, value: 3n })
  assert.equal(await client.output(1), null)
  assert.deepEqual(await client.horizon(), { log: 1, time: 0, micro: 0 })
  assert.deepEqual(await client.log(1), {
    log: 1,
    record: { kind: "event", origin: 0, time: 5, micro: 0, input: 0, value: 3n },
  })
  assert.deepEqual(await client.withdraw(0, { time: 5 }), { place: 2, isNew: true })
  assert.deepEqual(await client.var(0), { log: 2, value: 0n })
  assert.match((await client.program()).fingerprint, /^[0-9a-f]{64}$/)
})

hosted("a refusal has its number and meaning, and lines behind it go on", async ({ assert, client }) => {
  const refused = client.event(0, { time: 101, value: 1 })
  const next = client.released()
  await assert.rejects(refused, error => error instanceof Refused && error.number === 3 && error.meaning === "past the program's stop")
  assert.deepEqual(await next, { log: 0, count: 0 })
  const answers = await client.many(["nonsense", "lost"])
  assert.equal(answers[0] instanceof Refused && answers[0].number, 1)
  assert.deepEqual(answers[1], { log: 0, count: 0 })
  await assert.rejects(client.ask("lost\nlost"), RangeError)
  await assert.rejects(client.event("r.c", { time: 1, value: 1 }), RangeError)
})

hosted("values have 64 bits", async ({ assert, client }) => {
  const most = 2n ** 63n - 1n
  await client.event("r.a", { time: 1, value: most })
  assert.equal((await client.readVars()).values["r.total"], most)
})

hosted("what is watched is pushed in order", async ({ assert, client }) => {
  /** @type {number[]} */
  const places = []
  await client.watch("log", push => places.push(push.place)).started
  await client.watch("vars").started
  const released = client.watch("released")
  const [first, second] = [new Announcer(client, 0), new Announcer(client, 1)]
  await first.event("r.a", { time: 5, value: 3 })
  await first.event("r.a", { time: 6, value: 4 })
  await Promise.all([first.announce({ time: 10 }), second.announce({ time: 10 })])
  const rows = []
  for await (const row of released) {
    if (row.frozen) break
    rows.push([row.index, row.time, row.value])
    if (rows.length === 2) break
  }
  // The program's total is twice what it was, and the event's value.
  assert.deepEqual(rows, [[0, 5, 3n], [1, 6, 10n]])
  await until(() => places.length === 4 && client.vars["r.total"] === 10n)
  assert.deepEqual(places, [1, 2, 3, 4])
})

hosted("steps tell what is executed, and how far a late event goes back", async ({ assert, client }) => {
  const most = 2n ** 63n - 1n
  await client.event("r.a", { time: 5, value: 1 })
  /** @type {any[]} */
  const pushes = []
  const watch = client.watch("steps", push => pushes.push(push))
  assert.deepEqual(await watch.started, { count: 1 })
  /**
   * @param {number} time
   * @param {Record<string, bigint>} given
   * @param {bigint} total
   */
  const step = (time, given, total) => ({
    ...{ time, micro: 0, given, due: [], changed: { "r.total": total }, outputs: { "r.y": total }, pending: 0 },
  })
  await client.event("r.a", { time: 9, value: most })
  await until(() => pushes.length === 1)
  // The program's total is twice what it was, and the event's value: it wraps.
  assert.deepEqual(pushes.splice(0), [step(9, { "r.a": most }, BigInt.asIntN(64, 2n + most))])
  await client.event("r.b", { time: 7, value: 2 })
  await until(() => pushes.some(it => it.time === 9))
  const [{ rollback }, ...again] = pushes
  assert.deepEqual(rollback.from, { time: 9, micro: 0 })
  assert.equal(rollback.to === null || rollback.to.time <= 5, true)
  assert.equal(rollback.again, again.length)
  // What comes from the other origin is taken away.
  assert.deepEqual(again.slice(-2), [step(7, { "r.b": 2n }, -1n), step(9, { "r.a": most }, most - 2n)])
  await watch.stop()
  await client.event("r.a", { time: 11, value: 1 })
  assert.deepEqual(await client.ask("unwatch steps"), { count: 0 })
  assert.equal(pushes.length, 1 + again.length)
})

hosted("an announcer keeps to its word", async ({ assert, client }) => {
  const announcer = new Announcer(client, 0)
  await announcer.event("r.a", { time: 5, value: 3 })
  await assert.rejects(announcer.event("r.a", { time: 5, value: 4 }), RangeError)
  await announcer.announce({ time: 6 })
  await assert.rejects(announcer.event("r.a", { time: 2, value: 4 }), RangeError)
  assert.deepEqual(await client.breach(0), { log: 2, broken: false })
})

hosted("what is refused does not count, and what breaks no rule is announced with what was taken", async ({ assert, client }) => {
  const [announcer, other] = [new Announcer(client, 0), new Announcer(client, 1)]
  await announcer.event("r.a", { time: 5, value: 3 })
  // Past the stop, and another's input.
  const refused = [announcer.event("r.a", { time: 101, value: 1 }), announcer.event("r.b", { time: 6, value: 1 })]
  const word = announcer.announce({ time: 50 })
  for (const [at, number] of [3, 5].entries()) await assert.rejects(refused[at], error => error.number === number)
  await word
  await other.announce({ time: 50 })
  assert.deepEqual(await client.horizon(), { log: 3, time: 50, micro: 0 })
  // An event that is under way counts, and one before a word that is under way is not sent.
  const sent = announcer.event("r.a", { time: 60, value: 1 })
  const next = announcer.announce({ time: 70 })
  await assert.rejects(announcer.event("r.a", { time: 61, value: 1 }), RangeError)
  await Promise.all([sent, next, other.announce({ time: 70 })])
  assert.equal((await client.horizon()).time, 70)
  // A word that was refused binds nobody.
  await assert.rejects(announcer.announce({ time: 1_000 }), error => error instanceof Refused)
  await announcer.event("r.a", { time: 80, value: 1 })
  assert.deepEqual(await client.breach(0), { log: 7, broken: false })
})

hosted("what is refused for now is said again before the next announcement", async ({ assert, client }) => {
  const [announcer, other] = [new Announcer(client, 0), new Announcer(client, 1)]
  await announcer.began
  const { ask } = client
  let isBusy = true
  client.ask = line => (isBusy && line.startsWith("event") ? Promise.reject(new Refused(10, line)) : ask.call(client, line))
  await assert.rejects(announcer.event("r.a", { time: 5, value: 3 }), Refused)
  await assert.rejects(announcer.announce({ time: 9 }), error => error.number === 10)
  isBusy = false
  await Promise.all([announcer.announce({ time: 9 }), other.announce({ time: 9 })])
  assert.deepEqual(await client.log(1), { log: 3, record: { kind: "event", origin: 0, time: 5, micro: 0, input: 0, value: 3n } })
  assert.equal((await client.horizon()).time, 9)
})

hosted("what is missing or out of range is told in words, and not sent", async ({ assert, client }) => {
  const announcer = new Announcer(client, 0)
  /**
   * @param {Promise<unknown>} promise
   * @param {typeof TypeError | typeof RangeError} kind
   * @param {string} words
   */
  const told = async (promise, kind, words) => assert.rejects(promise, error => error instanceof kind && error.message.includes(words))
  /** @type {((event?: any) => Promise<unknown>)[]} */
  const calls = [event => client.event("r.a", event), event => announcer.event("r.a", event)]
  for (const it of calls) {
    await told(it({ value: 3 }), TypeError, "time is missing")
    await told(it({ time: 9 }), TypeError, "value is missing")
    await told(it(), TypeError, "time is missing")
    await told(it({ time: -1, value: 3 }), RangeError, "time is -1")
    await told(it({ time: 1.5, value: 3 }), RangeError, "time is 1.5")
    await told(it({ time: 1, micro: 256, value: 3 }), RangeError, "micro is 256")
    await told(it({ time: 1, value: 2n ** 63n }), RangeError, "value is 9223372036854775808")
  }
  // What the types rule out.
  /** @type {any} */
  const wrongly = client
  /** @type {any} */
  const wrong = announcer
  await told(wrong.announce(9), TypeError, "time is missing")
  await told(wrongly.announce(0, { time: 9 }), TypeError, "events is missing")
  await told(wrongly.withdraw({ time: 9 }), RangeError, "origin is")
  /** @param {any[]} words */
  const thrown = (...words) => {
    try {
      wrongly.watch(...words)
    } catch (error) {
      return `${error}`
    }
    return "nothing"
  }
  assert.match(thrown("vrs"), /RangeError: .*"vrs".*vars/)
  assert.match(thrown("steps", null, { from: 3 }), /RangeError: a watch of steps has no start/)
  assert.deepEqual(await client.released(), { log: 0, count: 0 })
})

hosted("a host that begins anew gets all again, and is watched on", async ({ assert, client, host }) => {
  const announcer = new Announcer(client, 0)
  /** @type {string[]} */
  const states = []
  client.onstate = state => states.push(state)
  /** @type {number[]} */
  const horizons = []
  client.watch("horizon", push => horizons.push(push.time))
  await announcer.event("r.a", { time: 5, value: 3 })
  await host.stop()
  await until(() => client.state === "connecting")
  const asked = client.var("r.total")
  await host.start()
  assert.deepEqual(await asked, { log: 0, value: 0n })
  const had = async () => (await client.horizon()).log
  while (await had() < 1) await sleep(10)
  await announcer.announce({ time: 10 })
  await client.announce(1, { time: 10, events: 0 })
  await until(() => horizons.at(-1) === 10)
  assert.deepEqual(await client.var("r.total"), { log: 3, value: 3n })
  assert.deepEqual(states, ["connecting", "open"])
  client.close()
  await assert.rejects(client.lost(), Ended)
})

hosted("a token says for whom a client may send", async ({ assert, client, connect }) => {
  await client.event("r.a", { time: 5, value: 3 })
  await assert.rejects(client.event("r.b", { time: 5, value: 3 }), error => error.number === 13)
  const other = connect({ token: "beta", reconnect: false })
  await assert.rejects(other.ready)
  other.close()
}, { tokens: "alpha 0\nreader read\n", token: "alpha" })

/**
 * @param {Given["connect"]} connect
 * @param {(line: string) => unknown} answerTo
 * @param {number | null} [timeout]
 */
const overLies = (connect, answerTo, timeout) => connect({ WebSocket: lying(answerTo), timeout, reconnect: false })

/** @param {any} error */
const isEnd = error => error instanceof Ended && error.message.length < 700

hosted("a host that lies in a reply is not believed: the client ends", async ({ assert, connect }) => {
  for (const [line, replies] of Object.entries(NO_REPLIES)) {
    for (const reply of replies) {
      const it = overLies(connect, said => (said === line ? reply : saying(undefined)(said)))
      await it.ready
      const answers = [it.ask(line), it.ask("horizon")]
      for (const answer of answers) await assert.rejects(answer, isEnd, `${line}: ${reply.slice(0, 99)}`)
      assert.equal(it.state, "closed")
    }
  }
})

hosted("a host that lies in its greeting, in a push, or in another form than a short text is not believed", async ({ assert, connect }) => {
  for (const [line, replies] of Object.entries({ names: NO_NAMES, program: NO_PROGRAMS })) {
    for (const reply of replies) {
      await assert.rejects(overLies(connect, said => (said === line ? reply : saying(undefined)(said))).ready, isEnd, reply.slice(0, 99))
    }
  }
  for (const said of [...NO_PUSHES.map(it => `* ${it}`), new Uint8Array(9), `* rolled ${"9".repeat(1_048_577)}`]) {
    await assert.rejects(overLies(connect, saying(said)).var(0), isEnd, `${said}`.slice(0, 99))
  }
})

hosted("of two answers to one line the first counts, and the second ends the client", async ({ assert, connect }) => {
  for (const [first, more] of [["var 1 1", "\nvar 1 2"], ["var 1 1", "\ntaken 1".repeat(50_000)], ["var 1 1", "\n"]]) {
    const it = overLies(connect, saying(first + more))
    assert.deepEqual(await it.var(0), { log: 1, value: 1n })
    await assert.rejects(it.lost(), isEnd)
    assert.equal(it.state, "closed")
  }
})

hosted("a host that says nothing leaves no promise open", async ({ assert, connect }) => {
  /** @param {any} error */
  const isLate = error => isEnd(error) && error.message.includes("within 40 milliseconds")
  for (const answerTo of [saying(undefined), () => undefined]) {
    await assert.rejects(overLies(connect, answerTo, 40).var(0), isLate)
    // Where connections are made again, a second one has its time too.
    const Lying = lying(answerTo)
    const it = connect({ WebSocket: Lying, timeout: 40 })
    await assert.rejects(it.var(0), isLate)
    assert.deepEqual([Lying.made, it.connections, it.state], [2, 2, "closed"])
  }
})

hosted("an honest host is believed with a short time, however long nothing is asked", async ({ assert, client, connect }) => {
  const short = connect({ timeout: 2_000 })
  const patient = connect({ timeout: null })
  /** @type {number[]} */
  const places = []
  await Promise.all([short.ready, patient.ready])
  assert.deepEqual([client.timeout, short.timeout, patient.timeout], [Infinity, 2_000, Infinity])
  await short.watch("log", ({ place }) => places.push(place)).started
  await sleep(2_500)
  assert.deepEqual(await short.event("r.a", { time: 5, value: -3 }), { place: 1, isNew: true })
  assert.deepEqual(await patient.var(0), { log: 1, value: -3n })
  await until(() => places.length === 1)
  assert.equal(short.connections, 1)
  for (const it of [short, patient]) it.close()
})
