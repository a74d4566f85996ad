// A replica in a worker, for `remote.js`, which says what is wanted of it by messages. It is no module to import:
//
//     new Worker(new URL("./worker.js", import.meta.url), { type: "module" })

import { Engine } from "./engine.js"
import { Replica } from "./replica.js"
import { Client } from "./warpd.js"

// In Node a worker's messages come by another way.
const port = typeof WorkerGlobalScope === "undefined" ? (await import("node:worker_threads")).parentPort : globalThis
const say = (message, moved = []) => port.postMessage(message, moved)

/** Times go from one side to the other as milliseconds of no process. */
const absolute = time => performance.timeOrigin + time

/** What an error is on the other side. */
const errorOf = error => ({ ...error, name: error.name, message: error.message })

/** Takes note of what numbers glide, for the other side, which shows them. */
class Notes {
  #waiting = []

  constructor(names) {
    this.names = names
  }

  #note(...note) {
    this.#waiting.push(note)
  }

  #named(values) {
    return Object.fromEntries(this.names.map(name => [name, Number(values[name])]))
  }

  tick(values, began, length) {
    this.#note("tick", this.#named(values), absolute(began), length)
  }

  turn(values) {
    this.#note("turn", this.#named(values))
  }

  correct(values) {
    this.#note("correct", this.#named(values))
  }

  at() {
    return {}
  }

  take() {
    return this.#waiting.splice(0)
  }
}

/** The replica, and what is told of it. */
class Served {
  #client
  #replica
  #notes
  #isTelling = false

  async begin({ url, token, timeout, engine, webSocketFrom, smooth, ...options }) {
    const WebSocket = webSocketFrom ? (await import(webSocketFrom)).default : globalThis.WebSocket
    this.#client = new Client(url, { token, timeout, WebSocket })
    this.#notes = smooth && new Notes(Object.keys(smooth))
    const replica = new Replica(this.#client, { ...options, engine: await Engine.load(engine), smooth: this.#notes })
    this.#replica = replica
    replica.onchange = () => this.#tellSoon()
    replica.onfinal = row => say({ final: row })
    replica.onrefused = (record, error) => say({ refused: record, error: errorOf(error) })
    replica.onrollback = went => say({ rollback: went })
    replica.onerror = error => say({ failed: errorOf(error) })
    await replica.ready
    say({ names: Object.keys(replica.vars) })
    this.#tell()
  }

  /** Tells how it stands, once for all that changes at one time. */
  #tellSoon() {
    if (this.#isTelling) return
    this.#isTelling = true
    queueMicrotask(() => {
      this.#isTelling = false
      if (this.#replica) this.#tell()
    })
  }

  #tell(isFrame = false) {
    const { vars, confirmed, tick, newest, horizon, records, stats } = this.#replica
    const [values, truth] = [vars, confirmed].map(it => BigInt64Array.from(Object.values(it)))
    const state = { values, truth, tick, newest, horizon, records, stats, notes: this.#notes?.take() ?? [] }
    say({ state, isFrame }, [values.buffer, truth.buffer])
  }

  /** Does something of which is told right behind it. */
  #quietly(body) {
    this.#isTelling = true
    try {
      return body()
    } finally {
      this.#isTelling = false
    }
  }

  frame(time) {
    if (!this.#replica) return say({ state: null, isFrame: true })
    this.#quietly(() => this.#replica.frame(time - performance.timeOrigin))
    this.#tell(true)
  }

  async act(number, words) {
    const { answered, ...record } = this.#quietly(() => this.#replica.act(...words))
    // The state that shows it goes first.
    this.#tell()
    say({ acted: number, value: record })
    say({ number, value: await answered })
  }

  async call(name, words) {
    if (name === "close") return this.#close()
    const value = await this.#replica[name](...words)
    this.#tellSoon()
    return value
  }

  async #close() {
    const replica = this.#replica
    this.#replica = null
    await replica?.close()
    this.#client?.close()
  }
}

const served = new Served()

/** Does what is asked, and says what came of it where that is a call with a number. */
async function hear({ begin, frame, act, call, words, number }) {
  try {
    if (begin) await served.begin(begin)
    else if (frame !== undefined) served.frame(frame)
    else if (act) await served.act(number, words)
    else say({ number, value: await served.call(call, words) })
  } catch (error) {
    say(number === undefined ? { failed: errorOf(error) } : { number, error: errorOf(error) })
  }
}

if (port === globalThis) port.onmessage = event => hear(event.data)
else port.on("message", hear)
