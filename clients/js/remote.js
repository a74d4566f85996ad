// A replica in a worker, with the calls of `replica.js`: what a long going back costs holds up no picture. For browsers and for Node.
//
//     import { RemoteReplica } from "./remote.js"
//
//     const worker = new Worker(new URL("./worker.js", import.meta.url), { type: "module" })
//     const replica = new RemoteReplica(worker, { url, engine, program, origin: 1, clock: { input: "clock.tick" } })
//     await replica.ready
//
// What is told at once there is told here as the worker told it last, which is after each change and each frame; what a call gives
// there comes here as a promise.

import { NoMemory, NoWebAssembly, ProgramRefused } from "./engine.js"
import { OtherProgram } from "./replica.js"
import { Smooth } from "./smooth.js"
import { Ended, Refused } from "./warpd.js"

const KINDS = { Ended, NoMemory, NoWebAssembly, OtherProgram, ProgramRefused, RangeError, Refused, TypeError }

/** An error of the worker, of its kind. */
function errorOf({ name, message, ...fields }) {
  const error = Object.assign(new Error(message), fields, { name })
  return Object.setPrototypeOf(error, KINDS[name]?.prototype ?? Error.prototype)
}

export class RemoteReplica {
  #worker
  #smooth
  #isFraming = false
  #names = []
  #calls = new Map()
  #acts = new Map()
  #count = 0
  /** The last tick that a call of `frame` told, and when that was: its picture shows what is corrected then. */
  #told = 0
  #framed = performance.now()
  #state = { values: [], truth: [], tick: null, newest: { time: 0, micro: 0 }, horizon: { time: 0, micro: 0 }, records: 0 }
  #isReady
  #isNotReady

  onfinal = null
  onrefused = null
  onchange = null
  onrollback = null
  onerror = null
  error = null
  smooth = {}
  stats = { rollbacks: 0, depth: 0, deepest: 0, again: 0, rebuilt: 0, records: 0, refused: 0, answered: null, roundTrip: null }

  /**
   * @param worker a worker of `worker.js`
   * @param options as those of a `Replica`, but for `now`; and in the place of a client `url`, `token` and `timeout`, and as `engine`
   *   its bytes, or the module that was compiled from them. In Node 20, which has no WebSocket, `webSocketFrom`: the file of a module that has it.
   */
  constructor(worker, options) {
    this.#worker = worker
    this.#smooth = options.smooth ? new Smooth(options.smooth) : null
    this.origin = options.origin ?? null
    /** Resolved as that of a `Replica` is, or rejected. */
    this.ready = new Promise((resolve, reject) => {
      this.#isReady = resolve
      this.#isNotReady = reject
    })
    this.ready.catch(() => {})
    const broken = error => this.#fail(error instanceof Error ? error : new Error(error.message ?? "the worker does not run"))
    if (worker.on) worker.on("message", it => this.#hear(it)).on("error", broken)
    else Object.assign(worker, { onmessage: event => this.#hear(event.data), onerror: broken })
    worker.postMessage({ begin: options })
  }

  #hear(message) {
    if (message.names) {
      this.#names = message.names
      this.#isReady(this)
    } else if (message.state !== undefined) this.#take(message)
    else if (message.final) this.onfinal?.(message.final)
    else if (message.rollback) this.onrollback?.(message.rollback)
    else if (message.refused) this.onrefused?.(message.refused, errorOf(message.error))
    else if (message.failed) this.#fail(errorOf(message.failed))
    else this.#answered(message)
  }

  #take({ state, isFrame }) {
    if (isFrame) this.#isFraming = false
    if (!state) return
    this.#state = state
    Object.assign(this.stats, state.stats)
    for (const [name, values, began, length] of state.notes) {
      if (name === "tick") this.#smooth.tick(values, began - performance.timeOrigin, length)
      else if (name === "turn") this.#smooth.turn(values)
      else this.#smooth.correct(values, this.#framed)
    }
    this.onchange?.()
  }

  #answered({ acted, number, value, error }) {
    const calls = acted === undefined ? this.#calls : this.#acts
    const call = calls.get(acted ?? number)
    calls.delete(acted ?? number)
    if (!error) return call?.resolve(value)
    call?.reject(errorOf(error))
    // An act that could be no event has no record either.
    this.#acts.get(number)?.reject(errorOf(error))
    this.#acts.delete(number)
  }

  #fail(error) {
    if (this.error) return
    this.error = error
    this.#isNotReady(error)
    for (const calls of [this.#calls, this.#acts]) {
      for (const call of calls.values()) call.reject(error)
      calls.clear()
    }
    this.onerror?.(error)
  }

  /** A promise of what comes for this number. */
  #promised(calls, number) {
    const promise = new Promise((resolve, reject) => calls.set(number, { resolve, reject }))
    promise.catch(() => {})
    return promise
  }

  /** What a call of the replica in the worker gives. */
  #call(name, ...words) {
    this.#count += 1
    const answer = this.#promised(this.#calls, this.#count)
    this.#worker.postMessage({ call: name, words, number: this.#count })
    return answer
  }

  /** As that of a `Replica`; what that gives at once is `record` here, a promise. */
  act(input, value, when) {
    this.#count += 1
    const number = this.#count
    const [record, answered] = [this.#promised(this.#acts, number), this.#promised(this.#calls, number)]
    this.#worker.postMessage({ act: true, words: [input, value, when], number })
    return { record, answered }
  }

  /** Has the worker execute the ticks that are due, and gives how many there are since it was last called. */
  frame(now = performance.now()) {
    if (!this.#isFraming && !this.error) {
      this.#isFraming = true
      this.#worker.postMessage({ frame: performance.timeOrigin + now })
    }
    this.#framed = now
    if (this.#smooth) this.smooth = this.#smooth.at(now)
    const time = this.#state.tick?.time ?? 0
    const passed = Math.max(0, time - this.#told)
    this.#told = time
    return passed
  }

  #named(values) {
    return Object.fromEntries(Array.from(values, (it, at) => [this.#names[at], it]))
  }

  get tick() {
    return this.#state.tick
  }

  get newest() {
    return this.#state.newest
  }

  get vars() {
    return this.#named(this.#state.values)
  }

  get confirmed() {
    return this.#named(this.#state.truth)
  }

  get horizon() {
    return this.#state.horizon
  }

  get records() {
    return this.#state.records
  }

  outputs(first) {
    return this.#call("outputs", first)
  }

  array(name, time) {
    return this.#call("array", name, time)
  }

  at(time) {
    return this.#call("at", time)
  }

  announce(tag) {
    return this.#call("announce", tag)
  }

  ping() {
    return this.#call("ping")
  }

  /** Follows the host no more, and closes the connection. The worker stays: end it by `terminate()`. */
  close() {
    return this.#call("close")
  }
}
