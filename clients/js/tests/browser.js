// Tries the client in a browser, over hosts that whoever serves this page starts and stops: POST /start with the lines of
// a file of tokens, or none, gives a port; POST /start/PORT and /stop/PORT start and stop it again. `results` has each case's
// name, and its fault or null, when all have run.

import { Client } from "../warpd.js"
import { CASES } from "./cases.js"

const SECONDS = 20_000

/** @param {unknown} value */
const plain = value => JSON.stringify(value, (_, it) => (typeof it === "bigint" ? `${it}n` : it))

/**
 * @param {boolean} isRight
 * @param {string} what
 */
function holds(isRight, what) {
  if (!isRight) throw new Error(what)
}

/**
 * As much of Node's strict `assert` as the cases use.
 * @type {Assert}
 */
const assert = {
  equal: (got, wanted) => holds(Object.is(got, wanted), `wanted ${plain(wanted)}, got ${plain(got)}`),
  deepEqual: (got, wanted) => holds(plain(sorted(got)) === plain(sorted(wanted)), `wanted ${plain(wanted)}, got ${plain(got)}`),
  match: (text, pattern) => holds(pattern.test(text), `${text} is not as ${pattern}`),
  async rejects(promise, wanted) {
    const [isRejected, error] = await promise.then(() => [false], it => [true, it])
    holds(isRejected, "it was not rejected")
    if (!wanted) return
    const isWanted = /** @type {any} */ (wanted)
    holds(wanted.prototype instanceof Error ? error instanceof isWanted : isWanted(error), `rejected with ${error}`)
  },
}

/**
 * The same value with the keys of its objects in order.
 * @param {any} value
 * @returns {any}
 */
function sorted(value) {
  if (Array.isArray(value)) return value.map(sorted)
  if (value === null || typeof value !== "object") return value
  return Object.fromEntries(Object.keys(value).sort().map(key => [key, sorted(value[key])]))
}

/** @param {string} path */
async function post(path, body = "") {
  const answer = await fetch(path, { method: "POST", body })
  holds(answer.ok, `${path}: ${answer.status}`)
  return answer.text()
}

/** @param {Case} tried */
async function run({ body, tokens, options }) {
  const port = await post("/start", tokens)
  const host = { start: () => post(`/start/${port}`), stop: () => post(`/stop/${port}`) }
  /** @param {import("../warpd.js").ClientOptions} [more] */
  const connect = more => new Client(`ws://127.0.0.1:${port}/ws`, more)
  const client = connect(options)
  try {
    await client.ready
    await body({ assert, client, connect, host })
  } finally {
    client.close()
    await host.stop()
  }
}

const late = () => new Promise((_, reject) => setTimeout(() => reject(new Error("it took too long")), SECONDS))

/** @type {Window["results"]} */
const results = []
for (const it of CASES) {
  const fault = await Promise.race([run(it), late()]).then(() => null, error => `${error.stack ?? error}`)
  results.push([it.name, fault])
}
window.results = results
