// Hosts for tests in Node, each a process of its own: `WARPD=PROGRAM node --test tests/*.test.js`. WebSocket is that of the
// package ws (Debian's node-ws) where this Node has none.

import { spawn } from "node:child_process"
import { mkdtempSync, writeFileSync } from "node:fs"
import { createRequire } from "node:module"
import { createServer } from "node:net"
import { tmpdir } from "node:os"
import { join } from "node:path"

const PROGRAM = process.env.WARPD ?? new URL("../../../crates/warpd/out/warpd", import.meta.url).pathname
const require = createRequire(import.meta.url)
/** @type {typeof globalThis.WebSocket} */
export const WebSocket = globalThis.WebSocket ?? require(process.env.WS ?? "/usr/share/nodejs/ws")
export const SECONDS = 20_000

export async function freePort() {
  const server = createServer()
  await new Promise(resolve => server.listen(0, "127.0.0.1", resolve))
  const { port } = server.address()
  await new Promise(resolve => server.close(resolve))
  return port
}

/**
 * A new file with this text, which its owner alone may read.
 * @param {string} name
 * @param {string} text
 */
export function fileOf(name, text) {
  const file = join(mkdtempSync(join(tmpdir(), "warpd-js-")), name)
  writeFileSync(file, text, { mode: 0o600 })
  return file
}

/** A process `warpd host` at one port. */
export class Host {
  /** @type {import("node:child_process").ChildProcess | null} */
  #process = null

  /**
   * @param {number} port
   * @param {string[]} words
   */
  constructor(port, words = [], program = "builtin:twice") {
    this.port = port
    this.words = words
    this.program = program
  }

  get url() {
    return `ws://127.0.0.1:${this.port}/ws`
  }

  /** Starts it, and waits until it is ready. */
  async start() {
    const started = spawn(PROGRAM, ["host", this.program, "--listen", `127.0.0.1:${this.port}`, ...this.words])
    await new Promise((resolve, reject) => {
      started.stdout.once("data", resolve)
      started.once("error", reject)
      started.once("exit", status => reject(new Error(`the host ended with ${status}`)))
    })
    this.#process = started
  }

  async stop() {
    const process = this.#process
    if (!process) return
    this.#process = null
    const ended = new Promise(resolve => process.once("exit", resolve))
    process.kill("SIGKILL")
    await ended
  }
}
