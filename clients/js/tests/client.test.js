// Tries the client over real hosts, which are started, stopped and started again.

import assert from "node:assert/strict"
import { test } from "node:test"
import { Client } from "../warpd.js"
import { CASES } from "./cases.js"
import { Host, SECONDS, WebSocket, fileOf, freePort } from "./hosting.js"

for (const { name, body, tokens, options } of CASES) {
  test(name, { timeout: SECONDS }, async () => {
    const host = new Host(await freePort(), tokens ? ["--tokens", fileOf("tokens", tokens)] : [])
    await host.start()
    /** @param {import("../warpd.js").ClientOptions} [more] */
    const connect = more => new Client(host.url, { WebSocket, ...more })
    const client = connect(options)
    try {
      await client.ready
      await body({ assert, client, connect, host })
    } finally {
      client.close()
      await host.stop()
    }
  })
}
