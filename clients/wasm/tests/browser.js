// What `.ci/tab` does in a browser: `ask` answers questions as Node does, `play` is a player of pong over a host, and `playApart` one
// whose replica runs in a worker.
import { Engine } from "../../js/engine.js"
import { RemoteReplica } from "../../js/remote.js"
import { Replica } from "../../js/replica.js"
import { Client } from "../../js/warpd.js"
import { Answerer } from "./questions.js"

const sleep = milliseconds => new Promise(resolve => setTimeout(resolve, milliseconds))
const began = performance.now()
const module = await WebAssembly.compile(await (await fetch("/engine.wasm")).arrayBuffer())
const engine = await Engine.load(module)
/** How many milliseconds it took until the engine was there. */
window.started = performance.now() - began
const answerer = new Answerer(module)

window.ask = async questions => {
  const answers = []
  for (const question of questions) answers.push(await answerer.answer(question))
  return answers
}

window.play = async (url, program) => {
  const client = new Client(url)
  const replica = new Replica(client, { engine, program, origin: 1, clock: { input: "clock.tick" } })
  await replica.ready
  const act = replica.act("ann.steer", 1, { time: 3 })
  const atOnce = [replica.vars["ann.goes"], replica.confirmed["ann.goes"]].map(String)
  const taken = await act.answered
  while (!replica.records) await sleep(5)
  const behind = [replica.vars["ann.goes"], replica.confirmed["ann.goes"]].map(String)
  await replica.close()
  client.close()
  return { atOnce, isNew: taken.isNew, behind, rebuilt: replica.stats.rebuilt }
}

/** Acts so often, and counts the frames until each act is shown. */
async function framesOf(replica, acts) {
  const frame = () => new Promise(resolve => requestAnimationFrame(resolve))
  const counts = []
  for (let turn = 0; turn < acts; turn += 1) {
    const way = turn % 2 ? -1n : 1n
    await sleep(30)
    replica.act("ann.steer", way)
    let count = 0
    do {
      await frame()
      replica.frame()
      count += 1
    } while (replica.vars["ann.goes"] !== way)
    counts.push(count)
  }
  return counts
}

window.playApart = async (url, program, acts) => {
  const worker = new Worker(new URL("../../js/worker.js", import.meta.url), { type: "module" })
  const options = { url, engine: module, program, origin: 1, clock: { input: "clock.tick", hertz: 100 }, smooth: { "ann.row": {} } }
  const replica = new RemoteReplica(worker, options)
  await replica.ready
  const other = new Client(url)
  await other.event("clock.tick", { time: 1, value: 1 })
  while (!replica.records) await sleep(5)
  const frames = await framesOf(replica, acts)
  const { answered } = replica.act("ann.steer", 1, { time: 2_000 })
  const { isNew } = await answered
  const rows = [replica.smooth["ann.row"], Number(replica.vars["ann.row"])]
  while (replica.records < acts + 2) await sleep(5)
  const [host, { refused, rebuilt }] = [await other.readVars(), replica.stats]
  const isEqual = Object.entries(replica.confirmed).every(([name, value]) => host.values[name] === value)
  await replica.close()
  worker.terminate()
  other.close()
  return { frames, rows, told: { isNew, refused, rebuilt, isEqual } }
}

document.getElementById("state").textContent = "ready"
