// How a host's program was at any time of its log: its variables and boards, by a slider, for each program. The page keeps the log in an
// engine of its own, so what was so is worked out here: it asks the host for nothing but the log, and sends no record.
import { Board, boardText } from "./boards.js"
import { Engine } from "./engine.js"
import { Replica } from "./replica.js"
import { scrubber } from "./scrubber.js"
import { Client } from "./warpd.js"

/** @type {(id: string) => any} */
const at = id => document.getElementById(id)
// Where the host wants a token it stands behind the address, as #TOKEN, which goes to nobody but the host.
const token = decodeURIComponent(location.hash.slice(1)) || undefined
const board = new Board(at("cells"), at("colours"))
/** @type {Replica} */
let replica
/** @type {import("./scrubber.js").PastState | null} What was so at the time that is chosen, if one is. */
let past = null
/** @type {Record<string, import("./warpd.js").Value>} The values that were shown before. */
let before = {}
let isDrawn = false

/** @type {(path: string) => Promise<Response>} */
async function asked(path) {
  const answer = await fetch(path, { headers: token ? { Authorization: `Bearer ${token}` } : {} })
  if (answer.status === 401) throw new Error("the host wants a token: write it behind the address, as #TOKEN, and load the page again")
  if (!answer.ok) throw new Error(`${new URL(answer.url).pathname}: ${answer.status} ${answer.statusText}`)
  return answer
}

/** Draws soon, once for all that comes until then. */
function touch() {
  if (!isDrawn) requestAnimationFrame(draw)
  isDrawn = true
}

/** @param {import("./scrubber.js").PastState | null} what What was so at a time, or null for now. */
function show(what) {
  past = what
  touch()
}

function draw() {
  isDrawn = false
  const vars = past ? past.vars : replica.vars
  drawVars(vars)
  const array = replica.client.names.arrays.find(it => it.name === at("board").value)
  if (!array) return
  const [cells, sides] = [replica.array(array.name, past && past.time), array.sides.length === 2 ? array.sides : [1, array.count]]
  board.draw({ sides }, cells)
  at("cells").setAttribute("aria-label", boardText({ name: array.name, sides }, cells))
}

/** @param {typeof before} vars */
function drawVars(vars) {
  if (vars === before) return
  const names = Object.keys(vars)
  const rows = at("vars").rows.length === names.length ? [...at("vars").rows] : names.map(name => {
    const row = document.createElement("tr")
    row.append(...[name, ""].map(textContent => Object.assign(document.createElement("td"), { textContent })))
    return row
  })
  if (!rows[0]?.isConnected) at("vars").replaceChildren(...rows)
  names.forEach((name, place) => {
    rows[place].className = before[name] === undefined || before[name] === vars[name] ? "" : "new"
    rows[place].cells[1].textContent = `${vars[name]}`
  })
  before = vars
}

function tell() {
  const { client: { state, names }, records, newest, horizon } = replica
  const size = `${records} record${records === 1 ? "" : "s"}, up to ${newest.time}; all before ${horizon.time} is final.`
  const lost = "The connection is lost: what is shown is what the page has."
  at("state").textContent = replica.error?.message ?? (state === "open" ? size : `${lost} ${size}`)
  at("boards").hidden = !names.arrays.length
}

async function main() {
  const [bytes, program] = [await (await asked("engine.wasm")).arrayBuffer(), await (await asked("../program.json")).text()]
  const client = new Client(new URL("../ws", location.href).href.replace("http", "ws"), { token })
  replica = new Replica(client, { engine: await Engine.load(bytes), program })
  await replica.ready
  at("board").append(...client.names.arrays.map(({ name, sides }) => new Option(`${name}, ${sides.join(" by ")}`, name)))
  replica.onchange = () => past || touch()
  // What comes late changes what was so.
  replica.onrollback = ({ to }) => past && to.time <= past.time && show({ ...past, vars: replica.at(past.time) })
  at("board").addEventListener("change", touch)
  const span = Number(new URLSearchParams(location.search).get("span")) || Infinity
  scrubber(replica, { parent: at("past"), span, show })
  setInterval(tell, 200)
  tell()
  touch()
}

main().catch(error => (at("state").textContent = `This page cannot go on: ${error.message}`))
