// A page of Tanks. The game runs in it: its player's tank obeys at once, and what the others do is taken in when it comes.
import { Engine } from "./engine.js"
import { overlay } from "./overlay.js"
import { Replica } from "./replica.js"
import { Client } from "./warpd.js"
const [WIDTH, HEIGHT, CELL, ALL] = [40, 24, 24, [1, 2, 3, 4]]
const named = it => ["", "Coral", "Teal", "Amber", "Violet"][Number(it)]
const COLOURS = ["#1b202a", "#ff6f61", "#2ec4b6", "#ffc145", "#9b86ff"]
const WAYS = ["", "ArrowRight", "ArrowDown", "ArrowLeft", "ArrowUp"]
// So often, in milliseconds, the page says that it is there. Where it could not for so long it leaves: the seat may be another's.
const [KEEP_EVERY, SILENT] = [700, 12_000]
const at = id => document.getElementById(id)
onerror = message => (at("state").textContent = message)
const put = (parent, tag, lines) => at(parent).replaceChildren(...lines.map(it => Object.assign(document.createElement(tag), it)))
const say = async (path, key = "") => (await fetch(path, { method: "POST", body: key })).json()
const game = await (await fetch("game")).json()
const [client, seen] = [new Client(`ws://${game.link}/ws`), { final: [], kept: performance.now(), timer: 0 }]
const { seat, key } = location.search.includes("watch") ? { seat: null, key: "" } : await say("seat")
if (seat) seen.timer = setInterval(() => keep().catch(() => {}), KEEP_EVERY)
const name = (of, what) => `tank[${of - 1}].${what}`
const smooth = Object.fromEntries(ALL.flatMap(of => ["x", "y", "shell_x", "shell_y"].map(it => [name(of, it), { jump: 2 }])))
const [engine, program] = [await Engine.load(await (await fetch("engine.wasm")).arrayBuffer()), await (await fetch("tanks.json")).text()]
const clock = { input: "main.tick", hertz: 1_000 / game.tick, last: game.ticks }
const replica = new Replica(client, { engine, program, origin: seat, clock, smooth })

const value = (of, what) => Number(replica.vars[name(of, what)])
const act = (what, number, when) => seat && replica.tick.time < game.ticks && replica.act(name(seat, what), number, when)
const goes = key => value(seat, "way") === WAYS.indexOf(key)
const press = key => (key === " " ? act("fire", 1) : goes(key) || act("steer", WAYS.indexOf(key)))
const release = key => goes(key) && act("steer", 0)

function drawTank(pen, of) {
  const [x, y, shellX, shellY] = ["x", "y", "shell_x", "shell_y"].map(it => replica.smooth[name(of, it)] + 0.5)
  pen.setTransform(new DOMMatrix().scale(CELL).translate(x, y).rotate(90 * (value(of, "nose") - 1)))
  Object.assign(pen, { fillStyle: COLOURS[of], strokeStyle: of === seat ? "#ffffff" : COLOURS[0], lineWidth: 0.14, lineJoin: "round" })
  for (const box of [[-0.9, -0.9, 1.8, 0.5], [-0.9, 0.4, 1.8, 0.5], [-0.7, -0.6, 1.4, 1.2], [0, -0.17, 1.3, 0.34]]) {
    pen.fillRect(...box)
    pen.strokeRect(...box)
  }
  pen.setTransform(CELL, 0, 0, CELL, shellX * CELL, shellY * CELL)
  pen.fillStyle = "#ffffff"
  if (value(of, "flies")) pen.fillRect(-0.25, -0.25, 0.5, 0.5)
}

function draw(time) {
  requestAnimationFrame(draw)
  replica.frame(time)
  const [pen, dry] = [at("field").getContext("2d"), BigInt(replica.horizon.time)]
  pen.setTransform(CELL, 0, 0, CELL, 0, 0)
  pen.clearRect(0, 0, WIDTH, HEIGHT)
  replica.array("field.board").forEach((cell, place) => {
    const gap = cell >> 3n < dry ? 0 : 0.2
    Object.assign(pen, { fillStyle: COLOURS[Number(cell & 7n)], globalAlpha: gap ? 0.35 : 0.6 })
    if (cell) pen.fillRect((place % WIDTH) + gap, Math.floor(place / WIDTH) + gap, 1 - 2 * gap, 1 - 2 * gap)
  })
  pen.globalAlpha = 1
  for (const of of ALL) if (value(of, "here")) drawTank(pen, of)
}

function tell() {
  const [painted, hits] = ["painted", "hits"].map(it => replica.array(`field.${it}`))
  put("players", "div", ALL.map(of => ({ className: value(of, "here") ? "" : "away", style: `border-color: ${COLOURS[of]}`,
    textContent: `${named(of)}${of === seat ? ", you" : ""}\n${painted[of]} fields, ${hits[of]} hits` })))
  const happened = ({ output, value: it }) => (output === "field.won" ? `${named(it)} wins the round` : `${named(it >> 3n)} hits ${named(it & 7n)}`)
  const rows = [...seen.final, ...replica.outputs(seen.final.length)].map((row, place) => ({ className: place < seen.final.length ? "" : "open",
    textContent: `${happened(row)} at ${row.time}, ${place < seen.final.length ? "final" : "may change"}` }))
  put("events", "li", rows.slice(-4))
  const isOver = replica.horizon.time > game.ticks
  at("state").textContent = isOver ? "The game is over, and all of it is final." : `${replica.vars["field.left"]} ticks are left of this round.`
}

async function keep() {
  const [asked, { time = 0 }] = [performance.now(), globalThis.replica?.tick ?? {}]
  const isHere = asked - seen.kept < SILENT && (await say("keep", key)).seat === seat
  if (!isHere) return (at("who").textContent = "This page could not say that it is there: load it again to play on."), client.close(), clearInterval(seen.timer)
  seen.kept = asked
  if (time) await globalThis.replica.announce({ time: time === game.ticks ? time + 1 : time })
}

at("who").textContent = seat ? `Tanks: you are ${named(seat)}` : "Tanks: you look on"
at("host").href = `http://${game.host}/`
replica.onfinal = row => seen.final.push(row)
Object.assign(globalThis, { replica: await replica.ready })
if (location.search.includes("stats")) overlay(replica)
requestAnimationFrame(draw)
setInterval(tell, 200)
if (seat) {
  act("join", 1, { time: replica.tick.time + 3 })
  onkeydown = event => [" ", ...WAYS].includes(event.key) && (event.preventDefault(), press(event.key))
  onkeyup = event => release(event.key)
  for (const it of document.querySelectorAll("button")) Object.assign(it, { onpointerdown: () => press(it.name), onpointerup: () => release(it.name) })
  onpagehide = () => navigator.sendBeacon("leave", key) && client.close()
}
