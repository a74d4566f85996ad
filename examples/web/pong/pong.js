// A player's page. The game runs in it: the player's own moves show at once, and those of the other when they have come, by going
// back. The host gives each move its tick, and says up to where all is in. What both pages show in the end is what the host has.

import { Engine } from "./engine.js"
import { overlay } from "./overlay.js"
import { Replica } from "./replica.js"
import { RULES } from "./rules.js"
import { scrubber } from "./scrubber.js"
import { Client } from "./warpd.js"

const WIDTH = 25
const HEIGHT = 7
const CELL = 24
const GHOST = 600
const TURN_EVERY = 20
const ASK_EVERY = 1_000
const NAMES = ["Ann", "Ben"]

const words = new URLSearchParams(location.search)
const player = words.get("player") === "ben" ? "ben" : "ann"
const other = player === "ben" ? "ann" : "ben"
/** @type {typeof RULES[string] | null} */
const rule = RULES[words.get("rule") ?? ""] ?? null
// A ball that is put into the middle jumps; what the other's moves change is taken in over 150 milliseconds.
const smooth = { "ball.x": { over: 150, jump: 2 }, "ball.y": { over: 150, jump: 2 }, [`${player}.row`]: {}, [`${other}.row`]: { over: 150 } }
/** @type {(id: string) => any} */
const at = id => document.getElementById(id)
/** @typedef {import("./replica.js").FinalOutput} Point */
/** @type {{ final: Point[], ghost: { x: number, y: number, until: number } | null, slid: number, past: import("./scrubber.js").PastState | null }} */
const seen = { final: [], ghost: null, slid: -Infinity, past: null }
/** @type {any} What the server of this page tells of the game. */
let game
/** @type {Replica} */
let replica

/** @type {(path: string, text: string) => Promise<any>} */
const post = async (path, text) => (await fetch(path, { method: "POST", body: text })).json()
/** @type {(milliseconds: number) => Promise<unknown>} */
const sleep = milliseconds => new Promise(resolve => setTimeout(resolve, milliseconds))
/** @type {(name: string) => number} */
const number = name => Number(replica.vars[name])
/** @type {(id: string, text: string) => void} */
const put = (id, text) => {
  if (at(id).textContent !== text) at(id).textContent = text
}

/** What the player does. */
class Play {
  constructor() {
    this.ruled = 0
    this.goes = number(`${player}.goes`)
  }

  /**
   * Goes this way from the tick to which the picture goes, or from `time`.
   * @param {number} way
   * @param {{ time?: number }} when
   */
  steer(way, when = {}) {
    if (way === this.goes || (when.time ?? replica.tick?.time ?? 0) > game.ticks) return
    this.goes = way
    replica.act(`${player}.steer`, way, when)
  }

  /** What the time has brought: a rule goes at each tick. */
  turn() {
    const { time } = replica.tick ?? { time: 0 }
    for (; rule && this.ruled < time; this.ruled += 1) {
      const seenNow = { row: number(`${player}.row`), ball: number("ball.y") }
      this.steer(rule(this.ruled + 1, seenNow), { time: this.ruled + 1 })
    }
  }
}

function tell() {
  put("score", `Ann ${number("ball.ann")}, Ben ${number("ball.ben")}`)
  const { time } = replica.horizon
  put("horizon", `${Math.max(0, time - 1)}`)
  if (time > game.ticks) put("state", "The game is over, and all of it is final.")
  put("final", NAMES.map((name, of) => `${name} ${seen.final.filter(it => Number(it.value) === of + 1).length}`).join(", "))
  const open = replica.outputs(seen.final.length)
  const lines = [...seen.final, ...open].map((it, place) => {
    const isFinal = place < seen.final.length
    return { text: `${NAMES[Number(it.value) - 1]} at ${it.time}, ${isFinal ? "final" : "may change"}`, isFinal }
  })
  const told = lines.map(it => it.text).join("\n")
  if (at("points").dataset.told === told) return
  at("points").dataset.told = told
  at("points").replaceChildren(...lines.map(it => Object.assign(document.createElement("li"), {
    textContent: it.text,
    className: it.isFinal ? "done" : "open",
  })))
}

/** @param {import("./replica.js").WentBack} went */
function wentBack({ from, to }) {
  put("back", `${replica.stats.rollbacks} times, the last from tick ${from.time} back to tick ${to.time}`)
  at("back").className = "late"
  seen.ghost = { x: replica.smooth["ball.x"], y: replica.smooth["ball.y"], until: performance.now() + GHOST }
}

/** @param {number} time */
function draw(time) {
  requestAnimationFrame(draw)
  replica.frame(time)
  const vars = seen.past ? seen.past.vars : replica.vars
  const shown = seen.past ? Object.fromEntries(Object.keys(smooth).map(name => [name, Number(vars[name])])) : replica.smooth
  const canvas = at("field")
  canvas.setAttribute("aria-label", `The ball at ${vars["ball.x"]}, ${vars["ball.y"]}; Ann at row ${vars["ann.row"]}, Ben at row ${vars["ben.row"]}`)
  const pen = canvas.getContext("2d")
  const ratio = window.devicePixelRatio || 1
  if (canvas.width !== WIDTH * CELL * ratio) Object.assign(canvas, { width: WIDTH * CELL * ratio, height: HEIGHT * CELL * ratio })
  const style = getComputedStyle(document.documentElement)
  /** @type {(name: string) => string} */
  const colour = name => style.getPropertyValue(`--${name}`)
  pen.setTransform(ratio * CELL, 0, 0, ratio * CELL, 0, 0)
  pen.fillStyle = colour("field")
  pen.fillRect(0, 0, WIDTH, HEIGHT)
  pen.fillStyle = colour("ink")
  for (const [x, row] of [[0.2, shown["ann.row"]], [WIDTH - 0.6, shown["ben.row"]]]) pen.fillRect(x, row - 1, 0.4, 3)
  /** @type {(x: number, y: number) => void} */
  const circle = (x, y) => {
    pen.beginPath()
    pen.arc(x + 0.5, y + 0.5, 0.4, 0, 2 * Math.PI)
  }
  circle(shown["ball.x"], shown["ball.y"])
  pen.fill()
  if (seen.past || !seen.ghost || seen.ghost.until <= performance.now()) return
  pen.strokeStyle = colour("late")
  pen.lineWidth = 0.12
  circle(seen.ghost.x, seen.ghost.y)
  pen.stroke()
}

/** @param {Play} play */
function listen(play) {
  /** @type {Record<string, number>} */
  const keys = { ArrowUp: -1, ArrowDown: 1 }
  addEventListener("keydown", event => {
    if (!(event.key in keys) || event.target instanceof HTMLInputElement) return
    event.preventDefault()
    play.steer(keys[event.key])
  })
  addEventListener("keyup", event => {
    if (keys[event.key] === play.goes) play.steer(0)
  })
  // Who has let go of a slider goes on by the keys.
  addEventListener("pointerup", event => event.target instanceof HTMLInputElement && event.target.blur())
  for (const [id, way] of Object.entries({ up: -1, down: 1 })) {
    at(id).addEventListener("pointerdown", () => play.steer(way))
    for (const over of ["pointerup", "pointerleave", "pointercancel"]) at(id).addEventListener(over, () => play.steer(0))
  }
}

/**
 * Both pages show the one delay that there is. What was told before this page's slider was moved last is passed over. It calls
 * back once the game has begun.
 * @param {() => void} begun
 */
async function followGame(begun) {
  at("delay").addEventListener("input", () => {
    put("told", at("delay").value)
    seen.slid = performance.now()
    post("/delay", at("delay").value).catch(() => {})
  })
  for (;;) {
    const asked = performance.now()
    const { delay, began } = await (await fetch("/game")).json()
    if (began && !game.began) begun()
    game.began = began
    if (seen.slid < asked - ASK_EVERY) {
      at("delay").value = delay
      put("told", `${delay}`)
    }
    await sleep(game.began ? ASK_EVERY : ASK_EVERY / 5)
  }
}

async function main() {
  game = { ...(await (await fetch("/game")).json()), began: false }
  const name = NAMES[player === "ann" ? 0 : 1]
  document.title = `Pong: ${name}`
  put("who", `Pong: you are ${name}, at the ${player === "ann" ? "left" : "right"}`)
  at("delay").max = game.mostDelay
  at("host").href = `http://${game.host}/`
  const [bytes, program] = await Promise.all([(await fetch("engine.wasm")).arrayBuffer(), (await fetch("pong.json")).text()])
  const engine = await Engine.load(bytes)
  put("state", "Waiting for the other player's page.")
  await post("/join", player)
  await new Promise(begun => followGame(() => begun(null)).catch(() => {}))
  const client = new Client(`ws://${game.link}/ws`)
  /** @type {import("./replica.js").ClockOptions} */
  const clock = { input: "clock.tick", value: "tick", hertz: game.hertz, last: game.ticks }
  replica = new Replica(client, { engine, program, origin: player === "ann" ? 1 : 2, clock, smooth })
  replica.onfinal = row => seen.final.push(row)
  replica.onrollback = wentBack
  replica.onerror = error => put("state", error.message)
  await replica.ready
  const play = new Play()
  listen(play)
  requestAnimationFrame(draw)
  if (words.has("stats")) overlay(replica)
  scrubber(replica, { parent: at("past"), show: past => (seen.past = past) })
  put("state", "The game is on.")
  // Where the tab is behind another one, it draws nothing and plays on.
  setInterval(() => {
    if (document.hidden) replica.frame()
    play.turn()
    tell()
  }, TURN_EVERY)
}

main().catch(error => put("state", `This page cannot go on: ${error.message}`))
