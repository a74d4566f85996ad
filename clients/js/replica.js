// A replica of a host's program in this process: what one's own player does shows at once, what comes late from others is
// taken in by going back, and what is final is told as that. For browsers and for Node, over `warpd.js` and `engine.js`.
//
//     import { Client } from "./warpd.js"
//     import { Engine } from "./engine.js"
//     import { Replica } from "./replica.js"
//
//     const engine = await Engine.load(await (await fetch("engine.wasm")).arrayBuffer())
//     const program = await (await fetch("pong.json")).text()
//     const replica = new Replica(new Client("ws://127.0.0.1:7070/ws"), { engine, program, origin: 1, clock: { input: "clock.tick" } })
//     await replica.ready
//     onkeydown = () => replica.act("ann.steer", 1)
//     requestAnimationFrame(function frame() { replica.frame(); draw(replica.vars); requestAnimationFrame(frame) })
//
// It keeps two engines. The replica of the first has the host's log and no other record: from it comes what is final. That of
// the second has beside these one's own events that the host has not answered yet, and the ticks of the clock that are due and
// have not come yet: from it comes what is shown. Where the host refuses one of these, or the clock passes over one, the second
// engine is made a copy of the first anew.
//
// Where the host keeps one's own origin (`warpd host --clock`), events go by `send`: each shows here at once, at the tick that is shown,
// and where the host gives it another tag it goes there. The host announces then, and nobody else.

import { NoMemory } from "./engine.js"
import { Executed, placeOf, tagOf } from "./executed.js"
import { Past } from "./past.js"
import { Smooth } from "./smooth.js"
import { Announcer, Ended, GoingOver, Refused, replyOf } from "./warpd.js"

// The quickest of so many late ticks tells when the host's clock began.
const SAMPLES = 300
// A host that does not know a word refuses it so.
const SYNTAX = 1
// The log that the host has at the beginning is looked for so often, in milliseconds.
const LOOK_EVERY = 5
// Lines are handed to the engine so many bytes at a time, or a line more.
const PIECE = 60_000
// What is not needed before the horizon is let go of each so many records.
const COLLECT_EVERY = 1_000

const lineOf = ({ kind, origin, time, micro, input, value, events, withdrawn }) => {
  const behind = { event: ` ${input} ${value}`, withdraw: "", announce: ` ${events} ${withdrawn}` }[kind]
  return `${kind} ${origin ?? "*"} ${time} ${micro}${behind}`
}

const isExecuted = ({ kind }) => kind !== "announce"

/** The first tag of those records that were taken, as their replies tell, and are executed; Infinity where there is none. */
function firstTaken(records, replies) {
  const places = records.map((record, at) => (isExecuted(record) && replies[at].startsWith("taken") ? placeOf(record) : Infinity))
  return places.reduce((one, other) => Math.min(one, other), Infinity)
}

/** The program that was handed in is not the one that the host has, whose fingerprint is `host`. */
export class OtherProgram extends Error {
  constructor(host) {
    super(`the host has another program, ${host}`)
    this.name = "OtherProgram"
    this.host = host
  }
}

/** The ticks of a clock that another origin sends: which are due here, and which were executed before they came. */
class Clock {
  #samples = []
  #origin
  #input
  #value
  #began = new GoingOver()
  #isReckoned = false

  constructor({ input, value = 1, hertz = 60, ahead = hertz, lead = 0, last = Infinity }, names, now, isSmooth) {
    this.#input = names.input(input)
    this.#origin = names.owner(this.#input)
    this.#value = value
    this.hertz = hertz
    this.ahead = ahead
    // A picture between two ticks wants the later one before it is due.
    this.lead = lead + isSmooth
    this.last = last
    this.now = now
    this.isSmooth = isSmooth
    /** The last tick that was executed here, and the last that came. */
    this.ticked = 0
    this.confirmed = 0
    /** When the host's tick 0 was, in this process's time, by the quickest of late ticks. */
    this.quickest = Infinity
    /** The ticks that were executed and have not come, in rising order. */
    this.expected = []
  }

  /** When the host's tick 0 was, as is reckoned with. */
  get offset() {
    return this.#began.value
  }

  #valueAt(time) {
    return this.#value === "tick" ? time : this.#value
  }

  line(time) {
    return `event ${this.#origin} ${time} 0 ${this.#input} ${this.#valueAt(time)}`
  }

  /** Takes a record of the log; the first tick that was executed here and is passed over by it, or is another; else Infinity. */
  heard({ kind, origin, time, micro, input, value }) {
    if (kind !== "event" || origin !== this.#origin || input !== this.#input) return Infinity
    this.#samples.push(this.now() - (time * 1_000) / this.hertz)
    if (this.#samples.length > SAMPLES) this.#samples.shift()
    this.quickest = Math.min(...this.#samples)
    // Before the first picture nothing is reckoned with.
    if (!this.#isReckoned) this.#began = new GoingOver(this.quickest)
    this.confirmed = Math.max(this.confirmed, time)
    this.ticked = Math.max(this.ticked, time)
    const [first = Infinity] = this.expected
    const isOther = first === time && (micro !== 0 || BigInt(value) !== BigInt(this.#valueAt(time)))
    if (first === time) this.expected.shift()
    if (first < time) this.expected = this.expected.filter(it => it > time)
    return first < time || isOther ? first : Infinity
  }

  /** How many ticks are due that were not executed, at most `ahead` past the last that came. */
  due(now) {
    if (!Number.isFinite(this.quickest)) return 0
    this.#isReckoned = true
    this.#began.toward(this.quickest, now)
    const due = Math.floor(((now - this.offset) * this.hertz) / 1_000) + this.lead
    return Math.max(0, Math.min(due, this.confirmed + this.ahead, this.last) - this.ticked)
  }

  /** When a tick is due. */
  dueAt(tick) {
    return this.offset + ((tick - this.lead) * 1_000) / this.hertz
  }

  /** The lines of so many ticks behind the last one, which are executed now. */
  next(count) {
    return Array.from({ length: count }, () => {
      this.ticked += 1
      this.expected.push(this.ticked)
      return this.line(this.ticked)
    })
  }

  /** The tick at which one acts: the next one, or the one to which a picture goes over. */
  get acting() {
    return this.isSmooth && this.ticked ? this.ticked : this.ticked + 1
  }
}

export class Replica {
  #engine
  #copy
  #program
  #truth
  #shown
  #names
  /** How many records of the host's log were taken, and the last one's line; how many before what is final was let go of; what came and was not taken yet. */
  #count = 0
  #last = ""
  #collected = 0
  #arrived = []
  #watch = null
  #announcer = null
  /** Whether the host keeps one's own origin, so that it gives each event its tag. */
  #isKept = false
  #clockOptions
  #clock = null
  #isWaiting = false
  /** One's own events that the host has not answered, by their line; and the tags that were used, by their place. */
  #own = new Map()
  #used = new Set()
  /** The tags that the host's log has. */
  #executed = new Executed()
  #isReady = false
  #isClosed = false
  #finals = 0
  /** The variables as they are shown, as the engine tells them and by name; and as they were at a time. */
  #cells = null
  #values = null
  #past = null
  /** The numbers that glide, the tick that they were told last, and the time of the last picture, which shows what is corrected. */
  #smooth = null
  #told = null
  #framed = null

  /** Called with each output that is final, in order: `{ index, time, micro, output, value }`. */
  onfinal = null
  /** Called where the host refuses one's own event: with its record, and why. It is taken back. */
  onrefused = null
  /** Called when something has changed that is shown. */
  onchange = null
  /** Called when what is shown goes back: `{ from, to, again }`, from the last tag that was executed to the first that is executed
   * anew, and how many tags of records lie between. */
  onrollback = null
  /** Why it follows the host no more, as want of memory; `onerror` is called with it. */
  error = null
  onerror = null
  /** The numbers that were named as `smooth`, by name, as the last `frame()` has them for its picture. */
  smooth = {}
  /**
   * `rollbacks`: how often what is shown went back once it was `ready`; of tags of records `depth`: how many the last one executed
   * again, `deepest`: the most, `again`: all; `rebuilt`: how often what is shown was made anew; `records`: how many came;
   * `refused`: how many own events were; `answered`: how many milliseconds the last one that was taken took to be answered, and
   * `roundTrip`: how many the last `ping()`.
   */
  stats = { rollbacks: 0, depth: 0, deepest: 0, again: 0, rebuilt: 0, records: 0, refused: 0, answered: null, roundTrip: null }

  /**
   * @param client a `Client` of a host of the program
   * @param options `engine`: an `Engine`, of whose module two more are made; `program`: the text of the program's file; `origin`:
   *   whose events are sent, where any are; `clock`: the input that another origin ticks, as `{ input, value, hertz, ahead,
   *   lead, last }`, where there is one, with the value "tick" where the host ticks; `smooth`: the variables that are shown evenly, as `{ "ball.x": { over, jump } }`, where any
   *   are
   */
  constructor(client, { engine, program, origin = null, clock = null, smooth = null, now = () => performance.now() }) {
    this.client = client
    this.origin = origin
    this.now = now
    this.#engine = engine.another()
    this.#copy = engine.another()
    this.#program = program
    this.#truth = this.#engine.open(program)
    this.#fork()
    /** Resolved once it has the log that the host had when it was asked; rejected with `OtherProgram` where that has another program. */
    this.#clockOptions = clock
    if (smooth) this.#smooth = typeof smooth.tick === "function" ? smooth : new Smooth(smooth)
    this.ready = this.#begin()
    this.ready.catch(() => {})
  }

  async #begin() {
    await this.client.ready
    const { fingerprint } = await this.client.program()
    if (fingerprint !== this.#engine.fingerprint(this.#program)) throw new OtherProgram(fingerprint)
    this.#names = this.client.names
    for (const name of this.#smooth?.names ?? []) this.#names.var(name)
    this.#setClock()
    this.#isKept = this.origin !== null && (await this.#keeps())
    if (this.origin !== null && !this.#isKept) this.#announcer = new Announcer(this.client, this.origin)
    // A connection that is lost meanwhile is made again, too.
    this.client.onReopened(() => this.#reopened().catch(error => error instanceof Ended || this.#fail(error)))
    this.#follow(1)
    await this.#watch.started
    await this.#came((await this.client.horizon()).log)
    this.#take()
    if (this.#smooth) this.#glide(false)
    this.#isReady = true
    if (this.#announcer) await this.#announcer.began
    return this
  }

  /** Whether the host keeps one's own origin. */
  async #keeps() {
    try {
      return (await this.client.keeps()).includes(this.origin)
    } catch (error) {
      if (error instanceof Refused && error.number === SYNTAX) return false
      throw error
    }
  }

  /** Waits until so many records came; where none comes for as long as the client waits for an answer, it is an `Ended`. */
  async #came(log) {
    for (let before = 0, waited = 0; ; waited += LOOK_EVERY) {
      const count = this.#count + this.#arrived.length
      if (count >= log) return
      if (this.error ?? this.client.error) throw this.error ?? this.client.error
      if (count !== before || this.client.state !== "open") waited = 0
      if (waited > this.client.timeout) throw new Ended(`the host has ${log} records, and tells ${count}`)
      before = count
      await new Promise(resolve => setTimeout(resolve, LOOK_EVERY))
    }
  }

  #setClock() {
    this.#clock = this.#clockOptions && new Clock(this.#clockOptions, this.#names, this.now, this.#smooth !== null)
  }

  #follow(from) {
    this.#watch = this.client.watch("log", ({ record }) => this.#heard(record), { from })
  }

  /** Over another connection the watch goes on where it was; but a host that began anew has another log. */
  async #reopened() {
    this.#take()
    const [place, last] = [this.#count, this.#last]
    if (!place) return
    const entry = await this.client.log(place)
    if (entry && lineOf(entry.record) === last) return
    this.#count = this.#collected = 0
    this.#past = null
    this.#arrived = []
    this.#executed = new Executed()
    this.#setClock()
    this.#truth.drop()
    this.#truth = this.#engine.open(this.#program)
    this.#rebuild()
    this.#follow(1)
  }

  /** What comes in one message is handed to the engine together. */
  #heard(record) {
    this.#arrived.push(record)
    if (this.#isWaiting) return
    this.#isWaiting = true
    queueMicrotask(() => this.#take())
  }

  /** Follows the host no more: what it has lacks records that it could not take in. */
  #fail(error) {
    if (this.error) return
    this.error = error
    this.#watch.stop().catch(() => {})
    this.onerror?.(error)
  }

  #take() {
    this.#isWaiting = false
    if (!this.#arrived.length || this.error || this.#isClosed) return
    this.#tried(() => {
      this.#enter(this.#arrived.splice(0))
      this.#changed()
      this.#tellFinals()
    })
  }

  /** Whether this could be done: where memory ends it follows the host no more. */
  #tried(body) {
    try {
      body()
      return true
    } catch (error) {
      if (!(error instanceof NoMemory)) throw error
      this.#fail(error)
      return false
    }
  }

  /** Enters records of the host's log. */
  #enter(records) {
    const lines = records.map(lineOf)
    const newest = this.#newest
    let passed = Infinity
    records.forEach((record, at) => {
      if (this.#clock) passed = Math.min(passed, this.#clock.heard(record))
      if (record.origin !== this.origin || record.kind !== "event") return
      this.#used.add(placeOf(record))
      this.#own.delete(lines[at])
    })
    this.stats.records += lines.length
    this.#give(this.#truth, lines)
    this.#count += lines.length
    this.#last = lines.at(-1)
    const late = firstTaken(records, this.#give(this.#shown, lines))
    this.#executed.add(records.filter(isExecuted).map(placeOf))
    this.#collect()
    if (passed < Infinity) this.#rebuild(Math.min(late, placeOf({ time: passed, micro: 0 })), newest)
    else this.#tellRollback(late, newest)
  }

  /** Lets go of what is not needed before the horizon, which changes no answer. */
  #collect() {
    if (this.#count < this.#collected + COLLECT_EVERY) return
    this.#collected = this.#count
    for (const tab of [this.#truth, this.#shown]) this.#give(tab, ["collect"])
  }

  /** The replies to lines. */
  #give(tab, lines) {
    const replies = []
    let text = ""
    const ask = () => {
      for (const reply of tab.answer(text).split("\n")) if (reply) replies.push(reply)
      text = ""
    }
    for (const line of lines) {
      text += `${line}\n`
      if (text.length >= PIECE) ask()
    }
    if (text) ask()
    return replies
  }

  /** The tags at which something is executed that the host's log has not: one's own events, and the ticks that are expected. */
  get #waiting() {
    const ticks = this.#clock?.expected ?? []
    return [...this.#own.values(), ...ticks.map(time => ({ time, micro: 0 }))].map(placeOf)
  }

  /** The last tag that is shown. */
  get #newest() {
    return this.#waiting.reduce((one, other) => Math.max(one, other), this.#executed.last)
  }

  /** Tells that what is shown went back from one tag to another, where it did. */
  #tellRollback(to, from) {
    if (!this.#isReady || to > from) return
    const waiting = this.#waiting.filter(it => it >= to && !this.#executed.has(it))
    const depth = this.#executed.from(to) + new Set(waiting).size
    const { stats } = this
    Object.assign(stats, { rollbacks: stats.rollbacks + 1, depth, deepest: Math.max(stats.deepest, depth), again: stats.again + depth })
    this.onrollback?.({ from: tagOf(from), to: tagOf(to), again: depth })
  }

  /** What is shown, as the host's log alone has it. */
  #fork() {
    this.#copy.copy(this.#engine)
    this.#shown = this.#truth.within(this.#copy)
  }

  /**
   * What is shown, anew: the host's log, one's own events that wait, and the ticks that are expected. So it goes back from one tag
   * to another, where that is said.
   */
  #rebuild(to = Infinity, from = this.#newest) {
    this.stats.rebuilt += 1
    this.#fork()
    const ticks = (this.#clock?.expected ?? []).map(it => this.#clock.line(it))
    this.#give(this.#shown, [...this.#own.keys(), ...ticks])
    this.#tellRollback(to, from)
    this.#changed()
  }

  #changed(isOwn = false) {
    this.#cells = null
    this.#values = null
    if (this.#smooth) this.#glide(isOwn)
    this.onchange?.()
  }

  /** Tells the numbers that glide what is shown now: behind a tick, by one's own event, or as it is corrected. */
  #glide(isOwn) {
    const values = this.#shownVars
    const tick = this.#clock?.ticked || null
    if (tick !== null && tick !== this.#told) this.#smooth.tick(values, this.#clock.dueAt(tick), 1_000 / this.#clock.hertz)
    else if (isOwn) this.#smooth.turn(values)
    else this.#smooth.correct(values, this.#framed ?? this.now())
    this.#told = tick
  }

  #tellFinals() {
    for (const row of this.#truth.released(this.#finals)) {
      this.#finals += 1
      this.onfinal?.({ ...row, output: this.#names.outputs[row.output] ?? row.output })
    }
  }

  /** What sends for one's own origin. */
  get #sender() {
    if (!this.#announcer) throw new TypeError("who acts or announces says whose events these are, as { origin }, and waits until it is ready")
    return this.#announcer
  }

  /** The first tag at or behind this time that no event of one's own has. */
  #freeTag(time) {
    let place = placeOf({ time, micro: 0 })
    while (this.#used.has(place)) place += 1
    return tagOf(place)
  }

  /**
   * One's own event, here at once and to the host: at the next tick of the clock, or at `time`. Where numbers glide, that is the
   * tick to which they go. Where its tag has an event of one's own already, it takes the next free microstep. It gives its record;
   * `answered` of it is resolved with what the host answered, or with null where that refused it. A host that keeps the origin may give
   * it another tag: then it shows there.
   */
  act(input, value, { time } = {}) {
    const sender = this.#isKept ? null : this.#sender
    const at = time ?? this.#clock?.acting
    if (at === undefined) throw new TypeError("there is no clock: say when, as { time }")
    const record = { kind: "event", origin: this.origin, ...this.#freeTag(at), input: this.#names.input(input), value: BigInt(value) }
    const line = lineOf(record)
    this.#used.add(placeOf(record))
    this.#own.set(line, record)
    const isShown = this.#tried(() => {
      this.#give(this.#shown, [line])
      this.#changed(true)
    })
    if (!isShown) throw this.error
    return { ...record, answered: this.#send(sender, line, record) }
  }

  async #send(sender, line, record) {
    const began = this.now()
    try {
      // It waits until the host's log brings it, which may be later.
      const taken = await (sender ? sender.event(record.input, record) : this.#sendKept(line, record))
      this.stats.answered = this.now() - began
      return taken
    } catch (error) {
      const newest = this.#newest
      this.#own.delete(line)
      if (error instanceof Refused || error instanceof RangeError) this.stats.refused += 1
      this.#used.delete(placeOf(record))
      this.#tried(() => this.#rebuild(placeOf(record), newest))
      this.onrefused?.(record, error)
      return null
    }
  }

  /** Has the host give an event its tag, and shows it there. */
  async #sendKept(line, record) {
    const { place, time, micro } = await this.client.send(record.input, record.value, record.time)
    if (time !== record.time || micro !== record.micro) {
      this.#tried(() => this.#move(line, record, { ...record, time, micro }, place))
    }
    return { place, isNew: true }
  }

  /** What one did at a tag was at another one, and stands at this place of the host's log, which may not have come yet. */
  #move(line, record, moved, place) {
    const newest = this.#newest
    this.#own.delete(line)
    this.#used.delete(placeOf(record))
    this.#used.add(placeOf(moved))
    if (place > this.#count + this.#arrived.length) this.#own.set(lineOf(moved), moved)
    this.#rebuild(Math.min(placeOf(record), placeOf(moved)), newest)
  }

  /**
   * Announces that no event of one's own comes any more before this tag; where none is given, before the tick at which one acts. A host
   * that keeps the origin announces by itself.
   */
  async announce({ time = this.#clock?.acting ?? 1, micro = 0 } = {}) {
    if (this.#isKept) throw new TypeError(`the host keeps origin ${this.origin}, and announces for it`)
    return this.#sender.announce({ time, micro })
  }

  /**
   * Executes the ticks that are due, and gives how many: to be called before each picture, with its time where that is known, which
   * is that of `performance.now()`.
   */
  frame(now = this.now()) {
    this.#take()
    const due = this.error || this.#isClosed ? 0 : this.#clock?.due(now) ?? 0
    const isDone = due > 0 && this.#tried(() => this.#tick(due))
    this.#framed = now
    if (this.#smooth) this.smooth = this.#smooth.at(now)
    return isDone ? due : 0
  }

  /** Executes so many ticks. */
  #tick(due) {
    // What glides goes from the last tick but one to the last.
    for (const count of this.#smooth && due > 1 ? [due - 1, 1] : [due]) {
      this.#give(this.#shown, this.#clock.next(count))
      this.#changed()
    }
  }

  /** Asks the host for little, and gives how many milliseconds it took to be answered. */
  async ping() {
    const began = this.now()
    await this.client.horizon()
    this.stats.roundTrip = this.now() - began
    return this.stats.roundTrip
  }

  /** The last tick of the clock that is shown, and how far it is past the last that came; null where there is no clock. */
  get tick() {
    return this.#clock && { time: this.#clock.ticked, ahead: this.#clock.ticked - this.#clock.confirmed }
  }

  /** The last tag that is shown; time 0 where nothing is executed yet. */
  get newest() {
    this.#take()
    return tagOf(Math.max(0, this.#newest))
  }

  /** The variables by name, as they are shown: BigInt. */
  get vars() {
    this.#take()
    return this.#shownVars
  }

  get #shownVars() {
    this.#values ??= this.#named(this.#shownCells)
    return this.#values
  }

  get #shownCells() {
    this.#cells ??= this.#shown.vars()
    return this.#cells
  }

  /** The outputs of what is shown, from this number on, each `{ index, time, micro, output, value }`: what is not final may change. */
  outputs(first = 0) {
    this.#take()
    const [said] = this.#give(this.#shown, ["outputs"])
    const count = Math.max(0, replyOf(said, "outputs").count - first)
    const lines = Array.from({ length: count }, (_, at) => `output ${first + at}`)
    return this.#give(this.#shown, lines).map((it, at) => {
      const { time, micro, output, value } = replyOf(it, lines[at])
      return { index: first + at, time, micro, output: this.#names.outputs[output] ?? output, value }
    })
  }

  /** The cells of an array by its name, as they are shown; or as they were behind all that has this time, as `at(time)` tells the variables. */
  array(name, time = null) {
    this.#take()
    const { first, count } = this.#names.array(name)
    return (time === null ? this.#shownCells : this.#cellsAt(time)).slice(first, first + count)
  }

  /** The variables by name over the host's log alone. */
  get confirmed() {
    this.#take()
    return this.#named(this.#truth.vars())
  }

  /** The tag before which all is final. */
  get horizon() {
    this.#take()
    return this.#truth.horizon()
  }

  /** How many records of the host's log it has. */
  get records() {
    this.#take()
    return this.#count
  }

  #named(values) {
    // Cells of arrays stand behind all variables.
    const [names, { first } = { first: values.length }] = [this.#names, ...this.#names.arrays]
    const named = Array.from(values.slice(0, first), (it, at) => [names.vars[at] ?? at, it])
    return Object.fromEntries(named.filter((_, at) => !names.hidden.includes(at)))
  }

  /**
   * The variables by name as they were behind all that has this time, over the host's log. It costs a run up to there, but
   * where it is asked for the same time again and no record came.
   */
  at(time) {
    this.#take()
    return this.#named(this.#cellsAt(time))
  }

  #cellsAt(time) {
    this.#past ??= new Past(this.#engine, this.#program)
    return this.#past.at(time, this.#truth, this.#count)
  }

  /** Follows the host no more: what it tells stays as it is. The client stays open. */
  async close() {
    this.#isClosed = true
    await this.#watch?.stop().catch(() => {})
  }
}
