// The engine of `warpd` in WebAssembly, as `clients/wasm/build` makes it: replicas of a program in this process, for browsers
// and for Node. One module, no dependencies. It knows neither host nor clock: `replica.js` does.
//
//     import { Engine } from "./engine.js"
//
//     const engine = await Engine.load(await (await fetch("engine.wasm")).arrayBuffer())
//     const tab = engine.open(await (await fetch("pong.json")).text())
//     tab.answer("event 0 27 0 0 1\nhorizon\n")   // "taken 1\nhorizon 1 0 0\n"
//     tab.vars()                                  // BigInt64Array
//
// A line is what `warpd run` reads, and its reply what that answers. No line is answered in part, and no call waits. A copy of
// a whole engine costs its memory once (`copy`), and no run: what is tried in the copy is unknown to the first.

const NO_MEMORY = -8
const TOO_LONG = -9
const FIRST_ROOM = 65_536
const PAGE = 65_536
const OUTPUT = 4
const DIGITS = 64

const encoder = new TextEncoder()
const decoder = new TextDecoder()

/** A program that was refused: `number` as `warpd check` has it; 8 where no memory was to be had. */
export class ProgramRefused extends Error {
  constructor(number) {
    super(number === 8 ? "no memory" : `program refused ${number}`)
    this.name = "ProgramRefused"
    this.number = number
  }
}

/** No memory was to be had. `isCut` where some first lines were answered all the same: then the replica is of no use. */
export class NoMemory extends Error {
  constructor(isCut = false) {
    super(isCut ? "no memory for the replies: some lines were answered" : "no memory")
    this.name = "NoMemory"
    this.isCut = isCut
  }
}

/** WebAssembly may not run here, so no engine does. The message says what is missing. */
export class NoWebAssembly extends Error {
  constructor() {
    const missing = globalThis.WebAssembly ? "the page's content policy has no 'wasm-unsafe-eval' in script-src" : "this browser has none, or it is turned off"
    super(`WebAssembly may not run here: ${missing}`)
    this.name = "NoWebAssembly"
  }
}

/** Whether any module may be compiled: one that has nothing. */
function mayCompile() {
  try {
    return Boolean(new WebAssembly.Module(Uint8Array.of(0, 97, 115, 109, 1, 0, 0, 0)))
  } catch {
    return false
  }
}

/** The memory of an engine, its calls, and room in it for what is handed over. */
class Memory {
  #room = { at: 0, length: 0 }

  constructor(calls) {
    this.calls = calls
  }

  /** How many bytes it has. */
  get size() {
    return this.calls.memory.buffer.byteLength
  }

  /** The address of room for so many bytes, until it is asked for again. */
  room(length) {
    if (this.#room.length < length) {
      const wanted = Math.max(length, FIRST_ROOM, 2 * this.#room.length)
      if (this.#room.at) this.calls.tab_unroom(this.#room.at)
      this.#room = { at: 0, length: 0 }
      const at = this.calls.tab_room(wanted)
      if (!at) throw new NoMemory()
      this.#room = { at, length: wanted }
    }
    return this.#room.at
  }

  /** What stands at an address, as bytes, as numbers of 32 and of 64 bits: until anything is called. */
  bytes(at, length) {
    return new Uint8Array(this.calls.memory.buffer, at, length)
  }

  words(at, length) {
    return new Uint32Array(this.calls.memory.buffer, at, length)
  }

  values(at, length) {
    return new BigInt64Array(this.calls.memory.buffer, at, length)
  }

  /** Makes it a copy of another one. */
  copy(other) {
    // Behind what is used nothing stands; where nothing was asked for yet, that is not known.
    const used = other.calls.tab_used() || other.size
    const missing = Math.ceil((used - this.size) / PAGE)
    try {
      if (missing > 0) this.calls.memory.grow(missing)
    } catch {
      throw new NoMemory()
    }
    this.bytes(0, used).set(other.bytes(0, used))
    this.#room = { ...other.#room }
  }
}

/** The memory of an engine. */
let memoryOf

/** Replicas that share one memory. */
export class Engine {
  #module
  #memory

  static {
    memoryOf = engine => engine.#memory
  }

  /** An engine of these bytes, or of a module that was compiled from them. It throws `NoWebAssembly` where that may not run. */
  static async load(source) {
    try {
      const module = source instanceof WebAssembly.Module ? source : await WebAssembly.compile(source)
      return new Engine(module, await WebAssembly.instantiate(module, {}))
    } catch (error) {
      throw mayCompile() ? error : new NoWebAssembly()
    }
  }

  constructor(module, instance) {
    this.#module = module
    this.#memory = new Memory(instance.exports)
  }

  /** Another engine of the same module, in which nothing is open. */
  another() {
    return new Engine(this.#module, new WebAssembly.Instance(this.#module, {}))
  }

  /**
   * Makes this engine a copy of another one of the same module: what was open here is gone, and what is open there is open
   * here too, as `tab.within(this)`. All that an engine knows stands in its memory, so that is what is copied.
   */
  copy(other) {
    this.#memory.copy(other.#memory)
  }

  /** Opens a replica of a program, from the text or the bytes of its file. Throws `ProgramRefused`. */
  open(program) {
    const memory = this.#memory
    const bytes = typeof program === "string" ? encoder.encode(program) : program
    const room = memory.room(bytes.length + 8)
    memory.bytes(room + 8, bytes.length).set(bytes)
    const refused = memory.calls.tab_open(room + 8, BigInt(bytes.length), room)
    if (refused) throw new ProgramRefused(refused)
    return new Tab(memory, memory.words(room, 1)[0])
  }

  /** The fingerprint of the program that the text or the bytes of its file spell, as a host tells it. Throws `ProgramRefused`. */
  fingerprint(program) {
    const memory = this.#memory
    const bytes = typeof program === "string" ? encoder.encode(program) : program
    const room = memory.room(bytes.length + DIGITS)
    memory.bytes(room + DIGITS, bytes.length).set(bytes)
    const count = Number(memory.calls.tab_fingerprint(room + DIGITS, BigInt(bytes.length), room, BigInt(DIGITS)))
    if (count < 0) throw new ProgramRefused(-count)
    return decoder.decode(memory.bytes(room, count).slice())
  }

  /** How many bytes its memory has. */
  get size() {
    return this.#memory.size
  }

  /** For tests: the request for memory of this number from now on is refused, once. It gives what was left of the last number. */
  refuse(number) {
    return Number(this.#memory.calls.tab_refuse(BigInt(number)))
  }
}

/** A replica: a program and the records that it took. */
class Tab {
  #memory
  #calls
  #at
  #count = 0

  constructor(memory, at) {
    this.#memory = memory
    this.#calls = memory.calls
    this.#at = at
  }

  /** The same replica in an engine that is a copy of its own. */
  within(engine) {
    return new Tab(memoryOf(engine), this.#at)
  }

  /** A second replica with the same program and log in this engine, of which nothing is done yet: it costs a run of the log. */
  fork() {
    const room = this.#memory.room(8)
    if (this.#calls.tab_fork(this.#at, room)) throw new NoMemory()
    return new Tab(this.#memory, this.#memory.words(room, 1)[0])
  }

  /** The replies to lines, a line each. What has no line feed at its end is refused. */
  answer(lines) {
    return decoder.decode(this.answerBytes(encoder.encode(lines)))
  }

  /** The same of bytes. */
  answerBytes(bytes) {
    const room = this.#memory.room(bytes.length)
    this.#memory.bytes(room, bytes.length).set(bytes)
    const count = this.#told(this.#calls.tab_answer(this.#at, room, BigInt(bytes.length)))
    const replies = this.#memory.room(count)
    this.#calls.tab_replies(this.#at, 0n, replies, BigInt(count))
    return this.#memory.bytes(replies, count).slice()
  }

  /** The values of all variables, in the order of their numbers, as BigInt. */
  vars() {
    const read = most => {
      const room = this.#memory.room(8 * most)
      this.#count = this.#told(this.#calls.tab_vars(this.#at, room, BigInt(most)))
      return room
    }
    const most = this.#count
    const room = read(most)
    return this.#memory.values(this.#count > most ? read(this.#count) : room, this.#count).slice()
  }

  /** The tag before which outputs are released, as `{ time, micro }`. */
  horizon() {
    const room = this.#memory.room(16)
    this.#told(this.#calls.tab_horizon(this.#at, room, 2n))
    const [time, micro] = this.#memory.values(room, 2)
    return { time: Number(time), micro: Number(micro) }
  }

  /** The released outputs from this number on, each `{ index, time, micro, output, value }`. */
  released(first = 0) {
    const read = most => {
      const room = this.#memory.room(8 * OUTPUT * most)
      const count = this.#told(this.#calls.tab_released(this.#at, BigInt(first), room, BigInt(OUTPUT * most)))
      return { room, count }
    }
    let { room, count } = read(0)
    if (count) ({ room, count } = read(count))
    const numbers = this.#memory.values(room, OUTPUT * count)
    return Array.from({ length: count }, (_, at) => {
      const [time, micro, output, value] = numbers.subarray(OUTPUT * at, OUTPUT * at + OUTPUT)
      return { index: first + at, time: Number(time), micro: Number(micro), output: Number(output), value }
    })
  }

  /** Lets it go: no call of it is made any more. */
  drop() {
    if (this.#at) this.#calls.tab_drop(this.#at)
    this.#at = 0
  }

  /** A number that a call gave, which is no count below 0. */
  #told(number) {
    const count = Number(number)
    if (count === TOO_LONG) throw new RangeError("1,000,000,000 bytes or more at once")
    if (count < 0) throw new NoMemory(count !== NO_MEMORY)
    return count
  }
}
