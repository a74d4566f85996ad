// What `.ci/tab` asks of the engine, in Node and in browsers alike.
//
// A question has a program and lines, as texts of a character a byte; whether each line is a call of its own; and the number of the
// request for memory that is refused, or 0. What a call could not do for want of memory is done once more.
import { Engine, NoMemory, ProgramRefused } from "../../js/engine.js"

const LINE_FEED = 10
const PIECE = 4_096

const bytesOf = text => Uint8Array.from(text, it => it.charCodeAt(0))

function textOf(parts) {
  let text = ""
  for (const bytes of parts) {
    for (let from = 0; from < bytes.length; from += PIECE) text += String.fromCharCode(...bytes.subarray(from, from + PIECE))
  }
  return text
}

/** The lines of a text, each with its line feed; the last one may have none. */
function linesOf(bytes) {
  const lines = []
  for (let from = 0; from < bytes.length; ) {
    const end = bytes.indexOf(LINE_FEED, from)
    const to = end < 0 ? bytes.length : end + 1
    lines.push(bytes.subarray(from, to))
    from = to
  }
  return lines
}

/** What a call gives; where there was no memory and nothing was done, what it gives the next time. */
function twice(told, call) {
  try {
    return call()
  } catch (error) {
    if (!(error instanceof NoMemory) || error.isCut) throw error
    told.again += 1
    return call()
  }
}

/** What a replica that is open tells to lines, and of its values behind them. */
function told(tab, { lines, isSingly }, engine) {
  const counts = { again: 0 }
  const given = bytesOf(lines)
  const replies = (isSingly ? linesOf(given) : [given]).map(part => twice(counts, () => tab.answerBytes(part)))
  const unanswered = counts.again
  const vars = twice(counts, () => tab.vars())
  const horizon = twice(counts, () => tab.horizon())
  const released = twice(counts, () => tab.released())
  const last = twice(counts, () => tab.released(Math.max(0, released.length - 1)))
  return {
    ...counts,
    unanswered,
    left: engine.refuse(0),
    replies: textOf(replies),
    vars: Array.from(vars, String),
    horizon: [horizon.time, horizon.micro],
    released: released.map(it => [it.time, it.micro, it.output, String(it.value)]),
    last: last.map(it => it.index),
  }
}

function answered(question, engine) {
  const program = bytesOf(question.program)
  engine.refuse(question.refuse)
  try {
    const tab = engine.open(program)
    const answer = told(tab, question, engine)
    tab.drop()
    return { ...answer, fingerprint: engine.fingerprint(program) }
  } catch (error) {
    if (error instanceof ProgramRefused) return { refused: error.number, left: engine.refuse(0) }
    throw error
  }
}

/** Answers questions over a module. */
export class Answerer {
  #module
  #engine = null

  constructor(module) {
    this.#module = module
  }

  /** What a question is answered. What is refused memory begins in an engine of its own, which it may leave half used. */
  async answer(question) {
    try {
      this.#engine = !this.#engine || question.refuse ? await Engine.load(this.#module) : this.#engine
      return { ...answered(question, this.#engine), size: this.#engine.size }
    } catch (error) {
      return { fault: error instanceof NoMemory && error.isCut ? "cut" : String(error) }
    } finally {
      if (question.refuse) this.#engine = null
    }
  }
}
