// How a program's variables were at times before, over a log that grows. Each time wants a run up to there; the log is read once.

const AT_ONCE = 5_000

/** Lines in groups of so many, each group a text. */
function* textsOf(lines) {
  for (let first = 0; first < lines.length; first += AT_ONCE) yield `${lines.slice(first, first + AT_ONCE).join("\n")}\n`
}

export class Past {
  #engine
  #program
  /** The times and the lines of the records that are executed, of so many that were read. */
  #times = []
  #lines = []
  #count = 0
  #last = null

  /** @param engine of its module one is made for each time @param program the text of the program's file */
  constructor(engine, program) {
    this.#engine = engine
    this.#program = JSON.parse(program)
  }

  /** The values of all variables behind all that has this time, over the first so many records that a replica, the `log`, has. */
  at(time, log, count) {
    if (this.#last?.time === time && this.#last.count === count) return this.#last.values
    this.#read(log, count)
    // A program that stops there has executed all up to there and nothing behind; its last moment may be before.
    const tab = this.#engine.another().open(JSON.stringify({ ...this.#program, stop: Math.min(time, this.#program.stop) }))
    for (const text of textsOf(this.#lines.filter((_, at) => this.#times[at] <= time))) tab.answer(text)
    this.#last = { time, count, values: tab.vars() }
    return this.#last.values
  }

  /** Reads the records that came since the last time. */
  #read(log, count) {
    const asked = Array.from({ length: count - this.#count }, (_, at) => `log ${this.#count + at + 1}`)
    for (const text of textsOf(asked)) {
      // A reply has two words before the record; an announcement changes no variable.
      for (const [, line, kind, time] of log.answer(text).matchAll(/^log \d+ ((\w+) \S+ (\d+) .*)$/gm)) {
        if (kind === "announce") continue
        this.#times.push(Number(time))
        this.#lines.push(line)
      }
    }
    this.#count = count
  }
}
