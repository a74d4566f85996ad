// Numbers for a picture: even between two ticks, and with no jump where a correction came. It asks for no time: the caller says when.
//
//     const smooth = new Smooth({ "ball.x": { jump: 2 }, "ann.row": { over: 0 } })
//     smooth.tick({ "ball.x": 12n, "ann.row": 3n }, 0, 100)     // at 0 ms a tick came, and the next one comes 100 ms later
//     smooth.tick({ "ball.x": 13n, "ann.row": 3n }, 100, 100)
//     smooth.at(150)                                            // { "ball.x": 12.5, "ann.row": 3 }
//     smooth.correct({ "ball.x": 11n, "ann.row": 3n }, 150)
//     smooth.at(150)                                            // as before
//     smooth.at(200)                                            // { "ball.x": 12, "ann.row": 3 }: half of the correction
//     smooth.at(250)                                            // { "ball.x": 11, "ann.row": 3 }
//
// A number goes from `from` at the tick to `to` when the next one comes. Behind a correction what was shown before is kept, as an
// error beside that, which shrinks evenly until nothing is left of it.

/** A number that glides. */
class Gliding {
  from = 0
  to = 0
  /** What is shown beside the way from the one to the other, at `since`, in milliseconds. */
  #error = 0
  #since = 0

  constructor({ over = 100, jump = Infinity } = {}) {
    if (!(over >= 0)) throw new RangeError(`over is ${over}: it may be 0 milliseconds or more`)
    if (!(jump >= 0)) throw new RangeError(`jump is ${jump}: it may be 0 or more`)
    this.over = over
    this.jump = jump
  }

  /** It was `to`, and is this now. */
  move(to) {
    this.from = Math.abs(to - this.to) > this.jump ? to : this.to
    this.to = to
  }

  /** What it goes to is another. */
  turn(to) {
    if (Math.abs(to - this.to) > this.jump) this.from = to
    this.to = to
  }

  /** It is another, and was so before. */
  correct(to, now) {
    const by = to - this.to
    if (by === 0) return
    this.#error = Math.abs(by) > this.jump || this.over === 0 ? 0 : this.#left(now) - by
    this.#since = now
    this.from += by
    this.to = to
  }

  /** What is left of the error. */
  #left(now) {
    if (this.#error === 0) return 0
    return this.#error * Math.min(1, Math.max(0, 1 - (now - this.#since) / this.over))
  }

  /** What is shown where this part of the way is gone. */
  at(part, now) {
    return this.from + (this.to - this.from) * part + this.#left(now)
  }
}

/** Numbers that glide, by name. */
export class Smooth {
  #numbers
  #began = 0
  #length = 0
  #isBegun = false

  /**
   * @param named which numbers, each with `over`: over how many milliseconds a correction is taken in, 100 where it is left out; and
   *   `jump`: what changes by more than this at once is shown at once, nothing where it is left out
   */
  constructor(named) {
    this.#numbers = new Map(Object.entries(named).map(([name, options]) => [name, new Gliding(options)]))
  }

  /** The names. */
  get names() {
    return [...this.#numbers.keys()]
  }

  /** A tick came at `began`: the values, of which others may be there too, are reached `length` milliseconds later. */
  tick(values, began, length) {
    this.#began = began
    this.#length = length
    this.#each(values, (number, value) => number.move(value))
  }

  /** What the tick leads to is another, as by one's own move: it is shown at once, as far as the way is gone. */
  turn(values) {
    this.#each(values, (number, value) => number.turn(value))
  }

  /** What was before is another, as by what came late: what was shown at this time, that of the last picture, goes over to that. */
  correct(values, now) {
    this.#each(values, (number, value) => number.correct(value, now))
  }

  #each(values, set) {
    for (const [name, number] of this.#numbers) {
      if (values[name] === undefined) throw new RangeError(`there is no "${name}"`)
      const value = Number(values[name])
      if (this.#isBegun) set(number, value)
      else number.from = number.to = value
    }
    this.#isBegun = true
  }

  /** The numbers by name as they are to be shown at this time. */
  at(now) {
    const part = this.#length > 0 ? Math.min(1, Math.max(0, (now - this.#began) / this.#length)) : 1
    return Object.fromEntries(Array.from(this.#numbers, ([name, number]) => [name, number.at(part, now)]))
  }
}
