// The tags that a run has executed: what comes at one of them, or before, makes the run go back, and so many are executed again.

const MOST_MICRO = 255

/**
 * A tag as one number, in the order of tags.
 * @param {{ time: number, micro: number }} tag
 */
export const placeOf = ({ time, micro }) => (MOST_MICRO + 1) * time + micro

/** @param {number} place */
export const tagOf = place => ({ time: Math.floor(place / (MOST_MICRO + 1)), micro: place % (MOST_MICRO + 1) })

/** Places of tags, in rising order, each once. What is added near their end costs what lies behind it. */
export class Executed {
  /** @type {number[]} */
  #places = []

  /** The last one; -1 where there is none. */
  get last() {
    return this.#places.at(-1) ?? -1
  }

  /** @param {number[]} places */
  add(places) {
    if (!places.length) return
    const late = this.#places.splice(this.#first(places.reduce((one, other) => Math.min(one, other))))
    for (const place of late.concat(places).sort((one, other) => one - other)) if (place !== this.last) this.#places.push(place)
  }

  /** @param {number} place */
  has(place) {
    return this.#places[this.#first(place)] === place
  }

  /**
   * How many are this one, or behind it.
   * @param {number} place
   */
  from(place) {
    return this.#places.length - this.#first(place)
  }

  /**
   * How many are before this one.
   * @param {number} place
   */
  #first(place) {
    let low = 0
    let high = this.#places.length
    while (low < high) {
      const middle = (low + high) >> 1
      if (this.#places[middle] < place) low = middle + 1
      else high = middle
    }
    return low
  }
}
