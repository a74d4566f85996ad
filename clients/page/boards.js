// Boards: the cells of an array with two sides, a square for each, in a colour by its value. tools/trace_svg has the same colours.

/** The colours of 1 to 9; 0 is the ground. */
const COLOURS = ["#0072b2", "#d55e00", "#009e73", "#cc79a7", "#e69f00", "#56b4e9", "#7c4dcc", "#b3a100", "#8c5a2b"]
// Where there is another value, each has one of so many shades, by how great it is.
const SHADES = 16
// Of so many values it is told in words how often each is there.
const MOST_TOLD = 12
const LARGEST = 18

/** How often each value is there, the least first. */
export function countsOf(values) {
  const counts = new Map()
  for (const value of values) counts.set(value, (counts.get(value) ?? 0) + 1)
  return new Map([...counts].sort(([one], [other]) => (one < other ? -1 : 1)))
}

/** What a board shows, in words. */
export function boardText({ name, sides: [rows, columns] }, values) {
  const counts = countsOf(values)
  const all = [...counts].slice(0, MOST_TOLD).map(([value, count]) => `${count} of ${value}`)
  return `${name}, ${rows} rows of ${columns}: ${all.join(", ")}${counts.size > MOST_TOLD ? " and others" : ""}`
}

/** The colour of each value, and what the colours mean: each value's, or of shades that of the least and of the greatest. */
export function coloursOf(values, ground) {
  const kinds = [...countsOf(values).keys()]
  const [least, most] = [kinds[0], kinds.at(-1)]
  const shadeOf = value => Math.round(((SHADES - 1) * (Number(value) - Number(least))) / (Number(most) - Number(least) || 1))
  const isPlain = least >= 0 && most <= COLOURS.length
  const colourOf = value => isPlain ? COLOURS[Number(value) - 1] ?? ground : `hsl(210 60% ${12 + (76 * shadeOf(value)) / (SHADES - 1)}%)`
  return { colourOf, meanings: (isPlain ? kinds : [...new Set([least, most])]).map((it, at) => [isPlain || !at ? `${it}` : `to ${it}`, colourOf(it)]) }
}

/** Draws onto a canvas, and tells beside it what the colours mean. */
export class Board {
  #canvas
  #legend
  #pen

  constructor(canvas, legend) {
    this.#canvas = canvas
    this.#legend = legend
    this.#pen = canvas.getContext("2d")
  }

  draw({ sides: [rows, columns] }, values) {
    const size = Math.max(2, Math.min(LARGEST, Math.floor((this.#canvas.parentElement.clientWidth - 24) / columns)))
    const ratio = window.devicePixelRatio || 1
    Object.assign(this.#canvas, { width: Math.round(columns * size * ratio), height: Math.round(rows * size * ratio) })
    Object.assign(this.#canvas.style, { width: `${columns * size}px`, height: `${rows * size}px` })
    this.#pen.setTransform(ratio, 0, 0, ratio, 0, 0)
    const { colourOf, meanings } = coloursOf(values, getComputedStyle(document.documentElement).getPropertyValue("--rule"))
    const gap = size > 5 ? 1 : 0
    values.forEach((value, at) => {
      this.#pen.fillStyle = colourOf(value)
      this.#pen.fillRect((at % columns) * size, Math.floor(at / columns) * size, size - gap, size - gap)
    })
    this.#legend.replaceChildren(...meanings.map(([text, colour]) => {
      const [part, square] = [document.createElement("span"), document.createElement("i")]
      square.style.background = colour
      part.append(square, text)
      return part
    }))
  }
}
