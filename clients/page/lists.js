// Lists that keep no more than they show, and show no more than is seen.

export const MOST = 10_000
const SPARE = 4

/** The last MOST items of those that were added, by age: the newest has age 0. */
export class Last {
  #items = []
  added = 0

  add(item) {
    this.#items[this.added % MOST] = item
    this.added += 1
  }

  get length() {
    return Math.min(this.added, MOST)
  }

  at(age) {
    return this.#items[(this.added - 1 - age) % MOST]
  }

  clear() {
    this.#items = []
    this.added = 0
  }
}

/** Rows of one height, which the style says, in a box that scrolls: only those that are seen are in the document. */
export class Rows {
  #box
  #list = document.createElement("ul")
  #tellsOf
  #length = 0
  #row
  #added = 0

  /** `tellsOf` gives the words of a row by its number: `{ words: [first, middle, last], kind }`. */
  constructor(box, tellsOf) {
    this.#box = box
    this.#tellsOf = tellsOf
    box.append(this.#list)
    box.addEventListener("scroll", () => requestAnimationFrame(() => this.#render()))
  }

  /** Shows so many rows. Where they grow at the top, as `added` counts, what is read stays where it is. */
  show(length, added = 0) {
    const grown = added - this.#added
    this.#added = added
    this.#length = length
    this.#row = parseInt(getComputedStyle(this.#box).getPropertyValue("--row"))
    this.#list.style.height = `${length * this.#row}px`
    if (grown > 0 && this.#box.scrollTop >= this.#row) this.#box.scrollTop += grown * this.#row
    this.#render()
  }

  #render() {
    const first = Math.max(0, Math.floor(this.#box.scrollTop / this.#row) - SPARE)
    const seen = Math.ceil(this.#box.clientHeight / this.#row) + 2 * SPARE
    const wanted = Math.max(0, Math.min(seen, this.#length - first))
    while (this.#list.childElementCount > wanted) this.#list.lastElementChild.remove()
    while (this.#list.childElementCount < wanted) this.#list.append(rowOfWords())
    for (let at = 0; at < wanted; at += 1) this.#fill(this.#list.children[at], first + at)
  }

  #fill(item, number) {
    fillRow(item, this.#tellsOf(number))
    item.style.transform = `translateY(${number * this.#row}px)`
    item.setAttribute("aria-setsize", this.#length)
    item.setAttribute("aria-posinset", number + 1)
  }
}

/** An empty row: a faint word, what it is about, and a word at the end. */
export function rowOfWords() {
  const item = document.createElement("li")
  for (const kind of ["dim", "", "end"]) item.append(Object.assign(document.createElement("span"), { className: kind }))
  return item
}

export function fillRow(item, { words, kind = "" }) {
  item.className = kind
  words.forEach((word, at) => {
    if (item.children[at].textContent !== word) item.children[at].textContent = word
  })
  return item
}
