// A slider through the times that a replica went through, back and forth. What was so at the time that is chosen is handed on, for the page to show.
//
//     import { scrubber } from "./scrubber.js"
//
//     scrubber(replica, { show: past => draw(past ? past.vars : replica.vars) })

// So often its end goes along with the replica, in milliseconds.
const EVERY = 200

/** The parts of the page: the slider, and what it says. */
function made(parent) {
  const [box, slider, told] = ["div", "input", "output"].map(it => document.createElement(it))
  box.className = "warpd-scrubber"
  Object.assign(box.style, { display: "flex", gap: "0.75em", alignItems: "center" })
  Object.assign(slider, { type: "range", min: 0, max: 0, value: 0, step: 1 })
  slider.style.flex = "1"
  slider.setAttribute("aria-label", "Time")
  box.append(slider, told)
  parent.append(box)
  return { box, slider, told }
}

/**
 * Puts it into the page, until `stop()`. At its end it is now, and goes along; else `show` is called with what was so at the time that is chosen,
 * `{ time, vars, array(name) }`, and with null once it is now again. It goes back `span` ticks, or to the beginning. Each time costs
 * a run up to there: where the next is chosen meanwhile, those between are left out.
 */
export function scrubber(replica, { show, parent = document.body, span = Infinity }) {
  const { box, slider, told } = made(parent)
  let chosen = null
  let isAsking = false
  const follow = () => {
    const newest = replica.newest.time
    Object.assign(slider, { min: Math.max(0, newest - span), max: newest })
    if (chosen === null) slider.value = newest
  }
  /** What was so at a time; null where that cannot be told, which is said beside the slider. */
  const stateAt = async time => {
    try {
      return { time, vars: await replica.at(time), array: name => replica.array(name, time) }
    } catch (error) {
      if (time === chosen) told.textContent = error.message
      return null
    }
  }
  const ask = async () => {
    if (isAsking) return
    isAsking = true
    try {
      for (let time; time !== chosen; ) {
        time = chosen
        const past = time === null ? null : await stateAt(time)
        if (time === chosen && (past || time === null)) show(past)
      }
    } finally {
      isAsking = false
    }
  }
  slider.addEventListener("input", () => {
    chosen = slider.valueAsNumber < Number(slider.max) ? slider.valueAsNumber : null
    told.textContent = chosen === null ? "now" : `at ${chosen}`
    ask()
  })
  told.textContent = "now"
  follow()
  const timer = setInterval(follow, EVERY)
  return {
    element: box,
    stop() {
      clearInterval(timer)
      box.remove()
      if (chosen !== null) show(null)
    },
  }
}
