import type { GivenValue } from "./warpd.js"

/** How a number glides. */
export interface Glide {
  /** Over how many milliseconds a correction is taken in; 100 where it is left out, and 0 is at once. */
  over?: number
  /** What changes by more than this at once is shown at once, as what begins at another place; no change is where it is left out. */
  jump?: number
}

/** Numbers for a picture: even between two ticks, and with no jump where a correction came. All times are milliseconds of one clock. */
export class Smooth {
  constructor(named: Record<string, Glide>)
  readonly names: string[]
  /** A tick came at `began`: the values, of which others may be there too, are reached `length` milliseconds later. */
  tick(values: Record<string, GivenValue>, began: number, length: number): void
  /** What the tick leads to is another, as by one's own move: it is shown at once, as far as the way is gone. */
  turn(values: Record<string, GivenValue>): void
  /** What was before is another, as by what came late: what was shown at this time, that of the last picture, goes over to that. */
  correct(values: Record<string, GivenValue>, now: number): void
  /** The numbers by name as they are to be shown at this time. */
  at(now: number): Record<string, number>
}
