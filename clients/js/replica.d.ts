import type { Client, EventRecord, GivenValue, Tag, Taken, Value } from "./warpd.js"
import type { Engine } from "./engine.js"
import type { Glide, Smooth } from "./smooth.js"

/** An input that another origin ticks. */
export interface ClockOptions {
  input: string | number
  /** What its events have; 1 where it is left out, and with "tick" each has its tick, as those that a host sends by itself. */
  value?: GivenValue | "tick"
  /** Ticks a second; 60 where it is left out. */
  hertz?: number
  /** How many ticks past the last that came are executed at most; those of a second where it is left out. */
  ahead?: number
  /** How many ticks before they are due. */
  lead?: number
  /** The last tick that there is, if one is. */
  last?: number
}

export interface ReplicaOptions {
  /** Of its module two more are made. */
  engine: Engine
  /** The text of the host's program's file. */
  program: string
  /** Whose events are sent, where any are. */
  origin?: number | null
  clock?: ClockOptions | null
  /** The variables that are shown evenly, by name; or who is told what they are. Where there is a clock, one tick more is executed ahead. */
  smooth?: Record<string, Glide> | Pick<Smooth, "names" | "tick" | "turn" | "correct" | "at"> | null
  /** What time it is, in milliseconds. */
  now?: () => number
}

export interface Acted extends EventRecord {
  /** What the host answered, or null where it refused it. */
  answered: Promise<Taken | null>
}

export interface FinalOutput extends Tag {
  index: number
  output: string | number
  value: Value
}

/** What is shown went back. */
export interface WentBack {
  /** The last tag that was executed. */
  from: Tag
  /** The first that is executed anew. */
  to: Tag
  /** How many tags of records lie between, both counted. */
  again: number
}

export interface ReplicaStats {
  /** How often what is shown went back, once it was `ready`. */
  rollbacks: number
  /** How many tags of records the last one executed again. */
  depth: number
  /** The most that one did. */
  deepest: number
  /** How many all did. */
  again: number
  /** How often what is shown was made anew. */
  rebuilt: number
  /** How many records came. */
  records: number
  /** How many own events were refused. */
  refused: number
  /** How many milliseconds the last own event that was taken took to be answered. */
  answered: number | null
  /** How many milliseconds the last `ping()` took. */
  roundTrip: number | null
}

/** The program that was handed in is not the one that the host has, whose fingerprint is `host`. */
export class OtherProgram extends Error {
  constructor(host: string)
  readonly host: string
}

/** A replica of a host's program in this process. */
export class Replica {
  constructor(client: Client, options: ReplicaOptions)
  readonly client: Client
  readonly origin: number | null
  readonly now: () => number
  /** Resolved once it has the log that the host had when it was asked; rejected with `OtherProgram` where that has another program. */
  readonly ready: Promise<Replica>
  readonly stats: ReplicaStats
  /** Called with each output that is final, in order. */
  onfinal: ((row: FinalOutput) => void) | null
  /** Called where the host refuses one's own event, which is taken back: with its record, and why. */
  onrefused: ((record: EventRecord, error: Error) => void) | null
  /** Called when something has changed that is shown. */
  onchange: (() => void) | null
  /** Called when what is shown goes back. */
  onrollback: ((went: WentBack) => void) | null
  /** The numbers that were named as `smooth`, as the last `frame()` has them for its picture. */
  readonly smooth: Record<string, number>
  /** Why it follows the host no more, as want of memory; `onerror` is called with it. */
  readonly error: Error | null
  onerror: ((error: Error) => void) | null
  /**
   * One's own event, here at once and to the host: at the next tick of the clock, or at `time`. Where numbers glide, that is the tick
   * to which they go. A host that keeps the origin may give it another tag: then it shows there.
   */
  act(input: string | number, value: GivenValue, when?: { time?: number }): Acted
  /**
   * Announces that no event of one's own comes any more before this tag; where none is given, before the tick at which one acts. A
   * TypeError where the host keeps the origin, and so announces by itself.
   */
  announce(tag?: Partial<Tag>): Promise<Taken>
  /** Executes the ticks that are due, and gives how many: to be called before each picture, with its time where that is known. */
  frame(now?: number): number
  /** Asks the host for little, and gives how many milliseconds it took to be answered. */
  ping(): Promise<number>
  /** The last tick of the clock that is shown, and how far it is past the last that came. */
  readonly tick: { time: number; ahead: number } | null
  /** The last tag that is shown; time 0 where nothing is executed yet. */
  readonly newest: Tag
  /** The variables by name, as they are shown. */
  readonly vars: Record<string, Value>
  /** The cells of an array by its name, as they are shown; or as they were behind all that has this time, as `at(time)` tells the variables. */
  array(name: string, time?: number | null): BigInt64Array
  /** The outputs of what is shown, from this number on: what is not final may change. */
  outputs(first?: number): FinalOutput[]
  /** The variables by name over the host's log alone. */
  readonly confirmed: Record<string, Value>
  /** The tag before which all is final. */
  readonly horizon: Tag
  /** How many records of the host's log it has. */
  readonly records: number
  /** The variables by name as they were behind all that has this time, over the host's log. It costs a run up to there. */
  at(time: number): Record<string, Value>
  /** Follows the host no more. The client stays open. */
  close(): Promise<void>
}
