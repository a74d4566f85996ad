import type { Tag, Value } from "./warpd.js"

/** A program that was refused: `number` as `warpd check` has it; 8 where no memory was to be had. */
export class ProgramRefused extends Error {
  constructor(number: number)
  readonly number: number
}

/** No memory was to be had. `isCut` where some first lines were answered all the same: then the replica is of no use. */
export class NoMemory extends Error {
  constructor(isCut?: boolean)
  readonly isCut: boolean
}

/** WebAssembly may not run here, so no engine does. The message says what is missing. */
export class NoWebAssembly extends Error {}

export interface Output extends Tag {
  index: number
  output: number
  value: Value
}

/** A replica: a program and the records that it took. */
export interface Tab {
  /** The same replica in an engine that is a copy of its own. */
  within(engine: Engine): Tab
  /** A second replica with the same program and log in this engine, of which nothing is done yet: it costs a run of the log. */
  fork(): Tab
  /** The replies to lines, a line each. What has no line feed at its end is refused. */
  answer(lines: string): string
  answerBytes(bytes: Uint8Array): Uint8Array
  /** The values of all variables, in the order of their numbers. */
  vars(): BigInt64Array
  /** The tag before which outputs are released. */
  horizon(): Tag
  /** The released outputs from this number on. */
  released(first?: number): Output[]
  /** Lets it go: no call of it is made any more. */
  drop(): void
}

/** Replicas that share one memory. */
export class Engine {
  private constructor()
  /** An engine of these bytes, or of a module that was compiled from them. Rejected with `NoWebAssembly` where that may not run. */
  static load(source: BufferSource | WebAssembly.Module): Promise<Engine>
  /** Another engine of the same module, in which nothing is open. */
  another(): Engine
  /** Makes this engine a copy of another one of the same module: what is open there is open here, as `tab.within(this)`. */
  copy(other: Engine): void
  /** Opens a replica of a program, from the text or the bytes of its file. Throws `ProgramRefused`. */
  open(program: string | Uint8Array): Tab
  /** The fingerprint of the program that the text or the bytes of its file spell, as a host tells it. Throws `ProgramRefused`. */
  fingerprint(program: string | Uint8Array): string
  /** How many bytes its memory has. */
  readonly size: number
  /** For tests: the request for memory of this number from now on is refused, once. It gives what was left of the last number. */
  refuse(number: number): number
}
