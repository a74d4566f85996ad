import type { Replica } from "./replica.js"
import type { RemoteReplica } from "./remote.js"
import type { Value } from "./warpd.js"

/** What was so at a time, over the host's log. */
export interface PastState {
  time: number
  vars: Record<string, Value>
  /** The cells of an array by its name; of a replica in a worker they come as a promise. */
  array(name: string): BigInt64Array | Promise<BigInt64Array>
}

export interface ScrubberOptions {
  /** Called with what was so at the time that is chosen, and with null once it is now again. */
  show: (past: PastState | null) => void
  parent?: HTMLElement
  /** How many ticks it goes back; to the beginning where it is left out. */
  span?: number
}

/** Puts a slider through the times that the replica went through into the page, until `stop()`. */
export function scrubber(replica: Replica | RemoteReplica, options: ScrubberOptions): { element: HTMLElement; stop(): void }
