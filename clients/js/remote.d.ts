import type { EventRecord, GivenValue, Tag, Taken, Value } from "./warpd.js"
import type { ClockOptions, FinalOutput, ReplicaStats, WentBack } from "./replica.js"
import type { Glide } from "./smooth.js"

/** A worker of `worker.js`, in a browser or in Node. */
export interface AnyWorker {
  postMessage(message: unknown): void
}

export interface RemoteOptions {
  /** Where the host's WebSocket is, and who this is, where the host wants to know. */
  url: string
  token?: string
  /** As that of a client. */
  timeout?: number | null
  /** The bytes of the engine, or the module that was compiled from them. */
  engine: BufferSource | WebAssembly.Module
  /** The text of the host's program's file. */
  program: string
  origin?: number | null
  clock?: ClockOptions | null
  /** The variables that are shown evenly, by name. */
  smooth?: Record<string, Glide> | null
  /** In Node 20, which has no WebSocket: the file of a module whose default is the class. */
  webSocketFrom?: string
}

export interface RemoteActed {
  /** The event as the worker sends it. Rejected where it cannot be one. */
  record: Promise<EventRecord>
  /** What the host answered, or null where it refused it. */
  answered: Promise<Taken | null>
}

/**
 * A replica in a worker, with the calls of a `Replica`: what is told at once there is told here as the worker told it last, and what
 * a call gives there comes here as a promise.
 */
export class RemoteReplica {
  constructor(worker: AnyWorker, options: RemoteOptions)
  readonly origin: number | null
  readonly ready: Promise<RemoteReplica>
  readonly stats: ReplicaStats
  onfinal: ((row: FinalOutput) => void) | null
  onrefused: ((record: EventRecord, error: Error) => void) | null
  onchange: (() => void) | null
  onrollback: ((went: WentBack) => void) | null
  readonly smooth: Record<string, number>
  /** Why it follows the host no more, or why the worker does not run; `onerror` is called with it. */
  readonly error: Error | null
  onerror: ((error: Error) => void) | null
  act(input: string | number, value: GivenValue, when?: { time?: number }): RemoteActed
  announce(tag?: Partial<Tag>): Promise<Taken>
  /** Has the worker execute the ticks that are due, and gives how many there are since it was last called. */
  frame(now?: number): number
  ping(): Promise<number>
  readonly tick: { time: number; ahead: number } | null
  readonly newest: Tag
  readonly vars: Record<string, Value>
  outputs(first?: number): Promise<FinalOutput[]>
  readonly confirmed: Record<string, Value>
  readonly horizon: Tag
  readonly records: number
  array(name: string, time?: number | null): Promise<BigInt64Array>
  at(time: number): Promise<Record<string, Value>>
  /** Follows the host no more, and closes the connection. The worker stays: end it by `terminate()`. */
  close(): Promise<void>
}
