import type { Replica, ReplicaStats } from "./replica.js"

/** What the overlay asks of a replica, in this process or in a worker. */
export type Watched = Pick<Replica, "stats" | "tick" | "ping">

/** Shows in a corner of the page what a replica does behind its picture, until `stop()`. It asks the host for little each second. */
export function overlay(replica: Watched, options?: { parent?: HTMLElement }): { element: HTMLElement; stop(): void }

/** What is told in words: pairs of a name and what it is, of the counts now and those of so many milliseconds ago. */
export function rowsOf(stats: ReplicaStats, tick: Replica["tick"], before: ReplicaStats, passed: number): [string, string][]

/** The heights of bars, of which the highest is as high as there is room, and one at least as high as a pixel. */
export function heightsOf(values: number[], most: number, room: number): number[]
