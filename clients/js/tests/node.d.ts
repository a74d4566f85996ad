// What the tests use of Node, and what they are handed, for `.ci/types`: no package that declares all of Node is wanted.

type Fault = (new (...words: any[]) => Error) | ((error: any) => boolean)

type Assert = {
  equal(got: unknown, wanted: unknown, message?: string): void
  deepEqual(got: unknown, wanted: unknown, message?: string): void
  match(text: string, pattern: RegExp): void
  rejects(promise: Promise<unknown>, wanted?: Fault, message?: string): Promise<void>
}

/** What a case is handed, in Node and in browsers. */
type Given = {
  assert: Assert
  client: import("../warpd.js").Client
  connect(options?: import("../warpd.js").ClientOptions): import("../warpd.js").Client
  host: { start(): Promise<unknown>; stop(): Promise<unknown> }
}

type Case = {
  name: string
  body: (given: Given) => Promise<void>
  tokens?: string
  options: import("../warpd.js").ClientOptions
}

interface Window {
  results: [string, string | null][]
}

declare function setImmediate(done: (value: unknown) => void): void

declare const process: { env: Record<string, string | undefined> }

declare module "node:assert/strict" {
  const assert: Assert & { ok(value: unknown, message?: string): void; throws(body: () => unknown, wanted?: Fault, message?: string): void }
  export default assert
}

declare module "node:child_process" {
  export interface ChildProcess {
    stdout: { once(event: "data", heard: (data: unknown) => void): void }
    once(event: "error", heard: (error: Error) => void): void
    once(event: "exit", heard: (status: number | null) => void): void
    kill(signal: string): void
  }
  export function spawn(program: string, words: string[]): ChildProcess
  export function execFileSync(program: string, words: string[], options: { env: Record<string, string | undefined> }): Uint8Array
}

declare module "node:fs" {
  export function mkdtempSync(prefix: string): string
  export function readFileSync(file: string | URL, encoding: "utf8"): string
  export function writeFileSync(file: string, text: string, options: { mode: number }): void
}

declare module "node:module" {
  export function createRequire(url: string): (file: string) => any
}

declare module "node:net" {
  export interface Server {
    listen(port: number, host: string, ready: (value: unknown) => void): void
    address(): { port: number }
    close(done: (value: unknown) => void): void
  }
  export function createServer(): Server
}

declare module "node:os" {
  export function tmpdir(): string
}

declare module "node:path" {
  export function join(...names: string[]): string
}

declare module "node:test" {
  export interface Tried {
    mock: { method(of: object, name: string, instead: (...given: any[]) => unknown): void }
  }
  export function test(name: string, body: (tried: Tried) => unknown): void
  export function test(name: string, options: { timeout: number }, body: () => unknown): void
}
