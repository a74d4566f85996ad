// Answers what `.ci/tab` asks of the engine in Node: a line of JSON in, a line of JSON out.
//
//     node .ci/tab_engine.mjs ENGINE
import { readFileSync } from "node:fs"
import { createInterface } from "node:readline"
import { Answerer } from "../clients/wasm/tests/questions.js"

const answerer = new Answerer(await WebAssembly.compile(readFileSync(process.argv[2])))
for await (const line of createInterface({ input: process.stdin })) {
  process.stdout.write(`${JSON.stringify(await answerer.answer(JSON.parse(line)))}\n`)
}
