// Says whether the engine runs under the content policy of the page, or why not.
import { Engine } from "../../js/engine.js"

const bytes = await (await fetch("/engine.wasm")).arrayBuffer()
const said = await Engine.load(bytes).then(() => "it runs", error => `${error.name}: ${error.message}`)
document.getElementById("state").textContent = said
