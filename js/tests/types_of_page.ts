// What `tsc --strict` has to take with the types of a page: those of the field, and what `fetch` and WebAssembly give.
import { load, loadSync } from "legumeyet/core";
import { NumberField, directionOf } from "legumeyet/number-field";

const field: NumberField | null = document.querySelector("number-field");
const told: (string | undefined)[] = [field?.value, directionOf("de")];
const loaded: Promise<void>[] = [fetch("legumeyet.wasm").then(load), load(fetch("legumeyet.wasm")), WebAssembly.compileStreaming(fetch("legumeyet.wasm")).then(load)];
loadSync(new WebAssembly.Module(new Uint8Array(0)));
export { told, loaded };
