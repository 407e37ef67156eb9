// The library with the world's book, for Node, Deno and Bun, which read files. Nothing is awaited, so `require` may take it too. Bundlers find
// both files by their literal addresses.
import { readFileSync } from "node:fs";
import { LoadError, loadSync } from "./instance.js";
import { setLargeWorld } from "./small-books.js";

function bytesOf(name, address) {
  try {
    return readFileSync(address);
  } catch (error) {
    throw new LoadError(name, "fetch", error.message, error);
  }
}

loadSync(bytesOf("legumeyet.wasm", new URL("./legumeyet.wasm", import.meta.url)));
setLargeWorld(bytesOf("world.json", new URL("./world.json", import.meta.url)));

export * from "./classes.js";
