// The library with the module and the world's book inside, for bundlers that find no files by their addresses, and for programs of one file. Nothing
// is awaited where it is imported: `await init()` comes before the first book or formatter.
import { load } from "./instance.js";
import { setLargeWorld } from "./small-books.js";
import { module, world } from "./files.js";

// The bytes of a file, which is in a text in base64, by gzip.
async function bytesOf(text) {
  const packed = Uint8Array.from(atob(text), (it) => it.charCodeAt(0));
  const { DecompressionStream } = /** @type {any} */ (globalThis);
  const stream = new Blob([packed]).stream().pipeThrough(new DecompressionStream("gzip"));
  return new Uint8Array(await new Response(stream).arrayBuffer());
}

async function begin() {
  const [bytes, json] = await Promise.all([module, world].map(bytesOf));
  await load(bytes);
  setLargeWorld(json);
}

let begun = null;

/** Makes the library ready. A second call waits for the same; where it failed, the next one tries again. Throws a LoadError. */
export function init() {
  begun ??= begin().catch((error) => {
    begun = null;
    throw error;
  });
  return begun;
}

export * from "./classes.js";
