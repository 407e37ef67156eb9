// The classes over a module of pages, which has a book of few locales inside: `legumeyet-page` makes it. Load it first.
import * as instance from "./instance.js";
import { useInside } from "./books.js";
import { shortTag } from "./tags.js";

/** Takes the module: its bytes, a WebAssembly.Module, or the response to a request for it, or its promise. A second call does nothing. Throws a LoadError. */
export async function load(source) {
  await instance.load(source);
  useInside(shortTag);
}

/** Takes the module at once: its bytes, or a WebAssembly.Module. Throws a LoadError. */
export function loadSync(source) {
  instance.loadSync(source);
  useInside(shortTag);
}

export * from "./common.js";
export { memorySize } from "./instance.js";
