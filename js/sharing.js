// The formatters of the module: one for all objects that ask for the same, of which so many are open at once that their memory has a bound.
import { begun } from "./instance.js";
import { closeHandle, handleOf, isOpen } from "./open.js";

// Where one more is asked for, all are closed; each is opened again when it is used next, as after its instance was lost.
const MOST_OPEN = 1000;

/**
 * A formatter of the module, for calls with any options. `units` says at which place a compact one rounds numbers of a magnitude, and `currencies` how
 * many digits one of amounts shows by a rounding, and of which they are a multiple.
 * @typedef {import("./open.js").Handle & { units?: Map<number, number>, currencies?: Map<number, { digits: number, multiple: number }> }} Native
 */

/**
 * What a formatter is opened from, by `open`, and by which call it is closed. Those of one source with one key are alike.
 * @typedef {{ source: import("./books.js").Source, key: string, open: (native: Native, asked: Asked) => void, close: string, tag: string,
 *   opening: import("./options.js").Opening }} Asked
 */

/** That of a formatter that was closed by its caller. */
export const CLOSED = Object.freeze(handleOf(""));

/** @type {Native[]} */
let natives = [];
/** @type {WeakMap<object, Map<string, Native>>} */
let bySource = new WeakMap();

function makeRoom() {
  if (natives.length < MOST_OPEN) return;
  natives.forEach(closeHandle);
  natives = [];
  bySource = new WeakMap();
}

function nativesOf(source) {
  const found = bySource.get(source) ?? new Map();
  bySource.set(source, found);
  return found;
}

/**
 * The formatter that is open of what is asked for.
 * @param {Asked} asked
 * @returns {Native}
 */
export function shared(asked) {
  const found = bySource.get(asked.source)?.get(asked.key);
  if (found !== undefined && isOpen(found)) return found;
  begun();
  makeRoom();
  /** @type {Native} */
  const native = handleOf(asked.close);
  try {
    asked.open(native, asked);
  } catch (error) {
    closeHandle(native);
    throw error;
  }
  natives.push(native);
  nativesOf(asked.source).set(asked.key, native);
  return native;
}

/** Lets go of the formatters of a source: what is asked for afterwards is opened anew. */
export function forget(source) {
  bySource.delete(source);
}
