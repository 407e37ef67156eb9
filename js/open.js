// What is open in the module: handles, and objects that are open until they are closed or no longer used.
import { ErrorNumber, LegumeyetError, age, begun, calls, expected, inside, isPresent } from "./instance.js";

/**
 * What the module has open: where it is, at which age of the instance, and by which call it is closed. It is not open where `at` is 0.
 * @typedef {{ at: number, age: number, close: string }} Handle
 */

/**
 * A handle of nothing, until something is opened by it.
 * @param {string} close
 * @returns {Handle}
 */
export const handleOf = (close) => ({ at: 0, age: 0, close });

/** Whether it is open in the present instance. */
export function isOpen(handle) {
  return handle.at !== 0 && isPresent(handle.age);
}

/** Closes it, where it is open. */
export function closeHandle(handle) {
  if (isOpen(handle)) inside(() => calls[handle.close](handle.at));
  handle.at = 0;
}

// What a call returned that opens what a handle has; also where there was no memory for the text that it is given.
function filled(at, fill) {
  try {
    return inside(() => {
      const result = fill(at);
      calls.js_let_go();
      return result;
    });
  } catch (error) {
    if (error instanceof LegumeyetError) return -error.number;
    throw error;
  }
}

/**
 * Opens a handle in the present instance.
 * @param {Handle} handle
 * @param {(at: number) => number} fill opens what it has, and returns what the call returned
 * @param {(number: number) => string} [hint] what the message of an error says besides
 */
export function openHandle(handle, fill, hint) {
  const at = inside(() => calls.js_new());
  if (at === 0) throw new LegumeyetError(ErrorNumber.MEMORY);
  const told = filled(at, fill);
  if (told < 0) inside(() => calls[handle.close](at));
  expected(told, hint?.(-told));
  handle.at = at;
  handle.age = age;
}

/** Gives a class `using` of JavaScript: an object is closed where its block ends. */
export function closesAtEnd(its) {
  const { dispose } = /** @type {any} */ (Symbol); // which is not in each engine
  if (dispose) Object.defineProperty(its.prototype, dispose, { value() { this.close(); } });
}

// What the garbage collector takes is closed.
const unused = typeof FinalizationRegistry === "undefined" ? null : new FinalizationRegistry(closeHandle);

/** What is open until it is closed, or no longer used. Where its instance is lost, it is opened again when it is used next. */
export class Open {
  #handle;
  #again;

  /**
   * @param {Handle} handle what is open
   * @param {() => void} again opens it again
   */
  constructor(handle, again) {
    this.#handle = handle;
    this.#again = again;
    unused?.register(this, handle, handle);
  }

  /** Where it is in the present instance. */
  static at(it) {
    const handle = it.#handle;
    if (handle.at === 0) throw new LegumeyetError(ErrorNumber.CLOSED);
    if (!isPresent(handle.age)) {
      begun();
      it.#again();
    }
    return handle.at;
  }

  get closed() {
    return this.#handle.at === 0;
  }

  close() {
    unused?.unregister(this.#handle);
    closeHandle(this.#handle);
  }
}
closesAtEnd(Open);
