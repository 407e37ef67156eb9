export * from "./index.js";

/** Makes the library ready: it comes before the first book or formatter. A second call waits for the same. */
export function init(): Promise<void>;
