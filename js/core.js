// The classes over a module and a book of one's own: load the module first, then make a book.
export * from "./classes.js";
export { setWorld } from "./books.js";
export { load, loadSync, memorySize } from "./instance.js";
