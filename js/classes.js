// The classes, and their errors.
export * from "./common.js";
export { Answers } from "./answers.js";
export { Book } from "./books.js";
