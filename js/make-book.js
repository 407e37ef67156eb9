#!/usr/bin/env node
// Writes the book of a few locales, of the world's one, to standard output: node make-book.js en de >book.json
import { readFileSync } from "node:fs";
import { smallerBook } from "./smaller.js";

const tags = process.argv.slice(2);
if (tags.length === 0 || tags.some((it) => it.startsWith("-"))) {
  console.error("usage: legumeyet-book TAG.. >BOOK\nWrites a book of the locales of these tags and of those below them, as de-AT is below de.");
  process.exit(2);
}
try {
  process.stdout.write(`${smallerBook(readFileSync(new URL("./world.json", import.meta.url), "utf8"), tags)}\n`);
} catch (error) {
  console.error(`legumeyet-book: ${error.message}`);
  process.exitCode = 1;
}
