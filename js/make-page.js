#!/usr/bin/env node
// Writes the module of a page with the tables of a few locales, of the world's book, to standard output: node make-page.js en de >page.wasm
import { readFileSync } from "node:fs";
import { parseArgs } from "node:util";
import { PARTS, pageModule } from "./pages.js";

const USAGE = `usage: legumeyet-page [--without PART].. TAG.. >MODULE
Writes the module of a page, for legumeyet/page, with the locales of these tags and those below them, as de-AT is below de.
PART is what the page does not use: ${PARTS.join(", ")}.`;

function said() {
  try {
    const { values, positionals } = parseArgs({ options: { without: { type: "string", multiple: true, default: [] } }, allowPositionals: true });
    if (positionals.length > 0) return { tags: positionals, without: values.without };
  } catch {
    // the usage says what there is
  }
  console.error(USAGE);
  return process.exit(2);
}

const { tags, without } = said();
const read = (name) => readFileSync(new URL(name, import.meta.url));
try {
  process.stdout.write(pageModule(read("./page.wasm"), String(read("./world.json")), tags, { without }));
} catch (error) {
  console.error(`legumeyet-page: ${error.message}`);
  process.exitCode = 1;
}
