// Prints what formatters of some locales write and read: by the package, or by the module of a page that is in a file.
// usage: node texts-of-page.js TAGS [MODULE]
import { readFileSync } from "node:fs";
import { linesOf } from "./texts.js";

const [tags, module] = process.argv.slice(2);
const library = await import(module === undefined ? "legumeyet" : "legumeyet/page");
if (module !== undefined) await library.load(readFileSync(module));
for (const tag of tags.split(",")) for (const line of linesOf(library, tag)) console.log(line);
