// Prints what formatters of drawn tags write, or how they are refused: by the package, or by the module of a page that is in a file.
// usage: node tags-of-page.js SEED [MODULE]
import { readFileSync } from "node:fs";
import { lineOf, tagsBy } from "./tags.js";

const [seed, module] = process.argv.slice(2);
const library = await import(module === undefined ? "legumeyet" : "legumeyet/page");
if (module !== undefined) await library.load(readFileSync(module));
for (const tag of tagsBy(seed)) console.log(lineOf(library, tag));
