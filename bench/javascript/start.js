// Prints the milliseconds from the import of the package to its first text, and those that Intl.NumberFormat takes for the same, and of the processor those
// of the package. With MODULE, that of a page, it is the package for pages, with that module.
// usage: node start.js PACKAGE [MODULE]
import { readFileSync } from "node:fs";

const [folder, module] = process.argv.slice(2);

async function classes() {
  if (module === undefined) return import(`${folder}/node.js`);
  const page = await import(`${folder}/page.js`);
  await page.load(readFileSync(module));
  return page;
}

const [start, before] = [performance.now(), process.cpuUsage()];
const { DecimalFormatter } = await classes();
const ours = new DecimalFormatter("de").format("1234.5");
const [middle, used] = [performance.now(), process.cpuUsage(before)];
const theirs = new Intl.NumberFormat("de").format("1234.5");
const end = performance.now();
if (ours !== theirs) console.error(`bench: the texts differ: ${ours} ${theirs}`);
console.log((middle - start).toFixed(1), (end - middle).toFixed(1), ((used.user + used.system) / 1000).toFixed(1));
