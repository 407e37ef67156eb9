// Prints the bytes of each file that a page loads: as it is, by gzip -9, and by brotli -11. `small` is the module of a page of English and German, with
// their book inside, and `two` that book by itself; `classes` and `field` are the modules as they are, each by itself. Where esbuild is on the PATH,
// `bundle` is one file of the classes, `page` the module of the page with one file of its classes, and `all` the module of all calls, that book and
// `bundle`, all without NumberFormat; `intl` is one file of what is in Intl's place alone, with what loads the library.
// usage: node sizes.js PACKAGE
import { spawnSync } from "node:child_process";
import { readFileSync } from "node:fs";
import { pathToFileURL } from "node:url";
import { brotliCompressSync, gzipSync } from "node:zlib";

const folder = process.argv[2];
const [{ smallerBook }, { pageModule }] = await Promise.all(["smaller.js", "pages.js"].map((it) => import(new URL(it, pathToFileURL(`${folder}/`)))));
const read = (name) => readFileSync(`${folder}/${name}`);

// The modules that one imports, itself first, and those that it leaves out.
function modulesOf(name, known = []) {
  if (known.includes(name)) return known;
  known.push(name);
  for (const [, imported] of String(read(name)).matchAll(/from "\.\/(.*?)"/g)) modulesOf(imported, known);
  return known;
}

const classes = modulesOf("index.js");
const fields = modulesOf("number-field.js").filter((it) => !classes.includes(it));
const module = read("legumeyet.wasm");
const TAGS = ["en", "de"];
const two = Buffer.from(smallerBook(String(read("world.json")), TAGS));
const small = Buffer.from(pageModule(read("page.wasm"), String(read("world.json")), TAGS));
const rows = { module: [module], small: [small], world: [read("world.json")], two: [two], classes: classes.map(read), field: fields.map(read) };
const OF_INTL = "NumberFormat";

const bundle = (input) => spawnSync("esbuild", ["--bundle", "--minify", "--format=esm"], { input, cwd: folder, maxBuffer: 1e8 });

// One file of what a module exports, but for what is of Intl.
async function bundleOf(name) {
  const names = Object.keys(await import(new URL(name, pathToFileURL(`${folder}/`)))).filter((it) => it !== OF_INTL);
  return bundle(`export { ${names} } from "./${name}";`);
}

const bundled = await bundleOf("core.js");
if (bundled.status === 0) {
  const [ofPage, ofIntl] = [await bundleOf("page.js"), bundle('export { load, setWorld } from "./core.js"; export * from "./intl-core.js";')];
  Object.assign(rows, { bundle: [bundled.stdout], page: [small, ofPage.stdout], all: [module, two, bundled.stdout], intl: [ofIntl.stdout] });
}
for (const [name, files] of Object.entries(rows)) {
  const sizes = [(it) => it, (it) => gzipSync(it, { level: 9 }), brotliCompressSync].map((packed) => files.reduce((sum, it) => sum + packed(it).length, 0));
  console.log(name.padEnd(8), ...sizes.map((it) => String(it).padStart(8)));
}
