// The module of a page has the tables of its locales inside: with it each formatter writes and reads as the package's do.
import assert from "node:assert/strict";
import { execFileSync, spawnSync } from "node:child_process";
import { mkdtempSync, readFileSync, rmSync, writeFileSync } from "node:fs";
import { createRequire } from "node:module";
import { tmpdir } from "node:os";
import { join } from "node:path";
import { after, test } from "node:test";
import { fileURLToPath, pathToFileURL } from "node:url";
import { brotliCompressSync } from "node:zlib";
import { PARTS, pageModule } from "legumeyet/pages";
import * as page from "legumeyet/page";

const root = pathToFileURL(createRequire(import.meta.url).resolve("legumeyet/legumeyet.wasm"));
const at = (name) => fileURLToPath(new URL(name, root));
const world = readFileSync(at("world.json"), "utf8");
const made = (...tags) => pageModule(readFileSync(at("page.wasm")), world, tags);
const folder = mkdtempSync(join(tmpdir(), "legumeyet "));
after(() => rmSync(folder, { recursive: true }));

function saved(name, bytes) {
  writeFileSync(join(folder, name), bytes);
  return join(folder, name);
}

const saidBy = (script, ...words) => execFileSync(process.execPath, [fileURLToPath(new URL(script, import.meta.url)), ...words], { encoding: "utf8", maxBuffer: 1e9 }).trim().split("\n");
const linesOf = (...words) => saidBy("texts-of-page.js", ...words);

test("each locale of a page is written and read as by the package", () => {
  for (const [tags, below] of [[["en", "de"], ["en-GB", "de-AT", "de-CH"]], [["es", "pt-PT", "pl"], ["es-MX"]], [["ar-EG", "hi", "fa"], ["ar-EG-u-nu-latn", "hi-u-nu-latn"]]]) {
    const module = saved(`${tags[0]}.wasm`, made(...tags));
    const asked = [...tags, ...below].join();
    const lines = linesOf(asked, module);
    assert.ok(lines.length > 100);
    for (const [number, line] of linesOf(asked).entries()) assert.equal(lines[number], line);
  }
});

test("a tag of any form is read as by the package, or refused", () => {
  const module = saved("tags.wasm", made("en", "de", "ar-EG"));
  const seed = process.env.SEED ?? "1";
  const lines = saidBy("tags-of-page.js", seed, module);
  assert.ok(lines.length > 6000);
  for (const [number, line] of saidBy("tags-of-page.js", seed).entries()) assert.equal(lines[number], line);
});

test("a page's module is the same each time", () => {
  assert.deepEqual(made("en", "de"), made("en", "de"));
  const written = spawnSync(process.execPath, [at("make-page.js"), "en", "de"]);
  assert.deepEqual([written.status, new Uint8Array(written.stdout)], [0, new Uint8Array(made("en", "de"))]);
  for (const [words, status] of [[[], 2], [["-x"], 2], [["zz"], 1], [["--without", "x", "de"], 1]]) assert.equal(spawnSync(process.execPath, [at("make-page.js"), ...words]).status, status);
});

// What is written by a module without some parts is what the package writes, or is refused for want of a part.
function agrees(mine, theirs, counts) {
  if (typeof mine === "string" && mine.startsWith("Error the module of the page was made without js_")) counts.refused += 1;
  else if (typeof theirs !== "object") {
    counts.alike += 1;
    assert.equal(mine, theirs);
  } else for (const [name, it] of Object.entries(theirs)) agrees(mine[name], it, counts);
}

test("a page's module may be made without what the page does not use", () => {
  const all = linesOf("de,ar-EG").map((it) => JSON.parse(it));
  const sizes = [];
  for (const parts of [PARTS, [], ...PARTS.map((it) => [it]), ["compact", "units"], ["units", "read"], ["compact", "read", "skeletons"]]) {
    const module = pageModule(readFileSync(at("page.wasm")), world, ["de", "ar-EG"], { without: parts });
    const counts = { alike: 0, refused: 0 };
    const lines = linesOf("de,ar-EG", saved("without.wasm", module));
    assert.equal(lines.length, all.length);
    for (const [number, line] of lines.entries()) agrees(JSON.parse(line), all[number], counts);
    assert.ok(counts.alike > 500 && counts.refused > 0 === parts.length > 0, `${parts} ${JSON.stringify(counts)}`);
    sizes.push(brotliCompressSync(module).length);
  }
  const [least, most, ...others] = sizes;
  assert.ok(others.every((it) => least < it && it < most - 500), String(sizes));
  assert.throws(() => pageModule(readFileSync(at("page.wasm")), world, ["de"], { without: ["parts"] }), RangeError);
});

test("what is no module of a page is refused", async () => {
  await assert.rejects(page.load(new Uint8Array(5)), page.LoadError);
  await assert.rejects(import("legumeyet/pages").then((it) => it.pageModule(readFileSync(at("legumeyet.wasm")), world, ["en"])), /not page.wasm/);
  assert.throws(() => made("zz"), RangeError);
});

test("a page's module is loaded, and nothing is lost", async () => {
  assert.throws(() => new page.DecimalFormatter("en"), /load/);
  await page.load(made("en", "es"));
  const formatters = ["en", "es"].map((it) => new page.DecimalFormatter(it, { useGrouping: "always" }));
  const texts = () => formatters.map((it) => it.format("1234.5"));
  assert.deepEqual(texts(), ["1,234.5", "1.234,5"]);
  assert.throws(() => new page.DecimalFormatter("de"), page.LegumeyetError);
  const before = page.memorySize();
  const deeper = () => {
    texts();
    deeper();
  };
  for (let times = 0; times < 20; times += 1) assert.throws(deeper, RangeError);
  assert.deepEqual(texts(), ["1,234.5", "1.234,5"]);
  assert.ok(page.memorySize() < 2 * before);
});
