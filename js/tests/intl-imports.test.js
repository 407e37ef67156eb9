// The imports of what is in Intl's place: with the library and the world's book, over a book of one's own, and by an application that takes either's classes.
import assert from "node:assert/strict";
import { execFileSync } from "node:child_process";
import { test } from "node:test";
import * as library from "legumeyet";
import * as intl from "legumeyet/intl";
import * as core from "legumeyet/intl/core";

const hasSameData = process.versions.cldr?.split(".")[0] === "48";
const saidBy = (...words) => execFileSync(process.execPath, words, { encoding: "utf8" });
const module = (lines) => saidBy("--input-type=module", "--eval", lines.join("\n"));

test("the classes are the same by each import", () => {
  assert.deepEqual(Object.keys(intl), ["NumberFormat", "PluralRules"]);
  for (const name of Object.keys(intl)) assert.equal(intl[name], core[name]);
  assert.equal(intl.NumberFormat, library.NumberFormat);
  assert.notEqual(intl.PluralRules, library.PluralRules);
});

test("they need no other import", () => {
  assert.equal(module(['import * as Intl from "legumeyet/intl";', 'console.log([1.5, 2n].map(new Intl.NumberFormat("de").format).join(" "), new Intl.PluralRules("pl").select(5));']), "1,5 2 many\n");
});

test("a book of one's own", () => {
  const lines = [
    'import { readFileSync } from "node:fs";', 'import { createRequire } from "node:module";', 'import { loadSync, setWorld } from "legumeyet/core";', 'import { NumberFormat, PluralRules } from "legumeyet/intl/core";', 'import { smallerBook } from "legumeyet/smaller";',
    'const read = (name) => readFileSync(createRequire(import.meta.url).resolve(`legumeyet/${name}`));', 'const said = (call) => { try { return call(); } catch (error) { return `${error.name}: ${error.message}`; } };',
    'console.log(said(() => new NumberFormat("de")));', 'loadSync(read("legumeyet.wasm"));', 'console.log(said(() => new PluralRules("de")));', 'setWorld(smallerBook(String(read("world.json")), ["en", "pl"]));',
    'console.log(new NumberFormat(["de", "pl"]).format(12345.5), new PluralRules(["de", "pl"]).select(5), NumberFormat.supportedLocalesOf(["de", "pl", "en-GB"]).join(" "), PluralRules.supportedLocalesOf(["de", "pl"]).join(" "));',
  ];
  const [unloaded, without, told] = module(lines).split("\n");
  assert.match(unloaded, /no book is named|not loaded/);
  assert.match(without, /no book is named/);
  assert.equal(told, "12\u00a0345,5 many pl en-GB pl");
});

test("a module of pages", () => {
  const lines = [
    'import { readFileSync } from "node:fs";', 'import { createRequire } from "node:module";', 'import { NumberFormat, PluralRules } from "legumeyet/intl/core";', 'import { NumberFormat as OfPage, loadSync } from "legumeyet/page";', 'import { pageModule } from "legumeyet/pages";',
    'const read = (name) => readFileSync(createRequire(import.meta.url).resolve(`legumeyet/${name}`));', 'loadSync(pageModule(read("page.wasm"), String(read("world.json")), ["en", "pl"]));',
    'console.log(NumberFormat === OfPage, new NumberFormat("pl-u-co-search-nu-latn", { style: "currency", currency: "PLN" }).format(12345.5), new PluralRules("pl", { notation: "compact", maximumFractionDigits: 1 }).select(5), new PluralRules("pl").selectRange(1, 3));',
  ];
  assert.equal(module(lines), "true 12\u00a0345,50\u00a0zł many few\n");
});

test("an application has the same texts by either's classes", { skip: !hasSameData }, () => {
  const [own, engine] = [saidBy("intl-example.js"), saidBy("intl-example.js", "engine")];
  assert.equal(own, engine);
  assert.equal(own.split("\n")[1], "de-CH | EUR\u00a012'345.50 | EUR\u00a020'000 | 61.7% | 1.23\u00a0Mio. | 3 Tage");
});
