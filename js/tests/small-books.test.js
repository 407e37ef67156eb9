// Formatters of the world's book read the small book of their tag, and nobody sees it but by the time: what they write, read and refuse is that of the whole.
// SEED in the environment is what is drawn by.
import assert from "node:assert/strict";
import { execFileSync } from "node:child_process";
import { readFileSync } from "node:fs";
import { createRequire } from "node:module";
import { test } from "node:test";
import { fileURLToPath, pathToFileURL } from "node:url";
import * as library from "legumeyet";
import locales from "legumeyet/locales";
import { smallerBook } from "legumeyet/smaller";
import { drawer, lineOf, tagsBy } from "./tags.js";
import { linesOf } from "./texts.js";

const SEED = process.env.SEED ?? "2026-12-01";
// Choices of options that linesOf has, each by its place.
const CHOICES = [...Array(71).keys()];
const root = pathToFileURL(createRequire(import.meta.url).resolve("legumeyet/legumeyet.wasm"));
const json = readFileSync(new URL("world.json", root));
// The package's own module, which has more than its exports.
const { setLargeWorld, setWorld } = await import(new URL("library.js", root));
const useWhole = () => setWorld(json);
const useSmall = (most) => setLargeWorld(json, most);

// What is said by the whole book, and then by small ones only.
function saysTheSame(tags, linesOf) {
  useWhole();
  const wanted = tags.map((tag) => linesOf(library, tag));
  useSmall(Infinity);
  for (const [at, tag] of tags.entries()) assert.deepEqual(linesOf(library, tag), wanted[at], `${tag}, by seed ${SEED}`);
}

test("each locale is written and read as by the whole book", () => {
  const drawn = drawer(SEED);
  const tags = [...locales, ...locales.filter((it) => drawn([true, ...Array(11)])).map((it) => `${it}-u-nu-${drawn(["latn", "arab", "deva", "thai", "beng", "foo"])}`)];
  const taken = new Map(tags.map((tag) => [tag, new Set(Array.from({ length: 5 }, () => drawn(CHOICES)))]));
  const some = (tag) => {
    let at = 0;
    return () => taken.get(tag).has(at++);
  };
  saysTheSame(tags, (it, tag) => linesOf(it, tag, some(tag)));
  saysTheSame(["de-AT", "ar-EG-u-nu-latn", "en-AU", "hi-Latn-IN", "brx-IN", "zh-Hant-MO", "pt-CV", "ks-u-nu-deva"], (it, tag) => linesOf(it, tag));
});

test("so is each choice of options, where nothing else of its tag was asked for before", () => {
  const tags = ["de-AT", "ar-EG", "en-AU", "hi-Latn-IN", "pt-CV"];
  const said = (only) => tags.map((tag) => {
    let at = 0;
    return linesOf(library, tag, () => at++ === only);
  });
  useWhole();
  const wanted = CHOICES.map(said);
  assert.ok(wanted.every((lines) => lines.every((it) => it.length === 2)));
  for (const only of CHOICES) {
    useSmall(Infinity);
    assert.deepEqual(said(only), wanted[only]);
  }
});

test("so is a tag of any form, or it is refused alike", () => saysTheSame(tagsBy(SEED), lineOf));

test("what asks for the whole book has it", () => {
  const line = (tag) => `${tag}\tcurrency-EUR\tauto\tkeep\t-\t1234.5\n`;
  const lines = locales.map(line).join("");
  useWhole();
  const wanted = new library.Answers().answer(lines);
  useSmall();
  assert.equal(new library.DecimalFormatter("de").format(1234.5), "1.234,5");
  assert.equal(new library.Answers().answer(lines), wanted);
});

test("a book that has not an entry a line is read whole, or refused, at once", () => {
  const text = String(json);
  const rows = [
    JSON.stringify(JSON.parse(text)), smallerBook(text, ["en", "de"]), text.replaceAll("\n", "\r\n"), `\ufeff${text}`, text.slice(0, -10), text.replace("\n],[", "\n]"),
    "", "[", "<html>", '[[["de","","latn","-","","+","","!",".",3,3,1]],[["latn","0123456789"]],[],[],[]]',
  ].map((it) => new TextEncoder().encode(it));
  const said = (use) => {
    try {
      use();
      return new library.DecimalFormatter("de").format("1234.5");
    } catch (error) {
      return `${error.name} ${error.message}`;
    }
  };
  for (const bytes of [...rows, Buffer.concat([json.subarray(0, 5000), Buffer.of(0xff), json.subarray(5000)])]) {
    const [small, whole] = [setLargeWorld, setWorld].map((set) => said(() => set(bytes)));
    assert.equal(small, whole);
  }
  useSmall();
});

test("only what is asked for is read, until there are many tags", () => {
  const said = execFileSync(process.execPath, ["--input-type=module", "--eval", `
    import { Answers, DecimalFormatter, PluralRules } from "legumeyet";
    import { memorySize } from "legumeyet/core";
    import locales from "legumeyet/locales";
    const sizes = [memorySize()];
    const grow = (...tags) => { for (const tag of tags) new DecimalFormatter(tag).format(1); sizes.push(memorySize()); };
    grow("de");
    new PluralRules("pl").select(5);
    grow(...locales.slice(0, 10));
    grow(...locales.slice(0, 100));
    console.log(JSON.stringify(sizes));
  `], { encoding: "utf8", cwd: fileURLToPath(new URL(".", import.meta.url)) });
  const [none, one, few, many] = JSON.parse(said);
  assert.ok(one - none < 1 << 19 && few - none < 1 << 20, said);
  assert.ok(many - few > 1 << 20, said);
});
