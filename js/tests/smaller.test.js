// A book of a few locales answers as the one that it is made of, and the library is ready with one, or with what is inside.
import assert from "node:assert/strict";
import { execFileSync, spawnSync } from "node:child_process";
import { readFileSync } from "node:fs";
import { createRequire } from "node:module";
import { test } from "node:test";
import { fileURLToPath, pathToFileURL } from "node:url";
import { Book, CompactDecimalFormatter, CurrencyFormatter, DecimalFormatter, LegumeyetError, PercentFormatter, ScientificFormatter } from "legumeyet";
import locales from "legumeyet/locales";
import { smallerBook } from "legumeyet/smaller";

const root = pathToFileURL(createRequire(import.meta.url).resolve("legumeyet/legumeyet.wasm"));
const world = readFileSync(new URL("world.json", root), "utf8");
const CURRENCIES = ["EUR", "USD", "CHF", "JPY", "QQQ", "INR"];

function textsOf(tag, book) {
  const made = [
    new DecimalFormatter(tag, { book, signDisplay: "always" }), new PercentFormatter(tag, { book }), new ScientificFormatter(tag, { book }), ...["short", "long"].map((compactDisplay) => new CompactDecimalFormatter(tag, { book, compactDisplay })),
    ...CURRENCIES.flatMap((currency) => [{}, { currencySign: "accounting" }, { currencyDisplay: "code" }].map((options) => new CurrencyFormatter(tag, { book, currency, ...options }))),
  ];
  return made.flatMap((it) => ["-1234567.5", "1", "2500", "0"].map((number) => it.format(number)));
}

const isUnder = (tag, tags) => tags.some((it) => tag === it || tag.startsWith(`${it}-`));

test("each locale of a smaller book is written as by the world's", () => {
  for (const tags of [["en", "de"], ["ar-EG"], ["hi", "zh-Hant", "pt-PT"], ["es", "sr-Latn", "nb", "und"], ["sq", "ckb", "fr"]]) {
    const book = new Book(smallerBook(world, tags));
    const own = locales.filter((it) => isUnder(it, tags));
    assert.ok(own.length > 0);
    for (const tag of [...own, ...tags, `${tags[0]}-u-nu-latn`]) assert.deepEqual(textsOf(tag, book), textsOf(tag), `${tags} ${tag}`);
  }
  const one = new Book(smallerBook(world, ["de-AT"]));
  assert.deepEqual(textsOf("de-AT", one), textsOf("de-AT"));
  assert.throws(() => new DecimalFormatter("fr", { book: one }), LegumeyetError);
  assert.ok(smallerBook(world, ["en", "de"]).length < world.length / 8);
  for (const tags of [["zz"], ["en", "zz"], ["de_DE"], [""]]) assert.throws(() => smallerBook(world, tags), RangeError);
});

test("ordinal rules, ranges and signs of the locales that are kept", () => {
  const [, , more] = JSON.parse(smallerBook(world, ["sl", "mr"]));
  const [ordinals, ranges, signs] = more.map((array) => array.map(([locale]) => locale));
  assert.deepEqual([ordinals, ranges], [["mr", "und"], ["sl"]]);
  assert.ok(signs.includes("sl") && signs.includes("und") && signs.every((it) => ["mr", "sl", "und"].includes(it)));
  const pair = JSON.stringify(JSON.parse(world).slice(0, 2));
  assert.equal(JSON.parse(smallerBook(pair, ["de"])).length, 2);
});

test("of books without units and without parents", () => {
  const five = '[[["en","","latn","-","","+","",".",",",3,3,1],["de","","latn","-","","+","",",",".",3,3,1]],[["latn","0123456789"],["thai","๐๑๒๓๔๕๖๗๘๙"]],[],[],[]]';
  assert.deepEqual(JSON.parse(smallerBook(five, ["de"])).map((it) => it.length), [1, 1, 0, 0, 0]);
  assert.equal(new DecimalFormatter("de", { book: new Book(smallerBook(five, ["de"])) }).format("1234.5"), "1.234,5");
});

test("the command", () => {
  const path = fileURLToPath(new URL("make-book.js", root));
  const made = execFileSync(process.execPath, [path, "en", "de"], { encoding: "utf8" });
  assert.equal(made, `${smallerBook(world, ["en", "de"])}\n`);
  for (const [words, status] of [[[], 2], [["--help"], 2], [["zz"], 1], [["de_DE"], 1]]) {
    const ran = spawnSync(process.execPath, [path, ...words], { encoding: "utf8" });
    assert.equal(ran.status, status);
    assert.ok(ran.stderr.length > 0 && ran.stdout === "");
  }
});

const run = (code) => execFileSync(process.execPath, ["--input-type=module", "--eval", code], { encoding: "utf8", cwd: fileURLToPath(new URL(".", import.meta.url)) });

test("what is inside is ready by init, and not before", () => {
  const said = run(`
    import { Book, DecimalFormatter, init, version } from "legumeyet/inline";
    const refused = [() => new DecimalFormatter("en"), () => new Book("[]"), () => version()].map((call) => { try { call(); return "well"; } catch (error) { return /init\\(\\)/.test(error.message); } });
    await Promise.all([init(), init()]);
    await init();
    console.log(refused.join(), new DecimalFormatter("de").format("1234.5"));
  `);
  assert.equal(said, "true,true,true 1.234,5\n");
});

test("a module and a book of one's own", () => {
  const said = run(`
    import { readFileSync } from "node:fs";
    import { createRequire } from "node:module";
    import { DecimalFormatter, load, setWorld } from "legumeyet/core";
    import { smallerBook } from "legumeyet/smaller";
    const bytes = (name) => readFileSync(createRequire(process.cwd() + "/").resolve("legumeyet/" + name));
    await load(new Response(bytes("legumeyet.wasm")));
    setWorld(smallerBook(String(bytes("world.json")), ["de"]));
    console.log(new DecimalFormatter("de-AT").format("1234.5"), new DecimalFormatter("fr", { fallback: "de" }).format("1234.5"));
  `);
  assert.equal(said, "1\u00a0234,5 1.234,5\n");
});
