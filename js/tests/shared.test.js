// Formatters that are alike share one of the module, and all of them together have a bound.
import assert from "node:assert/strict";
import { readFileSync } from "node:fs";
import { createRequire } from "node:module";
import { test } from "node:test";
import { pathToFileURL } from "node:url";
import { Worker } from "node:worker_threads";
import { Book, CompactDecimalFormatter, CurrencyFormatter, DecimalFormatter, ErrorNumber, LegumeyetError, PercentFormatter } from "legumeyet";
import { memorySize } from "legumeyet/core";
import locales from "legumeyet/locales";

const MEBIBYTE = 1 << 20;
const root = createRequire(import.meta.url).resolve("legumeyet/legumeyet.wasm");
const json = readFileSync(new URL("world.json", pathToFileURL(root)));
const isClosed = (error) => error instanceof LegumeyetError && error.number === ErrorNumber.CLOSED;

function grows(call) {
  const before = memorySize();
  call();
  return memorySize() - before;
}

test("600,000 formatters in one turn take no memory that grows", () => {
  new DecimalFormatter("en").format(1);
  assert.equal(grows(() => { for (let i = 0; i < 600000; i += 1) new DecimalFormatter("en").format(1); }), 0);
});

test("formatters of many locales and options in one turn have a bound", () => {
  const kinds = [
    (tag, i) => new DecimalFormatter(tag, { maximumFractionDigits: i % 7 }), (tag) => new CompactDecimalFormatter(tag, { compactDisplay: "long" }),
    (tag, i) => new CurrencyFormatter(tag, { currency: ["EUR", "USD", "JPY"][i % 3] }), (tag, i) => new PercentFormatter(tag, { minimumIntegerDigits: 1 + (i % 50) }),
  ];
  const round = () => { for (let i = 0; i < 20000; i += 1) kinds[i % 4](locales[(i * 7) % locales.length], i).format(1234.5); };
  round();
  const grown = grows(() => { round(); round(); });
  assert.ok(grown <= MEBIBYTE, `${grown}`);
});

test("so have those of a book that is not kept", () => {
  const book = new Book(json);
  const round = () => { for (let i = 0; i < 3000; i += 1) new CurrencyFormatter(locales[i % locales.length], { book, currency: "EUR", minimumIntegerDigits: 1 + (i % 20) }).format(1); };
  round();
  const grown = grows(() => { round(); round(); });
  assert.ok(grown <= 4 * MEBIBYTE, `${grown}`);
  book.close();
});

test("more formatters than are open at once, used in turn", () => {
  const codes = Array.from({ length: 2500 }, (_, at) => [676, 26, 1].map((by) => String.fromCharCode(65 + (Math.floor(at / by) % 26))).join(""));
  const all = codes.map((currency, at) => new CurrencyFormatter("de", { currency, currencyDisplay: "code", minimumIntegerDigits: 1 + (at % 50), roundingMode: "floor" }));
  for (let turn = 0; turn < 3; turn += 1) all.forEach((it, at) => assert.deepEqual([it.shown(5).split(".")[0].length, it.format(5).slice(-3)], [1 + (at % 50), codes[at]]));
  const columns = all.slice(0, 1500);
  const meanwhile = { *[Symbol.iterator]() { for (const it of columns) yield it.format(1).length; } };
  assert.equal(new DecimalFormatter("de").formatAll(meanwhile).length, 1500);
});

test("of two that are alike one is closed", () => {
  const book = new Book(json);
  for (const options of [{}, { book }]) {
    const made = () => [
      new DecimalFormatter("de", options), new CompactDecimalFormatter("de", options), new PercentFormatter("de", options), new CurrencyFormatter("de", { ...options, currency: "EUR" }),
    ];
    const [some, others] = [made(), made()];
    for (const [at, it] of some.entries()) {
      const wanted = it.format("1234.5");
      it.close();
      it.close();
      assert.ok(it.closed && !others[at].closed);
      for (const call of [() => it.format(1), () => it.formatToParts(1), () => it.formatAll([])]) assert.throws(call, isClosed);
      assert.equal(others[at].format("1234.5"), wanted);
      assert.equal(made()[at].format("1234.5"), wanted);
      assert.ok(it.resolvedOptions().locale === "de");
    }
    assert.throws(() => some[0].read("1"), isClosed);
    assert.throws(() => some[1].shown("1"), isClosed);
    assert.throws(() => some[1].formatExact("1c3"), isClosed);
  }
  book.close();
});

test("compact formatters that are alike round each number by itself", () => {
  const [one, other] = [new CompactDecimalFormatter("en"), new CompactDecimalFormatter("en")];
  const even = new CompactDecimalFormatter("en", { roundingMode: "halfEven" });
  for (let turn = 0; turn < 3; turn += 1) {
    assert.deepEqual([one.format(1650), other.format(1234567), even.format(1650), other.formatExact("1.25c3"), one.format(15.5)], ["1.7K", "1.2M", "1.6K", "1.25K", "16"]);
  }
});

test("books of one name are apart, and the world's may change", () => {
  const bookOf = (mark) => new Book(`[[["en","","latn","-","","+","","${mark}",",",3,3,1]],[["latn","0123456789"]],[],[],[]]`);
  const [one, other] = [bookOf("."), bookOf("!")];
  assert.deepEqual([one, other].map((book) => new DecimalFormatter("en", { book }).format("1.5")), ["1.5", "1!5"]);
  const before = new DecimalFormatter("en", { book: one });
  one.keep();
  assert.equal(new DecimalFormatter("en", { book: one }).format("1.5"), before.format("1.5"));
  other.close();
  assert.throws(() => new DecimalFormatter("en", { book: other }), isClosed);
});

test("books that are dropped with their formatters are let go", async () => {
  const registry = [];
  for (let i = 0; i < 300; i += 1) {
    const book = new Book(`[[["en","","latn","-","","+","",".",",",3,3,1]],[["latn","0123456789"]],[],[],[]]${" ".repeat(100000)}`);
    new DecimalFormatter("en", { book }).format(1);
    registry.push(new WeakRef(book));
    if (i % 50 === 49) await new Promise((well) => setTimeout(well, 5));
  }
  const { setFlagsFromString } = await import("node:v8");
  const { runInNewContext } = await import("node:vm");
  setFlagsFromString("--expose-gc");
  runInNewContext("gc")();
  await new Promise((well) => setTimeout(well, 20));
  assert.ok(registry.filter((it) => it.deref() === undefined).length > 250);
});

test("workers have formatters of their own", async () => {
  const code = 'const { parentPort } = require("node:worker_threads"); import("legumeyet").then(({ DecimalFormatter }) => { for (let i = 0; i < 5000; i += 1) new DecimalFormatter("hi"); parentPort.postMessage(new DecimalFormatter("hi").format(1234567)); });';
  const texts = await Promise.all([1, 2, 3].map(() => new Promise((well, ill) => new Worker(code, { eval: true }).on("message", well).on("error", ill))));
  assert.deepEqual(texts, Array(3).fill("12,34,567"));
});
