// Nothing is lost: where JavaScript's stack runs out inside a call, where a call traps, and where books and answers are dropped.
import assert from "node:assert/strict";
import { readFileSync } from "node:fs";
import { pathToFileURL } from "node:url";
import { createRequire } from "node:module";
import { test } from "node:test";
import { setFlagsFromString } from "node:v8";
import { runInNewContext } from "node:vm";
import { Answers, Book, CompactDecimalFormatter, CurrencyFormatter, DecimalFormatter, LegumeyetError, NumberFormatter, PercentFormatter, normalSkeleton } from "legumeyet";
import { memorySize } from "legumeyet/core";

// The package's own module of the instance, which is in no export.
const root = createRequire(import.meta.url).resolve("legumeyet/legumeyet.wasm");
const instance = await import(new URL("library.js", pathToFileURL(root)));

setFlagsFromString("--expose-gc");
const gc = runInNewContext("gc");

const JSON_OF_ONE = '[[["en","","latn","-","","+","",".",",",3,3,1]],[["latn","0123456789"]],[["en",[]]],[["en","",[[3,3,[["other",["","K"]]]]],null]],[]]';

// Makes a call on each of the last 400 steps of the stack, from where nothing fits to where all does.
function onLastSteps(call) {
  const outcomes = { well: 0, refused: 0, others: [] };
  let left = 400;
  const once = () => {
    try {
      call();
      outcomes.well += 1;
    } catch (error) {
      if (error instanceof RangeError && !(error instanceof LegumeyetError)) outcomes.refused += 1;
      else outcomes.others.push(error);
    }
  };
  const deeper = () => {
    try {
      deeper();
    } catch (error) {
      left -= 1;
      if (left >= 0) once();
      throw error;
    }
  };
  once(); // it is compiled while there is room
  assert.throws(deeper, RangeError);
  return outcomes;
}

const book = new Book(JSON_OF_ONE);
const world = new DecimalFormatter("de", { minimumFractionDigits: 2, maximumFractionDigits: 2 });
const short = new CompactDecimalFormatter("en");
const euros = new CurrencyFormatter("de", { currency: "EUR" });
const percents = new PercentFormatter("tr");
const dollars = new NumberFormatter("en", { skeleton: "currency/USD sign-accounting" });
const own = new DecimalFormatter("en", { book });
const ofClosed = new Book(JSON_OF_ONE);
const orphan = new DecimalFormatter("en", { book: ofClosed, useGrouping: false });
ofClosed.close();
const answers = new Answers();
const kept = new Book(JSON_OF_ONE).keep();
const few = new Answers(kept, 1);
kept.close();
const LINES = "en\tplain\tauto\tkeep\t-\t1234\nen\tshort\tauto\tkeep\t-\t1650\n";

function areWell() {
  assert.equal(world.format("-1234567.5"), "-1.234.567,50");
  assert.equal(world.read("-1.234.567,50"), "-1234567.50");
  assert.equal(short.format("1650"), "1.7K");
  assert.equal(euros.format("1234.5"), "1.234,50\u00a0€");
  assert.equal(percents.read("-%12,5"), "-12.5");
  assert.equal(dollars.format("-5"), "($5.00)");
  assert.equal(own.format("1234"), "1,234");
  assert.deepEqual(world.formatAll([1234567.5, "2"]), ["1.234.567,50", "2,00"]);
  assert.equal(orphan.format("1234"), "1234");
  assert.equal(book.answer("en\tplain\tauto\tkeep\t-\t1234"), "ok\t1,234");
  for (const it of [answers, few]) assert.equal(it.answer(LINES), "ok\t1,234\nok\t1.6K\t1.6c3\n");
  assert.ok(ofClosed.closed && kept.closed);
}

function trap() {
  assert.throws(() => instance.written(0x7fffff00, instance.calls.js_formatter_format, instance.NONE, "1"), WebAssembly.RuntimeError);
}

test("where the stack runs out inside a call, the next one is well", () => {
  const calls = [
    () => world.format("1234567.5"), () => world.format(1234567.5), () => world.read("-1.234.567,50"), () => world.formatToParts("1234567.5"), () => short.shown("1234567"),
    () => book.answer("en\tplain\tauto\tkeep\t-\t1234"), () => new DecimalFormatter("hi").close(), () => new CompactDecimalFormatter("hi", { compactDisplay: "long" }).close(),
    () => new Book(JSON_OF_ONE).close(), () => orphan.format("1"), () => euros.formatToParts("-1234.5"), () => euros.read("1.234,50\u00a0€"), () => percents.format(5),
    () => new CurrencyFormatter("hi", { currency: "INR" }).close(), () => book.locales(),
    () => dollars.format("-1234.5"), () => new NumberFormatter("hi", { skeleton: ".00" }).close(), () => normalSkeleton("currency/EUR .00"), () => world.format("1.25", { maximumFractionDigits: 1 }), () => euros.format("1", { currencyDigits: "cash" }),
    () => world.formatAll([1234567.5, 2]), () => euros.formatAll(["1234.5", "2"]), () => percents.formatAll(new BigInt64Array(3)),
    () => answers.answer(LINES), () => few.answer(LINES), () => new Answers(undefined, 1).close(),
  ];
  let lost = 0;
  for (const call of calls) {
    const before = instance.age;
    const { well, refused, others } = onLastSteps(call);
    assert.deepEqual(others, []);
    assert.ok(well > 0 && refused > 0, `${well} ${refused}`);
    areWell();
    lost += instance.age - before;
  }
  assert.ok(lost > 0, "no call ran out of stack inside the module");
});

test("after a trap there is a new instance", () => {
  for (let i = 0; i < 3; i += 1) {
    const before = instance.age;
    trap();
    areWell();
    assert.equal(instance.age, before + 1);
  }
});

test("a kept book that was closed is opened once in a new instance", () => {
  const all = new Book(readFileSync(new URL("world.json", pathToFileURL(root)))).keep();
  const formatters = Array.from({ length: 20 }, () => new DecimalFormatter("de", { book: all }));
  all.close();
  trap();
  assert.equal(formatters[0].format("1234"), "1.234");
  const before = memorySize();
  for (const it of formatters) assert.equal(it.format("1234"), "1.234");
  assert.ok(memorySize() <= before + (1 << 20), `${before} ${memorySize()}`);
});

test("a refused call keeps its instance", () => {
  const before = instance.age;
  for (const call of [() => world.format("5."), () => world.read("x"), () => new DecimalFormatter("zz"), () => new Book("["), () => short.format("9".repeat(32768))]) assert.throws(call, LegumeyetError);
  areWell();
  assert.equal(instance.age, before);
});

test("where memory is refused, the call says so, and its formatter stays", () => {
  const before = instance.age;
  for (let size = 1 << 30; size >= 1 << 11; size >>= 1) while (instance.calls.js_large_in(size) !== 0);
  instance.calls.js_let_go();
  const next = () => {
    const at = instance.calls.js_new();
    instance.calls.js_book_close(at);
    return at;
  };
  const isRefused = (error) => error instanceof LegumeyetError && error.number === 1;
  const free = next();
  assert.throws(() => new Book(" ".repeat(1e6)), isRefused);
  assert.equal(next(), free, "a handle was lost");
  for (const call of [() => world.format("1".repeat(30000)), () => world.formatAll(["1".repeat(30000)]), () => world.read("x".repeat(1e6)), () => answers.answer("x".repeat(1e6)), () => new Answers(undefined, 1 << 24), () => new Book(" ".repeat(1e6)), () => new Book(JSON_OF_ONE)]) {
    assert.throws(call, isRefused);
  }
  assert.equal(world.format("-1234567.5"), "-1.234.567,50");
  assert.equal(instance.age, before);
  trap();
  areWell();
});

test("after what is no module the right one may be given", async () => {
  const { LoadError, load, loadSync, memorySize: size } = await import(new URL("library.js?fresh", pathToFileURL(root)));
  const empty = new Uint8Array([0, 0x61, 0x73, 0x6d, 1, 0, 0, 0]);
  const typed = { headers: { "content-type": "application/wasm" } };
  const cut = () => new ReadableStream({ pull: (it) => it.error(new Error("cut")) });
  const rows = [
    [new Uint8Array(0), "module"], [empty, "module"], [new WebAssembly.Module(empty), "module"], [new Response("", { status: 404 }), "fetch"], [new Response("x"), "module"],
    [new Response("x", typed), "module"], [new Response(empty, typed), "module"], [new Response(cut(), typed), "fetch"], [new Response(cut()), "fetch"],
  ];
  for (const [source, reason] of rows) {
    const isTold = (error) => error instanceof LoadError && error.file === "legumeyet.wasm" && error.reason === reason;
    await assert.rejects(load(source), isTold);
    if (!(source instanceof Response)) assert.throws(() => loadSync(source), isTold);
  }
  assert.equal(size(), 0);
  await load(new Response(readFileSync(root), typed));
  assert.ok(size() > 0);
});

test("a book that is nested as deep as can be is refused", () => {
  for (const json of ["[".repeat(100000), '{"a":'.repeat(127) + "1" + "}".repeat(127), '{"a":'.repeat(1000), `"${"x".repeat(1e6)}"`, "", "\0"]) assert.throws(() => new Book(json), LegumeyetError);
  areWell();
});

test("what is dropped is closed", { timeout: 120000 }, async () => {
  const round = async () => {
    for (let i = 0; i < 2000; i += 1) new DecimalFormatter("en", { book: new Book(JSON_OF_ONE) });
    for (let i = 0; i < 50; i += 1) new Answers(undefined, 1);
    gc();
    await new Promise((well) => setTimeout(well, 50));
    // what is dropped is closed by tasks of the event loop: where the machine was busy they come only now
    for (let i = 0; i < 50; i += 1) await new Promise((well) => setImmediate(well));
  };
  trap(); // a new and small memory
  areWell();
  await round();
  await round();
  const before = memorySize();
  for (let i = 0; i < 6; i += 1) await round();
  assert.equal(memorySize(), before);
});

test("large texts are let go", () => {
  const text = "7".repeat(32000);
  const written = own.format(text);
  const before = memorySize();
  for (let i = 0; i < 300; i += 1) assert.equal(own.read(own.format(text)), text);
  for (let i = 0; i < 50; i += 1) assert.throws(() => new Book(`[${" ".repeat(1e5)}`), LegumeyetError);
  assert.equal(own.format(text), written);
  assert.ok(memorySize() <= before + (1 << 20), `${before} ${memorySize()}`);
});
