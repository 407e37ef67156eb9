// Answers to many request lines, well and badly: each answer is the one that its book gives to the line.
import assert from "node:assert/strict";
import { readFileSync } from "node:fs";
import { createRequire } from "node:module";
import { test } from "node:test";
import { Answers, Book, ErrorNumber, LegumeyetError } from "legumeyet";

const JSON_OF_ONE = '[[["en","","latn","-","","+","",".",",",3,3,1]],[["latn","0123456789"]],[],[],[]]';
const world = new Book(readFileSync(createRequire(import.meta.url).resolve("legumeyet/world.json"))).keep();
const encoder = new TextEncoder();
const decoder = new TextDecoder("utf-8", { ignoreBOM: true });
const lineOf = (tag, number, form = "plain") => `${tag}\t${form}\tauto\tkeep\t-\t${number}`;

function refuses(number, call) {
  assert.throws(call, (error) => error instanceof LegumeyetError && error.number === number, String(number));
}

test("many lines, by answers of each capacity", () => {
  const tags = ["de", "hi", "ar-EG", "fr", "en-IN", "zz", "e", "mr"];
  const forms = ["plain", "short", "long", "read-lenient", "currency-EUR", "percent", "read", "x"];
  const lines = Array.from({ length: 3000 }, (_, at) => lineOf(tags[at % 8], `${at % 3 === 0 ? "-" : ""}${at * 7919}.${at % 10}`, forms[(at >> 3) % 8]));
  lines.push("", "\t\t\t\t\t", lineOf("en", "\ufeff1"), "\ufeff", lineOf("en", "😀", "read"));
  const wanted = lines.map((line) => `${world.answer(line)}\n`).join("");
  const text = `${lines.join("\n")}\n`;
  for (const it of [new Answers(), new Answers(world), new Answers(world, 1), new Answers(undefined, 3)]) {
    assert.equal(it.answer(text), wanted);
    assert.equal(it.answer(text.slice(0, -1)), wanted);
    const bytes = it.answer(encoder.encode(text));
    assert.ok(bytes instanceof Uint8Array);
    assert.equal(decoder.decode(bytes), wanted);
    assert.equal(decoder.decode(it.answer(Buffer.from(text.slice(0, -1)))), wanted);
    assert.equal(decoder.decode(it.answer(encoder.encode(`x${text}x`).subarray(1, -1))), wanted);
    it.close();
  }
});

test("lines that begin and end at each place of a piece", () => {
  const it = new Answers();
  const line = lineOf("de", "1234.5");
  const answer = "ok\t1.234,5\n";
  for (let length = (1 << 16) - line.length - 3; length < (1 << 16) + 3; length += 1) {
    const long = "x".repeat(length);
    for (const [lines, wanted] of [[`${long}\n${line}\n`, `err\tshape\n${answer}`], [`${line}\n${long}`, `${answer}err\tshape\n`], [`${long}\n${line}\n${long}`, `err\tshape\n${answer}err\tshape\n`]]) {
      assert.equal(it.answer(lines), wanted);
      assert.equal(decoder.decode(it.answer(encoder.encode(lines))), wanted);
    }
  }
  assert.equal(it.answer("\n".repeat(200000)), "err\tshape\n".repeat(200000));
  assert.equal(it.answer(`${line}\n`.repeat(20000)), answer.repeat(20000));
});

test("long lines and long answers", () => {
  const it = new Answers();
  for (const length of [100, 500, 511, 512, 513, 12281, 12282, 12283, 16380, 16384, 30000, 32767, 32768]) {
    const line = lineOf("ar-EG", "7".repeat(length));
    const wanted = `${world.answer(line)}\n`;
    assert.equal(it.answer(`${line}\n${line}\nx\n${line}`), `${wanted}${wanted}err\tshape\n${wanted}`);
  }
  assert.equal(it.answer("x".repeat(1e6)), "err\tshape\n");
  assert.equal(it.answer(lineOf("en", "1")), "ok\t1\n");
});

test("no line, and lines that are no text", () => {
  const it = new Answers();
  assert.equal(it.answer(""), "");
  assert.deepEqual(it.answer(new Uint8Array(0)), new Uint8Array(0));
  assert.equal(it.answer("\n"), "err\tshape\n");
  assert.equal(decoder.decode(it.answer(new Uint8Array([0xff, 10, 0]))), "err\tshape\nerr\tshape\n");
  const [half, whole] = [lineOf("en", "\ud800", "read"), lineOf("en", "5")];
  assert.equal(it.answer(`${half}\n${whole}\n${half}\n\udc00`), "err\tshape\nok\t5\nerr\tshape\nerr\tshape\n");
  assert.equal(it.answer(half), `${world.answer(half)}\n`);
  for (const wrong of [undefined, null, 5, [], ["x"], {}, new Uint16Array(2), new ArrayBuffer(2)]) assert.throws(() => it.answer(wrong), TypeError);
});

test("what opens no answers", () => {
  const book = new Book(JSON_OF_ONE);
  refuses(ErrorNumber.UNKEPT, () => new Answers(book));
  assert.throws(() => new Answers(book), /keep\(\)/);
  assert.equal(book.answer(lineOf("en", "1234")), "ok\t1,234");
  for (const capacity of [0, -1, 1.5, NaN, Infinity, 2 ** 32, "5", null, 5n, {}]) assert.throws(() => new Answers(world, capacity), RangeError);
  refuses(ErrorNumber.MEMORY, () => new Answers(world, 2 ** 32 - 1));
  for (const wrong of [5, "[]", {}, world.constructor]) assert.throws(() => new Answers(wrong), TypeError);
  assert.throws(() => new Answers(null), TypeError);
  book.close();
  refuses(ErrorNumber.CLOSED, () => new Answers(book));
});

test("answers and their book are closed", () => {
  const book = new Book(JSON_OF_ONE).keep();
  const it = new Answers(book, 10000);
  book.close();
  assert.equal(it.answer(lineOf("en", "1234")), "ok\t1,234\n");
  assert.equal(it.closed, false);
  it.close();
  it.close();
  assert.ok(it.closed);
  for (const lines of ["", "x", "x\n", new Uint8Array(0)]) refuses(ErrorNumber.CLOSED, () => it.answer(lines));
  if (Symbol.dispose) {
    const other = new Answers();
    other[Symbol.dispose]();
    assert.ok(other.closed);
  }
});
