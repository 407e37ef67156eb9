// Many numbers by one call, well and badly.
import assert from "node:assert/strict";
import { test } from "node:test";
import { Book, CompactDecimalFormatter, CurrencyFormatter, DecimalFormatter, ErrorNumber, LegumeyetError, PercentFormatter, ScientificFormatter } from "legumeyet";

const en = new DecimalFormatter("en");
const formatters = [
  en, new DecimalFormatter("ar-EG", { position: -2 }), new DecimalFormatter("fr"), new CompactDecimalFormatter("hi", { compactDisplay: "long" }),
  new PercentFormatter("tr"), new CurrencyFormatter("de", { currency: "EUR" }), new CurrencyFormatter("en", { currency: "USD", currencySign: "accounting" }),
  new ScientificFormatter("ps", { notation: "engineering", maximumFractionDigits: 2 }),
];

// The call is refused by the error of this number, of the number at this place.
function refuses(number, at, call) {
  assert.throws(call, (error) => error instanceof LegumeyetError && error.number === number && error.message.endsWith(`: the number at ${at}`));
}

test("columns of each kind", () => {
  const numbers = [0, -0, 1, -1234.5, 0.1 + 0.2, 1e21, 1e-7, 5e-324, 987654321.25, 1172700];
  const whole = [0n, -1n, 1234567n, 2n ** 63n - 1n, -(2n ** 63n)];
  for (const formatter of formatters) {
    for (const times of [1, 51, 52, 400]) {
      const many = Array.from({ length: times }, () => numbers).flat();
      const wanted = many.map((it) => formatter.format(it));
      assert.deepEqual(formatter.formatAll(many), wanted);
      assert.deepEqual(formatter.formatAll(new Float64Array(many)), wanted);
      assert.deepEqual(formatter.formatAll(many.map(String)), many.map((it) => formatter.format(String(it))));
      assert.deepEqual(formatter.formatAll(new Set(many)), [...new Set(many)].map((it) => formatter.format(it)));
      const integers = Array.from({ length: times }, () => whole).flat();
      assert.deepEqual(formatter.formatAll(new BigInt64Array(integers)), integers.map((it) => formatter.format(it)));
      assert.deepEqual(formatter.formatAll(integers), integers.map((it) => formatter.format(it)));
    }
    const mixed = [1234, "5.50", 7n, "1e+21", -0, 2n ** 70n, "+5"];
    assert.deepEqual(formatter.formatAll(mixed), mixed.map((it) => formatter.format(it)));
    assert.deepEqual(formatter.formatAll((function* () { yield* mixed; })()), mixed.map((it) => formatter.format(it)));
  }
  assert.deepEqual(en.formatAll(new Int16Array([-32768, 0, 1234])), ["-32,768", "0", "1,234"]);
  assert.deepEqual(en.formatAll(new Float32Array([0.5, 0.1])), ["0.5", en.format(Math.fround(0.1))]);
  assert.deepEqual(en.formatAll(new BigUint64Array([2n ** 64n - 1n])), ["18,446,744,073,709,551,615"]);
  assert.deepEqual(en.formatAll(new Float64Array([1, 2, 3]).subarray(1)), ["2", "3"]);
  assert.deepEqual(en.formatAll([1, 2].map((it) => it * 1000)), ["1,000", "2,000"]);
  class Own extends Float64Array { constructor(...given) { if (given.length > 1) throw new SyntaxError("x"); super(...given); } }
  assert.deepEqual(en.formatAll(new Own([1, 2.5])), ["1", "2.5"]);
});

test("columns that are empty, and texts that are long", () => {
  for (const none of [[], new Float64Array(0), new BigInt64Array(0), new Set(), new Map().values()]) assert.deepEqual(en.formatAll(none), []);
  const long = "1".repeat(30000);
  assert.deepEqual(en.formatAll([long, "5", long]), [long, "5", long].map(en.format));
  assert.deepEqual(en.formatAll(Array(40).fill(long)), Array(40).fill(en.format(long)));
  assert.deepEqual(en.formatAll(new Float64Array(600).fill(Number.MAX_VALUE)), Array(600).fill(en.format(Number.MAX_VALUE)));
  const wide = new DecimalFormatter("ar-EG", { minimumFractionDigits: 20000 });
  assert.deepEqual(wide.formatAll(new Float64Array([1, 2])), [wide.format(1), wide.format(2)]);
});

test("numbers that are none", () => {
  for (const before of [0, 1, 511, 512, 513, 5000]) {
    const ones = Array(before).fill(1);
    for (const wrong of [NaN, Infinity, "5.", "", "\n", "1\n2", "1\n", "٣", "\ud800", "1\r"]) {
      refuses(ErrorNumber.NUMBER, before, () => en.formatAll([...ones, wrong]));
      refuses(ErrorNumber.NUMBER, before, () => en.formatAll([...ones, wrong, 2, NaN]));
      refuses(ErrorNumber.NUMBER, before, () => en.formatAll([...ones.map(String), wrong, "2"]));
      if (typeof wrong === "number") refuses(ErrorNumber.NUMBER, before, () => en.formatAll(new Float64Array([...ones, wrong, 1])));
    }
    refuses(ErrorNumber.LIMIT, before, () => en.formatAll([...ones, "1e40000"]));
    for (const wrong of [null, undefined, {}, true, Symbol("x")]) assert.throws(() => en.formatAll([...ones, wrong]), TypeError);
  }
  for (const wrong of [undefined, null, 5, "12", 5n, {}, true, Symbol("x")]) assert.throws(() => en.formatAll(wrong), TypeError);
  assert.throws(() => en.formatAll((function* () { yield 1; throw new SyntaxError("x"); })()), SyntaxError);
  assert.equal(en.format(1234), "1,234");
});

test("what is closed, and what is closed meanwhile", () => {
  const closed = new DecimalFormatter("en");
  closed.close();
  for (const numbers of [[], [1], ["1"], ["\n"], new Float64Array(0), new Float64Array(1), new BigInt64Array(1)]) {
    assert.throws(() => closed.formatAll(numbers), (error) => error.number === ErrorNumber.CLOSED && !error.message.includes("number at"));
  }
  const meddled = new DecimalFormatter("en");
  const closes = { *[Symbol.iterator]() { yield 1; meddled.close(); yield 2; } };
  assert.throws(() => meddled.formatAll(closes), (error) => error.number === ErrorNumber.CLOSED);
  const nested = { *[Symbol.iterator]() { yield 1; yield en.formatAll([1234])[0].length; } };
  assert.deepEqual(en.formatAll(nested), ["1", "5"]);
  const own = new DecimalFormatter("en", { book: new Book('[[["en","","latn","-","","+","",".",",",3,3,1]],[["latn","0123456789"]],[],[],[]]') });
  assert.deepEqual(own.formatAll([1234, 0.5]), ["1,234", "0.5"]);
});
