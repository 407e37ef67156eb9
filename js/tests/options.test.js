// Options that a call is given, in place of those of its formatter.
import assert from "node:assert/strict";
import { test } from "node:test";
import { CompactDecimalFormatter, CurrencyFormatter, DecimalFormatter, LegumeyetError, PercentFormatter, ScientificFormatter } from "legumeyet";

const MODES = [undefined, "expand", "trunc", "ceil", "floor", "halfExpand", "halfTrunc", "halfCeil", "halfFloor", "halfEven"];
const SIGNS = ["keep", "auto", "never", "always", "exceptZero", "negative"].map((signDisplay) => ({ signDisplay }));
const NUMBERS = ["0", "-0", "+5", "1650", "-1250", "1.005", "-2.325", "0.0125", "999999.995", "1234567", 2.5, -7n];
const DIGITS = [
  {}, ...SIGNS, { maximumFractionDigits: 0 }, { minimumFractionDigits: 1, maximumFractionDigits: 2 }, { minimumIntegerDigits: 4 }, { position: 2 }, { position: -1, roundingIncrement: 5 },
  { maximumSignificantDigits: 3 }, { minimumSignificantDigits: 3, trailingZeroDisplay: "stripIfInteger" }, { maximumSignificantDigits: 2, maximumFractionDigits: 1, roundingPriority: "lessPrecision" },
  ...MODES.map((roundingMode) => ({ maximumFractionDigits: 1, roundingMode })),
];
const SHOWN = [...SIGNS, { position: 2, roundingIncrement: 5 }, ...MODES.flatMap((roundingMode) => [{ roundingMode }, { roundingMode, position: 2 }])];
const AMOUNTS = [...DIGITS, ...["standard", "cash", "given"].map((currencyDigits) => ({ currencyDigits })), ...MODES.map((roundingMode) => ({ currencyDigits: "cash", roundingMode })), { roundingIncrement: 5 }];
const KINDS = [
  [DecimalFormatter, {}, { position: -3, signDisplay: "always" }, DIGITS], [PercentFormatter, {}, { minimumIntegerDigits: 3 }, DIGITS], [CompactDecimalFormatter, { compactDisplay: "long" }, { roundingMode: "ceil" }, SHOWN],
  [CurrencyFormatter, { currency: "CHF", currencySign: "accounting" }, { roundingMode: "floor", minimumFractionDigits: 3 }, AMOUNTS], [ScientificFormatter, { notation: "engineering" }, { maximumFractionDigits: 2, signDisplay: "always" }, DIGITS],
];

test("a call with options is one of a formatter that has them", () => {
  for (const [Type, format, own, choices] of KINDS) {
    for (const locale of ["en", "ar-EG"]) {
      const [it, alike] = [new Type(locale, { ...format, ...own }), new Type(locale, { ...format, ...own })];
      const before = NUMBERS.map((number) => it.format(number));
      for (const options of choices) {
        const other = new Type(locale, { ...format, ...options });
        const wanted = NUMBERS.map((number) => other.format(number));
        assert.deepEqual(NUMBERS.map((number) => it.format(number, options)), wanted, JSON.stringify(options));
        assert.deepEqual(it.formatAll(NUMBERS, options), wanted);
        assert.deepEqual(it.formatAll(Float64Array.of(1650, -2.325), options), other.formatAll([1650, -2.325]));
        for (const number of ["-1250", "2.5"]) {
          assert.deepEqual([it.formatToParts(number, options), it.shown(number, options)], [other.formatToParts(number), other.shown(number)]);
          if (Type !== ScientificFormatter) assert.equal(it.formatExact(other.shown(number), options), other.formatExact(other.shown(number)));
        }
        assert.equal(alike.format(NUMBERS[4]), before[4]);
      }
      assert.deepEqual(NUMBERS.map((number) => it.format(number)), before);
    }
  }
});

test("each option is read once, of what an object inherits too, and none is changed", () => {
  for (const [Type, format, own] of KINDS) {
    const options = Object.freeze({ ...format, ...own });
    const reads = [];
    const getters = Object.entries(options).map(([name, value]) => [name, { get: () => (reads.push(name), value) }]);
    const [wanted, it] = [options, Object.create(Object.create({}, Object.fromEntries(getters)))].map((one) => new Type("en", one));
    assert.deepEqual(reads.sort(), Object.keys(options).sort());
    assert.deepEqual([it.resolvedOptions(), NUMBERS.map((number) => it.format(number))], [wanted.resolvedOptions(), NUMBERS.map((number) => wanted.format(number))]);
  }
});

test("a number beside a number says nothing", () => {
  const it = new DecimalFormatter("en", { minimumFractionDigits: 1 });
  assert.deepEqual([1, "2", 3n].map(it.format), ["1.0", "2.0", "3.0"]);
  assert.deepEqual(Array.from(new Set([1234, 5]), it.format), ["1,234.0", "5.0"]);
  assert.equal(it.format(1, undefined), "1.0");
});

test("options that a call has not", () => {
  const [it, short, euros] = [new DecimalFormatter("en"), new CompactDecimalFormatter("en"), new CurrencyFormatter("en", { currency: "EUR" })];
  const calls = [(one, options) => one.format(1, options), (one, options) => one.formatAll([1], options), (one, options) => one.formatToParts(1, options), (one, options) => one.shown(1, options), (one, options) => one.formatExact("1", options)];
  for (const call of calls) {
    for (const wrong of [null, "x", true, 5n, Symbol("x"), () => 1]) assert.throws(() => call(it, wrong), TypeError);
    const rows = [
      [it, "useGrouping", false], [it, "book", null], [it, "fallback", "en"], [it, "skeleton", ""], [it, "currencyDigits", "cash"], [it, "style", "percent"], [it, "signDisplay", "x"], [it, "roundingMode", "floor"], [it, "position", 1.5],
      [short, "compactDisplay", "long"], [short, "maximumFractionDigits", 1], [euros, "currency", "USD"], [euros, "currencySign", "accounting"], [euros, "roundingIncrement", 3],
    ];
    for (const [one, name, value] of rows) assert.throws(() => call(one, { [name]: value }), (error) => error instanceof RangeError && !(error instanceof LegumeyetError) && error.message.includes(name), name);
  }
  assert.deepEqual([it.format(1234), short.format(1650), euros.format(1)], ["1,234", "1.7K", "€1.00"]);
});

test("each formatter shows and takes exact forms, and reads", () => {
  const [it, euros, short] = [new DecimalFormatter("en", { maximumFractionDigits: 1 }), new CurrencyFormatter("de", { currency: "EUR" }), new CompactDecimalFormatter("en")];
  assert.deepEqual([it.shown("1234.56"), it.formatExact("1.20"), euros.shown("5"), euros.shown("1.005"), euros.formatExact("1.2")], ["1234.6", "1.2", "5.00", "1.01", "1,20\u00a0€"]);
  assert.throws(() => it.formatExact("1.2c3"), { name: "LegumeyetError", number: 13 });
  assert.throws(() => it.formatExact("1e3"), { name: "LegumeyetError", number: 7 });
  for (const read of ["read", "readLenient"]) assert.throws(() => short[read]("1.6K"), { name: "LegumeyetError", number: 11 });
  assert.throws(() => short.read("\ud800"), { name: "LegumeyetError", number: 10 });
});
