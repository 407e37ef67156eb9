// NumberFormat by the steps of ECMA-402, where no test of other engines is at hand: what is read, in which order, and what is refused.
import assert from "node:assert/strict";
import { createRequire } from "node:module";
import { test } from "node:test";
import { DecimalFormatter, ErrorNumber, LegumeyetError, NumberFormat as Own } from "legumeyet";

// Node 20 and later have the options that are read here.
const isNew = Number(process.versions.node.split(".")[0]) >= 20;
const IN_ORDER = [
  "localeMatcher", "numberingSystem", "style", "currency", "currencyDisplay", "currencySign", "unit", "unitDisplay", "notation", "minimumIntegerDigits", "minimumFractionDigits", "maximumFractionDigits",
  "minimumSignificantDigits", "maximumSignificantDigits", "roundingIncrement", "roundingMode", "roundingPriority", "trailingZeroDisplay", "compactDisplay", "useGrouping", "signDisplay",
];

// A class with what the rows ask of it.
const kindOf = (NumberFormat) => ({
  NumberFormat, isOwn: NumberFormat === Own, resolved: (options, locales = "en") => new NumberFormat(locales, options).resolvedOptions(),
  text: (number, options = {}, locales = "en") => new NumberFormat(locales, options).format(number),
});

/**
 * Tries the library's class, and by the same rows that of Node. Its V8 reads and tells the options in the order of an earlier edition, which takes 20 fraction
 * digits, and it forgets the numbering system of a tag beside an option that there is no system of: `isOwn` leaves these rows to the library's class.
 */
function each(name, run) {
  test(name, () => run(kindOf(Own)));
  test(`${name}, in Node`, { skip: !isNew }, () => run(kindOf(Intl.NumberFormat)));
}

// Each error is of the constructor itself, and no LegumeyetError.
function throwsOwn(wanted, call, said) {
  assert.throws(call, (error) => error.constructor === wanted, said);
}

each("a class as Intl has it", ({ NumberFormat }) => {
  assert.equal(typeof NumberFormat, "function");
  assert.deepEqual([NumberFormat.length, NumberFormat.name], [0, "NumberFormat"]);
  const fixed = { writable: false, enumerable: false, configurable: false };
  assert.deepEqual(Object.getOwnPropertyDescriptor(NumberFormat, "prototype"), { value: NumberFormat.prototype, ...fixed });
  const { prototype } = NumberFormat;
  assert.deepEqual(Object.getOwnPropertyDescriptor(prototype, Symbol.toStringTag), { value: "Intl.NumberFormat", writable: false, enumerable: false, configurable: true });
  const calls = { constructor: 0, formatToParts: 1, formatRange: 2, formatRangeToParts: 2, resolvedOptions: 0 };
  assert.deepEqual(new Set(Object.getOwnPropertyNames(prototype)), new Set([...Object.keys(calls), "format"]));
  for (const [name, length] of Object.entries(calls)) {
    const { value, ...others } = Object.getOwnPropertyDescriptor(prototype, name);
    assert.deepEqual([value.length, value.name, others], [length, name === "constructor" ? "NumberFormat" : name, { writable: true, enumerable: false, configurable: true }]);
  }
  assert.equal(prototype.constructor, NumberFormat);
  const { get, set, enumerable, configurable } = Object.getOwnPropertyDescriptor(prototype, "format");
  assert.deepEqual([get.name, get.length, set, enumerable, configurable], ["get format", 0, undefined, false, true]);
  const { value: supported, ...others } = Object.getOwnPropertyDescriptor(NumberFormat, "supportedLocalesOf");
  assert.deepEqual([supported.length, supported.name, others], [1, "supportedLocalesOf", { writable: true, enumerable: false, configurable: true }]);
  assert.equal(Object.getPrototypeOf(prototype), Object.prototype);
  assert.equal(String(new NumberFormat("en")), "[object Intl.NumberFormat]");
  for (const name of ["formatToParts", "resolvedOptions", "formatRange"]) assert.throws(() => new prototype[name](), TypeError);
});

each("with new and without", ({ NumberFormat }) => {
  for (const it of [NumberFormat("de"), new NumberFormat("de"), NumberFormat.call(undefined, "de"), NumberFormat.call({}, "de"), Reflect.apply(NumberFormat, Intl, ["de"])]) {
    assert.ok(it instanceof NumberFormat);
    assert.equal(Object.getPrototypeOf(it), NumberFormat.prototype);
    assert.equal(it.format(1.5), "1,5");
  }
  class German extends NumberFormat {
    constructor(options) {
      super("de", options);
    }

    format5() {
      return this.format(5.5);
    }
  }
  const german = new German({ minimumFractionDigits: 2 });
  assert.ok(german instanceof German && german instanceof NumberFormat);
  assert.equal(german.format5(), "5,50");
  assert.deepEqual(German.supportedLocalesOf("de"), ["de"]);
  const other = Reflect.construct(NumberFormat, ["de"], Array);
  assert.equal(Object.getPrototypeOf(other), Array.prototype);
  assert.equal(NumberFormat.prototype.formatToParts.call(other, 5)[0].value, "5");
  // what constructors of the first edition did: an object of this prototype is given the format
  const old = Object.create(NumberFormat.prototype);
  assert.equal(NumberFormat.call(old, "de"), old);
  assert.equal(old.format(1.5), "1,5");
  assert.equal(old.resolvedOptions().locale, "de");
  assert.throws(() => old.formatToParts(5), TypeError);
  assert.throws(() => NumberFormat.call(old, "en"), TypeError);
  for (const wrong of [undefined, null, 5, "x", {}, Object.create(NumberFormat.prototype), new DecimalFormatter("en")]) {
    for (const name of ["formatToParts", "resolvedOptions"]) assert.throws(() => NumberFormat.prototype[name].call(wrong, 5), TypeError);
    assert.throws(() => Reflect.get(NumberFormat.prototype, "format", wrong), TypeError);
  }
});

test("options are read once, in order", () => {
  const { NumberFormat } = kindOf(Own);
  const log = [];
  const options = new Proxy({}, { get: (_, name) => void log.push(name), has: () => assert.fail("asked"), ownKeys: () => assert.fail("listed"), getOwnPropertyDescriptor: () => assert.fail("described") });
  new NumberFormat("en", options);
  assert.deepEqual(log, IN_ORDER);
  log.length = 0;
  new NumberFormat("en", new Proxy({}, { get: (_, name) => (log.push(name), { style: "currency", currency: "EUR", notation: "standard", maximumSignificantDigits: 3 })[name] }));
  assert.deepEqual(log, IN_ORDER);
  for (const [at, name] of IN_ORDER.entries()) {
    const read = [];
    const error = new Error(name);
    const fails = new Proxy({}, { get(_, asked) { read.push(asked); if (asked === name) throw error; } });
    assert.throws(() => new NumberFormat("en", fails), (it) => it === error);
    assert.deepEqual(read, IN_ORDER.slice(0, at + 1));
  }
  const matched = [];
  NumberFormat.supportedLocalesOf("en", new Proxy({}, { get: (_, name) => void matched.push(name) }));
  assert.deepEqual(matched, ["localeMatcher"]);
});

test("a wrong option ends the reading where it is looked at", () => {
  const { NumberFormat } = kindOf(Own);
  const ends = { localeMatcher: "x", numberingSystem: "x", style: "x", currency: "x", currencyDisplay: "x", currencySign: "x", unit: "x", unitDisplay: "x", notation: "x", minimumIntegerDigits: 0, roundingIncrement: 3, roundingMode: "x", roundingPriority: "x", trailingZeroDisplay: "x", compactDisplay: "x", useGrouping: "x", signDisplay: "x" };
  for (const [name, value] of Object.entries(ends)) {
    const read = [];
    throwsOwn(RangeError, () => new NumberFormat("en", new Proxy({}, { get: (_, asked) => (read.push(asked), asked === name ? value : undefined) })), name);
    assert.equal(read.at(-1), name);
  }
  // counts of digits are looked at when all of them are read
  for (const name of ["minimumFractionDigits", "maximumFractionDigits", "minimumSignificantDigits", "maximumSignificantDigits"]) {
    const read = [];
    throwsOwn(RangeError, () => new NumberFormat("en", new Proxy({}, { get: (_, asked) => (read.push(asked), asked === name ? -1 : undefined) })), name);
    assert.equal(read.at(-1), "trailingZeroDisplay");
  }
});

each("words that there are not", ({ NumberFormat }) => {
  const rows = {
    localeMatcher: ["", "best", "Lookup", null, 5], style: ["", "Decimal", "number", null], currencyDisplay: ["", "Symbol", "never", null], currencySign: ["", "account", true], unitDisplay: ["", "wide", null],
    notation: ["", "Compact", "simple"], compactDisplay: ["", "Short", "narrow"], signDisplay: ["", "plus", "keep", null], roundingMode: ["", "halfDown", "up"], roundingPriority: ["", "more"], trailingZeroDisplay: ["", "never", "lessPrecision"],
    useGrouping: ["x", "Auto", 5, "1", {}], numberingSystem: ["", "l", "la", "latn-", "-latn", "abcdefghi", "latn_x", "lätn", "latn\u0000"], currency: ["", "EU", "EURO", "E1R", "€UR", "EU\u0130", " EUR", "EUR ", null, "\ud800EU"],
    unit: ["", "Meter", "meters", "meter-per", "per-meter", "meter-per-", "meter-per-second-per-second", "length-meter", "light-year", "meter-per-light-year", "m", null],
  };
  for (const [name, values] of Object.entries(rows)) for (const value of values) throwsOwn(RangeError, () => new NumberFormat("en", { [name]: value }), `${name} ${String(value)}`);
  for (const name of IN_ORDER) throwsOwn(TypeError, () => new NumberFormat("en", { [name]: Symbol("x") }), name);
  throwsOwn(TypeError, () => new NumberFormat("en", { style: "currency" }));
  throwsOwn(TypeError, () => new NumberFormat("en", { style: "unit" }));
  throwsOwn(TypeError, () => new NumberFormat("en", { style: "currency", unit: "meter" }));
  throwsOwn(RangeError, () => new NumberFormat("en", { style: "currency", currency: "x", currencyDisplay: "y" }));
  throwsOwn(TypeError, () => new NumberFormat("en", { style: { toString: null, valueOf: null } }));
});

each("what are words and numbers by conversion", ({ NumberFormat, isOwn, resolved }) => {
  const said = (value) => ({ toString: () => value, valueOf: () => assert.fail("valueOf") });
  assert.deepEqual(resolved({ style: said("percent"), signDisplay: new String("always"), numberingSystem: said(isOwn ? "THAI" : "thai"), maximumFractionDigits: "2", minimumFractionDigits: 1.9 }), { ...resolved(), numberingSystem: "thai", style: "percent", minimumFractionDigits: 1, maximumFractionDigits: 2, signDisplay: "always" });
  assert.equal(resolved({ minimumIntegerDigits: true }).minimumIntegerDigits, 1);
  assert.equal(resolved({ maximumFractionDigits: null }).maximumFractionDigits, 0);
  assert.equal(resolved({ minimumIntegerDigits: { valueOf: () => 3 } }).minimumIntegerDigits, 3);
  assert.equal(resolved({ style: "currency", currency: said("eur") }).currency, "EUR");
  assert.ok(Object.is(resolved({ minimumFractionDigits: -0 }).minimumFractionDigits, 0));
  for (const name of ["minimumIntegerDigits", "minimumFractionDigits", "maximumFractionDigits", "minimumSignificantDigits", "maximumSignificantDigits", "roundingIncrement"]) {
    for (const value of [NaN, Infinity, -1, "x", {}, 101, "Infinity"]) throwsOwn(RangeError, () => new NumberFormat("en", { [name]: value }), `${name} ${String(value)}`);
    throwsOwn(TypeError, () => new NumberFormat("en", { [name]: 1n }), name);
  }
  for (const [name, most] of [["minimumIntegerDigits", 21], ["minimumFractionDigits", isOwn ? 100 : 20], ["maximumFractionDigits", isOwn ? 100 : 20], ["minimumSignificantDigits", 21], ["maximumSignificantDigits", 21]]) {
    assert.equal(resolved({ [name]: most })[name], most);
    throwsOwn(RangeError, () => new NumberFormat("en", { [name]: most + 1 }), name);
  }
  for (const name of ["minimumSignificantDigits", "maximumSignificantDigits"]) throwsOwn(RangeError, () => new NumberFormat("en", { [name]: 0 }), name);
});

each("options that are no object, and inherited ones", ({ NumberFormat, resolved }) => {
  assert.equal(resolved(Object.create({ style: "percent" })).style, "percent");
  assert.equal(resolved(Object.assign(() => {}, { style: "percent" })).style, "percent");
  for (const none of [undefined, {}, Object.create(null), [], 5, "x", true, Symbol("x"), 1n, () => {}]) assert.deepEqual(new NumberFormat("en", none).resolvedOptions(), resolved());
  throwsOwn(TypeError, () => new NumberFormat("en", null));
  throwsOwn(TypeError, () => NumberFormat.supportedLocalesOf("en", null));
  Number.prototype.style = "percent"; // an option that a boxed number has
  try {
    assert.equal(new NumberFormat("en", 5).resolvedOptions().style, "percent");
    assert.equal(new NumberFormat("en").resolvedOptions().style, "decimal");
    Object.prototype.style = "percent";
    assert.equal(new NumberFormat("en").resolvedOptions().style, "decimal");
  } finally {
    delete Number.prototype.style;
    delete Object.prototype.style;
  }
});

each("locales", ({ NumberFormat, resolved, text }) => {
  const machine = new Intl.NumberFormat().resolvedOptions().locale;
  for (const none of [undefined, [], {}, 5, true, "xx", ["xx", "tlh"], "und", "und-Latn"]) assert.equal(new NumberFormat(none).resolvedOptions().locale, machine, String(none));
  for (const wrong of [null, [5], [null], [undefined]]) throwsOwn(TypeError, () => new NumberFormat(wrong), String(wrong));
  for (const wrong of ["", "de_DE", "x", ["en", "de_DE"], ["e"], "en-u", "\ud800"]) throwsOwn(RangeError, () => new NumberFormat(wrong), String(wrong));
  assert.equal(resolved({}, ["xx", "de", "en"]).locale, "de");
  assert.equal(resolved({}, new Intl.Locale("hi", { numberingSystem: "deva" })).locale, "hi-u-nu-deva");
  assert.equal(resolved({}, "DE-at-u-co-phonebk-x-foo").locale, "de-AT");
  assert.equal(resolved({}, "iw").locale, "he");
  // whose variant engines have as a keyword
  assert.deepEqual([12345.6, Infinity].map((it) => text(it, {}, "en-US-posix")), ["12345.6", "INF"]);
  assert.equal(text(12, {}, new Intl.Locale("en-US-posix", { numberingSystem: "thai" })), "๑๒");
  assert.deepEqual(NumberFormat.supportedLocalesOf("en-US-posix"), Intl.getCanonicalLocales("en-US-posix"));
  throwsOwn(RangeError, () => new NumberFormat("de_DE", null)); // locales come first
  assert.deepEqual(NumberFormat.supportedLocalesOf(["xx", "de-AT", "en-u-nu-thai", "und", "de-AT", "zh-TW"]), ["de-AT", "en-u-nu-thai", "zh-TW"]);
  assert.deepEqual(NumberFormat.supportedLocalesOf(undefined), []);
  assert.deepEqual(NumberFormat.supportedLocalesOf("en", { localeMatcher: "lookup" }), ["en"]);
  throwsOwn(RangeError, () => NumberFormat.supportedLocalesOf("en", { localeMatcher: "x" }));
  throwsOwn(TypeError, () => NumberFormat.supportedLocalesOf(null));
  throwsOwn(RangeError, () => NumberFormat.supportedLocalesOf("de_DE"));
});

each("numbering systems", ({ NumberFormat, isOwn, resolved, text }) => {
  const rows = [
    ["en", undefined, "en", "latn"], ["ar-EG", undefined, "ar-EG", "arab"], ["en-u-nu-thai", undefined, "en-u-nu-thai", "thai"], ["en-u-nu-thai", "thai", "en-u-nu-thai", "thai"], ["en-u-nu-thai", "latn", "en", "latn"],
    ["en-u-nu-thai", "deva", "en", "deva"], ["en-u-nu-thai", "roman", "en-u-nu-thai", "thai"], ["en-u-nu-roman", undefined, "en", "latn"], ["en", "native", "en", "latn"], ["en-u-nu-native", "thai", "en", "thai"],
    ["hi", "DEVA", "hi", "deva"], ["en", "nosuch", "en", "latn"], ["en", "latn-nosuch", "en", "latn"], ["en-u-nu-latn", undefined, "en-u-nu-latn", "latn"], ["en-u-nu", undefined, "en", "latn"], ["zh", "hanidec", "zh", "hanidec"],
  ];
  for (const [asked, numberingSystem, locale, system] of isOwn ? rows : rows.filter(([, option]) => !["roman", "DEVA"].includes(option))) {
    const it = new NumberFormat(asked, { numberingSystem });
    assert.deepEqual([it.resolvedOptions().locale, it.resolvedOptions().numberingSystem], [locale, system], `${asked} ${numberingSystem}`);
  }
  const [[, systems]] = createRequire(import.meta.url)("legumeyet/world.json");
  assert.equal(systems.length, 78);
  for (const [numberingSystem, digits] of systems) {
    assert.equal(resolved({ numberingSystem }).numberingSystem, numberingSystem);
    assert.equal(text("9876543210", { numberingSystem, useGrouping: false }), [...digits].reverse().join(""));
  }
  assert.equal(text(12, { numberingSystem: "thai" }), "๑๒");
  assert.equal(text(12, {}, "en-u-nu-hanidec"), "一二");
});

const DIGITS = ["minimumFractionDigits", "maximumFractionDigits", "minimumSignificantDigits", "maximumSignificantDigits", "roundingPriority"];

const none = undefined;

each("digits", ({ NumberFormat, resolved }) => {
  const rows = [
    [{}, 0, 3, none, none, "auto"], [{ style: "percent" }, 0, 0, none, none, "auto"], [{ style: "currency", currency: "USD" }, 2, 2, none, none, "auto"], [{ style: "currency", currency: "JPY" }, 0, 0, none, none, "auto"],
    [{ style: "currency", currency: "KWD" }, 3, 3, none, none, "auto"], [{ style: "currency", currency: "CLF" }, 4, 4, none, none, "auto"], [{ style: "currency", currency: "QQQ" }, 2, 2, none, none, "auto"],
    [{ notation: "compact" }, 0, 0, 1, 2, "morePrecision"], [{ notation: "scientific" }, 0, 3, none, none, "auto"], [{ notation: "engineering", maximumSignificantDigits: 3 }, none, none, 1, 3, "auto"], [{ minimumFractionDigits: 5 }, 5, 5, none, none, "auto"], [{ maximumFractionDigits: 1 }, 0, 1, none, none, "auto"], [{ minimumFractionDigits: 1 }, 1, 3, none, none, "auto"],
    [{ style: "currency", currency: "USD", maximumFractionDigits: 1 }, 1, 1, none, none, "auto"], [{ style: "currency", currency: "USD", maximumFractionDigits: 5 }, 2, 5, none, none, "auto"], [{ style: "currency", currency: "USD", minimumFractionDigits: 1 }, 1, 2, none, none, "auto"],
    [{ style: "percent", minimumFractionDigits: 1 }, 1, 1, none, none, "auto"], [{ maximumSignificantDigits: 3 }, none, none, 1, 3, "auto"], [{ minimumSignificantDigits: 3 }, none, none, 3, 21, "auto"],
    [{ maximumSignificantDigits: 3, minimumFractionDigits: 5, maximumFractionDigits: 2 }, none, none, 1, 3, "auto"], [{ roundingPriority: "morePrecision" }, 0, 3, 1, 21, "morePrecision"],
    [{ roundingPriority: "lessPrecision", maximumSignificantDigits: 2 }, 0, 3, 1, 2, "lessPrecision"], [{ roundingPriority: "morePrecision", style: "currency", currency: "USD" }, 2, 2, 1, 21, "morePrecision"],
    [{ roundingIncrement: 5, maximumFractionDigits: 0 }, 0, 0, none, none, "auto"], [{ roundingIncrement: 5 }, 0, 0, none, none, "auto"], [{ roundingIncrement: 5, style: "currency", currency: "USD" }, 2, 2, none, none, "auto"], [{ roundingIncrement: 5, minimumFractionDigits: 2 }, 2, 2, none, none, "auto"],
    [{ notation: "compact", minimumFractionDigits: 0, maximumFractionDigits: 0, minimumSignificantDigits: 1, maximumSignificantDigits: 2, roundingPriority: "morePrecision" }, 0, 0, 1, 2, "morePrecision"],
  ];
  for (const [options, ...wanted] of rows) assert.deepEqual(DIGITS.map((it) => resolved(options)[it]), wanted, JSON.stringify(options));
  const wrong = [
    [RangeError, { minimumFractionDigits: 3, maximumFractionDigits: 2 }], [RangeError, { minimumSignificantDigits: 3, maximumSignificantDigits: 2 }], [RangeError, { minimumFractionDigits: 3, maximumFractionDigits: 2, roundingPriority: "morePrecision" }],
    [TypeError, { roundingIncrement: 5, maximumSignificantDigits: 3 }], [TypeError, { roundingIncrement: 5, roundingPriority: "morePrecision" }], [TypeError, { roundingIncrement: 5, notation: "compact" }],
    [RangeError, { roundingIncrement: 5, maximumFractionDigits: 3 }], [RangeError, { roundingIncrement: 5, minimumFractionDigits: 1, maximumFractionDigits: 3 }], [RangeError, { roundingIncrement: 5001 }], [RangeError, { roundingIncrement: 5, minimumSignificantDigits: 0 }],
  ];
  for (const [error, options] of wrong) throwsOwn(error, () => new NumberFormat("en", options), JSON.stringify(options));
  for (const roundingIncrement of [1, 2, 5, 10, 20, 25, 50, 100, 200, 250, 500, 1000, 2000, 2500, 5000]) assert.equal(resolved({ roundingIncrement, maximumFractionDigits: 0 }).roundingIncrement, roundingIncrement);
});

each("grouping", ({ resolved }) => {
  const rows = [[undefined, "auto"], ["auto", "auto"], ["always", "always"], ["min2", "min2"], [true, "always"], [false, false], [null, false], [0, false], ["", false], [NaN, false], [0n, false], ["true", "auto"], ["false", "auto"], [{ toString: () => "min2" }, "min2"]];
  for (const [useGrouping, wanted] of rows) {
    assert.equal(resolved({ useGrouping }).useGrouping, wanted, String(useGrouping));
    assert.equal(resolved({ useGrouping, notation: "compact" }).useGrouping, wanted === "auto" && useGrouping !== "auto" ? "min2" : wanted, String(useGrouping));
    assert.equal(resolved({ useGrouping, notation: "engineering" }).useGrouping, wanted, String(useGrouping));
  }
});

each("resolved options, in their order", ({ NumberFormat, isOwn, resolved }) => {
  const first = ["locale", "numberingSystem", "style"];
  const last = ["roundingIncrement", "roundingMode", "roundingPriority", "trailingZeroDisplay"];
  const fraction = ["minimumFractionDigits", "maximumFractionDigits"];
  const significant = ["minimumSignificantDigits", "maximumSignificantDigits"];
  const money = ["currency", "currencyDisplay", "currencySign"];
  const rows = [
    [{}, [...first, "minimumIntegerDigits", ...fraction, "useGrouping", "notation", "signDisplay", ...last]],
    [{ notation: "scientific", compactDisplay: "long" }, [...first, "minimumIntegerDigits", ...fraction, "useGrouping", "notation", "signDisplay", ...last]],
    [{ currency: "EUR", unit: "meter", compactDisplay: "long" }, [...first, "minimumIntegerDigits", ...fraction, "useGrouping", "notation", "signDisplay", ...last]],
    [{ style: "currency", currency: "EUR", minimumSignificantDigits: 1, maximumSignificantDigits: 2 }, [...first, ...money, "minimumIntegerDigits", ...significant, "useGrouping", "notation", "signDisplay", ...last]],
    [{ notation: "compact" }, [...first, "minimumIntegerDigits", ...fraction, ...significant, "useGrouping", "notation", "compactDisplay", "signDisplay", ...last]],
  ];
  for (const [options, wanted] of rows) {
    const found = Object.keys(resolved(options));
    assert.deepEqual(isOwn ? found : found.sort(), isOwn ? wanted : wanted.sort());
  }
  const it = new NumberFormat("en");
  assert.notEqual(it.resolvedOptions(), it.resolvedOptions());
  assert.equal(Object.getPrototypeOf(it.resolvedOptions()), Object.prototype);
  it.resolvedOptions().locale = "de";
  assert.equal(it.resolvedOptions().locale, "en");
});

each("format is bound", ({ NumberFormat }) => {
  const it = new NumberFormat("de");
  const { format } = it;
  assert.equal(format, it.format);
  assert.notEqual(format, new NumberFormat("de").format);
  assert.deepEqual([1.5, 2.25].map(format), ["1,5", "2,25"]);
  assert.deepEqual([format.length, format.name, Object.hasOwn(format, "prototype")], [1, "", false]);
  assert.throws(() => new format(), TypeError);
  assert.throws(() => Reflect.set(it, "format", 5) || assert.fail("not set"), assert.AssertionError);
});

each("numbers", ({ NumberFormat, text }) => {
  const rows = [
    [0, "0"], [-0, "-0"], [1e21, "1,000,000,000,000,000,000,000"], [-1e-7, "-0"], [1234.5678, "1,234.568"], [0.0005, "0.001"], [null, "0"], [true, "1"], [false, "0"], [12n, "12"], [-(10n ** 30n), `-1${",000".repeat(10)}`], ["", "0"], [" \n", "0"],
    [" 12\u00a0", "12"], ["12.50", "12.5"], ["+5", "5"], ["5.", "5"], [".5", "0.5"], ["-.5", "-0.5"], ["1e3", "1,000"], ["1E+3", "1,000"], ["12e-1", "1.2"], ["-0", "-0"], ["-0.0e5", "-0"], ["0x1F", "31"], ["0O17", "15"], ["0b11", "3"], ["007", "7"],
    ["1e-400", "0"], ["-1e-400", "-0"], ["9007199254740993", "9,007,199,254,740,993"], ["123456789012345678901234567890.5", "123,456,789,012,345,678,901,234,567,890.5"], [new Number(5), "5"], [new String("5.5"), "5.5"], [[5], "5"], [[], "0"], [new Date(5), "5"],
    [{ valueOf: () => 5, toString: () => assert.fail("toString") }, "5"], [{ valueOf: () => ({}), toString: () => "6" }, "6"], [{ [Symbol.toPrimitive]: (hint) => (hint === "number" ? 7n : assert.fail(hint)) }, "7"], [Object(8n), "8"],
  ];
  for (const [number, wanted] of rows) {
    assert.equal(text(number), wanted, String(wanted));
    assert.equal(new NumberFormat("en").formatToParts(number).map(({ value }) => value).join(""), wanted);
  }
  for (const wrong of [Symbol("x"), { valueOf: () => ({}), toString: () => ({}) }, { [Symbol.toPrimitive]: () => ({}) }, { [Symbol.toPrimitive]: 5 }, Object.create(null), { valueOf: null, toString: null }]) assert.throws(() => text(wrong), TypeError);
  const error = new Error("x");
  assert.throws(() => text({ valueOf() { throw error; } }), (it) => it === error);
});

test("numbers of any length", () => {
  const { text } = kindOf(Own);
  const far = "0".repeat(500);
  const halves = { maximumFractionDigits: 0, roundingMode: "halfEven" };
  assert.deepEqual([`0.5${far}`, `0.5${far}1`, `2.5${far}`, `2.5${far}1`, `-0.5${far}1`].map((it) => text(it, halves)), ["0", "1", "2", "3", "-1"]);
  const small = (digits) => `0.${"0".repeat(310)}${digits}`;
  assert.deepEqual(["15", "25", `25${far}1`].map((it) => text(small(it), { maximumSignificantDigits: 1, roundingMode: "halfEven" })), ["2", "2", "3"].map(small));
  assert.equal(text(`${"1".repeat(300)}.${"3".repeat(5000)}`, { useGrouping: false }), `${"1".repeat(300)}.333`);
  assert.equal(text(`1${far}e-500`), "1");
  assert.equal(text(`0.${far}1e501`), "1");
  assert.equal(text(`1${"0".repeat(40000)}1e-40001`), "1");
  assert.equal(text(`1${"0".repeat(40000)}1e-40001`, { roundingMode: "expand", maximumFractionDigits: 100 }), `1.${"0".repeat(99)}1`);
  assert.equal(text(10n ** 400n, { useGrouping: false }), `1${"0".repeat(400)}`);
  assert.throws(() => text(10n ** 33000n), (it) => it instanceof LegumeyetError && it.number === ErrorNumber.LIMIT);
});

each("percents are ratios", ({ text }) => {
  const rows = [[0.5, "50%"], [0.256, "26%"], [-0.001, "-0%"], ["1e-3", "0%"], [12n, "1,200%"], [-0, "-0%"], [1e21, `100,000${",000".repeat(6)}%`], ["0.125", "13%"], [1e-7, "0%"]];
  for (const [number, wanted] of rows) assert.equal(text(number, { style: "percent" }), wanted);
  assert.equal(text("0.12345", { style: "percent", maximumFractionDigits: 2 }), "12.35%");
});

test("what the library cannot write is refused by name", () => {
  const { NumberFormat, text } = kindOf(Own);
  const rows = [
    [{ style: "unit", unit: "meter" }, "style unit"], [{ style: "currency", currency: "EUR", currencyDisplay: "name" }, "currencyDisplay name"], [{ style: "currency", currency: "EUR", currencyDisplay: "narrowSymbol" }, "currencyDisplay narrowSymbol"],
    [{ notation: "scientific", style: "percent" }, "notation scientific with style percent"], [{ notation: "engineering", style: "currency", currency: "EUR" }, "notation engineering with style currency"], [{ notation: "scientific", style: "unit", unit: "meter" }, "style unit"],
    [{ notation: "compact", style: "percent" }, "notation compact with style percent"], [{ notation: "compact", style: "currency", currency: "EUR" }, "notation compact with style currency"],
  ];
  for (const [options, what] of rows) throwsOwn(RangeError, () => new NumberFormat("en", options), what);
  for (const [options, what] of rows) assert.throws(() => new NumberFormat("en", options), { name: "RangeError", message: `${what}: the library cannot write this yet` });
  throwsOwn(RangeError, () => new NumberFormat("en", { style: "unit", unit: "meter", signDisplay: "x" }));
  assert.throws(() => new NumberFormat("en", { style: "unit", unit: "meter", signDisplay: "x" }), /^RangeError: signDisplay/);
  const it = new NumberFormat("en");
  for (const name of ["formatRange", "formatRangeToParts"]) {
    assert.throws(() => it[name](1, 2), { name: "RangeError", message: `${name}: the library cannot write this yet` });
    for (const ends of [[], [1], [undefined, 1], [1, Symbol("x")]]) throwsOwn(TypeError, () => it[name](...ends));
    assert.throws(() => it[name](1, NaN), { name: "RangeError", message: /no number/ });
  }
  // what these styles have is no fault of others
  assert.equal(text(5, { currencyDisplay: "name", unit: "meter", unitDisplay: "long", currency: "EUR" }), "5");
});

each("values that are no digits", ({ NumberFormat, text }) => {
  for (const number of [NaN, undefined, "x", "1_0", "0x", "-0x1", "1,5", "٣", {}, () => {}]) assert.equal(text(number), "NaN", String(number));
  for (const number of [Infinity, "Infinity", " +Infinity ", "1e400"]) assert.equal(text(number), "∞");
  for (const number of [-Infinity, "-Infinity", "-1e400"]) assert.equal(text(number), "-∞");
  assert.equal(text(-Infinity, {}, "dz"), "-གྲངས་མེད");
  const signs = { auto: "NaN ∞ -∞", always: "+NaN +∞ -∞", exceptZero: "NaN +∞ -∞", negative: "NaN ∞ -∞", never: "NaN ∞ ∞" };
  for (const [signDisplay, wanted] of Object.entries(signs)) assert.equal([NaN, Infinity, -Infinity].map((it) => text(it, { signDisplay })).join(" "), wanted);
  const rows = [
    ["en", { style: "percent" }, -Infinity, "minusSign - infinity ∞ percentSign %"], ["de", { style: "percent" }, NaN, "nan NaN literal \u00a0 percentSign %"], ["en", { notation: "compact", compactDisplay: "long" }, Infinity, "infinity ∞"],
    ["en", { notation: "engineering", minimumIntegerDigits: 3 }, -Infinity, "minusSign - infinity ∞"], ["fa", { notation: "scientific" }, NaN, "nan ناعدد"],
    ["en", { minimumIntegerDigits: 5, minimumFractionDigits: 2, useGrouping: "always" }, Infinity, "infinity ∞"], ["en", { maximumFractionDigits: 0, roundingIncrement: 5000 }, -Infinity, "minusSign - infinity ∞"],
    ["en", { style: "currency", currency: "USD", currencySign: "accounting" }, -Infinity, "literal ( currency $ infinity ∞ literal )"], ["en", { style: "currency", currency: "CHF" }, NaN, "currency CHF nan NaN"],
    ["de", { style: "currency", currency: "CHF", signDisplay: "always" }, NaN, "plusSign + nan NaN literal \u00a0 currency CHF"], ["zh", { style: "currency", currency: "EUR", currencyDisplay: "code" }, -Infinity, "minusSign - currency EUR infinity ∞"],
    ["ru", {}, NaN, "nan не\u00a0число"], ["ar-EG", { style: "percent" }, NaN, "nan ليس\u00a0رقمًا percentSign ٪ literal \u061c"], ["dz-u-nu-latn", {}, Infinity, "infinity ∞"],
    ["zh-Hant-HK", {}, NaN, "nan 非數值"], ["zh", {}, NaN, "nan NaN"], ["kk-Arab", {}, NaN, "nan سان\u00a0ەمەس"], ["bo-u-nu-tibt", {}, NaN, "nan ཨང་མེན་"],
  ];
  for (const [tag, options, number, wanted] of rows) {
    const parts = new NumberFormat(tag, options).formatToParts(number);
    assert.equal(parts.map(({ type, value }) => `${type} ${value}`).join(" "), wanted, `${tag} ${JSON.stringify(options)}`);
    assert.equal(parts.map(({ value }) => value).join(""), text(number, options, tag));
  }
});

each("parts", ({ NumberFormat, text }) => {
  const rows = [
    ["en", { style: "currency", currency: "USD", currencySign: "accounting" }, -5, "literal ( currency $ integer 5 decimal . fraction 00 literal )"], ["en", {}, -1234.5, "minusSign - integer 1 group , integer 234 decimal . fraction 5"],
    ["en", { style: "percent", signDisplay: "always" }, 0.5, "plusSign + integer 50 percentSign %"], ["de", { notation: "compact" }, -1234567, "minusSign - integer 1 decimal , fraction 2 literal \u00a0 compact Mio."],
    ["en", { notation: "compact" }, 1234567, "integer 1 decimal . fraction 2 compact M"], ["en", { notation: "compact" }, 12, "integer 12"], ["en", { notation: "compact", compactDisplay: "long" }, 9999, "integer 10 literal   compact thousand"],
    ["es", { notation: "compact", compactDisplay: "long" }, 12345, "integer 12 literal   compact mil"], ["ar-u-nu-arab", { style: "percent" }, -0.05, "literal \u061c minusSign - integer ٥ percentSign ٪ literal \u061c"],
    ["de-CH", { style: "currency", currency: "CHF" }, -5, "currency CHF minusSign - integer 5 decimal . fraction 00"], ["nl", { style: "currency", currency: "USD" }, -5, "currency US$ literal \u00a0 minusSign - integer 5 decimal , fraction 00"],
    ["en", { notation: "scientific" }, -0.00012, "minusSign - integer 1 decimal . fraction 2 exponentSeparator E exponentMinusSign - exponentInteger 4"], ["en", { notation: "engineering" }, 1234567, "integer 1 decimal . fraction 235 exponentSeparator E exponentInteger 6"],
    ["sv", { notation: "engineering", maximumFractionDigits: 0 }, -0.000999999, "minusSign − integer 1 exponentSeparator ×10^ exponentMinusSign − exponentInteger 3"], ["en", { notation: "scientific", signDisplay: "always", minimumIntegerDigits: 5 }, 0, "plusSign + integer 00 group , integer 000 exponentSeparator E exponentInteger 0"],
    ["ps", { notation: "scientific", minimumFractionDigits: 1 }, 3e-12, "integer ۳ decimal ٫ fraction ۰ exponentSeparator ×۱۰^ literal \u200e exponentMinusSign - literal \u200e exponentInteger ۱۲"], ["ar-EG", { notation: "scientific", maximumSignificantDigits: 2 }, 0.000996, "integer ١ exponentSeparator أس literal \u061c exponentMinusSign - exponentInteger ٣"],
    ["ja", { notation: "compact" }, 12345678, "integer 1235 compact 万"], ["hi", { notation: "compact" }, -1e21, "minusSign - integer 10 group , integer 00 group , integer 00 group , integer 000 literal \u00a0 compact नील"],
  ];
  for (const [tag, options, number, wanted] of rows) {
    const parts = new NumberFormat(tag, options).formatToParts(number);
    assert.equal(parts.map(({ type, value }) => `${type} ${value}`).join(" "), wanted, `${tag} ${JSON.stringify(options)}`);
    assert.equal(parts.map(({ value }) => value).join(""), text(number, options, tag));
  }
});
