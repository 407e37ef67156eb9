// NumberFormat and PluralRules in the place of Intl's, with the engine's own for what the library cannot do.
import assert from "node:assert/strict";
import { afterEach, test } from "node:test";
import { DecimalFormatter, NumberFormat } from "legumeyet";
import { install } from "legumeyet/polyfill";

const { NumberFormat: EngineNumbers, PluralRules: EngineRules } = Intl;
const isEngine = () => Intl.NumberFormat === EngineNumbers && Intl.PluralRules === EngineRules;
// Node 18 has no ranges, and of what `polyfill` resolves not each option.
const hasRanges = "formatRange" in EngineNumbers.prototype;
let restore = () => {};
afterEach(() => restore());

test("calls that the engine has not are not there", () => {
  restore = install();
  for (const name of ["formatRange", "formatRangeToParts"]) assert.equal(name in Intl.NumberFormat.prototype, hasRanges);
});

test("nothing is changed without install, nor after restore", () => {
  assert.ok(isEngine());
  const described = ["NumberFormat", "PluralRules"].map((it) => Object.getOwnPropertyDescriptor(Intl, it));
  restore = install();
  assert.ok(!isEngine() && Intl.NumberFormat !== NumberFormat);
  for (const [at, name] of ["NumberFormat", "PluralRules"].entries()) {
    assert.deepEqual({ ...Object.getOwnPropertyDescriptor(Intl, name), value: null }, { ...described[at], value: null });
    assert.deepEqual([Intl[name].name, Intl[name].length], [name, 0]);
  }
  restore();
  assert.ok(isEngine());
  restore();
  assert.ok(isEngine());
});

test("one of them, and none that there is not", () => {
  restore = install(["PluralRules"]);
  assert.ok(Intl.NumberFormat === EngineNumbers && Intl.PluralRules !== EngineRules);
  restore();
  restore = install(["NumberFormat"]);
  assert.ok(Intl.NumberFormat !== EngineNumbers && Intl.PluralRules === EngineRules);
  restore();
  for (const wrong of [["x"], ["NumberFormat", "DateTimeFormat"], ["toString"]]) assert.throws(() => install(wrong), RangeError);
  assert.ok(isEngine());
});

test("where one may not be replaced, none is", () => {
  const own = Intl;
  for (const fixed of ["PluralRules", "NumberFormat"]) {
    globalThis.Intl = new Proxy(own, { defineProperty: (its, name, described) => name !== fixed && Reflect.defineProperty(its, name, described) });
    assert.throws(() => install(), TypeError);
    globalThis.Intl = own;
    assert.ok(isEngine());
  }
});

test("what is put in later stays", () => {
  const first = install();
  const Other = class {};
  Intl.NumberFormat = Other;
  first();
  assert.equal(Intl.NumberFormat, Other);
  Intl.NumberFormat = EngineNumbers;
  assert.ok(isEngine());
  const [outer, inner] = [install(), install()];
  assert.equal(new Intl.NumberFormat("de").format(1.5), "1,5");
  inner();
  assert.equal(new Intl.NumberFormat("de").format(1.5), "1,5");
  outer();
  assert.ok(isEngine());
});

test("one that is put in twice, and one that the engine has not", () => {
  install(["NumberFormat", "NumberFormat"])();
  assert.ok(isEngine());
  const described = Object.getOwnPropertyDescriptor(Intl, "PluralRules");
  delete Intl.PluralRules;
  try {
    restore = install();
    assert.deepEqual({ ...Object.getOwnPropertyDescriptor(Intl, "PluralRules"), value: null }, { ...described, value: null });
    assert.equal(new Intl.PluralRules("pl").select(5), "many");
    assert.throws(() => new Intl.PluralRules("pl", { type: "x" }), RangeError);
    assert.deepEqual(Intl.PluralRules.supportedLocalesOf(["pl", "xx"]), ["pl"]);
    restore();
    assert.ok(!("PluralRules" in Intl));
  } finally {
    Object.defineProperty(Intl, "PluralRules", described);
  }
});

// Whether the engine made it: only then its own calls take it.
function isOfEngine(it, Type = EngineNumbers) {
  try {
    return Type.prototype.resolvedOptions.call(it) !== null;
  } catch {
    return false;
  }
}

test("numbers", { skip: !hasRanges }, () => {
  restore = install();
  const rows = [[{}, 1234.5], [{ style: "percent" }, 0.125], [{ style: "currency", currency: "EUR" }, -5], [{ notation: "compact" }, 1234567], [{ notation: "compact", maximumFractionDigits: 2 }, 1234567], [{ notation: "engineering" }, -0.000012345], [{ maximumSignificantDigits: 2 }, 12345n]];
  for (const [options, number] of rows) {
    const [ours, theirs] = [new Intl.NumberFormat("de", options), new EngineNumbers("de", options)];
    assert.ok(!isOfEngine(ours) && ours instanceof Intl.NumberFormat);
    assert.equal(ours.format(number), theirs.format(number));
    assert.deepEqual(ours.formatToParts(number), theirs.formatToParts(number));
    for (const other of [NaN, Infinity, -Infinity, undefined]) {
      assert.equal(ours.format(other), theirs.format(other));
      assert.deepEqual(ours.formatToParts(other), theirs.formatToParts(other));
    }
    assert.equal(ours.formatRange(1, 5), theirs.formatRange(1, 5));
    assert.deepEqual(ours.formatRangeToParts("1", 5n), theirs.formatRangeToParts("1", 5n));
    assert.throws(() => ours.formatRange(1), TypeError);
  }
  assert.equal(Intl.NumberFormat("de").format(1.5), "1,5");
  assert.equal(new Intl.NumberFormat("en", { useGrouping: false }).format(10n ** 33000n).length, 33001);
  assert.deepEqual(Intl.NumberFormat.supportedLocalesOf(["de", "xx", "en-GB"]), ["de", "en-GB"]);
});

test("what the library cannot write the engine writes", { skip: !hasRanges }, () => {
  restore = install();
  const rows = [
    { style: "unit", unit: "kilometer-per-hour" }, { style: "currency", currency: "EUR", currencyDisplay: "name" }, { style: "currency", currency: "USD", currencyDisplay: "narrowSymbol" }, { notation: "scientific", style: "percent" }, { notation: "engineering", style: "currency", currency: "EUR" },
    { notation: "compact", style: "currency", currency: "EUR" },
  ];
  for (const options of rows) {
    const [it, theirs] = [new Intl.NumberFormat("de", options), new EngineNumbers("de", options)];
    assert.ok(it instanceof Intl.NumberFormat && isOfEngine(it));
    assert.equal(Object.getPrototypeOf(it), Intl.NumberFormat.prototype);
    assert.equal(it.format(12345.678), theirs.format(12345.678));
    assert.deepEqual([1, 2].map(it.format), [1, 2].map(theirs.format));
    assert.deepEqual(it.formatToParts(5), theirs.formatToParts(5));
    assert.deepEqual(it.resolvedOptions(), theirs.resolvedOptions());
    assert.equal(it.formatRange(1, 2), theirs.formatRange(1, 2));
    assert.deepEqual(it.formatRangeToParts(1, 2), theirs.formatRangeToParts(1, 2));
  }
  class Own extends Intl.NumberFormat {}
  for (const options of [{}, rows[0]]) assert.ok(new Own("de", options) instanceof Own);
  for (const [wanted, options] of [[RangeError, { style: "x" }], [TypeError, null], [TypeError, { style: "currency" }], [RangeError, { style: "unit", unit: "x" }]]) assert.throws(() => new Intl.NumberFormat("en", options), wanted);
  assert.throws(() => new Intl.NumberFormat("de_DE"), RangeError);
  assert.throws(() => Intl.NumberFormat.prototype.formatToParts.call({}, 5), TypeError);
  assert.throws(() => Intl.NumberFormat.prototype.format, TypeError);
  assert.equal(new Intl.NumberFormat("xx").resolvedOptions().locale, new EngineNumbers("xx").resolvedOptions().locale);
});

test("plural rules", { skip: !hasRanges }, () => {
  restore = install();
  for (const options of [{}, { type: "ordinal" }, { minimumFractionDigits: 1 }, { maximumSignificantDigits: 2 }]) {
    const [ours, theirs] = ["pl", "pl"].map((tag, at) => new (at === 0 ? Intl.PluralRules : EngineRules)(tag, options));
    assert.ok(!isOfEngine(ours, EngineRules) && ours instanceof Intl.PluralRules);
    for (const number of [0, 1, 2, 5, 22, 1.5, "2", null, true, NaN, Infinity, undefined, "x"]) assert.equal(ours.select(number), theirs.select(number), String(number));
    assert.throws(() => ours.select(Symbol("x")), TypeError);
    assert.equal(ours.selectRange(1, 2), theirs.selectRange(1, 2));
    assert.throws(() => ours.selectRange(1), TypeError);
    assert.throws(() => ours.selectRange(NaN, 1), RangeError);
    const found = ours.resolvedOptions();
    for (const [name, value] of Object.entries(theirs.resolvedOptions())) assert.deepEqual(name === "pluralCategories" ? [...found[name]].sort() : found[name], name === "pluralCategories" ? [...value].sort() : value, name);
    assert.deepEqual(Object.keys(found).slice(0, 4), ["locale", "type", "notation", "minimumIntegerDigits"]);
  }
  assert.equal(new Intl.PluralRules("xx").resolvedOptions().locale, new EngineRules("xx").resolvedOptions().locale);
  assert.ok(new Intl.PluralRules("xx") instanceof Intl.PluralRules);
  assert.equal(new Intl.PluralRules("pl").selectRange(1, Infinity), new EngineRules("pl").selectRange(1, Infinity));
  const far = 10n ** 33000n; // which the library refuses: the engine says what it has of infinity
  assert.deepEqual([new Intl.PluralRules("pl").select(far), new Intl.PluralRules("pl").selectRange(1, far)], ["other", "other"]);
  assert.equal(new Intl.PluralRules("fr", { notation: "compact" }).select(1500000n), "many");
  assert.equal(new Intl.PluralRules("en-u-nu-thai").select(1), "one");
  assert.throws(() => Intl.PluralRules("en"), TypeError);
  assert.throws(() => new Intl.PluralRules("en", { type: "x" }), RangeError);
  assert.throws(() => Intl.PluralRules.prototype.select.call({}, 1), TypeError);
  assert.deepEqual(Intl.PluralRules.supportedLocalesOf(["en", "xx", "pl-PL"]), ["en", "pl-PL"]);
  assert.equal(String(new Intl.PluralRules("en")), "[object Intl.PluralRules]");
});

test("plural rules read their options once, in order", () => {
  restore = install();
  const inOrder = [
    "localeMatcher", "type", "notation", "compactDisplay", "minimumIntegerDigits", "minimumFractionDigits", "maximumFractionDigits", "minimumSignificantDigits", "maximumSignificantDigits", "roundingIncrement", "roundingMode", "roundingPriority", "trailingZeroDisplay",
  ];
  const log = [];
  new Intl.PluralRules("en", new Proxy({}, { get: (_, name) => void log.push(name) }));
  assert.deepEqual(log, inOrder);
  for (const [wanted, options] of [[RangeError, { type: "x" }], [RangeError, { minimumIntegerDigits: 0 }], [RangeError, { maximumFractionDigits: -1 }], [TypeError, null], [TypeError, { type: Symbol("x") }], [RangeError, { localeMatcher: "x" }]]) {
    for (const Type of [Intl.PluralRules, EngineRules]) assert.throws(() => new Type("en", options), wanted);
  }
  assert.deepEqual([Intl.PluralRules.length, Intl.PluralRules.name, Intl.PluralRules.supportedLocalesOf.length], [EngineRules.length, EngineRules.name, EngineRules.supportedLocalesOf.length]);
  for (const name of ["select", "selectRange", "resolvedOptions"]) {
    const [ours, theirs] = [Intl.PluralRules, EngineRules].map((Type) => Object.getOwnPropertyDescriptor(Type.prototype, name));
    if (theirs !== undefined) assert.deepEqual([ours.value.length, ours.value.name, ours.writable, ours.enumerable, ours.configurable], [theirs.value.length, theirs.value.name, theirs.writable, theirs.enumerable, theirs.configurable]);
  }
});

test("the library's own classes ask the engine for the locale of the machine", () => {
  restore = install();
  const machine = new EngineNumbers().resolvedOptions().locale;
  assert.equal(new DecimalFormatter().resolvedOptions().locale, machine);
  assert.equal(new Intl.NumberFormat().resolvedOptions().locale, machine);
  assert.equal(new NumberFormat().resolvedOptions().locale, machine);
});
