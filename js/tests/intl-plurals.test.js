// PluralRules in Intl's place by the steps of ECMA-402: what is read, in which order, and what is refused. A part of the rows is tried with those of Node too.
import assert from "node:assert/strict";
import { test } from "node:test";
import { ErrorNumber, LegumeyetError, PluralRules as Closable } from "legumeyet";
import { PluralRules as Own } from "legumeyet/intl";

// Node 20 and later have selectRange.
const isNew = Number(process.versions.node.split(".")[0]) >= 20;
const COUNTS = ["minimumIntegerDigits", "minimumFractionDigits", "maximumFractionDigits", "minimumSignificantDigits", "maximumSignificantDigits"];
const IN_ORDER = ["localeMatcher", "type", "notation", "compactDisplay", ...COUNTS, "roundingIncrement", "roundingMode", "roundingPriority", "trailingZeroDisplay"];

const kindOf = (PluralRules) => ({
  PluralRules, isOwn: PluralRules === Own, resolved: (options, locales = "en") => new PluralRules(locales, options).resolvedOptions(),
  category: (number, options = {}, locales = "en") => new PluralRules(locales, options).select(number),
});

/** Tries the library's class, and by the same rows that of Node, whose V8 is of an earlier edition: `isOwn` leaves the rows of today's to the library's. */
function each(name, run) {
  test(name, () => run(kindOf(Own)));
  test(`${name}, in Node`, { skip: !isNew }, () => run(kindOf(Intl.PluralRules)));
}

// Each error is of the constructor itself, and no LegumeyetError.
function throwsOwn(wanted, call, said) {
  assert.throws(call, (error) => error.constructor === wanted, said);
}

each("a class as Intl has it", ({ PluralRules }) => {
  assert.deepEqual([typeof PluralRules, PluralRules.length, PluralRules.name], ["function", 0, "PluralRules"]);
  const described = (it, name) => Object.getOwnPropertyDescriptor(it, name);
  const { prototype } = PluralRules;
  assert.deepEqual(described(PluralRules, "prototype"), { value: prototype, writable: false, enumerable: false, configurable: false });
  for (const name of ["length", "name"]) assert.deepEqual({ ...described(PluralRules, name), value: null }, { value: null, writable: false, enumerable: false, configurable: true });
  assert.deepEqual(described(prototype, Symbol.toStringTag), { value: "Intl.PluralRules", writable: false, enumerable: false, configurable: true });
  const calls = { constructor: 0, select: 1, selectRange: 2, resolvedOptions: 0 };
  assert.deepEqual(new Set(Object.getOwnPropertyNames(prototype)), new Set(Object.keys(calls)));
  for (const [name, length] of Object.entries(calls)) {
    const { value, ...others } = described(prototype, name);
    assert.deepEqual([value.length, value.name, others], [length, name === "constructor" ? "PluralRules" : name, { writable: true, enumerable: false, configurable: true }]);
    if (name === "constructor") continue;
    assert.ok(!Object.hasOwn(value, "prototype"));
    assert.throws(() => new value(), TypeError);
  }
  const { value: supported, ...others } = described(PluralRules, "supportedLocalesOf");
  assert.deepEqual([supported.length, supported.name, others], [1, "supportedLocalesOf", { writable: true, enumerable: false, configurable: true }]);
  assert.throws(() => new supported(), TypeError);
  assert.deepEqual(Object.getOwnPropertyNames(PluralRules).sort(), ["length", "name", "prototype", "supportedLocalesOf"]);
  assert.equal(prototype.constructor, PluralRules);
  assert.deepEqual([Object.getPrototypeOf(prototype), Object.getPrototypeOf(PluralRules)], [Object.prototype, Function.prototype]);
  assert.equal(String(new PluralRules("en")), "[object Intl.PluralRules]");
  assert.deepEqual(Reflect.ownKeys(new PluralRules("en")), []);
  assert.ok(Object.isExtensible(new PluralRules("en")));
});

each("with new, and not without", ({ PluralRules }) => {
  for (const call of [() => PluralRules(), () => PluralRules("en"), () => PluralRules.call(Object.create(PluralRules.prototype), "en"), () => PluralRules.call(new PluralRules("en"), "en")]) throwsOwn(TypeError, call);
  class Polish extends PluralRules {
    constructor(options) {
      super("pl", options);
    }

    select5() {
      return this.select(5);
    }
  }
  assert.ok(new Polish() instanceof Polish && new Polish() instanceof PluralRules);
  assert.equal(new Polish().select5(), "many");
  assert.deepEqual(Polish.supportedLocalesOf("pl"), ["pl"]);
  const other = Reflect.construct(PluralRules, ["pl"], Array);
  assert.equal(Object.getPrototypeOf(other), Array.prototype);
  assert.equal(PluralRules.prototype.select.call(other, 5), "many");
  const order = [];
  const target = new Proxy(class {}, { get: (it, name) => (order.push(name), Reflect.get(it, name)) });
  const options = { get localeMatcher() { order.push("localeMatcher"); return undefined; } };
  Reflect.construct(PluralRules, ["en", options], target);
  assert.deepEqual(order.filter((it) => typeof it === "string"), ["prototype", "localeMatcher"]);
});

each("calls of what is no PluralRules", ({ PluralRules }) => {
  const untouched = { valueOf: () => assert.fail("looked at") };
  for (const wrong of [undefined, null, 5, "x", {}, PluralRules, PluralRules.prototype, Object.create(PluralRules.prototype), new Closable("en"), new Intl.NumberFormat("en")]) {
    for (const [name, ...values] of [["select", untouched], ["selectRange", untouched, untouched], ["resolvedOptions"]]) throwsOwn(TypeError, () => PluralRules.prototype[name].call(wrong, ...values), `${name} of ${typeof wrong}`);
  }
});

test("options are read once, in order", () => {
  const log = [];
  new Own("en", new Proxy({}, { get: (_, name) => void log.push(name), has: () => assert.fail("asked"), ownKeys: () => assert.fail("listed"), getOwnPropertyDescriptor: () => assert.fail("described") }));
  assert.deepEqual(log, IN_ORDER);
  for (const [at, name] of IN_ORDER.entries()) {
    const read = [];
    const error = new Error(name);
    const fails = new Proxy({}, { get(_, asked) { read.push(asked); if (asked === name) throw error; } });
    assert.throws(() => new Own("en", fails), (it) => it === error);
    assert.deepEqual(read, IN_ORDER.slice(0, at + 1));
  }
  const order = [];
  const locales = { get length() { order.push("locales"); return 0; } };
  new Own(locales, { get type() { order.push("options"); return undefined; } });
  assert.deepEqual(order, ["locales", "options"]);
  const matched = [];
  Own.supportedLocalesOf("en", new Proxy({}, { get: (_, name) => void matched.push(name) }));
  assert.deepEqual(matched, ["localeMatcher"]);
});

test("a wrong option ends the reading where it is looked at", () => {
  const ends = { localeMatcher: "x", type: "x", notation: "x", compactDisplay: "x", minimumIntegerDigits: 0, roundingIncrement: 3, roundingMode: "x", roundingPriority: "x", trailingZeroDisplay: "x" };
  const readOf = (name, value) => {
    const read = [];
    throwsOwn(RangeError, () => new Own("en", new Proxy({}, { get: (_, asked) => (read.push(asked), asked === name ? value : undefined) })), name);
    return read;
  };
  for (const [name, value] of Object.entries(ends)) assert.equal(readOf(name, value).at(-1), name);
  for (const name of COUNTS.slice(1)) assert.equal(readOf(name, -1).at(-1), "trailingZeroDisplay"); // counts are looked at when all of them are read
});

each("words and numbers that there are not", ({ PluralRules, isOwn }) => {
  const rows = { localeMatcher: ["", "best", "Lookup", null, 5], type: ["", "Cardinal", "plural", null, true], roundingPriority: ["", "more", null] };
  const newer = { notation: ["", "Compact", "simple", null], compactDisplay: ["", "Short", "narrow"], roundingMode: ["", "halfDown", "up"], trailingZeroDisplay: ["", "never"], roundingIncrement: [0, 3, 15, 5001, "x", NaN] };
  for (const [name, values] of Object.entries(isOwn ? { ...rows, ...newer } : rows)) for (const value of values) throwsOwn(RangeError, () => new PluralRules("en", { [name]: value }), `${name} ${String(value)}`);
  for (const name of isOwn ? IN_ORDER : ["localeMatcher", "type", ...COUNTS, "roundingPriority"]) throwsOwn(TypeError, () => new PluralRules("en", { [name]: Symbol("x") }), name);
  for (const name of COUNTS) {
    for (const value of [NaN, Infinity, -1, "x", {}, 101, "Infinity"]) throwsOwn(RangeError, () => new PluralRules("en", { [name]: value }), `${name} ${String(value)}`);
    throwsOwn(TypeError, () => new PluralRules("en", { [name]: 1n }), name);
  }
  for (const name of ["minimumIntegerDigits", "minimumSignificantDigits", "maximumSignificantDigits"]) for (const value of [0, 22]) throwsOwn(RangeError, () => new PluralRules("en", { [name]: value }), name);
  throwsOwn(RangeError, () => new PluralRules("en", { minimumFractionDigits: 3, maximumFractionDigits: 2 }));
  throwsOwn(RangeError, () => new PluralRules("en", { minimumSignificantDigits: 3, maximumSignificantDigits: 2 }));
  if (!isOwn) return;
  assert.equal(new PluralRules("en", { maximumFractionDigits: 100 }).resolvedOptions().maximumFractionDigits, 100);
  throwsOwn(TypeError, () => new PluralRules("en", { roundingIncrement: 5, maximumSignificantDigits: 3 }));
  throwsOwn(TypeError, () => new PluralRules("en", { roundingIncrement: 5, notation: "compact" }));
  throwsOwn(RangeError, () => new PluralRules("en", { roundingIncrement: 5, minimumFractionDigits: 1, maximumFractionDigits: 3 }));
});

each("what are words and numbers by conversion", ({ resolved }) => {
  const said = (value) => ({ toString: () => value, valueOf: () => assert.fail("valueOf") });
  assert.equal(resolved({ type: said("ordinal") }).type, "ordinal");
  assert.equal(resolved({ type: new String("ordinal") }).type, "ordinal");
  assert.deepEqual([resolved({ minimumFractionDigits: "1.9" }).minimumFractionDigits, resolved({ maximumFractionDigits: null }).maximumFractionDigits, resolved({ minimumIntegerDigits: true }).minimumIntegerDigits], [1, 0, 1]);
  assert.ok(Object.is(resolved({ minimumFractionDigits: -0 }).minimumFractionDigits, 0));
});

each("options that are no object, and inherited ones", ({ PluralRules, resolved }) => {
  for (const none of [undefined, {}, Object.create(null), [], 5, "x", true, Symbol("x"), 1n, () => {}]) assert.deepEqual(new PluralRules("en", none).resolvedOptions(), resolved());
  throwsOwn(TypeError, () => new PluralRules("en", null));
  throwsOwn(TypeError, () => PluralRules.supportedLocalesOf("en", null));
  assert.equal(resolved(Object.create({ type: "ordinal" })).type, "ordinal");
  assert.equal(resolved(Object.assign(() => {}, { type: "ordinal" })).type, "ordinal");
  Number.prototype.type = "ordinal"; // an option that a boxed number has
  try {
    assert.equal(resolved(5).type, "ordinal");
    Object.prototype.type = "ordinal";
    assert.equal(resolved(undefined).type, "cardinal");
  } finally {
    delete Number.prototype.type;
    delete Object.prototype.type;
  }
});

each("locales", ({ PluralRules, isOwn, resolved }) => {
  const machine = resolved({}, new Intl.NumberFormat().resolvedOptions().locale).locale;
  for (const none of [undefined, [], {}, 5, true, "xx", ["xx", "tlh"], "und", "und-Latn"]) assert.equal(new PluralRules(none).resolvedOptions().locale.split("-")[0], machine.split("-")[0], String(none));
  for (const wrong of [null, [5], [null], [undefined]]) throwsOwn(TypeError, () => new PluralRules(wrong), String(wrong));
  for (const wrong of ["", "de_DE", "x", ["en", "de_DE"], ["e"], "en-u", "\ud800"]) throwsOwn(RangeError, () => new PluralRules(wrong), String(wrong));
  throwsOwn(RangeError, () => new PluralRules("de_DE", null)); // locales come first
  assert.equal(resolved({}, ["xx", "pl", "en"]).locale, "pl");
  assert.equal(resolved({}, new Intl.Locale("pl", { numberingSystem: "deva" })).locale, "pl");
  assert.equal(resolved({}, "PL-u-co-phonebk-nu-thai-x-foo").locale, "pl");
  assert.equal(resolved({}, "iw").locale, "he");
  assert.equal(resolved({}, "en-US").locale, isOwn ? "en-US" : "en");
  assert.deepEqual(PluralRules.supportedLocalesOf(["xx", "de-AT", "en-u-nu-thai", "und", "de-AT"]), ["de-AT", "en-u-nu-thai"]);
  assert.deepEqual([PluralRules.supportedLocalesOf(undefined), PluralRules.supportedLocalesOf("en", { localeMatcher: "lookup" })], [[], ["en"]]);
  throwsOwn(RangeError, () => PluralRules.supportedLocalesOf("en", { localeMatcher: "x" }));
  throwsOwn(TypeError, () => PluralRules.supportedLocalesOf(null));
});

test("resolved options, in their order", () => {
  const { resolved } = kindOf(Own);
  const last = ["pluralCategories", "roundingIncrement", "roundingMode", "roundingPriority", "trailingZeroDisplay"];
  const rows = [
    [{ compactDisplay: "long" }, [...COUNTS.slice(0, 3), ...last]], [{ type: "ordinal", notation: "scientific" }, [...COUNTS.slice(0, 3), ...last]], [{ notation: "compact" }, ["compactDisplay", ...COUNTS, ...last]],
    [{ maximumSignificantDigits: 3 }, [COUNTS[0], ...COUNTS.slice(3), ...last]], [{ roundingPriority: "lessPrecision" }, [...COUNTS, ...last]],
  ];
  for (const [options, wanted] of rows) assert.deepEqual(Object.keys(resolved(options)), ["locale", "type", "notation", ...wanted]);
  assert.deepEqual(resolved({}, "ar"), {
    locale: "ar", type: "cardinal", notation: "standard", minimumIntegerDigits: 1, minimumFractionDigits: 0, maximumFractionDigits: 3, pluralCategories: ["zero", "one", "two", "few", "many", "other"],
    roundingIncrement: 1, roundingMode: "halfExpand", roundingPriority: "auto", trailingZeroDisplay: "auto",
  });
  assert.deepEqual({ ...resolved({ notation: "compact", compactDisplay: "long" }), pluralCategories: 0 }, {
    ...resolved(), notation: "compact", compactDisplay: "long", minimumFractionDigits: 0, maximumFractionDigits: 0, minimumSignificantDigits: 1, maximumSignificantDigits: 2, roundingPriority: "morePrecision", pluralCategories: 0,
  });
  const rules = new Own("en");
  rules.resolvedOptions().pluralCategories.push("x");
  assert.deepEqual(rules.resolvedOptions().pluralCategories, ["one", "other"]);
  assert.notEqual(rules.resolvedOptions(), rules.resolvedOptions());
  assert.equal(Object.getPrototypeOf(rules.resolvedOptions()), Object.prototype);
});

each("categories", ({ category, isOwn }) => {
  const rows = [
    [0, "other"], [1, "one"], [-1, "one"], [1.5, "other"], ["1", "one"], ["1.0", "one"], [" 1 ", "one"], ["0x1", "one"], ["1e0", "one"], [true, "one"], [null, "other"], [undefined, "other"], ["x", "other"], [NaN, "other"], [Infinity, "other"], [-Infinity, "other"],
    [{ valueOf: () => 1, toString: () => assert.fail("toString") }, "one"], [[1], "one"], [{ [Symbol.toPrimitive]: (hint) => (hint === "number" ? 1 : assert.fail(hint)) }, "one"], [0.9996, "one"], [1.0004, "one"],
  ];
  for (const [number, wanted] of rows) assert.equal(category(number), wanted, String(wanted));
  assert.equal(category(1, { minimumFractionDigits: 1 }), "other");
  assert.equal(category(1, { minimumSignificantDigits: 2 }), "other");
  assert.equal(category(1.5, { maximumFractionDigits: 0, type: "ordinal" }), "two");
  for (const wrong of [Symbol("x"), { valueOf: () => ({}), toString: () => ({}) }, Object.create(null)]) throwsOwn(TypeError, () => category(wrong));
  const error = new Error("x");
  assert.throws(() => category({ valueOf() { throw error; } }), (it) => it === error);
  if (!isOwn) return;
  assert.deepEqual([1n, 2n, Object(1n)].map((it) => category(it)), ["one", "other", "one"]);
  assert.equal(category("1.0000000000000000001", { maximumFractionDigits: 20 }), "other");
  assert.equal(category(1.5, { maximumFractionDigits: 0, roundingMode: "trunc" }), "one");
  assert.equal(category(3, { minimumFractionDigits: 1, trailingZeroDisplay: "stripIfInteger" }, "pl"), "few");
  assert.equal(category(3, { minimumFractionDigits: 1 }, "pl"), "other");
  assert.deepEqual(["standard", "compact", "scientific", "engineering"].map((notation) => category(1500000, { notation }, "fr")), ["other", "many", "many", "many"]);
  assert.equal(category(1230000, { notation: "compact", maximumFractionDigits: 2 }, "fr"), "many");
  assert.throws(() => category(10n ** 33000n), (it) => it instanceof LegumeyetError && it.number === ErrorNumber.LIMIT);
});

each("ranges", ({ PluralRules, isOwn }) => {
  const rows = [["en", 0, 1, "other"], ["en", 1, 2, "other"], ["fr", 0, 1, "one"], ["fr", 1, 2, "other"], ["sl", 1, 1, "few"], ["lv", 0, 1, "one"], ["pl", 1, 3, "few"], ["pl", 2, 5, "many"], ["en", 5, 1, "other"], ["en", 1, Infinity, "other"], ["pl", -Infinity, 3, "few"], ["pl", 1, "Infinity", "other"]];
  for (const [locale, start, end, wanted] of rows) assert.equal(new PluralRules(locale).selectRange(start, end), wanted, `${locale} ${start} ${end}`);
  const rules = new PluralRules("en");
  assert.equal(rules.selectRange("1", [2]), "other");
  for (const ends of [[], [1], [undefined, 1], [1, undefined]]) throwsOwn(TypeError, () => rules.selectRange(...ends), String(ends));
  for (const ends of [[NaN, 1], [1, NaN], ["x", 1], [1, {}], [NaN, NaN]]) throwsOwn(RangeError, () => rules.selectRange(...ends), String(ends));
  throwsOwn(TypeError, () => rules.selectRange(NaN, Symbol("x"))); // both are looked at before
  const order = [];
  const noted = (name) => ({ valueOf: () => (order.push(name), 1) });
  rules.selectRange(noted("start"), noted("end"));
  assert.deepEqual(order, ["start", "end"]);
  if (!isOwn) return;
  assert.equal(rules.selectRange(1n, 2n), "other");
  assert.equal(new PluralRules("en", { minimumFractionDigits: 1 }).selectRange(0, 1), "other");
  assert.equal(new PluralRules("fr", { notation: "compact" }).selectRange(1, 1650000), "many");
  assert.equal(new PluralRules("fr", { notation: "compact" }).selectRange(1650000, Infinity), "other");
  assert.throws(() => rules.selectRange(1, 10n ** 33000n), (it) => it instanceof LegumeyetError && it.number === ErrorNumber.LIMIT);
});
