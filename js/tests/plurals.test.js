// Plural categories, beside Intl.PluralRules; and what formatters tell of themselves. SEED in the environment is what the random options are made by.
import assert from "node:assert/strict";
import { test } from "node:test";
import { Book, CompactDecimalFormatter, CurrencyFormatter, DecimalFormatter, ErrorNumber, LegumeyetError, NumberFormatter, PercentFormatter, PluralRules } from "legumeyet";
import locales from "legumeyet/locales";

const SEED = process.env.SEED ?? "2026-11-30";
// Intl.PluralRules of Node 18 and 20 has fewer options than Intl.NumberFormat, by which a number is then shown first.
const isNew = new Intl.NumberFormat("en", { roundingMode: "floor", maximumFractionDigits: 0 }).format(1.5) === "1";

// A number from 0 to 1, each time another one.
function randomBy(seed) {
  let state = [...seed].reduce((sum, it) => Math.imul(sum ^ it.charCodeAt(0), 16777619), 2166136261);
  return () => {
    state = (state + 0x6d2b79f5) | 0;
    let it = Math.imul(state ^ (state >>> 15), 1 | state);
    it = (it + Math.imul(it ^ (it >>> 7), 61 | it)) ^ it;
    return ((it ^ (it >>> 14)) >>> 0) / 4294967296;
  };
}

const random = randomBy(SEED);
const below = (most) => Math.floor(random() * most);
const oneOf = (all) => all[below(all.length)];

test("numbers of each type", () => {
  const rows = [
    ["en", {}, { 0: "other", 1: "one", "-1": "one", "1.0": "one", 1.5: "other", 2: "other", "1e0": "one", 0.9996: "one" }],
    ["en", { minimumFractionDigits: 1 }, { 1: "other", "1.0": "other" }], ["en", { maximumFractionDigits: 0 }, { 1.4: "one", 1.5: "other" }],
    ["en", { type: "ordinal" }, { 1: "one", 2: "two", 3: "few", 4: "other", 11: "other", 21: "one", 112: "other", 1003: "few" }],
    ["pl", {}, { 1: "one", 2: "few", 5: "many", 1.5: "other", 22: "few", 112: "many" }], ["ar-EG", {}, { 0: "zero", 1: "one", 2: "two", 3: "few", 11: "many", 100: "other" }],
    ["fr", {}, { 0: "one", 1.9: "one", 2: "other", 1000000: "many", 1500000: "other" }], ["fr", { notation: "compact" }, { 1500000: "many", 1000: "other", 1: "one" }],
    ["fr", { notation: "compact", minimumFractionDigits: 2 }, { 1230000: "many", 1: "one", 1000: "other" }], ["en", { notation: "compact", minimumSignificantDigits: 2 }, { 1: "other", 12: "other" }], ["en", { notation: "compact", maximumFractionDigits: 0 }, { 1.4: "one", 1400: "other" }],
    ["lv", { notation: "compact", minimumFractionDigits: 2, maximumFractionDigits: 2 }, { 0.21: "one", 0.215: "other", 0.11: "zero" }], ["es", { notation: "compact", compactDisplay: "long" }, { 1234567: "many", 1650: "other", 1: "one" }], ["ja", {}, { 1: "other" }], ["it", { type: "ordinal" }, { 8: "many", 11: "many", 1: "other" }],
    ["fr", { notation: "scientific" }, { 1: "one", 1000: "other", 1000000: "many", 1234567: "many", 123456: "other" }], ["fr", { notation: "engineering", maximumSignificantDigits: 2 }, { 999600: "many", 99960: "other", 12345678: "many" }],
    ["en", { notation: "scientific" }, { 1: "one", 1.5: "other", 10: "other" }], ["en", { notation: "engineering", minimumFractionDigits: 1 }, { 1: "other", 1000: "other" }],
    ["en", { maximumSignificantDigits: 1 }, { 1.04: "one", 1.5: "other" }], ["en", { roundingMode: "trunc", maximumFractionDigits: 0 }, { 1.9: "one", 0.9: "other" }],
  ];
  for (const [tag, options, wanted] of rows) {
    const it = new PluralRules(tag, options);
    for (const [number, category] of Object.entries(wanted)) {
      for (const one of [number, Number(number)]) assert.equal(it.select(one), category, `${tag} ${JSON.stringify(options)} ${number}`);
    }
  }
  assert.equal(new PluralRules("en").select(1n), "one");
  for (const number of [NaN, Infinity, -Infinity]) assert.equal(new PluralRules("en").select(number), new Intl.PluralRules("en").select(number));
});

test("numbers that are none", () => {
  const it = new PluralRules("en");
  for (const wrong of ["x", "", "1,5", "٣", "\ud800"]) {
    assert.throws(() => it.select(wrong), (error) => error instanceof LegumeyetError && error.number === ErrorNumber.NUMBER);
    for (const ends of [[wrong, 1], [1, wrong]]) assert.throws(() => it.selectRange(...ends), (error) => error instanceof LegumeyetError && error.number === ErrorNumber.NUMBER);
  }
  for (const wrong of [undefined, null, {}, true]) {
    for (const call of [() => it.select(wrong), () => it.selectRange(wrong, 1), () => it.selectRange(1, wrong)]) assert.throws(call, TypeError);
  }
  assert.throws(() => it.selectRange(NaN, 1), RangeError);
  assert.throws(() => it.select("1e40000"), (error) => error.number === ErrorNumber.LIMIT);
  assert.equal(it.select("1"), "one");
});

test("ranges", () => {
  const rows = [
    ["en", {}, 0, 1, "other"], ["en", {}, 1, 2, "other"], ["fr", {}, 0, 1, "one"], ["fr", {}, 1, 2, "other"], ["sl", {}, 1, 1, "few"], ["lv", {}, 0, 1, "one"], ["ar", {}, 1, 2, "other"], ["ar", {}, "0", "3", "few"],
    ["fr", { notation: "compact" }, 1, 1650000, "many"], ["en", { minimumFractionDigits: 1 }, 1, 1, "other"], ["fr", { notation: "compact", roundingMode: "floor" }, 1, 1999, "other"],
    ["fr", { notation: "scientific" }, 1, 1000000, "many"], ["fr", { notation: "compact", maximumFractionDigits: 2 }, 1, 1234567, "many"], ["ar", { notation: "compact", minimumFractionDigits: 1 }, 0, 3, "few"], ["sl", { notation: "compact", maximumSignificantDigits: 3 }, 1, 1, "few"],
  ];
  for (const [tag, options, start, end, category] of rows) assert.equal(new PluralRules(tag, options).selectRange(start, end), category, `${tag} ${start} ${end}`);
});

test("options that are none, as Intl has them", () => {
  const it = new PluralRules("en", undefined);
  assert.equal(it.select(1), "one");
  const rows = [
    [RangeError, { type: "x" }], [RangeError, { type: "Cardinal" }], [RangeError, { minimumIntegerDigits: 0 }], [RangeError, { maximumFractionDigits: -1 }], [RangeError, { minimumFractionDigits: 3, maximumFractionDigits: 2 }],
    [RangeError, { minimumSignificantDigits: 3, maximumSignificantDigits: 2 }], [RangeError, { maximumSignificantDigits: 0 }], [RangeError, { localeMatcher: "x" }], [TypeError, null],
  ];
  for (const localeMatcher of ["lookup", "best fit", undefined]) assert.equal(new PluralRules("en", { localeMatcher }).select(1), "one");
  const newer = [
    [RangeError, { roundingMode: "x" }], [RangeError, { trailingZeroDisplay: "x" }], [RangeError, { roundingPriority: "x" }], [RangeError, { roundingIncrement: 3 }], [RangeError, { roundingIncrement: 5, maximumFractionDigits: 2 }],
    [TypeError, { roundingIncrement: 5, maximumSignificantDigits: 2 }], [TypeError, { roundingIncrement: 5, roundingPriority: "morePrecision" }], [TypeError, { roundingIncrement: 5, notation: "compact" }],
  ];
  for (const [wanted, options] of [...rows, ...newer]) {
    assert.throws(() => new PluralRules("en", options), (error) => error.constructor === wanted, JSON.stringify(options));
    const Theirs = rows.some((row) => row[1] === options) ? Intl.PluralRules : Intl.NumberFormat;
    if (isNew) assert.throws(() => new Theirs("en", options), wanted, JSON.stringify(options));
  }
  const own = [{ notation: "x" }, { notation: "compact", minimumFractionDigits: 2, maximumFractionDigits: 1 }, { notation: "compact", compactDisplay: "x" }, { position: 1 }, { signDisplay: "auto" }, { useGrouping: false }, { minimumIntegerDigits: 1.5 }];
  for (const options of own) assert.throws(() => new PluralRules("en", options), (error) => error.constructor === RangeError, JSON.stringify(options));
  assert.throws(() => PluralRules("en"), TypeError);
});

test("locales, books, and rules that are closed", () => {
  const refuses = (number, call) => assert.throws(call, (error) => error instanceof LegumeyetError && error.number === number);
  refuses(ErrorNumber.TABLE, () => new PluralRules("zz"));
  refuses(ErrorNumber.TAG, () => new PluralRules("de_DE"));
  assert.throws(() => new PluralRules(5), TypeError);
  assert.equal(new PluralRules(["zz", new Intl.Locale("pl")]).select(2), "few");
  assert.equal(new PluralRules("zz", { fallback: "pl" }).resolvedOptions().locale, "pl");
  assert.deepEqual(PluralRules.supportedLocalesOf(["en", "zz", "pl"], { type: "ordinal" }), ["en", "pl"]);
  assert.equal(new PluralRules().resolvedOptions().locale, new Intl.NumberFormat().resolvedOptions().locale);
  const book = new Book('[[["en","","latn","-","","+","",".",",",3,3,1]],[["latn","0123456789"]],[["en",[["one","i = 1"]]]],[],[]]');
  assert.equal(new PluralRules("en", { book }).select("1.0"), "one");
  assert.deepEqual(new PluralRules("en", { book }).resolvedOptions().pluralCategories, ["one", "other"]);
  refuses(ErrorNumber.TABLE, () => new PluralRules("en", { book, type: "ordinal" }));
  const it = new PluralRules("en");
  assert.equal(it.closed, false);
  it.close();
  assert.equal(it.closed, true);
  for (const call of [() => it.select(1), () => it.selectRange(1, 2)]) refuses(ErrorNumber.CLOSED, call);
  assert.deepEqual(it.resolvedOptions(), new PluralRules("en").resolvedOptions());
  assert.equal(new PluralRules("en").select(1), "one");
});

test("resolved options, as Intl has them", () => {
  const wanted = { locale: "en", type: "cardinal", notation: "standard", minimumIntegerDigits: 1, minimumFractionDigits: 0, maximumFractionDigits: 3, pluralCategories: ["one", "other"], roundingIncrement: 1, roundingMode: "halfExpand", roundingPriority: "auto", trailingZeroDisplay: "auto" };
  assert.deepEqual(new PluralRules("en").resolvedOptions(), wanted);
  assert.deepEqual(new PluralRules("en", { compactDisplay: "long", notation: undefined }).resolvedOptions(), wanted);
  const compact = new PluralRules("de", { notation: "compact", roundingMode: "floor" }).resolvedOptions();
  assert.deepEqual(compact, { ...wanted, locale: "de", notation: "compact", compactDisplay: "short", maximumFractionDigits: 0, minimumSignificantDigits: 1, maximumSignificantDigits: 2, roundingMode: "floor", roundingPriority: "morePrecision" });
  assert.deepEqual(new PluralRules("en", { notation: "engineering", compactDisplay: "long" }).resolvedOptions(), { ...wanted, notation: "engineering" });
  const own = { notation: "compact", compactDisplay: "long", minimumFractionDigits: 1, maximumFractionDigits: 4 };
  assert.deepEqual(new PluralRules("en", own).resolvedOptions(), { ...wanted, ...own });
  const all = [{}, { type: "ordinal" }, { minimumFractionDigits: 5 }, { maximumFractionDigits: 5 }, { maximumFractionDigits: 0 }, { minimumFractionDigits: 1, maximumFractionDigits: 2 }, { minimumIntegerDigits: 3 }, { maximumSignificantDigits: 3 }, { minimumSignificantDigits: 2 }, { minimumSignificantDigits: 2, maximumFractionDigits: 1 }];
  for (const options of all) {
    const [ours, theirs] = [PluralRules, Intl.PluralRules].map((Type) => new Type("pl", options).resolvedOptions());
    for (const [name, value] of Object.entries(theirs)) {
      const sorted = (it) => (name === "pluralCategories" ? [...it].sort() : it);
      assert.deepEqual(sorted(ours[name]), sorted(value), `${JSON.stringify(options)} ${name}`);
    }
  }
});

// Options of digits that go together, and whether Intl.PluralRules of this Node has all of them.
function someOptions() {
  const options = {};
  const kind = below(5);
  const [few, more] = [below(4), below(4)];
  if (kind === 1) options.minimumFractionDigits = few;
  if (kind === 2) Object.assign(options, { minimumFractionDigits: few, maximumFractionDigits: few + more });
  if (kind === 3) Object.assign(options, { minimumSignificantDigits: 1 + few, maximumSignificantDigits: 1 + few + more });
  if (kind === 4) Object.assign(options, { minimumFractionDigits: few, maximumFractionDigits: few + more, maximumSignificantDigits: 1 + more, roundingPriority: oneOf(["morePrecision", "lessPrecision"]) });
  if (below(3) === 0) options.roundingMode = oneOf(["expand", "trunc", "ceil", "floor", "halfTrunc", "halfCeil", "halfFloor", "halfEven"]);
  if (below(4) === 0) options.trailingZeroDisplay = "stripIfInteger";
  if (kind === 1 && below(2) === 0) Object.assign(options, { maximumFractionDigits: few, roundingIncrement: oneOf([2, 5, 10, 20, 25, 50, 100, 200, 250, 500, 1000, 2000, 2500, 5000]) });
  return options;
}

function someNumber() {
  const digits = () => String(below(10 ** (1 + below(4))));
  return `${below(6) === 0 ? "-" : ""}${oneOf([() => String(below(130)), digits, () => `${below(12)}.${digits()}`, () => `${digits()}.${below(10)}`, () => `${below(30)}00000`])()}`;
}

// What Intl shows of numbers by options of digits, of which there are some for all locales.
const CHOICES = Array.from({ length: 100 }, () => {
  const options = someOptions();
  const digits = options.maximumSignificantDigits === undefined ? { maximumFractionDigits: Math.max(3, options.minimumFractionDigits ?? 0) } : {};
  return { options, shown: isNew ? new Intl.NumberFormat("en", { useGrouping: false, ...digits, ...options }) : null };
});

// The category that Intl has of a number that is shown so: with as many digits of the fraction as that has.
function theirs(tag, type) {
  const rules = new Map();
  return (shown) => {
    const digits = (shown.split(".")[1] ?? "").length;
    if (!rules.has(digits)) rules.set(digits, new Intl.PluralRules(tag, { type, minimumFractionDigits: digits, maximumFractionDigits: digits }));
    return rules.get(digits).select(Number(shown));
  };
}

// Whether Intl has rules of a locale, and not those of another one in place of them.
function isKnown(tag) {
  return Intl.PluralRules.supportedLocalesOf(tag).length > 0 && new Intl.PluralRules(tag).resolvedOptions().locale.split("-")[0] === tag.split("-")[0];
}

// The locales whose rules are those of a parent by the data, and in Node those of the language.
const BY_PARENTS = /^pt-(?!BR$|PT$)/;

test("numbers of each locale, as Intl has them", { skip: !isNew }, () => {
  const causes = { "rules by parents": 0, "a range for which no category is listed": 0 };
  const known = locales.filter(isKnown);
  let count = 0;
  for (const [tag, type] of known.flatMap((it) => [[it, "cardinal"], [it, "ordinal"]])) {
    const { options, shown } = oneOf(CHOICES);
    const [ours, plain] = [new PluralRules(tag, { type, ...options }), new PluralRules(tag, { type })];
    const [byText, usual] = [theirs(tag, type), new Intl.PluralRules(tag, { type })];
    const isAlike = (here, there, said) => {
      count += 1;
      if (here === there) return;
      if (BY_PARENTS.test(tag)) causes["rules by parents"] += 1;
      else assert.fail(`${tag} ${type} ${said}: ${here} here, ${there} in Node, by seed ${SEED}`);
    };
    isAlike(...[plain, usual].map((it) => it.resolvedOptions().pluralCategories.sort().join(" ")), "categories");
    for (let times = 0; times < 8; times += 1) {
      const [number, other] = [someNumber(), someNumber()];
      isAlike(ours.select(number), byText(shown.format(number)), `${JSON.stringify(options)} ${number}`);
      isAlike(plain.select(number), usual.select(Number(number)), number);
      const range = [plain.selectRange(number, other), usual.selectRange(Number(number), Number(other))];
      if (range[0] !== range[1] && range[1] === "other" && range[0] === plain.select(other)) causes["a range for which no category is listed"] += 1;
      else isAlike(...range, `${number} to ${other}`);
    }
  }
  console.log(`${known.length} of ${locales.length} locales, ${count} answers; differ by ${JSON.stringify(causes)}`);
});

test("what a formatter tells of itself", () => {
  const symbols = { decimal: ",", group: ".", minus: ["-", ""], plus: ["+", ""], digits: [..."0123456789"] };
  for (const it of [new DecimalFormatter("de"), new CompactDecimalFormatter("de"), new PercentFormatter("de", { useGrouping: false }), new CurrencyFormatter("de", { currency: "EUR" }), new NumberFormatter("de", { skeleton: "K" })]) assert.deepEqual(it.symbols(), symbols);
  assert.deepEqual(new DecimalFormatter("ar-EG").symbols(), { decimal: "٫", group: "٬", minus: ["\u061c-", ""], plus: ["\u061c+", ""], digits: [..."٠١٢٣٤٥٦٧٨٩"] });
  assert.deepEqual(new DecimalFormatter("ff-Adlm").symbols().digits, ["𞥐", "𞥑", "𞥒", "𞥓", "𞥔", "𞥕", "𞥖", "𞥗", "𞥘", "𞥙"]);
  assert.equal(new DecimalFormatter("de-AT").symbols().group, "\u00a0");
  assert.equal(new CurrencyFormatter("de-AT", { currency: "EUR" }).symbols().group, new Intl.NumberFormat("de-AT", { style: "currency", currency: "EUR" }).formatToParts(12345).find(({ type }) => type === "group").value);
  for (const it of locales.flatMap((tag) => [new DecimalFormatter(tag), new PercentFormatter(tag), ...["EUR", "CHF", "CVE"].map((currency) => new CurrencyFormatter(tag, { currency, currencyDigits: "given" }))])) {
    const parts = it.formatToParts("-9876543210.5", { signDisplay: "always" });
    const { decimal, group, digits } = it.symbols();
    const [first, second = group] = ["decimal", "group"].map((type) => parts.find((part) => part.type === type)?.value); // some write no groups
    const shown = parts.filter(({ type }) => type === "integer").flatMap(({ value }) => [...value]).reverse();
    assert.deepEqual([decimal, group, digits], [first, second, shown], `${it.constructor.name} ${JSON.stringify(it.resolvedOptions())}`);
  }
  for (const tag of locales) {
    const it = new DecimalFormatter(tag);
    const { minus, plus } = it.symbols();
    const [bare, ...signed] = [["5", "never"], ["-5", "auto"], ["5", "always"]].map(([number, signDisplay]) => it.format(number, { signDisplay }));
    assert.deepEqual(signed, [minus, plus].map(([before, after]) => before + bare + after), tag);
  }
  const it = new DecimalFormatter("en");
  it.close();
  assert.throws(() => it.symbols(), { number: ErrorNumber.CLOSED });
});
