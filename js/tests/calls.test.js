// Each call well and badly.
import assert from "node:assert/strict";
import { readFileSync } from "node:fs";
import { createRequire } from "node:module";
import { test } from "node:test";
import { Book, CompactDecimalFormatter, CurrencyFormatter, DecimalFormatter, ErrorNumber, LegumeyetError, NumberFormatter, PercentFormatter, ScientificFormatter, version } from "legumeyet";

const JSON_OF_ONE = '[[["xx","","latn","-","","+","",";","_",3,3,1]],[["latn","0123456789"]],[],[],[]]';
const en = new DecimalFormatter("en");

function refuses(number, call, ...words) {
  assert.throws(call, (error) => {
    assert.ok(error instanceof LegumeyetError && error instanceof RangeError, String(error));
    assert.equal(error.number, number);
    assert.ok(error.word.length > 0);
    for (const word of words) assert.ok(error.message.includes(word), error.message);
    return true;
  });
}

test("numbers of each kind", () => {
  const rows = [
    ["-987654.321", "-987,654.321"], [-0, "-0"], ["-0", "-0"], ["+5", "5"], [0.1 + 0.2, "0.30000000000000004"], ["1.50", "1.50"], [1e21, "1,000,000,000,000,000,000,000"],
    ["1e+21", "1,000,000,000,000,000,000,000"], ["1e21", "1,000,000,000,000,000,000,000"], [5e-324, `0.${"0".repeat(323)}5`], [1.7976931348623157e308, Intl.NumberFormat("en").format("1.7976931348623157e308")],
    [-1234, "-1,234"], [12345678901234567890n, "12,345,678,901,234,567,890"], [-1n, "-1"], [0, "0"],
  ];
  for (const [number, text] of rows) assert.equal(en.format(number), text);
  assert.equal(en.format("1".repeat(20000)).length, 20000 + 6666);
  assert.deepEqual([1234, "5", 6n].map(en.format), ["1,234", "5", "6"]);
});

test("numbers that are none", () => {
  for (const wrong of [NaN, Infinity, -Infinity, "5.", "", " 5", "1,5", "٣", "NaN", "1e++21", "e+", "x".repeat(5000), "\ud800"]) refuses(ErrorNumber.NUMBER, () => en.format(wrong));
  for (const wrong of [undefined, null, {}, [], true, Symbol("x"), () => 1]) assert.throws(() => en.format(wrong), TypeError);
  for (const wrong of ["1e40000", "1e-40000", "9".repeat(40000)]) refuses(ErrorNumber.LIMIT, () => en.format(wrong));
  assert.equal(en.format("1234"), "1,234");
});

test("numbers of JavaScript as their texts", () => {
  const words = new Float64Array(1);
  const bytes = new Uint32Array(words.buffer);
  for (let i = 1, seed = 1; i < 20000; i += 1) {
    for (const at of [0, 1]) bytes[at] = seed = (Math.imul(seed, 1664525) + 1013904223) >>> 0;
    for (const number of [words[0], Number(words[0].toPrecision(1 + (i % 15)))]) {
      if (Number.isFinite(number)) assert.equal(en.format(number), en.format(Object.is(number, -0) ? "-0" : String(number)));
    }
  }
});

test("options", () => {
  const rows = [
    [{ useGrouping: false }, "1234567", "1234567"], [{ useGrouping: true }, "1234", "1,234"], [{ useGrouping: "min2" }, "1234", "1234"], [{ useGrouping: "min2" }, "12345", "12,345"],
    [{ signDisplay: "keep" }, "+5", "+5"], [{ signDisplay: "always" }, "5", "+5"], [{ signDisplay: "never" }, "-5", "5"], [{ signDisplay: "exceptZero" }, "0", "0"],
    [{ signDisplay: "negative" }, "-0", "0"], [{ position: -2 }, "5", "5.00"], [{ position: 3, roundingMode: "floor" }, "-1500", "-2,000"],
    [{ position: -1, roundingMode: "halfEven", signDisplay: "always" }, "9.65", "+9.6"], [{ position: 0 }, "2.5", "3"], [{ position: 0, roundingMode: "halfEven" }, "2.5", "2"],
    [{ minimumFractionDigits: 2, maximumFractionDigits: 2 }, "1.005", "1.01"], [{ useGrouping: undefined, position: undefined }, "1234.5", "1,234.5"],
  ];
  for (const [options, number, text] of rows) assert.equal(new DecimalFormatter("en", options).format(number), text, JSON.stringify(options));
});

test("options as Intl has them", () => {
  const numbers = ["0", "1.005", "-1.995", "1234.5", "0.05", "999.999", "12345678.125", "-0.001", "7", "1.5000", "22.5", "-37.475"];
  const choices = [
    { maximumFractionDigits: 2 }, { maximumFractionDigits: 0 }, { minimumFractionDigits: 1, maximumFractionDigits: 3 }, { minimumFractionDigits: 3, maximumFractionDigits: 3 },
    { maximumFractionDigits: 20, minimumIntegerDigits: 3 }, { maximumFractionDigits: 1, roundingMode: "floor" }, { maximumFractionDigits: 1, roundingMode: "halfEven", signDisplay: "exceptZero" },
  ];
  for (const roundingIncrement of [1, 2, 5, 10, 20, 25, 50, 100, 200, 250, 500, 1000, 2000, 2500, 5000]) {
    for (const digits of [0, 1, 2, 3, 5]) {
      for (const more of [{}, { trailingZeroDisplay: "stripIfInteger" }, { roundingMode: "expand" }]) choices.push({ minimumFractionDigits: digits, maximumFractionDigits: digits, roundingIncrement, ...more });
      if (roundingIncrement > 1) choices.push({ minimumFractionDigits: digits, roundingIncrement });
    }
  }
  for (const options of choices) {
    const [ours, theirs] = [new DecimalFormatter("de", options), new Intl.NumberFormat("de", options)];
    for (const number of numbers) {
      if (theirs.resolvedOptions().roundingMode === undefined && options.roundingMode) continue; // Node 18 has no roundingMode
      if (theirs.resolvedOptions().roundingIncrement === undefined && options.roundingIncrement) continue;
      assert.equal(ours.format(number), theirs.format(number), `${JSON.stringify(options)} ${number}`);
    }
  }
  const most = new DecimalFormatter("en", { maximumFractionDigits: 2 });
  assert.deepEqual(["1.995", "1.5", "1.255"].map(most.format), ["2", "1.5", "1.26"]);
});

test("options that are none", () => {
  const rows = [
    [{ useGrouping: "x" }, "useGrouping"], [{ useGrouping: "false" }, "useGrouping"], [{ signDisplay: "toString" }, "signDisplay"], [{ signDisplay: 1 }, "signDisplay"],
    [{ position: 0, roundingMode: "half-even" }, "roundingMode"], [{ roundingMode: "floor" }, "position"], [{ position: 1.5 }, "position"], [{ position: 40000 }, "position"],
    [{ maximumFractionDigits: -1 }, "maximumFractionDigits"], [{ minimumFractionDigits: 3, maximumFractionDigits: 2 }, "minimumFractionDigits"], [{ minimumIntegerDigits: 0 }, "minimumIntegerDigits"],
    [{ position: 0, maximumFractionDigits: 0 }, "position"], [{ maximumFractionDigits: 2, roundingIncrement: 5 }, "roundingIncrement"], [{ position: -2, roundingIncrement: 3 }, "roundingIncrement"], [{ roundingIncrement: 5 }, "roundingIncrement"],
    [{ position: 32767, roundingIncrement: 10 }, "roundingIncrement"],
    [{ style: "percent" }, "style"], [{ compactDisplay: "short" }, "compactDisplay"],
  ];
  for (const [options, word] of rows) assert.throws(() => new DecimalFormatter("en", options), (error) => error instanceof RangeError && error.message.includes(word), JSON.stringify(options));
  assert.throws(() => new CompactDecimalFormatter("en", { compactDisplay: "medium" }), RangeError);
  for (const options of [{ maximumFractionDigits: -1 }, { maximumFractionDigits: 2, position: -1 }, { roundingIncrement: 5 }, { roundingMode: "x" }]) assert.throws(() => new CompactDecimalFormatter("en", options), RangeError);
  for (const options of [null, "x", 5]) assert.throws(() => new DecimalFormatter("en", options), TypeError);
  for (const book of [null, "{}", en, {}]) assert.throws(() => new DecimalFormatter("en", { book }), { name: "TypeError", message: "book is a Book" });
});

test("resolved options", () => {
  const money = new DecimalFormatter("de-CH", { minimumFractionDigits: 2, maximumFractionDigits: 2, roundingMode: "halfEven", useGrouping: false });
  const found = { locale: "de-CH", useGrouping: false, signDisplay: "auto", minimumFractionDigits: 2, maximumFractionDigits: 2, roundingMode: "halfEven" };
  assert.deepEqual(money.resolvedOptions(), found);
  assert.deepEqual(new CompactDecimalFormatter("en").resolvedOptions(), { locale: "en", useGrouping: "min2", signDisplay: "auto", compactDisplay: "short", roundingMode: "halfExpand" });
  assert.deepEqual(new DecimalFormatter(["zz", "de-AT"], { useGrouping: true }).resolvedOptions(), { locale: "de-AT", useGrouping: "always", signDisplay: "auto" });
  assert.deepEqual(new DecimalFormatter("en", { position: -2 }).resolvedOptions(), { locale: "en", useGrouping: "auto", signDisplay: "auto", position: -2, roundingMode: "halfExpand" });
});

test("parts", () => {
  const types = (parts) => parts.map(({ type, value }) => `${type} ${value}`);
  for (const number of ["-1234567.5", "0", "5", "0.25", "123456"]) assert.deepEqual(en.formatToParts(number), new Intl.NumberFormat("en").formatToParts(number));
  assert.deepEqual(types(new DecimalFormatter("ar-EG").formatToParts("-1234.5")), ["minusSign \u061c-", "integer ١", "group ٬", "integer ٢٣٤", "decimal ٫", "fraction ٥"]);
  assert.deepEqual(types(new CompactDecimalFormatter("en").formatToParts("-1650")), ["minusSign -", "literal 1.7K"]);
  assert.deepEqual(types(new CompactDecimalFormatter("de", { compactDisplay: "long" }).formatToParts(-0)), ["minusSign -", "literal 0"]);
  assert.equal(en.formatToParts("1".repeat(3000)).length, 1999);
  assert.equal(en.formatToParts("1".repeat(3000)).map((it) => it.value).join(""), en.format("1".repeat(3000)));
  refuses(ErrorNumber.NUMBER, () => en.formatToParts("5."));
  refuses(ErrorNumber.NUMBER, () => en.formatToParts(NaN));
});

test("reading", () => {
  assert.equal(en.read("-1,234.50"), "-1234.50");
  assert.equal(new DecimalFormatter("ar-EG").read("\u061c-١٬٢٣٤٫٥"), "-1234.5");
  for (const wrong of ["1234", "98,7654", "1,234,", ".5", "", "x".repeat(2000)]) refuses(ErrorNumber.NOT_WRITTEN, () => en.read(wrong));
  for (const wrong of ["\ud800", "1\udc00"]) refuses(ErrorNumber.UTF8, () => en.read(wrong));
  for (const wrong of [1234, null, undefined]) assert.throws(() => en.read(wrong), TypeError);
  const long = en.format("7".repeat(3000));
  assert.equal(en.read(long), "7".repeat(3000));
});

test("reading what people type", () => {
  const rows = {
    en: [["1234.5", "1234.5"], ["1,234.5", "1234.5"], [" 1,234.5 ", "1234.5"], [".5", "0.5"], ["5.", "5"], ["\u22125", "-5"], ["\uff11\uff12\uff13\uff14", "1234"], ["1.50\n", "1.50"]],
    de: [["1.234", "1234"], ["1234,5", "1234.5"]], es: [["1.234", "1234"], ["1234", "1234"], ["12.345", "12345"]],
    fr: [["1 234,5", "1234.5"], ["1\u00a0234,5", "1234.5"], ["1\u202f234,5", "1234.5"]], "de-CH": [["1'234.5", "1234.5"], ["1\u2019234.5", "1234.5"]],
    hi: [["12,34,567", "1234567"]], "ar-EG": [["١٬٢٣٤٫٥", "1234.5"], ["1٬234٫5", "1234.5"], ["-5", "-5"], ["1,234.5", "1234.5"], ["1234.5", "1234.5"], ["-.5", "-0.5"]], sv: [["-5", "-5"]], he: [["-5", "-5"]], fa: [["-5", "-5"]],
  };
  for (const [tag, texts] of Object.entries(rows)) {
    const it = new DecimalFormatter(tag);
    for (const [text, digits] of texts) assert.equal(it.readLenient(text), digits, `${tag} ${text}`);
  }
  for (const wrong of ["1,23", "12,34,567", "1,234,5", "1 234", "1.2.3", "--5", "5-", ".", "-", ""]) refuses(ErrorNumber.NOT_WRITTEN, () => en.readLenient(wrong));
  for (const wrong of ["1,234.5", "1.5"]) refuses(ErrorNumber.NOT_WRITTEN, () => new DecimalFormatter("de").readLenient(wrong));
  refuses(ErrorNumber.UTF8, () => en.readLenient("\ud800"));
  assert.throws(() => en.readLenient(5), TypeError);
});

test("compact numbers", () => {
  const short = new CompactDecimalFormatter("en");
  assert.deepEqual([-1172700, "999500", 1650n, "950", "1e10"].map(short.format), ["-1.2M", "1M", "1.7K", "950", "10B"]);
  assert.equal(new CompactDecimalFormatter("de", { compactDisplay: "long" }).format(1234567), "1,2 Millionen");
  assert.equal(new CompactDecimalFormatter("en", { position: 6 }).format(-1172700), "-1M");
  assert.deepEqual([-1172700, "950"].map((it) => short.shown(it)), ["-1.2c6", "950"]);
  assert.equal(short.formatExact("-1.20c6"), "-1.20M");
  refuses(ErrorNumber.EXPONENT, () => short.formatExact("1.2c5"));
  refuses(ErrorNumber.NUMBER, () => short.formatExact("1.2e6"));
  refuses(ErrorNumber.RANGE, () => short.format("9".repeat(32768)));
  refuses(ErrorNumber.NUMBER, () => short.shown(NaN));
  assert.throws(() => short.formatExact(1), TypeError);
});

test("scientific numbers", () => {
  const powers = new ScientificFormatter("en");
  assert.deepEqual([1234567.891, "-0.00012", 5n, "0", "-0", "1000.0", 1e21, "1e-400"].map(powers.format), ["1.234567891E6", "-1.2E-4", "5E0", "0E0", "-0E0", "1E3", "1E21", "1E-400"]);
  assert.deepEqual([999999, "0.00012", "-12000"].map(new ScientificFormatter("en", { notation: "engineering" }).format), ["999.999E3", "120E-6", "-12E3"]);
  assert.deepEqual(["1234567.891", "999999", "0"].map((it) => powers.format(it, { maximumSignificantDigits: 3 })), ["1.23E6", "1E6", "0E0"]);
  const tags = { de: "-1,2E-4", sv: "\u22121,2×10^\u22124", "ar-EG": "\u061c-١٫٢أس\u061c-٤", uk: "-1,2\u0415-4", fa: "\u200e\u2212۱٫۲×۱۰^\u200e\u2212۴" };
  for (const [tag, text] of Object.entries(tags)) assert.equal(new ScientificFormatter(tag).format("-0.00012"), text);
  assert.deepEqual(["-1234567.891", "0.00012", "5", "0.00"].map((it) => powers.shown(it)), ["-1.234567891e6", "1.2e-4", "5e0", "0e0"]);
  const types = (parts) => parts.map(({ type, value }) => `${type} ${value}`);
  assert.deepEqual(types(powers.formatToParts("-0.00012")), ["minusSign -", "integer 1", "decimal .", "fraction 2", "exponentSeparator E", "exponentMinusSign -", "exponentInteger 4"]);
  assert.deepEqual(types(new NumberFormatter("ar-EG", { skeleton: "scientific/*ee/sign-always" }).formatToParts("1200000")), ["integer ١", "decimal ٫", "fraction ٢", "exponentSeparator أس", "exponentPlusSign \u061c+", "exponentInteger ٠٦"]);
  for (const exact of ["1.2", "1.2c6"]) refuses(ErrorNumber.EXPONENT, () => powers.formatExact(exact));
  refuses(ErrorNumber.NUMBER, () => powers.formatExact("1.2e6"));
  assert.deepEqual(["1.2345E6", "-1.20E-3", "0E0", "1E-400"].map((it) => powers.read(it)), ["1234500", "-0.00120", "0", `0.${"0".repeat(399)}1`]);
  assert.equal(new ScientificFormatter("ar-EG", { notation: "engineering" }).read("\u061c-١٢٠أس\u061c-٦"), "-0.000120");
  for (const text of ["12.3E4", "1.2e6", " 1.2E6", "1.2E06", "1E99999", "1.2"]) refuses(ErrorNumber.NOT_WRITTEN, () => powers.read(text));
  refuses(ErrorNumber.UNREADABLE, () => powers.readLenient("1.2E6"));
  refuses(ErrorNumber.RANGE, () => powers.format(`1${"0".repeat(300)}.${"0".repeat(32767)}1`));
  refuses(ErrorNumber.NUMBER, () => powers.shown(NaN));
  assert.deepEqual(powers.resolvedOptions(), { locale: "en", useGrouping: "auto", signDisplay: "auto", notation: "scientific" });
  assert.deepEqual(new ScientificFormatter("de", { notation: "engineering", maximumFractionDigits: 1 }).resolvedOptions(), { locale: "de", useGrouping: "auto", signDisplay: "auto", notation: "engineering", maximumFractionDigits: 1, roundingMode: "halfExpand" });
  for (const wrong of [{ notation: "compact" }, { notation: "standard" }, { notation: null }, { compactDisplay: "short" }, { style: "percent" }, { currency: "EUR" }]) assert.throws(() => new ScientificFormatter("en", wrong), RangeError);
  const book = new Book('[[["en","","latn","-","","+","",".",",",3,3,1]],[["latn","0123456789"]],[],[],[]]'); // which has no text before exponents
  refuses(ErrorNumber.TABLE, () => new ScientificFormatter("en", { book }));
  assert.equal(new DecimalFormatter("en", { book }).format(5), "5");
});

// A formatter of amounts.
const money = (locale, currency, options = {}) => new CurrencyFormatter(locale, { currency, ...options });

test("amounts of money", () => {
  const rows = [
    ["de", "EUR", {}, 1234.5, "1.234,50\u00a0€"], ["de", "EUR", {}, -1234567n, "-1.234.567,00\u00a0€"], ["en", "USD", {}, "1.005", "$1.01"], ["en", "JPY", {}, 2.5, "¥3"],
    ["de-CH", "CHF", {}, -5, "CHF-5.00"], ["nl", "USD", {}, -5, "US$\u00a0-5,00"], ["en", "QQQ", {}, 0, "QQQ\u00a00.00"], ["en", "USD", { signDisplay: "always" }, 5, "+$5.00"],
    ["en", "USD", { currencySign: "accounting" }, -5, "($5.00)"], ["en", "USD", { currencySign: "standard" }, -5, "-$5.00"], ["en", "USD", { currencyDisplay: "code" }, 5, "USD\u00a05.00"],
    ["en", "CHF", {}, "2.345", "CHF\u00a02.35"], ["en", "CHF", { currencyDigits: "cash" }, "2.345", "CHF\u00a02.35"], ["en", "CHF", { currencyDigits: "given" }, "2.345", "CHF\u00a02.345"],
    ["en", "USD", { currencyDigits: "given" }, "5", "$5"], ["en", "USD", { maximumFractionDigits: 0 }, "2.5", "$3"], ["en", "USD", { maximumFractionDigits: 3 }, "5", "$5.000"],
    ["en", "USD", { minimumFractionDigits: 0, maximumFractionDigits: 2 }, "5.10", "$5.1"], ["en", "USD", { position: 2, roundingMode: "floor" }, "1299", "$1,200"],
    ["en", "USD", { minimumFractionDigits: 3 }, "1.2345", "$1.230"], ["en", "USD", { useGrouping: false }, 1234, "$1234.00"], ["en", "USD", { signDisplay: "negative" }, "-0.001", "$0.00"],
  ];
  for (const [locale, currency, options, number, text] of rows) {
    const it = money(locale, currency, options);
    assert.equal(it.format(number), text);
    assert.equal(it.formatToParts(number).map(({ value }) => value).join(""), text);
    assert.equal(money(locale, currency, { ...options, signDisplay: "keep" }).format(it.read(text)), text);
  }
  assert.deepEqual([1, "2", 3n].map(money("en", "USD").format), ["$1.00", "$2.00", "$3.00"]);
  assert.equal(money("en", "USD").read("-$1,234.5"), "-1234.5");
});

test("parts of amounts and percents", () => {
  const types = (parts) => parts.map(({ type, value }) => `${type} ${value}`);
  for (const [locale, currency] of [["en", "USD"], ["de", "EUR"], ["en-IN", "INR"]]) {
    const theirs = new Intl.NumberFormat(locale, { style: "currency", currency });
    for (const number of ["-1234567.5", "0", "5"]) assert.deepEqual(money(locale, currency).formatToParts(number), theirs.formatToParts(number));
  }
  const theirs = new Intl.NumberFormat("tr", { style: "percent", minimumFractionDigits: 1 });
  assert.deepEqual(new PercentFormatter("tr").formatToParts("-12.5"), theirs.formatToParts(-0.125));
  assert.deepEqual(types(money("en", "USD", { currencySign: "accounting" }).formatToParts(-5)), ["minusSign (", "currency $", "integer 5", "decimal .", "fraction 00", "minusSign )"]);
  assert.deepEqual(types(money("de-CH", "CHF").formatToParts(-5)), ["currency CHF", "minusSign -", "integer 5", "decimal .", "fraction 00"]);
  assert.deepEqual(types(money("nl", "USD").formatToParts(-1234)), ["currency US$", "minusSign \u00a0-", "integer 1", "group .", "integer 234", "decimal ,", "fraction 00"]);
});

test("percents", () => {
  const rows = [["de", 12.5, "12,5\u00a0%"], ["tr", "-12.50", "-%12,50"], ["en", 1234, "1,234%"], ["eu", "-5", "−%\u00a05"]];
  for (const [locale, number, text] of rows) {
    const it = new PercentFormatter(locale);
    assert.equal(it.format(number), text);
    assert.equal(it.read(text), String(number));
  }
  assert.equal(new PercentFormatter("en", { maximumFractionDigits: 1 }).format("12.55"), "12.6%");
  assert.deepEqual(PercentFormatter.supportedLocalesOf(["en", "zz"]), ["en"]);
});

test("amounts and percents are read leniently", () => {
  const rows = [["-€1,234.50", "-1234.50"], [" €1234.5 ", "1234.5"], ["1,234.5 €", "1234.5"], ["EUR 5", "5"], ["5 EUR", "5"], ["-5", "-5"], ["€.5", "0.5"]];
  const it = money("en", "EUR");
  for (const [text, digits] of rows) assert.equal(it.readLenient(text), digits, text);
  for (const [text, digits] of [["%12,5", "12.5"], ["12,5 %", "12.5"], ["1.234,5", "1234.5"]]) assert.equal(new PercentFormatter("tr").readLenient(text), digits, text);
  for (const wrong of ["$5.00", "€1,23", "5 euros", ""]) refuses(ErrorNumber.NOT_WRITTEN, () => it.readLenient(wrong));
  refuses(ErrorNumber.UTF8, () => it.readLenient("\ud800"));
  assert.throws(() => it.readLenient(5), TypeError);
});

test("amounts and percents that are refused", () => {
  for (const code of ["eur", "EURO", "EU", "", "EÜR", "A1B", "\ud800UR", "\u0145UR"]) refuses(ErrorNumber.CODE, () => money("e", code), `: ${JSON.stringify(code)}`);
  refuses(ErrorNumber.TAG, () => money("de_DE", "EUR"), '"de_DE" is written "de-DE"');
  refuses(ErrorNumber.TABLE, () => money(["yy", "zz"], "EUR"), '"zz"');
  refuses(ErrorNumber.TABLE, () => money("xx", "EUR", { book: new Book(JSON_OF_ONE) }));
  refuses(ErrorNumber.TABLE, () => new PercentFormatter("xx", { book: new Book(JSON_OF_ONE) }));
  const loose = new Book(readFileSync(createRequire(import.meta.url).resolve("legumeyet/world.json")));
  const [euros, turkish] = [money("de", "EUR", { book: loose }), new PercentFormatter("tr", { book: loose })];
  loose.close();
  assert.deepEqual([euros.format("1234.5"), turkish.format(12.5), euros.readLenient("EUR 1234,5")], ["1.234,50\u00a0€", "%12,5", "1234.5"]);
  refuses(ErrorNumber.TABLE, () => money("xx", "EUR", { book: new Book(JSON_OF_ONE).keep() }));
  for (const wrong of [undefined, null, 5]) assert.throws(() => money("en", wrong), TypeError);
  assert.throws(() => new CurrencyFormatter("en"), TypeError);
  const rows = [
    [{ currencySign: "x" }, "currencySign"], [{ currencyDisplay: "name" }, "currencyDisplay"], [{ currencyDigits: "toString" }, "currencyDigits"], [{ style: "currency" }, "style"],
    [{ currencyDigits: "cash", position: 0 }, "currencyDigits"], [{ currencyDigits: "given", maximumFractionDigits: 2 }, "currencyDigits"], [{ currencyDigits: "given", roundingMode: "floor" }, "roundingMode"],
    [{ currencyDigits: "cash", roundingIncrement: 5 }, "roundingIncrement"], [{ roundingIncrement: 3 }, "roundingIncrement"],
  ];
  for (const [options, word] of rows) assert.throws(() => money("en", "USD", options), (error) => error instanceof RangeError && error.message.includes(word), JSON.stringify(options));
  for (const options of [{ currency: "EUR" }, { currencyDigits: "cash" }, { currencySign: "accounting" }]) {
    for (const kind of [DecimalFormatter, PercentFormatter]) assert.throws(() => new kind("en", options), RangeError);
  }
  const it = money("en", "EUR");
  for (const wrong of ["5.00", "$5.00", "€5,00", ""]) refuses(ErrorNumber.NOT_WRITTEN, () => it.read(wrong));
  refuses(ErrorNumber.UTF8, () => it.read("\ud800"));
  refuses(ErrorNumber.NUMBER, () => it.format(NaN));
  refuses(ErrorNumber.NUMBER, () => it.formatToParts("5."));
  refuses(ErrorNumber.LIMIT, () => it.format("1e40000"));
  assert.throws(() => it.read(5), TypeError);
  it.close();
  refuses(ErrorNumber.CLOSED, () => it.format(1));
  refuses(ErrorNumber.CLOSED, () => it.formatToParts(1));
  refuses(ErrorNumber.CLOSED, () => it.read("1"));
});

test("resolved options of amounts", () => {
  const digits = { currencyFractionDigits: 2, cashFractionDigits: 2, cashIncrement: 1 };
  const found = { locale: "en", useGrouping: "auto", signDisplay: "auto", currency: "USD", currencySign: "standard", currencyDisplay: "symbol", ...digits };
  assert.deepEqual(money("en", "USD").resolvedOptions(), { ...found, currencyDigits: "standard", roundingMode: "halfExpand" });
  assert.deepEqual(money("en", "USD", { currencyDigits: "cash" }).resolvedOptions(), { ...found, currencyDigits: "cash", roundingMode: "halfExpand" });
  assert.deepEqual(money("en", "USD", { currencyDigits: "given" }).resolvedOptions(), { ...found, currencyDigits: "given" });
  assert.deepEqual(money("en", "USD", { position: 0 }).resolvedOptions(), { ...found, position: 0, roundingMode: "halfExpand" });
  assert.deepEqual(new PercentFormatter("en").resolvedOptions(), { locale: "en", useGrouping: "auto", signDisplay: "auto" });
  const told = (currency) => Object.keys(digits).map((it) => money("en", currency, { currencyDigits: "given" }).resolvedOptions()[it]);
  assert.deepEqual(["CHF", "JPY", "KWD", "CZK", "QQQ"].map(told), [[2, 2, 5], [0, 0, 1], [3, 3, 1], [2, 0, 1], [2, 2, 1]]);
  assert.deepEqual(new NumberFormatter("en", { skeleton: "currency/CHF" }).resolvedOptions(), { locale: "en", skeleton: "currency/CHF", currencyFractionDigits: 2, cashFractionDigits: 2, cashIncrement: 5 });
});

test("locales of a book", () => {
  const book = new Book(JSON_OF_ONE);
  assert.deepEqual(book.locales(), ["xx"]);
  assert.deepEqual(new Book("[[],[],[],[],[]]").locales(), []);
  assert.deepEqual([book.foundLocale("XX-u-nu-thai"), book.foundLocale(new Intl.Locale("xx"))], ["xx", "xx"]);
  refuses(ErrorNumber.TAG, () => book.foundLocale("x"));
  refuses(ErrorNumber.TABLE, () => book.foundLocale("yy"));
  assert.throws(() => book.foundLocale(5), TypeError);
  book.close();
  refuses(ErrorNumber.CLOSED, () => book.locales());
  refuses(ErrorNumber.CLOSED, () => book.foundLocale("xx"));
});

test("books", () => {
  const book = new Book(JSON_OF_ONE);
  const it = new DecimalFormatter("xx", { book });
  book.close();
  assert.equal(it.format("-1234.5"), "-1_234;5");
  assert.ok(book.closed && !it.closed);
  book.close();
  it.close();
  refuses(ErrorNumber.CLOSED, () => it.format(1));
  refuses(ErrorNumber.CLOSED, () => it.formatToParts(1));
  refuses(ErrorNumber.CLOSED, () => new DecimalFormatter("xx", { book }));
  refuses(ErrorNumber.CLOSED, () => book.answer(""));
  refuses(ErrorNumber.CLOSED, () => book.keep());
  refuses(ErrorNumber.BOOK_JSON, () => new Book("[1"));
  refuses(ErrorNumber.BOOK_JSON, () => new Book(new Uint8Array([0xff])));
  refuses(ErrorNumber.BOOK_JSON, () => new Book("\ud800"));
  refuses(ErrorNumber.BOOK_SHAPE, () => new Book("[]"));
  for (const wrong of [5, null, undefined, []]) assert.throws(() => new Book(wrong), TypeError);
  const kept = new Book(new TextEncoder().encode(JSON_OF_ONE)).keep();
  assert.equal(new DecimalFormatter("xx", { book: kept }).format("-1234.5"), "-1_234;5");
  kept.keep().close();
});

test("a text of the first character of a file is as it is", () => {
  const book = new Book('[[["xx","","latn","\ufeff-","","+","",";","😀",3,3,1]],[["latn","0123456789"]],[],[],[]]');
  const it = new DecimalFormatter("xx", { book });
  assert.equal(it.format("-1234.5"), "\ufeff-1😀234;5");
  assert.equal(it.read("\ufeff-1😀234;5"), "-1234.5");
  assert.deepEqual(it.formatToParts("-1234.5").map((part) => part.value), ["\ufeff-", "1", "😀", "234", ";", "5"]);
});

test("answers", () => {
  const book = new Book(JSON_OF_ONE);
  const line = "xx\tplain\tauto\tkeep\t-\t-1234.5";
  assert.equal(book.answer(line), "ok\t-1_234;5");
  assert.equal(book.answer(new TextEncoder().encode(line)), "ok\t-1_234;5");
  assert.equal(book.answer(`xx\tplain\tauto\tkeep\t-\t${"1".repeat(3000)}`).length, 3 + 3999);
  for (const wrong of ["", "\ud800", new Uint8Array([0xff])]) assert.equal(book.answer(wrong), "err\tshape");
  class Short extends Uint8Array { get length() { return 5; } }
  assert.equal(book.answer(new Short(100000)), "err\tshape");
  assert.equal(book.answer(line), "ok\t-1_234;5");
  assert.throws(() => book.answer(5), TypeError);
});

test("a formatter is closed where its block ends", () => {
  if (!Symbol.dispose) return;
  const it = new DecimalFormatter("en");
  it[Symbol.dispose]();
  assert.ok(it.closed);
});

test("the version", () => assert.match(version(), /^2\.\d+$/));
