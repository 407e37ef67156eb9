// Formatters of skeletons, beside Intl where a skeleton means the same, and what is wrong in one.
import assert from "node:assert/strict";
import { test } from "node:test";
import {
  Book, CompactDecimalFormatter, CurrencyFormatter, DecimalFormatter, ErrorNumber, LegumeyetError, NumberFormatter, PercentFormatter, ScientificFormatter, SkeletonError, normalSkeleton,
} from "legumeyet";

const by = (locale, skeleton) => new NumberFormatter(locale, { skeleton });

test("numbers by skeletons", () => {
  const rows = [
    ["en", "", "1234.5", "1,234.5"], ["en", " ", "007.50", "7.5"], ["en", "", "1.23456789", "1.234568"], ["ar-EG", "", "-1234.5", "\u061c-١٬٢٣٤٫٥"], ["hi", "", 999999n, "9,99,999"],
    ["en", ".00", 1234.5, "1,234.50"], ["de", ".00##", "-1234567.89123", "-1.234.567,8912"], ["en", ".00*", "1.5", "1.50"], ["en", ".00*", "1.23456", "1.23456"], ["en", ".", "2.5", "2"],
    ["en", ".00/w", "5", "5"], ["en", ".00/w", "5.5", "5.50"], ["en", ".+", "1.23456789", "1.23456789"], ["en", "integer-width/*000", "7", "007"], ["en", "000 .0", "7", "007.0"],
    ["en", "group-off", "1234.5", "1234.5"], ["en", "group-min2", "1234", "1234"], ["en", "group-min2", "12345", "12,345"], ["es", "", "1234", "1234"], ["es", "group-on-aligned", "1234.5", "1.234,5"],
    ["en", "@@@", "9.996", "10.0"], ["en", "@@#/w", "1234.5", "1,230"], ["en", "@@*", "0.1", "0.10"], ["en", ".0#/@@r", "0.00123", "0.0012"], ["en", ".0#/@@s", "0.00123", "0.0"], ["en", ".0#/w", "3", "3"],
    ["en", "sign-always", "5", "+5"], ["en", "+_", "-5", "5"], ["en", "sign-except-zero", "0", "0"], ["en", "sign-negative", "-0", "0"], ["en", "rounding-mode-floor .0", "-1.21", "-1.3"],
    ["tr", "percent", "12.50", "%12,5"], ["de", "% .00", "-12.5", "-12,50\u00a0%"], ["de", "permille", "5", "5\u00a0‰"],
    ["de", "currency/EUR", "-1234567.891", "-1.234.567,89\u00a0€"], ["en", "currency/eur", "5", "€5.00"], ["en", "currency/USD sign-accounting", "-5", "($5.00)"], ["en", "currency/JPY", "2.5", "¥2"],
    ["en", "currency/USD unit-width-iso-code", "5", "USD\u00a05.00"], ["en", "currency/CHF precision-currency-cash", "2.345", "CHF\u00a02.35"], ["en", "currency/USD .", "5.5", "$6"], ["en", "currency/USD .00/w", "5", "$5"],
    ["en", "compact-short", "-1172700", "-1.2M"], ["de", "KK", "1234567", "1,2 Millionen"], ["en", "compact-short", "1650", "1.6K"], ["en", "K +!", "1650", "+1.6K"],
    ["en", "compact-short .00", "-1234", "-1.23K"], ["en", "compact-short .00", "999999", "1.00M"], ["en", "compact-short .0", "999949", "999.9K"], ["en", "compact-short .0", "999950", "1.0M"], ["en", "K @@@", "5", "5.00"], ["en", "K .", "1500", "2K"],
    ["en", "KK .##", "1234567", "1.23 million"], ["en", "K rounding-mode-down", "1999", "1.9K"], ["en", "K .+", "1234567", "1.234567M"], ["en", "scientific", "1234567.891", "1.234568E6"], ["en", "EE+!00 .+", "-0.00012", "-120E-06"], ["de", "engineering/*ee/sign-always .00", "1234", "1,23E+03"], ["sv", "E0 @@@", "0.000999999", "1,00×10^\u22123"], ["de", "KK .0", "1234567", "1,2 Millionen"], ["en", "K 000 .0", "1234", "001.2K"],
  ];
  for (const [locale, skeleton, number, text] of rows) {
    const it = by(locale, skeleton);
    assert.equal(it.format(number), text, `${locale} ${skeleton}`);
    assert.equal(by(locale, normalSkeleton(skeleton)).format(number), text);
    assert.equal(it.formatToParts(number).map(({ value }) => value).join(""), text);
    assert.deepEqual(it.formatAll([number, number]), [text, text]);
    assert.deepEqual([number].map(it.format), [text]);
  }
});

test("skeletons as Intl means them", () => {
  const isNew = new Intl.NumberFormat("en", { roundingMode: "floor", maximumFractionDigits: 0 }).format(1.9) === "1"; // Node 18 has no roundingMode
  const numbers = ["0", "-0", "7", "1.234567", "-1234.567", "987654321.126", "-0.00126", "0.96", "12345", "-999999", "1234000"];
  const six = { maximumFractionDigits: 6 };
  const money = (currency, more) => ({ style: "currency", currency, ...more });
  const choices = [
    ["", six], [".00", { minimumFractionDigits: 2, maximumFractionDigits: 2 }], [".00##", { minimumFractionDigits: 2, maximumFractionDigits: 4 }], [".", { maximumFractionDigits: 0 }],
    ["@@@", { minimumSignificantDigits: 3, maximumSignificantDigits: 3 }], ["@@#", { minimumSignificantDigits: 2, maximumSignificantDigits: 3 }], ["@@+", { minimumSignificantDigits: 2 }],
    ...["r", "s"].map((end) => [`.0#/@#${end}`, { minimumFractionDigits: 1, maximumFractionDigits: 2, maximumSignificantDigits: 2, roundingPriority: `${end === "r" ? "more" : "less"}Precision` }]),
    ["@@@/w", { minimumSignificantDigits: 3, maximumSignificantDigits: 3, trailingZeroDisplay: "stripIfInteger" }], [".0##/w", { minimumFractionDigits: 1, maximumFractionDigits: 3, trailingZeroDisplay: "stripIfInteger" }],
    ["integer-width/*0000", { ...six, minimumIntegerDigits: 4 }], ["group-on-aligned", { ...six, useGrouping: "always" }], ["group-off", { ...six, useGrouping: false }], ["group-min2", { ...six, useGrouping: "min2" }],
    ["sign-always", { ...six, signDisplay: "always" }], ["sign-never", { ...six, signDisplay: "never" }], ["sign-except-zero", { ...six, signDisplay: "exceptZero" }], ["sign-negative", { ...six, signDisplay: "negative" }],
    ...["floor", "ceil", "trunc", "expand"].map((mode) => [`.0 rounding-mode-${{ floor: "floor", ceil: "ceiling", trunc: "down", expand: "up" }[mode]}`, { minimumFractionDigits: 1, maximumFractionDigits: 1, roundingMode: mode }]),
    ["currency/EUR", money("EUR")], ["currency/JPY", money("JPY")], ["currency/KWD .0", money("KWD", { minimumFractionDigits: 1, maximumFractionDigits: 1 })],
    ["currency/USD sign-accounting", money("USD", { currencySign: "accounting" })], ["currency/USD unit-width-iso-code", money("USD", { currencyDisplay: "code" })],
    ["currency/USD ()!", money("USD", { currencySign: "accounting", signDisplay: "always" })], ["currency/EUR group-off", money("EUR", { useGrouping: false })],
    ["compact-short", { notation: "compact" }], ["compact-long", { notation: "compact", compactDisplay: "long" }], ["K sign-always", { notation: "compact", signDisplay: "always" }],
    ["K .00", { notation: "compact", minimumFractionDigits: 2, maximumFractionDigits: 2, roundingMode: "halfEven" }], ["KK @@# sign-except-zero", { notation: "compact", compactDisplay: "long", minimumSignificantDigits: 2, maximumSignificantDigits: 3, roundingMode: "halfEven", signDisplay: "exceptZero" }],
    ["K rounding-mode-ceiling", { notation: "compact", roundingMode: "ceil" }], ["K .0/@@@@r", { notation: "compact", minimumFractionDigits: 1, maximumFractionDigits: 1, minimumSignificantDigits: 4, maximumSignificantDigits: 4, roundingPriority: "morePrecision", roundingMode: "halfEven" }],
    ["scientific", { notation: "scientific", ...six, roundingMode: "halfEven" }], ["EE0 .00", { notation: "engineering", minimumFractionDigits: 2, maximumFractionDigits: 2, roundingMode: "halfEven" }], ["scientific sign-always @@#", { notation: "scientific", signDisplay: "always", minimumSignificantDigits: 2, maximumSignificantDigits: 3, roundingMode: "halfEven" }],
    ["K precision-increment/0.25", { notation: "compact", minimumFractionDigits: 2, maximumFractionDigits: 2, roundingIncrement: 25, roundingMode: "halfEven" }],
  ];
  for (const [skeleton, options] of choices) {
    if (!isNew && (options.roundingMode || options.useGrouping === "min2" || options.signDisplay === "negative" || options.roundingPriority || options.trailingZeroDisplay)) continue;
    for (const locale of ["en", "de", "fr", "hi", "ja", "ar-EG", "es"]) {
      const [ours, theirs] = [by(locale, skeleton), new Intl.NumberFormat(locale, options)];
      for (const number of numbers) assert.equal(ours.format(number), theirs.format(number), `${locale} ${skeleton} ${number}`);
    }
  }
  const percents = new Intl.NumberFormat("de", { style: "percent", minimumFractionDigits: 1, maximumFractionDigits: 1 }); // of a ratio
  for (const [ratio, percent] of [["0.1251", "12.51"], ["-2", "-200"], ["0", "0"]]) assert.equal(by("de", "percent .0").format(percent), percents.format(ratio));
});

test("skeletons as the other formatters have them", () => {
  const pairs = [
    [".00", DecimalFormatter, { minimumFractionDigits: 2, maximumFractionDigits: 2, roundingMode: "halfEven" }], ["percent .+ +!", PercentFormatter, { signDisplay: "always" }],
    ["currency/USD sign-accounting", CurrencyFormatter, { currency: "USD", currencySign: "accounting", roundingMode: "halfEven" }], ["KK", CompactDecimalFormatter, { compactDisplay: "long", roundingMode: "halfEven" }],
    ["EE0 .00 group-off", ScientificFormatter, { notation: "engineering", useGrouping: false, minimumFractionDigits: 2, maximumFractionDigits: 2, roundingMode: "halfEven" }],
  ];
  for (const [skeleton, Type, options] of pairs) {
    for (const locale of ["de-CH", "ar-EG", "en-IN", "pl", "fa"]) {
      const [ours, theirs] = [by(locale, skeleton), new Type(locale, options)];
      for (const number of ["0", "-1234.565", "1650", "12.5", "999999.995"]) {
        const text = theirs.format(number);
        assert.deepEqual([ours.format(number), ours.formatToParts(number), ours.shown(number)], [text, theirs.formatToParts(number), theirs.shown(number)], `${locale} ${skeleton} ${number}`);
        if (Type !== CompactDecimalFormatter) assert.equal(ours.read(text), theirs.read(text));
        if (![CompactDecimalFormatter, ScientificFormatter].includes(Type)) assert.equal(ours.readLenient(text), theirs.readLenient(text));
      }
    }
  }
  const short = by("en", "compact-short");
  assert.deepEqual([short.shown("-1172700"), short.formatExact("-1.20c6")], ["-1.2c6", "-1.2M"]);
  for (const read of ["read", "readLenient"]) assert.throws(() => short[read]("1.2M"), { number: ErrorNumber.UNREADABLE });
});

const FAULTS = [
  ["foo", 201, "unknown", 0], ["percent foo", 201, "unknown", 8], ["  .0x", 201, "unknown", 2], ["percent \ud800", 201, "unknown", 8], [".00 ä", 201, "unknown", 4], ["\0", 201, "unknown", 0],
  ["percent\u00a0.00", 201, "unknown", 0], ["percent currency/EUR", 202, "twice", 8], [".00 .0", 202, "twice", 4], ["currency/EURO", 203, "code", 0], ["K currency/", 203, "code", 2],
  ["sign-accounting", 204, "pair", 0], ["percent unit-width-iso-code", 204, "pair", 8], ["latin", 205, "system", 0], ["numbering-system/thai", 205, "system", 0],
  ["scale/100", 206, "later", 0], ["compact-short unit-width-narrow", 206, "later", 14], ["percent scientific", 206, "later", 8], ["E+?0", 207, "unsupported", 0], ["percent scientific/sign-never", 207, "unsupported", 8], ["decimal-always", 207, "unsupported", 0], [`percent ${"x".repeat(5000)}`, 201, "unknown", 8],
];

test("texts that are no skeleton", () => {
  assert.deepEqual(FAULTS.map(([, number]) => number).filter((it, at, all) => all.indexOf(it) === at).sort(), [201, 202, 203, 204, 205, 206, 207]);
  for (const [skeleton, number, fault, place] of FAULTS) {
    for (const call of [() => by("en", skeleton), () => by("e", skeleton), () => by(["zz", "en"], skeleton), () => normalSkeleton(skeleton), () => NumberFormatter.supportedLocalesOf("en", { skeleton })]) {
      assert.throws(call, (error) => {
        assert.ok(error instanceof SkeletonError && error instanceof LegumeyetError && error.name === "SkeletonError", String(error));
        assert.deepEqual([error.number, error.fault, error.place], [number, fault, place], skeleton);
        assert.ok(error.word.length > 0 && error.message.endsWith(` at ${place}`) && error.message.length < 200, error.message);
        return true;
      });
    }
  }
  assert.throws(() => by("en", "percent foo .00"), /: "foo" at 8$/);
  for (const [name, number] of Object.entries(ErrorNumber).filter(([it]) => it.startsWith("SKELETON_"))) {
    assert.equal(name, `SKELETON_${FAULTS.find((it) => it[1] === number)[2].toUpperCase()}`);
  }
  assert.equal(by("en", "percent").format(5), "5%");
});

test("the normal text", () => {
  const rows = [
    ["", ""], ["   ", ""], ["sign-auto", ""], ["K  sign-auto", "compact-short"], ["KK", "compact-long"], ["% .00", "percent .00"], ["currency/eur .00", "currency/EUR .00"], [".", "precision-integer"],
    ["K currency/EUR", "compact-short currency/EUR"], ["currency/EUR K", "compact-short currency/EUR"], ["000", "integer-width/*000"], [",_ +! .0#", ".0# group-off sign-always"], ["K group-auto", "compact-short group-auto"], ["group-auto", ""],
    ["currency/USD ()! unit-width-iso-code", "currency/USD unit-width-iso-code sign-accounting-always"], [".00/w", ".00/w"], [".00+", ".00*"], ["@@+ ,!", "@@* group-on-aligned"], [".##/@@@+", ".##/@@@*"],
    ["E0", "scientific"], ["EE+!00 +!", "engineering/*ee/sign-always sign-always"], ["scientific/+ee", "scientific/*ee"], [".00 engineering/sign-auto", "engineering .00"],
  ];
  for (const [skeleton, normal] of rows) assert.deepEqual([skeleton, normal].map(normalSkeleton), [normal, normal], skeleton);
  assert.equal(normalSkeleton(`.${"0".repeat(100)}`).length, 101);
  assert.equal(normalSkeleton(`%${" ".repeat(5000)}+!`), "percent sign-always");
  for (const wrong of [undefined, null, 5, ["percent"], {}]) assert.throws(() => normalSkeleton(wrong), TypeError);
});

test("locales and options of skeletons", () => {
  const it = new NumberFormatter(["zz", "de-AT"], { skeleton: "percent .00", fallback: "en" });
  assert.deepEqual(it.resolvedOptions(), { locale: "de-AT", skeleton: "percent .00" });
  assert.equal(new NumberFormatter("zz", { skeleton: "percent", fallback: "tr" }).format(5), "%5");
  assert.deepEqual(NumberFormatter.supportedLocalesOf(["en", "zz"], { skeleton: "currency/EUR" }), ["en"]);
  assert.equal(new NumberFormatter(undefined, { skeleton: "" }).resolvedOptions().locale, new Intl.NumberFormat().resolvedOptions().locale);
  const isRefused = (number, word) => (error) => error instanceof LegumeyetError && !(error instanceof SkeletonError) && error.number === number && error.message.includes(word);
  assert.throws(() => by("de_DE", ""), isRefused(ErrorNumber.TAG, '"de_DE" is written "de-DE"'));
  assert.throws(() => by(["yy", "zz"], ""), isRefused(ErrorNumber.TABLE, '"zz"'));
  assert.throws(() => by("de", "K currency/EUR"), isRefused(ErrorNumber.TABLE, '"de"')); // not written yet
  assert.throws(() => by("ä", ".00"), isRefused(ErrorNumber.TAG, '"ä"'));
  assert.equal(by("de", ".00 percent").format(5), "5,00\u00a0%");
  for (const wrong of ["percent de", "percent\nde"]) assert.throws(() => by(wrong, ".00"), isRefused(ErrorNumber.TAG, JSON.stringify(wrong)));
  for (const wrong of [undefined, {}, { skeleton: undefined }, { skeleton: null }, { skeleton: 5 }, { skeleton: ["percent"] }, "percent", null]) assert.throws(() => new NumberFormatter("en", wrong), TypeError);
  for (const more of [{ style: "percent" }, { signDisplay: "auto" }, { maximumFractionDigits: 2 }, { currency: "EUR" }, { useGrouping: false }]) {
    assert.throws(() => new NumberFormatter("en", { skeleton: "", ...more }), (error) => error instanceof RangeError && error.message.startsWith(Object.keys(more)[0]));
  }
  assert.throws(() => new DecimalFormatter("en", { skeleton: "" }), RangeError);
  it.close();
  for (const call of [() => it.format(1), () => it.formatAll([]), () => it.formatToParts(1), () => it.shown(1), () => it.formatExact("1"), () => it.read("1"), () => it.readLenient("1")]) assert.throws(call, isRefused(ErrorNumber.CLOSED, ""));
  const book = new Book('[[["xx","","latn","-","","+","",";","_",3,3,1]],[["latn","0123456789"]],[],[],[]]');
  const own = new NumberFormatter("xx", { book, skeleton: ".0" });
  book.close();
  assert.equal(own.format("-1234"), "-1_234;0");
  assert.throws(() => new NumberFormatter("xx", { book, skeleton: ".0" }), isRefused(ErrorNumber.CLOSED, ""));
});

test("options of a call take the place of those of a skeleton", () => {
  const rows = [
    ["en", ".00", "5", {}, "5"], ["en", ".00 sign-always", "5", { minimumFractionDigits: 1 }, "5.0"], ["en", "percent", "12.56", { maximumFractionDigits: 1 }, "12.6%"], ["en", "group-off .00", "1234", {}, "1234"],
    ["en", "currency/USD .", "1.005", {}, "$1.01"], ["en", "currency/CHF", "2.345", { currencyDigits: "cash" }, "CHF\u00a02.35"], ["en", "currency/CHF", "2.345", { currencyDigits: "given" }, "CHF\u00a02.345"],
    ["en", "compact-short", "1650", {}, "1.7K"], ["en", "K +!", "1650", { roundingMode: "floor" }, "1.6K"],
  ];
  for (const [locale, skeleton, number, options, text] of rows) {
    const it = by(locale, skeleton);
    const own = it.format(number);
    assert.equal(it.format(number, options), text, skeleton);
    assert.deepEqual(it.formatAll([number], options), [text]);
    assert.equal(it.format(number), own);
  }
  const short = by("en", "compact-short");
  for (const options of [{ maximumFractionDigits: 1 }, { currencyDigits: "cash" }, { skeleton: "" }, { useGrouping: false }, { book: null }]) assert.throws(() => short.format(1, options), RangeError);
  for (const options of [{ signDisplay: "always" }, { roundingMode: "floor" }, { maximumFractionDigits: 1 }]) assert.throws(() => by("en", "K .00").format(1, options), RangeError); // nothing is left to say
  assert.throws(() => by("en", "percent").format(1, { currencyDigits: "cash" }), RangeError);
});
