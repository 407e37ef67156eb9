// Where halves go, and other roundings: as in Intl, in each kind.
import assert from "node:assert/strict";
import { test } from "node:test";
import { Book, CompactDecimalFormatter, CurrencyFormatter, DecimalFormatter, LegumeyetError, PercentFormatter, ScientificFormatter } from "legumeyet";

const MODES = ["expand", "trunc", "ceil", "floor", "halfExpand", "halfTrunc", "halfCeil", "halfFloor", "halfEven"];
const isNew = new Intl.NumberFormat("en", { roundingMode: "floor" }).format(1.5) === "1.5" && new Intl.NumberFormat("en", { roundingMode: "floor", maximumFractionDigits: 0 }).format(1.5) === "1";
const NUMBERS = ["0", "1", "15", "25", "95", "99.5", "100.5", "950", "999.5", "1050", "1250", "1650", "1750", "12500", "99500", "999500", "1250000", "1.05", "1.15", "0.125", "0.0125", "2.5", "1.005", "999499.99", "123456789", "1149.6", "1650.4"];
const all = NUMBERS.flatMap((it) => [it, `-${it}`]);

test("compact numbers by each rounding, as Intl has them", { skip: !isNew }, () => {
  for (const roundingMode of [undefined, ...MODES]) {
    for (const [tag, compactDisplay] of [["en", "short"], ["en", "long"], ["de", "long"], ["es", "short"], ["hi", "short"], ["ja", "short"]]) {
      const options = roundingMode === undefined ? { compactDisplay } : { compactDisplay, roundingMode };
      const [ours, theirs] = [new CompactDecimalFormatter(tag, options), new Intl.NumberFormat(tag, { notation: "compact", ...options })];
      for (const number of all) assert.equal(ours.format(number), theirs.format(number), `${tag} ${compactDisplay} ${roundingMode} ${number}`);
      assert.equal(ours.resolvedOptions().roundingMode, roundingMode ?? "halfExpand");
      assert.deepEqual(ours.formatAll(all), all.map((it) => ours.format(it)));
      assert.deepEqual(ours.formatAll(Float64Array.from(all, Number)), all.map((it) => ours.format(Number(it))));
      assert.deepEqual(ours.formatAll(new BigInt64Array([1650n, -1250n])), [1650n, -1250n].map((it) => ours.format(it)));
      for (const number of all) assert.equal(ours.formatToParts(number).map(({ value }) => value).join(""), ours.format(number));
    }
  }
});

test("the value that is shown is that of the text", () => {
  const rows = [[undefined, "-1650", "-1.7c3"], ["halfEven", "-1650", "-1.6c3"], ["floor", "-1610", "-1.7c3"], ["ceil", "-1690", "-1.6c3"], ["expand", "999100", "1c6"], ["trunc", "999999", "999c3"]];
  for (const [roundingMode, number, shown] of rows) {
    const it = new CompactDecimalFormatter("en", { roundingMode });
    assert.equal(it.shown(number), shown);
    assert.equal(it.formatExact(shown), it.format(number));
    assert.equal(it.formatExact("-1.25c3"), "-1.25K");
    assert.equal(it.format(number), it.formatExact(shown));
  }
});

test("a compact number at a position", () => {
  const rows = [
    [{ position: 6 }, "-1172700", "-1M"], [{ position: 2 }, "1649.9", "1.6K"], [{ position: 0 }, "1650", "1.7K"], [{ position: 0 }, "1649.6", "1.6K"], [{ position: -5 }, "1650.4", "1.7K"],
    [{ position: 0, roundingMode: "halfEven" }, "1650", "1.6K"], [{ position: 2, roundingIncrement: 5 }, "1649", "1.5K"], [{ position: 3, roundingMode: "floor" }, "1999", "1K"],
    [{ position: 1, roundingMode: "floor" }, "1999", "1.9K"], [{ position: -2 }, "0.125", "0.13"],
  ];
  for (const [options, number, text] of rows) {
    const it = new CompactDecimalFormatter("en", options);
    assert.equal(it.format(number), text, JSON.stringify(options));
    assert.deepEqual(it.formatAll([number, Number(number)]), [text, text]);
  }
  assert.equal(new CompactDecimalFormatter("en", { position: -1 }).formatExact("1.25c3"), "1.3K");
});

test("compact numbers that are none, by each rounding", () => {
  for (const roundingMode of MODES) {
    const it = new CompactDecimalFormatter("en", { roundingMode });
    for (const wrong of ["", "5.", "x5", "1e5e5", "--5", " 5", "5 ", "1_5", "NaN", "1.5.5", ".", "-"]) assert.throws(() => it.format(wrong), (error) => error instanceof LegumeyetError && error.number === 7, wrong);
    for (const wrong of ["1e40000", "5e-40000", "5e32768"]) assert.throws(() => it.format(wrong), (error) => error instanceof LegumeyetError && error.number === 8, wrong);
    assert.equal(it.format("05e-1"), new CompactDecimalFormatter("en", { roundingMode }).format("0.5"));
    assert.equal(it.format(".5e1"), "5");
    assert.equal(it.format("+1500"), "1.5K");
    assert.equal(it.format(`1${"0".repeat(2000)}`).length, new CompactDecimalFormatter("en").format(`1${"0".repeat(2000)}`).length);
  }
});

test("amounts by each rounding, as Intl has them", { skip: !isNew }, () => {
  for (const roundingMode of [undefined, ...MODES]) {
    for (const [tag, currency] of [["en", "USD"], ["de", "EUR"], ["ja", "JPY"], ["ar-EG", "EGP"], ["en", "KWD"], ["en", "CLF"]]) {
      const options = roundingMode === undefined ? { currency } : { currency, roundingMode };
      const [ours, theirs] = [new CurrencyFormatter(tag, options), new Intl.NumberFormat(tag, { style: "currency", ...options })];
      for (const number of [...all, "1.00005", "1.0005", "0.00045"]) assert.equal(ours.format(number), theirs.format(number), `${tag} ${currency} ${roundingMode} ${number}`);
    }
  }
  for (const options of [{ roundingIncrement: 5 }, { roundingIncrement: 5000 }, { roundingIncrement: 50, roundingMode: "floor" }, { minimumFractionDigits: 2, signDisplay: "exceptZero" }]) {
    const [ours, theirs] = [new CurrencyFormatter("en", { currency: "USD", ...options }), new Intl.NumberFormat("en", { style: "currency", currency: "USD", ...options })];
    for (const number of all) assert.equal(ours.format(number), theirs.format(number), `${JSON.stringify(options)} ${number}`);
  }
});

test("amounts in cash", () => {
  const rows = [
    ["CHF", {}, "2.325", "CHF\u00a02.35"], ["CHF", {}, "-2.325", "-CHF\u00a02.35"], ["CHF", { roundingMode: "halfEven" }, "2.325", "CHF\u00a02.30"], ["CHF", { roundingMode: "floor" }, "2.349", "CHF\u00a02.30"],
    ["DKK", {}, "1.25", "DKK\u00a01.50"], ["DKK", { roundingMode: "halfEven" }, "1.25", "DKK\u00a01.00"], ["DKK", { roundingMode: "expand" }, "1.01", "DKK\u00a01.50"], ["DKK", {}, "5", "DKK\u00a05.00"],
    ["CHF", { minimumFractionDigits: 4 }, "2.325", "CHF\u00a02.3500"], ["CHF", { signDisplay: "always" }, "0.01", "+CHF\u00a00.00"],
  ];
  for (const [currency, options, number, text] of rows) assert.equal(new CurrencyFormatter("en", { currency, currencyDigits: "cash", ...options }).format(number), text, `${currency} ${JSON.stringify(options)}`);
});

test("the digits of a currency are those of the book", () => {
  const book = (digits, multiple) => new Book(JSON.stringify([[[["xx", "", "adlm", "-", "", "+", "", ".", ",", 3, 3, 1]], [["adlm", "𞥐𞥑𞥒𞥓𞥔𞥕𞥖𞥗𞥘𞥙"]], [], [], []], [[], [["xx", "", null, ["¤", ""], null]], [], [], [["QQQ", digits, multiple, digits, multiple]]]]));
  const latin = (text) => [...text].map((it) => ("𞥐𞥑𞥒𞥓𞥔𞥕𞥖𞥗𞥘𞥙".includes(it) ? String([..."𞥐𞥑𞥒𞥓𞥔𞥕𞥖𞥗𞥘𞥙"].indexOf(it)) : it)).join("");
  for (const [digits, multiple, number, text] of [
    [2, 1, "0.125", "0.13"], [2, 2, "0.13", "0.14"], [2, 5, "0.125", "0.15"], [2, 10, "0.15", "0.20"], [2, 20, "0.1", "0.20"], [2, 25, "0.125", "0.25"], [2, 50, "0.25", "0.50"],
    [0, 1, "2.5", "3"], [0, 5, "2.5", "5"], [1, 1, "0.25", "0.3"], [5, 1, "0.0000125", "0.00001"], [40, 1, `0.${"0".repeat(40)}5`, `0.${"0".repeat(39)}1`],
  ]) {
    assert.equal(latin(new CurrencyFormatter("xx", { book: book(digits, multiple), currency: "QQQ" }).format(number)), `QQQ${text}`, `${digits} ${multiple}`);
  }
});

test("plain numbers and percents", () => {
  for (const kind of [DecimalFormatter, PercentFormatter]) {
    const theirs = new Intl.NumberFormat("en", { maximumFractionDigits: 1 });
    const ours = new kind("en", { maximumFractionDigits: 1 });
    for (const number of all) assert.equal(ours.format(number).replace("%", ""), theirs.format(number));
    assert.throws(() => new kind("en", { roundingMode: "floor" }), RangeError);
  }
});

// Options of Intl by their names: of each list one, or none.
function* choices(lists) {
  const [[name, values], ...others] = lists;
  for (const rest of others.length === 0 ? [{}] : choices(others)) for (const value of values) yield value === undefined ? rest : { [name]: value, ...rest };
}

const FEW = ["0", "1", "25", "99.5", "999.5", "1250", "12500", "1.05", "0.0125", "1.005", "9.995", "1.000", "0.09996", "123456789.987654321", "1e-7", "-7.5"];

test("significant digits, alone and beside fraction digits, as Intl has them", { skip: !isNew }, () => {
  const fractions = [[], [0, 0], [0, 2], [1, 2], [2, 2], [2, 4]].map(([minimumFractionDigits, maximumFractionDigits]) => ({ minimumFractionDigits, maximumFractionDigits }));
  const all = [...choices([
    ["minimumSignificantDigits", [undefined, 1, 3]], ["maximumSignificantDigits", [undefined, 2, 3, 21]], ["roundingPriority", [undefined, "auto", "morePrecision", "lessPrecision"]],
    ["trailingZeroDisplay", [undefined, "stripIfInteger"]], ["roundingMode", [undefined, "floor"]],
  ])].flatMap((it) => fractions.map((fraction) => ({ ...it, ...fraction })));
  for (const options of all.filter((it) => !(it.minimumSignificantDigits > it.maximumSignificantDigits))) {
    const [hasDigits, hasFraction] = [options.minimumSignificantDigits ?? options.maximumSignificantDigits, options.maximumFractionDigits].map((it) => it !== undefined);
    const isEither = options.roundingPriority?.endsWith("Precision");
    for (const [Type, own, theirs] of [[DecimalFormatter, {}, {}], [PercentFormatter, {}, {}], [CurrencyFormatter, { currency: "USD" }, { style: "currency", currency: "USD" }]]) {
      if (isEither ? !hasDigits || !(hasFraction || own.currency) : !hasDigits && !hasFraction) continue; // Intl has defaults of its own there
      const [it, other] = [new Type("en", { ...own, ...options }), new Intl.NumberFormat("en", { ...theirs, ...options })];
      for (const number of FEW) assert.equal(it.format(number).replace("%", ""), other.format(number), `${Type.name} ${JSON.stringify(options)} ${number}`);
      assert.deepEqual(it.formatAll(FEW), FEW.map((number) => it.format(number)));
    }
  }
});

test("what of digits does not go together", () => {
  const rows = [
    [RangeError, { minimumSignificantDigits: 3, maximumSignificantDigits: 2 }], [RangeError, { maximumSignificantDigits: 0 }], [RangeError, { maximumSignificantDigits: 65536 }], [RangeError, { minimumSignificantDigits: 1.5 }],
    [RangeError, { maximumSignificantDigits: null }], [RangeError, { roundingPriority: "x" }], [RangeError, { trailingZeroDisplay: "x" }], [TypeError, { roundingIncrement: 5, maximumSignificantDigits: 3 }],
    [TypeError, { roundingIncrement: 5, maximumSignificantDigits: 3, minimumFractionDigits: 2, maximumFractionDigits: 2, roundingPriority: "morePrecision" }],
  ];
  for (const [wanted, options] of rows) {
    if (isNew && options.maximumSignificantDigits !== 65536 && options.minimumSignificantDigits !== 1.5) assert.throws(() => new Intl.NumberFormat("en", options), wanted, JSON.stringify(options));
    for (const Type of [DecimalFormatter, PercentFormatter]) assert.throws(() => new Type("en", options), (error) => error.constructor === wanted, JSON.stringify(options));
    assert.throws(() => new CurrencyFormatter("en", { currency: "USD", ...options }), (error) => error.constructor === wanted, JSON.stringify(options));
  }
  const own = [{ position: -1, maximumSignificantDigits: 3 }, { roundingPriority: "morePrecision" }, { roundingPriority: "lessPrecision", maximumFractionDigits: 2 }, { roundingPriority: "lessPrecision", maximumSignificantDigits: 2 }];
  for (const options of own) assert.throws(() => new DecimalFormatter("en", options), (error) => error.constructor === RangeError && !(error instanceof LegumeyetError), JSON.stringify(options));
  assert.throws(() => new CurrencyFormatter("en", { currency: "CHF", currencyDigits: "cash", maximumSignificantDigits: 3 }), RangeError);
});

test("compact numbers with digits of their own, as Intl has them", { skip: !isNew }, () => {
  const precisions = [
    { minimumFractionDigits: 2, maximumFractionDigits: 2 }, { minimumFractionDigits: 0, maximumFractionDigits: 1 }, { maximumFractionDigits: 0 }, { minimumSignificantDigits: 3, maximumSignificantDigits: 3 }, { maximumSignificantDigits: 3 },
    { minimumFractionDigits: 0, maximumFractionDigits: 1, maximumSignificantDigits: 4, roundingPriority: "morePrecision" }, { minimumFractionDigits: 1, maximumFractionDigits: 2, maximumSignificantDigits: 2, roundingPriority: "lessPrecision" },
    { minimumFractionDigits: 2, maximumFractionDigits: 2, roundingIncrement: 25 }, { minimumFractionDigits: 1, maximumFractionDigits: 1, roundingIncrement: 20 }, { minimumFractionDigits: 0, maximumFractionDigits: 0, roundingIncrement: 5000 },
    { minimumIntegerDigits: 3 }, { minimumIntegerDigits: 2, minimumFractionDigits: 1, maximumFractionDigits: 1, trailingZeroDisplay: "stripIfInteger" },
  ];
  for (const precision of precisions) {
    for (const [tag, more] of [["en", {}], ["de", { compactDisplay: "long", signDisplay: "always" }], ["hi", { useGrouping: false }], ["ja", { signDisplay: "exceptZero" }], ["ar-EG", { useGrouping: "always" }]]) {
      // other directed modes raise 950 to 5000, where Node names a unit too large: another test has rows of it
      const directed = precision.roundingIncrement === 5000 ? "trunc" : "floor";
      for (const roundingMode of [undefined, directed, "halfEven"]) {
        const options = { ...precision, ...more, ...(roundingMode === undefined || precision.minimumIntegerDigits === 3 ? {} : { roundingMode }) };
        const [ours, theirs] = [new CompactDecimalFormatter(tag, options), new Intl.NumberFormat(tag, { notation: "compact", ...options })];
        const texts = all.map((it) => ours.format(it));
        assert.deepEqual(texts, all.map((it) => theirs.format(it)), `${tag} ${JSON.stringify(options)}`);
        assert.deepEqual(ours.formatAll(all), texts);
        for (const number of all) assert.equal(ours.formatToParts(number).map(({ value }) => value).join(""), ours.format(number));
        for (const [name, value] of Object.entries(options)) assert.equal(ours.resolvedOptions()[name], value);
      }
    }
  }
});

test("scientific numbers, as Intl has them", { skip: !isNew }, () => {
  const precisions = [
    { maximumFractionDigits: 20 }, { maximumFractionDigits: 3 }, { minimumFractionDigits: 2, maximumFractionDigits: 2 }, { maximumFractionDigits: 0 }, { minimumSignificantDigits: 3, maximumSignificantDigits: 3 }, { maximumSignificantDigits: 2 },
    { minimumFractionDigits: 0, maximumFractionDigits: 1, maximumSignificantDigits: 4, roundingPriority: "morePrecision" }, { minimumFractionDigits: 1, maximumFractionDigits: 2, maximumSignificantDigits: 2, roundingPriority: "lessPrecision" },
    { minimumFractionDigits: 2, maximumFractionDigits: 2, roundingIncrement: 25 }, { minimumFractionDigits: 1, maximumFractionDigits: 1, roundingIncrement: 20 }, { minimumFractionDigits: 0, maximumFractionDigits: 0, roundingIncrement: 5 },
    { minimumIntegerDigits: 3, maximumFractionDigits: 1 }, { minimumFractionDigits: 1, maximumFractionDigits: 1, trailingZeroDisplay: "stripIfInteger" },
  ];
  for (const precision of precisions) {
    for (const [tag, more] of [["en", {}], ["de", { signDisplay: "always" }], ["sv", { useGrouping: false }], ["ar-EG", { signDisplay: "exceptZero" }], ["fa", { useGrouping: "always", signDisplay: "never" }]]) {
      // a sign that is left out is not seen where carried multiples are rounded once more: another test has rows of it
      const directed = more.signDisplay === "never" && precision.roundingIncrement > 1 ? "trunc" : "floor";
      for (const [notation, roundingMode] of ["scientific", "engineering"].flatMap((it) => [undefined, directed, "halfEven"].map((mode) => [it, mode]))) {
        const options = { notation, ...precision, ...more, ...(roundingMode === undefined ? {} : { roundingMode }) };
        const [ours, theirs] = [new ScientificFormatter(tag, options), new Intl.NumberFormat(tag, options)];
        const texts = all.map((it) => ours.format(it));
        assert.deepEqual(texts, all.map((it) => theirs.format(it)), `${tag} ${JSON.stringify(options)}`);
        assert.deepEqual(ours.formatAll(all), texts);
        assert.deepEqual(ours.formatAll(Float64Array.from(all, Number)), all.map((it) => ours.format(Number(it))));
        for (const number of all) assert.equal(ours.formatToParts(number).map(({ value }) => value).join(""), ours.format(number));
      }
    }
  }
});

test("a significand that a rounding raises by several powers of ten", () => {
  // Node takes one power at most, and has `500E1` and `5,000E0`
  for (const [notation, roundingIncrement, text, shown] of [["scientific", 500, "500E2", "500e2"], ["engineering", 5000, "5,000E3", "5000e3"]]) {
    const it = new ScientificFormatter("en", { notation, minimumFractionDigits: 0, maximumFractionDigits: 0, roundingIncrement, roundingMode: "expand" });
    assert.deepEqual([it.format("3"), it.shown("3")], [text, shown]);
  }
});

test("carried multiples of a number whose sign is left out are rounded once more without it", () => {
  // Node rounds with the sign both times, and has `2.0E2` and `0.0E2`
  for (const [roundingMode, text, shown] of [["floor", "0.0E2", "0.0e2"], ["halfCeil", "2.0E2", "2.0e2"]]) {
    const it = new ScientificFormatter("en", { minimumFractionDigits: 1, maximumFractionDigits: 1, roundingIncrement: 20, roundingMode, signDisplay: "never" });
    assert.deepEqual([it.format("-99.5"), it.shown("-99.5")], [text, shown]);
  }
});

test("compact numbers with digits of their own: what is shown, and what is refused", () => {
  const rows = [
    [{ minimumFractionDigits: 2, maximumFractionDigits: 2 }, "1234", "1.23K", "1.23c3"], [{ minimumFractionDigits: 2, maximumFractionDigits: 2 }, "999999", "1.00M", "1.00c6"], [{ minimumFractionDigits: 1 }, "1234567", "1.234567M", "1.234567c6"],
    [{ minimumSignificantDigits: 3, maximumSignificantDigits: 3 }, "5", "5.00", "5.00"], [{ minimumSignificantDigits: 4 }, "1000", "1.000K", "1.000c3"], [{ minimumIntegerDigits: 3 }, "-1234", "-001.2K", "-001.2c3"], [{ maximumFractionDigits: 0 }, "1500", "2K", "2c3"],
  ];
  for (const [options, number, text, shown] of rows) {
    const it = new CompactDecimalFormatter("en", options);
    assert.deepEqual([it.format(number), it.shown(number), it.formatExact(shown), it.formatExact("-1.25c3")], [text, shown, text, "-1.25K"], JSON.stringify(options));
    for (const call of [{ roundingMode: "floor" }, { signDisplay: "never" }, { maximumFractionDigits: 1 }]) assert.throws(() => it.format(number, call), (error) => error.constructor === RangeError && error.message.endsWith("there are none"));
  }
  const wrong = [
    [RangeError, { position: 2, maximumFractionDigits: 1 }], [RangeError, { position: 2, minimumIntegerDigits: 2 }], [RangeError, { signDisplay: "keep", maximumFractionDigits: 1 }], [RangeError, { maximumFractionDigits: 101 }], [RangeError, { minimumIntegerDigits: 101 }],
    [RangeError, { minimumFractionDigits: 3, maximumFractionDigits: 2 }], [RangeError, { roundingPriority: "morePrecision" }], [RangeError, { roundingPriority: "lessPrecision", maximumSignificantDigits: 2 }], [RangeError, { minimumFractionDigits: 1, roundingMode: "floor" }],
    [RangeError, { roundingIncrement: 5, maximumFractionDigits: 2 }], [TypeError, { roundingIncrement: 5, maximumSignificantDigits: 2 }], [TypeError, { roundingIncrement: 5, minimumIntegerDigits: 2 }], [RangeError, { maximumFractionDigits: 1, useGrouping: "x" }],
  ];
  for (const [error, options] of wrong) assert.throws(() => new CompactDecimalFormatter("en", options), (it) => it.constructor === error, JSON.stringify(options));
});

test("a compact number that a rounding raises by several magnitudes has the unit of its number", () => {
  // Node has `1000M` and `-5000M`
  for (const [roundingMode, roundingIncrement, number, text, shown] of [["expand", 1000, "950", "1000K", "1000c3"], ["floor", 5000, "-100.5", "-5000K", "-5000c3"]]) {
    const it = new CompactDecimalFormatter("en", { minimumFractionDigits: 0, maximumFractionDigits: 0, roundingIncrement, roundingMode });
    assert.deepEqual([it.format(number), it.shown(number)], [text, shown]);
    assert.throws(() => it.formatExact(shown), { name: "LegumeyetError", number: 13 }); // a million is `1M`
  }
});

test("significant digits of what Intl has not", () => {
  const rows = [
    [{ maximumSignificantDigits: 2, position: 0, roundingPriority: "morePrecision" }, "123.4", "123"], [{ maximumSignificantDigits: 2, position: 0, roundingPriority: "lessPrecision" }, "123.4", "120"],
    [{ minimumSignificantDigits: 3 }, "1234567890.12345678901234567890", "1,234,567,890.1234567890123456789"], [{ trailingZeroDisplay: "stripIfInteger" }, "2.00", "2"], [{ trailingZeroDisplay: "stripIfInteger" }, "2.50", "2.50"],
    [{ trailingZeroDisplay: "stripIfInteger", minimumFractionDigits: 2 }, "2", "2"], [{ trailingZeroDisplay: "stripIfInteger", minimumFractionDigits: 2 }, "2.5", "2.50"],
  ];
  for (const [options, number, text] of rows) assert.equal(new DecimalFormatter("en", options).format(number), text, JSON.stringify(options));
  const resolved = (options) => new DecimalFormatter("en", options).resolvedOptions();
  assert.deepEqual(resolved({ maximumSignificantDigits: 3, maximumFractionDigits: 1 }), { locale: "en", useGrouping: "auto", signDisplay: "auto", maximumSignificantDigits: 3, roundingMode: "halfExpand", minimumSignificantDigits: 1 });
  assert.equal(resolved({ maximumSignificantDigits: 3, maximumFractionDigits: 1, roundingPriority: "lessPrecision" }).maximumFractionDigits, 1);
});
