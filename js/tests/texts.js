// What formatters of a tag write and read.

const NUMBERS = ["0", "-0", "1", "7.50", "-1234.5", "2500", "1650", "999999.995", "-123456789012345678901234567890.5", 1e21, 0.1, 12345n, "x", "1e40000", NaN];
const TYPED = ["1234.5", "1.234,5", "1,234.50", "-5", "−5", " 7 ", "5.", ".5", "१२३", "٤٥٦", "1x", "", "\ud800", "5 €", "€5", "EUR 5", "12%", "12 %"];
const PLAIN = [{}, { useGrouping: "always" }, { useGrouping: false }, { useGrouping: "min2" }, { signDisplay: "exceptZero" }, { maximumFractionDigits: 2, roundingMode: "floor" }, { minimumIntegerDigits: 5, minimumFractionDigits: 1 }, { minimumSignificantDigits: 2, maximumSignificantDigits: 3, maximumFractionDigits: 1, roundingPriority: "morePrecision" }];
const COMPACT = [{}, { compactDisplay: "long" }, { useGrouping: "always" }, { roundingMode: "ceil" }, { position: 3 }, { maximumFractionDigits: 2, signDisplay: "always" }];
const AMOUNTS = ["EUR", "JPY", "CHF", "QQQ", "eur"].flatMap((currency) => [{ currency }, { currency, currencySign: "accounting", currencyDisplay: "code" }, { currency, currencyDigits: "cash", useGrouping: "always" }, { currency, maximumSignificantDigits: 3, roundingPriority: "lessPrecision" }]);
const SKELETONS = ["", ".00", "percent .0#", "currency/EUR", "currency/CHF sign-accounting precision-currency-cash", "K", "compact-long +!", "K @@@", "scientific/*ee", "EE+!0 .00", "foo"].map((skeleton) => ({ skeleton }));
const POWERS = [{}, { notation: "engineering", useGrouping: "always" }, { maximumFractionDigits: 2, minimumIntegerDigits: 2, signDisplay: "always" }];
const KINDS = { DecimalFormatter: PLAIN, PercentFormatter: PLAIN, CompactDecimalFormatter: COMPACT, ScientificFormatter: POWERS, CurrencyFormatter: AMOUNTS, NumberFormatter: SKELETONS };
const BY_INTL = [{}, { style: "percent", useGrouping: "min2" }, { style: "currency", currency: "EUR", currencySign: "accounting" }, { notation: "compact", compactDisplay: "long" }, { notation: "compact", minimumFractionDigits: 1 }, { notation: "engineering" }, { minimumSignificantDigits: 2, maximumSignificantDigits: 3 }, { style: "unit", unit: "meter" }];
const PLURALS = [{}, { type: "ordinal" }, { minimumFractionDigits: 1 }, { notation: "compact" }, { notation: "compact", minimumFractionDigits: 1 }, { notation: "scientific" }, { type: "ordinal", notation: "compact", roundingMode: "floor" }];
const RANGES = [["0", "1"], ["1", "2"], [2, 5n], ["1.5", "1650000"], ["x", "1"], ["1", "x"]];

function said(call) {
  try {
    return call();
  } catch (error) {
    return `${error.constructor.name} ${error.message}`;
  }
}

function textsOf(it) {
  const of = (name, all) => (name in it ? all.map((one) => said(() => it[name](one))) : []);
  const texts = of("format", NUMBERS);
  const all = said(() => it.formatAll(NUMBERS.slice(0, 10)));
  const columns = [new Float64Array([1.5, -1e21, 0]), new BigInt64Array([5n, -12345n]), ["1", "x"]].map((column) => said(() => it.formatAll(column)));
  return { options: it.resolvedOptions(), symbols: it.symbols(), texts, all, columns, parts: of("formatToParts", NUMBERS), back: of("read", texts), typed: of("readLenient", [...texts, ...TYPED]), shown: of("shown", NUMBERS), exact: of("formatExact", of("shown", NUMBERS)) };
}

const byIntlOf = (it) => ({ options: it.resolvedOptions(), ...Object.fromEntries(["format", "formatToParts"].map((name) => [name, NUMBERS.map((number) => said(() => it[name](number)))])) });
const pluralsOf = (it) => ({ options: it.resolvedOptions(), one: NUMBERS.map((number) => said(() => it.select(number))), ranges: RANGES.map((ends) => said(() => it.selectRange(...ends))) });

/**
 * Lines of JSON, each with what a formatter of a tag writes and reads, or how it is refused: by the classes of a library, with the options that are `taken`,
 * which are all where nothing says it.
 */
export function linesOf({ PluralRules, NumberFormat, ...library }, tag, taken = () => true) {
  const lines = [];
  const add = (name, choices, saidBy) => choices.filter(taken).forEach((options) => lines.push(JSON.stringify([tag, name, options, said(() => saidBy(options))])));
  add("PluralRules", PLURALS, (options) => pluralsOf(new PluralRules(tag, options)));
  add("NumberFormat", BY_INTL, (options) => byIntlOf(new NumberFormat(tag, options)));
  for (const [name, choices] of Object.entries(KINDS)) add(name, choices, (options) => textsOf(new library[name](tag, options)));
  lines.push(JSON.stringify([said(() => library.DecimalFormatter.supportedLocalesOf([tag, "zz"]))]));
  return lines;
}
