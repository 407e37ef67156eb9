// What callers give to classes of Intl, drawn by a seed, each time the same: locales, options and numbers, and some that are wrong.

// Numbers below 1.
function* drawn(seed) {
  let state = [...seed].reduce((sum, it) => Math.imul(sum ^ it.codePointAt(0), 16777619) >>> 0, 2166136261);
  for (;;) {
    state = (state + 0x6d2b79f5) >>> 0;
    let it = Math.imul(state ^ (state >>> 15), state | 1);
    it ^= it + Math.imul(it ^ (it >>> 7), it | 61);
    yield ((it ^ (it >>> 14)) >>> 0) / 2 ** 32;
  }
}

const CURRENCIES = ["EUR", "USD", "CHF", "JPY", "INR", "TRY", "CVE", "DKK", "KWD", "CLF", "XAF", "gbp", "QQQ"];
const SYSTEMS = ["latn", "arab", "arabext", "deva", "thai", "hanidec", "mymr", "adlm", "roman", "native", "nosuch"];
const SIGNS = ["auto", "never", "always", "exceptZero", "negative"];
const MODES = ["expand", "trunc", "ceil", "floor", "halfExpand", "halfTrunc", "halfCeil", "halfFloor", "halfEven"];
const INCREMENTS = [1, 2, 5, 10, 20, 25, 50, 100, 200, 250, 500, 1000, 2000, 2500, 5000];
const PRIORITIES = ["auto", "morePrecision", "lessPrecision"];
// Values of an option that most options refuse, each by a rule of its own.
const WRONG = [
  "", "x", "Auto", "EURO", "e1r", "toolonganame", "latn-", "meter-per", "true", null, true, false, NaN, Infinity, -1, 0, 1, 3, 22, 101, 5001, 1.5, "2", 2n, {}, [], Symbol("x"), { toString: null, valueOf: null },
];
const NAMES = [
  "localeMatcher", "numberingSystem", "style", "currency", "currencyDisplay", "currencySign", "unit", "unitDisplay", "notation", "minimumIntegerDigits", "minimumFractionDigits", "maximumFractionDigits",
  "minimumSignificantDigits", "maximumSignificantDigits", "roundingIncrement", "roundingMode", "roundingPriority", "trailingZeroDisplay", "compactDisplay", "useGrouping", "signDisplay", "type",
];
const NO_LOCALES = [null, "", "x", "de_DE", "de-", "en-u", "abcdefghi", ["en", "de_DE"], ["de", null], ["de", 5], [Symbol("x")]];
const NO_OPTIONS = [null, undefined, 5, "x", true, []];

/** Draws by a seed. */
export function drawsBy(seed) {
  const numbers = drawn(seed);
  const below = (count) => Math.floor(numbers.next().value * count);
  const oneOf = (list) => list[below(list.length)];
  const oneIn = (count) => below(count) === 0;

  function someFraction(options) {
    const least = below(4);
    if (!oneIn(3)) options.minimumFractionDigits = oneIn(12) ? below(21) : least;
    if (!oneIn(3)) options.maximumFractionDigits = (options.minimumFractionDigits ?? 0) + below(4);
    if (options.maximumFractionDigits > 20) options.maximumFractionDigits = 20;
  }

  function someSignificant(options) {
    const least = 1 + below(4);
    if (!oneIn(3)) options.minimumSignificantDigits = least;
    if (!oneIn(3)) options.maximumSignificantDigits = least + below(oneIn(6) ? 17 : 4);
  }

  // Options of digits that go together.
  function someDigits(options) {
    const kind = below(8);
    if (kind === 1 || kind === 2 || kind === 5) someFraction(options);
    if (kind === 3 || kind === 4 || kind === 5) someSignificant(options);
    if (kind === 5) options.roundingPriority = oneOf(PRIORITIES);
    if (kind === 6) {
      const digits = below(5);
      Object.assign(options, { minimumFractionDigits: digits, maximumFractionDigits: digits + (oneIn(10) ? 1 : 0), roundingIncrement: oneOf(INCREMENTS) });
    }
    if (kind === 7 && oneIn(2)) Object.assign(options, { roundingPriority: oneOf(PRIORITIES.slice(1)) });
    if (oneIn(5)) options.minimumIntegerDigits = 1 + below(oneIn(5) ? 21 : 4);
  }

  function someStyle(options) {
    const style = oneOf(["decimal", "percent", "currency", "currency", undefined]);
    if (style !== undefined) options.style = style;
    if (style === "currency" || oneIn(20)) options.currency = oneOf(CURRENCIES);
    if (oneIn(4)) options.currencyDisplay = oneOf(["code", "code", "symbol", "name", "narrowSymbol"]);
    if (oneIn(3)) options.currencySign = oneOf(["standard", "accounting"]);
    if (oneIn(60)) Object.assign(options, { style: "unit", unit: "meter-per-second" });
  }

  // Options of NumberFormat: some that go together, and some that do not.
  function numberOptions() {
    const options = {};
    const notation = oneOf(["compact", "compact", "scientific", "engineering", undefined, undefined, undefined, undefined]);
    if (notation !== undefined || oneIn(60)) options.notation = notation ?? "standard";
    if (notation === "compact" && oneIn(2)) options.compactDisplay = oneOf(["short", "long"]);
    if (notation === undefined || oneIn(10)) someStyle(options);
    if (notation !== "compact" || oneIn(2)) someDigits(options);
    if (oneIn(3)) options.signDisplay = oneOf(SIGNS);
    if (oneIn(3)) options.useGrouping = oneOf(["auto", "always", "min2", "true", "false", true, false]);
    if (oneIn(3)) options.roundingMode = oneOf(MODES);
    if (oneIn(5)) options.trailingZeroDisplay = oneOf(["auto", "stripIfInteger"]);
    if (oneIn(8)) options.numberingSystem = oneOf(SYSTEMS);
    if (oneIn(30)) options.localeMatcher = oneOf(["lookup", "best fit"]);
    return options;
  }

  // Options of PluralRules.
  function pluralOptions() {
    const options = oneIn(2) ? { type: oneOf(["cardinal", "ordinal"]) } : {};
    if (oneIn(2)) someDigits(options);
    if (oneIn(4)) options.roundingMode = oneOf(MODES);
    if (oneIn(8)) options.trailingZeroDisplay = oneOf(["auto", "stripIfInteger"]);
    if (oneIn(30)) options.localeMatcher = oneOf(["lookup", "best fit"]);
    if (oneIn(12)) options.notation = oneOf(["standard", "compact", "scientific", "engineering"]);
    if (oneIn(20)) options.compactDisplay = oneOf(["short", "long"]);
    return options;
  }

  const digits = (count) => Array.from({ length: 1 + below(count) }, () => below(10)).join("");
  const kinds = [
    () => below(200), () => -below(20000) / 100, () => below(2) * -0, () => below(1e9) / 1000, () => BigInt(digits(25)), () => `${digits(20)}.${digits(20)}`, () => `-${digits(12)}.${digits(4)}`,
    () => `${below(1000)}${oneOf(["5", "25", "50", "999", ""])}e${below(12) - 6}`, () => 10 ** (below(24) - 4) * (1 + below(99)), () => oneOf([0.5, 1.5, 2.5, 0.125, 1.005, 999.5, 9999.5, 999999, 1e21, -1e-7, 0.0000005]),
    () => oneOf([" 12 ", "", "0x1F", "+5", "5.", ".5", null, true, "0.0", "-0", [], ["5"], new Number(7), { valueOf: () => 12n }]), () => `0.${"0".repeat(below(30))}${digits(3)}`, () => oneOf([NaN, Infinity, -Infinity, undefined, "x", "-Infinity", "1,5", {}, [1, 2]]),
    () => (oneIn(6) ? oneOf([Symbol("x"), Object.create(null), { valueOf: () => ({}), toString: () => ({}) }, { [Symbol.toPrimitive]: 5 }]) : below(1000)),
  ];

  return {
    below, oneOf, oneIn, numberOptions, pluralOptions,
    number: () => oneOf(kinds)(),
    /** What a caller gives for locales: mostly the tag of one of these, or that with more, or a list. */
    locales(known) {
      const locale = oneOf(known);
      const kind = below(60);
      if (kind < 5) return `${locale}-u-nu-${oneOf(SYSTEMS)}`;
      if (kind === 5) return [oneOf(["xx", "tlh", "zxx-XX"]), locale, "en"];
      if (kind === 6) return `${locale.split("-")[0]}-${oneOf(["AQ", "XX", "419", "Latn-XX"])}`;
      if (kind === 7) return oneOf([locale.toUpperCase(), locale.toLowerCase(), new Intl.Locale(locale, { numberingSystem: oneOf(SYSTEMS.slice(0, 7)) })]);
      if (kind === 8) return `${locale}${oneOf(["-x-foo", "-u-ca-buddhist-nu-thai", "-u-co-phonebk", "-t-en-m0-true", "-fonipa", "-u-nu", "-a-nu-arab"])}`;
      if (kind === 9 && oneIn(3)) return oneOf(NO_LOCALES);
      return locale;
    },
    /** The options with one in place of another, or beside them, or what is no options; and the name of the one that is put. */
    spoiled(options) {
      if (oneIn(12)) return { options: oneOf(NO_OPTIONS), name: null };
      const name = oneOf(NAMES);
      return { options: { ...options, [name]: oneOf(WRONG) }, name };
    },
  };
}
