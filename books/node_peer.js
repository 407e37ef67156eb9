// Answers request lines by Intl.NumberFormat of Node: forms plain, short, long, scientific and engineering with the rounding `-`, each as `ok`, a
// tab and the text. So too the form percent, and of a currency currency-EUR, code-EUR and accounting-EUR; for cash, which
// Node does not know, the rounding names digits and increment, as in `cash 2 5`. A form may be an object of options in JSON,
// with the grouping auto, the sign keep and the rounding `-`. The forms plural and ordinal are answered with the category that
// Intl.PluralRules has for the number, with the digits that it shows, or by the options in JSON that the rounding then is, range-plural
// with that of `1..2`, and plural-categories and ordinal-categories with the categories that it lists; plural-locale with the locale
// whose rules it takes. The form `locale` is answered with the locale that Node takes for the tag,
// `script` with the tag that has its usual script put in, and `whole` with its usual script and region. Any other line is
// `err`, a tab and a word. The word `version` alone prints the versions of Node and of its data.
"use strict";

const compact = (display) => ({ notation: "compact", compactDisplay: display, roundingMode: "halfEven" });
const exponential = (notation) => ({ notation, maximumFractionDigits: 20 });
const FORMS = {
  plain: { maximumFractionDigits: 20 },
  short: compact("short"),
  long: compact("long"),
  scientific: exponential("scientific"),
  engineering: exponential("engineering"),
};
const GROUPINGS = { auto: "auto", never: false, always: "always", min2: "min2" };
const kept = new Map();

function formatter(tag, grouping, options) {
  const key = `${tag} ${grouping} ${JSON.stringify(options)}`;
  if (kept.size > 1000) kept.clear();
  if (!kept.has(key)) kept.set(key, new Intl.NumberFormat(tag, { useGrouping: GROUPINGS[grouping], ...options }));
  return kept.get(key);
}

const SIGNS = { keep: "auto", auto: "auto", always: "always", never: "never", "except-zero": "exceptZero", negative: "negative" };
const WIDTHS = { currency: {}, code: { currencyDisplay: "code" }, accounting: { currencySign: "accounting" } };

// The digits and the increment of cash, and nothing without cash; null where the rounding is neither.
function digitsOf(rounding) {
  if (rounding === "-") return {};
  const [word, digits, increment] = rounding.split(" ");
  if (word !== "cash" || increment === undefined) return null;
  return { minimumFractionDigits: +digits, maximumFractionDigits: +digits, roundingIncrement: +increment };
}

// The options of percents and of currencies; null where form, sign and rounding are none of theirs.
function unitOptions(form, sign, rounding) {
  const signDisplay = SIGNS[sign];
  if (form === "percent" && rounding === "-") return { style: "percent", maximumFractionDigits: 20, signDisplay };
  const [width, currency] = form.split("-");
  const digits = digitsOf(rounding);
  if (!(width in WIDTHS) || currency === undefined || digits === null) return null;
  return { style: "currency", currency, roundingMode: "halfEven", signDisplay, ...WIDTHS[width], ...digits };
}

// The options that the fields say; null where they say none.
function optionsOf(form, sign, rounding) {
  if (!(sign in SIGNS)) return null;
  if (form.startsWith("{")) return sign === "keep" && rounding === "-" ? JSON.parse(form) : null;
  if (form in FORMS) return rounding === "-" ? { ...FORMS[form], signDisplay: SIGNS[sign] } : null;
  return unitOptions(form, sign, rounding);
}

// The number over 100, as a text: Node writes a ratio in percents.
function ratio(number) {
  const [, sign, whole, fraction] = /^([-+]?)(\d+)(?:\.(\d+))?$/.exec(number);
  const digits = whole.padStart(3, "0");
  return `${sign}${digits.slice(0, -2)}.${digits.slice(-2)}${fraction ?? ""}`;
}

const PLURALS = {
  plural: "cardinal",
  ordinal: "ordinal",
  "range-plural": "cardinal",
  "plural-categories": "cardinal",
  "ordinal-categories": "ordinal",
  "plural-locale": "cardinal",
};

function rules(tag, type, options) {
  const key = `${tag} ${type} ${options}`;
  if (kept.size > 1000) kept.clear();
  if (!kept.has(key)) kept.set(key, new Intl.PluralRules(tag, { type, ...JSON.parse(options) }));
  return kept.get(key);
}

// The options that show the digits that a number is given with, or those of the rounding.
function pluralOptions(form, rounding, number) {
  if (rounding !== "-") return rounding;
  const digits = form === "range-plural" ? "" : (number.split(".")[1] ?? "");
  return JSON.stringify({ minimumFractionDigits: digits.length });
}

// The category of a number or a range, those that are listed, or the locale.
function category(tag, form, rounding, number) {
  const found = rules(tag, PLURALS[form], pluralOptions(form, rounding, number));
  if (form === "plural-locale") return found.resolvedOptions().locale;
  if (form.endsWith("-categories")) return found.resolvedOptions().pluralCategories.join(" ");
  return form === "range-plural" ? found.selectRange(...number.split("..").map(Number)) : found.select(Number(number));
}

function withScript(tag) {
  return new Intl.Locale(tag, { script: new Intl.Locale(tag).maximize().script }).toString();
}

function answered(line) {
  const [tag, form, grouping, sign, rounding, number] = line.split("\t");
  if (form === "locale") return new Intl.NumberFormat(tag).resolvedOptions().locale;
  if (form === "script") return withScript(tag);
  if (form === "whole") return new Intl.Locale(tag).maximize().toString();
  if (form in PLURALS) return category(tag, form, rounding, number);
  const options = grouping in GROUPINGS ? optionsOf(form, sign, rounding) : null;
  return options && formatter(tag, grouping, options).format(options.style === "percent" ? ratio(number) : number);
}

function answer(line) {
  try {
    const text = answered(line);
    return text === null ? "err\tshape" : `ok\t${text}`;
  } catch (fault) {
    return "err\ttag";
  }
}

if (process.argv[2] === "version") {
  console.log(`Node ${process.versions.node} with CLDR ${process.versions.cldr}`);
} else {
  const lines = require("fs").readFileSync(0, "utf8").split("\n").slice(0, -1);
  process.stdout.write(lines.map((line) => answer(line) + "\n").join(""));
}
