// The options of Intl.NumberFormat and Intl.PluralRules, read and checked by the steps of ECMA-402: in its order, with its defaults and its errors.
import { USUAL_COMPACT } from "./compact-digits.js";

const MATCHERS = ["lookup", "best fit"];
const STYLES = ["decimal", "percent", "currency", "unit"];
const CURRENCY_DISPLAYS = ["code", "symbol", "narrowSymbol", "name"];
const CURRENCY_SIGNS = ["standard", "accounting"];
const UNIT_DISPLAYS = ["short", "narrow", "long"];
const NOTATIONS = ["standard", "scientific", "engineering", "compact"];
const WIDTHS = ["short", "long"];
const GROUPINGS = ["min2", "auto", "always", "true", "false"];
const SIGNS = ["auto", "never", "always", "exceptZero", "negative"];
const INCREMENTS = [1, 2, 5, 10, 20, 25, 50, 100, 200, 250, 500, 1000, 2000, 2500, 5000];
const MODES = ["ceil", "floor", "expand", "trunc", "halfCeil", "halfFloor", "halfExpand", "halfTrunc", "halfEven"];
const PRIORITIES = ["auto", "morePrecision", "lessPrecision"];
const ZEROS = ["auto", "stripIfInteger"];
const TYPES = ["cardinal", "ordinal"];
const [MOST_INTEGER, MOST_FRACTION, MOST_SIGNIFICANT] = [21, 100, 21];
const CODE = /^[a-z]{3}$/i;
const SYSTEM = /^[a-z\d]{3,8}(?:-[a-z\d]{3,8})*$/i;
// The units that ECMA-402 has, of which one may be per another.
const UNITS = (
  "acre bit byte celsius centimeter day degree fahrenheit fluid-ounce foot gallon gigabit gigabyte gram hectare hour inch kilobit kilobyte kilogram kilometer " +
  "liter megabit megabyte meter microsecond mile mile-scandinavian milliliter millimeter millisecond minute month nanosecond ounce percent petabyte pound second " +
  "stone terabit terabyte week yard year"
).split(" ");

/** Whether compact numbers have the digits that they have without an option. */
export function hasUsualDigits(resolved) {
  return resolved.minimumIntegerDigits === 1 && Object.entries(USUAL_COMPACT).every(([name, value]) => resolved[name] === value);
}

/** The options as an object, of which each is read once. */
function objectOf(options) {
  if (options === null) throw new TypeError("options are an object, and not null");
  return options === undefined ? Object.create(null) : Object(options);
}

function oneOf(name, word, words) {
  if (!words.includes(word)) throw new RangeError(`${name} is one of ${words.join(", ")}, and not ${word}`);
  return word;
}

// A word of a list, or a text where there is none.
function word(options, name, words, otherwise) {
  const given = options[name];
  if (given === undefined) return otherwise;
  const text = `${given}`;
  return words === null ? text : oneOf(name, text, words);
}

/** The text of an option that has a form, where it is given. */
function formed(options, name, isFormed) {
  const text = word(options, name, null, undefined);
  if (text !== undefined && !isFormed(text)) throw new RangeError(`${name} is not well-formed: ${text}`);
  return text;
}

function whole(name, given, least, most, otherwise) {
  if (given === undefined) return otherwise;
  const number = +given; // not Number(given), which takes a bigint
  if (!(number >= least && number <= most)) throw new RangeError(`${name} is a number from ${least} to ${most}, and not ${number}`);
  return Math.floor(number) + 0; // no -0
}

function isUnit(text) {
  if (UNITS.includes(text)) return true;
  const [unit, per, ...others] = text.split("-per-");
  return others.length === 0 && UNITS.includes(unit) && UNITS.includes(per);
}

/** What is asked of the matching of locales, which does nothing. */
export function readMatcher(options) {
  const found = objectOf(options);
  word(found, "localeMatcher", MATCHERS, "best fit");
  return found;
}

// The style of numbers, with the currency or the unit that it has.
function styleOf(options) {
  const style = word(options, "style", STYLES, "decimal");
  const currency = formed(options, "currency", (it) => CODE.test(it));
  if (currency === undefined && style === "currency") throw new TypeError("style currency needs a currency");
  const currencyDisplay = word(options, "currencyDisplay", CURRENCY_DISPLAYS, "symbol");
  const currencySign = word(options, "currencySign", CURRENCY_SIGNS, "standard");
  const unit = formed(options, "unit", isUnit);
  if (unit === undefined && style === "unit") throw new TypeError("style unit needs a unit");
  const unitDisplay = word(options, "unitDisplay", UNIT_DISPLAYS, "short");
  if (style === "currency") return { style, currency: currency.toUpperCase(), currencyDisplay, currencySign };
  return style === "unit" ? { style, unit, unitDisplay } : { style };
}

// What the options say of digits, as it is given.
function digitsGiven(options) {
  const minimumIntegerDigits = whole("minimumIntegerDigits", options.minimumIntegerDigits, 1, MOST_INTEGER, 1);
  const { minimumFractionDigits, maximumFractionDigits, minimumSignificantDigits, maximumSignificantDigits } = options;
  const roundingIncrement = whole("roundingIncrement", options.roundingIncrement, 1, 5000, 1);
  if (!INCREMENTS.includes(roundingIncrement)) throw new RangeError(`roundingIncrement is one of ${INCREMENTS.join(", ")}, and not ${roundingIncrement}`);
  const roundingMode = word(options, "roundingMode", MODES, "halfExpand");
  const roundingPriority = word(options, "roundingPriority", PRIORITIES, "auto");
  const trailingZeroDisplay = word(options, "trailingZeroDisplay", ZEROS, "auto");
  return {
    minimumIntegerDigits, minimumFractionDigits, maximumFractionDigits, minimumSignificantDigits, maximumSignificantDigits,
    roundingIncrement, roundingMode, roundingPriority, trailingZeroDisplay,
  };
}

function significantOf(given) {
  const least = whole("minimumSignificantDigits", given.minimumSignificantDigits, 1, MOST_SIGNIFICANT, 1);
  const most = whole("maximumSignificantDigits", given.maximumSignificantDigits, least, MOST_SIGNIFICANT, MOST_SIGNIFICANT);
  return { minimumSignificantDigits: least, maximumSignificantDigits: most };
}

function fractionOf(given, [leastUsual, mostUsual]) {
  const least = whole("minimumFractionDigits", given.minimumFractionDigits, 0, MOST_FRACTION, undefined);
  const most = whole("maximumFractionDigits", given.maximumFractionDigits, 0, MOST_FRACTION, undefined);
  if (least > most) throw new RangeError(`minimumFractionDigits ${least} is above maximumFractionDigits ${most}`);
  return { minimumFractionDigits: least ?? Math.min(leastUsual, most ?? mostUsual), maximumFractionDigits: most ?? Math.max(mostUsual, least ?? 0) };
}

/**
 * The digits that are shown, and how: those of the fraction, the significant ones, or both. `usual` are the least and the most digits of a fraction
 * where no option says them.
 */
function digitsOf(options, usual, notation) {
  const { minimumIntegerDigits, roundingIncrement, roundingMode, roundingPriority, trailingZeroDisplay, ...given } = digitsGiven(options);
  const isGiven = (kind) => given[`minimum${kind}Digits`] !== undefined || given[`maximum${kind}Digits`] !== undefined;
  const [hasSignificant, hasFraction] = ["Significant", "Fraction"].map(isGiven);
  const isEither = roundingPriority !== "auto";
  const isUsual = !isEither && !hasSignificant && !hasFraction && notation === "compact";
  const significant = isEither || hasSignificant ? significantOf(given) : {};
  const fraction = isEither || (!hasSignificant && !isUsual) ? fractionOf(given, roundingIncrement === 1 ? usual : [usual[0], usual[0]]) : {};
  const { roundingPriority: ofUsual, ...usualCounts } = USUAL_COMPACT;
  const counts = { minimumIntegerDigits, ...(isUsual ? usualCounts : { ...fraction, ...significant }) };
  if (roundingIncrement !== 1) {
    if (isEither || isUsual || hasSignificant) throw new TypeError("roundingIncrement is of fraction digits, and not of significant ones");
    const { minimumFractionDigits: least, maximumFractionDigits: most } = counts;
    if (least !== most) throw new RangeError("roundingIncrement asks for as many fraction digits at least as at most");
  }
  return { counts, rounding: { roundingIncrement, roundingMode, roundingPriority: isUsual ? ofUsual : roundingPriority, trailingZeroDisplay } };
}

// When separators are written. The words "true" and "false" say nothing.
function groupingOf(options, usual) {
  const given = options.useGrouping;
  if (given === undefined) return usual;
  if (given === true) return "always";
  if (!given) return false;
  const found = oneOf("useGrouping", `${given}`, GROUPINGS);
  return found === "true" || found === "false" ? usual : found;
}

/**
 * What the options of Intl.NumberFormat say: `system` is the numbering system that is asked for, and `resolved` all that resolvedOptions tells behind it,
 * in its order.
 * @param {unknown} options
 * @param {(code: string) => number} fractionDigits how many digits of the fraction a currency has
 * @returns {{ system: string | undefined, resolved: Record<string, any> }}
 */
export function readNumberFormat(options, fractionDigits) {
  const given = readMatcher(options);
  const system = formed(given, "numberingSystem", (it) => SYSTEM.test(it))?.toLowerCase();
  const style = styleOf(given);
  const notation = word(given, "notation", NOTATIONS, "standard");
  const isAmount = style.style === "currency" && notation === "standard";
  const digits = isAmount ? fractionDigits(style.currency) : 0;
  const { counts, rounding } = digitsOf(given, isAmount ? [digits, digits] : [0, style.style === "percent" ? 0 : 3], notation);
  const width = word(given, "compactDisplay", WIDTHS, "short");
  const isCompact = notation === "compact";
  const useGrouping = groupingOf(given, isCompact ? "min2" : "auto");
  const signDisplay = word(given, "signDisplay", SIGNS, "auto");
  return { system, resolved: { ...style, ...counts, useGrouping, notation, ...(isCompact ? { compactDisplay: width } : {}), signDisplay, ...rounding } };
}

/** What the options of Intl.PluralRules say: `first` is what resolvedOptions tells before the categories, and `last` what it tells behind them. */
export function readPluralRules(options) {
  const given = readMatcher(options);
  const type = word(given, "type", TYPES, "cardinal");
  const notation = word(given, "notation", NOTATIONS, "standard");
  const width = word(given, "compactDisplay", WIDTHS, "short");
  const { counts, rounding } = digitsOf(given, [0, 3], notation);
  return { first: { type, notation, ...(notation === "compact" ? { compactDisplay: width } : {}), ...counts }, last: rounding };
}
