// Plural categories in the manner of Intl.PluralRules: those of numbers as they are shown.
import { calls, written } from "./instance.js";
import { USUAL_COMPACT } from "./compact-digits.js";
import { CompactDecimalFormatter, Formatter, openedOf } from "./formatters.js";
import { digitsOf } from "./numbers.js";
import { closesAtEnd } from "./open.js";
import { HOW_OPENED, OF_DIGITS, SCIENTIFIC, WIDTHS, checked, chosen, readCall, saidOf } from "./options.js";
import { AS_IT_IS, howFor } from "./rounding.js";

const TYPES = { cardinal: 1, ordinal: 2 };
const NOTATIONS = { standard: 0, compact: 1, ...SCIENTIFIC };
const MATCHERS = { lookup: 0, "best fit": 1 }; // of which neither changes anything
const OF_RULES = ["type", "notation", "compactDisplay"];
const DIGITS = OF_DIGITS.filter((it) => !["signDisplay", "position"].includes(it));
// What Intl has where no option says it.
const USUAL = { minimumIntegerDigits: 1, roundingIncrement: 1, roundingMode: "halfExpand", roundingPriority: "auto", trailingZeroDisplay: "auto" };
// The options that give compact numbers digits of their own, as does a roundingPriority.
const PRECISIONS = Object.keys(USUAL_COMPACT).filter((it) => it !== "roundingPriority");
/** Numbers that have among them each category of a language. */
export const SAMPLES = [...Array.from({ length: 101 }, (_, number) => String(number)), "1000000", "0.1", "1.5"];

// The counts of digits that are given, and those that Intl has in place of others.
function countsOf(found, name, least, most) {
  const [minimum, maximum] = [`minimum${name}Digits`, `maximum${name}Digits`];
  const { [minimum]: first = least, [maximum]: last = first > most ? first : most } = found;
  return { [minimum]: first, [maximum]: last };
}

// What the options say of the digits that are shown: each that counts, as it is given or as it is without.
function digitsBy(options) {
  const found = saidOf(options, DIGITS);
  const { minimumIntegerDigits, ...others } = { ...USUAL, ...saidOf(options, Object.keys(USUAL)) };
  const isSignificant = "minimumSignificantDigits" in found || "maximumSignificantDigits" in found;
  const isEither = others.roundingPriority !== "auto";
  const fraction = isSignificant && !isEither ? {} : countsOf(found, "Fraction", 0, others.roundingIncrement === 1 ? 3 : 0);
  return { minimumIntegerDigits, ...fraction, ...(isSignificant || isEither ? countsOf(found, "Significant", 1, 21) : {}), ...others };
}

// Whether compact numbers have digits of their own.
function hasOwnDigits(options) {
  return Object.keys(saidOf(options, PRECISIONS)).length > 0 || (options.roundingPriority ?? "auto") !== "auto";
}

/**
 * What plural rules are opened with.
 * @returns {import("./options.js").Opening}
 */
function openingOf(options) {
  checked(options, [...HOW_OPENED, "localeMatcher", ...OF_RULES, ...DIGITS], "");
  chosen(options, "localeMatcher", MATCHERS, "best fit");
  const type = chosen(options, "type", TYPES, "cardinal");
  const form = chosen(options, "notation", NOTATIONS, "standard");
  const width = chosen(options, "compactDisplay", WIDTHS, "short");
  const isCompact = form === NOTATIONS.compact;
  const isUsual = isCompact && !hasOwnDigits(options);
  const digits = isUsual ? { ...USUAL, ...saidOf(options, Object.keys(USUAL)), ...USUAL_COMPACT } : digitsBy(options);
  const read = readCall("decimal", digits); // and says what is wrong
  const call = isCompact ? readCall("compact", isUsual ? { roundingMode: digits.roundingMode } : {}) : read;
  const format = Int32Array.of(7, form, isCompact ? width : 0, 0, 0, 0, 0, type);
  const resolved = { type: "cardinal", notation: "standard", ...(isCompact ? { compactDisplay: "short" } : {}), ...saidOf(options, OF_RULES), ...digits };
  if (!isCompact) delete resolved.compactDisplay;
  return { format, unit: "", isSkeleton: false, hasPlurals: true, key: `${format}`, call, resolved };
}

// What writes the category of a number in place of its text.
class Categories extends Formatter {
  constructor(locales, options = {}) {
    super(openingOf(options), locales, options);
  }
}

// What shows compact numbers that have digits of their own.
function compactOf(resolved, book) {
  return new CompactDecimalFormatter(resolved.locale, { book, ...saidOf(resolved, ["compactDisplay", ...DIGITS]) });
}

/** Says which plural form goes with a number, by its digits as they are shown. */
export class PluralRules {
  #categories;
  #compact = null;

  constructor(locales, options = {}) {
    this.#categories = new Categories(locales, options);
    if (options.notation === "compact" && hasOwnDigits(options)) this.#compact = compactOf(this.#categories.resolvedOptions(), options.book);
  }

  /** The category of a number: `one` of 1 in English. */
  select(number) {
    if (typeof number === "number" && !Number.isFinite(number)) return "other"; // as Intl has it
    return this.#compact === null ? this.#categories.format(number) : this.#categories.formatExact(this.#compact.shown(number));
  }

  // A number that has, with the usual digits, the category of another one.
  #like(number) {
    const category = this.select(digitsOf(number));
    const found = SAMPLES.find((it) => this.#categories.format(it) === category);
    if (found === undefined) throw new RangeError(`no range is known of numbers of the category ${category}`);
    return found;
  }

  /** The category of a range, by those of its two ends. */
  selectRange(start, end) {
    const ends = this.#compact === null ? [start, end].map(digitsOf) : [start, end].map((it) => this.#like(it));
    const { native, call } = openedOf(this.#categories);
    const isRounded = call.learned !== null; // a compact number, at a place of its own
    const shown = (it) => written(native.at, calls.js_formatter_shown, howFor(native, call, it), it).replace("c", "e");
    const [first, second] = isRounded ? ends.map(shown) : ends;
    const range = (at, size) => calls.js_formatter_range(at, first.length, size - first.length);
    return written(native.at, range, isRounded ? AS_IT_IS : call.how, first + second);
  }

  get closed() {
    return this.#categories.closed;
  }

  /** Its calls are refused from then on. */
  close() {
    this.#categories.close();
    this.#compact?.close();
  }

  /** The options, as they were given or as they are without; the locale that was found; and the categories that its numbers may have. */
  resolvedOptions() {
    return this.#categories.resolvedOptions();
  }

  /** Those of the locales that the book has rules for. */
  static supportedLocalesOf(locales, options = {}) {
    return Categories.supportedLocalesOf(locales, options);
  }
}
closesAtEnd(PluralRules);
