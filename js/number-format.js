// NumberFormat, which stands in for Intl.NumberFormat: its options, defaults, calls and errors, over the formatters of the library. What these cannot
// write is refused by its name; but NaN and infinity, which are no numbers to them, are written here.
import { CompactDecimalFormatter, CurrencyFormatter, DecimalFormatter, PercentFormatter, ScientificFormatter } from "./formatters.js";
import { baseNameOf, foundOf, supportedOf, systemOf, tagsAsked } from "./intl-locales.js";
import { hasUsualDigits, readNumberFormat } from "./intl-options.js";
import { intlParts, withSymbol } from "./intl-parts.js";
import { intlDigits, timesHundred } from "./intl-numbers.js";
import { magnitudeOf } from "./numbers.js";
import { SCIENTIFIC } from "./options.js";
import { INFINITY, NAN } from "./specials.js";

const DIGITS = [
  "minimumIntegerDigits", "minimumFractionDigits", "maximumFractionDigits", "minimumSignificantDigits", "maximumSignificantDigits",
  "roundingIncrement", "roundingMode", "roundingPriority", "trailingZeroDisplay",
];
const WITHOUT_LETTERS = ["XXX", "EUR"]; // currencies whose symbols, `¤` and `€`, have no letter, each in most locales
const LEGACY = Symbol("IntlLegacyConstructedSymbol");

function refused(what) {
  return new RangeError(`${what}: the library cannot write this yet`);
}

/** What of resolved options the library cannot write yet, by its name; null where it can. */
function lackOf(resolved) {
  const { style, currencyDisplay, notation } = resolved;
  if (style === "unit") return "style unit";
  if (currencyDisplay === "narrowSymbol" || currencyDisplay === "name") return `currencyDisplay ${currencyDisplay}`;
  return notation !== "standard" && style !== "decimal" ? `notation ${notation} with style ${style}` : null;
}

// In compact numbers the engines' `auto` is `min2`.
function groupingFor({ notation, useGrouping }) {
  return notation === "compact" && useGrouping === "auto" ? "min2" : useGrouping;
}

/**
 * The formatter of the library that writes what resolved options of Intl ask for, by options of its own. This is the one place where Intl's options
 * become the library's.
 */
function formatterOf(tag, resolved) {
  const { style, notation, currency, currencySign, currencyDisplay, compactDisplay, signDisplay, roundingMode } = resolved;
  const useGrouping = groupingFor(resolved);
  const isUsual = notation === "compact" && hasUsualDigits(resolved);
  const digits = isUsual ? { roundingMode } : Object.fromEntries(DIGITS.filter((it) => it in resolved).map((it) => [it, resolved[it]]));
  const options = { useGrouping, signDisplay, ...digits };
  if (notation === "compact") return new CompactDecimalFormatter(tag, { ...options, compactDisplay });
  if (notation in SCIENTIFIC) return new ScientificFormatter(tag, { ...options, notation });
  if (style === "currency") return new CurrencyFormatter(tag, { ...options, currency, currencySign, currencyDisplay });
  return new (style === "percent" ? PercentFormatter : DecimalFormatter)(tag, options);
}

// How many integer digits are behind the first one of what is rounded: of the number, but with an exponent of its significand.
function placesOf({ notation }, digits) {
  const magnitude = magnitudeOf(digits);
  const step = { scientific: 1, engineering: 3 }[notation];
  return step === undefined ? magnitude : ((magnitude % step) + step) % step;
}

// The library leaves as many zeros as a number had digits: by multiples of 25 it makes `00` of 12. What 1 is rounded to has one zero; it is 1 times
// ten to the exponent that is shown, of numbers that have one: in engineering notation 0.012 is `00E-3`.
function withOneZero({ formatter, resolved }, digits) {
  if (resolved.roundingIncrement === 1 || placesOf(resolved, digits) < 1) return digits;
  const [significand, exponent = "0"] = formatter.shown(digits).split(/[ce]/);
  return /[1-9]/.test(significand) ? digits : digits.replace(/[\d.].*/, `1e${exponent}`);
}

const textOf = (parts) => parts.map(({ value }) => value).join("");

/**
 * A formatter of what is asked for as of Intl.NumberFormat, and what resolvedOptions tells. Where `isAlone`, the locale of the machine stands in for those
 * that there are no tables for.
 */
function openedOf(locales, options, isAlone) {
  const tags = tagsAsked(locales, isAlone);
  const fractionDigits = (currency) => foundOf(tags, undefined, (tag) => new CurrencyFormatter(tag, { currency })).made.resolvedOptions().currencyFractionDigits;
  const { system, resolved } = readNumberFormat(options, fractionDigits);
  const lack = lackOf(resolved);
  if (lack !== null) throw refused(lack);
  const { made: formatter, tag, locale } = foundOf(tags, system, (it) => formatterOf(it, resolved));
  return { formatter, tag, locale, resolved };
}

const systemFor = (formatter) => systemOf(formatter.symbols().digits[0]);

// The parts of the number that a compact text has beside its word, where its own parts do not have them.
function partsBeside({ formatter, tag, resolved }, digits) {
  if (!hasUsualDigits(resolved)) return [];
  const [significand] = formatter.shown(digits).split("c");
  return new DecimalFormatter(tag, { useGrouping: groupingFor(resolved), signDisplay: "never" }).formatToParts(significand);
}

// The first symbol of those that a locale has a key of.
function symbolOf(table, tag, system, usual) {
  const name = baseNameOf(tag);
  const { language, script } = new Intl.Locale(name).maximize();
  const own = [`${language}-${script}-${system}`, name, `${language}-${script}`].find((it) => Object.hasOwn(table, it));
  return own === undefined ? usual : table[own];
}

// Where what is between the unit and a part of another type begins and ends.
function betweenOf(parts, type) {
  const [first, last] = ["currency", type].map((it) => parts.findIndex((part) => part.type === it)).sort((one, other) => one - other);
  return { start: first + 1, end: last, isUnitFirst: parts[first].type === "currency" };
}

/**
 * The parts of NaN or infinity: those of a number with its sign, 0 for NaN, and a symbol in the place of the digits. Neither is rounded or compact.
 * CLDR's space between digits and a letter of a currency's symbol is not there: what is between both is that of a currency without a letter.
 * @param {{ formatter: any, tag: string, resolved: Record<string, any> }} opened
 * @param {number} number
 */
function specialParts({ formatter, tag, resolved: { style, currency, currencySign, currencyDisplay, signDisplay } }, number) {
  const system = systemFor(formatter);
  const [type, symbol] = Number.isNaN(number) ? ["nan", symbolOf(NAN, tag, system, "NaN")] : ["infinity", symbolOf(INFINITY, tag, system, "∞")];
  const partsOf = (more) => {
    const like = formatterOf(tag, { style, currencySign, signDisplay, useGrouping: false, notation: "standard", ...more });
    return withSymbol(intlParts(like.formatToParts(String(Math.sign(number) || 0))), type, symbol);
  };
  const own = partsOf({ currency, currencyDisplay });
  if (!own.some((it) => it.type === "currency")) return own;
  const place = betweenOf(own, type);
  for (const it of WITHOUT_LETTERS) {
    const parts = partsOf({ currency: it, currencyDisplay: "symbol" });
    const { start, end, isUnitFirst } = betweenOf(parts, type);
    const isLetter = /\p{L}/u.test(parts[isUnitFirst ? start - 1 : end].value);
    if (isUnitFirst === place.isUnitFirst && !isLetter) return [...own.slice(0, place.start), ...parts.slice(start, end), ...own.slice(place.end)];
  }
  return own;
}

/**
 * A class as Intl.NumberFormat. What the library cannot write an `Engine` writes, the class of that name of the JavaScript engine; where it is null that
 * is refused.
 */
export function numberFormatOver(Engine) {
  class NumberFormat {
    #opened;
    #bound;
    #other;

    constructor(locales = undefined, options = undefined) {
      try {
        this.#opened = openedOf(locales, options, Engine === null);
      } catch (error) {
        if (Engine === null) throw error;
        return Reflect.construct(Engine, [locales, options], new.target); // which throws where it cannot be either
      }
    }

    // What was made without `new` of an object that had this prototype.
    static #unwrapped(it) {
      return !(#opened in it) && NumberFormat.prototype.isPrototypeOf(it) && LEGACY in it ? it[LEGACY] : it;
    }

    static #isOwn(it) {
      return Engine === null || #opened in it;
    }

    // A call of the engine's class in place of the library's, for what is named.
    #otherwise(what, name, values) {
      if (Engine === null) throw refused(what);
      const { locale, resolved } = this.#opened;
      this.#other ??= new Engine(locale, { numberingSystem: systemFor(this.#opened.formatter), ...resolved });
      return this.#other[name](...values);
    }

    // Runs what writes digits, or what writes the parts of NaN or infinity.
    #written(value, name, write, writeParts) {
      const { resolved } = this.#opened;
      const digits = intlDigits(value);
      if (typeof digits === "number") return writeParts(specialParts(this.#opened, digits));
      try {
        return write(withOneZero(this.#opened, resolved.style === "percent" ? timesHundred(digits) : digits));
      } catch (error) {
        if (Engine === null) throw error;
        return this.#otherwise("", name, [typeof value === "bigint" ? value : digits]);
      }
    }

    /** The text of a number. It may be handed on without its object. */
    get format() {
      const it = NumberFormat.#unwrapped(this);
      if (!NumberFormat.#isOwn(it)) return Reflect.get(Engine.prototype, "format", it);
      if (it.#bound !== undefined) return it.#bound;
      const { format } = it.#opened.formatter;
      it.#bound = (value) => it.#written(value, "format", format, textOf);
      return it.#bound;
    }

    /** The parts of a number's text, each with its type and value. */
    formatToParts(value) {
      if (!NumberFormat.#isOwn(this)) return Reflect.apply(Engine.prototype.formatToParts, this, [value]);
      const { formatter, resolved } = this.#opened;
      return this.#written(value, "formatToParts", (digits) => {
        return intlParts(formatter.formatToParts(digits), resolved.notation === "compact" ? partsBeside(this.#opened, digits) : undefined);
      }, (parts) => parts);
    }

    /** The text of a range. */
    formatRange(start, end) {
      if (!NumberFormat.#isOwn(this)) return Reflect.apply(Engine.prototype.formatRange, this, [start, end]);
      return this.#ranged("formatRange", start, end);
    }

    /** The parts of the text of a range. */
    formatRangeToParts(start, end) {
      if (!NumberFormat.#isOwn(this)) return Reflect.apply(Engine.prototype.formatRangeToParts, this, [start, end]);
      return this.#ranged("formatRangeToParts", start, end);
    }

    #ranged(name, start, end) {
      if (start === undefined || end === undefined) throw new TypeError("a range has two ends");
      const ends = [start, end].map(intlDigits);
      if (ends.some(Number.isNaN)) throw new RangeError("a range has no end that is no number");
      return this.#otherwise(name, name, ends);
    }

    /** The options, as they were given or as they are without, with the locale and the numbering system that were found. */
    resolvedOptions() {
      const it = NumberFormat.#unwrapped(this);
      if (!NumberFormat.#isOwn(it)) return Reflect.apply(Engine.prototype.resolvedOptions, it, []);
      const { formatter, locale, resolved } = it.#opened;
      return { locale, numberingSystem: systemFor(formatter), ...resolved };
    }

    /** Those of the locales that there are tables for. */
    static supportedLocalesOf(locales, options = undefined) {
      return supportedOf(locales, options, Engine, (it) => new DecimalFormatter(it));
    }
  }
  for (const name of Engine === null ? [] : ["formatRange", "formatRangeToParts"]) if (!(name in Engine.prototype)) delete NumberFormat.prototype[name];
  Object.defineProperty(NumberFormat.prototype, Symbol.toStringTag, { value: "Intl.NumberFormat", configurable: true });
  const callable = new Proxy(NumberFormat, {
    apply(_, self, given) {
      const made = new callable(...given);
      if (!NumberFormat.prototype.isPrototypeOf(self)) return made;
      return Object.defineProperty(self, LEGACY, { value: made });
    },
  });
  Object.defineProperty(NumberFormat.prototype, "constructor", { value: callable });
  return callable;
}

/** Writes numbers as Intl.NumberFormat does, with its options and its defaults. */
export const NumberFormat = /* @__PURE__ */ numberFormatOver(null);
