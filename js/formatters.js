// Formatters, as classes in the manner of Intl: one over the module's, and its faces.
import { ErrorNumber, LegumeyetError, ask, calling, calls, partsWritten, putBoth, written } from "./instance.js";
import { sourceOf, tagFor, withBook } from "./books.js";
import { allWritten } from "./columns.js";
import { categoriesOf, currencyDigitsOf, symbolsOf } from "./facts.js";
import { digitsOf } from "./numbers.js";
import { closesAtEnd, isOpen, openHandle } from "./open.js";
import { readCall, readOptions } from "./options.js";
import { howFor, placed } from "./rounding.js";
import { CLOSED, shared } from "./sharing.js";
import { reading } from "./skeletons.js";
import { isTag, listed, tagsOf } from "./tags.js";

// What a module of pages may be made without, by the kind of numbers that needs it.
const PARTS = { compact: "js_compact", compactDigits: "js_compact", percent: "js_units", currency: "js_units" };
const OF_PLURALS = "js_plurals";
// A tag that there are no tables for, in the place of a text that is none: what else is wrong comes first.
const UNKNOWN = "zxx";

// What the message of an error says of a tag, or of the code of a currency.
function hint(number, tag, code) {
  const [named, dashed, coded] = [tag, tag.replaceAll("_", "-"), code].map((it) => JSON.stringify(it.slice(0, 40)));
  if (number === ErrorNumber.CODE) return `: ${coded}`;
  return number === ErrorNumber.TAG && tag.includes("_") ? `: ${named} is written ${dashed}` : `: ${named}`;
}

/**
 * Opens what is asked for.
 * @param {import("./sharing.js").Native} native
 * @param {import("./sharing.js").Asked} asked
 */
function openNative(native, { source, tag, opening: { format, unit, isSkeleton, hasPlurals, call } }) {
  if (call.kind in PARTS) calling(PARTS[call.kind]);
  if (hasPlurals) calling(OF_PLURALS);
  const open = calling(isSkeleton ? "js_formatter_open_skeleton" : "js_formatter_open");
  const handed = tagFor(tag);
  const fill = (book, at) => {
    ask(format);
    const told = open(book, ...putBoth(handed ?? UNKNOWN, unit), at);
    return handed === null && (told === 0 || told === -ErrorNumber.TABLE) ? -ErrorNumber.TAG : told;
  };
  const from = source.smallFor?.(tag, isSkeleton || hasPlurals ? null : call.kind) ?? source;
  const opened = () => withBook(from, (book) => openHandle(native, (at) => fill(book, at), (number) => hint(number, tag, unit)));
  isSkeleton ? reading(unit, opened) : opened();
}

/**
 * What a formatter is opened from.
 * @returns {import("./sharing.js").Asked}
 */
const askedFor = (source, tag, opening) => ({ source, key: `${opening.key}\n${tag}`, close: "js_formatter_close", open: openNative, tag, opening });

/** Whether there are no tables for what was asked for. */
export function isWithoutTables(error) {
  return error instanceof LegumeyetError && error.number === ErrorNumber.TABLE;
}

// What is asked for of the first of these tags that there are tables for. The tags behind it have to be some too, as Intl has it.
function firstOpened(source, tags, opening) {
  for (let at = 0; ; at += 1) {
    try {
      const asked = askedFor(source, tags[at], opening);
      shared(asked);
      const wrong = tags.find((it, other) => other > at && !isTag(it));
      if (wrong !== undefined) throw new LegumeyetError(ErrorNumber.TAG, hint(ErrorNumber.TAG, wrong, ""));
      return asked;
    } catch (error) {
      if (at === tags.length - 1 || !isWithoutTables(error)) throw error;
    }
  }
}

function textOf(text) {
  if (typeof text !== "string") throw new TypeError("a text is a string");
  return text;
}

/** What is open of a formatter, and the call of its own options. */
export let openedOf;

/** The one formatter: each of the classes below is it, opened by options of its own. */
export class Formatter {
  static {
    openedOf = (it) => ({ native: it.#opened(), call: it.#call });
  }

  #asked;
  #native;
  #call;

  constructor(opening, locales, options) {
    this.#asked = firstOpened(sourceOf(options.book), tagsOf(locales, options.fallback), opening);
    this.#native = shared(this.#asked);
    this.#call = placed(this.#native, opening.call);
    /** The text of a number. As Intl's, it may be handed on without its formatter. */
    this.format = (number, options) => {
      const native = this.#opened();
      const digits = digitsOf(number);
      return written(native.at, calls.js_formatter_format, howFor(native, this.#callBy(native, options), digits), digits);
    };
  }

  // The native formatter, which is opened again where it was closed to make room, or where its instance is lost.
  #opened() {
    if (isOpen(this.#native)) return this.#native;
    if (this.closed) throw new LegumeyetError(ErrorNumber.CLOSED);
    this.#native = shared(this.#asked);
    return this.#native;
  }

  // The call that options say, or that of the formatter's own. A number, as the index that `map` hands on, says nothing.
  #callBy(native, options) {
    return options === undefined || typeof options === "number" ? this.#call : placed(native, readCall(this.#call.kind, options));
  }

  /** The texts of many numbers, as `format` has each, and sooner. */
  formatAll(numbers, options) {
    const call = this.#callBy(this.#opened(), options);
    const howOf = (digits) => howFor(this.#opened(), call, digits);
    const one = (digits) => written(this.#opened().at, calls.js_formatter_format, howOf(digits), digits);
    const isAlone = (digits) => howOf(digits) !== call.how;
    return allWritten({ at: () => this.#opened().at, how: call.how, one, isAlone, hasColumns: call.learned !== "shown" }, numbers);
  }

  // What a call writes of a number.
  #made(write, name, number, options) {
    const native = this.#opened();
    const digits = digitsOf(number);
    return write(native.at, calls[name], howFor(native, this.#callBy(native, options), digits), digits);
  }

  /** The parts of a number's text, each with its type and value; of a compact one with the usual digits its sign, and the rest as a literal. */
  formatToParts(number, options) {
    return this.#made(partsWritten, "js_formatter_parts", number, options);
  }

  /** The value that the text of a number shows: `-1.2c6` is -1.2 times ten to the power 6, and so is `-1.2e6` of a scientific one. */
  shown(number, options) {
    return this.#made(written, "js_formatter_shown", number, options);
  }

  /** The text of a value as `shown` gives it, its digits as they are. */
  formatExact(value, options) {
    const native = this.#opened();
    return written(native.at, calling("js_formatter_exact"), this.#callBy(native, options).how, textOf(value));
  }

  // What a call reads, where the module has it.
  #taken(name, text) {
    const { at } = this.#opened();
    return written(at, calling(name), this.#call.how, textOf(text));
  }

  /** The digits of the one number that is written so. */
  read(text) {
    return this.#taken("js_formatter_read", text);
  }

  /** The digits of the number that was typed so, of percents and amounts with the unit or code on either side, or without it. */
  readLenient(text) {
    return this.#taken("js_formatter_read_lenient", text);
  }

  get closed() {
    return this.#native === CLOSED;
  }

  /** Its calls are refused from then on. Others that are like it have its memory, until room is made for others. */
  close() {
    this.#native = CLOSED;
  }

  /** The separators, the signs and the digits that it writes. */
  symbols() {
    return symbolsOf(this.#opened());
  }

  /** The options, as they were given or as they are without; the locale that was found; and the digits of a currency, or the categories of plural rules. */
  resolvedOptions() {
    const { tag, opening } = this.#asked;
    /** @type {Record<string, any>} */
    const found = { locale: tag, ...opening.resolved };
    if (opening.hasPlurals) found.pluralCategories = categoriesOf(shared(this.#asked)); // also where it is closed
    return this.#call.kind === "currency" ? { ...found, ...currencyDigitsOf(shared(this.#asked)) } : found;
  }

  /** Those of the locales that the book has tables for. */
  static supportedLocalesOf(locales, options = {}) {
    return (locales === undefined ? [] : listed(locales)).filter((it) => {
      try {
        new this(it, { ...options, fallback: undefined }).close();
        return true;
      } catch (error) {
        if (isWithoutTables(error)) return false;
        throw error;
      }
    });
  }
}
closesAtEnd(Formatter);

// The formatter of a kind.
const of = (kind) => class extends Formatter {
  constructor(locales, options = {}) {
    super(readOptions(kind, options), locales, options);
  }
};

/** Writes numbers as a skeleton says, `currency/EUR .00`, and reads them back. */
export class NumberFormatter extends of("skeleton") {}
/** Writes plain numbers for a locale, and reads them back. */
export class DecimalFormatter extends of("decimal") {}
/** Writes compact numbers for a locale. */
export class CompactDecimalFormatter extends of("compact") {}
/** Writes scientific numbers for a locale. */
export class ScientificFormatter extends of("scientific") {}
/** Writes percents for a locale, and reads them back. A percent is written as it is given: a ratio is multiplied by 100 first. */
export class PercentFormatter extends of("percent") {}
/** Writes amounts of money in a currency for a locale, and reads them back. */
export class CurrencyFormatter extends of("currency") {}
