// The classes, and their errors.
export {}; // so that what has no `export` below, as Open, is not exported

declare global {
  interface SymbolConstructor {
    readonly dispose: unique symbol;
  }
}

/** A number: its digits as a text, with `e` and an exponent or without, a number of JavaScript, or a bigint. */
export type Num = string | number | bigint;
export type UseGrouping = "auto" | "always" | "min2" | boolean;
export type SignDisplay = "keep" | "auto" | "never" | "always" | "exceptZero" | "negative";
export type RoundingMode =
  | "expand" | "trunc" | "ceil" | "floor" | "halfExpand" | "halfTrunc" | "halfCeil" | "halfFloor" | "halfEven";
export type RoundingIncrement = 1 | 2 | 5 | 10 | 20 | 25 | 50 | 100 | 200 | 250 | 500 | 1000 | 2000 | 2500 | 5000;
export type RoundingPriority = "auto" | "morePrecision" | "lessPrecision";
export type TrailingZeroDisplay = "auto" | "stripIfInteger";
export type Locales = string | Intl.Locale | readonly (string | Intl.Locale)[];

/** The options of a call, which take the place of all that its formatter has. */
export interface CallOptions {
  /** `auto` without it; `keep` writes a plus where the text of the number has one. */
  signDisplay?: SignDisplay;
  /**
   * The power of ten that is rounded to: 0 the ones, -2 the hundredths. All digits down to it are shown. A compact number is rounded to the last digit
   * that is shown, where that is the higher place.
   */
  position?: number;
  /** `halfExpand` without it. Of plain numbers and percents it needs `position` or `maximumFractionDigits`: without these no digit is rounded off. */
  roundingMode?: RoundingMode;
  /**
   * The number is rounded to a multiple of this at the last digit that is shown; 1 without it: 1.23 by 50 with two fraction digits is `1.00`. Plain
   * numbers and percents need as many fraction digits at least as at most, or `position`, and compact ones `position`.
   */
  roundingIncrement?: RoundingIncrement;
}

export interface DecimalCallOptions extends CallOptions {
  minimumIntegerDigits?: number;
  minimumFractionDigits?: number;
  /** Without it, and without `position`, all digits are shown. */
  maximumFractionDigits?: number;
  /** As many digits are shown at least, from the first one on that is not zero: 5 with 3 of them is `5.00`. 1 to 65535, and 1 without it. */
  minimumSignificantDigits?: number;
  /** The number is rounded to as many digits: 12345 with 3 of them is `12,300`. 1 to 65535; without it no digit is rounded off. */
  maximumSignificantDigits?: number;
  /**
   * Which counts, significant digits or fraction digits: `auto` without it, the significant digits where there are some. `morePrecision` and
   * `lessPrecision` take what shows more or fewer digits, and need both; an amount has the fraction digits of its currency without others.
   */
  roundingPriority?: RoundingPriority;
  /** `stripIfInteger` writes 5.00 as `5`, and 5.50 as `5.50`; `auto` without it. */
  trailingZeroDisplay?: TrailingZeroDisplay;
}

export interface CurrencyCallOptions extends DecimalCallOptions {
  /** Where neither `maximumFractionDigits` nor `position` says where to round: `standard` without it, to the digits of the currency; to those in cash; or not. */
  currencyDigits?: "standard" | "cash" | "given";
}

interface OpeningOptions {
  /** The tables; without it those of the world's book, or of `setWorld`. */
  book?: Book;
  /** The locale that is taken where there are tables for none of those that are asked for: `en`. Without it the last of these is refused. */
  fallback?: string | Intl.Locale;
}

export interface FormatterOptions extends OpeningOptions, CallOptions {
  /** `auto` without it, and `min2` of compact numbers; `always` and `true` write 1234 as `1.234` in Spanish too, where it is else `1234`. */
  useGrouping?: UseGrouping;
}

export interface DecimalFormatterOptions extends FormatterOptions, DecimalCallOptions {}

/**
 * With an option of digits a compact number has digits of its own: these are of the number before the word, as 1.23 of `1.23K`, and at most 100. Then
 * there is no `position`, no `keep`, and no option of a call.
 */
export interface CompactDecimalFormatterOptions extends FormatterOptions, DecimalCallOptions {
  /** `short` without it. */
  compactDisplay?: "short" | "long";
}

/** The options of digits and of the rounding are those of the significand, as of 1.23 in `1.23E4`. */
export interface ScientificFormatterOptions extends FormatterOptions, DecimalCallOptions {
  /** `scientific` without it: 12345 is `1.2345E4`. `engineering` has exponents that are multiples of three: `12.345E3`. */
  notation?: "scientific" | "engineering";
}

export type PercentFormatterOptions = DecimalFormatterOptions;

export interface CurrencyFormatterOptions extends FormatterOptions, CurrencyCallOptions {
  /** The code of a currency, three capitals: `EUR`. */
  currency: string;
  /** `standard` without it; `accounting` writes `($5.00)` in English. */
  currencySign?: "standard" | "accounting";
  /** `symbol` without it: the symbol, or the code where there is none. */
  currencyDisplay?: "symbol" | "code";
}

export interface NumberFormatterOptions extends OpeningOptions {
  /** What is written, and how, by ICU's words: `currency/EUR .00`, `compact-short`, `scientific .##`. docs/skeletons.md of the repository has them. */
  skeleton: string;
}

/** How many digits of the fraction amounts of a currency have: usually, and in cash, which is rounded to a multiple of the last one. */
export interface CurrencyDigits {
  currencyFractionDigits: number;
  cashFractionDigits: number;
  cashIncrement: number;
}

export type ResolvedOptions<Options> = Omit<Options, "book" | "fallback"> &
  (Options extends NumberFormatterOptions
    ? { locale: string } & Partial<CurrencyDigits>
    : { locale: string; useGrouping: UseGrouping; signDisplay: SignDisplay } & (Options extends CurrencyFormatterOptions ? CurrencyDigits : {}));

/** What a formatter writes numbers with; of amounts the symbols of their currency, where it has its own. */
export interface Symbols {
  decimal: string;
  group: string;
  /** What is before a number with a minus, and after it. */
  minus: [before: string, after: string];
  plus: [before: string, after: string];
  /** The ten digits, zero first. */
  digits: string[];
}

export interface Part {
  type:
    | "minusSign" | "plusSign" | "integer" | "group" | "decimal" | "fraction" | "currency" | "percentSign" | "literal"
    | "exponentSeparator" | "exponentMinusSign" | "exponentPlusSign" | "exponentInteger";
  value: string;
}

declare abstract class Open {
  readonly closed: boolean;
  /**
   * Refuses its calls from then on. A book or answers give their memory back, and do so too when the object is no longer used. Formatters that are
   * alike share theirs, and a thousand have some at once, however many there are.
   */
  close(): void;
  [Symbol.dispose](): void;
}

/** A book of tables, of its JSON: a text, or the bytes of one. Its text is kept with it. */
export class Book extends Open {
  constructor(json: string | Uint8Array);
  /** Keeps the book for the rest of the program: formatters that are opened from it afterwards borrow its tables. */
  keep(): this;
  /** The answer to a request line, a text or its bytes. */
  answer(line: string | Uint8Array): string;
  /** The tag of the locale whose symbols the book has for a tag: of the world's book `de` for `de-XX`, which falls back to it, and `de-AT` for `de-AT`. */
  foundLocale(tag: string | Intl.Locale): string;
  /** The tags of the locales that the book has symbols of, in its order. Others have the tables of their parents. */
  locales(): string[];
}

/**
 * The answers to many request lines, by the formatters that were used last: who has many lines of few tags does not open a formatter for each, as
 * `Book.answer` does.
 */
export class Answers extends Open {
  /** By a book that is kept; without it by that of the world, or of `setWorld`. `capacity` is how many formatters are kept, 512 without it. */
  constructor(book?: Book, capacity?: number);
  /** The answers to the lines, in order, as `Book.answer` has them, each with a line feed. A last line without one is answered too. */
  answer(lines: string): string;
  answer(lines: Uint8Array): Uint8Array;
}

declare abstract class Formatter<Options, Call> extends Open {
  /** The text of a number. It may be handed on without its formatter, as `numbers.map(german.format)`: the index of `map` says nothing. */
  readonly format: (number: Num, options?: Call | number) => string;
  /** The texts of many numbers, as `format` has each, and sooner: of doubles and integers in a typed array, or of what can be iterated over. */
  formatAll(numbers: Float64Array | BigInt64Array | Iterable<Num>, options?: Call): string[];
  /** The parts of a number's text. */
  formatToParts(number: Num, options?: Call): Part[];
  /** The value that the text of a number shows: `-1.2c6` is -1.2 times ten to the power 6, of a compact number, and `-1.2e6` of a scientific one; `1.50` of any other. */
  shown(number: Num, options?: Call): string;
  /** The text of a value as `shown` gives it, its digits as they are: `-1.20c6` is `-1.20M` in short English. No scientific number is written so. */
  formatExact(value: string, options?: Call): string;
  /** The digits of the one number that is written so: `-1,234.50` is `-1234.50` in English, and `1.20E6` is `1200000` by a formatter of scientific numbers. No compact number is read. */
  read(text: string): string;
  /** The digits of the number that was typed so: in English also `1234.5`, `.5` and ` 5`; `12.5`, `12.5 %` and `%12.5`; `5 €` and `EUR 5`. */
  readLenient(text: string): string;
  /** The separators, the signs and the digits: in German `,` and `.`. */
  symbols(): Symbols;
  /** The options, as they were given or as they are without; the locale that was found; and of amounts the digits of their currency. */
  resolvedOptions(): ResolvedOptions<Options>;
}

/** Writes numbers as a skeleton says, and reads them back. A skeleton that is none throws a SkeletonError. */
export class NumberFormatter extends Formatter<NumberFormatterOptions, CurrencyCallOptions> {
  constructor(locales: Locales | undefined, options: NumberFormatterOptions);
  /** Those of the locales that the book has tables for. */
  static supportedLocalesOf(locales: Locales, options: NumberFormatterOptions): string[];
}

/** Writes plain numbers for a locale, and reads them back. */
export class DecimalFormatter extends Formatter<DecimalFormatterOptions, DecimalCallOptions> {
  constructor(locales?: Locales, options?: DecimalFormatterOptions);
  /** Those of the locales that the book has tables for. */
  static supportedLocalesOf(locales: Locales, options?: DecimalFormatterOptions): string[];
}

/** Writes compact numbers for a locale. */
export class CompactDecimalFormatter extends Formatter<CompactDecimalFormatterOptions, CallOptions> {
  constructor(locales?: Locales, options?: CompactDecimalFormatterOptions);
  /** Those of the locales that the book has tables for. */
  static supportedLocalesOf(locales: Locales, options?: CompactDecimalFormatterOptions): string[];
}

/** Writes scientific numbers for a locale. */
export class ScientificFormatter extends Formatter<ScientificFormatterOptions, DecimalCallOptions> {
  constructor(locales?: Locales, options?: ScientificFormatterOptions);
  /** Those of the locales that the book has tables for. */
  static supportedLocalesOf(locales: Locales, options?: ScientificFormatterOptions): string[];
}

/** Writes percents for a locale, and reads them back. A percent is written as it is given: a ratio is multiplied by 100 first. */
export class PercentFormatter extends Formatter<PercentFormatterOptions, DecimalCallOptions> {
  constructor(locales?: Locales, options?: PercentFormatterOptions);
  /** Those of the locales that the book has tables for. */
  static supportedLocalesOf(locales: Locales, options?: PercentFormatterOptions): string[];
}

/** Writes amounts of money in a currency for a locale, and reads them back. */
export class CurrencyFormatter extends Formatter<CurrencyFormatterOptions, CurrencyCallOptions> {
  constructor(locales: Locales | undefined, options: CurrencyFormatterOptions);
  /** Those of the locales that the book has tables for. */
  static supportedLocalesOf(locales: Locales, options: CurrencyFormatterOptions): string[];
}

/** The options of `Intl.NumberFormat`, with the meaning and the defaults that they have there. What the library cannot write yet is refused by its name. */
export interface NumberFormatOptions {
  localeMatcher?: "lookup" | "best fit";
  /** The name of a system of digits, as `thai`; without it that of the tag, or the locale's own. */
  numberingSystem?: string;
  /** `percent` writes a ratio: 0.5 is `50%`. No unit is written yet. */
  style?: "decimal" | "percent" | "currency" | "unit";
  currency?: string;
  /** No narrow symbol and no name is written yet. */
  currencyDisplay?: "code" | "symbol" | "narrowSymbol" | "name";
  currencySign?: "standard" | "accounting";
  unit?: string;
  unitDisplay?: "short" | "narrow" | "long";
  /** All but `standard` are of the style `decimal`. */
  notation?: "standard" | "scientific" | "engineering" | "compact";
  compactDisplay?: "short" | "long";
  useGrouping?: UseGrouping | "true" | "false";
  signDisplay?: Exclude<SignDisplay, "keep">;
  minimumIntegerDigits?: number;
  minimumFractionDigits?: number;
  maximumFractionDigits?: number;
  minimumSignificantDigits?: number;
  maximumSignificantDigits?: number;
  roundingIncrement?: RoundingIncrement;
  roundingMode?: RoundingMode;
  roundingPriority?: RoundingPriority;
  trailingZeroDisplay?: TrailingZeroDisplay;
}

export interface ResolvedNumberFormatOptions {
  locale: string;
  numberingSystem: string;
  style: "decimal" | "percent" | "currency";
  currency?: string;
  currencyDisplay?: "code" | "symbol";
  currencySign?: "standard" | "accounting";
  minimumIntegerDigits: number;
  minimumFractionDigits?: number;
  maximumFractionDigits?: number;
  minimumSignificantDigits?: number;
  maximumSignificantDigits?: number;
  useGrouping: "auto" | "always" | "min2" | false;
  notation: "standard" | "scientific" | "engineering" | "compact";
  compactDisplay?: "short" | "long";
  signDisplay: Exclude<SignDisplay, "keep">;
  roundingIncrement: RoundingIncrement;
  roundingMode: RoundingMode;
  roundingPriority: RoundingPriority;
  trailingZeroDisplay: TrailingZeroDisplay;
}

export interface NumberFormatPart {
  type: Part["type"] | "compact" | "nan" | "infinity";
  value: string;
}

/** Writes numbers as `Intl.NumberFormat` does, NaN and infinity too. */
export interface NumberFormat {
  /** The text of a number. It may be handed on without its object: `numbers.map(german.format)`. */
  readonly format: (value: Num) => string;
  /** The parts of a number's text. */
  formatToParts(value: Num): NumberFormatPart[];
  /** Is refused yet, as is the next. */
  formatRange(start: Num, end: Num): string;
  formatRangeToParts(start: Num, end: Num): (NumberFormatPart & { source: "startRange" | "endRange" | "shared" })[];
  /** The options, as they were given or as they are without, with the locale and the numbering system that were found. */
  resolvedOptions(): ResolvedNumberFormatOptions;
}

export interface NumberFormatConstructor {
  /** Of a list of locales the first is taken that there are tables for, and without one that of the machine. */
  new (locales?: Locales, options?: NumberFormatOptions): NumberFormat;
  (locales?: Locales, options?: NumberFormatOptions): NumberFormat;
  readonly prototype: NumberFormat;
  /** Those of the locales that there are tables for. */
  supportedLocalesOf(locales: Locales, options?: Pick<NumberFormatOptions, "localeMatcher">): string[];
}

/** In place of `Intl.NumberFormat`, over the world's book or that of `setWorld`. */
export const NumberFormat: NumberFormatConstructor;

export type PluralCategory = "zero" | "one" | "two" | "few" | "many" | "other";

/** Which digits a number is shown with, as Intl has it: up to three of a fraction without these, and no zeros at its end. */
export interface PluralRulesOptions extends OpeningOptions, Omit<DecimalCallOptions, "signDisplay" | "position"> {
  /** `cardinal` without it: how many there are. `ordinal` is which one it is: `1st`, `2nd`. */
  type?: "cardinal" | "ordinal";
  /** `standard` without it. */
  notation?: "standard" | "scientific" | "engineering" | "compact";
  /** `short` without it, of compact numbers. */
  compactDisplay?: "short" | "long";
  /** Changes nothing. */
  localeMatcher?: "lookup" | "best fit";
}

export type ResolvedPluralRulesOptions = Omit<PluralRulesOptions, "book" | "fallback"> & {
  locale: string;
  type: "cardinal" | "ordinal";
  notation: "standard" | "scientific" | "engineering" | "compact";
  pluralCategories: PluralCategory[];
};

/** Says which plural form goes with a number, by its digits as they are shown: in English `one` of 1, and `other` of 1 with a digit of the fraction. */
export class PluralRules extends Open {
  constructor(locales?: Locales, options?: PluralRulesOptions);
  /** The category of a number; of a number of JavaScript that is not finite `other`. */
  select(number: Num): PluralCategory;
  /** The category of a range, by those of its two ends. */
  selectRange(start: Num, end: Num): PluralCategory;
  /** The options, as they were given or as they are without; the locale that was found; and the categories that its numbers may have. */
  resolvedOptions(): ResolvedPluralRulesOptions;
  /** Those of the locales that the book has rules for. */
  static supportedLocalesOf(locales: Locales, options?: PluralRulesOptions): string[];
}

/** The one text of all skeletons that ask for the same: of `K  sign-auto` it is `compact-short`. Throws a SkeletonError. */
export function normalSkeleton(skeleton: string): string;

/** The numbers of errors. */
export const ErrorNumber: Readonly<
  Record<
    | "MEMORY" | "CLOSED" | "OPTION" | "TAG" | "TABLE" | "NUMBER" | "LIMIT" | "RANGE" | "UTF8" | "UNREADABLE" | "NOT_WRITTEN" | "EXPONENT"
    | "BOOK_JSON" | "BOOK_SHAPE" | "BOOK_TAG" | "BOOK_SYSTEM" | "BOOK_TEXT" | "BOOK_DIGITS" | "BOOK_CONDITION" | "BOOK_TYPES"
    | "BOOK_EXPONENTS" | "BOOK_DUPLICATE" | "BOOK_CYCLE" | "CODE" | "UNKEPT" | "BOOK_UNIT" | "BOOK_CODE"
    | "SKELETON_UNKNOWN" | "SKELETON_TWICE" | "SKELETON_CODE" | "SKELETON_PAIR" | "SKELETON_SYSTEM" | "SKELETON_LATER" | "SKELETON_UNSUPPORTED",
    number
  >
>;

/** A call was refused: `number` says why, and `word` says it in English. */
export class LegumeyetError extends RangeError {
  constructor(number: number, hint?: string);
  readonly number: number;
  readonly word: string;
}

/** A text is no skeleton: why, and where the word begins that is wrong. */
export class SkeletonError extends LegumeyetError {
  constructor(number: number, skeleton: string, place: number);
  readonly fault: "unknown" | "twice" | "code" | "pair" | "system" | "later" | "unsupported";
  readonly place: number;
}

/** The library could not be loaded: which file, and why. */
export class LoadError extends Error {
  constructor(file: string, reason: LoadError["reason"], message: string, cause?: unknown);
  readonly file: string;
  readonly reason: "fetch" | "policy" | "module";
}

/** The version of the library, with its minor one: `2.0`. */
export function version(): string;
