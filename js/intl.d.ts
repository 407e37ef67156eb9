// NumberFormat and PluralRules in Intl's place.
import type { Locales, Num, NumberFormatOptions, PluralCategory, ResolvedNumberFormatOptions } from "./classes.js";

export { NumberFormat, NumberFormatConstructor, NumberFormatOptions, NumberFormatPart, PluralCategory, ResolvedNumberFormatOptions } from "./classes.js";

/** The options of `Intl.PluralRules`, with the meaning and the defaults that they have there. */
export interface PluralRulesOptions
  extends Pick<
    NumberFormatOptions,
    | "localeMatcher" | "notation" | "compactDisplay" | "minimumIntegerDigits" | "minimumFractionDigits" | "maximumFractionDigits" | "minimumSignificantDigits"
    | "maximumSignificantDigits" | "roundingIncrement" | "roundingMode" | "roundingPriority" | "trailingZeroDisplay"
  > {
  /** `cardinal` without it: how many there are. `ordinal` is which one it is: `1st`, `2nd`. */
  type?: "cardinal" | "ordinal";
}

export interface ResolvedPluralRulesOptions
  extends Pick<
    ResolvedNumberFormatOptions,
    | "locale" | "notation" | "compactDisplay" | "minimumIntegerDigits" | "minimumFractionDigits" | "maximumFractionDigits" | "minimumSignificantDigits"
    | "maximumSignificantDigits" | "roundingIncrement" | "roundingMode" | "roundingPriority" | "trailingZeroDisplay"
  > {
  type: "cardinal" | "ordinal";
  pluralCategories: PluralCategory[];
}

/** Says which plural form goes with a number, as `Intl.PluralRules` does, over the world's book or that of `setWorld`. */
export class PluralRules {
  /** Of a list of locales the first is taken that there are rules for, and without one that of the machine. */
  constructor(locales?: Locales, options?: PluralRulesOptions);
  /** The category of a number; of NaN and infinity `other`. */
  select(value: Num): PluralCategory;
  /** The category of a range, by those of its two ends. */
  selectRange(start: Num, end: Num): PluralCategory;
  /** The options, as they were given or as they are without, with the locale that was found and the categories that its numbers may have. */
  resolvedOptions(): ResolvedPluralRulesOptions;
  /** Those of the locales that there are rules for. */
  static supportedLocalesOf(locales: Locales, options?: Pick<PluralRulesOptions, "localeMatcher">): string[];
}
