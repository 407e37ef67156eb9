// PluralRules, which stands in for Intl.PluralRules: its options, defaults, calls and errors, over the rules of the library.
import { foundOf, supportedOf, tagsAsked } from "./intl-locales.js";
import { intlDigits } from "./intl-numbers.js";
import { hasUsualDigits, readPluralRules } from "./intl-options.js";
import { PluralRules as Rules, SAMPLES } from "./plurals.js";

const OTHER = "other"; // the category of NaN and of infinity, which no digits show

/**
 * Rules of what is asked for as of Intl.PluralRules, and what resolvedOptions tells. Where `isAlone`, the locale of the machine stands in for those that
 * there are no rules for.
 */
function openedOf(locales, options, isAlone) {
  const tags = tagsAsked(locales, isAlone).map((it) => new Intl.Locale(it).baseName); // no numbering system
  const { first, last } = readPluralRules(options);
  const { type, notation, compactDisplay } = first;
  const own = notation === "compact" && hasUsualDigits({ ...first, ...last }) ? { type, notation, compactDisplay, roundingMode: last.roundingMode } : { ...first, ...last };
  const { made: rules, tag, locale } = foundOf(tags, undefined, (it) => new Rules(it, own));
  return { rules, tag, locale, first, last };
}

// The category of a range that has no end: that of numbers of the categories of its ends.
function endlessRange({ rules, tag, first: { type } }, ends) {
  const plain = new Rules(tag, { type });
  const categories = ends.map((it) => (typeof it === "number" ? OTHER : rules.select(it)));
  return plain.selectRange(...categories.map((category) => SAMPLES.find((it) => plain.select(it) === category)));
}

/**
 * A class as Intl.PluralRules. What the library cannot do an `Engine` does, the class of that name of the JavaScript engine; where it is null that is
 * refused.
 */
export function pluralRulesOver(Engine) {
  class PluralRules {
    #opened;
    #other;

    constructor(locales = undefined, options = undefined) {
      try {
        this.#opened = openedOf(locales, options, Engine === null);
      } catch (error) {
        if (Engine === null) throw error;
        return Reflect.construct(Engine, [locales, options], new.target); // which throws where it cannot be either
      }
    }

    static #isOwn(it) {
      return Engine === null || #opened in it;
    }

    // What the library's rules say of numbers, or where they refuse one those of the engine.
    #said(name, numbers, say) {
      try {
        return say();
      } catch (error) {
        if (Engine === null) throw error;
        const { locale, first, last } = this.#opened;
        this.#other ??= new Engine(locale, { ...first, ...last });
        return this.#other[name](...numbers.map(Number));
      }
    }

    /** The category of a number. */
    select(value) {
      if (!PluralRules.#isOwn(this)) return Reflect.apply(Engine.prototype.select, this, [value]);
      const { rules } = this.#opened; // before the value is looked at
      const digits = intlDigits(value);
      return typeof digits === "number" ? OTHER : this.#said("select", [digits], () => rules.select(digits));
    }

    /** The category of a range. */
    selectRange(start, end) {
      if (!PluralRules.#isOwn(this)) return Reflect.apply(Engine.prototype.selectRange, this, [start, end]);
      const opened = this.#opened;
      if (start === undefined || end === undefined) throw new TypeError("a range has two ends");
      const ends = [start, end].map(intlDigits);
      if (ends.some(Number.isNaN)) throw new RangeError("a range has no end that is no number");
      const isEndless = ends.some((it) => typeof it === "number");
      return this.#said("selectRange", ends, () => (isEndless ? endlessRange(opened, ends) : opened.rules.selectRange(...ends)));
    }

    /** The options, as they were given or as they are without, with the locale that was found and the categories that its numbers may have. */
    resolvedOptions() {
      if (!PluralRules.#isOwn(this)) return Reflect.apply(Engine.prototype.resolvedOptions, this, []);
      const { rules, locale, first, last } = this.#opened;
      return { locale, ...first, pluralCategories: rules.resolvedOptions().pluralCategories, ...last };
    }

    /** Those of the locales that there are rules for. */
    static supportedLocalesOf(locales, options = undefined) {
      return supportedOf(locales, options, Engine, (it) => new Rules(it));
    }
  }
  Object.defineProperty(PluralRules.prototype, Symbol.toStringTag, { value: "Intl.PluralRules", configurable: true });
  return PluralRules;
}

/** Says which plural form goes with a number, as Intl.PluralRules does, with its options and its defaults. */
export const PluralRules = /* @__PURE__ */ pluralRulesOver(null);
