// The locales of a class of Intl: the first of those that are asked for that there are tables for, and those of a list that are supported.
import { isWithoutTables } from "./formatters.js";
import { readMatcher } from "./intl-options.js";
import { canonicalTags, isUndetermined, machineTag } from "./tags.js";

// The numbering systems of ten digits, each with the number of its zero in Unicode.
const ZERO_DIGITS =
  "adlm:1e950 ahom:11730 arab:660 arabext:6f0 bali:1b50 beng:9e6 bhks:11c50 brah:11066 cakm:11136 cham:aa50 deva:966 diak:11950 fullwide:ff10 gara:10d40 " +
  "gong:11da0 gonm:11d50 gujr:ae6 gukh:16130 guru:a66 hanidec:3007 hmng:16b50 hmnp:1e140 java:a9d0 kali:a900 kawi:11f50 khmr:17e0 knda:ce6 krai:16d70 " +
  "lana:1a80 lanatham:1a90 laoo:ed0 latn:30 lepc:1c40 limb:1946 mathbold:1d7ce mathdbl:1d7d8 mathmono:1d7f6 mathsanb:1d7ec mathsans:1d7e2 mlym:d66 " +
  "modi:11650 mong:1810 mroo:16a60 mtei:abf0 mymr:1040 mymrepka:116da mymrpao:116d0 mymrshan:1090 mymrtlng:a9f0 nagm:1e4f0 newa:11450 nkoo:7c0 olck:1c50 " +
  "onao:1e5f1 orya:b66 osma:104a0 outlined:1ccf0 rohg:10d30 saur:a8d0 segment:1fbf0 shrd:111d0 sind:112f0 sinh:de6 sora:110f0 sund:1bb0 sunu:11bf0 " +
  "takr:116c0 talu:19d0 tamldec:be6 telu:c66 thai:e50 tibt:f20 tirh:114d0 tnsa:16ac0 tols:11de0 vaii:a620 wara:118e0 wcho:1e2f0";
const SYSTEMS = new Map(Array.from(ZERO_DIGITS.matchAll(/(\w+):(\w+)/g), ([, name, zero]) => [name, String.fromCodePoint(parseInt(zero, 16))]));

/** A tag without what says how it is written, as the library has it: engines have a keyword in place of the variant of `en-US-posix`. */
export function baseNameOf(tag) {
  return new Intl.Locale(tag).baseName.replace("-u-va-", "-");
}

/** The name of a numbering system by its zero. */
export function systemOf(zero) {
  for (const [name, its] of SYSTEMS) if (its === zero) return name;
  return "latn";
}

/**
 * The tags that a class looks for tables of: those that are asked for and, where it `isAlone` or there are none, that of the machine behind them. A class that
 * has another one beside it, which finds the locale by itself, looks for the first only.
 */
export function tagsAsked(locales, isAlone) {
  const requested = canonicalTags(locales);
  return isAlone || requested.length === 0 ? [...requested, machineTag()] : requested.slice(0, 1);
}

// What is made of a tag; null where there are no tables for it.
function madeOf(make, tag) {
  try {
    return make(tag);
  } catch (error) {
    if (isWithoutTables(error)) return null;
    throw error;
  }
}

/**
 * What is made of the first of these tags that there are tables for, by which tag, and the locale that resolvedOptions tells. A numbering system that is asked
 * for, by an option or else by the tag, is taken where there are digits of it.
 */
export function foundOf(tags, asked, make) {
  for (const tag of tags) {
    const { baseName, numberingSystem: named } = new Intl.Locale(tag);
    if (isUndetermined(baseName)) continue; // whose tables are there, and are those of no locale
    for (const system of [...[asked, named].filter((it) => SYSTEMS.has(it)), undefined]) {
      const own = `${baseNameOf(tag)}${system === undefined ? "" : `-u-nu-${system}`}`;
      const made = madeOf(make, own);
      if (made !== null) return { made, tag: own, locale: String(new Intl.Locale(baseName, system === named ? { numberingSystem: named } : {})) };
    }
  }
  throw new RangeError(`there are no tables for ${tags.join(", ")}`);
}

function isMade(tag, make) {
  const name = baseNameOf(tag);
  return !isUndetermined(name) && madeOf(make, name) !== null;
}

/** Those of a list of locales that something is made of, or that an `Engine` supports, the class of the JavaScript engine, where there is one. */
export function supportedOf(locales, options, Engine, make) {
  const requested = canonicalTags(locales);
  readMatcher(options);
  return requested.filter((it) => isMade(it, make) || (Engine !== null && Engine.supportedLocalesOf(it).length > 0));
}
