// A book of fewer locales, made of a larger one.
import { chainOf } from "./tags.js";

const UNDETERMINED = "und";
const ANY_SYSTEM = "latn"; // whose digits every book has

// The tag of a locale without what says how it is written, as books have it.
function localeOf(tag) {
  return new Intl.Locale(tag).baseName;
}

// Of the locales of a book those of the tags, and those below them by their chain or by their name; and those that stand in for one of these.
function keptOf(locales, tags, parents) {
  const wanted = new Set(tags.map(localeOf));
  const isBelow = (locale) => chainOf(locale, parents).some((it) => wanted.has(it)) || [...wanted].some((it) => locale.startsWith(`${it}-`));
  const below = [...wanted, ...locales.filter(isBelow)];
  return new Set([UNDETERMINED, ...below.flatMap((it) => chainOf(it, parents))]);
}

function withoutTables(tags, symbols, parents) {
  const locales = new Set(symbols.map(([locale]) => locale));
  return tags.find((tag) => !chainOf(localeOf(tag), parents).some((it) => locales.has(it)));
}

/**
 * The JSON of a book that has only the locales of these tags, with those below them, as `de-AT` is below `de`. Every such tag is answered as by the
 * book that it is made of, or is refused where it asks for digits of another system than its locale uses.
 * @param {string} json the book, as `world.json`
 * @param {string[]} tags
 * @returns {string}
 */
export function smallerBook(json, tags) {
  const book = JSON.parse(json);
  const [tables, units, more] = book.length === 2 || book.length === 3 ? book : [book];
  const [symbols, digits, ...others] = tables;
  const parents = new Map(others[3]);
  const wrong = withoutTables(tags, symbols, parents);
  if (wrong !== undefined) throw new RangeError(`the book has no tables for ${wrong}`);
  const locales = [symbols, ...others, ...(units ?? []).slice(0, 4), ...(more ?? [])].flatMap((array) => array.map(([locale]) => locale));
  const isKept = keptOf([...new Set(locales)], tags, parents);
  const kept = (array) => array.filter(([locale]) => isKept.has(locale));
  const systems = new Set([ANY_SYSTEM, ...kept(symbols).map(([, , system]) => system)]);
  const fewer = [kept(symbols), digits.filter(([system]) => systems.has(system)), ...others.map(kept)];
  const parts = [fewer, units && [...units.slice(0, 4).map(kept), units[4]], more?.map(kept)].filter((it) => it !== undefined);
  return JSON.stringify(parts.length === 1 ? fewer : parts);
}
