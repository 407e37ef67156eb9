// The small book of a tag: the entries of the world's book that formatters of the tag can ask for, as docs/books.md of the repository has them. It is read
// in place of the whole, so that a first text does not wait for all entries. What is written and read is the same.
import { isRead, setWorld, unread, useUnread } from "./books.js";
import { chainOf, shortTag } from "./tags.js";

// What is before each array of a book with an entry a line, and after the last.
const BRACKETS = ["[[[", ",[", ",[", ",[", ",[", ",[", "],[[", ",[", ",[", ",[", ",[", "],[[", ",[", ",[", "]]"];
const AT = { symbols: 0, digits: 1, parents: 5, currencyDigits: 10 };
// The arrays that formatters of a kind ask for: of plain numbers symbols, digits and parents, of compact ones all but units, plurals and signs, and of
// others what they have besides. What is of no kind may ask for all.
const OF_PLAIN = [0, 1, 5];
const OF_ALL = [0, 1, 2, 3, 4, 5, 6, 7, 8, 9, 10, 11, 12, 13];
const NEEDS = { decimal: OF_PLAIN, compact: [0, 1, 2, 3, 4, 5], scientific: [...OF_PLAIN, 13], percent: [...OF_PLAIN, 6], currency: [...OF_PLAIN, 7, 8, 9, 10] };
const UNDETERMINED = "und"; // where units, plurals and signs are looked for last
const ANY_SYSTEM = "latn"; // by whose symbols lenient readers read too
// So many arrays are read at most, those of sixteen books for all kinds, which take less time together than the whole. After them that is read.
const MOST_ARRAYS = 16 * OF_ALL.length;

/** The arrays of a book, each a text of lines; null where it has not an entry a line, as the world's has. */
function arraysOf(json) {
  try {
    const arrays = new TextDecoder("utf-8", { fatal: true, ignoreBOM: true }).decode(json).split("\n]");
    return arrays.length === BRACKETS.length && arrays.every((it, at) => it.startsWith(`${BRACKETS[at]}\n`)) ? arrays : null;
  } catch {
    return null; // what is wrong is said where the whole is read
  }
}

// The entries of an array, which have this text first.
function entriesOf(array, first) {
  const found = [];
  const front = `\n["${first}",`;
  for (let at = array.indexOf(front), end = 0; at >= 0; at = array.indexOf(front, end)) {
    end = array.indexOf("\n", at + 1);
    if (end < 0) end = array.length;
    found.push(array.slice(at + 1, array[end - 1] === "," ? end - 1 : end));
  }
  return found;
}

// The parents of locales, as a map has them.
const parentsOf = (array) => ({ get: (locale) => entriesOf(array, locale).map((it) => JSON.parse(it)[1])[0] });

/** The JSON of the small book of a locale and, where one is asked for, of a numbering system. It has no other arrays than are needed. */
function smallBook(arrays, { locale, system }, needs) {
  const parents = parentsOf(arrays[AT.parents]);
  const chain = chainOf(locale, parents);
  const locales = chain.includes(UNDETERMINED) ? chain : [...chain, UNDETERMINED];
  const kept = arrays.map((array, at) => (needs.includes(at) ? locales.flatMap((it) => entriesOf(array, it)) : []));
  const systems = new Set([ANY_SYSTEM, system, ...kept[AT.symbols].map((it) => JSON.parse(it)[2])]);
  kept[AT.digits] = [...systems].flatMap((it) => entriesOf(arrays[AT.digits], it));
  // from the end of the chain on, so that none closes a cycle
  kept[AT.parents] = chain.flatMap((it) => entriesOf(arrays[AT.parents], it)).reverse();
  if (needs.includes(AT.currencyDigits)) kept[AT.currencyDigits] = [arrays[AT.currencyDigits].slice(BRACKETS[AT.currencyDigits].length)];
  if (needs.every((it) => it <= AT.parents)) return `[${kept.slice(0, AT.parents + 1).map((it) => `[${it}]`)}]`;
  return kept.map((entries, at) => BRACKETS[at] + entries).join("]");
}

// A part of a locale, in lower case, as it is usually written.
function spelled(part) {
  if (part.length === 4) return part[0].toUpperCase() + part.slice(1);
  return part.length < 4 ? part.toUpperCase() : part;
}

// The locale that a tag is of, in its usual spelling, and the numbering system that it asks for; null where the text is no tag.
function askedBy(tag) {
  const short = shortTag(tag);
  if (short === null) return null;
  const [front, system] = short.toLowerCase().split("-u-nu-");
  const [language, ...others] = front.split("-");
  return { locale: [language, ...others.map(spelled)].join("-"), system };
}

// What finds the small book of a tag for a kind of numbers: one that was read for it, or for a kind that needs more.
function finderOf(source, arrays, most) {
  const small = new Map();
  let left = most;
  return (tag, kind) => {
    const asked = askedBy(tag);
    if (asked === null) return null;
    const [key, needs] = [`${asked.locale} ${asked.system}`, NEEDS[kind] ?? OF_ALL];
    const found = small.get(key);
    if (found !== undefined && needs.every((it) => found.needs.includes(it))) return found.book;
    if (left < needs.length || isRead(source)) return null;
    const book = unread(smallBook(arrays, asked, needs));
    small.set(key, { needs, book });
    left -= needs.length;
    return book;
  };
}

/**
 * Makes a book that of formatters for which none is named. Where it has an entry a line, as the world's has, only what a tag can ask for is read of it,
 * until there are `most` arrays of small books, or what asks for the whole.
 * @param {Uint8Array} json
 */
export function setLargeWorld(json, most = MOST_ARRAYS) {
  const arrays = arraysOf(json);
  if (arrays === null) {
    setWorld(json);
    return;
  }
  const source = unread(json);
  source.smallFor = finderOf(source, arrays, most);
  useUnread(source);
}
