// Tags of all forms, and what formatters of one write.

const LANGUAGES = ["en", "de", "EN", "ar-EG", "de-AT", "de-Latn-CH", "en-001", "und", "zz", "zxx", "e", "abcde", "root", "x", "i", ""];
const PIECES = [
  "u", "u", "u", "U", "t", "x", "a", "0", "nu", "nu", "nu", "NU", "ca", "rg", "sd", "ustx", "atzzzz", "latn", "latn", "arab", "arab", "ARAB", "true", "buddhist", "numbers", "nulatn",
  "1996", "1901", "fonipa", "FONIPA", "Latn", "AT", "419", "m0", "de", "ab", "abc", "toolongpiece", "", "ä", "a_b", "12",
];
const OTHERS = ["en-u-nu-true", "en-u-nu-true-latn", "en-u-nu-latn-arab", "en-u-abc-nu-arab-ca-buddhist", "de-x-u-nu-arab", "de-a-nu-arab-u-nu-latn", "ar-EG-t-en-u-nu-latn", "de-1996-1901-u-nu-arab", "de-fonipa-1996-AT", "en-u-nu", "en-u-nu-arab-nu-latn", "de_AT"];

/** Draws places in lists, by a seed. */
export function drawer(seed) {
  let state = [...seed].reduce((sum, it) => (Math.imul(sum, 31) + it.charCodeAt(0)) >>> 0, 7);
  return (list) => {
    state = (Math.imul(state, 1664525) + 1013904223) >>> 0;
    return list[Math.floor((state / 2 ** 32) * list.length)];
  };
}

/** Tags, and texts that are none, which are drawn by a seed. */
export function tagsBy(seed) {
  const drawn = drawer(seed);
  const tags = Array.from({ length: 6000 }, () => [drawn(LANGUAGES), ...Array.from({ length: drawn([0, 1, 2, 3, 3, 4, 5, 6]) }, () => drawn(PIECES))].join("-"));
  return [...OTHERS, ...tags];
}

function said(call) {
  try {
    return call();
  } catch (error) {
    return `${error.constructor.name} ${error.message}`;
  }
}

/** A line of JSON: what formatters of a tag write, or how they are refused. */
export function lineOf({ CurrencyFormatter, DecimalFormatter, NumberFormatter, PluralRules }, tag) {
  const number = said(() => new DecimalFormatter(tag).format("-1234.5"));
  const others = [() => new CurrencyFormatter(tag, { currency: "EURO" }), () => new NumberFormatter(tag, { skeleton: ".0" }).format(5), () => new NumberFormatter(tag, { skeleton: "foo" }), () => new PluralRules(tag).select(1)];
  return JSON.stringify([tag, number, ...others.map((it) => String(said(it))), said(() => DecimalFormatter.supportedLocalesOf(["en", tag]))]);
}
