// The tags of locales that a caller asks for.
const { NumberFormat: Engine } = Intl; // that of the engine, also where `legumeyet/polyfill` has another in its place
const RIGHT_TO_LEFT = new Set(["Adlm", "Arab", "Hebr", "Mand", "Nkoo", "Rohg", "Samr", "Syrc", "Thaa", "Yezi"]);

function isLocale(it) {
  return typeof it === "string" || it instanceof Intl.Locale;
}

/**
 * The tags of a list, or of one locale.
 * @returns {string[]}
 */
export function listed(locales) {
  const asked = isLocale(locales) ? [locales] : typeof locales?.[Symbol.iterator] === "function" ? [...locales] : [null];
  if (!asked.every(isLocale)) throw new TypeError("a locale is a string or an Intl.Locale");
  return asked.map(String);
}

/**
 * The tags that are asked for in their usual spelling, each once, as every class of Intl has them.
 * @returns {string[]}
 */
export function canonicalTags(locales) {
  const { getCanonicalLocales } = /** @type {any} */ (Intl); // which older types have not
  return getCanonicalLocales(locales);
}

/** Whether a tag names no language. */
export function isUndetermined(tag) {
  return /^und(?:-|$)/.test(tag);
}

let machine;

/** The tag of the machine's locale, which a formatter of the engine is made for once. */
export function machineTag() {
  machine ??= new Engine().resolvedOptions().locale;
  return machine;
}

/**
 * The tags that are asked for, in order: those of the caller, or that of the machine where there are none; then the one to fall back to.
 * @returns {string[]}
 */
export function tagsOf(locales, fallback) {
  const asked = locales === undefined ? [] : listed(locales);
  if (asked.length === 0) asked.push(machineTag());
  if (fallback === undefined) return asked;
  if (!isLocale(fallback)) throw new TypeError("fallback is a string or an Intl.Locale");
  return [...asked, String(fallback)];
}

/** Whether a text has the form of a tag. */
export function isTag(text) {
  try {
    return new Intl.Locale(text) !== null;
  } catch {
    return false;
  }
}

// A tag of the language part with one variant at most, and with the keyword `nu` at most.
const SHORT_TAG = /^[a-z]{2,3}(?:-[a-z]{4})?(?:-(?:[a-z]{2}|\d{3}))?(?:-(?:[a-z\d]{5,8}|\d[a-z\d]{3}))?(?:-u-nu-(?!true$)[a-z\d]{3,8})?$/i;
// The language, script and region of a tag, and its variants.
const LANGUAGE_PART = /^([a-z]{2,3}(?:-[a-z]{4})?(?:-(?:[a-z]{2}|\d{3}))?)((?:-(?:[a-z\d]{5,8}|\d[a-z\d]{3}))*)(?![a-z\d])/;
// What the engine takes for a tag and the library does not: a language of five letters or more behind `t`, and a key of `u` that ends in a digit.
const LOOSE = /-t-[a-z]{5}|-u-(?:[a-z\d]{2,8}-)*[a-z\d]\d(?:-|$)/;
const OF_UNICODE = /-u(-.*?)(?=-[a-z\d]-|$)/;
const SYSTEM = /-nu(?![a-z\d])((?:-[a-z\d]{3,8})*)/;

/**
 * What a tag says by which tables are found, in a tag of one variant and one keyword at most: its language, script and region, the first of its variants,
 * and its numbering system. A module of pages reads no others. `null` where the text is no tag.
 */
export function shortTag(tag) {
  if (SHORT_TAG.test(tag)) return tag;
  if (!isTag(tag)) return null;
  const text = tag.toLowerCase().replace(/-x-.*/, "");
  const [, language, variants] = LANGUAGE_PART.exec(text) ?? [];
  if (language === undefined || LOOSE.test(text)) return null;
  const [variant] = variants.split("-").slice(1).sort();
  const [, keywords = ""] = OF_UNICODE.exec(text) ?? [];
  const [, value = ""] = SYSTEM.exec(keywords) ?? [];
  const [system, ...others] = value.split("-").filter((it) => it !== "" && it !== "true");
  return `${language}${variant === undefined ? "" : `-${variant}`}${system === undefined || others.length > 0 ? "" : `-u-nu-${system}`}`;
}

/**
 * The locales whose tables stand in for those of a locale that has none, itself first. Where they come back it ends.
 * @param {string} locale
 * @param {{ get: (locale: string) => string | undefined }} parents
 */
export function chainOf(locale, parents) {
  const chain = [];
  for (let it = locale; it !== "" && !chain.includes(it); ) {
    chain.push(it);
    it = parents.get(it) ?? it.slice(0, Math.max(0, it.lastIndexOf("-")));
  }
  return chain;
}

/** The direction in which a locale is written: `rtl` or `ltr`. */
export function directionOf(locale) {
  return RIGHT_TO_LEFT.has(new Intl.Locale(locale).maximize().script) ? "rtl" : "ltr";
}
