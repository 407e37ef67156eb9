// Why what the library's classes of Intl write, tell or refuse is not as in Node 20; null where no cause is known.
import { createRequire } from "node:module";
import { CompactDecimalFormatter, NumberFormat } from "legumeyet";
import locales from "legumeyet/locales";

const { NumberFormat: Engine } = Intl;
const joined = (parts) => parts.map(({ value }) => value).join("");

// The world's book: symbols, and patterns of amounts, usual ones and those of accounting, by their locales; symbols of currencies; and the parents of locales.
const [[symbols, , , , , parents], [, usual, accounts, signs]] = createRequire(import.meta.url)("legumeyet/world.json");
const parentOf = new Map(parents);

// The locales whose data stands in for that of a locale: itself first, and root last.
function chainOf(locale) {
  const chain = [locale];
  for (let it = locale; it.includes("-") || parentOf.has(it); chain.push(it)) it = parentOf.get(it) ?? it.slice(0, it.lastIndexOf("-"));
  return chain.includes("und") ? chain : [...chain, "und"];
}

// The first entry of a locale of a chain that has one of these keys, each asked for along the whole chain before the next.
function entryOf(chain, ...questions) {
  for (const [table, key] of questions) for (const locale of chain) for (const entry of table) if (entry[0] === locale && entry[1] === key) return entry;
  return null;
}

const DIGIT = /[\p{Nd}〇一二三四五六七八九]/gu;
// The digits of a number's text, without those of the text before its exponent.
const digitsOf = (it, number) => (joined(it.formatToParts(number).filter(({ type }) => type !== "exponentSeparator")).match(DIGIT) ?? []).join("");
const isCode = (key) => /^[A-Z]{3}$/.test(key);

/** Of the text of a number and its parts, as books/README.md has it. */
export function causeOf(tag, asked, options, number, ours, theirs) {
  const { numberingSystem: system, notation, style, currencySign, signDisplay } = ours.resolvedOptions();
  if (typeof number === "number" && number !== 0 && Number.isFinite(number) && theirs.format(number) !== theirs.format(String(number))) return "a double that Node rounds otherwise than its digits";
  if (system !== theirs.resolvedOptions().numberingSystem) return causeOfOption("numberingSystem", asked, options);
  if (currencySign === "accounting" && signDisplay === "never") return causeOfOption("currencySign", asked, options);
  const chain = chainOf(new Intl.Locale(tag).baseName.replace("-u-va-", "-"));
  if (chain[0] === "en-US-posix" && options.useGrouping) return "groups where the patterns have none: there of three digits where they are always asked for";
  if (!chain.includes(new Intl.Locale(tag).language)) return "a script that is below root by the data: there below its language";
  const hasSameDigits = digitsOf(ours, number) === digitsOf(theirs, number);
  const isNamed = entryOf(chain, [symbols, system]) !== null || entryOf(chain, [symbols, ""])[2] === system;
  if (hasSameDigits && !isNamed) return "a numbering system that the data of the locale does not name";
  if (typeof number !== "bigint" && !Number.isFinite(Number(number))) return causeOfSpecial(tag, chain, ours, style);
  if (notation === "compact") return causeOfCompact(tag, number, ours);
  if (notation !== "standard") return causeOfScientific(tag, options, number, ours);
  return style === "currency" && hasSameDigits ? causeOfAmount(chain, ours.resolvedOptions()) : null;
}

function causeOfSpecial(tag, chain, ours, style) {
  const { language, script } = new Intl.Locale(tag).maximize();
  if (new Intl.Locale(language).maximize().script !== script && !locales.some((it) => it.startsWith(`${language}-${script}`))) return "the symbols of a language in a script that it has no tables of";
  if (chain.includes("dz")) return "an infinity of letters: there an integer";
  return style === "currency" ? causeOfAmount(chain, ours.resolvedOptions()) : null;
}

function causeOfAmount(chain, { currency, currencyDisplay, currencySign, numberingSystem: system }) {
  if (usual.some(([locale, key]) => isCode(key) && key !== currency && chain.includes(locale))) return "the pattern of the region's own currency: there for all others too";
  if (entryOf(chain, [usual, currency]) !== null) return "the separators of the locale that gives a currency its pattern: there for the locales below it too";
  const own = entryOf(chain, [usual, ""])[2];
  if (own !== null && own[0] !== system) return "the separators of amounts of the locale's own digits: there for all digits";
  const unit = currencyDisplay === "code" ? currency : entryOf(chain, [signs, currency])?.[2] ?? currency;
  const asked = currencySign === "accounting" ? [[accounts, system], [accounts, ""]] : [];
  const [, , , , beside] = entryOf(chain, ...asked, [usual, system], [usual, ""]);
  if (beside !== null && /\p{L}/u.test(unit)) return "CLDR's pattern beside a letter: there the usual one with a space";
  return system === "hanidec" ? "a code beside digits that are letters: there without a space" : null;
}

const OF_COMPACT = {
  vec: "a type with two exponents, which a book can't hold", sw: "a negative form of a compact pattern, which a book can't hold", yrl: "a hyphen in a compact pattern: there the system's minus sign",
  ps: "a long pattern that is not there: there the short ones only where no long one is", pt: "plural rules by parents: there by cutting the tag",
};
for (const it of ["ast", "wo"]) OF_COMPACT[it] = OF_COMPACT.ps;

// The digits of compact numbers where no option says them.
const USUAL = { minimumIntegerDigits: 1, minimumFractionDigits: 0, maximumFractionDigits: 0, minimumSignificantDigits: 1, maximumSignificantDigits: 2, roundingPriority: "morePrecision" };

function causeOfCompact(tag, number, ours) {
  const resolved = ours.resolvedOptions();
  const isUsual = Object.entries(USUAL).every(([name, value]) => resolved[name] === value);
  const own = Object.entries(resolved).filter(([name]) => name === "compactDisplay" || (isUsual ? name === "roundingMode" : /Digits$|^rounding/.test(name)));
  const isGiven = typeof number === "bigint" || (typeof number === "string" && /^-?\d+\.\d+$/.test(number)); // more digits than a double has
  const digits = isGiven ? String(number) : String(Number(number)).replace("e+", "e");
  const [significand, exponent = "0"] = new CompactDecimalFormatter(tag, Object.fromEntries(own)).shown(digits).split("c");
  const magnitude = (it) => Number(Number(it).toExponential().split("e")[1]);
  const isCarried = magnitude(significand) + Number(exponent) > magnitude(digits);
  if (isCarried && isUsual) return "a carry to the next magnitude: there the pattern of the value that is shown";
  if (isCarried && resolved.roundingIncrement > 1) return "multiples that reach above the next pattern: there the pattern of a larger number";
  if (significand.split(".")[1]?.length > 18) return "a plural by more than 18 digits of the fraction: there by others of them";
  if (significand === "-1") return "slot 1 for minus one: not there";
  return OF_COMPACT[new Intl.Locale(tag).language] ?? null;
}

const partOf = (it, number, name) => it.formatToParts(number).filter(({ type }) => type === name).map(({ value }) => value).join("");

function causeOfScientific(tag, options, number, ours) {
  const { notation, roundingIncrement, signDisplay } = ours.resolvedOptions();
  const [whole, exponent] = ["integer", "exponentInteger"].map((it) => [...partOf(ours, number, it)]);
  if (exponent.length > 1 && exponent[0].length > 1) return "digits beyond the first 65,536 characters in an exponent: there cut";
  if (roundingIncrement === 1) return null;
  if (whole.length > (notation === "scientific" ? 1 : 3)) return "multiples that reach above the next power: there one power at most is taken";
  if (signDisplay !== "never") return null;
  const signed = { ...options, signDisplay: "auto" };
  const [it, other] = [NumberFormat, Engine].map((Type) => new Type(tag, signed));
  if (it.format(number) !== other.format(number)) return causeOfScientific(tag, signed, number, it);
  return "a sign that is left out, and multiples that are carried and rounded once more: there with the sign";
}

/** Of an option that is resolved otherwise, of the locales that were asked for. */
export function causeOfOption(name, asked, { trailingZeroDisplay, signDisplay, style, numberingSystem }) {
  if (name === "roundingPriority" && trailingZeroDisplay === "stripIfInteger") return "V8 forgets roundingPriority beside stripIfInteger";
  if (name === "currencySign" && signDisplay === "never" && style === "currency") return "V8 forgets currencySign beside signDisplay never";
  const isForgotten = (name === "locale" || name === "numberingSystem") && /-u-(?:.*-)?nu-/.test(asked) && numberingSystem !== undefined;
  return isForgotten ? "V8 forgets the numbering system of a tag beside an option that there is no system of" : null;
}

// What PluralRules of Node 20 do not read yet.
const UNREAD = ["notation", "compactDisplay", "roundingIncrement", "roundingMode", "trailingZeroDisplay"];
const DIGITS = [
  "minimumIntegerDigits", "minimumFractionDigits", "maximumFractionDigits", "minimumSignificantDigits", "maximumSignificantDigits", "roundingIncrement", "roundingMode", "roundingPriority", "trailingZeroDisplay",
];
const SAMPLES = [...Array(101).keys(), 1000000, 0.1, 1.5];
const isNewer = (count) => typeof count !== "bigint" && typeof count !== "symbol" && typeof count !== "object" && Number(count) > 20 && Number(count) <= 100;
const given = (options) => (typeof options === "object" && options !== null ? options : {});

/** Of a constructor that refuses options as that of Node, `Type`, does not. `name` is the option that was made wrong. */
export function causeOfRefusal(Type, here, there, options, name) {
  if (there === undefined && here.constructor === RangeError && / cannot write this yet$/.test(here.message)) return here.message.split(":")[0];
  const { minimumFractionDigits: least, maximumFractionDigits: most, roundingIncrement } = given(options);
  if (here === undefined && [least, most].some(isNewer)) return "more than 20 digits of a fraction: Node 20 refuses them";
  const isUnread = Type === Intl.PluralRules && (UNREAD.includes(name) || roundingIncrement !== undefined);
  if (isUnread) return "an option that Node 20 does not read in PluralRules";
  return here !== undefined && there !== undefined ? "two faults, of which Node finds another first" : null;
}

// A number of as few digits as rules tell it by. The library looks at the last 18 before the point and the first 18 behind it; and rules at the last seven
// before it, or three of a number with a fraction, and at the last of that, before its zeros and with them.
function seenOf(shown) {
  const [whole, fraction = ""] = shown.replace("-", "").split(".");
  const seen = whole.slice(-18).replace(/^0+(?=\d)/, "").replace(fraction === "" ? /^\d+(?=\d{7})/ : /^\d+(?=\d{3})/, "1");
  const [, digits, zeros] = /^(\d*?)(0*)$/.exec(fraction.slice(0, 18));
  return { digits: [seen, digits.slice(-4) + zeros.slice(0, 3)].filter((it) => it !== "").join("."), isCut: whole.length > 18 || fraction.length > 18 };
}

// The category that Node has of a number that is shown so: of as many digits of the fraction as that has.
function categoryOfShown(locale, type, digits) {
  const count = (digits.split(".")[1] ?? "").length;
  return new Intl.PluralRules(locale, { type, minimumFractionDigits: count, maximumFractionDigits: count }).select(Number(digits));
}

const isBig = (it) => typeof it === "bigint" || typeof it?.valueOf?.() === "bigint";

// Why options or a value count for less in Node: its PluralRules do not read them, or take doubles only.
function causeOfGiven({ notation, roundingIncrement, roundingMode, trailingZeroDisplay }, values) {
  if (values.some(isBig)) return "a bigint: Node 20 takes none in PluralRules";
  if (notation !== "standard" || roundingIncrement !== 1 || roundingMode !== "halfExpand" || trailingZeroDisplay !== "auto") return "an option that Node 20 does not read in PluralRules";
  return values.some((it) => typeof it === "string") ? "a text of more digits than a double has" : null;
}

// The locales whose rules are those of a parent by the data, or of root, and in Node those of the language.
const isByParents = (locale) => /^pt-(?!BR$|PT$)/.test(locale) || !chainOf(locale).includes(new Intl.Locale(locale).language);
const OF_PARENTS = "rules by parents: there those of the language";

/** Of what resolvedOptions of PluralRules tells. */
export function causeOfRules({ locale, notation, roundingIncrement }) {
  if (isByParents(locale)) return OF_PARENTS;
  return notation === "standard" && roundingIncrement === 1 ? null : "an option that Node 20 does not read in PluralRules";
}

/** Of the category of a number, which has to be that of the text that NumberFormat of Node shows. */
export function causeOfCategory(ours, theirs, [value]) {
  const { locale, type, ...resolved } = ours.resolvedOptions();
  if (isByParents(locale)) return OF_PARENTS;
  if (resolved.notation !== "standard") return causeOfGiven(resolved, [value]);
  const shown = new Engine("en", { useGrouping: false, ...Object.fromEntries(DIGITS.filter((it) => it in resolved).map((it) => [it, resolved[it]])) }).format(value);
  const { digits, isCut } = seenOf(shown);
  if (categoryOfShown(theirs.resolvedOptions().locale, type, digits) !== ours.select(value)) return null;
  return isCut ? "more than 18 digits on a side of the point: here a plural by 18 of them" : causeOfGiven(resolved, [value]) ?? "a double that Node rounds otherwise than its digits";
}

/** Of the category of a range, which has to be that of any numbers whose categories are those of its ends. */
export function causeOfRange(ours, theirs, ends) {
  const { locale, type, ...resolved } = ours.resolvedOptions();
  if (ends.some((it) => it === undefined || (!isBig(it) && Number.isNaN(+it)))) return ends.some(isBig) ? causeOfGiven(resolved, ends) : null;
  if (isByParents(locale)) return OF_PARENTS;
  const plain = new Intl.PluralRules(theirs.resolvedOptions().locale, { type });
  const samples = ends.map((end) => SAMPLES.find((it) => plain.select(it) === ours.select(end)));
  const [here, there] = [ours.selectRange(...ends), plain.selectRange(...samples)];
  if (here !== there) return there === "other" && here === ours.select(ends[1]) ? "a range for which no category is listed: there other" : null;
  return causeOfGiven(resolved, ends) ?? ends.map((end) => causeOfCategory(ours, theirs, [end])).find((it) => it !== null) ?? null;
}
