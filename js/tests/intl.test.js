// NumberFormat and PluralRules, and those of polyfill in their place, beside Intl of Node, by drawn locales, options and numbers, of which some are wrong.
// usage: node intl.test.js [COUNT [SEED]]; so many draws of NumberFormat, and of the others fewer. `node --test` takes 4,000, by SEED in the environment
import assert from "node:assert/strict";
import { test } from "node:test";
import { inspect } from "node:util";
import { ErrorNumber } from "legumeyet";
import { NumberFormat, PluralRules } from "legumeyet/intl";
import locales from "legumeyet/locales";
import { install } from "legumeyet/polyfill";
import { causeOf, causeOfCategory, causeOfOption, causeOfRange, causeOfRefusal, causeOfRules } from "./causes.js";
import { drawsBy } from "./drawn.js";

const [, , COUNT = "4000", SEED = process.env.SEED ?? "2026-11-29"] = process.argv;
const { NumberFormat: EngineNumbers, PluralRules: EngineRules } = Intl;
const restore = install();
const { NumberFormat: PolyfillNumbers, PluralRules: PolyfillRules } = Intl;
restore();
// Node 20 and later have the options of digits and signs that are drawn.
const isNew = Number(process.versions.node.split(".")[0]) >= 20;
const hasSameData = process.versions.cldr?.split(".")[0] === "48";
const draws = drawsBy(SEED);

// What resolvedOptions tells, in the order of ECMA-402; that of Node is an earlier one.
const IN_ORDER = [
  "locale", "numberingSystem", "style", "currency", "currencyDisplay", "currencySign", "minimumIntegerDigits", "minimumFractionDigits", "maximumFractionDigits", "minimumSignificantDigits", "maximumSignificantDigits", "useGrouping", "notation",
  "compactDisplay", "signDisplay", "roundingIncrement", "roundingMode", "roundingPriority", "trailingZeroDisplay",
];
const said = (value) => inspect(value, { breakLength: Infinity, depth: 3 });
const joined = (parts) => parts.map(({ value }) => value).join("");
const baseOf = (it) => new Intl.Locale(it).baseName;

// What a call gives, or which error it throws.
function outcome(call) {
  try {
    return { value: call() };
  } catch (error) {
    return { error };
  }
}

// What is counted by causes, and what differs by none.
class Counts {
  counts = {};
  unknown = [];

  add(cause, told) {
    this.counts[cause ?? "not known"] = (this.counts[cause ?? "not known"] ?? 0) + 1;
    if (cause === null) this.unknown.push(told());
  }

  tell(what) {
    console.log(`${what}: ${JSON.stringify(this.counts, null, 1)}`);
    assert.deepEqual(this.unknown.slice(0, 20), [], `${this.unknown.length} differ by no cause that is named, by seed ${SEED}`);
  }
}

// Both outcomes where neither is an error; null where one is, which is counted.
function bothOf(counts, ours, theirs, told, causeOfOne) {
  if (ours.error === undefined && theirs.error === undefined) return [ours.value, theirs.value];
  const isAlike = ours.error?.constructor === theirs.error?.constructor;
  counts.add(isAlike ? "refused by both" : causeOfOne(ours.error, theirs.error), () => `${told}: ${theirs.error ?? said(theirs.value)} in Node, and here ${ours.error?.stack ?? said(ours.value)}`);
  return null;
}

// Whether Node has found the same locale, or one in its place that has the same tables: the rules of a region are those of the language.
function hasLocale(counts, here, there, told, isOfRules = false) {
  const [own, other] = [here, there].map(baseOf);
  if (own === other) return true;
  const isBelow = own.startsWith(`${other}-`);
  const isListed = locales.some((it) => it === own || (!isBelow && own.startsWith(`${it}-`)));
  if (isBelow && isOfRules) counts.add("a locale whose rules Node finds by its language", null);
  else if (isBelow && !isListed) counts.add("a locale that is kept with what there are no tables for", null);
  else counts.add(isListed ? "a locale that Node does not have" : null, () => `${told}: ${here} here, ${there} in Node`);
  return isBelow && (isOfRules || !isListed);
}

// Compares what resolvedOptions tells, of what Node tells.
function comparedOptions(counts, here, there, told, causeOfOne) {
  for (const name of Object.keys(there)) {
    if (said(here[name]) === said(there[name]) || (name === "locale" && baseOf(here.locale) !== baseOf(there.locale))) continue;
    counts.add(causeOfOne(name), () => `${told}: ${name} is ${here[name]} here, ${there[name]} in Node`);
  }
}

// The options that are drawn, and whether one is wrong.
const someOptions = (options) => (draws.oneIn(5) ? draws.spoiled(options) : { options, name: undefined });

// Compares the texts and the parts of a number, or how it is refused.
function comparedNumber(counts, asked, options, ours, theirs, number, told) {
  const [here, there] = [ours, theirs].map((it) => outcome(() => ({ text: it.format(number), parts: it.formatToParts(number) })));
  const both = bothOf(counts, here, there, `${told} ${said(number)}`, () => null);
  if (both === null) return;
  const [{ text, parts }, other] = both;
  assert.equal(joined(parts), text, `${told} ${said(number)}`);
  const isAlike = text === other.text && JSON.stringify(parts) === JSON.stringify(other.parts);
  const { locale, numberingSystem } = ours.resolvedOptions();
  const tag = String(new Intl.Locale(locale, { numberingSystem }));
  counts.add(isAlike ? "alike" : causeOf(tag, asked, options, number, ours, theirs), () => `${told} ${said(number)}: ${JSON.stringify(parts)} here, ${JSON.stringify(other.parts)} in Node`);
}

// Compares so many objects of NumberFormat with those of Node.
function comparedNumbers(Own, times) {
  const counts = new Counts();
  for (let at = 0; at < times; at += 1) {
    const asked = draws.locales(locales);
    const { options, name } = someOptions(draws.numberOptions());
    const numbers = [draws.number(), draws.number(), draws.number()];
    const told = `${said(asked)} ${said(options)}`;
    const [ours, theirs] = [Own, EngineNumbers].map((Type) => outcome(() => new Type(asked, options)));
    const both = bothOf(counts, ours, theirs, told, (here, there) => causeOfRefusal(EngineNumbers, here, there, options, name));
    if (both === null) continue;
    const [here, there] = both.map((it) => it.resolvedOptions());
    if (Own === NumberFormat) assert.deepEqual(Object.keys(here), IN_ORDER.filter((it) => it in here), told);
    if (!hasLocale(counts, here.locale, there.locale, told)) continue;
    comparedOptions(counts, here, there, told, (it) => causeOfOption(it, String(asked), Object(options)));
    for (const number of numbers) comparedNumber(counts, String(asked), Object(options), ...both, number, told);
  }
  counts.tell(`${times} objects of NumberFormat, by seed ${SEED}`);
}

// Compares so many objects of PluralRules with those of Node.
function comparedRules(Own, times) {
  const counts = new Counts();
  for (let at = 0; at < times; at += 1) {
    const asked = draws.locales(locales);
    const { options, name } = someOptions(draws.pluralOptions());
    const [number, start, end] = [draws.number(), draws.number(), draws.number()];
    const told = `${said(asked)} ${said(options)}`;
    const [ours, theirs] = [Own, EngineRules].map((Type) => outcome(() => new Type(asked, options)));
    const both = bothOf(counts, ours, theirs, told, (here, there) => causeOfRefusal(EngineRules, here, there, options, name));
    if (both === null) continue;
    const [here, there] = both.map((it) => ({ ...it.resolvedOptions(), pluralCategories: it.resolvedOptions().pluralCategories.sort() }));
    if (!hasLocale(counts, here.locale, there.locale, told, true)) continue;
    comparedOptions(counts, here, there, told, () => causeOfRules(here));
    const calls = [["select", [number], causeOfCategory], ["selectRange", [start, end], causeOfRange]];
    for (const [call, values, causeOfOne] of calls) {
      const [one, other] = both.map((it) => outcome(() => it[call](...values)));
      const cause = () => (one.error?.number === ErrorNumber.EXPONENT ? "multiples that reach above the next pattern, which have no category: refused" : causeOfOne(...both, values));
      const categories = bothOf(counts, one, other, `${told} ${call} ${said(values)}`, cause);
      if (categories !== null) counts.add(categories[0] === categories[1] ? "alike" : cause(), () => `${told} ${call} ${said(values)}: ${categories[0]} here, ${categories[1]} in Node`);
    }
  }
  counts.tell(`${times} objects of PluralRules, by seed ${SEED}`);
}

const skip = !isNew || !hasSameData;
const part = (share) => Math.ceil(Number(COUNT) / share);
test("drawn numbers, beside Intl of Node", { skip }, () => comparedNumbers(NumberFormat, part(1)));
test("drawn numbers of polyfill, beside Intl of Node", { skip }, () => comparedNumbers(PolyfillNumbers, part(8)));
test("drawn plurals, beside Intl of Node", { skip }, () => comparedRules(PluralRules, part(2)));
test("drawn plurals of polyfill, beside Intl of Node", { skip }, () => comparedRules(PolyfillRules, part(8)));
