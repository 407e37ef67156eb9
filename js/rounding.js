// Roundings at a place that no option names. By itself the library shows the nearest number that has the digits that are shown of a compact number, or
// by the currency of an amount, and of two that are equally near the even one. Another rounding is made first, at the last of these digits, so that
// what it leaves is shown as it is. Where that is, and of what it is a multiple, is learned by what the library shows.
import { calls, written } from "./instance.js";
import { magnitudeOf, mayBeHalfway } from "./numbers.js";
import { asGiven, isOfHalves, multiplesOf, wordsOf } from "./options.js";

const [LEAST_MAGNITUDE, MOST_MAGNITUDE] = [-32768, 32767]; // magnitudes of numbers
/** The words of options without one. */
export const AS_IT_IS = wordsOf({});
// The multiples of the last digit that a currency may be rounded to.
const MULTIPLES = [1, 2, 5, 10, 20, 25, 50];

const shown = (native, how, digits) => written(native.at, calls.js_formatter_shown, how, digits);

// The power of ten of the last digit that is shown of numbers of a magnitude: that of their pattern, or that of their second digit where it is lower.
function unitOf(native, magnitude) {
  native.units ??= new Map();
  if (!native.units.has(magnitude)) {
    const [, exponent = "0"] = shown(native, AS_IT_IS, `1e${magnitude}`).split("c");
    native.units.set(magnitude, Math.max(LEAST_MAGNITUDE, Math.min(Number(exponent), magnitude - 1)));
  }
  return native.units.get(magnitude);
}

// How many digits of the fraction a currency has by a rounding, and the multiple of the last of them: the least that is left as it is.
function currencyOf(native, mode) {
  const how = wordsOf({ mode });
  const [, fraction = ""] = shown(native, how, "0").split(".");
  const isLeft = (multiple) => {
    const amount = `${multiple}e${0 - fraction.length}`;
    return shown(native, how, amount) === shown(native, asGiven(fraction.length), amount);
  };
  return { digits: fraction.length, multiple: MULTIPLES.find(isLeft) };
}

/**
 * The same call with the words that it has for all digits, but for those of which `howFor` has others.
 * @param {import("./sharing.js").Native} native
 * @param {import("./options.js").Call} call
 */
export function placed(native, call) {
  if (call.learned !== "currency") return call;
  const how = call.how.slice();
  const currencies = (native.currencies ??= new Map());
  if (!currencies.has(how[2])) currencies.set(how[2], currencyOf(native, how[2]));
  const { digits, multiple } = currencies.get(how[2]);
  const { position, increment, fraction } = multiplesOf(call.multiple || multiple, 0 - digits);
  how.set([call.rounding, position, increment], 2);
  how[7] = Math.max(how[7], fraction);
  return { ...call, how };
}

/**
 * The words of a call for these digits: its own, or others by which they are rounded at the last digit that is shown. Digits that are no number, or
 * none of the library's, are left to it.
 * @param {import("./sharing.js").Native} native
 * @param {import("./options.js").Call} call
 */
export function howFor(native, call, digits) {
  const { how } = call;
  if (call.learned !== "shown" || (how[2] === 0 && isOfHalves(call.rounding) && !mayBeHalfway(digits))) return how;
  const magnitude = magnitudeOf(digits);
  if (magnitude === null || magnitude < LEAST_MAGNITUDE || magnitude > MOST_MAGNITUDE) return how;
  const unit = unitOf(native, magnitude);
  if (how[2] !== 0 && how[3] >= unit) return how;
  call.units ??= new Map();
  if (!call.units.has(unit)) call.units.set(unit, wordsOf({ sign: how[1], mode: call.rounding, position: unit }));
  return call.units.get(unit);
}
