// Numbers of JavaScript as the digits that the library reads.

/** The digits of a number: what JavaScript writes as 1e+21 is 1e21. */
export function digitsOf(number) {
  if (typeof number === "string") return number.includes("e+") ? number.replace("e+", "e") : number;
  if (typeof number === "number") return Object.is(number, -0) ? "-0" : String(number).replace("e+", "e");
  if (typeof number === "bigint") return String(number);
  throw new TypeError(`a number is a string, a number or a bigint, and not ${number === null ? "null" : typeof number}`);
}

const NUMBER = /^[-+]?(?=\.?\d)(\d*)(?:\.(\d+))?(?:[eE](-?\d+))?$/;
const LAST_IS_FIVE = /5[0.]*(?:[eE]|$)/;

/** The power of ten of the first digit that is not 0, and 0 of zero; null where the digits are no number. */
export function magnitudeOf(digits) {
  const [, whole, fraction = "", exponent = "0"] = NUMBER.exec(digits) ?? [];
  if (whole === undefined) return null;
  const first = (whole + fraction).search(/[1-9]/);
  return first < 0 ? 0 : whole.length - 1 - first + Number(exponent);
}

/** Whether the last digit that is not 0 is a 5: no other number is halfway between two that have fewer digits. */
export function mayBeHalfway(digits) {
  return LAST_IS_FIVE.test(digits);
}
