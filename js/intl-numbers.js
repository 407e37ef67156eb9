// Values that a format of Intl is given, as the digits that the library reads.
const OTHER_BASE = /^0[box]/i;
const DECIMAL = /^([-+]?)(\d*)\.?(\d*)(?:e([-+]?\d+))?$/i;
// So many digits of a fraction are enough: a number is rounded at a place before, and one more digit says whether others follow.
const ENOUGH = 400;

function isObject(value) {
  return typeof value === "function" || (typeof value === "object" && value !== null);
}

// The primitive of a value, as of one that is wanted as a number.
function primitiveOf(value) {
  if (!isObject(value)) return value;
  const convert = value[Symbol.toPrimitive];
  if (convert !== undefined && convert !== null) {
    const found = Reflect.apply(convert, value, ["number"]);
    if (!isObject(found)) return found;
  } else {
    for (const name of ["valueOf", "toString"]) {
      const way = value[name];
      const found = typeof way === "function" ? Reflect.apply(way, value, []) : value;
      if (!isObject(found)) return found;
    }
  }
  throw new TypeError("an object is no number");
}

// The digits of a text that is a number.
function digitsOfText(text, number) {
  if (OTHER_BASE.test(text)) return String(BigInt(text));
  const [, sign, whole, fraction, exponent = "0"] = DECIMAL.exec(text);
  const minus = sign === "-" ? "-" : "";
  if (number === 0) return `${minus}0`; // also what is too near to it
  const digits = whole + fraction;
  const point = whole.length + Number(exponent);
  const last = point + ENOUGH;
  let end = Math.min(digits.length, last);
  if (digits.length > last && /[1-9]/.test(digits.slice(last))) return `${minus}${digits.slice(0, last)}1e${0 - ENOUGH - 1}`;
  while (digits[end - 1] === "0") end -= 1;
  return `${minus}${digits.slice(0, end).replace(/^0+/, "")}e${point - end}`;
}

/**
 * The digits of a value, a number, a bigint or a text of a number; or the number NaN, Infinity or -Infinity.
 * @returns {string | number}
 */
export function intlDigits(value) {
  const given = primitiveOf(value);
  if (typeof given === "bigint") return String(given);
  const number = Number(given);
  if (!Number.isFinite(number)) return number;
  if (typeof given === "string") return digitsOfText(given.trim(), number);
  return Object.is(number, -0) ? "-0" : String(number).replace("e+", "e");
}

/** Digits a hundred times as large, with no zero in front: 0.5 is 50. */
export function timesHundred(digits) {
  const [, sign, whole, fraction, exponent = "0"] = DECIMAL.exec(digits);
  const shown = (whole + fraction).replace(/^0+/, "");
  return shown ? `${sign}${shown}e${Number(exponent) + 2 - fraction.length}` : `${sign}0`;
}
