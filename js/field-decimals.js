// Sums and comparisons of decimals as digits, `-1234.50`, with all their digits.

// A decimal as an integer and the count of those of its digits that are of the fraction.
function scaled(decimal) {
  const [whole, fraction = ""] = decimal.split(".");
  return { digits: BigInt(whole + fraction), scale: fraction.length };
}

// The integers of some decimals at one scale.
function aligned(...decimals) {
  const all = decimals.map(scaled);
  const scale = Math.max(...all.map((it) => it.scale));
  return { scale, integers: all.map((it) => it.digits * 10n ** BigInt(scale - it.scale)) };
}

function written(integer, scale) {
  const digits = String(integer < 0n ? -integer : integer).padStart(scale + 1, "0");
  const at = digits.length - scale;
  return `${integer < 0n ? "-" : ""}${digits.slice(0, at)}${scale > 0 ? `.${digits.slice(at)}` : ""}`;
}

/** Whether one decimal is less than another: below 0, at 0 or above 0, as for a sort. */
export function compare(one, other) {
  const [a, b] = aligned(one, other).integers;
  return a < b ? -1 : Number(a > b);
}

export function plus(one, other) {
  const { scale, integers } = aligned(one, other);
  return written(integers[0] + integers[1], scale);
}

/** The nearest decimals at or below and at or above one that are a count of steps from `base`. A step is above zero. */
export function neighbours(decimal, step, base) {
  const { scale, integers } = aligned(decimal, step, base);
  const [value, by, from] = integers;
  const rest = (((value - from) % by) + by) % by;
  return { below: written(value - rest, scale), above: written(rest === 0n ? value : value - rest + by, scale) };
}

/** The decimal with so many digits of the fraction at least. */
export function padded(decimal, count) {
  const [whole, fraction = ""] = decimal.split(".");
  return count > fraction.length ? `${whole}.${fraction.padEnd(count, "0")}` : decimal;
}
