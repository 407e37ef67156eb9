// What a formatter tells of itself: facts of the library, by their numbers.
import { NONE, calls, written } from "./instance.js";

const SYMBOLS = [1, 2, 3, 4, 5, 6, 7];
const OF_CURRENCY = { currencyFractionDigits: 8, cashFractionDigits: 9, cashIncrement: 10 };
const CATEGORIES = 11;

function told(native, fact) {
  return written(native.at, (at) => calls.js_formatter_tell(at, fact), NONE, "");
}

/** The separators, what the signs are before and after a number, and the digits, zero first. */
export function symbolsOf(native) {
  const [decimal, group, ...others] = SYMBOLS.map((it) => told(native, it));
  return { decimal, group, minus: others.slice(0, 2), plus: others.slice(2, 4), digits: [...others[4]] };
}

/** How many digits of the fraction the amounts of a currency have, by the names that resolvedOptions has. */
export function currencyDigitsOf(native) {
  return Object.fromEntries(Object.entries(OF_CURRENCY).map(([name, fact]) => [name, Number(told(native, fact))]));
}

/** The plural categories that numbers may have. */
export function categoriesOf(native) {
  return told(native, CATEGORIES).split(" ");
}
