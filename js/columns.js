// The texts of many numbers.
import { LegumeyetError, NUMBERS, calls, columnWritten } from "./instance.js";
import { plain } from "./books.js";
import { digitsOf } from "./numbers.js";

/**
 * What writes many numbers: `at` says where it is, each time that it is used, and `how` are the words of its options; `one` writes digits alone, and
 * `isAlone` says of which it has to: of none where it `hasColumns`.
 * @typedef {{ at: () => number, how: Int32Array, one: (digits: string) => string, isAlone: (digits: string) => boolean, hasColumns: boolean }} Writer
 */

// Digits that may be in a line with others: one of any other character is no digit.
const IN_LINE = /^[\0-\x09\x0b-\x7f]*$/;

// Writes digits alone. An error says which number it was.
function addOne(writer, digits, texts) {
  try {
    texts.push(writer.one(digits));
  } catch (error) {
    throw error instanceof LegumeyetError ? new LegumeyetError(error.number, `: the number at ${texts.length}`) : error;
  }
}

// Adds the texts of digits, as many together as may be.
function addDigits(writer, digits, texts) {
  const isAlone = (it) => !IN_LINE.test(it) || writer.isAlone(it);
  for (let done = 0; done < digits.length; ) {
    let end = done;
    while (end < digits.length && !isAlone(digits[end])) end += 1;
    if (end > done) addTogether(writer, digits.slice(done, end), texts);
    if (end < digits.length) addOne(writer, digits[end], texts);
    done = end + 1;
  }
}

function addTogether(writer, digits, texts) {
  for (let done = 0; done < digits.length; ) {
    const before = texts.length;
    const at = writer.at();
    columnWritten(at, calls.js_formatter_texts, writer.how, `${digits.slice(done).join("\n")}\n`, texts);
    done += texts.length - before;
  }
}

// The texts of numbers, each written alone.
function addedAlone(writer, numbers) {
  const texts = [];
  for (const it of numbers) addOne(writer, digitsOf(it), texts);
  return texts;
}

// Adds the texts of doubles or integers, which are a typed array, and no subclass of one.
function addColumn(writer, call, column, texts) {
  for (const end = texts.length + column.length; texts.length < end; ) {
    const done = column.length - (end - texts.length);
    const at = writer.at();
    columnWritten(at, calls[call], writer.how, column.subarray(done, done + NUMBERS), texts);
  }
}

// Adds the texts of numbers of JavaScript, at most NUMBERS.
function addNumbers(writer, numbers, texts) {
  if (writer.hasColumns && numbers.every((it) => typeof it === "number")) addColumn(writer, "js_formatter_doubles", Float64Array.from(numbers), texts);
  else addDigits(writer, numbers.map(digitsOf), texts);
}

/**
 * The texts of many numbers: of doubles or integers in a typed array, or of what can be iterated over.
 * @param {Writer} writer
 * @returns {string[]}
 */
export function allWritten(writer, numbers) {
  if (typeof numbers === "string" || typeof numbers?.[Symbol.iterator] !== "function") {
    throw new TypeError("numbers are an array, or what else can be iterated over");
  }
  const texts = [];
  writer.at(); // a closed one is refused also where there is no number
  if (!("js_formatter_texts" in calls)) return addedAlone(writer, numbers); // as of a module of pages
  const Type = [Float64Array, BigInt64Array].find((it) => numbers instanceof it);
  const all = Type === undefined ? Array.from(numbers) : plain(Type, numbers);
  if (Type !== undefined && writer.hasColumns) addColumn(writer, `js_formatter_${Type === Float64Array ? "doubles" : "integers"}`, all, texts);
  else for (let start = 0; start < all.length; start += NUMBERS) addNumbers(writer, Array.from(all.slice(start, start + NUMBERS)), texts);
  return texts;
}
