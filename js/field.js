// What a form field does while somebody types. A text that is a number is written anew at each edit, with the caret where it was among the digits;
// one that is none stays as it was typed, and nothing is guessed. What the field writes by itself, as separators, a unit and marks of direction, is
// its own: an edit is one of the other characters, those that somebody typed.
import { Digits } from "./field-digits.js";
import { ErrorNumber, LegumeyetError } from "./instance.js";

const UNSEEN = /^[\s\p{Cf}]*$/u;
const TYPED = ["integer", "fraction", "decimal"];
const SIGNS = ["minusSign", "plusSign"];
const NO_NUMBER = [ErrorNumber.NOT_WRITTEN, ErrorNumber.UTF8, ErrorNumber.NUMBER, ErrorNumber.LIMIT, ErrorNumber.RANGE];
const EMPTY = Object.freeze({ text: "", caret: 0, value: "", own: [] });

// What a call returns; null where there is no number.
function unlessNone(call) {
  try {
    return call();
  } catch (error) {
    if (error instanceof LegumeyetError && NO_NUMBER.includes(error.number)) return null;
    throw error;
  }
}

/** A decimal without plus and without zeros in front: `-1.50` of `-01.50`; null where the text is no decimal. */
export function plainOf(text) {
  const [, sign, whole, fraction] = /^([+-]?)(\d+)(\.\d+)?$/.exec(text) ?? [];
  return whole === undefined ? null : `${sign === "-" ? "-" : ""}${whole.replace(/^0+(?=\d)/, "")}${fraction ?? ""}`;
}

/** What an edit left of a text, where the characters that it removed or put are not known: what is alike at both ends, around the caret. */
function leftOf(before, after, caret) {
  const most = Math.min(before.length, after.length);
  let front = 0;
  while (front < Math.min(most, caret) && before[front] === after[front]) front += 1;
  if (isInPair(before, front) || isInPair(after, front)) front -= 1;
  let back = 0;
  while (back < Math.min(most - front, after.length - caret) && before.at(-1 - back) === after.at(-1 - back)) back += 1;
  if (isInPair(before, before.length - back) || isInPair(after, after.length - back)) back -= 1;
  return { front, back };
}

// Whether a place is between the two halves of a character.
function isInPair(text, at) {
  return at > 0 && at < text.length && text.codePointAt(at - 1) > 0xffff;
}

// Whether so much was left at both ends.
function isLeft(before, after, { front, back }) {
  const isThere = front + back <= Math.min(before.length, after.length) && before.startsWith(after.slice(0, front));
  return isThere && before.endsWith(after.slice(after.length - back));
}

// The places of the characters of a text, `[start, end]`.
function placesOf(text) {
  let end = 0;
  return [...text].map((it) => [end, (end += it.length)]);
}

// Where some places of a text are once an edit of it was made, without what it took of them.
function moved(places, { start, end, inserted }) {
  const by = start + inserted.length - end;
  const front = places.filter(([from]) => from < start).map(([from, to]) => [from, Math.min(to, start)]);
  const back = places.filter(([, to]) => to > end).map(([from, to]) => [Math.max(from, end) + by, to + by]);
  return [...front, ...back];
}

/** The text of a field while somebody types, of a formatter of plain numbers, of percents or of amounts that does not round. */
export class FieldText {
  #formatter;
  #digits;
  #state = EMPTY;

  /** Without a formatter no text is a number. */
  constructor(formatter) {
    this.#formatter = formatter;
    this.#digits = new Digits(formatter?.symbols());
    const shown = formatter?.shown("9876543210.5") ?? ".5";
    if (!/\.50*$/.test(shown)) throw new RangeError("the formatter of a field shows a fraction as it is: it rounds no number, and is neither compact nor scientific");
  }

  /** What is shown, as it is kept for `restore`: its text, the caret, and its value. */
  get state() { return this.#state; }
  get text() { return this.#state.text; }
  /** The number that is shown as digits; null where the text is none, and empty where it is empty. */
  get value() { return this.#state.value; }

  restore(state) {
    this.#state = state;
  }

  /** Writes a number; nothing for an empty text, and takes a text that is no number as if it was typed. Returns the text. */
  put(value) {
    const isNone = value === "" || this.#formatter === null;
    const parts = isNone ? null : unlessNone(() => this.#formatter.formatToParts(value));
    this.#state = parts === null ? EMPTY : this.#written(parts);
    if (parts !== null) this.#state.value = plainOf(this.#read(this.text));
    else if (value !== "") this.edited(String(value), String(value).length);
    return this.text;
  }

  /**
   * The field after an edit that left this text, with the caret there. `left` is how many characters of the old text it left at both ends, as a
   * paste over all of it leaves none; without it an edit is taken that only removed characters, or put some at the caret. `isForward` is whether it
   * removed what is behind the caret. Digits that it put, of whatever system, become those of the formatter. An edit that put something before or
   * behind the number is one at its start or end. One that only removed what the field writes by itself removes the character beside that. Where
   * no character is left that somebody typed, the field is empty.
   */
  edited(text, caret, left, isForward = false) {
    const edit = this.#taken(this.#editOf(text, caret, left));
    this.#state = this.#after(this.#aimed(edit, isForward));
    return this.#state;
  }

  /** The same where the text has to stay as it is, as long as it is composed: nothing is written anew before `settled`. */
  composed(text, caret) {
    const value = this.#read(text);
    const { from = this.#state } = this.#state; // what it is composed into
    this.#state = { ...this.#raw(this.#editOf(text, caret)), caret, value: UNSEEN.test(text) ? "" : value && plainOf(value), from };
    return this.#state;
  }

  /** Writes anew what was composed. */
  settled() {
    const { text, caret, from = this.#state } = this.#state;
    this.#state = from;
    this.#state = this.#after(this.#taken(this.#editOf(text, caret)));
    return this.#state;
  }

  /** The place of the caret that is next to this one and within the number. */
  nearest(caret) {
    const kept = this.#kept();
    return kept.length === 0 ? caret : Math.min(Math.max(caret, kept[0][0]), kept.at(-1)[1]);
  }

  #editOf(text, caret, left) {
    const before = this.text;
    const { front, back } = left !== undefined && isLeft(before, text, left) ? left : leftOf(before, text, caret);
    return { start: front, end: before.length - back, inserted: text.slice(front, text.length - back) };
  }

  // The edit with what it put in the digits that are written here.
  #taken(edit) {
    return { ...edit, inserted: this.#digits.written(edit.inserted) };
  }

  // The places of the characters that are not the field's own.
  #kept() {
    const { text, own } = this.#state;
    return placesOf(text).filter(([start, end]) => !own.some(([from, to]) => from < end && start < to));
  }

  // What was typed of the text from one place to another.
  #typed(from, to = this.text.length) {
    const kept = this.#kept().filter(([start, end]) => start >= from && end <= to);
    return kept.map(([start, end]) => this.text.slice(start, end)).join("");
  }

  // The edit as it is meant.
  #aimed({ start, end, inserted }, isForward) {
    const kept = this.#kept();
    const isNothing = start === end && inserted === "";
    if (isNothing || kept.some(([from, to]) => from < end && start < to)) return { start, end, inserted };
    if (inserted !== "") {
      const among = this.value === null ? kept : kept.filter(([from, to]) => this.#isOfNumber(this.text.slice(from, to)));
      const at = among.length === 0 ? start : Math.min(Math.max(start, among[0][0]), among.at(-1)[1]);
      return { start: at, end: at === start ? end : at, inserted };
    }
    const next = isForward ? kept.find(([from]) => from >= end) : kept.filter(([, to]) => to <= start).at(-1);
    if (next === undefined) return { start, end: start, inserted };
    return { start: Math.min(start, next[0]), end: Math.max(end, next[1]), inserted };
  }

  #after(edit) {
    const front = this.#typed(0, edit.start) + edit.inserted;
    const back = this.#typed(edit.end);
    if (UNSEEN.test(front + back)) return EMPTY;
    const value = this.#read(front + back);
    if (value !== null) return this.#shown(value, front, back);
    const raw = this.#raw(edit);
    const whole = this.#read(raw.text); // as where somebody types the separators too
    return whole === null ? raw : this.#shown(whole, raw.text.slice(0, raw.caret), raw.text.slice(raw.caret));
  }

  // A text that is no number, as an edit leaves it.
  #raw(edit) {
    const { text, own } = this.#state;
    const caret = edit.start + edit.inserted.length;
    return { text: text.slice(0, edit.start) + edit.inserted + text.slice(edit.end), caret, value: null, own: moved(own, edit) };
  }

  // A number that was typed, with the caret between `front` and `back`.
  #shown(value, front, back) {
    const isDecimalLast = !value.includes(".") && this.#endsInDecimal(front + back, value);
    const state = { ...this.#written(this.#formatter.formatToParts(value), isDecimalLast), value: plainOf(value) };
    return { ...state, caret: this.#caretIn(state, front, back) };
  }

  // Whether a decimal separator is last: one more digit would be of the fraction.
  #endsInDecimal(typed, value) {
    const text = typed.trimEnd();
    return !this.#digits.has([...text].at(-1)) && this.#read(`${text}0`) === `${value}.0`;
  }

  // The state of a number's parts, and of a decimal separator after its last digit. The caret is at its end.
  #written(parts, isDecimalLast = false) {
    const last = parts.findLastIndex(({ type }) => TYPED.includes(type));
    const state = { text: "", caret: 0, value: "", own: [] };
    const add = (value, isOwn) => {
      for (const [start, end] of placesOf(value)) if (isOwn(value.slice(start, end))) state.own.push([state.text.length + start, state.text.length + end]);
      state.text += value;
    };
    for (const [at, { type, value }] of parts.entries()) {
      add(value, SIGNS.includes(type) ? (it) => UNSEEN.test(it) : () => !TYPED.includes(type));
      if (at === last && isDecimalLast) add(this.#digits.decimal, () => false);
      if (at === last) state.caret = state.text.length;
    }
    return state;
  }

  // The number of a text; where it is none, of that with the digits of ASCII, as where `.` is typed in Arabic.
  #read(text) {
    if (this.#formatter === null) return null;
    const value = unlessNone(() => this.#formatter.readLenient(text));
    return value ?? unlessNone(() => this.#formatter.readLenient(this.#digits.inAscii(text)));
  }

  #isOfNumber(char) {
    return this.#digits.has(char) || char === this.#digits.decimal;
  }

  // The place in the text of a number that as many digits follow as `back` has. Behind a digit it stays there, and else it is before the next one.
  #caretIn({ text, caret: end, value }, front, back) {
    const digits = placesOf(text).filter(([from, to]) => this.#digits.has(text.slice(from, to)));
    const behind = [...back].filter((it) => this.#digits.has(it)).length;
    const fraction = value.split(".")[1]?.length ?? 0;
    const next = Math.max(0, digits.length - behind);
    const isBeforeDecimal = !UNSEEN.test(back) && !this.#digits.has([...back.trimStart()][0]);
    if (behind < fraction || (behind === fraction && !isBeforeDecimal)) return digits[next]?.[0] ?? end;
    return next > 0 && (behind === fraction || this.#digits.has([...front].at(-1))) ? digits[next - 1][1] : digits[next][0];
  }
}

/** What a field was before each edit, and what was undone. */
export class History {
  #past = [];
  #undone = [];

  keep(state) {
    this.#past.push(state);
    this.#undone = [];
  }

  clear() {
    [this.#past, this.#undone] = [[], []];
  }

  /** The state to go to from this one, backwards or forwards; undefined where there is none. */
  go(isBack, state) {
    const [from, to] = isBack ? [this.#past, this.#undone] : [this.#undone, this.#past];
    if (from.length > 0) to.push(state);
    return from.pop();
  }
}
