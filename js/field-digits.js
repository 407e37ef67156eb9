// The digits and the separators that a field writes, and what somebody types in those of another system.

const DIGIT = /^\p{Nd}$/u;
// What CLDR has for Arabic digits: before the fraction, and between groups; and the first digits of these.
const ARABIC_DECIMAL = "\u066b", ARABIC_GROUP = "\u066c";
const ARABIC = [0x660, 0x6f0];
const ARABIC_SEPARATOR = /[\u066b\u066c]/;
const ARABIC_RUN = /[\p{Nd}\u066b\u066c]+/gu;

/** The value of a digit, and the first one of its system: a system is ten characters in a row, and some follow each other. */
function placeOf(char) {
  const code = char.codePointAt(0);
  let first = code;
  while (DIGIT.test(String.fromCodePoint(first - 1))) first -= 1;
  const value = (code - first) % 10;
  return { value, zero: code - value };
}

/** The digits and the separators of a formatter. */
export class Digits {
  #own; // from 0 on
  #group;

  /** They are its symbols; without digits there no text is changed. */
  constructor({ decimal, group, digits } = { decimal: ".", group: ",", digits: [] }) {
    [this.decimal, this.#group, this.#own] = [decimal, group, digits];
  }

  /** Whether a character is a digit, of these or of any system. */
  has(char) {
    return char !== undefined && (DIGIT.test(char) || this.#own.includes(char));
  }

  /** A text with `0` to `9` for these digits. */
  inAscii(text) {
    return [...text].map((it) => (this.#own.includes(it) ? String(this.#own.indexOf(it)) : it)).join("");
  }

  /**
   * A text that was typed or pasted, with these digits for its own, of whatever system: `123` of `१२३`. The separators of Arabic digits become
   * those that are written here, where they are by themselves, as a key, or no other ones are among such digits. A text with digits of two
   * systems stays as it is.
   */
  written(text) {
    const systems = new Set([...text].filter((it) => this.has(it)).map((it) => (DIGIT.test(it) ? placeOf(it).zero : null)));
    if (systems.size > 1 || this.#own.length === 0) return text;
    const [zero] = systems;
    const separated = this.#takesArabic(text, zero) ? this.#withSeparators(text) : text;
    return [...separated].map((it) => (DIGIT.test(it) ? this.#own[placeOf(it).value] : it)).join("");
  }

  #takesArabic(text, zero) {
    if (ARABIC_SEPARATOR.test(this.decimal + this.#group)) return false;
    return zero === undefined || (ARABIC.includes(zero) && text.match(ARABIC_RUN).length === 1);
  }

  #withSeparators(text) {
    return text.replaceAll(ARABIC_DECIMAL, this.decimal).replaceAll(ARABIC_GROUP, this.#group);
  }
}
