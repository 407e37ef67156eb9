// The parts of a text in the form of Intl: a sign, a unit and the word of a compact number are parts without the white space and the marks of direction
// around them, and what else is beside a number is a literal.
const EDGES = /^([\p{Zs}\t\p{Bidi_Control}\p{Variation_Selector}]*)(.*?)([\p{Zs}\t\p{Bidi_Control}\p{Variation_Selector}]*)$/su;
const SIGN = /[-+\u2212]/u;
const OF_SIGNS = ["minusSign", "plusSign", "exponentMinusSign", "exponentPlusSign"];

/**
 * The parts of a text as Intl has them. Of a compact number `number` are the parts of the number before or behind its word, where the library has these
 * in one literal with that: none of digits of its own.
 * @param {{ type: string, value: string }[]} parts
 * @param {{ type: string, value: string }[]} [number]
 */
export function intlParts(parts, number) {
  /** @type {{ type: string, value: string }[]} */
  const found = [];
  const add = (type, value) => {
    const last = found[found.length - 1];
    if (type === "literal" && last?.type === "literal") last.value += value;
    else if (value !== "") found.push({ type, value });
  };
  const addTrimmed = (type, value) => {
    const [, front, core, back] = EDGES.exec(value);
    add("literal", front);
    add(type, core);
    add("literal", back);
  };
  // Brackets of an amount of accounting are no sign.
  const addSign = (type, value) => {
    const at = value.search(SIGN);
    add("literal", at < 0 ? value : value.slice(0, at));
    if (at >= 0) add(type, value[at]);
    if (at >= 0) add("literal", value.slice(at + 1));
  };
  const text = number?.map(({ value }) => value).join("");
  const addCompact = (value) => {
    const at = value.indexOf(text);
    if (at < 0) return addTrimmed("compact", value); // a word that stands for the number too, as `mille`
    addTrimmed("compact", value.slice(0, at));
    for (const part of number) add(part.type, part.value);
    addTrimmed("compact", value.slice(at + text.length));
  };
  for (const { type, value } of parts) {
    if (OF_SIGNS.includes(type)) addSign(type, value);
    else if (type === "currency" || type === "percentSign") addTrimmed(type, value);
    else if (type === "literal" && text !== undefined) addCompact(value);
    else add(type, value);
  }
  return found;
}

const OF_DIGITS = ["integer", "group", "decimal", "fraction"];

/** The parts of a number with one part in the place of its digits. */
export function withSymbol(parts, type, value) {
  const first = parts.findIndex((it) => OF_DIGITS.includes(it.type));
  return parts.flatMap((it, at) => (at === first ? [{ type, value }] : OF_DIGITS.includes(it.type) ? [] : [it]));
}
