// The functions of numbers of MessageFormat 2 (UTS 35, part 9) in the form in which the package `messageformat` takes them: each has a context, options and an
// operand, and returns a value that is formatted and selected. They are over NumberFormat and PluralRules.
import { plus } from "./field-decimals.js";
import { DecimalFormatter } from "./formatters.js";
import { intlDigits, timesHundred } from "./intl-numbers.js";
import { readNumberFormat } from "./intl-options.js";
import { NumberFormat } from "./number-format.js";
import { PluralRules } from "./plurals.js";
import { directionOf } from "./tags.js";

const SHOWN = ["minimumIntegerDigits", "minimumFractionDigits", "maximumFractionDigits", "minimumSignificantDigits", "maximumSignificantDigits"];
const ROUNDED = ["roundingIncrement", "roundingMode", "roundingPriority", "trailingZeroDisplay"];
const OF_ALL = [...SHOWN, ...ROUNDED, "numberingSystem", "select", "signDisplay", "useGrouping"];
const COUNTS = new Set([...SHOWN, "roundingIncrement"]);
// The words of options that NumberFormat has not, or has more of; and those of them that are not written yet, in whose place the usual one is.
const WORDS = {
  compactDisplay: ["short", "long"], currencyDisplay: ["symbol", "code", "narrowSymbol", "name", "never"], notation: ["standard", "compact"],
  select: ["plural", "ordinal", "exact"], useGrouping: ["auto", "always", "never", "min2", "false"],
};
const LATER = { currencyDisplay: ["narrowSymbol", "name", "never"], notation: ["compact"] };
// The options that a style has besides, and those that a function has for itself, which the number that it returns does not tell.
const FUNCTIONS = {
  number: { style: "decimal" },
  integer: { style: "decimal", own: { minimumFractionDigits: undefined, maximumFractionDigits: 0, minimumSignificantDigits: undefined } },
  offset: { style: "decimal" },
  percent: { style: "percent" },
  currency: { style: "currency", more: ["currency", "currencyDisplay", "currencySign", "fractionDigits", "compactDisplay", "notation"] },
  unit: { style: "unit", more: ["unit", "unitDisplay"] },
};
const LITERAL = /^-?(?:0|[1-9]\d*)(?:\.\d+)?(?:e[-+]?\d+)?$/i;

/** What a function refuses, by its type: `bad-operand`, `bad-option`, or `unsupported-operation` of what is not written yet. */
export class MessageFunctionError extends RangeError {
  constructor(type, message) {
    super(message);
    this.type = type;
  }
}
Object.defineProperty(MessageFunctionError.prototype, "name", { value: "MessageFunctionError" });

// What a value stands for: itself, or what it is of.
const plain = (value) => (typeof value === "object" && value !== null ? value.valueOf() : value);

// The number that an operand is, with the options of the function that it comes from.
function operandOf(operand) {
  const number = plain(operand);
  const isNumber = ["number", "bigint"].includes(typeof number) || (typeof number === "string" && LITERAL.test(number));
  if (!isNumber) throw new MessageFunctionError("bad-operand", "the operand is no number");
  const inherited = typeof operand === "object" && typeof operand.options === "object" ? operand.options : {};
  return { number, inherited };
}

// The value of an option as NumberFormat takes it. Throws where it is none.
function optionOf(name, given) {
  const text = String(plain(given));
  if (name in WORDS) {
    if (!WORDS[name].includes(text)) throw new RangeError(`no word of ${name}`);
    return name === "useGrouping" && ["never", "false"].includes(text) ? false : text;
  }
  if (name === "fractionDigits" && text === "auto") return text;
  if (COUNTS.has(name) || name === "fractionDigits") {
    if (!/^\d+$/.test(text)) throw new RangeError("no count");
    readNumberFormat({ [name === "fractionDigits" ? "maximumFractionDigits" : name]: Number(text) }, () => 0);
    return Number(text);
  }
  readNumberFormat({ [name]: text }, () => 0);
  return text;
}

/**
 * The options of a function: those of the operand, and in their place those that are given, without those that are wrong or not written yet.
 * @returns {Record<string, any>}
 */
function optionsOf(tell, name, inherited, given) {
  const { style, more = [], own = {} } = FUNCTIONS[name];
  const names = [...OF_ALL, ...more].filter((it) => !(it in own));
  /** @type {Record<string, any>} */
  const options = {};
  for (const from of [inherited, given]) {
    for (const it of names.filter((key) => from[key] !== undefined)) {
      try {
        const value = optionOf(it, from[it]);
        if (LATER[it]?.includes(value)) tell("unsupported-operation", `:${name} has no ${it} ${value} yet`);
        else options[it] = value;
      } catch {
        tell("bad-option", `:${name} has no ${it} ${String(plain(from[it]))}`);
      }
    }
    const { fractionDigits: count } = options;
    for (const it of count === undefined ? [] : ["minimumFractionDigits", "maximumFractionDigits", "fractionDigits"]) delete options[it];
    if (typeof count === "number") Object.assign(options, { minimumFractionDigits: count, maximumFractionDigits: count });
  }
  return { ...options, style };
}

// The digits of a number as a key of a message has them: without an exponent, and without zeros at the end of a fraction.
function keyOf(digits) {
  const [, sign, whole, fraction = "", exponent = "0"] = /^(-?)(\d*)\.?(\d*)(?:e(-?\d+))?$/.exec(digits);
  const point = whole.length + Number(exponent);
  const all = `${"0".repeat(Math.max(0, 1 - point))}${whole}${fraction}`.padEnd(point, "0");
  const cut = Math.max(point, 1);
  const [front, back] = [all.slice(0, cut).replace(/^0+(?=\d)/, ""), all.slice(cut).replace(/0+$/, "")];
  return `${/[1-9]/.test(all) ? sign : ""}${front}${back === "" ? "" : `.${back}`}`;
}

// The plural category of a number, as a format shows it.
function categoryOf(resolved, select, number) {
  const digits = intlDigits(number);
  const rules = new PluralRules(new Intl.Locale(resolved.locale).baseName, {
    type: select === "ordinal" ? "ordinal" : "cardinal", ...Object.fromEntries([...SHOWN, ...ROUNDED].filter((it) => it in resolved).map((it) => [it, resolved[it]])),
  });
  return rules.select(resolved.style === "percent" && typeof digits === "string" ? timesHundred(digits) : digits);
}

// The value that a function returns: a number, what writes it, and the options of the function.
function valueOf(context, { format, resolved, options, canSelect }, number) {
  const dirOf = () => context.dir ?? directionOf(resolved().locale);
  return {
    type: "number",
    get locale() { return resolved().locale; },
    get dir() { return dirOf(); },
    get options() { return { ...options }; },
    selectKey: canSelect ? (keys) => {
      const digits = intlDigits(number);
      const exact = typeof digits === "string" ? keyOf(digits) : String(digits);
      if (keys.has(exact) || options.select === "exact") return keys.has(exact) ? exact : null;
      const category = categoryOf(resolved(), options.select, number);
      return keys.has(category) ? category : null;
    } : undefined,
    toParts: () => {
      const dir = dirOf();
      return [{ type: "number", ...(dir === "auto" ? {} : { dir }), locale: resolved().locale, parts: format.formatToParts(number) }];
    },
    toString: () => format.format(number),
    valueOf: () => number,
  };
}

/**
 * A number with what one of the options `add` and `subtract` says.
 * @param {Record<string, unknown>} options
 */
function shifted(number, options) {
  const { add, subtract } = options;
  const count = String(plain(add ?? subtract));
  if ((add === undefined) === (subtract === undefined) || !/^\d+$/.test(count)) throw new MessageFunctionError("bad-option", ":offset needs a whole number to add or to subtract");
  const digits = intlDigits(number);
  return typeof digits === "number" ? digits : plus(keyOf(digits), add === undefined ? `-${count}` : count);
}

// The integer that a number is rounded to, of the same type.
function wholeOf(number, { locale, roundingMode }) {
  const digits = intlDigits(number);
  if (typeof digits === "number" || typeof number === "bigint") return number;
  const whole = new DecimalFormatter(locale, { maximumFractionDigits: 0, roundingMode }).shown(digits);
  return typeof number === "number" ? Number(whole) : whole;
}

// The number that a function makes of its operand.
function numberOf(name, number, given, resolved) {
  if (name === "offset") return shifted(number, given);
  return name === "integer" ? wholeOf(number, resolved()) : number;
}

/**
 * What writes numbers by these options. Throws where they do not go together.
 * @param {Record<string, any>} options
 */
function formatOf(context, name, options) {
  /** @type {Record<string, any>} */
  const others = { ...options, ...FUNCTIONS[name].own };
  delete others.select;
  try {
    readNumberFormat(others, () => 0);
  } catch (error) {
    throw new MessageFunctionError("bad-option", `:${name}: ${error.message}`);
  }
  return new NumberFormat(context.locales, others);
}

// The function of a name. Only a literal of a message says how it selects.
const functionOf = (name) => (context, given = {}, operand = undefined) => {
  const { number, inherited } = operandOf(operand);
  const tell = (type, message) => context.onError?.(new MessageFunctionError(type, message));
  const options = optionsOf(tell, name, inherited, given);
  const { style } = options;
  if (["currency", "unit"].includes(style) && options[style] === undefined) throw new MessageFunctionError("bad-operand", `:${name} needs the option ${style}`);
  if (style === "unit") throw new MessageFunctionError("unsupported-operation", "units are not written yet");
  const isLiteral = given.select === undefined || context.literalOptionKeys?.has("select") !== false;
  if (!isLiteral) tell("bad-option", "only a literal is a select");
  const format = formatOf(context, name, options);
  let known;
  const resolved = () => (known ??= format.resolvedOptions());
  const { numberingSystem: asked } = options;
  if (asked !== undefined && asked !== resolved().numberingSystem) tell("bad-option", `:${name} has no numberingSystem ${asked}`);
  return valueOf(context, { format, resolved, options, canSelect: isLiteral }, numberOf(name, number, given, resolved));
};

/** The functions, by their names. */
export const functions = Object.freeze(Object.fromEntries(Object.keys(FUNCTIONS).map((it) => [it, functionOf(it)])));
