// The options of formatters: Intl's words, and what these are in the library's words, those of legumeyet_format and legumeyet_options.
import { MOST_OF_WORDS, SIGNS_OF_WORDS, USUAL_COMPACT, compactSkeleton } from "./compact-digits.js";
import { NONE } from "./instance.js";

const GROUPINGS = { auto: 0, false: 1, always: 4, true: 4, min2: 3 };
const SIGNS = { keep: 0, auto: 1, never: 2, always: 3, exceptZero: 4, negative: 5 };
const MODES = { expand: 1, trunc: 2, ceil: 3, floor: 4, halfExpand: 5, halfTrunc: 6, halfCeil: 7, halfFloor: 8, halfEven: 9 };
/** The notations of scientific numbers. */
export const SCIENTIFIC = { scientific: 2, engineering: 3 };
/** How wide compact numbers are. */
export const WIDTHS = { short: 0, long: 1 };
const CURRENCY_SIGNS = { standard: 0, accounting: 1 };
const CURRENCY_DISPLAYS = { symbol: 0, code: 1 };
const PRIORITIES = { auto: 0, morePrecision: 1, lessPrecision: 2 };
const ZEROS = { auto: 0, stripIfInteger: 2 }; // beside those that are trimmed, 1, both are 3
const CURRENCY_DIGITS = { standard: 0, cash: 10, given: 11 }; // roundings that have no position
const INCREMENTS = [1, 2, 5, 10, 20, 25, 50, 100, 200, 250, 500, 1000, 2000, 2500, 5000];
const [MOST, MOST_SIGNIFICANT] = [32767, 65535];
const UNITS = { percent: 1, currency: 2 };
// The options of a kind: of its calls, and of its opening only.
const OF_EACH = ["signDisplay", "position", "roundingMode", "roundingIncrement"];
const PRECISIONS = ["minimumFractionDigits", "maximumFractionDigits", "minimumSignificantDigits", "maximumSignificantDigits"];
const COUNTS = ["minimumIntegerDigits", ...PRECISIONS];
// With one of these a compact number has digits of its own.
const OF_OWN_DIGITS = [...COUNTS, "roundingPriority", "trailingZeroDisplay"];
/** The options of digits and signs. */
export const OF_DIGITS = [...OF_EACH, ...OF_OWN_DIGITS];
const OF_CALLS = { decimal: OF_DIGITS, compact: OF_EACH, compactDigits: [], scientific: OF_DIGITS, percent: OF_DIGITS, currency: [...OF_DIGITS, "currencyDigits"], skeleton: [] };
const OF_FORMATS = {
  decimal: ["useGrouping"], compact: ["useGrouping", "compactDisplay", ...OF_OWN_DIGITS], scientific: ["useGrouping", "notation"], percent: ["useGrouping"],
  currency: ["useGrouping", "currency", "currencySign", "currencyDisplay"], skeleton: ["skeleton"],
};
// All options of a kind, but those by which it is opened.
const NAMES = Object.fromEntries(Object.entries(OF_FORMATS).map(([kind, names]) => [kind, [...names, ...OF_CALLS[kind]]]));
/** What resolvedOptions does not tell. */
export const HOW_OPENED = ["book", "fallback"];
// The options of the rounding that do something where nothing says at which place.
const UNPLACED = { compact: ["roundingMode"], standard: ["roundingMode", "roundingIncrement"], cash: ["roundingMode"] };
// The kinds of numbers that a skeleton may ask for beside plain ones, by a word that it then has.
const OF_SKELETONS = {
  compact: (word) => ["K", "KK", "compact-short", "compact-long"].includes(word), currency: (word) => word.startsWith("currency/"),
  percent: (word) => ["%", "percent", "permille"].includes(word),
};
// The words of a skeleton by which compact numbers have digits of their own.
const OF_PRECISION = /^(?:[.@]|precision-|rounding-mode-)/;

/** Whether a rounding looks at halves, and else takes the nearest. */
export const isOfHalves = (mode) => mode >= MODES.halfExpand;

/**
 * What the options of a call say: `how` in the library's words, behind their count, and the rounding that is asked for. Where `learned` says so it is
 * made at another place than these have: at the last digit that is `shown` of a compact number, or of an amount by the `currency`, and then to a
 * multiple of that digit, of the currency's own where it is 0.
 * @typedef {{ kind: string, how: Int32Array, rounding: number, multiple: number, learned: string | null, units?: Map<number, Int32Array> }} Call
 */

/** The words of options. Without one nothing is changed. `least` and `most` are significant digits. */
export function wordsOf({ sign = 0, mode = 0, position = 0, increment = 0, zeros = 0, integer = 0, fraction = 0, least = 0, most = 0, priority = 0 }) {
  return Int32Array.of(10, sign, mode, position, increment, zeros, integer, fraction, least, most, priority);
}

/** The words for a number that is not rounded, with so many digits of the fraction at least. */
export const asGiven = (fraction) => wordsOf({ mode: CURRENCY_DIGITS.given, fraction });

/**
 * The options of these names that say something. Each is read once, of what an object inherits too, as Intl has it.
 * @param {Record<string, any>} options
 * @returns {Record<string, any>}
 */
export function saidOf(options, names) {
  const found = {};
  for (const name of names) {
    const value = options[name];
    if (value !== undefined) found[name] = value;
  }
  return found;
}

/**
 * The number that a word of an option has.
 * @param {Record<string, any>} options
 * @param {Record<string, any>} table
 */
export function chosen(options, name, table, otherwise) {
  const word = options[name] === undefined ? otherwise : options[name];
  const isWord = typeof word === "boolean" || (typeof word === "string" && word !== "true" && word !== "false");
  if (!isWord || !Object.hasOwn(table, String(word))) {
    throw new RangeError(`${name} is one of ${Object.keys(table).join(", ")}, and not ${String(word)}`);
  }
  return table[String(word)];
}

/** A whole number from `least` to `most`; undefined where the option is not given. */
export function whole(options, name, least, most) {
  const number = options[name];
  if (number !== undefined && !(Number.isInteger(number) && number >= least && number <= most)) {
    throw new RangeError(`${name} is a whole number from ${least} to ${most}, and not ${String(number)}`);
  }
  return number;
}

// Fraction digits as Intl has them: at most so many, and at least so many, zeros at the end among them. Of an amount as many are shown at least as
// at most, where nothing else is said, and by an increment as many at most as at least.
function fractionOf(kind, options) {
  const given = whole(options, "maximumFractionDigits", 0, MOST);
  const least = whole(options, "minimumFractionDigits", 0, MOST) ?? (kind === "currency" ? given : undefined);
  const isBoth = kind !== "currency" && options.position === undefined && (options.roundingIncrement ?? 1) !== 1;
  const most = given ?? (isBoth ? least : undefined);
  if (most !== undefined && least > most) throw new RangeError(`minimumFractionDigits ${least} is above maximumFractionDigits ${most}`);
  if (most !== undefined && options.position !== undefined) throw new RangeError("maximumFractionDigits and position both say where to round");
  return { least, most };
}

// Significant digits as Intl has them, and whether only they count; null where there are none.
function significantOf(options) {
  const least = whole(options, "minimumSignificantDigits", 1, MOST_SIGNIFICANT);
  const most = whole(options, "maximumSignificantDigits", 1, MOST_SIGNIFICANT);
  const priority = chosen(options, "roundingPriority", PRIORITIES, "auto");
  if (most !== undefined && least > most) throw new RangeError(`minimumSignificantDigits ${least} is above maximumSignificantDigits ${most}`);
  if (least !== undefined || most !== undefined) return { least: least ?? 1, most: most ?? MOST_SIGNIFICANT, priority };
  if (priority !== 0) throw new RangeError(`roundingPriority ${options.roundingPriority} needs maximumSignificantDigits or minimumSignificantDigits`);
  return null;
}

/**
 * A rounding at a position to multiples of an increment, which Intl has as 1, 2, 5 or 25 times a power of ten, as the library has it: `fraction` is
 * how many digits have to be shown for it.
 * @returns {{ position: number, increment: number, fraction: number }}
 */
export function multiplesOf(given, position) {
  let [increment, tens] = [given, 0];
  for (; increment % 10 === 0; increment /= 10) tens += 1;
  if (position + tens > MOST) throw new RangeError(`roundingIncrement ${given} is above ten to the power ${MOST} there`);
  return { position: position + tens, increment: increment === 1 ? 0 : increment, fraction: tens > 0 && position < 0 ? -position : 0 };
}

function incrementOf(options) {
  const given = options.roundingIncrement ?? 1;
  if (!INCREMENTS.includes(given)) throw new RangeError(`roundingIncrement is one of ${INCREMENTS.join(", ")}, and not ${String(given)}`);
  return given;
}

// The rounding where nothing says at which place: none, but that of amounts to the digits of their currency, and that of what is shown of a compact
// number.
function unplacedOf(kind, options, rounding, fraction = 0) {
  const mode = kind === "currency" ? chosen(options, "currencyDigits", CURRENCY_DIGITS, "standard") : 0;
  const does = UNPLACED[kind === "currency" ? (options.currencyDigits ?? "standard") : kind] ?? [];
  const idle = ["roundingMode", "roundingIncrement"].find((it) => options[it] !== undefined && !does.includes(it));
  if (idle !== undefined) throw new RangeError(`${idle} rounds nothing ${mode === 0 ? "without maximumFractionDigits or position" : "of such currencyDigits"}`);
  const multiple = options.roundingIncrement === undefined ? 0 : incrementOf(options);
  const isOwn = rounding === MODES.halfEven && multiple === 0; // the library's
  const place = { compact: "shown", currency: "currency" }[kind];
  return { words: { mode, fraction, zeros: chosen(options, "trailingZeroDisplay", ZEROS, "auto") }, multiple, learned: isOwn || mode === CURRENCY_DIGITS.given ? null : (place ?? null) };
}

// The rounding at the place that is said, and what its fraction shows then. A compact number may show no digit there.
function placedOf(kind, options, { least, most }, mode) {
  const given = incrementOf(options);
  if (given !== 1 && most !== undefined && most !== least) throw new RangeError("roundingIncrement asks for as many fraction digits at least as at most");
  const { position, increment, fraction } = multiplesOf(given, most === undefined ? options.position : 0 - most);
  const isTrimmed = most !== undefined && most !== (least ?? 0);
  const shown = isTrimmed || most === undefined ? Math.max(least ?? 0, fraction) : fraction;
  const zeros = chosen(options, "trailingZeroDisplay", ZEROS, "auto") + (isTrimmed ? 1 : 0);
  return { words: { mode, position, increment, zeros, fraction: shown }, multiple: 0, learned: kind === "compact" ? "shown" : null };
}

// The rounding to significant digits, alone or beside the place that is said, which is that of a currency where nothing says another.
function significantRounding(kind, options, found, rounding, { priority, ...digits }, isPlaced) {
  if (incrementOf(options) !== 1) throw new TypeError("roundingIncrement is of fraction digits, and not of significant ones");
  const beside = ["currencyDigits", ...(priority === 0 ? ["position"] : [])].find((it) => options[it] !== undefined);
  if (beside !== undefined) throw new RangeError(`${beside} says how to round, and so do significant digits`);
  if (priority !== 0 && !isPlaced && kind !== "currency") throw new RangeError(`roundingPriority ${options.roundingPriority} needs maximumFractionDigits or position`);
  const zeros = chosen(options, "trailingZeroDisplay", ZEROS, "auto");
  if (priority === 0) return { words: { mode: rounding, zeros, ...digits }, multiple: 0, learned: null };
  const { words } = isPlaced ? placedOf(kind, options, found, rounding) : { words: { fraction: found.least, zeros } };
  return { words: { ...words, ...digits, priority }, multiple: 1, learned: isPlaced ? null : "currency" };
}

// The rounding of a number, wherever it is.
function roundingOf(kind, options) {
  const found = fractionOf(kind, options);
  const rounding = chosen(options, "roundingMode", MODES, "halfExpand");
  const isPlaced = found.most !== undefined || whole(options, "position", -32768, MOST) !== undefined;
  if (isPlaced && options.currencyDigits !== undefined) throw new RangeError("currencyDigits says how to round, and so does maximumFractionDigits or position");
  const digits = significantOf(options);
  if (digits !== null) return { rounding, ...significantRounding(kind, options, found, rounding, digits, isPlaced) };
  return { rounding, ...(isPlaced ? placedOf(kind, options, found, rounding) : unplacedOf(kind, options, rounding, found.least)) };
}

// What the options of a call say.
function callOf(kind, options) {
  const sign = chosen(options, "signDisplay", SIGNS, "auto");
  const { words, ...rounding } = roundingOf(kind, options);
  return { kind, how: wordsOf({ sign, integer: whole(options, "minimumIntegerDigits", 1, MOST), ...words }), ...rounding };
}

// Each option that says something, as it was given or as it is without.
function resolvedOf(kind, options, how) {
  const [mode, least, priority] = [how[2], how[8], how[10]];
  /** @type {Record<string, any>} */
  const found = { useGrouping: kind === "compact" ? "min2" : "auto", signDisplay: "auto", ...options };
  if (found.useGrouping === true) found.useGrouping = "always";
  if (kind === "compact") found.compactDisplay ??= "short";
  if (kind === "scientific") found.notation ??= "scientific";
  if (kind === "currency") {
    found.currencySign ??= "standard";
    found.currencyDisplay ??= "symbol";
    if (!Object.values(MODES).includes(mode)) found.currencyDigits ??= "standard";
  }
  const isRounded = kind === "compact" || (kind === "currency" ? mode !== CURRENCY_DIGITS.given : mode !== 0);
  if (isRounded) found.roundingMode ??= "halfExpand";
  if (least !== 0) found.minimumSignificantDigits ??= 1;
  if (least !== 0 && priority === 0) for (const idle of ["minimumFractionDigits", "maximumFractionDigits"]) delete found[idle];
  return found;
}

// What is opened by the text of a skeleton, whose options are the formatter's own.
function ofSkeleton(skeleton) {
  if (typeof skeleton !== "string") throw new TypeError("skeleton is a string, as percent .00");
  const words = skeleton.split(" ");
  const found = Object.keys(OF_SKELETONS).find((it) => words.some(OF_SKELETONS[it])) ?? "decimal";
  const kind = found === "compact" && words.some((it) => OF_PRECISION.test(it)) ? "compactDigits" : found;
  return openedBy(skeleton, kind, { skeleton });
}

// What is opened by the words of a skeleton, which say all that its calls do.
function openedBy(skeleton, kind, resolved) {
  /** @type {Call} */
  const call = { kind, how: NONE, rounding: 0, multiple: 0, learned: null };
  return { format: NONE, unit: skeleton, isSkeleton: true, key: `skeleton ${skeleton}`, call, resolved };
}

// Compact numbers with digits of their own: how these are said is as of plain numbers, and without a precision they are the usual ones.
function ofCompactDigits(given) {
  const options = PRECISIONS.some((it) => given[it] !== undefined) || (given.roundingPriority ?? "auto") !== "auto" ? given : { ...given, ...USUAL_COMPACT };
  if (options.position !== undefined) throw new RangeError("position is of compact numbers without options of digits");
  chosen(options, "useGrouping", GROUPINGS, "min2");
  chosen(options, "compactDisplay", WIDTHS, "short");
  chosen(options, "signDisplay", SIGNS_OF_WORDS, "auto");
  for (const name of COUNTS) whole(options, name, 0, MOST_OF_WORDS);
  const { how } = callOf("decimal", options);
  return openedBy(compactSkeleton(options), "compactDigits", resolvedOf("compact", options, how));
}

function ofWords(kind, options) {
  const { currency: unit = "" } = options;
  if (kind === "currency" && typeof options.currency !== "string") throw new TypeError("currency is a string, the code of a currency");
  const grouping = chosen(options, "useGrouping", GROUPINGS, kind === "compact" ? "min2" : "auto");
  const [style, display] = [chosen(options, "currencySign", CURRENCY_SIGNS, "standard"), chosen(options, "currencyDisplay", CURRENCY_DISPLAYS, "symbol")];
  const width = chosen(options, "compactDisplay", WIDTHS, "short");
  const notation = { compact: 1, scientific: chosen(options, "notation", SCIENTIFIC, "scientific") }[kind] ?? 0;
  const format = Int32Array.of(6, notation, width, UNITS[kind] ?? 0, style, display, grouping);
  const call = callOf(kind, options);
  return { format, unit, isSkeleton: false, key: `${format} ${unit}`, call, resolved: resolvedOf(kind, options, call.how) };
}

/** Refuses what is no options, or has one of another name than these. */
export function checked(options, names, of) {
  if (typeof options !== "object" || options === null) throw new TypeError("options are an object");
  const unknown = Object.keys(options).find((it) => !names.includes(it));
  if (unknown !== undefined) throw new RangeError(`${unknown} is no option${of}: there are ${names.join(", ") || "none"}`);
}

// What is said by no options, of each kind.
const defaults = new Map();

/**
 * What a kind of formatters, as `decimal`, is opened with: the words of its format, with the code of its currency, or a skeleton; `key` is one text for
 * all that have both alike. `call` is what the options say to calls that are given none, and `resolved` what resolvedOptions tells.
 * @typedef {{ format: Int32Array, unit: string, isSkeleton: boolean, hasPlurals?: boolean, key: string, call: Call, resolved: Record<string, any> }} Opening
 * @returns {Opening}
 */
export function readOptions(kind, options) {
  checked(options, [...HOW_OPENED, ...NAMES[kind]], "");
  const said = saidOf(options, NAMES[kind]);
  if (kind === "skeleton") return ofSkeleton(said.skeleton);
  if (kind === "compact" && OF_OWN_DIGITS.some((it) => it in said)) return ofCompactDigits(said);
  if (Object.keys(said).length > 0) return ofWords(kind, said);
  if (!defaults.has(kind)) defaults.set(kind, ofWords(kind, {}));
  return defaults.get(kind);
}

/**
 * What the options of a call say of numbers of a kind.
 * @returns {Call}
 */
export function readCall(kind, options) {
  checked(options, OF_CALLS[kind], " of a call");
  return callOf(kind, options);
}
