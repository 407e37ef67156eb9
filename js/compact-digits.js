// Compact numbers with digits of their own, as 1.23K. The library has them by skeletons, so that their options become the words of one.
const NOTATION_WORDS = { short: "compact-short", long: "compact-long" };
const GROUPING_WORDS = { auto: "group-auto", false: "group-off", always: "group-on-aligned", true: "group-on-aligned", min2: "group-min2" };
/** The signs that skeletons have, by Intl's words. */
export const SIGNS_OF_WORDS = { auto: "sign-auto", never: "sign-never", always: "sign-always", exceptZero: "sign-except-zero", negative: "sign-negative" };
const MODE_WORDS = {
  expand: "up", trunc: "down", ceil: "ceiling", floor: "floor",
  halfExpand: "half-up", halfTrunc: "half-down", halfCeil: "half-ceiling", halfFloor: "half-floor", halfEven: "half-even",
};
/** So many digits a word of a skeleton asks for at most. */
export const MOST_OF_WORDS = 100;
/** The digits of compact numbers where no option says them. */
export const USUAL_COMPACT = { minimumFractionDigits: 0, maximumFractionDigits: 0, minimumSignificantDigits: 1, maximumSignificantDigits: 2, roundingPriority: "morePrecision" };

// Digits that are shown, and behind them those that are shown where there are some.
const digitsWord = (sign, least, most) => sign.repeat(least) + "#".repeat(most - least);

// Multiples of the last of so many digits of a fraction: of 25 by two they are 0.25.
function incrementWord(increment, digits) {
  const shown = String(increment).padStart(digits + 1, "0");
  const point = shown.length - digits;
  return `precision-increment/${shown.slice(0, point)}${digits > 0 ? "." : ""}${shown.slice(point)}`;
}

function precisionWord(options) {
  const { minimumFractionDigits: least, maximumFractionDigits: most, minimumSignificantDigits: first, maximumSignificantDigits: last } = options;
  const { roundingIncrement = 1, roundingPriority = "auto" } = options;
  if (roundingIncrement !== 1) return incrementWord(roundingIncrement, most ?? least);
  const fraction = `.${digitsWord("0", least ?? 0, most ?? MOST_OF_WORDS)}`;
  if (first === undefined && last === undefined) return fraction;
  const significant = digitsWord("@", first ?? 1, last ?? MOST_OF_WORDS);
  return roundingPriority === "auto" ? significant : `${fraction}/${significant}${roundingPriority === "morePrecision" ? "r" : "s"}`;
}

/**
 * The skeleton of compact numbers by options in Intl's words, which are checked before.
 * @param {Record<string, any>} options
 */
export function compactSkeleton(options) {
  const { compactDisplay = "short", useGrouping = "min2", signDisplay = "auto", roundingMode = "halfExpand", minimumIntegerDigits: width = 1 } = options;
  const precision = `${precisionWord(options)}${options.trailingZeroDisplay === "stripIfInteger" ? "/w" : ""}`;
  const integer = width === 1 ? [] : [`integer-width/*${"0".repeat(width)}`];
  return [NOTATION_WORDS[compactDisplay], precision, `rounding-mode-${MODE_WORDS[roundingMode]}`, GROUPING_WORDS[useGrouping], ...integer, SIGNS_OF_WORDS[signDisplay]].join(" ");
}
