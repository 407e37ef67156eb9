// The formatters, and their errors.
export { ErrorNumber, LegumeyetError, LoadError, version } from "./instance.js";
export { CompactDecimalFormatter, CurrencyFormatter, DecimalFormatter, NumberFormatter, PercentFormatter, ScientificFormatter } from "./formatters.js";
export { NumberFormat } from "./number-format.js";
export { PluralRules } from "./plurals.js";
export { SkeletonError, normalSkeleton } from "./skeletons.js";
