import type { Bytes, CompiledModule, FileResponse } from "./core.js";
export {
  CallOptions, CompactDecimalFormatter, CompactDecimalFormatterOptions, CurrencyCallOptions, CurrencyDigits, CurrencyFormatter, CurrencyFormatterOptions,
  DecimalCallOptions, DecimalFormatter, DecimalFormatterOptions, ErrorNumber, FormatterOptions, LegumeyetError, LoadError, Locales, Num, NumberFormat,
  NumberFormatConstructor, NumberFormatOptions, NumberFormatPart, NumberFormatter, NumberFormatterOptions, Part, PercentFormatter, PercentFormatterOptions,
  PluralCategory, PluralRules, PluralRulesOptions, ResolvedNumberFormatOptions, ResolvedOptions, ResolvedPluralRulesOptions, RoundingIncrement, RoundingMode,
  ScientificFormatter, ScientificFormatterOptions, SignDisplay, SkeletonError, Symbols, UseGrouping, memorySize, normalSkeleton, version,
} from "./core.js";

/** Takes the module that `legumeyet-page` makes: its bytes, a WebAssembly.Module, or the response to a request for it, or its promise. A second call does nothing. */
export function load(source: Bytes | CompiledModule | FileResponse | Promise<FileResponse>): Promise<void>;
/** Takes the module at once. */
export function loadSync(source: Bytes | CompiledModule): void;
