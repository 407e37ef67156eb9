// What `tsc --strict` has to take, and what it has to refuse: a line after `@ts-expect-error` is refused.
import {
  Answers, Book, CompactDecimalFormatter, CurrencyFormatter, DecimalFormatter, ErrorNumber, LegumeyetError, LoadError, NumberFormat, NumberFormatter, PercentFormatter, PluralRules, ScientificFormatter, SkeletonError, normalSkeleton, version,
} from "legumeyet";
import type { CurrencyCallOptions, CurrencyFormatterOptions, DecimalFormatterOptions, NumberFormatOptions, NumberFormatPart, NumberFormatterOptions, Part, PluralCategory, PluralRulesOptions, Symbols } from "legumeyet";
import { load, loadSync, memorySize, setWorld } from "legumeyet/core";
import { FieldText } from "legumeyet/field";
import { CurrencyFormatter as Inside, init } from "legumeyet/inline";
import { NumberFormat as NumbersOfIntl, PluralRules as PluralsOfIntl } from "legumeyet/intl";
import type { PluralRulesOptions as OptionsOfIntl, ResolvedPluralRulesOptions as ResolvedOfIntl } from "legumeyet/intl";
import { PluralRules as PluralsOfCore } from "legumeyet/intl/core";
import locales from "legumeyet/locales";
import { MessageFunctionError, functions } from "legumeyet/messages";
import type { MessageFunction, MessageNumber } from "legumeyet/messages";
import { DecimalFormatter as OfPage, NumberFormat as NumbersOfPage, NumberFormatter as BySkeletonOfPage, PluralRules as PluralsOfPage, load as loadPage, loadSync as loadPageSync } from "legumeyet/page";
import { pageModule } from "legumeyet/pages";
import { install } from "legumeyet/polyfill";
import { smallerBook } from "legumeyet/smaller";

const options: DecimalFormatterOptions = { minimumFractionDigits: 2, maximumFractionDigits: 2, roundingMode: "halfEven", useGrouping: false };
const german = new DecimalFormatter(["de", new Intl.Locale("en")], options);
const texts: string[] = [1, "2", 3n].map(german.format);
texts.push(...german.formatAll(new Float64Array(1)), ...german.formatAll([1, "2", 3n]), ...german.formatAll(new BigInt64Array(1)));
const parts: Part[] = german.formatToParts(texts[0]);
const digits: string = german.read(german.readLenient("1"));
const locale: string = german.resolvedOptions().locale;
const short = new CompactDecimalFormatter("en", { compactDisplay: "short", book: new Book(smallerBook("[]", ["en"])), roundingMode: "floor" });
const answer: string = new Book(new Uint8Array(0)).keep().answer(short.formatExact(short.shown(5)));
const answered: string = new Answers().answer(new Answers(new Book("[]").keep(), 16).answer("x\n"));
const bytes: Uint8Array = new Answers(undefined, 1).answer(new Uint8Array(1));
const inAccounts: CurrencyFormatterOptions = { currency: "USD", currencySign: "accounting", currencyDisplay: "code", currencyDigits: "cash" };
const dollars = new CurrencyFormatter(undefined, { ...inAccounts, maximumFractionDigits: 2, fallback: new Intl.Locale("en") });
const same: CurrencyFormatter = new Inside("de", { currency: "EUR", useGrouping: "always", fallback: "en" });
const powers = new ScientificFormatter(["de", "en"], { notation: "engineering", maximumFractionDigits: 2, useGrouping: "min2", fallback: "en" });
texts.push(powers.format(5), powers.shown(5), powers.resolvedOptions().notation ?? "", ...ScientificFormatter.supportedLocalesOf("de", { notation: "scientific" }), ...powers.formatToParts(5).filter(({ type }) => type === "exponentInteger").map((it) => it.value));
const percent: string = new PercentFormatter("tr", options).read(dollars.readLenient(dollars.format(5)));
const types: string[] = [...dollars.formatToParts(5), ...new PercentFormatter().formatToParts("1")].filter(({ type }) => type === "currency" || type === "percentSign").map((it) => it.type);
const listed: string[] = [...new Book("[]").locales(), new Book("[]").foundLocale(new Intl.Locale("de-XX")), ...CurrencyFormatter.supportedLocalesOf("de", inAccounts), dollars.resolvedOptions().currency];
const supported: string[] = DecimalFormatter.supportedLocalesOf(["de"]);
const bySkeleton: NumberFormatterOptions = { skeleton: normalSkeleton("currency/EUR .00"), fallback: "en" };
const asked: CurrencyCallOptions = { maximumFractionDigits: 2, signDisplay: "always", maximumSignificantDigits: 3, roundingPriority: "morePrecision", trailingZeroDisplay: "stripIfInteger" };
const euros = new NumberFormatter("de", bySkeleton);
texts.push(euros.format(5, asked), euros.resolvedOptions().skeleton, german.shown(5), german.format(5, { position: 2 }), ...dollars.formatAll([1], { currencyDigits: "cash" }));
const faults: string[] = [new SkeletonError(201, "foo", 0)].map(({ fault, place, number }) => `${fault} ${place + number}`);
const ofRules: PluralRulesOptions = { type: "ordinal", minimumFractionDigits: 1, roundingMode: "floor", book: new Book("[]"), fallback: "en" };
const rules = new PluralRules(["pl", "en"], ofRules);
const categories: PluralCategory[] = [rules.select(1), rules.selectRange("1", 2n), ...rules.resolvedOptions().pluralCategories, new PluralsOfPage("de", { notation: "compact" }).select(5)];
const symbols: Symbols = german.symbols();
texts.push(...categories, ...PluralRules.supportedLocalesOf("de", { type: "cardinal" }), symbols.minus[0], ...symbols.digits, String(dollars.resolvedOptions().cashIncrement + (euros.resolvedOptions().currencyFractionDigits ?? 0)));
const asIntl: NumberFormatOptions = { style: "currency", currency: "EUR", currencySign: "accounting", useGrouping: "min2", roundingIncrement: 5, numberingSystem: "thai", localeMatcher: "lookup" };
const byIntl: NumberFormat = new NumberFormat(["de", new Intl.Locale("en")], asIntl);
class Own extends NumberFormat {}
const ofMessages: MessageFunction = functions.currency;
const ofMessage: MessageNumber = ofMessages({ locales: ["en"], onError: (error: MessageFunctionError) => void error.type }, { currency: "EUR" }, 5);
texts.push(String(ofMessage), ofMessage.selectKey?.(new Set(["one"])) ?? "", ofMessage.toParts()[0]?.parts[0]?.value ?? "");
// (the form in which the package messageformat takes functions)
interface MessageValue { readonly type: string; readonly locale?: string; readonly dir?: "ltr" | "rtl" | "auto"; readonly options?: Readonly<object>; selectKey?: (keys: Set<string>) => string | null; toParts?: () => { type: string }[]; toString?: () => string; valueOf?: () => unknown }
interface MessageContext { readonly dir: "ltr" | "rtl" | "auto" | undefined; readonly literalOptionKeys: Set<string>; readonly locales: string[]; onError(error: unknown): void }
const registered: Record<string, (context: MessageContext, options: Record<string, unknown>, operand?: unknown) => MessageValue> = functions;
texts.push(...Object.keys(registered));
const ofIntl: NumberFormatPart[] = NumberFormat("de").formatToParts(5n);
texts.push(...[1, "2", 3n].map(byIntl.format), byIntl.resolvedOptions().currency ?? "", ofIntl[0]?.type ?? "", new Own().format(5), ...NumberFormat.supportedLocalesOf("de", { localeMatcher: "best fit" }), new NumbersOfPage("de").formatRange(1, 2));
const intlRules: OptionsOfIntl = { type: "ordinal", notation: "compact", compactDisplay: "long", maximumFractionDigits: 1, roundingMode: "trunc", localeMatcher: "lookup" };
const resolvedRules: ResolvedOfIntl = new PluralsOfIntl(["de", new Intl.Locale("en")], intlRules).resolvedOptions();
class OwnRules extends PluralsOfIntl {}
texts.push(resolvedRules.pluralCategories[0] ?? "", new OwnRules("pl").select(5n), new PluralsOfCore("pl").selectRange("1", 2), ...PluralsOfIntl.supportedLocalesOf("de", { localeMatcher: "lookup" }), NumbersOfIntl("de", asIntl).format(5));
const restore: () => void = install(["NumberFormat", "PluralRules"]);
restore();
const { value, text, caret } = new FieldText(german).edited("1", 1, { front: 0, back: 0 });
german[Symbol.dispose]();
const world: Book = setWorld("[]");
const response = { ok: true, status: 200, statusText: "", arrayBuffer: async () => new ArrayBuffer(0) };
const loaded: Promise<void>[] = [load(new Uint8Array(0)), load(response), init(), loadPage(response)];
loadSync(new ArrayBuffer(0));
loadPageSync(pageModule(new Uint8Array(0), "[]", ["en"]));
const told: (string | number | null | undefined)[] = [
  digits, locale, answer, value, text, caret, ...supported, ...locales, same.format(5), new OfPage("en").format(5), memorySize(), version(), world.closed ? 1 : 0, ErrorNumber.TAG,
  new LegumeyetError(5).word, new LoadError("a", "fetch", "b").reason, parts[0]?.type, percent, answered, bytes.length, ...types, ...listed, ...faults, new BySkeletonOfPage("en", { skeleton: "percent" }).format(5), ErrorNumber.CODE, ErrorNumber.SKELETON_PAIR,
];
export { told, loaded };

// @ts-expect-error
german.format(null);
// @ts-expect-error
german.formatAll([null]);
// @ts-expect-error
german.formatAll(5);
// @ts-expect-error
new DecimalFormatter("de", { style: "percent" });
texts.push(new CompactDecimalFormatter("de", { maximumFractionDigits: 2, maximumSignificantDigits: 2, roundingPriority: "lessPrecision" }).format(5));
// @ts-expect-error
short.format(5, { maximumFractionDigits: 2 });
powers.format(5, { maximumFractionDigits: 2 });
// @ts-expect-error
new ScientificFormatter("de", { notation: "compact" });
// @ts-expect-error
german.format(5, { roundingPriority: "more" });
// @ts-expect-error
new DecimalFormatter("de", { fallback: 5 });
// @ts-expect-error
german.resolvedOptions().fallback;
// @ts-expect-error
load("legumeyet.wasm");
// @ts-expect-error
german.read(5);
// @ts-expect-error
german.locale;
// @ts-expect-error
new CurrencyFormatter("de");
// @ts-expect-error
new CurrencyFormatter("de", { currency: "EUR", currencyDisplay: "name" });
// @ts-expect-error
new PercentFormatter("de", { currency: "EUR" });
// @ts-expect-error
new Answers({ capacity: 5 });
// @ts-expect-error
new Answers().answer(["x"]);
// @ts-expect-error
new NumberFormatter("de");
// @ts-expect-error
new NumberFormatter("de", { skeleton: "", signDisplay: "always" });
// @ts-expect-error
german.format(5, { useGrouping: false });
// @ts-expect-error
german.format(5, "always");
// @ts-expect-error
short.format(5, { maximumFractionDigits: 1 });
// @ts-expect-error
euros.resolvedOptions().signDisplay;
// @ts-expect-error
new PluralRules("de", { type: "other" });
// @ts-expect-error
new PluralRules("de", { signDisplay: "auto" });
// @ts-expect-error
rules.selectRange(1);
// @ts-expect-error
german.resolvedOptions().cashIncrement;
// @ts-expect-error
export { Formatter } from "legumeyet/core";
// @ts-expect-error
export { Open } from "legumeyet/core";

// @ts-expect-error
new NumberFormat("de", { style: "money" });
// @ts-expect-error
new NumberFormat("de", { signDisplay: "keep" });
// @ts-expect-error
byIntl.format(null);
// @ts-expect-error
install(["DateTimeFormat"]);
// @ts-expect-error
new PluralsOfIntl("de", { book: new Book("[]") });
// @ts-expect-error
new PluralsOfIntl("de").select(null);
// @ts-expect-error
PluralsOfIntl("de");
// @ts-expect-error
new NumbersOfIntl("de", { fallback: "en" });
