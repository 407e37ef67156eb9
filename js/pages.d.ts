/** What a page's module may be made without: compact numbers, percents and amounts, what reads texts, skeletons, and plural rules. */
export type PagePart = "compact" | "units" | "read" | "skeletons" | "plurals";
export const PARTS: readonly PagePart[];

/**
 * The WebAssembly module of a page, for `load` of `legumeyet/page`: that of `page.wasm` with the tables of the locales of these tags inside, and
 * those below them, as `smallerBook` has them. What it is made without is no call of it, and throws an Error.
 */
export function pageModule(module: Uint8Array, json: string, tags: readonly string[], options?: { without?: readonly PagePart[] }): Uint8Array;
