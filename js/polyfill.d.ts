/** A class of Intl that the library has one in place of. */
export type InPlace = "NumberFormat" | "PluralRules";

/**
 * Puts classes of the library in the place of Intl's, both without a list of names. The library and a book are loaded before. What the library cannot do
 * the engine's own do. Returns what puts back the engine's own.
 */
export function install(names?: readonly InPlace[]): () => void;
