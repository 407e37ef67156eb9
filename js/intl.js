// NumberFormat and PluralRules in Intl's place, with the library and the world's book, for browsers, and for all that fetches.
import "./index.js";

export * from "./intl-core.js";
