// NumberFormat and PluralRules in Intl's place, over a module and a book of one's own.
export { NumberFormat } from "./number-format.js";
export { PluralRules } from "./intl-plurals.js";
