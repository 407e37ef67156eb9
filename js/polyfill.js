// NumberFormat and PluralRules of the library in the place of those of Intl. What the library cannot do the engine's own do, so that a program goes on
// as before. Nothing is changed until `install` is called.
import { sourceOf } from "./books.js";
import { pluralRulesOver } from "./intl-plurals.js";
import { numberFormatOver } from "./number-format.js";

const MAKERS = { NumberFormat: numberFormatOver, PluralRules: pluralRulesOver };
const NEW = { writable: true, configurable: true }; // as a class of Intl is, where the engine has none

// Puts a class in the place of Intl's. Returns what puts back the engine's own, where no other is there by then.
function replaced(name) {
  const described = Object.getOwnPropertyDescriptor(Intl, name);
  const Own = MAKERS[name](described?.value ?? null);
  Object.defineProperty(Intl, name, { ...(described === undefined ? NEW : {}), value: Own });
  return () => {
    if (Intl[name] !== Own) return;
    if (described === undefined) Reflect.deleteProperty(Intl, name);
    else Object.defineProperty(Intl, name, described);
  };
}

/**
 * Puts classes of the library in the place of Intl's, all without a list of names. The library and a book are loaded before. Returns what puts back the
 * engine's own.
 */
export function install(names = Object.keys(MAKERS)) {
  const unknown = names.find((it) => !Object.hasOwn(MAKERS, it));
  if (unknown !== undefined) throw new RangeError(`${unknown} is no class that is put in place: there are ${Object.keys(MAKERS).join(", ")}`);
  sourceOf(); // which throws where there is no book
  const undone = [];
  const restore = () => undone.forEach((undo) => undo());
  try {
    for (const name of names) undone.unshift(replaced(name));
  } catch (error) {
    restore(); // where a class may not be replaced none is
    throw error;
  }
  return restore;
}
