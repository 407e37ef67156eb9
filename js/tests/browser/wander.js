// Random edits of a field, by a seed, each followed by a look at what has to agree. The browser's own editing commands make most of them, whose
// events it trusts; keys for undo and redo, and what an input method tells, are events of this page.
import { disagreements, input, readers } from "./trial.js";

const LOCALES = ["en", "de", "fr", "hi", "ar-EG", "fa", "he", "ur", "sv", "de-CH", "es", "bn", "ar-AE", "ff-Adlm", "tlh", "de_AT", "!!"];
const CURRENCIES = [null, null, "EUR", "USD", "JPY", "EGP", "ILS", "INR", "CHF", "euro"];
const TEXTS = [..."0123456789012345678901234567890123456789.,.,-+ x€$%٣५３", "1,234.50", "-5", "1.5", "1,5", "€5", "5 €", "1 234", "000", "12345678", "-", ".", "\u061c", "\u22127"];
const VALUES = ["", "5", "-1234567.5", "0.00", "007", "1e3", "1,5", "x", "12345678901234567890"];

// A generator of numbers below a bound, by mulberry32.
function generator(seed) {
  let state = [...seed].reduce((it, char) => Math.imul(it ^ char.codePointAt(0), 0x9e3779b1), 0x811c9dc5);
  return (bound) => {
    state = (state + 0x6d2b79f5) | 0;
    let it = Math.imul(state ^ (state >>> 15), state | 1);
    it ^= it + Math.imul(it ^ (it >>> 7), it | 61);
    return ((it ^ (it >>> 14)) >>> 0) % bound;
  };
}

function composed(text, isDone) {
  const it = input();
  it.setRangeText(text, it.selectionStart, it.selectionEnd, "end");
  it.dispatchEvent(new InputEvent("input", { isComposing: true, inputType: "insertCompositionText", data: text, bubbles: true, composed: true }));
  if (isDone) it.dispatchEvent(new CompositionEvent("compositionend", { data: text, bubbles: true, composed: true }));
}

function set(name, value) {
  const { field } = globalThis;
  if (value === null) field.removeAttribute(name);
  else field.setAttribute(name, value);
}

// The edits, each as often as its number says.
function edits(below) {
  const one = (list) => list[below(list.length)];
  const command = (name, text) => document.execCommand(name, false, text);
  const key = (name, more) => input().dispatchEvent(new KeyboardEvent("keydown", { key: name, bubbles: true, cancelable: true, composed: true, ...more }));
  const caret = () => {
    const [start, end] = [below(input().value.length + 1), below(4) === 0 ? below(input().value.length + 1) : null];
    input().setSelectionRange(end === null ? start : Math.min(start, end), end === null ? start : Math.max(start, end));
  };
  const all = [
    [40, "type", () => command("insertText", one(TEXTS))], [12, "backspace", () => command("delete")], [10, "delete", () => command("forwardDelete")],
    [14, "caret", caret], [2, "select all", () => input().select()], [4, "undo", () => key("z", { ctrlKey: true })], [3, "redo", () => key("y", { ctrlKey: true })],
    [2, "menu undo", () => command("undo")], [2, "menu redo", () => command("redo")], [2, "up", () => key("ArrowUp")], [2, "down", () => key("ArrowDown")],
    [2, "compose", () => composed(one(TEXTS), below(2) === 0)], [2, "leave", () => { input().blur(); globalThis.field.focus(); }],
    [1, "locale", () => set("locale", one(LOCALES))], [1, "currency", () => set("currency", one(CURRENCIES))], [1, "percent", () => globalThis.field.toggleAttribute("percent")],
    [1, "value", () => { globalThis.field.value = one(VALUES); }], [1, "attribute", () => set("value", one(VALUES))], [1, "reset", () => globalThis.form.reset()],
    [1, "required", () => globalThis.field.toggleAttribute("required")], [1, "min", () => set("min", one([null, "0", "-5.5", "x"]))], [1, "step", () => set("step", one([null, "any", "0.25", "3"]))],
  ];
  return all.flatMap(([times, name, act]) => Array(times).fill([name, act]));
}

/** Makes so many edits; returns the first after which something does not agree, with what was done before it, or null. */
export function wander(seed, count) {
  const below = generator(seed);
  const all = edits(below);
  const done = [];
  let [formatter, reading] = [null, []];
  globalThis.begin([["locale", "en"]]);
  for (let at = 0; at < count; at += 1) {
    const { field } = globalThis;
    const [name, act] = all[below(all.length)];
    act();
    if (field.formatter !== formatter) [formatter, reading] = [field.formatter, field.formatter === null ? [] : readers()];
    done.push(`${name}: ${field.locale} ${field.currency ?? ""} ${JSON.stringify(field.text)} at ${field.selectionStart} is ${JSON.stringify(field.value)}`);
    if (done.length > 6) done.shift();
    const found = disagreements(reading);
    if (found.length > 0) return { at, found, done };
  }
  return null;
}
