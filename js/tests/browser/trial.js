// A page with one field, what is seen of it, and what has to agree after each edit.
import { CurrencyFormatter, DecimalFormatter, PercentFormatter } from "./index.js";
import { compare } from "./field-decimals.js";
import "./number-field.js";

const SEEN = ["badInput", "valueMissing", "rangeUnderflow", "rangeOverflow", "stepMismatch", "customError"];
/** The input inside. */
export const input = () => globalThis.field.shadowRoot.querySelector("input");
// Without marks of direction, and with plain spaces.
const plain = (text) => text.replace(/[\u061c\u200e\u200f]/g, "").replace(/[\u00a0\u202f]/g, " ");

function formatterOf(locale) {
  const { currency, percent } = globalThis.field;
  if (currency !== null) return new CurrencyFormatter(locale, { currency: currency.toUpperCase(), currencyDigits: "given" });
  return percent ? new PercentFormatter(locale) : new DecimalFormatter(locale);
}

/** The readers of the field's locale: its own, and that with the digits 0 to 9, to which its own digits are those. */
export function readers() {
  const { locale } = globalThis.field.formatter.resolvedOptions();
  const [own, latin] = [locale, new Intl.Locale(locale, { numberingSystem: "latn" })].map(formatterOf);
  const digits = own.formatToParts("9876543210").flatMap(({ type, value }) => (type === "integer" ? [...value] : []));
  const ascii = new Map(digits.map((it, at) => [it, String(9 - at)]));
  return [(text) => own.readLenient(text), (text) => latin.readLenient([...text].map((it) => ascii.get(it) ?? it).join(""))];
}

function numberOf(text, all) {
  for (const read of all) {
    try {
      return read(text);
    } catch {
      // the next one may
    }
  }
  return null;
}

/** What does not agree in the field: its text, its value, what the form sends, and what is wrong; empty where all does. */
export function disagreements(all = readers()) {
  const { field, form } = globalThis;
  const { text, value, validity } = field;
  const sent = new FormData(form).get("field");
  const number = text === "" ? "" : numberOf(text, all);
  const said = [];
  if (text !== input().value) said.push(`text is ${text}, and ${input().value} is shown`);
  if (sent !== (field.matches(":disabled") ? null : value)) said.push(`${sent} is sent, and value is ${value}`);
  if (number === null || number === "" ? value !== "" : value === "" || compare(number.replace("+", ""), value) !== 0) said.push(`${text} is shown, and value is ${value}`);
  if (validity.badInput !== (text !== "" && value === "")) said.push(`badInput is ${validity.badInput} of ${text}`);
  if (validity.valueMissing !== (field.required && text === "")) said.push(`valueMissing is ${validity.valueMissing} of ${text}`);
  if (validity.valid !== SEEN.every((it) => !validity[it])) said.push(`valid is ${validity.valid}`);
  return said;
}

Object.assign(globalThis, {
  /** Puts a field there, with the focus and the caret at its end. */
  begin(attributes) {
    const { form } = globalThis;
    const field = document.createElement("number-field");
    for (const [name, value] of [["id", "field"], ["name", "field"], ...attributes]) field.setAttribute(name, value);
    form.replaceChildren(field);
    globalThis.field = field;
    field.focus();
    field.setSelectionRange(field.text.length, field.text.length);
  },

  /** What is seen of the field once the browser has told all. */
  async state() {
    for (let frame = 0; frame < 2; frame += 1) await new Promise(requestAnimationFrame);
    const { field, form } = globalThis;
    const { value, selectionStart, selectionEnd } = input();
    const [front, chosen, back] = [value.slice(0, selectionStart), value.slice(selectionStart, selectionEnd), value.slice(selectionEnd)].map(plain);
    return {
      text: plain(value), caret: `${front}${chosen === "" ? "|" : `[${chosen}]`}${back}`, sent: new FormData(form).get("field"),
      wrong: SEEN.filter((it) => field.validity[it]).join(" "), disagreements: field.formatter === null || field.validity.customError ? [] : disagreements(),
    };
  },

  /** Where the input is, and where its first character is and how wide each. */
  place() {
    const { left, right, top, bottom } = input().getBoundingClientRect();
    const { paddingLeft, borderLeftWidth, fontSize, fontFamily } = getComputedStyle(input());
    const context = document.createElement("canvas").getContext("2d");
    context.font = `${fontSize} ${fontFamily}`;
    return { left: left + 3, right: right - 3, middle: (top + bottom) / 2, first: left + parseFloat(paddingLeft) + parseFloat(borderLeftWidth), width: context.measureText("0").width };
  },
});
