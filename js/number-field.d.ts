import type { CurrencyFormatter, DecimalFormatter, PercentFormatter } from "./core.js";

/** The direction in which a locale is written. */
export function directionOf(locale: string): "rtl" | "ltr";

/** `<number-field locale="de">`: a form field of a number; with `currency="EUR"` of an amount, with `percent` of percents. */
export class NumberField extends HTMLElement {
  /** The number as digits; empty where there is none. */
  value: string;
  /** The attribute `value`: the number at first, and after a reset. */
  defaultValue: string;
  locale: string;
  /** The code of the currency, or null. */
  currency: string | null;
  /** Whether it is of percents; a currency comes first. */
  percent: boolean;
  name: string | null;
  required: boolean;
  disabled: boolean;
  readOnly: boolean;
  placeholder: string;
  /** Digits, as `-1234.50`; empty where there is none. */
  min: string;
  max: string;
  /** Digits, `any`, or empty. */
  step: string;
  selectionStart: number | null;
  selectionEnd: number | null;
  /** What is shown. */
  readonly text: string;
  /** Null where numbers can't be read. */
  readonly formatter: DecimalFormatter | PercentFormatter | CurrencyFormatter | null;
  readonly type: "number-field";
  readonly form: HTMLFormElement | null;
  readonly labels: NodeList;
  readonly validity: ValidityState;
  readonly validationMessage: string;
  readonly willValidate: boolean;
  select(): void;
  setSelectionRange(start: number, end: number, direction?: "forward" | "backward" | "none"): void;
  checkValidity(): boolean;
  reportValidity(): boolean;
  /** A message of the page's own; the field is invalid until it is empty. */
  setCustomValidity(message: string): void;
}

declare global {
  interface HTMLElementTagNameMap {
    "number-field": NumberField;
  }
}
