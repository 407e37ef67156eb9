import type { CurrencyFormatter, DecimalFormatter, Num, PercentFormatter } from "./core.js";

export type FieldFormatter = DecimalFormatter | PercentFormatter | CurrencyFormatter;

/** What a field shows. */
export interface FieldState {
  readonly text: string;
  readonly caret: number;
  /** The number as digits, null where the text is none and empty where it is empty. */
  readonly value: string | null;
  /** The places of the characters that the field wrote by itself, as separators and a unit. */
  readonly own: readonly (readonly [start: number, end: number])[];
}

/** The text of a field while somebody types, of a formatter of plain numbers, of percents or of amounts that does not round. */
export class FieldText {
  /** Without a formatter no text is a number. */
  constructor(formatter: FieldFormatter | null);
  readonly state: FieldState;
  readonly text: string;
  readonly value: string | null;
  /** Goes back to a state. */
  restore(state: FieldState): void;
  /** Writes a number; nothing for an empty text, and takes a text that is no number as if it was typed. Returns the text. */
  put(value: Num): string;
  /** After an edit that left a text, with the caret there. `left` is how many characters of the old one it left at both ends. */
  edited(text: string, caret: number, left?: { front: number; back: number }, isForward?: boolean): FieldState;
  /** The same where the text has to stay as it is, as long as it is composed. */
  composed(text: string, caret: number): FieldState;
  /** Writes anew what was composed. */
  settled(): FieldState;
  /** The place of the caret that is next to this one and within the number. */
  nearest(caret: number): number;
}

/** A decimal without plus and without zeros in front; null where the text is no decimal. */
export function plainOf(text: string): string | null;

/** What a field was before each edit, and what was undone. */
export class History {
  keep(state: FieldState): void;
  clear(): void;
  /** The state to go to from this one; undefined where there is none. */
  go(isBack: boolean, state: FieldState): FieldState | undefined;
}
