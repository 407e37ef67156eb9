/** What a message formatter tells a function, as the package `messageformat` does. */
export interface MessageFunctionContext {
  readonly locales: readonly string[];
  readonly dir?: "ltr" | "rtl" | "auto";
  /** The options that are literals of the message; without it all are. Another `select` than a literal selects nothing. */
  readonly literalOptionKeys?: ReadonlySet<string>;
  /** Is told of an option that is wrong or not written yet, and left out. */
  onError?(error: MessageFunctionError): void;
}

/** A number in a message: what is formatted, and what selects a variant. Of `:integer` it is the integer that is shown. */
export interface MessageNumber {
  readonly type: "number";
  readonly locale: string;
  readonly dir: "ltr" | "rtl" | "auto";
  readonly options: Readonly<Record<string, unknown>>;
  /** The key of a variant that the number has: its digits, else its plural category; null where neither is among the keys. */
  readonly selectKey: ((keys: ReadonlySet<string>) => string | null) | undefined;
  toParts(): { type: "number"; dir?: "ltr" | "rtl"; locale: string; parts: { type: string; value: string }[] }[];
  toString(): string;
  valueOf(): number | bigint | string;
}

/**
 * A function of a message: the operand is a number, a bigint, the text of a number, or what another function returned. Throws a MessageFunctionError where
 * that is no number, where options do not go together, and where what is asked for is not written yet, as of `:unit`.
 */
export type MessageFunction = (context: MessageFunctionContext, options?: Readonly<Record<string, unknown>>, operand?: unknown) => MessageNumber;

export type MessageErrorType = "bad-operand" | "bad-option" | "unsupported-operation";

/** What a function refuses: an operand that is no number, an option, or what is not written yet. */
export class MessageFunctionError extends RangeError {
  constructor(type: MessageErrorType, message: string);
  readonly type: MessageErrorType;
}

/** The functions of numbers of MessageFormat 2, for `new MessageFormat(locales, message, { functions })`. */
export const functions: Readonly<Record<"number" | "integer" | "offset" | "percent" | "currency" | "unit", MessageFunction>>;
