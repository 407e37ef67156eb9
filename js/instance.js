// The instance of the WebAssembly module: its calls, texts into it and out of it, and a new one where a call did not come back.

const SHORT = 64; // of so many characters a text is put by hand, which is faster than by an encoder
const ROOM = 512; // as in module/calls.c
/** How many numbers of a column a call writes at most; as in module/calls.c. */
export const NUMBERS = 512;
const LITERAL = 0, MINUS_SIGN = 1, PLUS_SIGN = 2, INTEGER = 3; // kinds of parts
/** No words: a format of plain numbers, or the options that a formatter has of its own. */
export const NONE = Int32Array.of(0);
const NO_UTF8 = new Uint8Array([0xff]);
const HALF = /\p{Surrogate}/u;
const encoder = new TextEncoder();
const decoder = new TextDecoder("utf-8", { ignoreBOM: true });

let module = null;
let memory = new Uint8Array(0);
let words = new Int32Array(0);
let input = 0;
let output = 0;
let asking = 0;
let asked = null; // the words that are put for the next calls

// Whether a call was begun and did not come back, as where JavaScript's stack ran out in it, or where it trapped.
let isInside = false;

/** The calls of the instance; null where there is none. */
export let calls = null;

/** How many instances were lost: what was opened in one of them is no longer open. */
export let age = 0;

/** The numbers of errors, as legumeyet.h has them, and UTF8 of a text with half a pair of surrogates. */
export const ErrorNumber = Object.freeze({
  MEMORY: 1, CLOSED: 2, OPTION: 4, TAG: 5, TABLE: 6, NUMBER: 7, LIMIT: 8, RANGE: 9, UTF8: 10, UNREADABLE: 11, NOT_WRITTEN: 12, EXPONENT: 13,
  CODE: 14, UNKEPT: 15,
  BOOK_JSON: 101, BOOK_SHAPE: 102, BOOK_TAG: 103, BOOK_SYSTEM: 104, BOOK_TEXT: 105, BOOK_DIGITS: 106, BOOK_CONDITION: 107,
  BOOK_TYPES: 108, BOOK_EXPONENTS: 109, BOOK_DUPLICATE: 110, BOOK_CYCLE: 111, BOOK_UNIT: 113, BOOK_CODE: 114,
  SKELETON_UNKNOWN: 201, SKELETON_TWICE: 202, SKELETON_CODE: 203, SKELETON_PAIR: 204, SKELETON_SYSTEM: 205, SKELETON_LATER: 206,
  SKELETON_UNSUPPORTED: 207,
});

// What each number says. It is asked of the module at first, so that an error can be told where no call can be made.
const said = new Map();

/** A call was refused: `number` says why, and `word` says it in English. */
export class LegumeyetError extends RangeError {
  constructor(number, hint = "") {
    const word = said.get(number) ?? "an error of another version";
    super(`${number}: ${word}${hint}`);
    this.number = number;
    this.word = word;
  }
}
Object.defineProperty(LegumeyetError.prototype, "name", { value: "LegumeyetError" });

/** The library could not be loaded: `file` and `reason` (`fetch`, `policy`, `module`) say which file, and why. */
export class LoadError extends Error {
  constructor(file, reason, message, cause) {
    super(`${file}: ${message}`, { cause });
    this.file = file;
    this.reason = reason;
  }
}
Object.defineProperty(LoadError.prototype, "name", { value: "LoadError" });

// What an engine says where the policy of a page forbids WebAssembly.
const POLICY = /unsafe-eval|Content.Security|CSP/i;

function loadError(error) {
  const isPolicy = POLICY.test(String(error?.message));
  const message = isPolicy ? "the page's policy forbids WebAssembly: it needs script-src 'wasm-unsafe-eval'" : "this is no module that the engine takes";
  return new LoadError("legumeyet.wasm", isPolicy ? "policy" : "module", message, error);
}

// Views of the memory end where it grows.
function look() {
  memory = new Uint8Array(calls.memory.buffer);
  words = new Int32Array(calls.memory.buffer);
}

function begin(instance) {
  const made = instance.exports;
  [input, output, asking] = [made.js_in(), made.js_out(), made.js_how() >> 2];
  [memory, words, asked] = [new Uint8Array(made.memory.buffer), new Int32Array(made.memory.buffer), null];
  calls = made; // last: where the stack runs out before, there is no instance
}

function take(from, instance) {
  if (module !== null) return;
  begin(instance);
  for (const number of Object.values(ErrorNumber)) said.set(number, got(calls.js_error_text(number)));
  module = from; // not before: after another module the right one may be given
}

// What `read` makes of a file that was asked for: of the response, or of the promise of one.
async function answered(file, asked, read) {
  try {
    const response = await asked;
    if (response.ok) return await read(response);
    throw new Error(`${response.status} ${response.statusText}`.trim());
  } catch (error) {
    throw error instanceof WebAssembly.CompileError ? error : new LoadError(file, "fetch", error.message, error);
  }
}

const bytesOf = async (response) => new Uint8Array(await response.arrayBuffer());

// The module of a response. It is compiled while it comes, and an engine may keep what it made, where the response says that it is one.
async function compiledOf(response) {
  const { compileStreaming } = WebAssembly;
  const isTold = compileStreaming && response instanceof Response && response.headers.get("content-type") === "application/wasm";
  return isTold ? compileStreaming(response) : WebAssembly.compile(await bytesOf(response));
}

/** The bytes of a file that was asked for: of the response, or of the promise of one. Throws a LoadError. */
export const fetched = (file, asked) => answered(file, asked, bytesOf);

/** Takes the module: its bytes, a WebAssembly.Module, or the response to a request for it, or its promise. A second call does nothing. Throws a LoadError. */
export async function load(source) {
  if (module !== null) return;
  const isAsked = typeof source?.arrayBuffer === "function" || typeof source?.then === "function";
  try {
    const given = isAsked ? await answered("legumeyet.wasm", source, compiledOf) : source;
    const compiled = given instanceof WebAssembly.Module ? given : await WebAssembly.compile(given);
    take(compiled, await WebAssembly.instantiate(compiled, {}));
  } catch (error) {
    throw error instanceof LoadError ? error : loadError(error);
  }
}

/** Takes the module at once: its bytes, or a WebAssembly.Module. Old browsers do so in workers only. Throws a LoadError. */
export function loadSync(source) {
  if (module !== null) return;
  try {
    const compiled = source instanceof WebAssembly.Module ? source : new WebAssembly.Module(source);
    take(compiled, new WebAssembly.Instance(compiled, {}));
  } catch (error) {
    throw loadError(error);
  }
}

/** Whether the instance is one that was opened at this age, and no call in it failed to come back. */
export function isPresent(at) {
  return at === age && !isInside;
}

/**
 * Sees to it that there is an instance. Where a call did not come back, nobody knows what it left: nothing of its instance is used again, and
 * its memory goes with it. What was open in it is opened anew when it is used next.
 */
export function begun() {
  if (isInside) {
    age += 1;
    calls = null;
    isInside = false;
  }
  if (calls !== null) return;
  if (module === null) throw new Error("the library is not loaded: await init() of legumeyet/inline, or load(..) of legumeyet/core or legumeyet/page, comes first");
  begin(new WebAssembly.Instance(module, {}));
}

/** A call of the instance that a module of a page may be made without. */
export function calling(name) {
  if (!(name in calls)) throw new Error(`the module of the page was made without ${name}`);
  return calls[name];
}

/** Runs what calls the module. It throws nothing of its own, and does not call this. */
export function inside(run) {
  isInside = true;
  const found = run();
  isInside = false;
  return found;
}

/** The result of a call that came back; where it is below 0, the error that it says. */
export function expected(result, hint) {
  if (result < 0) throw new LegumeyetError(-result, hint);
  return result;
}

function putBytes(bytes) {
  let at = input;
  if (bytes.length > ROOM) {
    at = calls.js_large_in(bytes.length);
    if (at === 0) {
      isInside = false;
      throw new LegumeyetError(ErrorNumber.MEMORY);
    }
  }
  if (memory.length === 0) look();
  memory.set(bytes, at);
  return bytes.length;
}

function putLong(text) {
  return putBytes(HALF.test(text) ? NO_UTF8 : encoder.encode(text));
}

/** Puts a tag and what follows it where the next call finds them. Returns the lengths of both in bytes. Half a pair of surrogates is U+FFFD there. */
export function putBoth(tag, text) {
  const [front, back] = [encoder.encode(tag), encoder.encode(text)];
  const both = new Uint8Array(front.length + back.length);
  both.set(front);
  both.set(back, front.length);
  putBytes(both);
  return [front.length, back.length];
}

/** Puts the words of a format or of options, with their count before them, for the next calls. They stay the same array as long as they do. */
export function ask(how) {
  if (how === asked) return;
  if (memory.length === 0) look();
  words.set(how, asking);
  asked = how;
}

/** Puts a text, or bytes of one, where the next call finds it. Returns its length in bytes. Half a pair of surrogates makes it no UTF-8. */
export function put(text) {
  if (typeof text !== "string") return putBytes(text);
  const { length } = text;
  if (length > SHORT) return putLong(text);
  if (memory.length === 0) look();
  for (let at = 0; at < length; at += 1) {
    const code = text.charCodeAt(at);
    if (code > 0x7f) return putLong(text);
    memory[input + at] = code;
  }
  return length;
}

/** The text that the last call wrote. */
export function got(length) {
  if (memory.length === 0) look();
  if (length > ROOM) return decoded(calls.js_large_out(), length);
  return length > SHORT ? decoded(output, length) : gathered(output, output + length);
}

function decoded(at, length) {
  return decoder.decode(memory.subarray(at, at + length));
}

// A short text of ASCII, by eight characters where there are as many; null where it is another.
function ascii(start, end) {
  const from = memory;
  let text = "";
  let at = start;
  for (; end - at >= 8; at += 8) {
    const [a, b, c, d] = [from[at], from[at + 1], from[at + 2], from[at + 3]];
    const [e, f, g, h] = [from[at + 4], from[at + 5], from[at + 6], from[at + 7]];
    if ((a | b | c | d | e | f | g | h) > 0x7f) return null;
    text += String.fromCharCode(a, b, c, d, e, f, g, h);
  }
  for (; at < end; at += 1) {
    if (from[at] > 0x7f) return null;
    text += String.fromCharCode(from[at]);
  }
  return text;
}

// A short text of the module, which is UTF-8. A character of four bytes is left to the decoder.
function gathered(start, end) {
  const simple = ascii(start, end);
  if (simple !== null) return simple;
  let text = "";
  for (let at = start; at < end; ) {
    const byte = memory[at];
    if (byte < 0x80) {
      text += String.fromCharCode(byte);
      at += 1;
    } else if (byte < 0xe0) {
      text += String.fromCharCode(((byte & 0x1f) << 6) | (memory[at + 1] & 0x3f));
      at += 2;
    } else if (byte < 0xf0) {
      text += String.fromCharCode(((byte & 0x0f) << 12) | ((memory[at + 1] & 0x3f) << 6) | (memory[at + 2] & 0x3f));
      at += 3;
    } else return decoded(start, end - start);
  }
  return text;
}

/** The text that a call writes of a handle, words and a text. The handle comes first: to find it may make a new instance, which has its own calls. */
export function written(at, call, how, text) {
  isInside = true;
  if (how !== asked) ask(how);
  const size = put(text);
  const length = call(at, size);
  if (size > ROOM || length < 0 || length > ROOM) return large(length);
  const found = got(length);
  isInside = false;
  return found;
}

// Where a text is large room was taken for it, which is given back.
function large(length) {
  const text = length >= 0 ? got(length) : "";
  calls.js_let_go();
  isInside = false;
  expected(length);
  return text;
}

/**
 * Adds the texts that a call writes of a handle, words and a column: at most NUMBERS doubles or integers, which are a typed array, or digits with a line
 * feed after each. Where not all are written it is called again with the others. Where the next is refused it throws the error, with its place.
 */
export function columnWritten(at, call, how, column, texts) {
  const error = inside(() => {
    ask(how);
    let size = column.length;
    if (typeof column === "string") size = put(column);
    else new column.constructor(calls.memory.buffer, calls.js_column_in(), size).set(column);
    const count = call(at, size);
    if (memory.length === 0) look();
    const [start, ends] = [calls.js_column_out(), calls.js_column_ends() >> 2];
    const all = decoded(start, calls.js_column_length());
    for (let i = 0, from = 0; i < count; i += 1) {
      texts.push(all.slice(from, words[ends + i]));
      from = words[ends + i];
    }
    calls.js_let_go();
    return calls.js_column_error();
  });
  expected(-error, `: the number at ${texts.length}`);
}

// The bytes of lines, with a line feed after the last. A line of a text that has half a pair of surrogates becomes another one that is none.
function endedLines(lines) {
  if (typeof lines === "string") {
    const text = lines.endsWith("\n") ? lines : `${lines}\n`;
    return encoder.encode(HALF.test(text) ? text.split("\n").map((line) => (HALF.test(line) ? "x" : line)).join("\n") : text);
  }
  if (lines[lines.length - 1] === 10) return lines;
  const bytes = new Uint8Array(lines.length + 1);
  bytes.set(lines);
  bytes[lines.length] = 10;
  return bytes;
}

/** Adds the answers that a call writes of a handle and lines, which are a text or bytes. A last line without a line feed is answered too. */
export function linesAnswered(at, call, lines, texts) {
  const bytes = endedLines(lines);
  const error = inside(() => {
    const size = putBytes(bytes);
    let told = 0;
    for (let done = 0; done < size && told === 0; told = calls.js_column_error()) {
      done += call(at, done, size);
      if (memory.length === 0) look();
      texts.push(decoded(calls.js_column_out(), calls.js_column_length()));
    }
    calls.js_let_go();
    return told;
  });
  expected(-error);
}

const KINDS = [
  "literal", "minusSign", "plusSign", "integer", "group", "decimal", "fraction", "currency", "percentSign",
  "exponentSeparator", "exponentMinusSign", "exponentPlusSign", "exponentInteger",
];

// Whether parts may be inside one of this kind: groups in an integer, the unit in a sign that has affixes of its own.
function isOuter(kind) {
  return kind === INTEGER || kind === MINUS_SIGN || kind === PLUS_SIGN;
}

// The parts of a text, in the flat form of Intl: a part is cut at those inside it, and what is in no part is a literal.
function flat(from, length) {
  const parts = [];
  let done = 0;
  let [outer, outerEnd] = [LITERAL, 0];
  const upTo = (end, kind) => {
    if (end <= done) return;
    const [start, stop] = [from + done, from + end];
    parts.push({ type: KINDS[kind], value: end - done > SHORT ? decoded(start, end - done) : gathered(start, stop) });
    done = end;
  };
  const outside = (end) => {
    upTo(Math.min(end, outerEnd), outer);
    upTo(end, LITERAL);
  };
  const list = calls.js_parts() >> 2;
  for (let i = list, end = list + 6 * calls.js_parts_count(); i < end; i += 6) {
    const [start, stop, kind] = [words[i], words[i + 2], words[i + 4]];
    outside(start);
    if (isOuter(kind)) [outer, outerEnd] = [kind, stop];
    else upTo(stop, kind);
  }
  outside(length);
  return parts;
}

/** The parts, each with its type and value, of the text that a call writes of a handle, words and a text. */
export function partsWritten(at, call, how, text) {
  isInside = true;
  ask(how);
  const length = call(at, put(text));
  if (memory.length === 0) look();
  const parts = length < 0 ? [] : flat(length > ROOM ? calls.js_large_out() : output, length);
  calls.js_let_go();
  isInside = false;
  expected(length);
  return parts;
}

/** The version of the library, with its minor one: `2.0`. */
export function version() {
  begun();
  return inside(() => `${calls.js_version()}.${calls.js_minor()}`);
}

/** The bytes of the module's memory, for measurements. */
export const memorySize = () => (calls === null ? 0 : calls.memory.buffer.byteLength);
