// A WebAssembly module with a book inside: that of pages, with the memory as it is once the book is open, and without what opens books.
import { smallerBook } from "./smaller.js";

const HEAD = [0, 0x61, 0x73, 0x6d, 1, 0, 0, 0];
const [CUSTOM, MEMORY, GLOBAL, EXPORT, CODE, DATA, DATA_COUNT] = [0, 5, 6, 7, 10, 11, 12];
const PAGE = 65536;
const GAP = 256; // so many zeros are left out between two pieces of the memory: a piece has a head, and zeros are packed well
const UNREACHABLE = [3, 0, 0x00, 0x0b]; // a function of three bytes: without variables, it stops
const CONST_I32 = 0x41, END = 0x0b;
// What reads the numbers and texts of a module.
class Reader {
  constructor(bytes, at = 0) {
    this.bytes = bytes;
    this.at = at;
  }

  get isDone() { return this.at >= this.bytes.length; }

  number() {
    let found = 0;
    for (let scale = 1; ; scale *= 128) {
      const byte = this.bytes[this.at++];
      found += (byte & 0x7f) * scale;
      if (byte < 0x80) return found;
    }
  }

  take(length) {
    return this.bytes.subarray(this.at, (this.at += length));
  }

  text() {
    return new TextDecoder().decode(this.take(this.number()));
  }
}

function numberOf(number) {
  const bytes = [];
  for (; number > 0x7f; number = Math.floor(number / 128)) bytes.push(0x80 | (number & 0x7f));
  return [...bytes, number];
}

// A number with its sign, as a constant has it.
function constantOf(number) {
  const bytes = [];
  for (; number > 0x3f; number = Math.floor(number / 128)) bytes.push(0x80 | (number & 0x7f));
  return [CONST_I32, ...bytes, number, END];
}

function joined(pieces) {
  const made = new Uint8Array(pieces.reduce((sum, it) => sum + it.length, 0));
  pieces.reduce((at, it) => (made.set(it, at), at + it.length), 0);
  return made;
}

// A list with its count before it.
const listed = (items) => [numberOf(items.length), ...items];

function sectionsOf(module) {
  const reader = new Reader(module, HEAD.length);
  const sections = [];
  while (!reader.isDone) sections.push({ id: module[reader.at++], data: reader.take(reader.number()) });
  return sections;
}

// The calls of each part of the module, and the choices of parts that need each function and each static, as tools/building_js/module.py notes them.
function noteOf(sections) {
  for (const { id, data } of sections) {
    const reader = new Reader(data);
    if (id === CUSTOM && reader.text() === "parts") return JSON.parse(new TextDecoder().decode(data.subarray(reader.at)));
  }
  throw new Error("the module is not page.wasm");
}

// The names of calls, the numbers of functions and the statics, as places and sizes, that go where a page does without some parts.
function leftOf({ parts, functions, statics }, without) {
  const choice = PARTS.reduce((sum, it, bit) => (without.includes(it) ? sum : sum + 2 ** bit), 0);
  const goes = (choices) => ((choices >> choice) & 1) === 0;
  return {
    calls: ["opening", ...without].flatMap((it) => parts[it]),
    functions: new Set(functions.flatMap((choices, number) => (goes(choices) ? [number] : []))),
    statics: statics.filter(([, size, choices]) => size > 0 && goes(choices)),
  };
}

// Fills with zeros the statics that go, but for those that a word of the memory behind them may point to, as one of a book.
function zeroStatics(memory, statics, start) {
  const words = new Uint32Array(memory.buffer, start, (memory.length - start) >> 2);
  const isPointedTo = ([at, size]) => words.some((it) => it >= at && it <= at + size);
  for (const it of statics) if (!isPointedTo(it)) memory.fill(0, it[0], it[0] + it[1]);
}

function codeWithout(data, functions) {
  const reader = new Reader(data);
  const bodies = Array.from({ length: reader.number() }, () => reader.take(reader.number()));
  return joined(listed(bodies.map((it, number) => (functions.has(number) ? Uint8Array.from(UNREACHABLE) : joined([numberOf(it.length), it])))));
}

function exportsWithout(data, names) {
  const reader = new Reader(data);
  const all = Array.from({ length: reader.number() }, () => {
    const start = reader.at;
    const name = reader.text();
    reader.at += 1;
    reader.number();
    return { name, bytes: data.subarray(start, reader.at) };
  });
  return joined(listed(all.filter(({ name }) => !names.includes(name)).map(({ bytes }) => bytes)));
}

// The memory from a place on, in pieces without the zeros between them.
function piecesOf(memory, start) {
  const pieces = [];
  for (let at = start; at < memory.length; at += 1) {
    if (memory[at] === 0) continue;
    const last = pieces.at(-1);
    if (last !== undefined && at - last.end < GAP) last.end = at + 1;
    else pieces.push({ start: at, end: at + 1 });
  }
  return pieces;
}

function dataOf(memory, start) {
  return joined(listed(piecesOf(memory, start).map((it) => joined([[0], constantOf(it.start), numberOf(it.end - it.start), memory.subarray(it.start, it.end)]))));
}

// Where the stack begins, which goes down to 0: the first global has that place.
function stackOf(sections) {
  const reader = new Reader(sections.find(({ id }) => id === GLOBAL).data);
  reader.number();
  reader.at += 3; // its type, that it changes, and the word of a constant
  return reader.number();
}

// Opens a book in an instance, from its JSON, and leaves it inside.
function openInside(calls, json) {
  const bytes = new TextEncoder().encode(json);
  calls.js_keep_clean();
  const book = calls.js_new();
  const input = calls.js_large_in(bytes.length);
  new Uint8Array(calls.memory.buffer).set(bytes, input);
  const told = calls.js_book_open(book, bytes.length) || calls.js_book_keep(book);
  if (told !== 0) throw new RangeError(`the book is refused: ${0 - told}`);
  calls.js_let_go();
  calls.js_book_put_inside(book);
  calls.js_forget_freed();
}

// The module with the memory of an instance, without some calls and functions. Nothing in it asks how many pieces its memory has.
function withMemory(sections, memory, left) {
  const pages = numberOf(memory.length / PAGE);
  const made = {
    [MEMORY]: (data) => joined([data.subarray(0, 2), pages, data.subarray(2 + numberOf(new Reader(data, 2).number()).length)]),
    [EXPORT]: (data) => exportsWithout(data, left.calls),
    [CODE]: (data) => codeWithout(data, left.functions),
  };
  const kept = sections.filter(({ id }) => ![CUSTOM, DATA, DATA_COUNT].includes(id));
  const all = [...kept.map(({ id, data }) => ({ id, data: made[id]?.(data) ?? data })), { id: DATA, data: dataOf(memory, stackOf(sections)) }];
  return joined([HEAD, ...all.flatMap(({ id, data }) => [[id], numberOf(data.length), data])]);
}

/** What a page's module may be made without: compact numbers, percents and amounts, what reads texts, skeletons, by which compact numbers have digits of their own, and plural rules. */
export const PARTS = Object.freeze(["compact", "units", "read", "skeletons", "plurals"]);

/**
 * The WebAssembly module of a page, for `load` of `legumeyet/page`: that of `page.wasm` with the locales of these tags, and those below them.
 * @param {Uint8Array} module
 * @param {string} json a book, as `world.json`
 * @param {readonly string[]} tags
 * @param {{ without?: readonly string[] }} [options]
 * @returns {Uint8Array}
 */
export function pageModule(module, json, tags, options = {}) {
  const { without = [] } = options;
  const wrong = without.find((it) => !PARTS.includes(it));
  if (wrong !== undefined) throw new RangeError(`without is of ${PARTS.join(", ")}, and not ${wrong}`);
  const sections = sectionsOf(module);
  const left = leftOf(noteOf(sections), without);
  const book = smallerBook(json, tags);
  const { exports } = /** @type {{ exports: any }} */ (new WebAssembly.Instance(new WebAssembly.Module(module), {}));
  openInside(exports, book);
  const memory = new Uint8Array(exports.memory.buffer);
  zeroStatics(memory, left.statics, stackOf(sections));
  return withMemory(sections, memory, left);
}
