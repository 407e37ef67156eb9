// Books of tables, and what formatters and answers are opened from.
import { LoadError, NONE, age, begun, calls, expected, got, inside, put, written } from "./instance.js";
import { Open, closeHandle, handleOf, isOpen, openHandle } from "./open.js";
import { forget } from "./sharing.js";
import { listed } from "./tags.js";

const { at: atOf } = Open;

/**
 * What a book is opened from, again too: `isKept` says whether its memory is never given back, and `other` is open in its place where it was closed, or was
 * not opened before. `smallFor` finds what a formatter of a tag, and of a kind of numbers where one is named, is opened from in its place; null where that
 * is the book itself. That which is inside the module has no JSON.
 * @typedef {{ json: string | Uint8Array | null, isKept: boolean, handle: import("./open.js").Handle, other?: import("./open.js").Handle,
 *   smallFor?: (tag: string, kind: string | null) => Source | null }} Source
 */

/** The same memory as a typed array of JavaScript's own, where it is one of a subclass. */
export function plain(Type, numbers) {
  return new Type(numbers.buffer, numbers.byteOffset, numbers.length);
}

/** A book of tables, of its JSON: a text, or the bytes of one. */
export class Book extends Open {
  #source;

  constructor(json) {
    if (typeof json !== "string" && !(json instanceof Uint8Array)) throw new TypeError("a book is made of a string or a Uint8Array");
    begun();
    const source = { json: typeof json === "string" ? json : new Uint8Array(json), isKept: false, handle: handleOf("js_book_close") };
    openBook(source, source.handle);
    super(source.handle, () => openBook(source, source.handle));
    this.#source = source;
  }

  /** What it is opened from. */
  static source(it) {
    if (!(it instanceof Book)) throw new TypeError("book is a Book");
    atOf(it);
    return it.#source;
  }

  /** Keeps the book for the rest of the program. A formatter that is opened from it afterwards borrows its tables: it is opened sooner and holds less memory. */
  keep() {
    const at = atOf(this);
    expected(inside(() => calls.js_book_keep(at)));
    if (!this.#source.isKept) forget(this.#source); // what is opened from now on borrows its tables
    this.#source.isKept = true;
    return this;
  }

  /** The answer to a request line, a text or its bytes. */
  answer(line) {
    if (typeof line !== "string" && !(line instanceof Uint8Array)) throw new TypeError("a line is a string or a Uint8Array");
    return written(atOf(this), calls.js_book_answer, NONE, typeof line === "string" ? line : plain(Uint8Array, line));
  }

  /** The tag of the locale whose symbols the book has for a tag: of the world's book `de` for `de-XX`, which falls back to it, and `de-AT` for `de-AT`. */
  foundLocale(tag) {
    const [text] = listed(tag);
    return written(atOf(this), calls.js_book_found_locale, NONE, text);
  }

  /** The tags of the locales that the book has symbols of, in its order. Others have the tables of their parents. */
  locales() {
    const at = atOf(this);
    const count = expected(inside(() => calls.js_book_locale_count(at)));
    return Array.from({ length: count }, (_, index) => localeAt(at, index));
  }
}

// The tag of a locale of a book.
function localeAt(at, index) {
  const told = inside(() => {
    const length = calls.js_book_locale(at, index);
    const tag = length < 0 ? "" : got(length);
    calls.js_let_go();
    return { length, tag };
  });
  expected(told.length);
  return told.tag;
}

function openBook(source, handle) {
  if (source === INSIDE) {
    Object.assign(handle, { at: inside(() => calls.js_book_inside()), age });
    return;
  }
  openHandle(handle, (at) => {
    const told = calls.js_book_open(at, put(source.json));
    return told === 0 && source.isKept ? calls.js_book_keep(at) : told;
  });
}

/** Whether a book that is opened when it is used first is open. */
export const isRead = (source) => source.other !== undefined && isOpen(source.other);

/**
 * That of a book which is opened when it is used first, and kept.
 * @returns {Source}
 */
export const unread = (json) => ({ json, isKept: true, handle: handleOf("js_book_close") });

/**
 * Calls with where the book is. Of one that was closed since, which a formatter is opened from again, another is opened meanwhile; where it is
 * kept, once for each instance, since its memory is never given back.
 * @template T
 * @param {Source} source
 * @param {(at: number) => T} use
 * @returns {T}
 */
export function withBook(source, use) {
  const handle = source.handle.at === 0 ? (source.other ??= handleOf(source.handle.close)) : source.handle;
  if (isOpen(handle)) return use(handle.at);
  begun();
  openBook(source, handle);
  try {
    return use(handle.at);
  } finally {
    if (handle === source.other && !source.isKept) closeHandle(handle);
  }
}

/**
 * What `Book.foundLocale` tells, of what a book is opened from, as that of the world.
 * @param {Source} source
 * @param {string} tag
 * @returns {string}
 */
export function foundLocale(source, tag) {
  return withBook(source, (at) => written(at, calls.js_book_found_locale, NONE, tag));
}

// The book inside a module of pages.
const INSIDE = { json: null, isKept: true, handle: handleOf("") };

let world = null;

/**
 * The tag that is handed to the module for one that a caller names; null where that is none.
 * @type {(tag: string) => string | null}
 */
export let tagFor = (tag) => tag;

/**
 * Makes the book inside the module that of formatters for which none is named, and hands it tags in this form. Throws a LoadError where there is none.
 * @param {(tag: string) => string | null} form
 */
export function useInside(form) {
  begun();
  if (calls.js_book_inside() === 0) throw new LoadError("the module", "module", "there is no book inside: legumeyet-page makes one that has it");
  world = INSIDE;
  tagFor = form;
}

/**
 * Makes what is opened when it is used first that of formatters for which no book is named.
 * @param {Source} source
 */
export function useUnread(source) {
  world = source;
}

/** Whether formatters have a book for which none is named. */
export function hasWorld() {
  return world !== null;
}

/** Makes the book of formatters for which none is named: a Book, or the JSON of one. It is kept. */
export function setWorld(book) {
  world = (book instanceof Book ? book : new Book(book)).keep();
  return world;
}

/**
 * What the book that is named is opened from; without one, that of the world.
 * @returns {Source}
 */
export function sourceOf(book = world) {
  if (book === null && world === null) {
    throw new TypeError("no book is named, and there is none of the world: await init() of legumeyet/inline, setWorld(..) of legumeyet/core or load(..) of legumeyet/page comes first");
  }
  return book === world && !(book instanceof Book) ? book : Book.source(book);
}
