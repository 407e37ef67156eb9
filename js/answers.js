// The answers to many request lines.
import { ErrorNumber, calls, linesAnswered } from "./instance.js";
import { Open, handleOf, openHandle } from "./open.js";
import { plain, sourceOf, withBook } from "./books.js";
import { whole } from "./options.js";

// Lines are answered in pieces of so many characters or bytes, or of one line where it is longer.
const PIECE = 1 << 16;

// Where the piece ends that begins at `start`.
function pieceEnd(lines, feed, start) {
  const most = start + PIECE;
  if (most >= lines.length) return lines.length;
  const last = lines.lastIndexOf(feed, most - 1);
  const end = last < start ? lines.indexOf(feed, most) : last;
  return end < 0 ? lines.length : end + 1;
}

function allAnswered(it, lines, feed) {
  const texts = [];
  Open.at(it); // closed ones are refused also where there is no line
  for (let start = 0; start < lines.length; ) {
    const end = pieceEnd(lines, feed, start);
    const at = Open.at(it);
    linesAnswered(at, calls.js_answers_answer, lines.slice(start, end), texts);
    start = end;
  }
  return texts.join("");
}

/** The answers to many request lines, by a book that is kept and the `capacity` formatters that were used last. */
export class Answers extends Open {
  constructor(book, capacity = 512) {
    const source = sourceOf(book);
    const room = whole({ capacity }, "capacity", 1, 2 ** 32 - 1);
    const handle = handleOf("js_answers_close");
    const hint = (number) => (number === ErrorNumber.UNKEPT ? ": keep() of the book comes first" : "");
    const again = () => withBook(source, (from) => openHandle(handle, (at) => calls.js_answers_open(from, room, at), hint));
    again();
    super(handle, again);
  }

  /** The answers to the lines, in order, each with a line feed: a text to a text, bytes to bytes. A last line without one is answered too. */
  answer(lines) {
    if (typeof lines === "string") return allAnswered(this, lines, "\n");
    if (lines instanceof Uint8Array) return new TextEncoder().encode(allAnswered(this, plain(Uint8Array, lines), 10));
    throw new TypeError("lines are a string or a Uint8Array");
  }
}
