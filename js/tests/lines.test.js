// The native program's answers to seeded lines: by a book, by answers, and by formatters where they do what a line asks for. LINES names a folder that has, for
// each book NAME.json, the lines and the answers, NAME.lines and NAME.answers.
import assert from "node:assert/strict";
import { readFileSync, readdirSync } from "node:fs";
import { test } from "node:test";
import { Answers, Book, CompactDecimalFormatter, DecimalFormatter, LegumeyetError, ScientificFormatter } from "legumeyet";

const FOLDER = process.env.LINES;
const WORDS = { 5: "tag", 6: "table", 7: "number", 8: "limit", 9: "range", 10: "shape", 11: "unreadable", 12: "not-written", 13: "exponent" };
const FORMS = ["plain", "read", "short", "long", "exact-short", "exact-long", "scientific", "engineering"];
const WIDTHS = ["short", "long"];
const NOTATIONS = ["scientific", "engineering"];
const camel = (word) => word.replace(/-(.)/g, (_, it) => it.toUpperCase());

function linesOf(name) {
  const bytes = readFileSync(`${FOLDER}/${name}`);
  const lines = [];
  for (let start = 0; start < bytes.length; ) {
    const end = bytes.indexOf(10, start);
    lines.push(bytes.subarray(start, end));
    start = end + 1;
  }
  return lines;
}

// The library rounds a compact number twice where it is rounded below the last digit that is shown: at the position, and then to what is shown.
function isRoundedTwice(form, position, number) {
  return WIDTHS.includes(form) && position < Math.log10(Math.abs(Number(number))) - 1;
}

// The options of digits of a rounding, as `f0-2,s1-3,more,half-even,whole`.
function digitsOf(words) {
  const found = {};
  for (const word of words) {
    const [, letter, least, most] = /^([fs])(\d+)-(\d+)$/.exec(word) ?? [];
    const name = letter === "f" ? "FractionDigits" : "SignificantDigits";
    if (letter) Object.assign(found, { [`minimum${name}`]: Number(least), [`maximum${name}`]: Number(most) });
    else if (word === "whole") found.trailingZeroDisplay = "stripIfInteger";
    else if (["more", "less"].includes(word)) found.roundingPriority = `${word}Precision`;
    else if (word !== "1") found.roundingMode = camel(word);
  }
  return found;
}

// What a formatter says to a line, as an answer; null where none can. In lines `always` is `auto`, and halves of what is shown go to the even one.
function said(book, line) {
  const [tag, form, grouping, sign, rounding, number] = line.split("\t");
  if (!FORMS.includes(form)) return null;
  const options = { book, useGrouping: { never: false, always: "auto", "on-aligned": "always" }[grouping] ?? grouping, signDisplay: camel(sign) };
  const width = form.replace("exact-", "");
  if (/^[fs]\d/.test(rounding)) {
    if (WIDTHS.includes(width)) return null; // of compact numbers they are not asked for
    Object.assign(options, digitsOf(rounding.split(",")));
  } else if (rounding !== "-") {
    const [position, mode, increment] = rounding.split(",");
    if (isRoundedTwice(form, position, number)) return null;
    Object.assign(options, { position: Number(position), roundingMode: camel(mode), roundingIncrement: Number(increment) });
  } else if (WIDTHS.includes(width)) options.roundingMode = "halfEven";
  let it = null;
  try {
    if (["plain", "read"].includes(form)) it = new DecimalFormatter(tag, options);
    else it = NOTATIONS.includes(form) ? new ScientificFormatter(tag, { ...options, notation: form }) : new CompactDecimalFormatter(tag, { ...options, compactDisplay: width });
    if (form === "plain") return `ok\t${it.format(number)}`;
    if (form === "read") return `ok\t${it.read(number)}`;
    return form === width ? `ok\t${it.format(number)}\t${it.shown(number)}` : `ok\t${it.formatExact(number)}`;
  } catch (error) {
    if (!(error instanceof LegumeyetError)) throw error;
    return `err\t${WORDS[error.number]}`;
  } finally {
    it?.close();
  }
}

for (const file of FOLDER ? readdirSync(FOLDER).filter((it) => it.endsWith(".json")) : []) {
  const name = file.replace(/\.json$/, "");
  const [lines, answers] = [linesOf(`${name}.lines`), linesOf(`${name}.answers`).map(String)];

  test(`a book of ${name} answers ${lines.length} lines as the native program`, () => {
    const book = new Book(readFileSync(`${FOLDER}/${file}`));
    assert.equal(lines.length, answers.length);
    lines.forEach((line, at) => assert.equal(book.answer(line), answers[at], String(line)));
  });

  test(`answers of ${name} are those of the native program, all lines together`, () => {
    const book = new Book(readFileSync(`${FOLDER}/${file}`)).keep();
    const [all, wanted] = ["lines", "answers"].map((it) => readFileSync(`${FOLDER}/${name}.${it}`));
    for (const capacity of [1, 7, 512]) assert.ok(Buffer.from(new Answers(book, capacity).answer(all)).equals(wanted), `${capacity}`);
  });

  test(`formatters of ${name} say the same, of a book and of a kept one`, () => {
    const book = new Book(readFileSync(`${FOLDER}/${file}`));
    lines.forEach((line, at) => {
      if (at === lines.length >> 1) book.keep();
      const text = said(book, String(line));
      // a formatter is opened before its number is looked at
      if (text !== null && !(text === "err\ttable" && answers[at].startsWith("err"))) assert.equal(text, answers[at], String(line));
    });
  });

  test(`the parts of ${name} make the text`, () => {
    const book = new Book(readFileSync(`${FOLDER}/${file}`)).keep();
    let count = 0;
    for (const line of lines) {
      const [tag, form, , , , number] = String(line).split("\t");
      if (form !== "plain" && form !== "short") continue;
      try {
        const it = new (form === "plain" ? DecimalFormatter : CompactDecimalFormatter)(tag, { book });
        assert.equal(it.formatToParts(number).map((part) => part.value).join(""), it.format(number), String(line));
        count += 1;
      } catch (error) {
        if (!(error instanceof LegumeyetError)) throw error;
      }
    }
    assert.ok(count > lines.length / 8, `${count}`);
  });
}

test("the lines are there", () => assert.ok(FOLDER, "LINES names no folder"));
