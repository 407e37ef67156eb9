// The functions of MessageFormat 2, by a small formatter of messages that have one declaration or none.
import assert from "node:assert/strict";
import { test } from "node:test";
import "legumeyet";
import { MessageFunctionError, functions } from "legumeyet/messages";

const EXPRESSION = /\{\$(\w+)(?: +:(\w+)((?: +\w+=(?:\$\w+|[^\s}]+))*))? *\}/;
const OPTION = /(\w+)=(\$?)([^\s}]+)/g;
const INPUT = new RegExp(`^\\.(?:input|local \\$(\\w+) =) *${EXPRESSION.source}\\s*`);
const VARIANT = /(\S+) \{\{(.*?)\}\}(?!\})/gs;

// What an expression is, with the errors that its function tells.
function resolved(locales, values, [, variable, name, options = ""], errors) {
  if (name === undefined) return values[variable];
  const all = [...options.matchAll(OPTION)];
  const context = { locales, literalOptionKeys: new Set(all.filter(([, , sigil]) => sigil === "").map(([, key]) => key)), onError: (error) => errors.push(error.type) };
  return functions[name](context, Object.fromEntries(all.map(([, key, sigil, value]) => [key, sigil === "" ? value : values[value]])), values[variable]);
}

/** The text of a message; an expression that fails is its variable in brackets. */
function formatted(tag, message, given, errors = []) {
  const values = { ...given };
  let text = message;
  for (let found = INPUT.exec(text); found !== null; found = INPUT.exec(text)) {
    const [all, local, ...expression] = found;
    values[local ?? expression[0]] = resolved([tag], values, ["", ...expression], errors);
    text = text.slice(all.length);
  }
  const [match, selector] = /^\.match \$(\w+)\s+/.exec(text) ?? [];
  if (match !== undefined) {
    const variants = new Map(Array.from(text.slice(match.length).matchAll(VARIANT), ([, key, pattern]) => [key, pattern]));
    const { selectKey } = values[selector];
    if (selectKey === undefined) errors.push("bad-selector");
    text = variants.get(selectKey?.(new Set([...variants.keys()].filter((it) => it !== "*"))) ?? "*");
  }
  return text.replace(new RegExp(EXPRESSION, "g"), (...found) => {
    try {
      return String(resolved([tag], values, found, errors));
    } catch (error) {
      errors.push(error.type ?? error.name);
      return `{$${found[1]}}`;
    }
  });
}

const DAYS = ".input {$n :number} .match $n 0 {{now}} one {{in {$n} day}} * {{in {$n} days}}";

test("numbers, and what they select", () => {
  const rows = [[0, "now"], [1, "in 1 day"], ["1", "in 1 day"], [1n, "in 1 day"], [2, "in 2 days"], [1.5, "in 1.5 days"], [1234567, "in 1,234,567 days"], ["0.0", "now"], [-0, "now"], ["0e5", "now"], [NaN, "in NaN days"]];
  for (const [n, wanted] of rows) assert.equal(formatted("en", DAYS, { n }), wanted);
  const polish = ".input {$n :number} .match $n one {{{$n} dzień}} few {{{$n} dni}} many {{{$n} dni!}} * {{{$n} dnia}}";
  assert.deepEqual([1, 2, 5, 22, "1.5"].map((n) => formatted("pl", polish, { n })), ["1 dzień", "2 dni", "5 dni!", "22 dni", "1,5 dnia"]);
  const places = ".input {$n :number select=ordinal} .match $n 1 {{first}} two {{{$n}nd}} few {{{$n}rd}} * {{{$n}th}}";
  assert.deepEqual([1, 2, 3, 4, 11, 22].map((n) => formatted("en", places, { n })), ["first", "2nd", "3rd", "4th", "11th", "22nd"]);
  const exact = ".input {$n :number select=exact} .match $n 1 {{=1}} 1.5 {{=1.5}} one {{one}} * {{other}}";
  assert.deepEqual([1, "1.50", "15e-1", 2, "100e-2"].map((n) => formatted("en", exact, { n })), ["=1", "=1.5", "=1.5", "other", "=1"]);
  const others = ".input {$n :number} .local $m = {$n :offset subtract=1} .match $m 0 {{you}} one {{you and {$m} other}} * {{you and {$m} others}}";
  assert.deepEqual([1, "2", 3n, "2.5", 0].map((n) => formatted("en", others, { n })), ["you", "you and 1 other", "you and 2 others", "you and 1.5 others", "you and -1 other"]);
  const whole = ".input {$n :integer} .match $n 0 {{none}} 1 {{=1}} one {{one}} * {{{$n}}}";
  assert.deepEqual([1.2, "1.2", "0.5", 0.4, 1n, "9007199254740993.5", -1.5].map((n) => formatted("en", whole, { n })), ["=1", "=1", "=1", "none", "=1", "9,007,199,254,740,994", "-2"]);
  const shown = ".input {$n :number minimumFractionDigits=1} .match $n one {{one: {$n}}} * {{other: {$n}}}";
  assert.equal(formatted("en", shown, { n: 1 }), "other: 1.0");
});

test("options", () => {
  const rows = [
    ["en", "{$n :number minimumFractionDigits=2}", 1, "1.00"], ["en", "{$n :number minimumIntegerDigits=$two}", 1, "01"], ["en", "{$n :number signDisplay=always useGrouping=never}", 12345, "+12345"], ["de", "{$n :integer}", "1234.5", "1.235"],
    ["en", "{$n :number maximumSignificantDigits=2}", "12345", "12,000"], ["en", "{$n :percent}", 0.256, "26%"], ["en", "{$n :percent maximumFractionDigits=1}", "0.2561", "25.6%"], ["en", "{$n :currency currency=EUR}", "1234567890123456789.5", "€1,234,567,890,123,456,789.50"],
    ["de", "{$n :currency currency=EUR fractionDigits=0}", 5.5, "6\u00a0€"], ["ja", "{$n :currency currency=JPY currencyDisplay=code}", 5, "JPY\u00a05"], ["en", "{$n :currency currency=USD currencySign=accounting fractionDigits=auto}", -5, "($5.00)"],
    ["en", ".local $m = {$n :number minimumFractionDigits=2} {$m :number signDisplay=always}", 1, "+1.00"], ["en", ".local $m = {$n :number minimumFractionDigits=2} {$m :integer}", 1.5, "2"], ["hi", "{$n :number numberingSystem=deva}", 12, "१२"],
    ["en", ".local $m = {$n :integer} {$m :number minimumFractionDigits=1}", 1.25, "1.0"], ["en", ".local $m = {$n :number roundingMode=floor} {$m :integer}", "1.9", "1"], ["en", ".local $m = {$n :integer} {$m :offset add=1}", 1.4, "2"],
    ["en", ".local $m = {$n :currency currency=USD fractionDigits=0} {$m :currency fractionDigits=auto}", 5, "$5.00"], ["en", "{$n :currency currency=USD notation=standard compactDisplay=short}", 5, "$5.00"], ["en", "{$n :number maximumSignificantDigits=1 maximumFractionDigits=1 roundingPriority=morePrecision}", 1.25, "1.3"],
  ];
  for (const [tag, message, n, wanted] of rows) {
    const errors = [];
    assert.equal(formatted(tag, message, { n, two: 2 }, errors), wanted);
    assert.deepEqual(errors, []);
  }
  const cents = ".input {$n :currency currency=USD} .match $n 1 {{one dollar}} one {{{$n} one}} * {{{$n} other}}";
  assert.deepEqual([1, 1.5].map((n) => formatted("en", cents, { n })), ["one dollar", "$1.50 other"]);
  const percents = ".input {$n :percent} .match $n 1 {{all}} one {{{$n} one}} * {{{$n} other}}";
  assert.deepEqual([0.01, 0.5, 1].map((n) => formatted("en", percents, { n })), ["1% one", "50% other", "all"]);
});

test("what is refused", () => {
  const rows = [
    ["{$n :number}", "x", "{$n}", ["bad-operand"]], ["{$n :number}", undefined, "{$n}", ["bad-operand"]], ["{$n :number}", "1,5", "{$n}", ["bad-operand"]], ["{$n :number}", true, "{$n}", ["bad-operand"]], ["{$n :currency}", 1, "{$n}", ["bad-operand"]],
    ["{$n :number minimumFractionDigits=x}", 1, "1", ["bad-option"]], ["{$n :number minimumFractionDigits=-1}", 1, "1", ["bad-option"]], ["{$n :number minimumFractionDigits=101}", 1, "1", ["bad-option"]], ["{$n :number signDisplay=plus}", 1, "1", ["bad-option"]],
    ["{$n :number select=all}", 1, "1", ["bad-option"]], ["{$n :currency currency=EURO}", 1, "{$n}", ["bad-option", "bad-operand"]], ["{$n :unit unit=meter}", 1, "{$n}", ["unsupported-operation"]], ["{$n :unit}", 1, "{$n}", ["bad-operand"]], ["{$n :number style=percent}", 1, "1", []],
    ["{$n :offset}", 1, "{$n}", ["bad-option"]], ["{$n :offset add=1 subtract=1}", 1, "{$n}", ["bad-option"]], ["{$n :offset add=x}", 1, "{$n}", ["bad-option"]], ["{$n :offset add=1}", "9007199254740993", "9,007,199,254,740,994", []],
    ["{$n :number minimumFractionDigits=3 maximumFractionDigits=1}", 1, "{$n}", ["bad-option"]], ["{$n :number roundingIncrement=5 maximumFractionDigits=1}", 1, "{$n}", ["bad-option"]], ["{$n :number roundingIncrement=3}", 1, "1", ["bad-option"]],
    ["{$n :number numberingSystem=none}", 1, "1", ["bad-option"]], ["{$n :number useGrouping=true}", 1234, "1,234", ["bad-option"]], ["{$n :currency currency=USD currencyDisplay=name}", 1, "$1.00", ["unsupported-operation"]],
    ["{$n :currency currency=USD currencyDisplay=words}", 1, "$1.00", ["bad-option"]], ["{$n :currency currency=USD notation=compact}", 1000, "$1,000.00", ["unsupported-operation"]],
    [".input {$n :number select=$how} .match $n one {{one}} * {{other}}", 1, "other", ["bad-option", "bad-selector"]],
  ];
  for (const [message, n, wanted, types] of rows) {
    const errors = [];
    assert.equal(formatted("en", message, { n, how: "ordinal" }, errors), wanted, message);
    assert.deepEqual(errors, types, message);
  }
  assert.throws(() => functions.number({ locales: ["en"] }, {}, "x"), (error) => error instanceof MessageFunctionError && error.name === "MessageFunctionError");
});

test("what a message formatter is given", () => {
  const it = functions.currency({ locales: ["ar-EG"] }, { currency: "EGP", select: "exact" }, { valueOf: () => 5, options: { minimumFractionDigits: 0, other: 1 } });
  assert.deepEqual([it.type, it.locale, it.dir, it.valueOf(), it.options], ["number", "ar-EG", "rtl", 5, { minimumFractionDigits: 0, select: "exact", currency: "EGP", style: "currency" }]);
  const [{ parts, ...others }, ...more] = it.toParts();
  assert.deepEqual([others, more], [{ type: "number", dir: "rtl", locale: "ar-EG" }, []]);
  assert.equal(parts.map(({ value }) => value).join(""), String(it));
  const isolated = functions.number({ locales: ["ar"], dir: "auto" }, {}, 1);
  assert.deepEqual([isolated.dir, "dir" in isolated.toParts()[0]], ["auto", false]);
  const errors = [];
  const told = functions.number({ locales: ["en"], onError: (error) => errors.push(error.type) }, {}, { valueOf: () => "1.50", options: { minimumFractionDigits: -1, signDisplay: "always" } });
  assert.deepEqual([String(told), told.valueOf(), errors], ["+1.5", "1.50", ["bad-option"]]);
  assert.deepEqual([1.5, "1.50", 2n].map((n) => functions.integer({ locales: ["en"] }, {}, n).valueOf()), [2, "2", 2n]);
});
