// What a field shows after each key; `<` is a step to the left, `~` a deletion of the character before the caret.
import assert from "node:assert/strict";
import { test } from "node:test";
import { CompactDecimalFormatter, CurrencyFormatter, DecimalFormatter, PercentFormatter, ScientificFormatter } from "legumeyet";
import { FieldText, plainOf } from "legumeyet/field";
import { compare, neighbours, padded, plus } from "../node_modules/legumeyet/field-decimals.js";

function typed(locale, keys, open = (it) => new DecimalFormatter(it)) {
  const field = new FieldText(open(locale));
  let it = { text: "", caret: 0, value: "" };
  for (const key of keys) {
    const { text, caret } = it;
    if (key === "<") it = { ...it, caret: caret - 1 };
    else if (key === "~") it = field.edited(text.slice(0, caret - 1) + text.slice(caret), caret - 1);
    else it = field.edited(text.slice(0, caret) + key + text.slice(caret), caret + key.length, { front: caret, back: text.length - caret });
  }
  return `${it.text.slice(0, it.caret)}|${it.text.slice(it.caret)} ${it.value}`;
}

test("typing", () => {
  const rows = [
    ["en", "12345.6", "12,345.6| 12345.6"], ["en", "12345<<9", "123,9|45 123945"], ["en", "1234.50", "1,234.50| 1234.50"], ["en", "1234.", "1,234.| 1234"], ["en", ".5", "0.5| 0.5"],
    ["en", "-1234", "-1,234| -1234"], ["en", "-", "-| null"], ["en", "", "| "], ["en", "0.05", "0.05| 0.05"], ["en", "1,5", "1,5| null"], ["en", "1,234", "1,234| 1234"],
    ["en", "12x", "12x| null"], ["en", "12x~3", "123| 123"], ["en", "1234567~~~~", "123| 123"], ["en", "1234<<<~", "|234 234"], ["en", "1234<<<<~", "|234 234"],
    ["de", "-1234567,89", "-1.234.567,89| -1234567.89"], ["de", "1.5", "1.5| null"], ["de", "1.234", "1.234| 1234"], ["de", "1234,", "1.234,| 1234"],
    ["fr", "1234,5", "1\u202f234,5| 1234.5"], ["sv", "-1", "\u22121| -1"], ["de-CH", "1234.5", "1'234.5| 1234.5"],
    ["ar-EG", "1234٫5", "١٬٢٣٤٫٥| 1234.5"], ["ar-EG", "-٥", "\u061c-٥| -5"], ["hi", "1234567", "12,34,567| 1234567"], ["hi-u-nu-deva", "१२३४५६", "१,२३,४५६| 123456"],
    ["ar-EG", "1234.5", "١٬٢٣٤٫٥| 1234.5"], ["ar-EG", "1234.", "١٬٢٣٤٫| 1234"], ["ar-EG", "12,5", "١٢,٥| null"], ["fa", "-1234.5", "\u200e\u2212۱٬۲۳۴٫۵| -1234.5"], ["es", "1234", "1234| 1234"], ["es", "12345", "12.345| 12345"],
  ];
  for (const [locale, keys, wanted] of rows) assert.equal(typed(locale, keys), wanted, `${locale} ${keys}`);
});

test("typing in digits of another system", () => {
  const rows = [
    ["hi", "१२३", "123| 123"], ["ar", "٤٥٦", "456| 456"], ["ur", "۴۵۶", "456| 456"], ["th", "๑๒๓", "123| 123"], ["fa", "٤٥٦", "۴۵۶| 456"],
    ["hi", "१२३४५६७.५", "12,34,567.5| 1234567.5"], ["hi", "1234<<५", "12,5|34 12534"], ["hi", "१२x~३", "123| 123"], ["en", "𝟏𝟐𝟛", "123| 123"], ["en", "１２３४", "1,234| 1234"],
    ["ar-EG", "१२३", "١٢٣| 123"], ["mr", "1234.5", "१,२३४.५| 1234.5"], ["zh-u-nu-hanidec", "1234", "一,二三四| 1234"], ["ff-Adlm", "12345<<<<9", "𞥑𞥒𞥓⹁𞥙|𞥔𞥕 123945"],
    ["ar-AE", "٤٥٦٧٫٥", "4,567.5| 4567.5"], ["ar-AE", "٤٬٥٦٧", "4,567| 4567"], ["de", "١٫٥", "1,5| 1.5"], ["ur", "۴۵۶۷٫۵", "4,567.5| 4567.5"],
  ];
  for (const [locale, keys, wanted] of rows) assert.equal(typed(locale, keys), wanted, `${locale} ${keys}`);
});

test("pasting in digits of another system", () => {
  const amounts = (currency) => (it) => new CurrencyFormatter(it, { currency, currencyDigits: "given" });
  const plain = undefined;
  const rows = [
    ["hi", "१,२३,४५६.७", plain, "1,23,456.7| 123456.7"], ["fr", "१ २३४,५", plain, "1\u202f234,5| 1234.5"], ["fa", "٤٥٦٬٧٨٩٫٥", plain, "۴۵۶٬۷۸۹٫۵| 456789.5"], ["ar-EG", "१٫५", plain, "١٫٥| 1.5"],
    ["ar-AE", "١٬٢٣٤٫٥", plain, "1,234.5| 1234.5"], ["ar-AE", "١,٢٣٤.٥", plain, "1,234.5| 1234.5"], ["de", "١٫٥", plain, "1,5| 1.5"],
    ["hi", "₹१,२३४.५०", amounts("INR"), "₹1,234.50| 1234.50"], ["de", "१२३,५ €", amounts("EUR"), "123,5|\u00a0€ 123.5"],
    // digits of two systems, separators of two systems, and those of Arabic digits among others
    ["hi", "1२3", plain, "1२3| null"], ["hi", "१٢", plain, "१٢| null"], ["en", "𝟏𝟛", plain, "𝟏𝟛| null"], ["ar-AE", "١٬٢٣٤.٥", plain, "1٬234.5| null"], ["fr", "١ ٢٣٤٫٥", plain, "1 234٫5| null"],
    ["ar-AE", "1٬234٫5", plain, "1٬234٫5| null"], ["hi", "₹1२", amounts("INR"), "₹1२| null"],
  ];
  for (const [locale, text, open, wanted] of rows) assert.equal(typed(locale, [text], open), wanted, `${locale} ${text}`);
});

test("typing amounts and percents", () => {
  const amounts = (currency) => (it) => new CurrencyFormatter(it, { currency, currencyDigits: "given" });
  const percents = (it) => new PercentFormatter(it);
  const rows = [
    ["en", "1234.5", amounts("EUR"), "€1,234.5| 1234.5"], ["en", "1234.", amounts("EUR"), "€1,234.| 1234"], ["en", "-5", amounts("EUR"), "-€5| -5"], ["en", "5~", amounts("EUR"), "| "],
    ["en", "€5", amounts("EUR"), "€5| 5"], ["en", "5<<€", amounts("EUR"), "€|5 5"], ["de", "1234€", amounts("EUR"), "1.234|\u00a0€ 1234"], ["en", "$", amounts("EUR"), "$| null"], ["en", "1,5", amounts("EUR"), "€1,5| null"], ["en", "1234<<9", amounts("USD"), "$12,9|34 12934"],
    ["de", "1234,5", amounts("EUR"), "1.234,5|\u00a0€ 1234.5"], ["de", "1234,", amounts("EUR"), "1.234,|\u00a0€ 1234"], ["de", "12,5~~", amounts("EUR"), "12|\u00a0€ 12"], ["de", "5~", amounts("EUR"), "| "],
    ["de-CH", "-5", amounts("CHF"), "CHF-5| -5"], ["ar-EG", "1234.5", amounts("EGP"), null],
    ["tr", "12,5", percents, "%12,5| 12.5"], ["de", "12,5", percents, "12,5|\u00a0% 12.5"], ["de", "12,5~", percents, "12,|\u00a0% 12"], ["en", "5%", percents, "5|% 5"],
  ];
  for (const [locale, keys, open, wanted] of rows) {
    const got = typed(locale, keys, open);
    if (wanted === null) assert.match(got, / 1234\.5$/, `${locale} ${keys}`);
    else assert.equal(got, wanted, `${locale} ${keys}`);
  }
});

// The value, the text and the caret after an edit of the number 1234 in English.
function after(...edit) {
  const field = new FieldText(new DecimalFormatter("en"));
  field.put("1234");
  assert.equal(field.text, "1,234");
  const { value, text, caret } = field.edited(...edit);
  return [value, text, caret];
}

test("a paste is read as it is", () => {
  // over all of it: no separator of before is left
  assert.deepEqual(after("1,23", 4, { front: 0, back: 0 }), [null, "1,23", 4]);
  assert.deepEqual(after("5,678", 5, { front: 0, back: 0 }), ["5678", "5,678", 5]);
  assert.deepEqual(after("1,25,67834", 8, { front: 3, back: 2 }), [null, "1,25,67834", 8]);
  assert.deepEqual(after(" 1234.50\n", 9, { front: 0, back: 0 }), ["1234.50", "1,234.50", 8]);
  // what is said to be left and is not counts for nothing
  assert.deepEqual(after("9,8765", 6, { front: 5, back: 0 }), [null, "9,8765", 6]);
});

test("a formatter that shows no fraction is refused", () => {
  for (const it of [new DecimalFormatter("en", { position: 0 }), new CurrencyFormatter("en", { currency: "JPY" }), new CompactDecimalFormatter("en"), new CompactDecimalFormatter("en", { maximumFractionDigits: 2 }), new ScientificFormatter("en")]) {
    assert.throws(() => new FieldText(it), RangeError);
  }
});

test("a deletion of a separator alone is one of the digit beside it", () => {
  assert.deepEqual(after("1234", 1), ["234", "234", 0]);
  assert.deepEqual(after("1234", 1, undefined, true), ["134", "134", 1]);
});

test("a text that can't be written stays as it is", () => {
  const field = new FieldText(new DecimalFormatter("en"));
  for (const value of ["1,5", "x", "NaN"]) assert.deepEqual([field.put(value), field.value], [value, null]);
  const none = new FieldText(null);
  assert.deepEqual([none.put("7.5"), none.value, none.edited("7.56", 4).value], ["7.5", null, null]);
});

test("what is composed stays as it is until it is settled", () => {
  const field = new FieldText(new DecimalFormatter("en"));
  field.put("1234");
  const { text, value } = field.composed("1,234５", 6);
  assert.deepEqual([text, value], ["1,234５", null]);
  assert.deepEqual([field.settled().text, field.value], ["12,345", "12345"]);
  field.composed("12,345६", 7);
  field.composed("12,345६७", 8);
  assert.deepEqual([field.value, field.settled().text, field.value], [null, "1,234,567", "1234567"]);
});

test("a text is cut between characters", () => {
  const field = new FieldText(new DecimalFormatter("ff-Adlm"));
  assert.equal(field.put("12"), "𞥑𞥒");
  assert.deepEqual([field.edited("𞥑𞥓𞥒", 4).text, field.value], ["𞥑𞥓𞥒", "132"]);
  assert.deepEqual([field.edited("𞥑𞥒", 2).text, field.value], ["𞥑𞥒", "12"]);
});

test("what is shown is read back exactly", () => {
  for (const locale of ["en", "de", "fr", "ar-EG", "fa", "hi", "sv", "de-CH", "es", "my", "ff-Adlm", "zh-u-nu-hanidec"]) {
    const formatter = new DecimalFormatter(locale);
    const field = new FieldText(formatter);
    for (const value of ["0", "-1234567.50", "0.05", "123456789012345678901234567890", "-0.00"]) {
      const found = field.edited(formatter.format(value), 0, { front: 0, back: 0 });
      assert.equal(found.value, value);
      assert.equal(formatter.read(field.text), value);
    }
  }
});

test("decimals", () => {
  for (const [text, wanted] of [["007.50", "7.50"], ["+5", "5"], ["-00", "-0"], ["0", "0"], ["1,5", null], ["", null], ["5.", null]]) assert.equal(plainOf(text), wanted, text);
  for (const [one, other, wanted] of [["1.50", "1.5", 0], ["-0", "0", 0], ["-2", "-1.99", -1], ["10", "9.999", 1], ["0.1", "0.10000000000000000001", -1]]) assert.equal(compare(one, other), wanted, `${one} ${other}`);
  for (const [one, other, wanted] of [["0.1", "0.2", "0.3"], ["-1", "0.5", "-0.5"], ["99999999999999999999", "1", "100000000000000000000"], ["0.5", "-0.5", "0.0"]]) assert.equal(plus(one, other), wanted);
  for (const [value, step, base, below, above] of [["7", "5", "0", "5", "10"], ["-7", "5", "0", "-10", "-5"], ["1.5", "0.5", "1", "1.5", "1.5"], ["1.555", "0.01", "0", "1.550", "1.560"]]) assert.deepEqual(neighbours(value, step, base), { below, above });
  for (const [value, count, wanted] of [["5", 2, "5.00"], ["-5.1", 2, "-5.10"], ["5.123", 2, "5.123"], ["5", 0, "5"]]) assert.equal(padded(value, count), wanted);
});
