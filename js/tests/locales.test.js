// Locales that are asked for: lists, what is fallen back to, and grouping in each locale.
import assert from "node:assert/strict";
import { test } from "node:test";
import { Book, CompactDecimalFormatter, CurrencyFormatter, DecimalFormatter, ErrorNumber, LegumeyetError, PercentFormatter, ScientificFormatter } from "legumeyet";
import locales from "legumeyet/locales";

const machine = new Intl.NumberFormat().resolvedOptions().locale;
const localeOf = (asked, options) => new DecimalFormatter(asked, options).resolvedOptions().locale;

function refuses(number, call, word) {
  assert.throws(call, (error) => error instanceof LegumeyetError && error instanceof RangeError && error.number === number && error.message.includes(word), word);
}

test("one locale", () => {
  assert.equal(new DecimalFormatter(new Intl.Locale("hi", { numberingSystem: "deva" })).format("12"), "१२");
  assert.equal(new DecimalFormatter("hi-u-nu-deva").format("12"), "१२");
  refuses(ErrorNumber.TABLE, () => new DecimalFormatter("zz"), '"zz"');
  refuses(ErrorNumber.TAG, () => new DecimalFormatter("e"), '"e"');
  refuses(ErrorNumber.TAG, () => new DecimalFormatter("de_DE"), '"de_DE" is written "de-DE"');
  for (const wrong of ["", "\ud800", "a".repeat(100000)]) refuses(ErrorNumber.TAG, () => new DecimalFormatter(wrong), "");
  for (const wrong of [5, null, [5], [null], {}, Symbol("x")]) assert.throws(() => new DecimalFormatter(wrong), TypeError);
  assert.equal(localeOf(), machine);
  assert.ok(locales.length > 900 && ["de", "hi", "ar-EG"].every((it) => locales.includes(it)));
});

test("lists of locales, as Intl has them", () => {
  assert.equal(localeOf(["zz", "de-AT", "en"]), "de-AT");
  assert.equal(localeOf(Object.freeze(["tlh", "de-DE", "de", "en-US", "en"])), "de-DE");
  assert.equal(localeOf(new Set(["zz", new Intl.Locale("fr")])), "fr");
  assert.equal(localeOf([]), machine);
  refuses(ErrorNumber.TABLE, () => new DecimalFormatter(["yy", "zz"]), '"zz"');
  for (const list of [["de_DE", "en"], ["zz", "de_DE", "en"], ["en", "de_DE"], ["en", "zz", "x"], ["en", ""]]) {
    assert.throws(() => new Intl.NumberFormat(list), RangeError);
    refuses(ErrorNumber.TAG, () => new DecimalFormatter(list), JSON.stringify(list.find((it) => !/^[a-z]{2}$/.test(it))));
  }
});

test("a locale to fall back to", () => {
  for (const kind of [DecimalFormatter, CompactDecimalFormatter, ScientificFormatter, PercentFormatter, CurrencyFormatter]) {
    const options = kind === CurrencyFormatter ? { currency: "EUR" } : {};
    const own = new kind("de", options).format(1234567);
    for (const asked of ["zz", ["yy", "zz"], new Intl.Locale("tlh")]) {
      const it = new kind(asked, { ...options, fallback: "de" });
      assert.equal(it.format(1234567), own);
      assert.equal(it.resolvedOptions().locale, "de");
      assert.ok(!("fallback" in it.resolvedOptions()));
    }
    assert.deepEqual(kind.supportedLocalesOf(["zz", "de"], { ...options, fallback: "de" }), ["de"]);
  }
  assert.equal(localeOf("fr", { fallback: "de" }), "fr");
  assert.equal(localeOf("zz", { fallback: new Intl.Locale("hi", { numberingSystem: "deva" }) }), "hi-u-nu-deva");
  assert.equal(localeOf(undefined, { fallback: "de" }), localeOf([], { fallback: "de" }));
  refuses(ErrorNumber.TABLE, () => new DecimalFormatter("zz", { fallback: "yy" }), '"yy"');
  for (const asked of ["zz", "en"]) refuses(ErrorNumber.TAG, () => new DecimalFormatter(asked, { fallback: "de_DE" }), '"de_DE" is written "de-DE"');
  refuses(ErrorNumber.TAG, () => new DecimalFormatter("de_DE", { fallback: "en" }), '"de_DE"');
  for (const fallback of [5, null, ["en"], true]) assert.throws(() => new DecimalFormatter("en", { fallback }), TypeError);
});

test("locales that are supported", () => {
  assert.deepEqual(DecimalFormatter.supportedLocalesOf(["en", "zz", "hi-u-nu-deva", new Intl.Locale("de")]), ["en", "hi-u-nu-deva", "de"]);
  assert.deepEqual(CompactDecimalFormatter.supportedLocalesOf("zz"), []);
  assert.deepEqual(CompactDecimalFormatter.supportedLocalesOf([]), []);
  assert.deepEqual(DecimalFormatter.supportedLocalesOf(undefined), []);
  refuses(ErrorNumber.TAG, () => DecimalFormatter.supportedLocalesOf(["en", "de_DE"]), "de_DE");
  assert.deepEqual(DecimalFormatter.supportedLocalesOf(locales), [...locales]);
});

// Whether this engine has the data of a locale: else Intl writes it as another one.
const isOfIntl = (tag) => Intl.NumberFormat.supportedLocalesOf(tag).length > 0;

test("separators from the first group on, as Intl has them", () => {
  let later = 0;
  for (const tag of locales.filter((it) => isOfIntl(it) && !it.startsWith("en-US-"))) {
    const always = new DecimalFormatter(tag, { useGrouping: "always" });
    const theirs = new Intl.NumberFormat(tag, { useGrouping: "always" });
    for (const number of [999, 1234, -12345, 1234567]) {
      const has = ({ type }) => type === "group";
      assert.equal(always.formatToParts(number).filter(has).length, theirs.formatToParts(number).filter(has).length, `${tag} ${number}`);
      assert.equal(always.read(always.format(number)), String(number), tag);
    }
    later += new DecimalFormatter(tag).format(1234) === always.format(1234) ? 0 : 1;
  }
  assert.ok(later >= 5, `${later} locales have their first separator later`);
});

test("separators from the first group on, in each kind", () => {
  const rows = [
    [DecimalFormatter, {}, "1234", "1.234"], [DecimalFormatter, { useGrouping: "auto" }, "1234", "1234"], [DecimalFormatter, { useGrouping: "auto" }, "12345", "12.345"],
    [PercentFormatter, {}, "1234.5", "1.234,5\u00a0%"], [CurrencyFormatter, { currency: "EUR" }, "-1234.5", "-1.234,50\u00a0€"],
    [CompactDecimalFormatter, {}, "1234000000000000", "1.234\u00a0B"], [CompactDecimalFormatter, { useGrouping: "auto" }, "1234000000000000", "1234\u00a0B"],
  ];
  for (const [kind, options, number, text] of rows) {
    for (const useGrouping of options.useGrouping ? [options.useGrouping] : ["always", true]) {
      const it = new kind("es", { ...options, useGrouping });
      assert.equal(it.format(number), text);
      assert.equal(it.resolvedOptions().useGrouping, useGrouping === true ? "always" : useGrouping);
    }
  }
  const JSON_OF_ONE = '[[["xx","","latn","-","","+","",";","_",3,2,3]],[["latn","0123456789"]],[],[],[]]';
  for (const book of [new Book(JSON_OF_ONE), new Book(new TextEncoder().encode(JSON_OF_ONE)).keep()]) {
    const [auto, always] = ["auto", "always"].map((useGrouping) => new DecimalFormatter("xx", { book, useGrouping }));
    assert.deepEqual([auto, always].map((it) => it.format("12345.6")), ["12345;6", "12_345;6"]);
    book.close();
    assert.equal(always.format("1234"), "1_234");
  }
});
