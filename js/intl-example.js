// A campaign as its readers are told of it: amounts, a share, visits in short form and the days that are left, by NumberFormat and PluralRules of the
// package, or with the word `engine` by those of the JavaScript engine, with the same texts.
import * as own from "legumeyet/intl";

const { NumberFormat, PluralRules } = process.argv[2] === "engine" ? Intl : own;

// What a reader asks for: the first locale that there is counts.
const READERS = [["en-GB", "en"], ["xx", "de-CH", "de"], ["fr-CA"], ["pl"], ["ar-EG"], ["hi", "en"]];
const DAYS = {
  en: { one: "day", other: "days" },
  de: { one: "Tag", other: "Tage" },
  fr: { one: "jour", many: "de jours", other: "jours" },
  pl: { one: "dzień", few: "dni", many: "dni", other: "dnia" },
  ar: { zero: "يوم", one: "يوم", two: "يومان", few: "أيام", many: "يومًا", other: "يوم" },
  hi: { one: "दिन", other: "दिन" },
};
const campaign = { given: "12345.5", goal: 20000, currency: "EUR", visits: 1234567n, days: 3 };

function toldTo(locales) {
  const amount = new NumberFormat(locales, { style: "currency", currency: campaign.currency });
  const whole = new NumberFormat(locales, { style: "currency", currency: campaign.currency, maximumFractionDigits: 0 });
  const share = new NumberFormat(locales, { style: "percent", maximumFractionDigits: 1 });
  const visits = new NumberFormat(locales, { notation: "compact", maximumSignificantDigits: 3 });
  const { locale } = amount.resolvedOptions();
  const day = DAYS[new Intl.Locale(locale).language][new PluralRules(locale).select(campaign.days)];
  const days = new NumberFormat(locales).format(campaign.days);
  return [locale, amount.format(campaign.given), whole.format(campaign.goal), share.format(campaign.given / campaign.goal), visits.format(campaign.visits), `${days} ${day}`];
}

for (const locales of READERS) console.log(toldTo(locales).join(" | "));
