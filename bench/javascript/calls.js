// Prints, for each kind of call and number of digits, nanoseconds of the package, of Intl.NumberFormat, and the one over the other; formatters of a
// locale, kept, but for `new`, which makes one for each call; the least of the turns, in which the two take turns. The texts have to be the same. Of
// a column of a thousand numbers it is the time of one of them: `loop` calls `format` for each, of numbers and of texts.
// usage: node calls.js PACKAGE TURNS LOCALE DIGITS..
const [folder, times, locale, ...numbers] = process.argv.slice(2);
const [turns, ...digits] = [times, ...numbers].map(Number);
const { CompactDecimalFormatter, CurrencyFormatter, DecimalFormatter, PercentFormatter } = await import(`${folder}/node.js`);
const CALLS = 20000;
const COLUMN = 1000;
const plain = new DecimalFormatter(locale);
const compact = new CompactDecimalFormatter(locale);
const intl = new Intl.NumberFormat(locale, { maximumFractionDigits: 20 });
const intlCompact = new Intl.NumberFormat(locale, { notation: "compact" });
const percents = new PercentFormatter(locale);
const euros = new CurrencyFormatter(locale, { currency: "EUR" });
const intlEuros = new Intl.NumberFormat(locale, { style: "currency", currency: "EUR" });
const textOf = (found) => (typeof found === "string" ? found : found.map((it) => it.value ?? it).join(""));

function timed(call, numbers) {
  const calls = CALLS / numbers;
  const start = process.hrtime.bigint();
  for (let i = 0; i < calls; i += 1) call();
  return Number(process.hrtime.bigint() - start) / CALLS;
}

for (const count of digits) {
  const text = "987654321987654321".slice(0, count);
  const [number, whole, written, amount] = [Number(text), BigInt(text), intl.format(text), intlEuros.format(text)];
  const numbers = new Float64Array(COLUMN).fill(number);
  const [integers, texts] = [new BigInt64Array(COLUMN).fill(whole), Array(COLUMN).fill(text)];
  const rows = [
    ["text", () => plain.format(text), () => intl.format(text)],
    ["number", () => plain.format(number), () => intl.format(number)],
    ["bigint", () => plain.format(whole), () => intl.format(whole)],
    ["parts", () => plain.formatToParts(text), () => intl.formatToParts(text)],
    ["short", () => compact.format(text), () => intlCompact.format(text)],
    ["read", () => plain.read(written), null],
    ["read_lenient", () => plain.readLenient(text), null],
    ["options", () => plain.format(text, { maximumFractionDigits: 2 }), null],
    ["new", () => new DecimalFormatter(locale).format(text), () => new Intl.NumberFormat(locale, { maximumFractionDigits: 20 }).format(text)],
    ["percent", () => percents.format(text), null],
    ["amount", () => euros.format(text), () => intlEuros.format(text)],
    ["amount parts", () => euros.formatToParts(text), () => intlEuros.formatToParts(text)],
    ["amount read", () => euros.read(amount), null],
    ["loop numbers", () => Array.from(numbers, plain.format), () => Array.from(numbers, intl.format), COLUMN],
    ["all numbers", () => plain.formatAll(numbers), () => Array.from(numbers, intl.format), COLUMN],
    ["all integers", () => plain.formatAll(integers), () => Array.from(integers, intl.format), COLUMN],
    ["loop texts", () => texts.map(plain.format), () => texts.map(intl.format), COLUMN],
    ["all texts", () => plain.formatAll(texts), () => texts.map(intl.format), COLUMN],
  ];
  for (const [name, ours, theirs, numbersOfCall = 1] of rows) {
    const least = [Infinity, Infinity];
    if (theirs && textOf(ours()) !== textOf(theirs())) console.error(`bench: the texts differ: ${textOf(ours())} ${textOf(theirs())}`);
    for (let turn = 0; turn < turns; turn += 1) {
      [ours, theirs].forEach((call, at) => call && (least[at] = Math.min(least[at], timed(call, numbersOfCall))));
    }
    const [mine, other] = least;
    const rest = theirs ? `${other.toFixed(0).padStart(7)} ${(mine / other).toFixed(2).padStart(6)}` : "";
    console.log(`${locale.padEnd(6)} ${String(count).padStart(6)} ${name.padEnd(12)} ${mine.toFixed(0).padStart(7)} ${rest}`);
  }
}
