// Prints the nanoseconds of a call of Intl.NumberFormat that writes a number in German, given as its digits; one line a number of digits.
// usage: node intl.js TURNS DIGITS..
const [turns, ...digits] = process.argv.slice(2).map(Number);
const german = new Intl.NumberFormat("de");
const CALLS = 20000;
for (const count of digits) {
  const number = "987654321987654321".slice(0, count);
  let least = Infinity;
  let text = "";
  for (let turn = 0; turn < turns; turn++) {
    const start = process.hrtime.bigint();
    for (let call = 0; call < CALLS; call++) text = german.format(number);
    least = Math.min(least, Number(process.hrtime.bigint() - start) / CALLS);
  }
  console.log(least.toFixed(1), text);
}
