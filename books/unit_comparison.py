"""What the comparisons of percents and of amounts of money with other formatters have in common: the lines, and causes why
a formatter writes another text than the definition of unit_text.py."""
import collections
import random

from comparison import answers, number, say_unknown, text, with_field
from look_up import LETTERS, PLACEHOLDER, locale_of
from unit_text import (
    FORM, Format, Symbols, affixes_of, answer, chosen_pattern, number_of, plain_tables, rounded, text_of, with_sign,
)

APART = "\u00a0"
SEPARATORS = ("decimal", "grouping")
STYLES = ("percent", "currency", "code", "accounting", "cash")
CODES = ("EUR", "USD", "CHF", "JPY", "INR", "TRY", "CVE", "DKK", "KWD", "QQQ")  # the last is no currency's
FIXED = (("keep", "0"), ("keep", "-5"), ("always", "5"), ("keep", "-0.001"), ("keep", "1234567.885"), ("keep", "-1234.125"))
OWN_CURRENCY = "the pattern of the region's own currency: for this alone here, there for all others too"
OF_LATN = "a separator of currencies that a locale has in its usual system: there in the other systems too"
NO_LETTERS = "CLDR's pattern beside a letter: taken here, and there the usual one with a space"
OF_GIVER = "the separators of the locale that gives a currency its pattern: there for the locales below it too"
HAN_DIGITS = "digits that Unicode counts as letters, those of hanidec: a space between them and letters here, and none there"
CASH_ZERO = "an increment of cash that ends in 0: its digits are shown here, and there without that 0"


def style_of(line):
    """The style of a line."""
    fields = line.split("\t")
    return "cash" if fields[4] == "cash" else fields[1].partition("-")[0]


def unit_lines(tags, count, seed):
    """The lines that ask for the fixed and for so many seeded numbers under each tag, in each style."""
    forms = [("percent", "-"), *((f"{style}-{code}", "-") for style in STYLES[1:4] for code in CODES)]
    forms += [(f"currency-{code}", "cash") for code in CODES]
    for tag in tags:
        for form, rounding in forms:
            rng = random.Random(f"{seed} {tag} {form} {rounding}")
            for sign, it in (*FIXED, *(("keep", number(rng)) for _ in range(count))):
                yield f"{tag}\t{form}\tauto\t{sign}\t{rounding}\t{it}"


def answers_here(book, lines):
    """The answers of the definition to these lines."""
    return [answer(book, line) for line in lines]


class Asked:
    """Lines that are asked of a program, each given with the answer of the definition; of none where there is no program. Many are asked
    at a time, and then only those are kept that are answered otherwise."""

    AT_A_TIME = 200_000

    def __init__(self, command):
        self.command, self.lines, self.count, self.other = command, [], 0, []

    def add(self, line, said):
        """Asks for one more line, now or with later ones."""
        if self.command:
            self.lines.append((line, said))
            if len(self.lines) == self.AT_A_TIME:
                self.ask()

    def ask(self):
        """Asks for the lines that wait."""
        found = answers(self.command, [line for line, _ in self.lines])
        self.count += len(found)
        self.other += [(line, a, b) for (line, b), a in zip(self.lines, found) if a != b]
        self.lines = []

    def say(self, shown):
        """Prints how many were answered otherwise, and the first of them; answers whether there is none."""
        self.ask()
        print(f"{self.count} lines are asked of the program; {len(self.other)} are answered otherwise than by the definition")
        for line, a, b in self.other[:shown]:
            print(f"line {line!r}\n  program    {a!r}\n  definition {b!r}")
        return not self.other


def say_otherwise(program, defined, shown):
    """Asks the program for lines, each given with the answer of the definition, prints how many it answers otherwise, and the first of
    them; answers whether there is none."""
    asked = Asked(program)
    for line, said in defined:
        asked.add(line, said)
    return asked.say(shown)


def spaced(pattern):
    """A pattern with a space between each number and the unit's placeholder next to it."""
    before = lambda text: text + APART if text.endswith(PLACEHOLDER) else text
    after = lambda text: APART + text if text.startswith(PLACEHOLDER) else text
    return [(before, after)[place % 2](it) for place, it in enumerate(pattern)]


def patterns_there(units, along, system, style, code):
    """The entries that another formatter may take for a currency, each with its causes: that which is taken here, and
    those of the currencies that have a pattern of their own; each as it is, and without its pattern beside a letter."""
    asked = units.accounting if style == "accounting" else units.standard
    usual = asked(along, system, code)
    its_own = [(asked(along, system, it), [OWN_CURRENCY]) for it in units.own_codes() if it != code]
    for entry, causes in ((usual, []), *its_own):
        own, pattern, beside_letter = entry
        yield own, pattern, beside_letter, causes
        yield own, pattern, spaced(pattern), [*causes, NO_LETTERS]


def with_usual_separators(book, locale, symbols, entry):
    """These symbols with the separators that the locale's usual entry has for currencies only, or None where it has none."""
    plain, own = plain_tables(book, locale, "")[0], Symbols(*entry[0]) if entry[0] else None
    changed = {it: getattr(own, it) for it in SEPARATORS if own and getattr(own, it) != getattr(plain, it)}
    return symbols._replace(**changed) if changed else None


def with_givers_separators(book, along, symbols, codes):
    """These symbols with the separators of each locale of a chain that has an entry for one of these codes."""
    for giver in along:
        if any((giver, code) in book.units.entries["currencies"] for code in codes):
            found = plain_tables(book, giver, "")[0]
            yield symbols._replace(**{it: getattr(found, it) for it in SEPARATORS})


def formats_there(book, line):
    """What another formatter may write a currency's line by, each with its causes."""
    fields = line.split("\t")
    *_, style, code = FORM.fullmatch(fields[1]).groups()
    name, _, system = fields[0].partition("-u-nu-")
    locale, units = locale_of(name), book.units
    along, (symbols, digits) = book.unit_chain(locale), plain_tables(book, locale, system)
    unit, ends = (code, LETTERS) if style == "code" else units.symbol(along, code)
    rounding = units.digits_of(code)[2:] if fields[4] == "cash" else units.digits_of(code)[:2]
    found = []
    for own, pattern, beside, causes in patterns_there(units, along, system, style, code):
        its = Symbols(*own) if own else symbols
        affixes = affixes_of(chosen_pattern(pattern, beside, ends), unit, its)
        found.append((Format(its, digits, affixes, rounding), causes))
        if not digits[0].isdecimal():
            found.append((Format(its, digits, affixes_of(pattern, unit, its), rounding), [*causes, HAN_DIGITS]))
        usual = system and with_usual_separators(book, locale, its, units.standard(along, "", code))
        if usual:
            found.append((Format(usual, digits, affixes, rounding), [*causes, OF_LATN]))
        codes = units.own_codes() if OWN_CURRENCY in causes else [code]
        found += [(Format(other, digits, affixes, rounding), [*causes, OF_GIVER])
                  for other in with_givers_separators(book, along, its, codes)]
    return found


def texts_there(book, line):
    """What another formatter may write for a currency's line, each with its causes."""
    _, _, grouping, display, rounding, given = line.split("\t")
    for form, causes in formats_there(book, line):
        # a number that was rounded before is shown as it is given
        value = number_of(given) if "," in rounding else rounded(number_of(given), *form.rounding)
        its = with_sign(value, display)
        yield text_of(form, its, grouping), causes
        if rounding == "cash" and form.rounding[1] % 10 == 0 and its.fraction.endswith("0"):
            yield text_of(form, its._replace(fraction=its.fraction[:-1]), grouping), [*causes, CASH_ZERO]


def cause_of(book, line, there):
    """Why another formatter writes this text for a line, or None: the fewest causes under which it would be written here."""
    is_answered = there.startswith("ok\t") and answer(book, with_field(line, 4, "-")).startswith("ok\t")
    if style_of(line) == "percent" or not is_answered:
        return None
    causes = [causes for its, causes in texts_there(book, line) if its == text(there)[1] and causes]
    return "; and ".join(min(causes, key=len)) if causes else None


def say_styles(found):
    """Prints for each style how many of these lines agree."""
    for style in STYLES:
        its = [it for it in found if style_of(it[0]) == style]
        agree = sum(text(a) == text(b) for _, a, b in its)
        print(f"{style:<10} {len(its):>8} lines, {agree:>8} agree, {100 * agree / len(its):.3f} %")


def say_found(found, causes, shown):
    """Prints the shares, the causes of the lines that differ, and the first whose cause is not known; answers whether
    every cause is known."""
    other = [it for it in found if text(it[1]) != text(it[2])]
    say_styles(found)
    for name, count in collections.Counter(causes.get(it[0]) or "not known" for it in other).most_common():
        print(f"{count:>8} differ: {name}")
    unknown = [it for it in other if causes.get(it[0]) is None]
    say_unknown(unknown, shown)
    return not unknown
