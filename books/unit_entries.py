"""The entries of a book's units that one locale of CLDR has: percents, currencies, accounts, symbols and digits of
currencies."""
import collections
import unicodedata

from cldr import BESIDE_LETTER, Fault, tag_of
from entries import MOST, around, halves, written
from look_up import INCREMENTS, PLACEHOLDER, USUAL_DIGITS, is_code

APART = "\u00a0"  # between a letter and a digit, by the currency spacing that all locales of CLDR have
FORMATS = {
    "percent": ("percentFormats", "percentFormatLength", "percentFormat"),
    "standard": ("currencyFormats", "currencyFormatLength", "currencyFormat[standard]"),
    "accounting": ("currencyFormats", "currencyFormatLength", "currencyFormat[accounting]"),
}
CHARS = {"percent": "%", "standard": "¤", "accounting": "¤"}


def is_letter(char):
    """Whether CLDR's currency spacing keeps this character apart from a digit: it is neither a symbol nor a blank."""
    return unicodedata.category(char)[0] not in "SZ"


def letters(text):
    """Which ends of a text are letters: 1 for its first character, and 2 for its last."""
    return is_letter(text[0]) + 2 * is_letter(text[-1])


def number_and_pairs(text, char, minus, plus, number="#,0."):
    """The characters of a pattern's number, of these, and what is before and after the number: without a sign, with a minus,
    with a plus. None where a half of the pattern has no number or several, or has the placeholder as a text. The unit's character becomes its placeholder."""
    texts = [form for form in halves(text) if form is not None]
    forms = [around(form, number) for form in texts]
    if any(form is None or not form[1] for form in forms) or any((PLACEHOLDER, True) in form for form in texts):
        return None
    pair = lambda form, sign: [written(form[at], {"-": sign, char: PLACEHOLDER}) for at in (0, 2)]
    none = pair(forms[0], minus)
    pairs = [none]
    for sign in (minus, plus):
        # The form of negative numbers has that of a plus sign too, where it has a sign to be replaced.
        if len(forms) == 2 and (sign is minus or ("-", False) in forms[1][0] + forms[1][2]):
            pairs.append(pair(forms[1], sign))
        else:
            pairs.append([sign + none[0], none[1]])
    return written(forms[0][1]), pairs


def has_placeholders(found):
    """Whether each pair of what a pattern was read as has one placeholder."""
    return found is not None and all((before + after).count(PLACEHOLDER) == 1 for before, after in found[1])


def sizes_of(number):
    """The sizes of the last group and of those before it, 0 and 0 where there are no groups."""
    groups = number.partition(".")[0].split(",")[1:]
    return [len(groups[-1]), len(groups[-2]) if len(groups) > 1 else len(groups[-1])] if groups else [0, 0]


def apart(pair):
    """The pair with a space between the placeholder and the number where they are side by side."""
    before, after = pair
    before = before + APART if before.endswith(PLACEHOLDER) else before
    return [before, APART + after if after.startswith(PLACEHOLDER) else after]


def short_form(pairs, symbols):
    """The two texts of a pattern, or six where a sign is not around the two as it is in these symbols."""
    none, minus, plus = pairs
    around_none = lambda before, after: [before + none[0], none[1] + after]
    is_usual = minus == around_none(*symbols[0:2]) and plus == around_none(*symbols[2:4])
    return none if is_usual else [*none, *minus, *plus]


class UnitEntries:
    """Makes the entries of one locale after the other from those that the book has, and counts what it can't hold."""

    def __init__(self, cldr, entries):
        self.cldr, self.entries = cldr, entries
        self.left_out = collections.defaultdict(collections.Counter)
        self.check_root()
        self.arrays = [[], [], [], [], self.digits()]

    def without(self, reason, tag):
        """Counts what is left out of a locale for a reason; answers None, as there is no entry."""
        self.left_out[reason][tag] += 1

    def check_root(self):
        """Faults where the data has no percents and currencies: their patterns are in root at least."""
        for kind, path in FORMATS.items():
            if "pattern" not in self.cldr.table(["root"], (f"{path[0]}[latn]", *path[1:])):
                raise Fault(f"{self.cldr.folder}/main/root.xml has no pattern of {path[0]}: a book with units needs one")

    def digits(self):
        """The digits of each currency that has other ones than usual."""
        path, found = f"{self.cldr.folder}/supplemental/supplementalData.xml", []
        for code, numbers in sorted(self.cldr.currency_digits.items()):
            if code == "DEFAULT":
                if numbers != USUAL_DIGITS:
                    raise Fault(f"{path}: a currency usually has the digits {numbers}, and not {USUAL_DIGITS}")
            elif not is_code(code) or not {numbers[1], numbers[3]} <= set(INCREMENTS) or max(numbers) > MOST:
                self.without("digits of currencies that a book does not have", code)
            elif numbers != USUAL_DIGITS:
                found.append([code, *numbers])
        return found

    def add(self, name):
        """Adds the entries of a locale that has symbols in the book."""
        tag, chain = tag_of(name), self.cldr.chain(name)
        default = self.entries.default_system(chain)
        if self.entries.symbols_of.get((tag, default)) is None:
            return
        for array, kind in enumerate(FORMATS):
            self.add_patterns(self.arrays[array], kind, tag, chain, default)
        self.add_own_patterns(tag, chain, default)
        for code, values in sorted(self.cldr.currencies(chain).items()):
            text = values.get("symbol", code)
            if not is_code(code) or any(char in text for char in "\t\n"):
                self.without("symbols of currencies that a book does not have", tag)
            elif text != code:
                self.arrays[3].append([tag, code, text, letters(text)])

    def add_patterns(self, array, kind, tag, chain, default):
        """Adds the entries of a kind: the usual one, and that of each system which differs from it."""
        usual = None
        for system in (default, *(its for named, its in self.entries.symbols_of if named == tag and its != default)):
            if self.entries.symbols_of[tag, system] is None:
                continue
            path = FORMATS[kind]
            values = self.cldr.table(chain, (f"{path[0]}[{system}]", *path[1:]))
            entry = self.entry(kind, tag, chain, system, values)
            if entry is not None and entry != usual:
                array.append([tag, "" if system == default else system, *entry])
            if system == default:
                usual = entry

    def add_own_patterns(self, tag, chain, default):
        """Adds the entries of the currencies that have a pattern or separators of their own, other than the usual ones of a system."""
        usual = [entry[2:] for array in self.arrays[1:3] for entry in array if entry[0] == tag and not is_code(entry[1])]
        path = FORMATS["standard"]
        standard = self.cldr.table(chain, (f"{path[0]}[{default}]", *path[1:]))
        for code, own in sorted(self.cldr.currencies(chain).items()) if tag != "und" else ():
            if is_code(code) and {"pattern", "decimal", "group"} & set(own):
                values = {"pattern": own["pattern"]} if "pattern" in own else standard
                entry = self.entry("standard", tag, chain, default, values, own)
                if entry is not None and any(it != entry for it in usual):
                    self.arrays[1].append([tag, code, *entry])

    def entry(self, kind, tag, chain, system, values, own=()):
        """What an entry has after its locale and its system, or None."""
        symbols, table = self.entries.symbols_of[tag, system], self.cldr.table(chain, (f"symbols[{system}]",))
        signs = CHARS[kind], table["minusSign"], table["plusSign"]
        found = number_and_pairs(values.get("pattern", ""), *signs)
        if not has_placeholders(found):
            return self.without(f"{kind} patterns without one placeholder", tag)
        number, pairs = found
        separators = [table["decimal"], table["group"]]
        if kind != "percent":
            separators = [own["decimal"] if "decimal" in own else table.get("currencyDecimal", separators[0]),
                          own["group"] if "group" in own else table.get("currencyGroup", separators[1])]
        texts = [*separators, *(text for pair in pairs for text in pair), table.get("percentSign", ""), table.get("perMille", "")]
        if len(number) > MOST or any(char in text for text in texts for char in "\t\n"):
            return self.without(f"{kind} patterns that a book can't hold", tag)
        own_symbols = [system, *symbols[:4], *separators, *sizes_of(number), symbols[8]]
        # Separators that a currency has everywhere are the entry's own, also where they are the usual ones.
        is_usual = own_symbols[1:] == symbols and not {"decimal", "group"} & set(own)
        rest = [None if is_usual else own_symbols, short_form(pairs, symbols)]
        if kind == "percent":
            if "percentSign" not in table:
                return self.without("percents without a sign", tag)
            return [table["percentSign"], *rest, *([table["perMille"]] if "perMille" in table else ())]
        beside = self.beside_letter(tag, values, signs, found)
        beside = short_form([apart(pair) for pair in beside], symbols)
        return [*rest, None if beside == rest[1] else beside]

    def beside_letter(self, tag, values, signs, usual):
        """The pairs of the pattern that CLDR has beside a letter, or the usual ones."""
        text = values.get(f"pattern[{BESIDE_LETTER}]")
        found = number_and_pairs(text, *signs) if text else usual
        if not has_placeholders(found) or sizes_of(found[0]) != sizes_of(usual[0]):
            self.without("patterns beside a letter with other groups, or without one placeholder", tag)
            found = usual
        return found[1]
