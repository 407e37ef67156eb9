"""The words of numbers: patterns of names, names of currencies, and units of measurement, of the locales of a book."""
import collections

from chained import Chained, in_chain_order
from cldr import CATEGORIES, Fault, tag_of
from look_up import PLACEHOLDER, UND, is_code

WIDTHS = ("long", "narrow", "short")
# The units of ECMA-402, and those with a unit behind another one that have words of their own.
UNITS = """acre bit byte celsius centimeter day degree fahrenheit fluid-ounce foot gallon gigabit gigabyte gram hectare hour inch
kilobit kilobyte kilogram kilometer liter megabit megabyte meter microsecond mile mile-scandinavian milliliter millimeter
millisecond minute month nanosecond ounce percent petabyte pound second stone terabit terabyte week yard year""".split()
PAIRS = "kilometer-per-hour liter-per-kilometer meter-per-second mile-per-gallon mile-per-hour".split()
BARE = ("zero", "one", "two")  # the categories whose words may have no number
NUMBER, OTHER = "{0}", "{1}"  # the places of a number, and of a currency or of another unit


def around(text):
    """The texts before and after the number of a pattern, or the one of a pattern without a number."""
    return text.split(NUMBER, 1)


def name_pattern(text):
    """The texts around the number, with the placeholder of the name."""
    return around(text.replace(OTHER, PLACEHOLDER))


def is_pattern(texts):
    """Whether two texts have one placeholder of the name."""
    return len(texts) == 2 and "".join(texts).count(PLACEHOLDER) == 1


class WordEntries:
    """Makes patterns, names and units of one locale after the other: an entry is there only where the chain of its locale would find
    another one. A currency without a name has its code. A pattern says that the words of its language are there, so none is found
    under `und`."""

    def __init__(self, cldr, book):
        self.cldr, self.book = cldr, book
        self.left_out = collections.defaultdict(collections.Counter)
        self.patterns, self.names, self.units = Chained(), Chained(), Chained()
        self.codes = [it for it in cldr.currencies_in_use if is_code(it)]
        if not self.codes:
            raise Fault(f"{cldr.folder}/supplemental/supplementalData.xml has no currencies of regions: words need them")
        self.kinds = self.kinds_of_units()
        self.along = {}

    def kinds_of_units(self):
        """The elements of the units, by their names without what they measure: length-kilometer is kilometer."""
        table = self.cldr.table(["root"], ("unitLength[short]", "compoundUnit[per]"))
        if "compoundUnitPattern" not in table:
            raise Fault(f"{self.cldr.folder}/main/root.xml has no unit behind another one: words need it")
        found = {it.removesuffix("]").partition("-")[2]: it for it in self.cldr.steps("root", "unitLength[short]") if it.startswith("unit[")}
        for unit in (*UNITS, *PAIRS):
            if unit not in found:
                self.without("units that root does not have", unit)
        return {unit: found[unit] for unit in (*UNITS, *PAIRS) if unit in found}

    def without(self, reason, tag):
        """Counts what is left out of a locale for a reason; answers None, as there are no words."""
        self.left_out[reason][tag] += 1

    def add(self, names):
        """Adds what these locales need, each after those of its chain."""
        for locale, name in in_chain_order(self.book, names):
            self.along[locale] = along = self.book.unit_chain(locale)
            tag, chain = tag_of(name), self.cldr.chain(name)
            asked = {category for category, _ in self.cldr.plural_rules(name)} | {"other"}
            pattern = self.pattern(tag, chain, asked)
            if pattern:
                self.patterns.settle([locale, *(it for it in along[1:] if it != UND)], pattern, "")
            for code, words in self.names_of(tag, chain, asked):
                self.names.settle(along, words, code, usual=[["other", code]])
            for width in WIDTHS:
                for unit in self.kinds:
                    words = self.unit(tag, chain, asked, width, unit)
                    if words:
                        self.units.settle(along, words, (width, unit))

    def slots(self, asked, cells, name, made=str):
        """The categories with what is made of their texts, without those that are as `other` or that are never asked for; None without
        `other`."""
        found = {it: made(cells[f"{name}[{it}]"]) for it in CATEGORIES if it in asked and f"{name}[{it}]" in cells}
        other = found.get("other")
        return None if other is None else [[it, words] for it, words in found.items() if it == "other" or words != other]

    def fine(self, what, tag, slots, is_fine):
        """Slots that a file can hold, or None."""
        texts = [text for _, words in slots or [] for text in ([words] if isinstance(words, str) else words)]
        if slots is None or not all(is_fine(*it) for it in slots) or any(char in text for text in texts for char in "\t\n"):
            return self.without(f"{what} that a file of words can't hold", tag)
        return slots

    def pattern(self, tag, chain, asked):
        """The patterns of names of a locale: those of its usual system, which has those of `latn` where it has none; or None."""
        usual, own = (self.cldr.table(chain, (f"currencyFormats[{system}]",)) for system in ("latn", self.cldr.default_system(chain)))
        slots = self.slots(asked, {**usual, **own}, "unitPattern", name_pattern)
        return self.fine("patterns of names", tag, slots, lambda _, texts: is_pattern(texts))

    def names_of(self, tag, chain, asked):
        """The names of each currency in use: where the data has none the code."""
        currencies = self.cldr.currencies(chain)
        for code in self.codes:
            cells = currencies.get(code, {})
            other = cells.get("displayName[other]", cells.get("displayName", code))
            slots = self.slots(asked, {**cells, "displayName[other]": other}, "displayName")
            if self.fine("names of currencies", tag, slots, lambda _, text: bool(text)):
                yield code, slots

    def unit(self, tag, chain, asked, width, unit):
        """The words of a unit in a width, with those that it has behind another one where it may be there; or None."""
        cells = self.cldr.table(chain, (f"unitLength[{width}]", self.kinds[unit]))
        slots = self.fine("units", tag, self.slots(asked, cells, "unitPattern", around), lambda it, texts: len(texts) == 2 or it in BARE)
        if slots is None or unit in PAIRS:
            return slots and [slots]
        behind = around(self.behind(chain, width, cells))
        return [slots, behind] if len(behind) == 2 else self.without("units behind another one without its place", tag)

    def behind(self, chain, width, cells):
        """The pattern of a unit behind another one: its own, or the usual one with the words of `one` without a number."""
        if "perUnitPattern" in cells:
            return cells["perUnitPattern"]
        usual = self.cldr.table(chain, (f"unitLength[{width}]", "compoundUnit[per]"))["compoundUnitPattern"]
        return usual.replace(OTHER, cells.get("unitPattern[one]", cells["unitPattern[other]"]).replace(NUMBER, "").strip())

    def locales(self):
        """The locales that have an entry."""
        return self.patterns.locales() | self.names.locales() | self.units.locales()

    def of_languages(self):
        """Patterns, names and units of each language: those of its locales and of what their chains lead to."""
        locales = collections.defaultdict(set)
        for locale, along in self.along.items():
            locales[locale.language].update(along)
        for language, its in sorted(locales.items()):
            patterns = [[tag, slots] for tag, _, slots in self.patterns.entries(*(its - {UND} or its))]
            names = [[tag, code, slots] for tag, code, slots in self.names.entries(*its)]
            yield language, [patterns, names, self.tables(its)]

    def tables(self, locales):
        """The units of these locales: of each width a table."""
        found = collections.defaultdict(list)
        for tag, (width, unit), words in self.units.entries(*locales):
            found[tag, width].append([unit, *words])
        return [[*key, units] for key, units in found.items()]
