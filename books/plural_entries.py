"""What a book has of plurals beside its cardinal rules: ordinal rules, and the categories of ranges."""
from chained import in_chain_order
from cldr import CATEGORIES
from look_up import text_of


class PluralEntries:
    """Makes both arrays for the locales of a book: an entry is there only where the chain of the locale, with `und` at its
    end, would find another one. No ranges are as an entry without them, and no ordinal rules are not: a locale has an entry
    of them, which may be empty."""

    def __init__(self, cldr, book):
        self.cldr, self.book = cldr, book
        self.ordinals, self.ranges = {}, {}

    def add(self, names):
        """Adds what these locales need, each after those of its chain."""
        for locale, name in in_chain_order(self.book, names):
            rules, ranges = self.ordinal_rules(name), self.plural_ranges(name)
            if self.book.first_in(self.ordinals, locale) != rules:
                self.ordinals[locale] = rules
            if (self.book.first_in(self.ranges, locale) or []) != ranges:
                self.ranges[locale] = ranges

    def ordinal_rules(self, name):
        """The ordinal rules of a locale without `other`, which has no condition."""
        given = dict(self.cldr.of_language(name, self.cldr.ordinals))
        return [[it, given[it]] for it in CATEGORIES[:-1] if it in given]

    def plural_ranges(self, name):
        """The ranges of a locale whose category is not that of the second end."""
        given = self.cldr.of_language(name, self.cldr.ranges)
        return sorted(map(list, (it for it in given if it[2] != it[1])), key=lambda it: [*map(CATEGORIES.index, it)])

    def arrays(self):
        """Both arrays, each in the order of its keys."""
        in_order = lambda table: [[text_of(locale), table[locale]] for locale in sorted(table, key=text_of)]
        return [in_order(self.ordinals), in_order(self.ranges)]
