"""Makes the units of a book of six arrays: the entries that no step from locale to locale finds."""
from look_up import UND, UNIT_ARRAYS, Book, Units, text_of
from smaller import by_parts

NO_UNITS = [[], [], [], [], []]


class SmallerUnits:
    """The units that find what the full ones find for each locale of a book, with fewer entries."""

    def __init__(self, smaller, arrays):
        self.full, self.digits = Units(arrays), arrays[4]
        self.book = Book(smaller.arrays(), NO_UNITS)
        self.units = self.book.units
        self.systems = ["", *self.full.systems()]
        own, codes = self.full.own_codes(), sorted({code for _, code, *_ in arrays[3]})
        self.questions = [
            *((self.percent, "percents", system, system) for system in self.systems),
            *((self.standard, "currencies", system, (system, "")) for system in self.systems),
            *((self.accounting, "accounts", system, (system, "")) for system in self.systems),
            *((ask, "currencies", code, ("", code)) for code in own for ask in (self.standard, self.accounting)),
            *((self.symbol, "currency symbols", code, code) for code in codes),
        ]
        locales = self.full.locales()
        for locale in sorted(locales, key=lambda it: (it != UND, len(self.book.chain(it)), it)):
            self.settle(locale, locale)
        known = {*locales, *(it for locale in smaller.full.locales() for it in self.book.chain(locale))}
        for name in sorted(set(smaller.names) - known, key=by_parts):
            if smaller.names[name] in locales and self.book.find("symbols", self.book.chain(name), "") is not None:
                self.settle(name, smaller.names[name])

    percent = staticmethod(lambda units, along, system: units.percent(along, system))
    standard = staticmethod(lambda units, along, asked: units.standard(along, *asked))
    accounting = staticmethod(lambda units, along, asked: units.accounting(along, *asked))
    symbol = staticmethod(lambda units, along, code: units.symbol(along, code))

    def settle(self, locale, its):
        """Adds the entries without which a locale, or another name of it, would find other units than in the full book."""
        along = self.book.unit_chain(locale)
        for ask, kind, attribute, asked in self.questions:
            wanted = ask(self.full, [its], asked)
            if wanted is not None and ask(self.units, along, asked) != wanted:
                self.units.entries[kind][locale, attribute] = wanted

    def arrays(self):
        """The five arrays, each in the order of its keys."""
        in_order = lambda kind: sorted(self.units.entries[kind].items(), key=lambda it: (text_of(it[0][0]), it[0][1]))
        of_kind = lambda kind: [[text_of(locale), attribute, *rest] for (locale, attribute), rest in in_order(kind)]
        return [*map(of_kind, UNIT_ARRAYS[:4]), self.digits]
