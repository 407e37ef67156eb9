"""The signs that more of a book has: of exponents and of multiplication, permille, about so many, and the texts of ranges."""
import collections
import re

from chained import Chained, in_chain_order
from cldr import tag_of

# What a locale has whose data does not say it: elements of its symbols, and of its other patterns with the texts around numbers.
USUAL_SIGNS = {"exponential": "E", "superscriptingExponent": "×", "perMille": "‰", "approximatelySign": "~"}
USUAL_PATTERNS = {"range": ["", "–", ""], "atLeast": ["≥", ""], "atMost": ["≤", ""]}
NUMBER = re.compile(r"\{[01]\}")


class SignEntries:
    """Makes the array for the locales of a book: of each numbering system that the data of a locale names, and of its usual one, an
    entry where its chain would find another one. With a system the chain is asked for its entries before the usual ones."""

    def __init__(self, cldr, entries, book):
        self.cldr, self.entries, self.book = cldr, entries, book
        self.left_out = collections.defaultdict(collections.Counter)
        self.table = Chained()

    def add(self, names):
        """Adds what these locales need, each after those of its chain."""
        for locale, name in in_chain_order(self.book, names):
            along, own = self.book.unit_chain(locale), self.own(tag_of(name), self.cldr.chain(name))
            if own.get(""):
                self.table.settle(along, own[""], "")
                for system in sorted({*own, *self.table.keys(along)} - {""}):
                    self.table.settle(along, own.get(system) or own[""], system, "")

    def own(self, tag, chain):
        """The signs that a locale has under its usual system, which has no name, and under each other one that its data names; None
        where the book has no symbols."""
        default = self.entries.default_system(chain)
        systems = {"": default, **{it: it for it in self.entries.other_systems(chain)}}
        return {key: self.entries.symbols_of.get((tag, it)) and self.signs(tag, chain, it) for key, it in systems.items()}

    def signs(self, tag, chain, system):
        """The signs of a locale under a system, and the texts of its ranges, or None."""
        symbols, patterns = (self.cldr.table(chain, (f"{part}[{system}]",)) for part in ("symbols", "miscPatterns"))
        signs = [symbols.get(name, usual) for name, usual in USUAL_SIGNS.items()]
        texts = [self.around(patterns.get(f"pattern[{name}]"), usual) for name, usual in USUAL_PATTERNS.items()]
        if None in texts or any(char in "".join(sum(texts, signs)) for char in "\t\n"):
            self.left_out["signs that a book can't hold"][tag] += 1
            return None
        return [*signs, *texts]

    @staticmethod
    def around(pattern, usual):
        """The texts around the numbers of a pattern, which are as many as usual; the usual ones of no pattern, None of another one."""
        texts = usual if pattern is None else NUMBER.split(pattern)
        return texts if len(texts) == len(usual) else None

    def locales(self):
        """The locales that have an entry."""
        return self.table.locales()

    def array(self):
        """The array, in the order of its keys."""
        return [[tag, system, *signs] for tag, system, signs in self.table.entries()]
