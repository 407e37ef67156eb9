"""The compact amounts of money that more of a book has: types with their exponents, and the patterns of each plural."""
import collections
import re

from chained import Chained, in_chain_order
from cldr import CATEGORIES, tag_of
from entries import FARTHEST, MOST
from unit_entries import apart, has_placeholders, number_and_pairs, short_form

PATH = ("currencyFormatLength[short]", "currencyFormat[standard]")
PLAIN = "0"  # the pattern of a type whose amounts are written as plain ones
TYPE = re.compile(r"pattern\[(10*),([a-z]+)\]")


def zeros_of(found):
    """How many zeros a pattern has."""
    return len(found[0])


class AmountEntries:
    """Makes the array for the locales of a book: of each numbering system that the data of a locale names, and of its usual one, an
    entry where its chain would find another one. With a system the chain is asked for its entries before the usual ones."""

    def __init__(self, cldr, entries, book):
        self.cldr, self.entries, self.book = cldr, entries, book
        self.left_out = collections.defaultdict(collections.Counter)
        self.table = Chained()

    def without(self, reason, tag):
        """Counts what is left out of a locale for a reason; answers None, as there is no type."""
        self.left_out[reason][tag] += 1

    def add(self, names):
        """Adds what these locales need, each after those of its chain."""
        for locale, name in in_chain_order(self.book, names):
            along, own = self.book.unit_chain(locale), self.own(tag_of(name), name)
            if own.get(""):
                self.table.settle(along, [own[""]], "")
                for system in sorted({*own, *self.table.keys(along)} - {""}):
                    self.table.settle(along, [own.get(system) or own[""]], system, "")

    def own(self, tag, name):
        """The types that a locale has under its usual system, which has no name, and under each other one that its data names; None
        where the book has no symbols."""
        chain = self.cldr.chain(name)
        default = self.entries.default_system(chain)
        asked = {category for category, _ in self.cldr.plural_rules(name)}
        systems = {"": default, **{it: it for it in self.entries.other_systems(chain)}}
        return {key: self.entries.symbols_of.get((tag, it)) and self.types(tag, chain, it, asked) for key, it in systems.items()}

    def types(self, tag, chain, system, asked):
        """The types of a locale under a system, without those that are as the one before."""
        symbols, signs = self.entries.symbols_of[tag, system], self.cldr.table(chain, (f"symbols[{system}]",))
        signs = signs["minusSign"], signs["plusSign"]
        texts = collections.defaultdict(dict)
        for key, text in self.cldr.table(chain, (f"currencyFormats[{system}]", *PATH)).items():
            if TYPE.fullmatch(key):
                power, category = TYPE.fullmatch(key).groups()
                texts[len(power) - 1][category] = text
        found = []
        for power, its in sorted(texts.items()):
            made = self.type(tag, power, its, asked, symbols, signs)
            if made is not None and made[0] < (found[-1][1] if found else 0):
                self.without("types of compact amounts whose exponent falls", tag)
            elif made is not None and (not found or found[-1][1:] != made):
                found.append([power, *made])
        return found

    def type(self, tag, power, texts, asked, symbols, signs):
        """The exponent and the slots of a type: those of `other`, and of each category that is asked for and has others; no slots where
        amounts are written as plain ones; None where a book can't hold it."""
        if texts.get("other") == PLAIN:
            return [0, []]
        found = {category: number_and_pairs(text, "¤", *signs, number="0") for category, text in texts.items() if category in {*asked, "other"}}
        if "other" not in found or not all(map(has_placeholders, found.values())):
            return self.without("types of compact amounts without one placeholder", tag)
        if len(set(map(zeros_of, found.values()))) > 1:
            return self.without("types of compact amounts whose patterns disagree on the exponent", tag)
        exponent = power - zeros_of(found["other"]) + 1
        slots = {category: self.slot(pairs, symbols) for category, (_, pairs) in found.items()}
        if any(char in "".join(pair) for _, pairs in found.values() for pair in pairs for char in "\t\n"):
            return self.without("types of compact amounts with a tab or a line feed", tag)
        if power > MOST or not 0 <= exponent or power - exponent > FARTHEST:
            return self.without("types of compact amounts that are too large, or too far above their exponent", tag)
        others = [it for it in CATEGORIES if it != "other" and slots.get(it, slots["other"]) != slots["other"]]
        return [exponent, [[it, *slots[it]] for it in ("other", *others)]]

    @staticmethod
    def slot(pairs, symbols):
        """The pattern, and the one beside a letter, or None where both are the same."""
        pattern, beside = short_form(pairs, symbols), short_form([apart(pair) for pair in pairs], symbols)
        return [pattern, None if beside == pattern else beside]

    def locales(self):
        """The locales that have an entry."""
        return self.table.locales()

    def array(self):
        """The array, in the order of its keys."""
        return [[tag, system, *types] for tag, system, types in self.table.entries()]
