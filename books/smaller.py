"""Makes six arrays of five: the steps from locale to locale, and the entries that no step finds."""
import json

from cldr import Fault
from look_up import LOOKED_UP, UND, Book, Locale, comes_back, parents_fault, text_of, truncated
from names import parents_by_name, other_names

NOTHING = Locale("zxx")  # no linguistic content: a language without tables


def size(*entry):
    """The bytes that an entry takes in a book."""
    return len(json.dumps(entry, ensure_ascii=False, separators=(",", ":")).encode()) + 2


def by_parts(locale):
    """What puts each locale after those with fewer parts."""
    return sum(map(bool, locale)), locale


class Smaller:
    """The book that finds what the full one finds for each of its locales, with fewer entries."""

    def __init__(self, cldr, arrays):
        self.full, self.digits, self.folder = Book(arrays), arrays[1], f"{cldr.folder}/supplemental"
        self.book = Book([[], [], [], [], [], []])
        self.steps = self.book.parents
        parents = parents_by_name(cldr, {*self.full.locales()})
        self.steps.update((child, it) for child, it in parents.items() if it != truncated(child))
        self.systems = {kind: sorted({it for _, it in table if it}) for kind, table in self.full.entries.items()}
        for locale in self.ordered():
            self.settle(locale)
        self.bearing = set(self.book.locales())
        self.passed = {it for locale in self.full.locales() for it in self.book.chain(locale)}
        self.names = {name: its for name, its in other_names(cldr, parents).items() if name not in self.passed}
        self.settled = set(self.steps)
        self.lead_names(())
        self.drop_steps()

    def ordered(self):
        """The locales of the full book, each after those of its chain."""
        locales = self.full.locales()
        for locale in locales:
            if comes_back(self.book.chain(locale)):
                raise Fault(f"{self.folder}/supplementalData.xml: the parents of {text_of(locale)} return to it")
        return sorted(locales, key=lambda it: (it != UND, len(self.book.chain(it))))

    def settle(self, locale):
        """Adds the entries of a locale, and its step where one is needed or spares entries."""
        if locale != UND and locale not in self.steps and truncated(locale) is None:
            self.settle_language(locale)
        elif self.add_entries(locale) is None:
            self.steps[locale] = NOTHING
            self.add_entries(locale)

    def settle_language(self, locale):
        """Adds the entries of a language, with the step to root where the book gets smaller by it."""
        alone = self.add_entries(locale)
        most = self.bytes_of(alone) - size(text_of(locale), "und")
        self.withdraw(alone)
        self.steps[locale] = UND
        after_root = self.add_entries(locale)
        if after_root is None or self.bytes_of(after_root) >= most:
            self.withdraw(after_root or [])
            del self.steps[locale]
            self.add_entries(locale)

    def add_entries(self, locale):
        """Adds the entries without which a locale would find other tables than in the full book, and answers their
        keys; None, and nothing is added, where its chain has a table that the locale must not find."""
        added, along, alone = [], self.book.chain(locale), [locale]
        for kind in LOOKED_UP:
            for system in ["", *self.systems[kind]]:
                wanted = self.full.find(kind, alone, system)
                if self.book.find(kind, along, system) == wanted:
                    continue
                if wanted is None:
                    self.withdraw(added)
                    return None
                self.book.entries[kind][locale, system] = wanted
                added.append((kind, locale, system))
        return added

    def withdraw(self, keys):
        """Takes entries back."""
        for kind, locale, system in keys:
            del self.book.entries[kind][locale, system]

    def bytes_of(self, keys):
        """The bytes that these entries take in a book."""
        return sum(size(*self.entry(*key)) for key in keys)

    def entry(self, kind, locale, system):
        """An entry as its array has it."""
        rest = self.book.entries[kind][locale, system]
        return [text_of(locale), *([] if kind == "plural rules" else [system]), *rest]

    def with_entries(self, locale):
        """Those on the chain of a locale that have entries of their own: they say what the chain finds."""
        return [it for it in self.book.chain(locale) if it in self.bearing]

    def lead_names(self, locales):
        """Adds the steps by which other names of locales find the entries here, and those that these locales have of signs and words. The steps
        that the data names stay."""
        self.bearing.update(locales)
        for name in sorted(self.names, key=by_parts):
            if not (name in self.settled and name in self.steps):
                self.add_name(name, self.names[name])

    def add_name(self, name, its):
        """Adds the step from another name of a locale where the name would find other entries without it. The step
        goes to the first cut of the locale that has entries or a step of its own."""
        if self.with_entries(name) == self.with_entries(its):
            return
        while its not in self.bearing and its not in self.steps and truncated(its):
            its = truncated(its)
        self.steps[name] = its

    def drop_steps(self):
        """Drops the steps that neither lead to an entry nor keep a locale from one."""
        for locale in list(self.steps):
            cut = truncated(locale)
            if not self.with_entries(locale) and not (cut and self.with_entries(cut)):
                del self.steps[locale]

    def arrays(self):
        """The six arrays, each in the order of its keys."""
        in_order = lambda kind: sorted(self.book.entries[kind], key=lambda it: (text_of(it[0]), it[1]))
        found = {kind: [self.entry(kind, *key) for key in in_order(kind)] for kind in LOOKED_UP}
        parents = sorted([text_of(locale), text_of(parent)] for locale, parent in self.steps.items())
        fault = parents_fault(parents)
        if fault:
            raise Fault(f"{self.folder}: the parents would be refused: {' '.join(parents[fault[0]])} is {fault[1]}")
        return [found["symbols"], self.digits, found["plural rules"], found["short"], found["long"], parents]
