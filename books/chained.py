"""Tables of more and of words, in which an entry is there only where the chain of its locale would find another one."""
from cldr import DATA_LOCALE, tag_of
from look_up import UND, locale_of, text_of


def in_chain_order(book, names):
    """The data locales that these names of CLDR are, each after those of its chain and with its name."""
    named = [(locale_of(tag_of(name)), name) for name in names if DATA_LOCALE.fullmatch(tag_of(name))]
    return sorted(named, key=lambda it: (it[0] != UND, len(book.unit_chain(it[0])), it[0]))


class Chained:
    """Values by locales and keys. They are found along the chain of a book, with `und` at its end."""

    def __init__(self):
        self.values = {}

    def find(self, along, *keys):
        """What a chain has for the first of these keys that it has a value for, or None."""
        return next((self.values[it, key] for key in keys for it in along if (it, key) in self.values), None)

    def settle(self, along, wanted, *keys, usual=None):
        """Adds the value that the first locale of a chain wants for the first of these keys, where the chain finds another one by
        them. Nothing found is as this usual value."""
        found = self.find(along, *keys)
        if (usual if found is None else found) != wanted:
            self.values[along[0], keys[0]] = wanted

    def keys(self, along):
        """The keys of the values of a chain."""
        return {key for locale, key in self.values if locale in along}

    def locales(self):
        """The locales that have a value."""
        return {locale for locale, _ in self.values}

    def entries(self, *locales):
        """Each locale's tag, key and value, in the order of tags and keys: of all, or of these locales."""
        kept = {*locales} or self.locales()
        return sorted((text_of(locale), key, value) for (locale, key), value in self.values.items() if locale in kept)
