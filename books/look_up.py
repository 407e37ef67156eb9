"""A book's tables and how a line finds them: the rule of docs/books.md, written down once more.

The scripts of this folder go only by this model; nothing in it is taken from the program. A book with units is a pair
of a book and of five arrays of units: percents, currencies, accounts, symbols and digits of currencies. One with ordinal
rules, ranges and signs too is a triple of both and of three arrays more, of which the third may be missing.
"""
import json
import re
import typing

from cldr import Fault

ARRAYS = ("symbols", "digits", "plural rules", "short", "long", "parents")
UNIT_ARRAYS = ("percents", "currencies", "accounts", "currency symbols", "currency digits")
MORE_ARRAYS = ("ordinal rules", "plural ranges", "signs")
LEAST_MORE, MOST_MORE = 2, 8  # arrays
LOOKED_UP = ("symbols", "plural rules", "short", "long")
FORMS = ("plain", "short", "long")
PLACEHOLDER = "¤"  # of the unit, in a pattern
INCREMENTS = (1, 2, 5, 10, 20, 25, 50)
USUAL_DIGITS = [2, 1, 2, 1]
LETTERS = 3  # both ends of a unit are letters, as those of a code
CODE = re.compile("[A-Z]{3}")
SYSTEM = re.compile("[a-z0-9]{3,8}")
REGION = "[a-z]{2}|[0-9]{3}"
DATA_LOCALE = re.compile(
    f"([a-z]{{2,3}})(?:-([a-z]{{4}}))?(?:-({REGION}))?(?:-([a-z0-9]{{5,8}}|[0-9][a-z0-9]{{3}}))?"
    "(?:-u((?:-sd(?:-[a-z0-9]{3,8})*)+))?",
    re.I | re.A,
)
SUBDIVISION = re.compile(f"(?:{REGION})[a-z0-9]{{1,4}}", re.A)


class Locale(typing.NamedTuple):
    """A data locale as a value: each part in its usual case, empty where it is not there."""

    language: str
    script: str = ""
    region: str = ""
    variant: str = ""
    subdivision: str = ""


UND = Locale("und")


def locale_of(text):
    """The data locale that a text names, or None."""
    found = DATA_LOCALE.fullmatch(text) if isinstance(text, str) else None
    if found is None:
        return None
    language, script, region, variant, keywords = (part or "" for part in found.groups())
    subdivision = ""
    if keywords:
        # Of two keywords with one key the first counts, and `true` is left out of a value.
        value = [it for it in re.split("-sd(?:-|$)", keywords.lower())[1].split("-") if it not in ("", "true")]
        if len(value) != 1 or not SUBDIVISION.fullmatch(value[0]):
            return None
        subdivision = value[0]
    return Locale(language.lower(), script.title(), region.upper(), variant.lower(), subdivision)


def text_of(locale):
    """The tag of a data locale: en-Latn-US, en-u-sd-ustx."""
    tag = "-".join(part for part in locale[:4] if part)
    return f"{tag}-u-sd-{locale.subdivision}" if locale.subdivision else tag


def truncated(locale):
    """The locale without the first of subdivision, variant, region and script that it has, or None."""
    for part in ("subdivision", "variant", "region", "script"):
        if getattr(locale, part):
            return locale._replace(**{part: ""})
    return None


def chain(parents, locale):
    """The locale and those that are asked for after it; a locale that comes back is the last, and is there twice.

    The parents are those that the sixth array lists, or None for a book of five arrays."""
    found = [locale]
    while parents is not None:
        after = parents.get(found[-1]) or truncated(found[-1])
        if after is None:
            break
        found.append(after)
        if after in found[:-1]:
            break
    return found


def comes_back(found):
    """Whether a chain ends with a locale that it has before."""
    return found[-1] in found[:-1]


def parents_fault(entries):
    """The place and the word of the first faulty entry of a sixth array, or None."""
    parents = {}
    for place, entry in enumerate(entries):
        if not isinstance(entry, list) or len(entry) != 2 or not all(isinstance(it, str) for it in entry):
            return place, "shape"
        locale, parent = map(locale_of, entry)
        if locale is None or parent is None:
            return place, "tag"
        if locale in parents:
            return place, "duplicate"
        parents[locale] = parent
        if locale in chain(parents, parent):
            return place, "cycle"
    return None


def is_code(text):
    """Whether a text is the code of a currency: three capitals."""
    return CODE.fullmatch(text) is not None


def find_under(table, along, system):
    """What a chain of locales finds in a table by locales and systems: for a system, and then for none; or None."""
    for its in (system, "") if system else ("",):
        for locale in along:
            if (locale, its) in table:
                return table[locale, its]
    return None


class Units:
    """The tables of five arrays that are a book's units, by their keys.

    A chain is that of the book, and `und` at its end where the book has parents ("Book.unit_chain")."""

    def __init__(self, arrays):
        percents, currencies, accounts, symbols, digits = arrays
        self.entries = {
            kind: {(locale_of(tag), attribute): rest for tag, attribute, *rest in array}
            for kind, array in zip(UNIT_ARRAYS, (percents, currencies, accounts, symbols))
        }
        self.digits = {code: numbers for code, *numbers in digits}

    def find(self, along, *questions):
        """The entry that a chain finds: of these arrays and attributes, in their order, that of the first that has one."""
        for kind, attribute in questions:
            table = self.entries[kind]
            for locale in along:
                if (locale, attribute) in table:
                    return table[locale, attribute]
        return None

    def percent(self, along, system):
        """The percent sign, the symbols of its own or None, the pattern and, where it has one, the permille sign, under a system
        or none; or None."""
        return self.find(along, *under("percents", system))

    def standard(self, along, system, code):
        """The symbols of its own or None, the pattern, and the one beside a letter or None, of a currency; or None."""
        return self.find(along, *of_code(code), *under("currencies", system))

    def accounting(self, along, system, code):
        """The same in accounting: of the currency itself, else of accounts, else as in standard."""
        usual = (*under("accounts", system), *under("currencies", system))
        return self.find(along, *of_code(code), *usual)

    def symbol(self, along, code):
        """The text that a currency is written by, and which ends of it are letters: its code where it has no symbol."""
        return self.find(along, ("currency symbols", code)) or [code, LETTERS]

    def digits_of(self, code):
        """The digits, the increment, the cash digits and the cash increment of a currency."""
        return self.digits.get(code, USUAL_DIGITS)

    def systems(self):
        """The numbering systems that an entry of patterns is for, in order."""
        kinds = UNIT_ARRAYS[:3]
        return sorted({it for kind in kinds for _, it in self.entries[kind] if SYSTEM.fullmatch(it)})

    def own_codes(self):
        """The currencies that have a pattern of their own somewhere, in order."""
        return sorted({it for _, it in self.entries["currencies"] if is_code(it)})

    def codes(self):
        """The currencies that have a symbol, digits or a pattern of their own, in order."""
        return sorted({*self.own_codes(), *(it for _, it in self.entries["currency symbols"]), *self.digits})

    def locales(self):
        """The locales that have an entry of their own, in the order of their tags."""
        return sorted({locale for table in self.entries.values() for locale, _ in table}, key=text_of)


def under(kind, system):
    """What is asked of an array of patterns: the entry of the system, where there is one, and the usual one."""
    return ((kind, system), (kind, "")) if system else ((kind, ""),)


def of_code(code):
    """What is asked of the array of currencies for a currency, and for none."""
    return (("currencies", code),) if code else ()


class Book:
    """The tables of five or six arrays that are a book, by their keys, with units and with more where it has them."""

    def __init__(self, arrays, units=None, more=None):
        self.units = None if units is None else Units(units)
        self.more = None if more is None else more_tables(more)
        symbols, digits, rules, short, long, *sixth = arrays
        self.digits = dict(digits)
        self.entries = {
            "symbols": {(locale_of(tag), system): rest for tag, system, *rest in symbols},
            "plural rules": {(locale_of(tag), ""): rest for tag, *rest in rules},
            "short": {(locale_of(tag), system): rest for tag, system, *rest in short},
            "long": {(locale_of(tag), system): rest for tag, system, *rest in long},
        }
        self.parents = {locale_of(tag): locale_of(parent) for tag, parent in sixth[0]} if sixth else None

    def chain(self, locale):
        """The locale and those that are asked for after it: none where the book has no sixth array."""
        return chain(self.parents, locale)

    def unit_chain(self, locale):
        """The chain of a locale for units: `und` is at its end where the book has parents."""
        found = self.chain(locale)
        return found if self.parents is None or UND in found else [*found, UND]

    def first_in(self, table, locale):
        """What a table by locales has for a locale: that of the first of its chain, `und` last, or None."""
        return next((table[it] for it in self.unit_chain(locale) if it in table), None)

    def cardinal_rules(self, locale):
        """The plural rules of a locale, or None."""
        found = self.find("plural rules", self.chain(locale), "")
        return found and found[0]

    def ordinal_rules(self, locale):
        """The ordinal rules of a locale, or None."""
        return self.more and self.first_in(self.more["ordinal rules"], locale)

    def plural_ranges(self, locale):
        """The categories of the ranges of a locale that are not those of the second end: none where it has no entry."""
        return (self.more and self.first_in(self.more["plural ranges"], locale)) or []

    def signs(self, locale, system):
        """The signs of a locale, and the texts of its ranges, for a system or for none; or None."""
        return self.more and find_under(self.more["signs"], self.unit_chain(locale), system)

    def compact_amounts(self, locale, system):
        """The types of compact amounts of a locale, for a system or for none; or None."""
        found = self.more and find_under(self.more["compact amounts"], self.unit_chain(locale), system)
        return found and found[0]

    def find(self, kind, along, system):
        """The table of a kind that a chain of locales finds for a system, or for none, or None."""
        return find_under(self.entries[kind], along, system)

    def tables(self, form, along, system):
        """The tables that a line of a form asks for, by their kinds; None where one is not found."""
        symbols = self.find("symbols", along, system)
        digits = self.digits.get(system) or (self.digits.get(symbols[0]) if symbols else None)
        found = {"symbols": symbols, "digits": digits}
        if form != "plain":
            found["plural rules"] = self.find("plural rules", along, "")
            found[form] = self.find(form, along, system)
        return found

    def locales(self):
        """The locales that have an entry of their own, in the order of their tags."""
        return sorted({locale for table in self.entries.values() for locale, _ in table}, key=text_of)

    def standing(self):
        """The locales that have an entry, of units and of more too, or are the parent of another one, in the order of their tags."""
        of_units = self.units.locales() if self.units else []
        return sorted({*self.locales(), *of_units, *self.more_locales(), *(self.parents or {}).values()}, key=text_of)

    def more_locales(self):
        """The locales that have an entry of more."""
        ordinals, ranges, signs, amounts = self.more.values() if self.more else ({}, {}, {}, {})
        return [*ordinals, *ranges, *(locale for locale, _ in (*signs, *amounts))]

    def systems(self):
        """The systems that the book has digits or an entry for, in order."""
        return sorted({*self.digits, *(system for table in self.entries.values() for _, system in table if system)})


def more_tables(arrays):
    """The tables of the arrays of more, by their kinds, and by locales or, of signs, by locales and systems. Faults where there
    are not two to eight, or one beside the first three and that of compact amounts has entries."""
    if not LEAST_MORE <= len(arrays) <= MOST_MORE:
        raise ValueError("more is two arrays to eight")
    ordinals, ranges, signs, narrow, amounts, *others = (*arrays, [], [], [])
    if narrow or any(others):
        raise ValueError("more has entries only in its first three arrays and in the fifth")
    tables = [{locale_of(tag): its for tag, its in array} for array in (ordinals, ranges)]
    tables += [{(locale_of(tag), system): rest for tag, system, *rest in array} for array in (signs, amounts)]
    return dict(zip((*MORE_ARRAYS, "compact amounts"), tables))


def parts_of(value):
    """The book, the units and more of a JSON value that is a pair or a triple of them, where null is no arrays, with None for
    each that is not there; the value and None twice else."""
    if not isinstance(value, list) or len(value) not in (2, 3):
        return value, None, None
    book, *others = value
    others = [[] if it is None else it for it in others]
    return (book, *others, None)[:3]


def book_of(value):
    """The book that a JSON value is, or None where it has not the form that this model needs."""
    arrays, units, more = parts_of(value)
    try:
        return Book(arrays, units, more) if parents_fault(arrays[5] if len(arrays) > 5 else []) is None else None
    except (TypeError, ValueError, LookupError):
        return None


def read_book(path, with_units=False, with_more=False):
    """The book that a file holds, which has units, and ordinal rules and ranges, where these are asked for."""
    try:
        with open(path, encoding="utf-8") as given:
            value = json.load(given)
    except OSError as fault:
        raise Fault(f"{path} can't be read: {fault.strerror}") from None
    except (ValueError, RecursionError) as fault:
        raise Fault(f"{path} is no JSON: {fault}") from None
    book = book_of(value)
    if book is None:
        raise Fault(f"{path} is no book of five or six arrays, with units or without")
    if with_units and book.units is None:
        raise Fault(f"{path} has no units")
    if with_more and book.more is None:
        raise Fault(f"{path} has no ordinal rules and ranges")
    return book


def differences(full, book):
    """What each triple of a locale of the full book, a system or none, and a form finds otherwise in the other
    book: (form, locale, system, kinds of tables), with no kinds where it finds the same."""
    for locale in full.locales():
        there, here = full.chain(locale), book.chain(locale)
        for system in ["", *full.systems()]:
            for form in FORMS:
                wanted, found = full.tables(form, there, system), book.tables(form, here, system)
                yield form, locale, system, [kind for kind in wanted if wanted[kind] != found[kind]]


def unit_differences(full, book):
    """What each locale of the full book that has symbols finds otherwise of the units in the other book: (array, locale,
    system or code, differs). A code stands for all where no locale has a pattern of its own for it."""
    its, other = full.units, book.units
    systems, own = ["", *sorted({*its.systems(), *other.systems()})], ["", *sorted({*its.own_codes(), *other.own_codes()})]
    codes = sorted({*its.codes(), *other.codes()})
    for locale in full.locales():
        there, here = full.unit_chain(locale), book.unit_chain(locale)
        if full.find("symbols", there, "") is None:
            continue
        for system in systems:
            yield "percents", locale, system, its.percent(there, system) != other.percent(here, system)
            for code in own:
                what = " ".join(filter(None, (system, code)))
                yield "currencies", locale, what, its.standard(there, system, code) != other.standard(here, system, code)
                yield "accounts", locale, what, its.accounting(there, system, code) != other.accounting(here, system, code)
        for code in codes:
            yield "currency symbols", locale, code, its.symbol(there, code) != other.symbol(here, code)
    for code in codes:
        yield "currency digits", UND, code, its.digits_of(code) != other.digits_of(code)


def more_differences(full, book):
    """What each locale of the full book finds otherwise of more in the other book: (array, locale, system, differs). Signs are asked
    for where the locale has symbols."""
    systems = sorted({"", *(system for its in (full, book) for _, system in its.more["signs"])})
    for locale in full.locales():
        yield "ordinal rules", locale, "", full.ordinal_rules(locale) != book.ordinal_rules(locale)
        yield "plural ranges", locale, "", full.plural_ranges(locale) != book.plural_ranges(locale)
        if full.find("symbols", full.unit_chain(locale), "") is not None:
            for system in systems:
                yield "signs", locale, system, full.signs(locale, system) != book.signs(locale, system)


def say_differences(full, book, shown):
    """Prints how many triples find the same tables, and the first that do not; answers whether all do."""
    counts, alike, first = dict.fromkeys(FORMS, 0), dict.fromkeys(FORMS, 0), []
    for form, locale, system, kinds in differences(full, book):
        counts[form] += 1
        alike[form] += not kinds
        if kinds:
            first.append(f"{form} of {text_of(locale)} with {system or 'no system'}: other {', '.join(kinds)}")
    for form in FORMS:
        print(f"{form:<6} {counts[form]:>8} triples of locale, system and form, {alike[form]} find the same tables")
    if full.units and book.units:
        first += say_found(UNIT_ARRAYS, unit_differences(full, book))
    elif full.units or book.units:
        first.append("one of the books has units, and the other has none")
    if full.more and book.more:
        first += say_found(MORE_ARRAYS, more_differences(full, book))
    elif full.more or book.more:
        first.append("one of the books has ordinal rules and ranges, and the other has none")
    print(*first[:shown], sep="\n", end="\n" if first[:shown] else "")
    return not first


def say_found(kinds, questions):
    """Prints how often the same entries of these arrays are found; answers a line for each question that finds another one."""
    counts, alike, first = dict.fromkeys(kinds, 0), dict.fromkeys(kinds, 0), []
    for kind, locale, what, differs in questions:
        counts[kind] += 1
        alike[kind] += not differs
        if differs:
            first.append(f"{kind} of {text_of(locale)}{what and f' with {what}'}: another entry")
    for kind in kinds:
        print(f"{kind:<16} {counts[kind]:>8} questions, {alike[kind]} find the same entry")
    return first
