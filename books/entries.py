"""The entries of a book that one locale of CLDR has."""
import collections
import re

from cldr import DATA_LOCALE, Fault, tag_of

COUNTS = ("0", "1", "zero", "one", "two", "few", "many", "other")
PASS_THROUGH = ["", ""]
# What a book has room for: sizes, types and exponents, and how far an exponent may be below its type.
MOST, FARTHEST = 255, 15


def tokens(pattern):
    """The characters of a pattern, each with whether it is in quotes; two quotes are one in quotes."""
    quoted, place = False, 0
    while place < len(pattern):
        if pattern.startswith("''", place):
            yield "'", True
            place += 1
        elif pattern[place] == "'":
            quoted = not quoted
        else:
            yield pattern[place], quoted
        place += 1


def halves(pattern):
    """The form of a pattern for numbers from 0 up, and the one after `;` for those below, or None."""
    found = [[]]
    for token in tokens(pattern):
        if token == (";", False) and len(found) == 1:
            found.append([])
        else:
            found[-1].append(token)
    return found[0], found[1] if len(found) == 2 else None


def around(form, number):
    """The parts before, in and after the characters of the number; None where the number is at two places."""
    places = [place for place, (char, quoted) in enumerate(form) if char in number and not quoted]
    if not places:
        return form, [], []
    first, last = places[0], places[-1] + 1
    return None if len(places) != last - first else (form[:first], form[first:last], form[last:])


def written(form, signs=None):
    """The text of these characters, with these signs in the place of their characters."""
    return "".join(char if quoted or signs is None else signs.get(char, char) for char, quoted in form)


def compact_pattern(text):
    """The texts of a compact pattern and how many zeros it has; None where it is no such pattern."""
    parts = around(halves(text)[0], "0")
    if parts is None or any(char in "#,.@*" and not quoted for char, quoted in parts[0] + parts[2]):
        return None
    before, zeros, after = parts
    return ([written(before), written(after)] if zeros else [written(before)]), len(zeros)


class Entries:
    """Makes the entries of one locale after the other, and counts what a book can't hold."""

    def __init__(self, cldr, systems):
        self.cldr, self.systems = cldr, systems
        self.left_out = collections.defaultdict(collections.Counter)
        self.arrays = [[], [], [], [], []]
        self.symbols_of = {}
        self.arrays[1] = [[name, digits] for name, digits in sorted(cldr.digits.items())]

    def without(self, reason, tag, count=1):
        """Counts what is left out of a locale for a reason; answers None, as there is no entry."""
        self.left_out[reason][tag] += count

    def default_system(self, chain):
        """The system that a locale writes numbers in where none is asked for."""
        return self.cldr.default_system(chain)

    def named_systems(self, chain):
        """The systems with ten digits that a locale's data names."""
        return sorted(self.cldr.own_systems(chain) & set(self.cldr.digits))

    def other_systems(self, chain):
        """The systems that a locale has entries for beside its usual one."""
        its = {"default": [], "named": self.named_systems(chain), "all": sorted(self.cldr.digits)}[self.systems]
        return [it for it in its if it != self.default_system(chain)]

    def add(self, name):
        """Adds the entries of a locale to the arrays."""
        tag, chain = tag_of(name), self.cldr.chain(name)
        if not DATA_LOCALE.fullmatch(tag):
            return self.without("locales that no tag of a book names", tag)
        default = self.default_system(chain)
        others = self.other_systems(chain)
        rules = self.rules(name)
        self.arrays[2].append([tag, rules])
        for array, kind in ((0, None), (3, "short"), (4, "long")):
            made, usual = {}, None
            for system in (default, *others):
                tables = self.tables(chain, system, kind)
                which = tuple(map(id, tables))
                if which not in made:
                    made[which] = self.compact(tag, *tables, rules) if kind else self.symbols(tag, *tables)
                entry = made[which]
                if kind is None:
                    self.symbols_of[tag, system] = entry
                if system == default:
                    usual, named = entry, ""
                elif entry == usual or entry is None:
                    # What says the same is answered from the usual entry.
                    continue
                else:
                    named = system
                if entry is not None:
                    self.arrays[array].append([tag, named, *([system] if array == 0 else []), *entry])

    def tables(self, chain, system, kind):
        """What the entry of a system is made of: symbols, standard pattern and the locale's own values; or types."""
        formats = f"decimalFormats[{system}]"
        if kind:
            return (self.cldr.table(chain, (formats, f"decimalFormatLength[{kind}]", "decimalFormat")),)
        standard = self.cldr.table(chain, (formats, "decimalFormatLength", "decimalFormat"))
        return self.cldr.table(chain, (f"symbols[{system}]",)), standard, self.cldr.table(chain, ())

    def rules(self, name):
        """The plural rules without `other`, which has no condition."""
        given = dict(self.cldr.plural_rules(name))
        return [[it, given[it]] for it in COUNTS[2:-1] if it in given]

    def symbols(self, tag, table, standard, own):
        """The texts and sizes of an entry, or None."""
        try:
            minus, plus, decimal, group = (table[it] for it in ("minusSign", "plusSign", "decimal", "group"))
            positive, negative = halves(standard["pattern"])
        except KeyError as missing:
            return self.without(f"symbols without {missing.args[0]}", tag)
        least = own.get("minimumGroupingDigits", "1")
        if not re.fullmatch("[0-9]{1,3}", least) or int(least) > MOST:
            raise Fault(f"{self.cldr.folder}/main: minimumGroupingDigits of {tag} is no number up to {MOST}: {least!r}")
        parts = around(positive, "#,0.")
        if parts is None or not parts[1] or len(parts[1]) > MOST or parts[0] or parts[2]:
            return self.without("standard patterns that are more than a number", tag)
        groups = written(parts[1]).partition(".")[0].split(",")[1:]
        sizes = [len(groups[-1]), len(groups[-2]) if len(groups) > 1 else len(groups[-1])] if groups else [0, 0]
        below = around(negative, "#,0.") if negative else None
        affixes = [minus, "", plus, ""]
        if below is not None:
            for place, sign in ((0, minus), (2, plus)):
                if place == 0 or ("-", False) in below[0] + below[2]:
                    affixes[place : place + 2] = [written(below[0], {"-": sign}), written(below[2], {"-": sign})]
        texts = [*affixes, decimal, group]
        if any(char in text for text in texts for char in "\t\n"):
            return self.without("symbols with a tab or a line feed", tag)
        return [*texts, *sizes, int(least)]

    def compact(self, tag, cells, rules):
        """The types of a table, and its patterns of smaller numbers or None; None where a book can't hold it."""
        types = collections.defaultdict(dict)
        for key, text in cells.items():
            power, _, count = key.removeprefix("pattern[").removesuffix("]").partition(",")
            if count in COUNTS and re.fullmatch("10*", power):
                types[len(power) - 1][count] = text
        found, zero = [], None
        for power, texts in sorted(types.items()):
            made = self.type(tag, power, texts, {category for category, _ in rules})
            if made is None:
                continue
            exponent, slots = made
            if not found and exponent == 0 and slots == [["other", PASS_THROUGH]]:
                zero = slots
            elif found and slots == [it for it in found[-1][2] if it[0] != "1"]:
                if exponent != found[-1][1]:
                    self.without("types that a book takes for the one before", tag)
            elif found and exponent < found[-1][1]:
                return self.without("tables whose exponents fall", tag)
            elif power > MOST or power - exponent > FARTHEST:
                self.without("types that are too large, or too far above their exponent", tag)
            else:
                found.append([power, exponent, slots])
        return [found, zero]

    def type(self, tag, power, texts, answered):
        """The exponent and the slots of a type, without those that say what `other` says or are never asked for."""
        self.without("negative forms of compact patterns", tag, sum(halves(it)[1] is not None for it in texts.values()))
        slots, exponents = {}, set()
        for count, text in texts.items():
            made = compact_pattern(text)
            if made is None or any(char in "".join(made[0]) for char in "\t\n"):
                return self.without("types with a pattern that is not understood", tag)
            slots[count], zeros = made
            if zeros:
                exponents.add(0 if text == "0" else power - zeros + 1)
        if len(exponents) > 1 or min(exponents, default=0) < 0:
            return self.without("types whose patterns disagree on the exponent", tag)
        other = slots.get("other")
        if other is None:
            return self.without("types without a pattern for other", tag)
        kept = [[it, slots[it]] for it in COUNTS[2:-1] if it in answered and slots.get(it, other) != other]
        exact = [[it, slots[it]] for it in COUNTS[:2] if it in slots and (kept or slots[it] != other)]
        return exponents.pop() if exponents else power, [*exact, *kept, ["other", other]]
