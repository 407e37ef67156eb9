"""The text of a compact amount of money.

This is a definition: it goes by the tables of a book as look_up.py finds them, by docs/compact-text.md and by README.md of the crate
icu_dimension_compact, and shares nothing with the program or with what makes the tables.
"""
import re

from look_up import LETTERS, locale_of
from plurals import category_of, operands_of
from unit_text import Number, affixes_of, chosen_pattern, currency_format, number_of, rounded, text_of

FORM = re.compile("short-(currency|code|accounting)-([A-Z]{3})", re.A)
GROUPING = "min2"  # as compact text has it where no other one is asked for


def magnitude(number):
    """The magnitude of the first digit that is not 0, and 0 of zero."""
    digits = (number.whole + number.fraction).lstrip("0")
    return len(digits) - len(number.fraction) - 1 if digits else 0


def at_place(number, place):
    """The nearest multiple of ten to a place, of two the even one; digits after the point only down to the place."""
    if place <= 0:
        return rounded(number, -place, 1)
    count, rest = divmod(int(number.whole), 10**place)
    above = 2 * rest + bool(number.fraction.strip("0"))
    count += above > 10**place or (above == 10**place and count % 2)
    return Number(number.sign, str(count * 10**place), "")


def divided(number, exponent):
    """The number divided by ten to an exponent, without zeros at its ends."""
    digits = number.whole.rjust(exponent + 1, "0")
    cut = len(digits) - exponent
    return Number(number.sign, digits[:cut].lstrip("0") or "0", (digits[cut:] + number.fraction).rstrip("0"))


def compacted(types, number):
    """What is shown of a number under types, each with its exponent: the significand, the exponent, and the last of what the type has
    or None. Of numbers without zeros in front."""
    place = magnitude(number)
    found = [it for it in types if it[0] <= place]
    its = found[-1] if found else None
    exponent = its[1] if its else 0
    shown = at_place(number, min(exponent, place - 1))
    following = next((it for it in types if it[0] > place), None)
    if magnitude(shown) > place and following and following[1] == magnitude(shown):
        its, exponent = following, following[1]
    return divided(shown, exponent), exponent, its[2] if its else None


def patterns_of(slots, category):
    """The pattern of a category, and the one beside a letter or None: of the first slot, that of `other`, where it has none."""
    return next(([pattern, beside] for it, pattern, beside in slots if it == category), slots[0][1:])


def answer(book, line):
    """The answer to a line: `ok`, the text and the value shown, or `err` and a word."""
    tag, form, grouping, display, rounding, text = line.split("\t")
    asked, number, (name, _, system) = FORM.fullmatch(form), number_of(text), tag.partition("-u-nu-")
    if asked is None or (grouping, display, rounding) != ("auto", "keep", "-") or number is None:
        return "err\tshape"
    locale, (style, code) = locale_of(name), asked.groups()
    plain, types, rules = currency_format(book, locale, system, style, code), book.compact_amounts(locale, system), book.cardinal_rules(locale)
    if plain is None or types is None or rules is None:
        return "err\ttable"
    unit, ends = (code, LETTERS) if style == "code" else book.units.symbol(book.unit_chain(locale), code)
    significand, exponent, slots = compacted(types, number)
    its = plain
    if slots:
        patterns = patterns_of(slots, category_of(rules, operands_of(significand.text())))
        its = plain._replace(affixes=affixes_of(chosen_pattern(*patterns, ends), unit, plain.symbols))
    return f"ok\t{text_of(its, significand, GROUPING)}\t{significand.text()}c{exponent}"
