"""The text of a number in scientific or in engineering notation.

This is a definition: it goes by the tables and the signs of a book as look_up.py finds them, and by docs/scientific-text.md, and shares
nothing with the program or with what makes the tables.
"""
from look_up import locale_of
from unit_text import GROUPINGS, SIGNS, Format, Number, affixes_of, number_of, plain_tables, text_of, with_sign

STEPS = {"scientific": 1, "engineering": 3}  # between two exponents
AROUND_NOTHING = ["", ""]


def form_of(number, step):
    """The significand of a number, which keeps its sign, and the exponent: that of the first digit that is not 0, or the multiple of three
    next below it; 0 of zero."""
    digits = number.whole + number.fraction
    if number.is_zero():
        return Number(number.sign, "0", ""), 0
    magnitude = len(number.whole) - 1 - (len(digits) - len(digits.lstrip("0")))
    before, bare = magnitude % step + 1, digits.strip("0")
    return Number(number.sign, bare[:before].ljust(before, "0"), bare[before:]), magnitude - magnitude % step


def scientific_format(book, locale, system):
    """What scientific numbers of a locale are written by, and the text before their exponents; None where a table or the signs are not found."""
    tables, signs = plain_tables(book, locale, system), book.signs(locale, system)
    return (Format(*tables, affixes_of(AROUND_NOTHING, "", tables[0])), signs[0]) if tables and signs else None


def written(form, separator, significand, exponent, grouping):
    """The text of a significand and an exponent: between the texts of the significand's sign."""
    shown = Number("-" if exponent < 0 else "", str(abs(exponent)), "")
    before, after = form.affixes[significand.sign]
    return before + text_of(form, significand._replace(sign=""), grouping) + separator + text_of(form, shown, "never") + after


def answer(book, line):
    """The answer to a line of one of the two forms that asks for no rounding: `ok`, the text and the value shown, or `err` and a word."""
    tag, form, grouping, display, rounding, text = line.split("\t")
    number, (name, _, system) = number_of(text), tag.partition("-u-nu-")
    if form not in STEPS or grouping not in GROUPINGS or display not in SIGNS or rounding != "-" or number is None:
        return "err\tshape"
    found = scientific_format(book, locale_of(name), system)
    if found is None:
        return "err\ttable"
    significand, exponent = form_of(number, STEPS[form])
    significand = with_sign(significand, display)
    return f"ok\t{written(*found, significand, exponent, grouping)}\t{significand.text()}e{exponent}"
