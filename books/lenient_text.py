"""The number that a typed text is, of a percent or of an amount of money.

This is a definition: it goes by docs/reading.md ("Lenient reading", "Native digits"), docs/units.md ("Lenient reading") and docs/requests.md
("Answer line"), and shares nothing with the program. What the formatter writes is that of unit_text.py.
"""
import re
import typing
import unicodedata

import unit_text
from look_up import locale_of
from unit_text import GROUPINGS, SIGN_PLACES, Format, Symbols, currency_format, is_readable, numbers_written, percent_format

FORM = re.compile("read-lenient-(?:(percent|permille)|(currency|code|accounting)-([A-Z]{3}))", re.A)
TYPED = {"percent": "%", "permille": "\N{PER MILLE SIGN}"}  # what people type for them
ASCII = "0123456789"
# The zeros of Arabic digits, and their decimal separator and the one between groups.
ARABIC, ARABIC_SEPARATORS = (0x660, 0x6F0), "\u066b\u066c"
UNREADABLE = "unreadable"
# What each of these characters becomes; `..` is between the first and the last of a row.
FOLDED = {
    "": "061C 200E 200F 202A..202E 2066..2069",
    "-": "2010..2013 207B 208B 2212 2796 FE63 FF0D",
    "+": "207A 208A 2795 FB29 FE62 FF0B",
    "'": "2018 2019 02BC FF07",
    " ": "00A0 1680 2000..200A 202F 205F 3000",
    ".": "2024 FE52 FF0E",
    ",": "FE50 FF0C",
}
BLANK = "\t\n\v\f\r \u0085\u00a0\u1680" + "".join(map(chr, range(0x2000, 0x200B))) + "\u2028\u2029\u202f\u205f\u3000"


def folds():
    """What each character becomes that does not stay as it is, whatever the digits are."""
    found = {0xFF10 + digit: str(digit) for digit in range(10)}
    for its, rows in FOLDED.items():
        for row in rows.split():
            first, _, last = row.partition("..")
            found.update(dict.fromkeys(range(int(first, 16), int(last or first, 16) + 1), its))
    return found


FOLDS = folds()


class Reader(typing.NamedTuple):
    """What typed texts are read by: the format, that of its numbers without the unit, whether texts can be read by them, what
    characters become, both formats folded, or None where texts can't be read leniently, the unit and its code folded, and what
    reads texts with the separators of Arabic digits in place of the format's, or None."""

    form: Format
    plain: Format
    is_readable: bool
    folds: dict
    folded: Format
    folded_plain: Format
    names: tuple
    arabic: typing.Optional["Reader"]


def without_unit(form):
    """The format of numbers with these symbols, without a unit."""
    its = form.symbols
    signs = {"": ("", ""), "-": (its.minus_prefix, its.minus_suffix), "+": (its.plus_prefix, its.plus_suffix)}
    return Format(its, form.digits, signs)


def folded_format(form, table):
    """The format with its symbols and its affixes folded and the digits of ASCII, whose groups begin after one digit."""
    texts = [it.translate(table) for it in form.symbols[1:7]]
    affixes = {sign: tuple(it.translate(table) for it in pair) for sign, pair in form.affixes.items()}
    return Format(Symbols(form.symbols.numsys, *texts, *form.symbols[7:9], 1), ASCII, affixes)


def arabic_reader(form, unit, code):
    """What texts are read by with the separators of Arabic digits, where the format has neither and they can be read so."""
    its = form.symbols
    if set(ARABIC_SEPARATORS) & set(its.decimal + its.grouping):
        return None
    found = reader(form._replace(symbols=its._replace(decimal=ARABIC_SEPARATORS[0], grouping=ARABIC_SEPARATORS[1])), unit, code)
    return found if found.folded else None


def reader(form, unit, code):
    """What typed texts of a format are read by, with its unit and the code of that."""
    table, plain = {**FOLDS, **{ord(it): str(place) for place, it in enumerate(form.digits)}}, without_unit(form)
    folded, is_exact = [folded_format(it, table) for it in (form, plain)], is_readable(form) and is_readable(plain)
    if not is_exact or not all(map(is_readable, folded)):
        folded = [None, None]
    arabic = arabic_reader(form, unit, code)
    return Reader(form, plain, is_exact, table, *folded, (unit.translate(table), code.translate(table)), arabic)


def first(found):
    """The first of these that is a number, or None."""
    return next((it for it in found if it is not None), None)


def agreed(found):
    """The number that those of these are which are numbers, where they are one; else None."""
    numbers = {it for it in found if it is not None}
    return numbers.pop() if len(numbers) == 1 else None


def read_as(form, text, *groupings):
    """The number that is written so under one of the groupings, or None."""
    return first(it for grouping in groupings for it in numbers_written(form, text, grouping))


def read_folded(form, text):
    """The number that a folded text is, without groups or with all of them."""
    return read_as(form, text, "never", "always")


def filled(separator, text):
    """The text with a zero before a decimal separator that is before all digits and directly before one, and without one directly
    after the last digit, where no digit is followed by a fraction."""
    point = re.escape(separator)
    text = re.sub(f"^([^0-9]*?)(?={point}[0-9])", r"\g<1>0", text, flags=re.S)
    has_fraction = re.search(f"[0-9]{point}[0-9]", text)
    return text if has_fraction else re.sub(rf"([0-9]){point}([^0-9]*)\Z", r"\1\2", text, flags=re.S)


def read_unitless(its, text, grouping):
    """The number that a text is without the unit."""
    folded, point = text.translate(its.folds), its.folded.symbols.decimal
    trimmed = folded.strip(BLANK)
    exact = read_as(its.plain, text, grouping)
    if exact is not None:
        return exact
    return first(read_folded(its.folded_plain, it) for it in dict.fromkeys((folded, trimmed, filled(point, trimmed))))


def between(pair, text):
    """What is between two texts, or None."""
    before, after = pair
    fits = len(text) >= len(before) + len(after) and text.startswith(before) and text.endswith(after)
    return text[len(before) : len(text) - len(after)] if fits else None


def read_beside(its, name, text):
    """The number that a name is before, or else after, whatever spaces are between them."""
    rests = (between(pair, text) for pair in ((name, ""), ("", name)))
    return first(read_folded(its.folded_plain, rest.strip(BLANK)) for rest in rests if rest is not None)


def read_named(its, name, text):
    """The number with a name beside it, where its sign is beside the number or around both."""
    found = [read_beside(its, name, text)]
    for sign in "-+":
        inner = between(its.folded_plain.affixes[sign], text)
        number = None if inner is None else read_beside(its, name, inner.strip(BLANK))
        found.append(number and (number._replace(sign=sign) if not number.sign else None))
    return first(found)


def read_leniently(its, text, grouping):
    """The number that a text is that the format does not write, None where it is none, or two in two ways."""
    folded = text.translate(its.folds).strip(BLANK)
    return agreed([
        read_unitless(its, text, grouping),
        read_folded(its.folded, folded),
        *(read_named(its, name, folded) for name in its.names),
        read_folded(its.folded, filled(its.folded.symbols.decimal, folded)),
    ])


def read_typed(its, text, grouping="auto"):
    """The number that a text is without native digits, and UNREADABLE where the tables do not tell."""
    if not its.is_readable:
        return UNREADABLE
    exact = read_as(its.form, text, grouping)
    if exact is not None or its.folded is None:
        return exact or UNREADABLE
    return read_leniently(its, text, grouping)


def found_reader(book, locale, system, style, code, has_own=True):
    """What the texts of a currency in a style, or without one of percents or `permille`, are read by; None where a table is not
    found. The symbols of a currency are its own, where it has these, or without its own those of plain numbers."""
    if code:
        form = currency_format(book, locale, system, style, code, has_own=has_own)
    else:
        form = percent_format(book, locale, system, style)
    if form is None:
        return None
    along = book.unit_chain(locale)
    if code is None:
        return reader(form, book.units.percent(along, system)[SIGN_PLACES[style]], TYPED[style])
    return reader(form, code if style == "code" else book.units.symbol(along, code)[0], code)


def plain_reader(book, locale, system, style, code, own):
    """What the same amounts are read by with the symbols of plain numbers, where their own are others; None of percents."""
    found = code and found_reader(book, locale, system, style, code, has_own=False)
    return found if found and found.form.symbols != own.form.symbols else None


def readers(book, locale, system, style, code):
    """What texts are read by: a reader, and a second one where there is one. Where the digits of the first are other ones than
    those of ASCII, that is the reader of `latn`, and else of amounts with symbols of their own that with those of plain numbers."""
    found = found_reader(book, locale, system, style, code)
    if found is None:
        return []
    is_ascii = found.form.digits == ASCII
    second = plain_reader(book, locale, system, style, code, found) if is_ascii else found_reader(book, locale, "latn", style, code)
    return [found, *([second] if second else [])]


def read_as_it_is(its, text, grouping):
    """The number that a text is by one of these readers, where the other one reads none or the same. What the format of the first
    one writes of it, under any grouping, is read only by that one."""
    found = read_typed(its[0], text, grouping)
    if len(its) == 1 or found == UNREADABLE or (found and found in (read_as(its[0].form, text, it) for it in GROUPINGS)):
        return found
    other = read_typed(its[1], text, grouping)
    if found is None:
        return other
    return found if other in (None, UNREADABLE, found) else None


def zero_of(it):
    """The zero of the system that a digit is of, by the Unicode that Python has; None of any other character."""
    return ord(it) - unicodedata.decimal(it) if unicodedata.category(it) == "Nd" else None


def in_ascii(text):
    """The zero of the one system, not that of ASCII, that all digits of a text are of, and the text with these in ASCII; or None
    twice."""
    zeros = {zero_of(it) for it in text} - {None}
    if len(zeros) != 1 or zeros == {ord("0")}:
        return None, None
    return zeros.pop(), "".join(it if zero_of(it) is None else str(unicodedata.decimal(it)) for it in text)


def read_in_turn(its, text, grouping="auto"):
    """The number that a text is by these readers: as it is, else with its native digits in ASCII, else, of Arabic digits, so with
    their separators by the first reader."""
    found = read_as_it_is(its, text, grouping)
    zero, native = in_ascii(text)
    if found is not None or native is None:
        return found
    found = read_as_it_is(its, native, grouping)
    if found is not None or zero not in ARABIC or its[0].arabic is None:
        return found
    return read_leniently(its[0].arabic, native, grouping)


def answer(book, line):
    """The answer to a request line of a form with `read-lenient-` before it, and to any other one as in unit_text.py."""
    fields = line.split("\t")
    asked = FORM.fullmatch(fields[1]) if len(fields) == 6 else None
    if asked is None:
        return unit_text.answer(book, line)
    tag, _, grouping, display, rounding, text = fields
    if grouping not in GROUPINGS or display != "keep" or rounding not in unit_text.ROUNDINGS[: 2 if asked[2] else 1]:
        return "err\tshape"
    name, _, system = tag.partition("-u-nu-")
    locale = locale_of(name)
    if locale is None:
        return "err\ttag"
    its = readers(book, locale, system, asked[1] or asked[2], asked[3])
    if not its:
        return "err\ttable"
    found = read_in_turn(its, text, grouping)
    return f"err\t{UNREADABLE}" if found == UNREADABLE else f"ok\t{found.text()}" if found else "err\tnot-written"
