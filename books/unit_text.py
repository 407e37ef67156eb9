"""The text of a percent and of an amount of money, and the number that such a text is.

This is a definition: it goes by the tables of a book as look_up.py finds them, by docs/units.md and by
docs/plain-text.md, and shares nothing with the program or with what makes the tables.
"""
import re
import typing

from look_up import LETTERS, PLACEHOLDER, locale_of

FORM = re.compile("(read-)?(?:(percent|permille)|(currency|code|accounting)-([A-Z]{3}))", re.A)
SIGN_PLACES = {"percent": 0, "permille": 3}  # in what an entry of percents has after its key
GROUPINGS = ("auto", "never", "always", "min2", "on-aligned")
SIGNS = ("keep", "auto", "never", "always", "except-zero", "negative")
ROUNDINGS = ("-", "cash")
NUMBER = re.compile(r"([-+]?)(?=[0-9]|\.[0-9])([0-9]*)(?:\.([0-9]+))?", re.A)


class Number(typing.NamedTuple):
    """A decimal: its sign, which is empty, `-` or `+`, the digits that it shows before the point, one at least, and
    those after it."""

    sign: str
    whole: str
    fraction: str

    def is_zero(self):
        """Whether no digit is above 0."""
        return not (self.whole + self.fraction).strip("0")

    def text(self):
        """The number as a text of itself."""
        return self.sign + self.whole + (f".{self.fraction}" if self.fraction else "")


class Symbols(typing.NamedTuple):
    """An entry of symbols after its locale and its system."""

    numsys: str
    minus_prefix: str
    minus_suffix: str
    plus_prefix: str
    plus_suffix: str
    decimal: str
    grouping: str
    primary: int
    secondary: int
    least: int


class Format(typing.NamedTuple):
    """What numbers of one unit are written by: symbols, ten digits, and for each sign the text before and the text
    after the number; and for an amount the digits and the increment that it is rounded to, or None."""

    symbols: Symbols
    digits: str
    affixes: dict
    rounding: tuple = None


def number_of(text):
    """The number that a text of digits is, or None."""
    found = NUMBER.fullmatch(text)
    return found and Number(found[1], found[2] or "0", found[3] or "")


def rounded(number, digits, increment):
    """The nearest multiple of the increment in the last of so many digits after the point, of two the even multiple. So
    many digits are shown after the point, and as many before it as there were, or more where a carry needs them."""
    places = max(digits, len(number.fraction))
    count = int(number.whole + number.fraction.ljust(places, "0"))
    step = increment * 10 ** (places - digits)
    multiple = count // step
    twice = 2 * (count - multiple * step)
    if twice > step or (twice == step and multiple % 2 == 1):
        multiple += 1
    shown = str(multiple * increment).rjust(digits + 1, "0")
    whole = shown[: len(shown) - digits].lstrip("0").rjust(len(number.whole), "0")
    return Number(number.sign, whole, shown[len(shown) - digits :])


def with_sign(number, display):
    """The number with the sign that is shown of it."""
    negative = "-" if number.sign == "-" else ""
    nonzero = not number.is_zero()
    return number._replace(sign={
        "keep": number.sign,
        "auto": negative,
        "never": "",
        "always": negative or "+",
        "except-zero": (negative or "+") if nonzero else "",
        "negative": negative if nonzero else "",
    }[display])


def groups_of(whole, symbols, grouping):
    """The digits before the point, cut into groups."""
    primary, secondary = symbols.primary, symbols.secondary or symbols.primary
    least = 1 if grouping == "on-aligned" else max(symbols.least, 2 if grouping == "min2" else 1)
    if primary == 0 or grouping == "never" or len(whole) < primary + least:
        return [whole]
    front, groups = whole[:-primary], [whole[-primary:]]
    while len(front) > secondary:
        front, groups = front[:-secondary], [front[-secondary:], *groups]
    return [front, *groups]


def unsigned_text(form, number, grouping="auto"):
    """The plain text of a number without its sign."""
    in_digits = lambda text: "".join(form.digits[int(digit)] for digit in text)
    groups = groups_of(number.whole, form.symbols, grouping)
    whole = form.symbols.grouping.join(map(in_digits, groups))
    return whole + (form.symbols.decimal + in_digits(number.fraction) if number.fraction else "")


def text_of(form, number, grouping="auto"):
    """The text of a number: before it, itself without its sign, and after it."""
    before, after = form.affixes[number.sign]
    return before + unsigned_text(form, number, grouping) + after


def affixes_of(pattern, unit, symbols):
    """The texts before and after a number of each sign, with the unit for the placeholder: those of the sign itself where the
    pattern has six texts, else the two texts with those of the symbols' sign around them."""
    texts = [text.replace(PLACEHOLDER, unit) for text in pattern]
    if len(texts) == 6:
        return {"": (texts[0], texts[1]), "-": (texts[2], texts[3]), "+": (texts[4], texts[5])}
    before, after = texts
    return {
        "": (before, after),
        "-": (symbols.minus_prefix + before, after + symbols.minus_suffix),
        "+": (symbols.plus_prefix + before, after + symbols.plus_suffix),
    }


def chosen_pattern(pattern, beside_letter, ends):
    """The pattern beside a letter, where there is one and the unit's end next to the number is a letter: its last
    character where the placeholder is before the number, else its first."""
    next_to_number = 2 if PLACEHOLDER in pattern[0] else 1
    return beside_letter if beside_letter is not None and ends & next_to_number else pattern


def plain_tables(book, locale, system):
    """The symbols and the digits that plain text finds, or None."""
    found = book.tables("plain", book.chain(locale), system)
    return (Symbols(*found["symbols"]), found["digits"]) if found["symbols"] and found["digits"] else None


def percent_format(book, locale, system, style="percent"):
    """What percents of a locale are written by, or `permille`; None where a table or the sign is not found. Neither is rounded."""
    tables = plain_tables(book, locale, system)
    entry = book.units and book.units.percent(book.unit_chain(locale), system)
    place = SIGN_PLACES[style]
    if tables is None or entry is None or place >= len(entry):
        return None
    own, pattern = entry[1:3]
    symbols = Symbols(*own) if own else tables[0]
    return Format(symbols, tables[1], affixes_of(pattern, entry[place], symbols))


def currency_format(book, locale, system, style, code, is_cash=False, has_own=True):
    """What amounts of a currency are written by, in a style: `currency` by its symbol, `code` by its code, and
    `accounting` by its symbol in accounting; None where a table is not found. The symbols are the entry's own, where it has
    these, or without its own those of plain numbers."""
    tables, units, along = plain_tables(book, locale, system), book.units, book.unit_chain(locale)
    asked = units and (units.accounting if style == "accounting" else units.standard)
    entry = asked(along, system, code) if units else None
    if tables is None or entry is None:
        return None
    own, pattern, beside_letter = entry
    unit, ends = (code, LETTERS) if style == "code" else units.symbol(along, code)
    symbols = Symbols(*own) if own and has_own else tables[0]
    digits, increment, cash_digits, cash_increment = units.digits_of(code)
    rounding = (cash_digits, cash_increment) if is_cash else (digits, increment)
    return Format(symbols, tables[1], affixes_of(chosen_pattern(pattern, beside_letter, ends), unit, symbols), rounding)


def is_readable(form):
    """Whether each text is that of one number: the digits differ, none is in an affix or a separator, the decimal
    separator is neither empty nor that of groups, and the three signs have other affixes."""
    pairs, symbols = [*form.affixes.values()], form.symbols
    around = [symbols.decimal, symbols.grouping, *(text for pair in pairs for text in pair)]
    no_digit = not any(digit in text for text in around for digit in form.digits)
    is_told = symbols.decimal != "" and symbols.decimal != symbols.grouping
    return len(set(form.digits)) == 10 and no_digit and is_told and len(set(pairs)) == 3


def numbers_written(form, text, grouping):
    """The numbers that are written so. A number has the digits of its text, in their order, and a point at one of the
    decimal separators or none; so each of these is tried."""
    separator, characters = form.symbols.decimal, {*form.digits, *form.symbols.decimal, *form.symbols.grouping}
    for sign, (before, after) in form.affixes.items():
        inner = text[len(before) : len(text) - len(after)]
        if before + inner + after != text or not characters.issuperset(inner):
            continue
        places = [place for place in range(len(inner)) if separator and inner.startswith(separator, place)]
        for place in (None, *places):
            parts = (inner, "") if place is None else (inner[:place], inner[place + len(separator) :])
            whole, fraction = ("".join(str(form.digits.index(it)) for it in part if it in form.digits) for part in parts)
            number = Number(sign, whole, fraction)
            if whole and text_of(form, number, grouping) == text:
                yield number


def read(form, text, grouping="auto"):
    """The number that is written so, or None: none is, or it is not what it is rounded to."""
    found = next(numbers_written(form, text, grouping), None) if is_readable(form) else None
    is_rounded = found and (form.rounding is None or rounded(found, *form.rounding) == found)
    return found if is_rounded else None


def answer(book, line):
    """The answer to a request line of the forms `percent`, `permille`, `currency-EUR`, `code-EUR`, `accounting-EUR`, or of one
    of these with `read-` before it: `ok` and a text, or `err` and a word."""
    fields = line.split("\t")
    asked = FORM.fullmatch(fields[1]) if len(fields) == 6 else None
    if asked is None:
        return "err\tshape"
    tag, _, grouping, display, rounding, text = fields
    if grouping not in GROUPINGS or display not in SIGNS or rounding not in ROUNDINGS[: 2 if asked[4] else 1]:
        return "err\tshape"
    name, _, system = tag.partition("-u-nu-")
    locale = locale_of(name)
    if locale is None:
        return "err\ttag"
    if asked[2]:
        form = percent_format(book, locale, system, asked[2])
    else:
        form = currency_format(book, locale, system, asked[3], asked[4], rounding == "cash")
    if form is None:
        return "err\ttable"
    if asked[1] and not is_readable(form):
        return "err\tunreadable"
    if asked[1]:
        number = read(form, text, grouping)
        return f"ok\t{number.text()}" if number else "err\tnot-written"
    number = number_of(text)
    if number is None:
        return "err\tnumber"
    if form.rounding is not None:
        number = rounded(number, *form.rounding)
    return f"ok\t{text_of(form, with_sign(number, display), grouping)}"
