"""Number skeletons: what the words of one ask for, its normal text, and what it shows of a number.

This is a definition: it goes by docs/skeletons.md, and shares nothing with the program.
"""
import decimal
import re
import typing

KINDS = ("notation", "unit", "precision", "mode", "grouping", "integer", "width", "sign", "point")
# Of each kind the words of normal texts, each with its other spellings behind it; the first word of a row without a mark `=` is
# written, that of one with it is usual.
ROWS = """\
notation = notation-simple
notation compact-short K
notation compact-long KK
notation scientific
notation engineering
unit = base-unit
unit percent %
unit permille
precision precision-integer .
precision precision-unlimited .+ .*
precision precision-currency-standard
precision precision-currency-standard/w
precision precision-currency-cash
precision precision-currency-cash/w
mode = rounding-mode-half-even
mode rounding-mode-ceiling
mode rounding-mode-floor
mode rounding-mode-down
mode rounding-mode-up
mode rounding-mode-half-down
mode rounding-mode-half-up
mode rounding-mode-half-ceiling
mode rounding-mode-half-floor
grouping group-auto
grouping group-off ,_
grouping group-min2 ,?
grouping group-on-aligned ,!
width = unit-width-short
width unit-width-iso-code
sign = sign-auto
sign sign-always +!
sign sign-never +_
sign sign-except-zero +?
sign sign-negative +-
sign sign-accounting ()
sign sign-accounting-always ()!
sign sign-accounting-except-zero ()?
sign sign-accounting-negative ()-
point = decimal-auto
"""
REFUSED = {
    "System": ("latin", "numbering-system/"),
    "Later": "unit-width-narrow unit-width-full-name %x100 scale/ unit/ measure-unit/".split(),
    "Unsupported": ("decimal-always integer-width-trunc unit-width-hidden unit-width-formal unit-width-variant group-thousands "
                    "rounding-mode-half-odd rounding-mode-unnecessary per-measure-unit/ usage/").split(),
}
MOST = 100  # digits of a word
# A word of digits, with the digits of a fraction and the significant ones each in a group of its own, and its normal text. The last two
# have no priority: at least, or at most, so many significant digits, and those of the fraction in any case.
DIGITS = [
    (re.compile(r"\.(0*#*)()(/w)?"), ".{0}{2}"),
    (re.compile(r"\.(0+)()[*+]"), ".{0}*"),
    (re.compile(r"()(@+#*)(/w)?"), "{1}{2}"),
    (re.compile(r"()(@+)[*+](/w)?"), "{1}*{2}"),
    (re.compile(r"\.(0*#*)/(@+#*)([rs](?:/w)?)"), ".{0}/{1}{2}"),
    (re.compile(r"\.(0*#*)/(@+)[*+](/w)?"), ".{0}/{1}*{2}"),
    (re.compile(r"\.(0*#*)/(@#*)(/w)?"), ".{0}/{1}{2}"),
]
PADDED = re.compile(r"integer-width/[*+](0+)|(0+)")
INCREMENT = re.compile(r"precision-increment/([0-9]*)(?:\.([0-9]*))?(/w)?")
SHORT_EXPONENT = re.compile(r"E(E?)(\+[!?])?(0+)")
EXPONENT_DIGITS = re.compile(r"[*+](e+)")
EXACT = decimal.Context(prec=200)
MODES = {
    "": decimal.ROUND_HALF_EVEN,
    "rounding-mode-ceiling": decimal.ROUND_CEILING,
    "rounding-mode-floor": decimal.ROUND_FLOOR,
    "rounding-mode-down": decimal.ROUND_DOWN,
    "rounding-mode-up": decimal.ROUND_UP,
    "rounding-mode-half-down": decimal.ROUND_HALF_DOWN,
    "rounding-mode-half-up": decimal.ROUND_HALF_UP,
}


class Skeleton(typing.NamedTuple):
    """What is asked for: of each kind the word of the normal text, or nothing where it is usual."""

    notation: str = ""
    unit: str = ""
    precision: str = ""
    mode: str = ""
    grouping: str = ""
    integer: str = ""
    width: str = ""
    sign: str = ""
    point: str = ""

    def normal_text(self):
        """The normal text."""
        return " ".join(filter(None, self))


class Refused(Exception):
    """A text that is no skeleton: the name of the fault and the place of the word."""


def spellings():
    """What each word without marks of its own sets, by each of its spellings: a kind, and the word of the normal text."""
    found = {}
    for row in ROWS.splitlines():
        kind, *words = row.split()
        normal = "" if words[0] == "=" else words[0]
        found.update((word, (kind, normal)) for word in words if word != "=")
    return found


SPELLINGS = spellings()


def fault_named(word):
    """The name of the fault that a word is."""
    front, slash, _ = word.partition("/")
    return next((name for name, words in REFUSED.items() if front + slash in words), "Unknown")


def precision_setting(word):
    """The normal text of a word of digits, or None where it is no such word."""
    for pattern, normal in DIGITS:
        found = pattern.fullmatch(word)
        if found and max(map(len, found.groups("")[:2])) <= MOST:
            return normal.format(*found.groups(""))
    return None


def digits_setting(word):
    """What a word of marks sets, or None where it is no such word."""
    normal, padded = precision_setting(re.sub("^precision-integer/", "./", word)), PADDED.fullmatch(word)
    if normal:
        return "precision", normal
    if padded:
        zeros = padded[1] or padded[2]
        if len(zeros) > MOST:
            raise Refused("Unsupported" if padded[1] else "Unknown")
        return "integer", f"integer-width/*{zeros}"
    return None


def scientific_word(stem, digits, sign):
    """The word of a notation with exponents of so many digits at least and this sign."""
    if digits > MOST:
        raise Refused("Unknown")
    if sign not in ("", "sign-always"):
        raise Refused("Unsupported")
    return "/".join(filter(None, (stem, f"*{'e' * digits}" if digits > 1 else "", sign)))


def scientific_setting(word):
    """The normal text of a word of scientific notation, or None where it is no such word: by its options the last one of a kind."""
    short = SHORT_EXPONENT.fullmatch(word)
    if short:
        return scientific_word("engineering" if short[1] else "scientific", len(short[3]), SPELLINGS[short[2]][1] if short[2] else "")
    stem, *options = word.split("/")
    if stem not in ("scientific", "engineering"):
        return None
    digits, sign = 1, ""
    for option in options:
        found = EXPONENT_DIGITS.fullmatch(option)
        if found:
            digits = len(found[1])
        elif SPELLINGS.get(option, ("",))[0] == "sign":
            sign = SPELLINGS[option][1]
        else:
            raise Refused("Unknown")
        scientific_word(stem, digits, sign)
    return scientific_word(stem, digits, sign)


def increment_setting(word):
    """The normal text of a word of an increment."""
    found = INCREMENT.fullmatch(word)
    front, fraction, whole = found.groups("") if found else ("", "", "")
    digits = (front + fraction).lstrip("0")
    if not digits:
        raise Refused("Unknown")
    step = digits.rstrip("0")
    if step not in ("1", "2", "5", "25") or max(len(fraction), len(digits) - len(step)) > MOST:
        raise Refused("Unsupported")
    return f"precision-increment/{front.lstrip('0') or '0'}{'.' if fraction else ''}{fraction}{whole}"


def setting(word):
    """The kind that a word sets, and the word of the normal text."""
    if word in SPELLINGS:
        return SPELLINGS[word]
    found = digits_setting(word)
    if found:
        return found
    notation = scientific_setting(word)
    if notation:
        return "notation", notation
    if word.startswith("currency/"):
        code = word[len("currency/") :]
        if not re.fullmatch("[A-Za-z]{3}", code, re.A):
            raise Refused("Code")
        return "unit", f"currency/{code.upper()}"
    if word.startswith("precision-increment/"):
        return "precision", increment_setting(word)
    if word.startswith("integer-width/"):
        raise Refused("Unsupported")
    raise Refused(fault_named(word))


def pair_fault(its):
    """The kind and the fault of what does not go with another word, or None."""
    of_currency = its.precision.startswith("precision-currency")
    for kind, is_wrong, name in (
        ("notation", is_scientific(its) and its.unit, "Later"),
        ("precision", is_compact(its) and (of_currency or (is_amount(its) and its.precision)), "Later"),
        ("precision", of_currency and not is_amount(its), "Pair"),
        ("mode", its.mode and (of_currency or (is_amount(its) and not its.precision)), "Later"),
        ("width", its.width and not is_amount(its), "Pair"),
        ("sign", its.sign.startswith("sign-accounting") and not is_amount(its), "Pair"),
    ):
        if is_wrong:
            return kind, name
    return None


def read_skeleton(text):
    """The skeleton that a text is; raises Refused with a fault and its place in bytes."""
    found, places, place = {}, {}, 0
    for word in text.split(" "):
        if word:
            try:
                kind, normal = setting(word)
            except Refused as fault:
                raise Refused(*fault.args, place) from None
            if kind in found:
                raise Refused("Twice", place)
            found[kind], places[kind] = normal, place
        place += len(word.encode()) + 1
    usual = "group-min2" if found.get("notation", "").startswith("compact-") else "group-auto"
    if found.get("grouping") == usual:
        found["grouping"] = ""
    its = Skeleton(**found)
    fault = pair_fault(its)
    if fault:
        raise Refused(fault[1], places[fault[0]])
    return its


class Digits(typing.NamedTuple):
    """How many digits are shown at least and at most, or None: of a fraction, with the increment of the last of them, and significant
    ones; which of the two count, and whether a whole number has no zeros after its point. Without a significant digit at least those of the
    fraction are."""

    least: int
    most: typing.Optional[int]
    increment: int = 1
    hides_zeros: bool = False
    significant: typing.Optional[tuple] = None
    priority: str = ""


def is_amount(its):
    """Whether a skeleton is for amounts of a currency."""
    return its.unit.startswith("currency/")


def is_compact(its):
    """Whether a skeleton writes digits with a compact pattern."""
    return its.notation.startswith("compact-")


def is_scientific(its):
    """Whether a skeleton writes a significand with an exponent."""
    return bool(its.notation) and not is_compact(its)


def has_own_digits(its):
    """Whether a skeleton asks for digits of what is before a compact pattern, or of a significand."""
    return is_scientific(its) or bool(is_compact(its) and (its.precision or its.mode))


def digits_asked(its, of_currency):
    """The digits that a skeleton asks for, of a compact number those of what is before the pattern, of a scientific one those of the
    significand, or None where the pattern says which; those of the currency are its digits, its increment, its digits of cash and their increment."""
    word, *options = its.precision.split("/")
    is_whole = "w" in options
    if is_compact(its) and not word:
        return Digits(0, 0, significant=(1, 2), priority="r") if its.mode else None
    if word.startswith("precision-currency") or (is_amount(its) and not word):
        digits, increment = of_currency[2:] if word.endswith("cash") else of_currency[:2]
        return Digits(digits, digits, increment, is_whole)
    if not word:
        return Digits(0, 6)
    if word in ("precision-unlimited", "precision-integer"):
        return Digits(0, None if word == "precision-unlimited" else 0)
    if word == "precision-increment":
        digits = len(options[0].partition(".")[2])
        return Digits(digits, digits, int(options[0].replace(".", "")), is_whole)
    if word[0] == "@":
        return Digits(0, 0, 1, is_whole, counted(word, "@"))
    both = next((it for it in options if it[0] == "@"), None)
    return Digits(*counted(word, "0"), 1, is_whole, *(counted_beside(both) if both else ()))


def counted(word, mark):
    """How many digits are shown at least, one for each such mark, and at most, one for each hash more, or None."""
    least = word.count(mark)
    return least, None if word.endswith("*") else least + word.count("#")


def counted_beside(word):
    """The same of significant digits beside a fraction, and which of the two count; without a priority none of them is shown at least."""
    if word[-1] in "rs":
        return counted(word, "@"), word[-1]
    return (0, len(word.rstrip("*"))), "r" if word.endswith("*") else "s"


def mode_of(its, is_negative):
    """The rounding mode of a number with this sign."""
    if its.mode in MODES:
        return MODES[its.mode]
    is_away = is_negative == (its.mode == "rounding-mode-half-floor")
    return decimal.ROUND_HALF_UP if is_away else decimal.ROUND_HALF_DOWN


def magnitude(value):
    """The place of the first digit that is not zero, or of the ones."""
    return value.adjusted() if value else 0


def rounded_at(value, place, increment, mode):
    """A number rounded to multiples of an increment at a place."""
    step = decimal.Decimal(increment).scaleb(place)
    return EXACT.multiply(EXACT.divide(value, step).quantize(decimal.Decimal(1), mode, EXACT), step)


def rounded(value, asked, mode):
    """A number rounded to digits that are asked for, and how many of its fraction are shown at least: of two choices those that
    count."""
    found = []
    if asked.priority or not asked.significant:
        place = None if asked.most is None else -asked.most
        found.append((place, value if place is None else rounded_at(value, place, asked.increment, mode), asked.least))
    if asked.significant:
        least, most = asked.significant
        its = value if most is None else rounded_at(value, magnitude(value) - most + 1, 1, mode)
        found.append((None if most is None else magnitude(its) - most + 1, its, least - 1 - magnitude(its) if least else asked.least))
    if asked.priority:
        is_significant = (found[1][0] <= found[0][0]) == (asked.priority == "r")
        found = [found[is_significant]]
    return found[0][1:]


def exponent_of(value, step):
    """The greatest multiple of a step that is not above the magnitude of a number, and 0 of zero."""
    return magnitude(value) // step * step


def significand(value, asked, mode, step):
    """The significand that is shown of a number, how many digits of its fraction are shown at least, and the exponent: it is divided
    again where the rounding brought it to a higher one."""
    exponent = exponent_of(value, step)
    its, least = rounded(EXACT.scaleb(value, -exponent), asked, mode)
    reached = max(0, exponent_of(its, step))
    if reached:
        its, least = rounded(EXACT.scaleb(its, -reached), asked, mode)
    return its, least, exponent + reached


def exponent_text(its, exponent):
    """The text of an exponent, as a skeleton shows it."""
    _, *options = its.notation.split("/")
    digits = next((len(option) - 1 for option in options if option[0] == "*"), 1)
    sign = "-" if exponent < 0 else "+" if "sign-always" in options else ""
    return f"E{sign}{abs(exponent):0{digits}}"


def shown(its, number, of_currency):
    """The text of what a skeleton shows of a number before it is written in a locale: its digits and its minus sign, and an exponent after
    an E."""
    value, asked, end = decimal.Decimal(number), digits_asked(its, of_currency), ""
    if is_scientific(its):
        step = 3 if its.notation.startswith("engineering") else 1
        value, least, exponent = significand(value, asked, mode_of(its, value.is_signed()), step)
        end = exponent_text(its, exponent)
    elif asked:
        value, least = rounded(value, asked, mode_of(its, value.is_signed()))
    whole, _, fraction = f"{value.copy_abs():f}".partition(".")
    fraction = fraction.rstrip("0")
    if asked and not (asked.hides_zeros and not fraction):
        fraction = fraction.ljust(least, "0")
    whole = (whole.lstrip("0") or "0").rjust(its.integer.count("0"), "0")
    return f"{'-' if value.is_signed() else ''}{whole}{'.' if fraction else ''}{fraction}{end}"


GROUPINGS = {"group-auto": "auto", "group-off": "never", "group-min2": "min2", "group-on-aligned": "on-aligned"}


def grouping_of(its):
    """The word of a line for the grouping of a skeleton."""
    return GROUPINGS[its.grouping] if its.grouping else "min2" if is_compact(its) else "auto"


def sign_of(its):
    """The word of a line for the sign of a skeleton."""
    return re.sub("^sign-(accounting-?)?", "", its.sign) or "auto"


def form_of(its):
    """The word of a line for the notation and the unit of a skeleton, or None where none says both, or digits of a compact number or of a
    significand."""
    if its.notation:
        return None if its.unit or has_own_digits(its) else its.notation.partition("-")[2]
    if not is_amount(its):
        return its.unit or "plain"
    is_in_accounting = its.sign.startswith("sign-accounting")
    if is_in_accounting and its.width:
        return None
    return f"{'accounting' if is_in_accounting else 'code' if its.width else 'currency'}-{its.unit[-3:]}"


def line_of(its, tag, number, of_currency=None):
    """The request line that asks by other words for what a skeleton shows of a number, or None where none does."""
    form = form_of(its)
    if form is None:
        return None
    number = shown(its, number, of_currency)
    rounding = f"{-len(number.partition('.')[2])},half-even,1" if is_amount(its) else "-"
    return "\t".join((tag, form, grouping_of(its), sign_of(its), rounding, number))


def is_of_intl(its):
    """Whether Intl.NumberFormat has the unit of a skeleton, its exponents, and its digits: there those of a fraction are not shown in any
    case beside significant ones."""
    return its.unit != "permille" and "/" not in its.notation and not re.fullmatch(r"\.0+#*/(@+\*|@#*)(/w)?", its.precision)


def options_of(its, of_currency=None):
    """The options of Intl.NumberFormat that ask for the same as a skeleton."""
    camel = lambda word: re.sub("-(.)", lambda it: it[1].upper(), word)
    asked, mode = digits_asked(its, of_currency), its.mode.replace("rounding-mode-", "")
    modes = {"": "half-even", "up": "expand", "down": "trunc", "half-up": "half-expand", "half-down": "half-trunc",
             "ceiling": "ceil", "half-ceiling": "half-ceil"}
    found = {"roundingMode": camel(modes.get(mode, mode)), "signDisplay": camel(sign_of(its)),
             "useGrouping": {"never": False, "on-aligned": "always"}.get(grouping_of(its), grouping_of(its))}
    if asked and (asked.priority or not asked.significant):
        found |= {"minimumFractionDigits": asked.least, "maximumFractionDigits": max(20, asked.least) if asked.most is None else asked.most}
        found |= {"roundingIncrement": asked.increment} if asked.increment != 1 else {}
    if asked and asked.significant:
        found |= {"minimumSignificantDigits": max(1, asked.significant[0]), "maximumSignificantDigits": asked.significant[1] or 21}
        found |= {"roundingPriority": {"r": "morePrecision", "s": "lessPrecision"}[asked.priority]} if asked.priority else {}
    if asked:
        found |= {"trailingZeroDisplay": "stripIfInteger"} if asked.hides_zeros else {}
    if its.integer:
        found["minimumIntegerDigits"] = its.integer.count("0")
    if is_compact(its):
        found |= {"notation": "compact", "compactDisplay": its.notation.partition("-")[2]}
    elif its.notation:
        found["notation"] = its.notation
    if is_amount(its):
        found |= {"style": "currency", "currency": its.unit[-3:]}
        found |= {"currencyDisplay": "code"} if its.width else {}
        found |= {"currencySign": "accounting"} if its.sign.startswith("sign-accounting") else {}
    elif its.unit:
        found["style"] = "percent"
    return found
