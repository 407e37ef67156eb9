"""Options by their names, and the numbers of options, of parts and of faults, as legumeyet.h has them."""
from enum import IntEnum
from typing import Dict, Optional, SupportsIndex, Type, TypedDict, Union


class Grouping(IntEnum):
    """When grouping separators are written.

    AUTO: where the sizes of the locale place them, `1,234,567`, and in some, as Spanish, only with two digits before the last separator.
    NEVER: nowhere, `1234567`. ALWAYS: as AUTO. MIN2: as AUTO, but only with two digits before the last separator, `1000` and `10,000`.
    ON_ALIGNED: already with one digit before it in each locale, as in a column.

    >>> [DecimalFormatter("es", grouping=it).format(1000) for it in Grouping]
    ['1000', '1000', '1000', '1000', '1.000']
    """

    AUTO = 0
    NEVER = 1
    ALWAYS = 2
    MIN2 = 3
    ON_ALIGNED = 4


class Width(IntEnum):
    """Which patterns compact numbers are written in. SHORT: `1.6K`. LONG: `1.6 thousand`.

    >>> [CompactDecimalFormatter("en", width=it).format(1650) for it in Width]
    ['1.6K', '1.6 thousand']
    """

    SHORT = 0
    LONG = 1


class Sign(IntEnum):
    """Which sign is written; it is chosen by what the rounding left.

    KEEP: the one of the number as it was given, so `+5` stays `+5`. AUTO: a minus where the number has one; a plus is left out. NEVER:
    none. ALWAYS: a plus where the number has none. EXCEPT_ZERO: none at zero, and else as ALWAYS. NEGATIVE: a minus on a number that
    is not zero, and else none.

    >>> [DecimalFormatter("en", sign=it).format("-0") for it in Sign]
    ['-0', '-0', '0', '-0', '0', '0']
    """

    KEEP = 0
    AUTO = 1
    NEVER = 2
    ALWAYS = 3
    EXCEPT_ZERO = 4
    NEGATIVE = 5


class Kind(IntEnum):
    """What a part of a text is. INTEGER: the integer digits with their separators; GROUP: a separator inside them; DECIMAL: the decimal
    separator; FRACTION: the fraction digits; CURRENCY: the symbol or the code of a currency, which may be inside a sign. EXPONENT_SEPARATOR: the
    text before an exponent; the other three are of its sign and its digits.

    >>> text, parts = DecimalFormatter("de").format_parts("1234.5")
    >>> {it.kind.name: text[it.start : it.end] for it in parts}
    {'INTEGER': '1.234', 'GROUP': '.', 'DECIMAL': ',', 'FRACTION': '5'}
    """

    MINUS_SIGN = 1
    PLUS_SIGN = 2
    INTEGER = 3
    GROUP = 4
    DECIMAL = 5
    FRACTION = 6
    CURRENCY = 7
    PERCENT_SIGN = 8
    EXPONENT_SEPARATOR = 9
    EXPONENT_MINUS_SIGN = 10
    EXPONENT_PLUS_SIGN = 11
    EXPONENT_INTEGER = 12


class Rounding(IntEnum):
    """Which of its neighbours at the position a number is rounded to.

    KEEP: it is not rounded, and an amount of money to the digits of its currency. EXPAND: the one away from zero. TRUNC: towards zero. CEIL:
    upwards. FLOOR: downwards. Those of HALF: the nearest, and at a tie as their names say; HALF_EVEN: the even one. Only amounts have
    CASH: to the digits of the currency in cash, and NONE: it is not rounded.

    >>> [DecimalFormatter("en", rounding=it).format("2.5") for it in (Rounding.HALF_EVEN, Rounding.HALF_EXPAND, Rounding.FLOOR)]
    ['2', '3', '2']
    """

    KEEP = 0
    EXPAND = 1
    TRUNC = 2
    CEIL = 3
    FLOOR = 4
    HALF_EXPAND = 5
    HALF_TRUNC = 6
    HALF_CEIL = 7
    HALF_FLOOR = 8
    HALF_EVEN = 9
    CASH = 10
    NONE = 11


class TrailingZeros(IntEnum):
    """What becomes of the zeros at the end of the fraction digits. KEEP: they stay, `1.50`. TRIM: they are trimmed, and the decimal separator
    where no digit is left, `1.5`, and `2` of `2.00`. TRIM_WHOLE: they are trimmed where no other digit is among them, `2` of `2.00`, and `1.50`.
    TRIM_ALL: as TRIM, and again as TRIM_WHOLE what `minimum_fraction_digits` added, with 2 `1.50` and `2`.

    >>> [DecimalFormatter("en", trailing_zeros=it).format("1.50") for it in TrailingZeros]
    ['1.50', '1.5', '1.50', '1.5']
    """

    KEEP = 0
    TRIM = 1
    TRIM_WHOLE = 2
    TRIM_ALL = 3


class RoundingPriority(IntEnum):
    """Which rounding counts, where a call has significant digits and a position. AUTO: it has one of both. MORE_PRECISION: the one that shows
    more digits. LESS_PRECISION: the one that shows fewer.

    >>> more, less = ({"maximum_significant_digits": 2, "position": 0, "rounding_priority": it} for it in list(RoundingPriority)[1:])
    >>> [(DecimalFormatter("en").format(it, **more), DecimalFormatter("en").format(it, **less)) for it in (123.4, 1.234)]
    [('123', '120'), ('1.2', '1')]
    """

    AUTO = 0
    MORE_PRECISION = 1
    LESS_PRECISION = 2


class Fault(IntEnum):
    """Why a text is no skeleton.

    UNKNOWN: a word is none of a skeleton, as `foo`. TWICE: it sets what another has set, as the second of `percent currency/EUR`. CODE: what
    follows `currency/` is no code of a currency. PAIR: a word is for amounts, and there is no currency, as `sign-accounting` alone. SYSTEM: it
    names a numbering system, which the tag has, as `latin`. LATER: what it says is not written yet, as `scale/100`. UNSUPPORTED: it asks
    for what is not written here, as `decimal-always`.

    >>> Fault(201)
    <Fault.UNKNOWN: 201>
    """

    UNKNOWN = 201
    TWICE = 202
    CODE = 203
    PAIR = 204
    SYSTEM = 205
    LATER = 206
    UNSUPPORTED = 207


class Fact(IntEnum):
    """What a formatter tells of itself."""

    DECIMAL_SEPARATOR = 1
    GROUPING_SEPARATOR = 2
    MINUS_BEFORE = 3
    MINUS_AFTER = 4
    PLUS_BEFORE = 5
    PLUS_AFTER = 6
    DIGITS = 7
    FRACTION_DIGITS = 8
    CASH_DIGITS = 9
    CASH_INCREMENT = 10
    CATEGORIES = 11


class Options(TypedDict, total=False):
    """The options that a call of a formatter is given by their names, and a formatter when it is opened: `DecimalFormatter.format` says what
    each does. It is the type of options that a program passes on.

    >>> cents: Options = {"position": -2, "trailing_zeros": TrailingZeros.TRIM}
    >>> DecimalFormatter("de").format(1.995, **cents)
    '2'
    """

    sign: Sign
    rounding: Optional[Rounding]
    position: Optional[SupportsIndex]
    increment: SupportsIndex
    trailing_zeros: TrailingZeros
    minimum_integer_digits: SupportsIndex
    minimum_fraction_digits: SupportsIndex
    minimum_significant_digits: SupportsIndex
    maximum_significant_digits: SupportsIndex
    rounding_priority: RoundingPriority


def number_of(kind: Type[IntEnum], option: IntEnum) -> int:
    """The number of an option of a kind. Raises a TypeError for one of another kind, and for a number."""
    if not isinstance(option, kind):
        raise TypeError(f"an option is a {kind.__name__}, and not {option!r}")
    return int(option)


def known(name: str, numbers: Dict[str, int], given: str) -> int:
    """The number of a word of an option. Raises a ValueError where it is none of the words."""
    if not isinstance(given, str) or given not in numbers:
        raise ValueError(f"{name} is {' or '.join(map(repr, numbers))}, and not {given!r}")
    return numbers[given]


def kind_of(number: int) -> Union[Kind, int]:
    """The kind of a part, or its number where a later library has one that is not here."""
    try:
        return Kind(number)
    except ValueError:
        return number
