"""Numbers written as the readers of a locale write them, and read back.

A formatter is made of a locale tag, and writes numbers:

>>> DecimalFormatter("de").format(Decimal("1234567.891"))
'1.234.567,891'
>>> DecimalFormatter("hi").format(Decimal("1234567.891"))
'12,34,567.891'
>>> DecimalFormatter("ar-EG").format(Decimal("1234567.891"))
'١٬٢٣٤٬٥٦٧٫٨٩١'
>>> CompactDecimalFormatter("de", width=Width.LONG).format(1234567)
'1,2 Millionen'

Scientific numbers, percents and amounts of money have formatters of their own:

>>> ScientificFormatter("en").format(0.00012), PercentFormatter("tr").format(12.5), CurrencyFormatter("en", "USD").format(Decimal("-1234.5"))
('1.2E-4', '%12,5', '-$1,234.50')

Any format can be asked for by its number skeleton, as ICU and message formatters have them:

>>> NumberFormatter("de", "currency/EUR").format(1234.5)
'1.234,50\xa0€'

Message formats choose the words around a number by its plural category:

>>> PluralRules("pl").select(5), PluralRules("en", "ordinal").select(2)
('many', 'two')

Books, formatters and answers close themselves when they are no longer used; `with` and `close` close them sooner. Threads, signal handlers and
forked children may use them: a call waits where another thread is inside `format_all`, for 4,096 numbers of it at most, or inside the `answer` of
answers, for 65,536 bytes of lines.
"""
from decimal import Decimal

try:
    from ._errors import ClosedError, Error, InputError, OutOfMemoryError, SkeletonError
except ImportError as error:
    raise ImportError(f"{error}: the wheel of tools/build_wheel has this module, and `pip install ./python` compiles it") from None
from ._formatters import (
    Answers, Book, CompactDecimalFormatter, CurrencyDigits, CurrencyFormatter, DecimalFormatter, NumberFormatter, Part, PercentFormatter,
    ScientificFormatter, Symbols, normal_skeleton,
)
from ._locales import minor, tag_of_locale_name, version, world_locales
from ._options import Fault, Grouping, Kind, Options, Rounding, RoundingPriority, Sign, TrailingZeros, Width
from ._plurals import PluralRules

__all__ = [
    "Answers",
    "Book",
    "ClosedError",
    "CompactDecimalFormatter",
    "CurrencyDigits",
    "CurrencyFormatter",
    "Decimal",
    "DecimalFormatter",
    "Error",
    "Fault",
    "Grouping",
    "InputError",
    "Kind",
    "NumberFormatter",
    "Options",
    "OutOfMemoryError",
    "Part",
    "PercentFormatter",
    "PluralRules",
    "Rounding",
    "RoundingPriority",
    "ScientificFormatter",
    "Sign",
    "SkeletonError",
    "Symbols",
    "TrailingZeros",
    "Width",
    "minor",
    "normal_skeleton",
    "tag_of_locale_name",
    "version",
    "world_locales",
]
