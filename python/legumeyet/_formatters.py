"""Books, formatters and answers."""
import os
import sys
from decimal import Decimal
from itertools import count
from types import TracebackType
from typing import TYPE_CHECKING, Any, Dict, Literal, NamedTuple, NoReturn, Optional, Tuple, Type, TypeVar, Union, overload

from . import _core
from ._errors import refusal, wrong_number
from ._options import Fact, Grouping, Kind, Options, Rounding, RoundingPriority, Sign, TrailingZeros, Width, kind_of, known, number_of

if TYPE_CHECKING:
    from typing_extensions import Unpack

Self = TypeVar("Self", bound="Open")
Text = Union[str, bytes]
Notation = Literal["scientific", "engineering"]


class Part(NamedTuple):
    """A part of a text: the characters from `start` up to `end`. The kind is a number where a later library has one that is not a `Kind`.

    >>> DecimalFormatter("de").format_parts(-5)
    ('-5', [Part(kind=<Kind.MINUS_SIGN: 1>, start=0, end=1), Part(kind=<Kind.INTEGER: 3>, start=1, end=2)])
    """

    kind: Union[Kind, int]
    start: int
    end: int


class Symbols(NamedTuple):
    """What a formatter writes numbers with: `minus` and `plus` are what is before a number with that sign, and what is after it; `digits` are the
    ten of them, zero first. Amounts have the symbols of their currency, where it has its own.

    >>> DecimalFormatter("de").symbols
    Symbols(decimal_separator=',', grouping_separator='.', minus=('-', ''), plus=('+', ''), digits='0123456789')
    """

    decimal_separator: str
    grouping_separator: str
    minus: Tuple[str, str]
    plus: Tuple[str, str]
    digits: str


class CurrencyDigits(NamedTuple):
    """How many digits the amounts of a currency have after the decimal separator, in general and in cash, which is rounded to a multiple, the
    increment, of the last one.

    >>> CurrencyFormatter("en", "CHF").currency_digits, CurrencyFormatter("en", "JPY").currency_digits.fraction
    (CurrencyDigits(fraction=2, cash=2, cash_increment=5), 0)
    """

    fraction: int
    cash: int
    cash_increment: int


def part_of(kind: int, start: int, end: int) -> Part:
    """A part of a text."""
    return Part(kind_of(kind), start, end)


def row_of(numbers: Any, has_exponent: bool) -> Optional[Tuple[str, int, bytes]]:
    """The format, the width and the bytes of numbers in a row of memory, or in that of the array that a column of pandas gives: integers, or doubles
    where no exponent is given. None of what is iterated over, as an array with a mask, which has numbers where some are missing."""
    try:
        try:
            memory = memoryview(numbers)
        except Exception:
            numbers = numbers.to_numpy()
            memory = memoryview(numbers)
    except Exception:
        return None
    if hasattr(numbers, "mask"):
        return None
    if memory.ndim != 1:
        raise TypeError(f"numbers are in a row, and not in {memory.ndim} dimensions")
    order, kind = memory.format[:-1], memory.format[-1:]
    if order in ("", *"@=<>!") and kind in ("e", "f", "g") and not has_exponent:
        said = f"a row of reals has doubles, and not the format {memory.format!r}: give them as doubles, as numbers.astype(float)"
        raise TypeError(said)
    is_row = order in ("", *"@=<") and kind in tuple("bBhHiIlLqQnN" if has_exponent else "bBhHiIlLqQnNd")
    return (kind, memory.itemsize, memory.tobytes()) if is_row else None


_core.use(refusal, wrong_number, part_of, row_of, Decimal, Sign, Rounding, TrailingZeros, RoundingPriority)
if hasattr(os, "register_at_fork"):
    os.register_at_fork(after_in_child=_core.forked)


class Format(NamedTuple):
    """The words of a format, as legumeyet.h has them."""

    notation: int = 0
    width: int = 0
    unit: int = 0
    style: int = 0
    currency_width: int = 0
    grouping: int = 0
    plurals: int = 0


COMPACT, PERCENT, CURRENCY = 1, 1, 2
SCIENTIFIC = {"scientific": 2, "engineering": 3}  # notations
kept_world: Dict[str, "Book"] = {}  # one process has one, which threads may open at once
FEW = 16  # so many formatters are opened of their tags alone, each in some hundredth of the time that the world's book takes
alone = count()


class Open:
    """What is open until it is closed, by `with`, by `close` or when it is no longer used."""

    __slots__ = ()

    if TYPE_CHECKING:
        _names: Tuple[Text, ...]

        @property
        def is_open(self) -> bool: ...
        def close(self) -> None: ...

    def __repr__(self) -> str:
        """Its kind, of a formatter its tag and its currency or skeleton, and whether it is open.

        >>> Book.world(), DecimalFormatter("de"), NumberFormatter("de", "percent")
        (<Book, open>, <DecimalFormatter of 'de', open>, <NumberFormatter of 'de' and 'percent', open>)
        """
        of = f" of {' and '.join(map(repr, self._names))}" if hasattr(self, "_names") else ""
        return f"<{type(self).__name__}{of}, {'open' if self.is_open else 'closed'}>"

    def __reduce_ex__(self, _protocol: Any) -> NoReturn:
        """Refuses a copy, by `copy` or by `pickle`: a second one with the same handle would close it for both."""
        raise TypeError(f"what is open, as {type(self).__name__}, is not copied: open another one")

    def __enter__(self: Self) -> Self:
        return self

    def __exit__(self, kind: Optional[Type[BaseException]], error: Optional[BaseException], at: Optional[TracebackType]) -> None:
        self.close()


class Book(Open, _core.Book):
    """A book of tables, of its JSON text. `Book.world()` is that of the world's locales, and `Book.from_file(path)` that of a file.

    Raises `Error` 101 to 114 where the text is no book, 1 where memory was refused.

    >>> with Book('[[],[["latn","0123456789"]],[],[],[]]') as own:
    ...     DecimalFormatter(own, "en")
    Traceback (most recent call last):
    legumeyet.InputError: 6: the book lacks a table for the tag: 'en'
    """

    __slots__ = ("__weakref__",)

    def __init__(self, json: Text) -> None:
        if json is None:
            raise TypeError("a text is a str or bytes, and not None")
        _core.open_book(self, json)

    @classmethod
    def world(cls) -> "Book":
        """The world's book, which is in the library: `world_locales` lists its locales. Raises `Error` 1 where memory was refused.

        >>> with Book.world() as world, DecimalFormatter(world, "hi") as hindi:
        ...     hindi.format(Decimal("1234567.891"))
        '12,34,567.891'
        """
        made = cls.__new__(cls)
        _core.open_book(made, None)
        return made

    @classmethod
    def from_file(cls, path: Union[str, bytes, "os.PathLike[Any]"]) -> "Book":
        """The book that a file is. Raises an `OSError` where the file cannot be read, else as `Book`."""
        with open(path, "rb") as file:
            return cls(file.read())


def world() -> Book:
    """The world's book, which is opened once and kept."""
    book = kept_world.get("book") or kept_world.setdefault("book", Book.world())
    book.keep()
    return book


def usual_book() -> Optional[Book]:
    """The book of formatters for which none is given: none for the first ones, which are opened of their tags alone, and then the world's."""
    return None if "book" not in kept_world and next(alone) < FEW else world()


def named_by(book: Union[Book, Text], tag: Optional[Text]) -> Tuple[Optional[Book], Text]:
    """The book and the tag that a formatter is opened of: both are given, or only a tag, which is of the world's book."""
    if isinstance(book, Book):
        if tag is None:
            raise TypeError("a tag is missing after the book")
        return book, tag
    if tag is not None:
        raise TypeError(f"a book is a Book, and not {type(book).__name__}")
    return usual_book(), book


class NumberFormatter(Open, _core.NumberFormatter):
    """The formatter of a locale tag and a number skeleton, the text by which ICU asks for a format: of the world's book, or of another one, which
    it may outlive. Of the first formatters of a process without a book only what their tags ask for is read, and then it opens the world's once
    and keeps it. It writes as the skeleton says; options that a call is given take the
    place of all that it says of rounding, digits and signs. docs/skeletons.md of the repository has the words.

    The formatters of plain, compact and scientific numbers, of percents and of amounts are such formatters too, and have options in place of a
    skeleton.

    Raises `Error` 5 where the text is no locale tag, 6 where the book lacks a table for it, 2 where the book is closed, 1 where memory was
    refused, and a `SkeletonError`, 201 to 207, where the text is no skeleton.

    >>> NumberFormatter("de", "currency/EUR").format(1234.5), NumberFormatter("en", "compact-short").format(1650)
    ('1.234,50\xa0€', '1.6K')
    >>> signed = NumberFormatter("en", "percent sign-always")
    >>> signed.format(12.5), signed.format(12.5, position=0)
    ('+12.5%', '12%')
    """

    __slots__ = ("_names", "__weakref__")

    def __init__(self, tag: Text, skeleton: Text, *, book: Optional[Book] = None) -> None:
        _core.open_formatter(self, usual_book() if book is None else book, tag, None, skeleton, {})
        self._names = tag, skeleton

    def _open(self, book: Optional[Book], tag: Text, format: Format, options: Dict[str, Any], *currency: Text) -> None:
        """Opens it by the words of a format, with options of its own."""
        _core.open_formatter(self, book, tag, format, currency[0] if currency else None, options)
        self._names = tag, *currency

    @property
    def symbols(self) -> Symbols:
        """The separators, the signs and the digits. Raises `Error` 2 where the formatter is closed."""
        decimal, grouping, minus, no_minus, plus, no_plus, digits = (self._tell(it) for it in list(Fact)[:7])
        return Symbols(decimal, grouping, (minus, no_minus), (plus, no_plus), digits)

    @property
    def currency_digits(self) -> CurrencyDigits:
        """The digits of the currency. Raises `Error` 4 where there is no currency, and 2 where the formatter is closed."""
        return CurrencyDigits(*(int(self._tell(it)) for it in (Fact.FRACTION_DIGITS, Fact.CASH_DIGITS, Fact.CASH_INCREMENT)))


def normal_skeleton(skeleton: Text) -> str:
    """The normal text of a number skeleton, one for all that ask for the same format. Raises a `SkeletonError` where the text is none.

    >>> normal_skeleton("percent"), normal_skeleton(b"currency/EUR")
    ('percent', 'currency/EUR')
    """
    return _core.normal_skeleton(skeleton)


class Grouped(NumberFormatter):
    """A formatter with no choice of its own but when separators are written."""

    __slots__ = ()
    _unit = 0

    @overload
    def __init__(self, tag: Text, /, *, grouping: Grouping = ..., **options: "Unpack[Options]") -> None: ...

    @overload
    def __init__(self, book: Book, tag: Text, /, *, grouping: Grouping = ..., **options: "Unpack[Options]") -> None: ...

    def __init__(self, book: Union[Book, Text], tag: Optional[Text] = None, /, *, grouping: Grouping = Grouping.AUTO, **options: Any) -> None:
        self._open(*named_by(book, tag), Format(unit=self._unit, grouping=number_of(Grouping, grouping)), options)


class DecimalFormatter(Grouped):
    """The formatter of plain numbers for a locale tag: of the world's book, or of a book that is given first, which it may outlive. Options are
    those of each call that is not given others; `format` has them.

    Raises as `NumberFormatter`, but for skeletons.

    >>> DecimalFormatter("de").format(1234567), DecimalFormatter("hi").format(1234567)
    ('1.234.567', '12,34,567')
    >>> with Book.world() as world:
    ...     DecimalFormatter(world, "ar-EG").format(1234)
    '١٬٢٣٤'
    >>> DecimalFormatter("de_DE")
    Traceback (most recent call last):
    legumeyet.InputError: 5: no locale tag: 'de_DE' is written 'de-DE'
    >>> DecimalFormatter("de", grouping=Grouping.NEVER, position=-2).format(Decimal("1234567.891"))
    '1234567,89'
    """

    __slots__ = ()


class CompactDecimalFormatter(NumberFormatter):
    """The formatter of compact numbers for a locale tag, short or long: of the world's book, or of one that is given first. It may outlive
    the book. The parts that it lists are those of the sign.

    Raises as `DecimalFormatter`.

    >>> short = CompactDecimalFormatter("en")
    >>> short.format(-1172700), short.format(Decimal("950.5"), sign=Sign.ALWAYS)
    ('-1.2M', '+950')
    >>> short.format_parts("-1650")
    ('-1.6K', [Part(kind=<Kind.MINUS_SIGN: 1>, start=0, end=1)])
    >>> CompactDecimalFormatter("hi", width=Width.LONG).format(1234567)
    '12 लाख'
    """

    __slots__ = ()

    @overload
    def __init__(self, tag: Text, /, *, width: Width = ..., grouping: Grouping = ..., **options: "Unpack[Options]") -> None: ...

    @overload
    def __init__(self, book: Book, tag: Text, /, *, width: Width = ..., grouping: Grouping = ..., **options: "Unpack[Options]") -> None: ...

    def __init__(
        self,
        book: Union[Book, Text],
        tag: Optional[Text] = None,
        /,
        *,
        width: Width = Width.SHORT,
        grouping: Grouping = Grouping.MIN2,
        **options: Any,
    ) -> None:
        self._open(*named_by(book, tag), Format(COMPACT, number_of(Width, width), grouping=number_of(Grouping, grouping)), options)


class ScientificFormatter(NumberFormatter):
    """The formatter of scientific numbers for a locale tag, with the notation "engineering" of those whose exponents are multiples of three: of the
    world's book, or of one that is given first. It may outlive the book. Options change the significand.

    Raises as `DecimalFormatter`, and a `ValueError` of another notation.

    >>> ScientificFormatter("en").format(1234567.891), ScientificFormatter("en", notation="engineering").format("0.00012")
    ('1.234567891E6', '120E-6')
    >>> swedish = ScientificFormatter("sv", maximum_significant_digits=3)
    >>> swedish.format(1234567), swedish.shown(1234567), Decimal(swedish.shown(1234567))
    ('1,23×10^6', '1.23e6', Decimal('1.23E+6'))
    """

    __slots__ = ()

    @overload
    def __init__(self, tag: Text, /, *, notation: Notation = ..., grouping: Grouping = ..., **options: "Unpack[Options]") -> None: ...

    @overload
    def __init__(self, book: Book, tag: Text, /, *, notation: Notation = ..., grouping: Grouping = ..., **options: "Unpack[Options]") -> None: ...

    def __init__(
        self,
        book: Union[Book, Text],
        tag: Optional[Text] = None,
        /,
        *,
        notation: Notation = "scientific",
        grouping: Grouping = Grouping.AUTO,
        **options: Any,
    ) -> None:
        format = Format(known("notation", SCIENTIFIC, notation), grouping=number_of(Grouping, grouping))
        self._open(*named_by(book, tag), format, options)


class PercentFormatter(Grouped):
    """The formatter of percents for a locale tag: of the world's book, or of one that is given first. It may outlive the book. A percent is
    written as it is given, so a ratio is multiplied by 100 first.

    Raises as `DecimalFormatter`.

    >>> PercentFormatter("en").format(12.5), PercentFormatter("tr").format(-12.5)
    ('12.5%', '-%12,5')
    >>> PercentFormatter("en", position=0).format(Decimal("0.125") * 100)
    '12%'
    """

    __slots__ = ()
    _unit = PERCENT


class CurrencyFormatter(NumberFormatter):
    """The formatter of amounts of money for a locale tag and the code of a currency, three capitals: of the world's book, or of one that is
    given first, which it may outlive. With `accounting` a negative amount is written as in accounts, and with `code` the currency by its
    code. An amount is rounded to the digits of its currency, and with `cash` to those that it has in cash; `rounding` and `position` say
    otherwise, as `format` has it.

    Raises as `PercentFormatter`, and `Error` 14 where the text is no code of a currency.

    >>> CurrencyFormatter("de", "EUR").format(Decimal("1234.5"))
    '1.234,50\\xa0€'
    >>> CurrencyFormatter("en", "USD", accounting=True).format(-5), CurrencyFormatter("de-CH", "CHF").format(-5)
    ('($5.00)', 'CHF-5.00')
    >>> CurrencyFormatter("en", "USD", code=True).format(5), CurrencyFormatter("en", "CHF", cash=True).format("2.345")
    ('USD\\xa05.00', 'CHF\\xa02.35')
    >>> CurrencyFormatter("en", "usd")
    Traceback (most recent call last):
    legumeyet.InputError: 14: no code of a currency: 'usd'
    """

    __slots__ = ()

    @overload
    def __init__(
        self,
        tag: Text,
        currency: Text,
        /,
        *,
        accounting: bool = ...,
        code: bool = ...,
        cash: bool = ...,
        grouping: Grouping = ...,
        **options: "Unpack[Options]",
    ) -> None: ...

    @overload
    def __init__(
        self,
        book: Book,
        tag: Text,
        currency: Text,
        /,
        *,
        accounting: bool = ...,
        code: bool = ...,
        cash: bool = ...,
        grouping: Grouping = ...,
        **options: "Unpack[Options]",
    ) -> None: ...

    def __init__(
        self,
        book: Union[Book, Text],
        tag: Optional[Text] = None,
        currency: Optional[Text] = None,
        /,
        *,
        accounting: bool = False,
        code: bool = False,
        cash: bool = False,
        grouping: Grouping = Grouping.AUTO,
        **options: Any,
    ) -> None:
        if currency is None and not isinstance(book, Book):
            tag, currency = None, tag
        of, named = named_by(book, tag)
        if currency is None:
            raise TypeError("a currency is missing after the tag")
        if cash and options.get("rounding") is not None:
            raise ValueError("cash and rounding both say how an amount is rounded")
        if cash:
            options["rounding"] = Rounding.CASH
        format = Format(unit=CURRENCY, style=bool(accounting), currency_width=bool(code), grouping=number_of(Grouping, grouping))
        self._open(of, named, format, options, currency)


class Answers(Open, _core.Answers):
    """The answers to many request lines, by the `capacity` formatters that were used last: who has many lines of few tags does not open a
    formatter for each, as `Book.answer` does. They are of the world's book, or of one that is kept, which they may outlive.

    Raises `Error` 2 where the book is closed, 15 where it is not kept, 1 where memory was refused, and a `ValueError` of a capacity below 1.

    >>> with Answers() as answers:
    ...     answers.answer("de\\tplain\\tauto\\tkeep\\t-\\t1234.5\\nde\\tplain\\tauto\\tkeep\\t-\\tx")
    'ok\\t1.234,5\\nerr\\tnumber\\n'
    """

    __slots__ = ("__weakref__",)

    def __init__(self, book: Optional[Book] = None, capacity: int = 512) -> None:
        if not isinstance(capacity, int):
            raise TypeError(f"capacity is an int, and not {type(capacity).__name__}")
        if capacity < 1:
            raise ValueError("capacity is at least 1")
        _core.open_answers(self, world() if book is None else book, min(capacity, sys.maxsize))
