"""The errors of the library."""
from fractions import Fraction
from typing import Any, Dict, Tuple, Type, Union

from . import _core
from ._options import Fault

MEMORY, CLOSED, OPTION, TAG, TABLE, NUMBER, UTF8, NOT_WRITTEN, EXPONENT, CODE = 1, 2, 4, 5, 6, 7, 10, 12, 13, 14
TELLS_GIVEN = (TAG, TABLE, NUMBER, UTF8, NOT_WRITTEN, EXPONENT, CODE)
TOLD = 40  # characters of what was given


class Error(Exception):
    """A call was refused. `number` says why, as legumeyet.h has it, and `word` says it in English.

    An `Error` is made as one of its kinds, by its number: `InputError`, which is a `ValueError`, where what was given is refused;
    `ClosedError`, which is a `RuntimeError`; `OutOfMemoryError`, which is a `MemoryError`.

    >>> DecimalFormatter("de").read("1,234.5")
    Traceback (most recent call last):
    legumeyet.InputError: 12: no number is written so: '1,234.5'; with lenient=True what people type is read
    """

    __module__ = "legumeyet"

    def __new__(cls, number: int, hint: str = "", *_more: Any) -> "Error":
        return super().__new__(kind_of(number) if cls is Error else cls)

    def __init__(self, number: int, hint: str = ""):
        self.number, self.hint = number, hint
        self.word = _core.error_text(number)
        super().__init__(f"{number}: {self.word}{hint}")

    def __reduce__(self) -> Tuple[Any, ...]:
        return Error, (self.number, self.hint)


class InputError(Error, ValueError):
    """What was given is refused: a tag, a number, a text to read back, or a book.

    >>> try:
    ...     DecimalFormatter("de").format("1,5")
    ... except ValueError as error:
    ...     error.number, error.word
    (7, 'no decimal number')
    """

    __module__ = "legumeyet"


class SkeletonError(InputError):
    """A text is no skeleton. `fault` says why, a number where a later library has one that is not a `Fault`, and `place` where the faulty word
    begins in the text that was given.

    >>> try:
    ...     NumberFormatter("de", "percent foo")
    ... except SkeletonError as error:
    ...     error.fault, error.place
    (<Fault.UNKNOWN: 201>, 8)
    """

    __module__ = "legumeyet"

    def __init__(self, number: int, hint: str = "", place: int = 0):
        super().__init__(number, hint)
        self.fault: Union[Fault, int] = Fault(number) if number in list(Fault) else number
        self.place = place

    def __reduce__(self) -> Tuple[Any, ...]:
        return SkeletonError, (self.number, self.hint, self.place)


class ClosedError(Error, RuntimeError):
    """What is called is closed: a book, a formatter or answers.

    >>> with DecimalFormatter("de") as german:
    ...     pass
    >>> try:
    ...     german.format(1)
    ... except ClosedError as error:
    ...     error.number
    2
    """

    __module__ = "legumeyet"


class OutOfMemoryError(Error, MemoryError):
    """Memory was refused.

    >>> issubclass(OutOfMemoryError, MemoryError)
    True
    """

    __module__ = "legumeyet"


def kind_of(number: int) -> Type[Error]:
    """The kind of an error."""
    kinds: Dict[int, Type[Error]] = {MEMORY: OutOfMemoryError, CLOSED: ClosedError}
    kind: Type[Error] = SkeletonError if is_of_skeleton(number) else InputError
    return kinds.get(number, kind)


def is_of_skeleton(number: int) -> bool:
    """Whether an error is of a skeleton."""
    return 200 < number < 300


def told(given: Any) -> str:
    """What was given, as an error tells it: its first characters."""
    is_long = isinstance(given, (str, bytes)) and len(given) > TOLD
    return f"{given[:TOLD]!r}.." if is_long else repr(given)


def refusal(number: int, given: object, place: int, is_read: bool) -> Error:
    """The error of a number of the library: it tells what was given, how that is written where it is known, and its place, which is -1 of one
    alone."""
    if is_of_skeleton(number) and isinstance(given, (str, bytes)):
        rest = given[place : place + TOLD + 1]
        word = rest.partition(" ")[0] if isinstance(rest, str) else rest.partition(b" ")[0]
        return SkeletonError(number, f": {told(word)} at {place}", place)
    if place >= 0:
        return Error(number, "" if number in (CLOSED, OPTION) else f": the number at {place}")
    texts = [it for it in (given if isinstance(given, tuple) else (given,)) if isinstance(it, (str, bytes, float))]  # (both ends of a range)
    if number not in TELLS_GIVEN or not texts:
        return Error(number)
    tag = given.decode(errors="replace") if isinstance(given, bytes) else str(texts[0])
    said = " or ".join(map(told, texts))
    if number == TAG and "_" in tag:
        return Error(number, f": {said} is written {told(tag.replace('_', '-'))}")
    return Error(number, f": {said}{'; with lenient=True what people type is read' if is_read and number == NOT_WRITTEN else ''}")


MISSING = ("NoneType", "NAType", "NaTType", "MaskedConstant")


def wrong_number(number: object, place: int, has_exponent: bool) -> TypeError:
    """The error of what is no number that a formatter takes; of one among many it tells the place, and has the other as its cause."""
    error = no_number(number, has_exponent)
    if place < 0:
        return error
    placed = TypeError(f"{error}: the number at {place}")
    placed.__cause__ = error
    return placed


def no_number(number: object, has_exponent: bool) -> TypeError:
    """The same of one alone, with the way out where there is one."""
    if type(number).__name__ in MISSING:
        return TypeError(f"a number is missing: {number!r}")
    if isinstance(number, bool) or type(number).__name__ in ("bool", "bool_"):
        return TypeError("a number is no bool: give it as int(it)")
    if has_exponent:
        return TypeError(f"an exponent is given for an int, and not for {type(number).__name__}")
    if isinstance(number, Fraction):
        way = "a Fraction may have no end of digits: give Decimal(it.numerator) / it.denominator, which has those of the context"
        return TypeError(way)
    way = ": give it as float(it), or as Decimal(str(it))" if hasattr(number, "__float__") else ""
    return TypeError(f"a number is a Decimal, an int, a float or a str, and not {type(number).__name__}{way}")
