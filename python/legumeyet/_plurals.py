"""Plural rules."""
from typing import TYPE_CHECKING, Literal, Optional, Tuple

from . import _core
from ._formatters import COMPACT, CURRENCY, SCIENTIFIC, Book, Format, Open, Text, usual_book
from ._options import Fact, Options, Width, known, number_of

if TYPE_CHECKING:
    from typing_extensions import Unpack

TYPES, NOTATIONS = {"cardinal": 1, "ordinal": 2}, {"standard": 0, "compact": COMPACT, **SCIENTIFIC}


class PluralRules(Open, _core.PluralRules):
    """The plural rules of a locale tag: which word for a number a language has. The category of a number is that of the number as it is shown:
    by the options, which are those of formatters; with the notation "compact" as `CompactDecimalFormatter` of this width shows it, with
    "scientific" or "engineering" as `ScientificFormatter` does; and of a currency with the digits of its amounts. The type "cardinal" is of how many there are, and "ordinal" of which one it is. The book is the
    world's, which the process opens once and keeps, or another one, which the rules may outlive.

    Raises as `DecimalFormatter`, `Error` 14 where the currency is no code of one, and a `ValueError` of another type or notation.

    >>> polish = PluralRules("pl")
    >>> [polish.select(it) for it in (1, 2, 5, 22, 1.5)]
    ['one', 'few', 'many', 'few', 'other']
    >>> [PluralRules("en", "ordinal").select(it) for it in (1, 2, 3, 4, 11)]
    ['one', 'two', 'few', 'other', 'other']
    >>> PluralRules("fr").select(1200000), PluralRules("fr", notation="compact").select(1200000)
    ('other', 'many')
    >>> PluralRules("en").select(1), PluralRules("en", currency="USD").select(1), PluralRules("en", position=-1).select(1)
    ('one', 'other', 'other')
    """

    __slots__ = ("_names", "__weakref__")

    def __init__(
        self,
        tag: Text,
        type: Literal["cardinal", "ordinal"] = "cardinal",
        *,
        book: Optional[Book] = None,
        notation: Literal["standard", "compact", "scientific", "engineering"] = "standard",
        width: Width = Width.SHORT,
        currency: Optional[Text] = None,
        **options: "Unpack[Options]",
    ) -> None:
        plurals, compact, unit = known("type", TYPES, type), known("notation", NOTATIONS, notation), 0 if currency is None else CURRENCY
        format, own = Format(compact, number_of(Width, width), unit, plurals=plurals), dict(**options)
        _core.open_formatter(self, usual_book() if book is None else book, tag, format, currency, own)
        self._names = tag, type

    @property
    def categories(self) -> Tuple[str, ...]:
        """The categories that numbers may have, in the order of 'zero', 'one', 'two', 'few', 'many' and 'other'.

        >>> PluralRules("en").categories, PluralRules("en", "ordinal").categories
        (('one', 'other'), ('one', 'two', 'few', 'other'))
        """
        return tuple(self._tell(Fact.CATEGORIES).split())
