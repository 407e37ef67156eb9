"""The functions of numbers of MessageFormat 2 (UTS 35, part 9), for a library of messages to register: each has a locale tag, the options of an
expression and its operand, and returns what is formatted and selected. Options have the names, words and defaults of UTS 35, three fraction digits at most.

>>> amount = functions["currency"]("de", {"currency": "EUR"}, "1234.5")
>>> str(amount)
'1.234,50\\xa0€'
>>> [functions["number"]("pl", {}, it).select_key({"one", "few", "many", "5"}) for it in (1, 2, 5, 6)]
['one', 'few', '5', 'many']
>>> functions["number"]("en", {"select": "ordinal"}, 22).select_key({"one", "two"})
'two'
"""
import operator
import re
from decimal import MAX_EMAX, MAX_PREC, MIN_EMIN, Context, Decimal, InvalidOperation
from functools import lru_cache
from typing import AbstractSet, Any, Callable, Container, Dict, List, Mapping, NamedTuple, Optional, Protocol, Tuple, Union

from ._formatters import CurrencyFormatter, DecimalFormatter, NumberFormatter, Part, PercentFormatter
from ._options import Grouping, Rounding, RoundingPriority, Sign, TrailingZeros
from ._plurals import PluralRules

__all__ = ["MessageFunction", "MessageFunctionError", "MessageNumber", "functions"]

LITERAL = re.compile(r"-?(?:0|[1-9][0-9]*)(?:\.[0-9]+)?(?:[eE][-+]?[0-9]+)?")
MOST = 32767  # magnitudes of numbers
FRACTION, SIGNIFICANT = (("minimum" + it + "Digits", "maximum" + it + "Digits") for it in ("Fraction", "Significant"))
COUNTS: Dict[str, Container[int]] = {
    "minimumIntegerDigits": range(1, 22),
    **dict.fromkeys(FRACTION, range(101)),
    **dict.fromkeys(SIGNIFICANT, range(1, 22)),
    "roundingIncrement": (1, 2, 5, 10, 20, 25, 50, 100, 200, 250, 500, 1000, 2000, 2500, 5000),
}
MODES = ("expand", "trunc", "ceil", "floor", "halfExpand", "halfTrunc", "halfCeil", "halfFloor", "halfEven")
# The words of options, with what each is to the formatters; and those that are not written yet, in whose place the usual one is.
WORDS: Dict[str, Dict[str, Any]] = {
    "select": dict.fromkeys(("plural", "ordinal", "exact")),
    "signDisplay": dict(zip(("auto", "never", "always", "exceptZero", "negative"), list(Sign)[1:])),
    "useGrouping": {"auto": Grouping.AUTO, "never": Grouping.NEVER, "min2": Grouping.MIN2, "always": Grouping.ON_ALIGNED},
    "roundingMode": dict(zip(MODES, list(Rounding)[1:])),
    "roundingPriority": dict(zip(("auto", "morePrecision", "lessPrecision"), RoundingPriority)),
    "trailingZeroDisplay": {"auto": 0, "stripIfInteger": 2},
}
OF_CURRENCY: Dict[str, Dict[str, Any]] = {
    "currencyDisplay": {"symbol": False, "code": True},
    "currencySign": {"standard": False, "accounting": True},
    "compactDisplay": dict.fromkeys(("short", "long")),
    "notation": dict.fromkeys(("standard",)),
}
LATER = {"currencyDisplay": ("narrowSymbol", "name", "never"), "notation": ("compact",)}
FORMED = {"currency": re.compile("[A-Za-z]{3}"), "numberingSystem": re.compile("[a-z0-9]{3,8}")}
# The scripts that are written from right to left, and the languages of the world's book with one of them where their tags have no script.
RIGHT_TO_LEFT = frozenset("adlm arab hebr mand nkoo rohg samr syrc thaa yezi".split())
IN_THEM = frozenset("ar ckb fa he ks lrc mzn nqo ps sd syr ug ur yi".split())


class MessageFunctionError(ValueError):
    """What a function refuses, by its type: `bad-operand`, `bad-option`, or `unsupported-operation` of what is not written yet.

    >>> functions["number"]("en", {}, "five")
    Traceback (most recent call last):
    legumeyet.messages.MessageFunctionError: the operand is no number: 'five'
    """

    def __init__(self, type: str, message: str) -> None:
        super().__init__(message)
        self.type = type


class Function(NamedTuple):
    """What a function writes, its options beside those that all have, and what it says itself in place of options."""

    name: str
    style: str = "decimal"
    more: Tuple[str, ...] = ()
    own: Mapping[str, Optional[int]] = {}

    def names(self) -> List[str]:
        """The names of its options."""
        return [it for it in (*COUNTS, *WORDS, "numberingSystem", *self.more) if it not in self.own]


def option_of(name: str, given: object) -> Union[int, str]:
    """The value of an option. Raises a ValueError where it is none."""
    text = key_of(given.number) if isinstance(given, MessageNumber) else str(given)
    words, form = WORDS.get(name) or OF_CURRENCY.get(name), FORMED.get(name)
    counts: Optional[Container[int]] = range(101) if name == "fractionDigits" and text != "auto" else COUNTS.get(name)
    if counts is not None:
        if not re.fullmatch("[0-9]+", text) or int(text) not in counts:
            raise ValueError(name)
        return int(text)
    if (words is not None and text not in (*words, *LATER.get(name, ()))) or (form is not None and not form.fullmatch(text)):
        raise ValueError(name)
    return text


def options_of(function: Function, inherited: Mapping[str, Any], given: Mapping[str, object], tell: Callable[[str, str], object]) -> Dict[str, Any]:
    """The options of a call: those of the operand, and in their place those that are given, without those that are wrong or not written yet."""
    names = function.names()
    found = {it: value for it, value in inherited.items() if it in names}
    for name in (it for it in names if it in given):
        try:
            value = option_of(name, given[name])
        except ValueError:
            tell("bad-option", f":{function.name} has no {name} {given[name]}")
            continue
        if value in LATER.get(name, ()):
            tell("unsupported-operation", f":{function.name} has no {name} {value} yet")
        elif name == "fractionDigits":
            found = {it: count for it, count in found.items() if it not in FRACTION}
            found.update(dict.fromkeys(FRACTION, value) if value != "auto" else {})
        else:
            found[name] = value
    return found


def said(options: Mapping[str, Any], name: str, usual: str = "auto") -> Any:
    """What an option, or without it the usual word, is to the formatters."""
    return (WORDS.get(name) or OF_CURRENCY[name])[options.get(name, usual)]


def digits_of(options: Mapping[str, Any], least_usual: int, most_usual: int) -> Dict[str, Any]:
    """The options of a formatter that say what Intl's say of digits, with so many of the fraction where none say it."""
    least, most = (options.get(it) for it in FRACTION)
    fewest, many = (options.get(it) for it in SIGNIFICANT)
    priority, increment = said(options, "roundingPriority"), options.get("roundingIncrement", 1)
    is_significant, is_either = (fewest, many) != (None, None), priority != RoundingPriority.AUTO
    found: Dict[str, Any] = {"rounding": said(options, "roundingMode", "halfExpand"), "minimum_integer_digits": options.get("minimumIntegerDigits", 1)}
    zeros = said(options, "trailingZeroDisplay")
    if increment != 1 and (is_either or is_significant):
        raise MessageFunctionError("bad-option", "roundingIncrement is of fraction digits, and not of significant ones")
    if is_either or not is_significant:
        usual = least_usual if increment != 1 else most_usual
        most = max(usual, least or 0) if most is None else most
        least = min(least_usual, most) if least is None else least
        if least > most or (increment != 1 and least != most):
            raise MessageFunctionError("bad-option", f"minimumFractionDigits {least} does not go with maximumFractionDigits {most}")
        found.update(position=-most, minimum_fraction_digits=least)
        zeros += least < most
    if is_either or is_significant:
        fewest, many = fewest or 1, many or 21
        if fewest > many:
            raise MessageFunctionError("bad-option", f"minimumSignificantDigits {fewest} is above maximumSignificantDigits {many}")
        found.update(minimum_significant_digits=fewest, maximum_significant_digits=many)
    if is_either:
        found["rounding_priority"] = priority
    if increment != 1:
        found["increment"] = increment
    return {**found, "trailing_zeros": TrailingZeros(zeros)}


def decimal_of(operand: object) -> Optional[Decimal]:
    """The number that an operand is."""
    if isinstance(operand, Decimal):
        return operand
    if isinstance(operand, float):
        return Decimal(float.__repr__(operand))
    if isinstance(operand, str):
        return Decimal(operand) if LITERAL.fullmatch(operand) else None
    return None if isinstance(operand, bool) or not hasattr(operand, "__index__") else Decimal(operator.index(operand))


def operand_of(operand: object) -> Tuple[Decimal, Mapping[str, Any]]:
    """The number that an operand is, with the options of the function that it comes from."""
    if isinstance(operand, MessageNumber):
        return operand.number, operand.options
    try:
        number = decimal_of(operand)
    except InvalidOperation:  # of an exponent that no decimal has
        number = None
    if number is None or not number.is_finite() or abs(number.adjusted()) > MOST or int(number.as_tuple().exponent) < -MOST:
        raise MessageFunctionError("bad-operand", f"the operand is no number: {operand!r}")
    return number, {}


def shifted(number: Decimal, options: Mapping[str, object]) -> Decimal:
    """A number with what one of the options `add` and `subtract` says."""
    given = {it: str(options[it]) for it in ("add", "subtract") if it in options}
    if len(given) != 1 or not all(re.fullmatch("[0-9]+", it) for it in given.values()):
        raise MessageFunctionError("bad-option", ":offset needs a whole number to add or to subtract")
    wide = Context(prec=MAX_PREC, Emax=MAX_EMAX, Emin=MIN_EMIN)
    return wide.add(number, Decimal(given["add"])) if "add" in given else wide.subtract(number, Decimal(given["subtract"]))


def key_of(number: Decimal) -> str:
    """A number as the key of a variant has it: without an exponent, and without zeros at the end of a fraction."""
    text = f"{number:f}"
    text = text.rstrip("0").rstrip(".") if "." in text else text
    return text.lstrip("-") if not number else text


def with_system(tag: str, system: str) -> str:
    """A tag with a numbering system, and without its own extensions, in which numbers look for nothing else."""
    subtags = tag.split("-")
    cut = next((at for at, it in enumerate(subtags) if at > 0 and len(it) == 1), len(subtags))
    return "-".join((*subtags[:cut], "u-nu", system))


@lru_cache(maxsize=128)
def has_system(system: str) -> bool:
    """Whether there are digits of a numbering system. Without them those of the tag are written: in Egypt the Arabic ones."""
    return system == "arab" or DecimalFormatter(f"ar-EG-u-nu-{system}").symbols.digits != DecimalFormatter("ar-EG").symbols.digits


class Shown(NamedTuple):
    """How numbers are shown: the tag with its numbering system, the currency, and the options of rounding and digits."""

    tag: str
    currency: Optional[str]
    digits: Dict[str, Any]


def shown_by(function: Function, tag: str, options: Mapping[str, Any]) -> Shown:
    """How the options of a function show numbers. Raises a MessageFunctionError where they do not go together."""
    system = options.get("numberingSystem")
    named = tag if system is None else with_system(tag, system)
    currency = options["currency"].upper() if function.style == "currency" else None
    usual = (0, 0) if function.style == "percent" else (0, 3)
    if currency is not None:
        count = CurrencyFormatter(named, currency).currency_digits.fraction
        usual = count, count
    return Shown(named, currency, digits_of({**options, **function.own}, *usual))


class Opened:
    """What writes numbers by the options of a function, and what tells their categories."""

    def __init__(self, function: Function, tag: str, options: Mapping[str, Any]) -> None:
        self.shown = shown_by(function, tag, options)
        self.scale = 2 if function.style == "percent" else 0
        self.type = "ordinal" if options.get("select") == "ordinal" else "cardinal"
        self.formatter = self._formatter(options)
        self._rules: Optional[PluralRules] = None

    def _formatter(self, options: Mapping[str, Any]) -> NumberFormatter:
        (tag, currency, digits), more = self.shown, {"grouping": said(options, "useGrouping"), "sign": said(options, "signDisplay")}
        if currency is not None:
            more.update(accounting=said(options, "currencySign", "standard"), code=said(options, "currencyDisplay", "symbol"))
            return CurrencyFormatter(tag, currency, **more, **digits)
        return PercentFormatter(tag, **more, **digits) if self.scale else DecimalFormatter(tag, **more, **digits)

    def rules(self) -> PluralRules:
        """The plural rules, which are opened at first."""
        if self._rules is None:
            self._rules = PluralRules(self.shown.tag, self.type, currency=self.shown.currency, **self.shown.digits)  # type: ignore[arg-type]
        return self._rules


@lru_cache(maxsize=256)
def opened(name: str, tag: str, options: Tuple[Tuple[str, Any], ...]) -> Opened:
    """What is opened for a function, and kept: a message is formatted more than once."""
    return Opened(FUNCTIONS[name], tag, dict(options))


class MessageNumber:
    """A number in a message: `str` is its text, and `select_key` the key of the variant that it has. `number` and `options` are those that another
    function goes on with; of `:integer` the number is the integer that is shown.

    >>> share = functions["percent"]("tr", {}, 0.125)
    >>> str(share), share.category, share.number, share.tag, share.dir
    ('%13', 'other', Decimal('0.125'), 'tr', 'ltr')
    """

    type = "number"
    __slots__ = ("number", "options", "tag", "_can_select", "_opened")

    def __init__(self, function: Function, tag: str, options: Mapping[str, Any], number: Decimal, can_select: bool = True) -> None:
        self.number, self.options, self.tag, self._can_select = number, dict(options), tag, can_select
        self._opened = opened(function.name, tag, tuple(sorted(options.items())))

    def _scaled(self) -> Decimal:
        """The number that is shown: of a ratio its percents."""
        sign, digits, exponent = self.number.as_tuple()
        return Decimal((sign, digits, int(exponent) + self._opened.scale))

    def __str__(self) -> str:
        return self._opened.formatter.format(self._scaled())

    def __repr__(self) -> str:
        return f"<MessageNumber {self.number} of {self.tag!r}>"

    def format_parts(self) -> Tuple[str, List[Part]]:
        """The text and its parts."""
        return self._opened.formatter.format_parts(self._scaled())

    @property
    def dir(self) -> str:
        """The direction of the text: that in which the language of the tag is written, `ltr` or `rtl`."""
        language, *others = self.tag.lower().split("-")
        script = next((it for it in others[:1] if len(it) == 4 and it.isalpha()), None)
        return "rtl" if script in RIGHT_TO_LEFT or (script is None and language in IN_THEM) else "ltr"

    @property
    def category(self) -> str:
        """The plural category of the number as it is shown."""
        return self._opened.rules().select(self._scaled())

    def select_key(self, keys: AbstractSet[str]) -> Optional[str]:
        """The key that the number has: its digits, else its plural category; None where neither is among the keys. Raises a MessageFunctionError
        where another `select` than a literal was given."""
        if not self._can_select:
            raise MessageFunctionError("bad-option", "only a literal is a select")
        exact = key_of(self.number)
        if exact in keys or self.options.get("select") == "exact":
            return exact if exact in keys else None
        return self.category if self.category in keys else None


def whole_of(number: Decimal, tag: str, options: Mapping[str, Any]) -> Decimal:
    """The integer that a number is rounded to."""
    return Decimal(DecimalFormatter(tag, rounding=said(options, "roundingMode", "halfExpand"), position=0).shown(number))


class MessageFunction(Protocol):
    """A function of messages. `on_error` is told of options that are left out. `literals` are the options that are literals of the message, of which
    `select` has to be one; without it all are. Raises a MessageFunctionError where the operand is no number, where options do not go together, and
    where what is asked for is not written yet, as of `:unit`.

    >>> errors: List[MessageFunctionError] = []
    >>> str(functions["number"]("en", {"signDisplay": "plus", "minimumFractionDigits": 1}, 5, errors.append)), [it.type for it in errors]
    ('5.0', ['bad-option'])
    """

    def __call__(
        self,
        tag: str,
        options: Mapping[str, object],
        operand: object,
        on_error: Callable[[MessageFunctionError], object] = ...,
        literals: Optional[AbstractSet[str]] = ...,
    ) -> MessageNumber: ...


def function_of(of: Function) -> MessageFunction:
    """The function of a name."""

    def function(
        tag: str,
        options: Mapping[str, object],
        operand: object,
        on_error: Callable[[MessageFunctionError], object] = lambda _: None,
        literals: Optional[AbstractSet[str]] = None,
    ) -> MessageNumber:
        def tell(type: str, message: str) -> None:
            on_error(MessageFunctionError(type, message))

        number, inherited = operand_of(operand)
        found = options_of(of, inherited, options, tell)
        if of.style in ("currency", "unit") and of.style not in found:
            raise MessageFunctionError("bad-operand", f":{of.name} needs the option {of.style}")
        if of.style == "unit":
            raise MessageFunctionError("unsupported-operation", "units are not written yet")
        system = found.get("numberingSystem")
        if system is not None and not has_system(system):
            tell("bad-option", f":{of.name} has no numberingSystem {found.pop('numberingSystem')}")
        is_literal = literals is None or "select" not in options or "select" in literals
        if not is_literal:
            tell("bad-option", "only a literal is a select")
        if of.name == "offset":
            number = shifted(number, options)
        elif of.name == "integer":
            number = whole_of(number, tag, found)
        return MessageNumber(of, tag, found, number, is_literal)

    function.__name__, function.__doc__ = of.name, f"The function `:{of.name}`, a MessageFunction."
    return function


EACH = (
    Function("number"),
    Function("integer", own={"minimumFractionDigits": None, "maximumFractionDigits": 0, "minimumSignificantDigits": None}),
    Function("offset"),
    Function("percent", "percent"),
    Function("currency", "currency", ("currency", "fractionDigits", *OF_CURRENCY)),
    Function("unit", "unit", ("unit", "unitDisplay")),
)
FUNCTIONS = {it.name: it for it in EACH}
functions: Dict[str, MessageFunction] = {name: function_of(it) for name, it in FUNCTIONS.items()}
"""The functions, by their names."""
