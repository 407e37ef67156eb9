"""The plural category of a number and of a range: the rules of docs/plurals.md, written down once more."""
import re

from cldr import CATEGORIES
from conditions import RUN, cut
from look_up import locale_of

NUMBER = re.compile(r"[-+]?([0-9]+)(?:\.([0-9]*))?")
MOST = 18  # digits that are kept on each side of the point


def operands_of(text, exponent=0):
    """The operands of a number as it is shown, with an exponent of ten beside it."""
    whole, fraction = NUMBER.fullmatch(text).groups(default="")
    fraction = fraction.ljust(exponent, "0")
    whole, fraction = whole + fraction[:exponent], fraction[exponent:][:MOST]
    kept = fraction.rstrip("0")
    found = {"i": int(whole[-MOST:]), "v": len(fraction), "f": int(fraction or 0), "w": len(kept), "t": int(kept or 0)}
    return {**found, "n": None if kept else found["i"], "c": exponent, "e": exponent}


def is_in(number, interval):
    """Whether a whole number is in an interval, a list of tokens."""
    return int(interval[0]) <= number <= int(interval[-1])


def relation_holds(relation, operands):
    """Whether a relation, a list of tokens, holds."""
    number, rest = operands[relation[0]], relation[1:]
    if rest[0] == "%":
        number, rest = None if number is None else number % int(rest[1]), rest[2:]
    is_one = number is not None and any(is_in(number, interval) for interval in cut(rest[1:], ","))
    return is_one == (rest[0] == "=")


def holds(condition, operands):
    """Whether a condition holds: one of its alternatives does, and of that all relations."""
    tokens = [run for run in RUN.findall(condition) if run.strip(" ")]
    return any(all(relation_holds(relation, operands) for relation in cut(alternative, "and")) for alternative in cut(tokens, "or"))


def category_of(rules, operands):
    """The first category whose condition holds, or `other`."""
    conditions = dict(rules)
    return next((it for it in CATEGORIES if it in conditions and holds(conditions[it], operands)), "other")


def categories_of(rules):
    """The categories that numbers may have."""
    conditions = dict(rules)
    return [it for it in CATEGORIES if it in conditions or it == "other"]


def range_category(ranges, start, end):
    """The category of a range whose ends have these categories: that of the first range for them, or that of the second end."""
    return next((result for first, second, result in ranges if (first, second) == (start, end)), end)


def rules_of(book, form, tag):
    """The rules by which a line of a form is answered for a locale, or None."""
    return (book.ordinal_rules if form == "ordinal" else book.cardinal_rules)(locale_of(tag))


def answer(book, line):
    """The answer to a line of a form that is a word alone, as `plural`, without a rounding and with the sign `keep`."""
    tag, form, *_, number = line.split("\t")
    rules = rules_of(book, form, tag)
    if rules is None:
        return "err\ttable"
    each = [category_of(rules, operands_of(it)) for it in number.split("..")]
    return f"ok\t{range_category(book.plural_ranges(locale_of(tag)), *each) if len(each) == 2 else each[0]}"
