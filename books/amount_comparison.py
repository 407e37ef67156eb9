"""What the comparison of compact amounts with Node has: the lines, and causes why it writes another text than the definition of
amount_text.py."""
import collections
import json

from amount_text import FORM, GROUPING, answer, compacted, patterns_of
from comparison import RULES, TWO_EXPONENTS, WITH_TWO_EXPONENTS, has_rules_by_parents, say_unknown, text, with_field
from look_up import LETTERS, locale_of
from plurals import category_of, operands_of
from unit_comparison import formats_there, spaced
from unit_text import affixes_of, chosen_pattern, number_of, text_of

STYLES = ("currency", "code", "accounting")
CODES = ("EUR", "USD", "CHF", "JPY", "INR", "TRY", "DKK", "QQQ")  # the last is no currency's
FIXED = "0 5 -5 999 1234 -1234 12345.6 999500 999999 1500000 -1234567 1000000000".split()
OPTIONS = {"style": "currency", "notation": "compact", "roundingMode": "halfEven", "useGrouping": GROUPING}
WIDTHS = {"currency": {}, "code": {"currencyDisplay": "code"}, "accounting": {"currencySign": "accounting"}}


def amount_lines(tags):
    """The lines that ask for the fixed numbers under each tag, in each style and currency."""
    for tag in tags:
        for style in STYLES:
            for code in CODES:
                for it in FIXED:
                    yield f"{tag}\tshort-{style}-{code}\tauto\tkeep\t-\t{it}"


def for_node(line):
    """The line as it is asked of Node."""
    style, code = FORM.fullmatch(line.split("\t")[1]).groups()
    return with_field(line, 1, json.dumps({**OPTIONS, "currency": code, **WIDTHS[style]}))


def amount_answers(book, lines):
    """The answers of the definition to these lines."""
    return [answer(book, line) for line in lines]


def texts_there(book, line):
    """What another formatter may write for a line, each with its causes: as plain amounts are there, with the pattern of the type where
    it has one."""
    tag, form, *_, given = line.split("\t")
    style, code = FORM.fullmatch(form).groups()
    name, _, system = tag.partition("-u-nu-")
    locale = locale_of(name)
    unit, ends = (code, LETTERS) if style == "code" else book.units.symbol(book.unit_chain(locale), code)
    significand, _, slots = compacted(book.compact_amounts(locale, system), number_of(given))
    category = slots and category_of(book.cardinal_rules(locale), operands_of(significand.text()))
    for its, causes in formats_there(book, with_field(line, 1, f"{style}-{code}")):
        if slots:
            pattern, beside = patterns_of(slots, category)
            for chosen in (chosen_pattern(pattern, beside, ends), pattern, spaced(pattern)):
                yield text_of(its._replace(affixes=affixes_of(chosen, unit, its.symbols)), significand, GROUPING), causes
        else:
            yield text_of(its, significand, GROUPING), causes


def cause_of(book, line, there):
    """Why Node writes this text for a line, or None: the fewest causes under which it would be written here."""
    if not (answer(book, line).startswith("ok\t") and there.startswith("ok\t")):
        return None
    causes = [causes for its, causes in texts_there(book, line) if its == text(there)[1] and causes]
    locale = locale_of(line.split("\t")[0].partition("-u-nu-")[0])
    if causes:
        return "; and ".join(min(causes, key=len))
    if locale.language in WITH_TWO_EXPONENTS:
        return TWO_EXPONENTS
    return RULES if has_rules_by_parents(book, locale) else None


def say_amounts(found, causes, shown):
    """Prints for each style how many of these lines agree, the causes of the others, and the first whose cause is not known; answers
    whether every cause is known."""
    for style in STYLES:
        its = [it for it in found if FORM.fullmatch(it[0].split("\t")[1])[1] == style]
        agree = sum(text(a) == text(b) for _, a, b in its)
        print(f"short-{style:<11} {len(its):>8} lines, {agree:>8} agree, {100 * agree / len(its):.3f} %")
    for name, count in collections.Counter(it or "not known" for it in causes.values()).most_common():
        print(f"{count:>8} differ: {name}")
    unknown = [it for it in found if it[0] in causes and causes[it[0]] is None]
    say_unknown(unknown, shown)
    return not unknown
