"""Writes the answers to the request lines of standard input, under the book of a file. Where a formatter does what a line asks for,
what it says has to be the answer too: another text follows it. After the first 5,000 lines the book is kept.

usage: python3 lines.py BOOK < LINES > ANSWERS
"""
import sys
from decimal import Decimal

import legumeyet
from legumeyet import (
    Book, CompactDecimalFormatter, DecimalFormatter, Error, Grouping, PluralRules, Rounding, RoundingPriority, ScientificFormatter, Sign, TrailingZeros, Width,
)

WORDS = {5: "tag", 6: "table", 7: "number", 8: "limit", 9: "range", 11: "unreadable", 12: "not-written", 13: "exponent"}


def option(kind, word):
    """The option of a word, as EXCEPT_ZERO of `except-zero`."""
    return kind[word.upper().replace("-", "_")]


def rounding_of(words):
    """The options of a rounding, as `-2,half-even,1` or `f0-2,s1-3,more,half-even,whole`."""
    found, zeros = {}, 0
    for word in words.split(","):
        letter, (least, _, most) = word[0], word[1:].partition("-")
        if letter == "f" and least.isdigit():
            zeros = 0 if least == most else 1
            found.update(position=-int(most), minimum_fraction_digits=int(least))
        elif letter == "s" and least.isdigit():
            found.update(minimum_significant_digits=int(least), maximum_significant_digits=int(most))
        elif word in ("more", "less"):
            found["rounding_priority"] = option(RoundingPriority, f"{word}-precision")
        elif word == "whole":
            zeros += 2
        elif word.isalpha() or "half" in word:
            found["rounding"] = option(Rounding, word)
        elif "rounding" not in found:
            found["position"] = int(word)
        elif word != "1":
            found["increment"] = int(word)
    return {**found, "trailing_zeros": TrailingZeros(zeros)}


def category_for(rules, form, number, options):
    """The plural category of a number, or of the range that it is."""
    start, mark, end = number.partition("..")
    if form != "range-plural":
        return rules.select(number, **options)
    if not mark:
        raise Error(7)
    return rules.select_range(start, end, **options)


def text_for(book, fields):
    """The text for the fields of a request by the call of a formatter, or the number that is read. KeyError: none says what is asked."""
    tag, form, grouping, sign, rounding, number = fields
    grouping, sign = option(Grouping, grouping), option(Sign, sign)
    options = {"sign": sign}
    if rounding != "-":
        options.update(rounding_of(rounding))
    if form == "plain":
        return DecimalFormatter(book, tag, grouping=grouping).format(number, **options)
    if form == "read":
        return DecimalFormatter(book, tag, grouping=grouping).read(number)
    if form in ("plural", "ordinal", "range-plural"):
        return category_for(PluralRules(tag, "ordinal" if form == "ordinal" else "cardinal", book=book), form, number, options)
    is_exact, _, width = form.rpartition("-")
    if form in ("scientific", "engineering"):
        shortened = ScientificFormatter(book, tag, notation=form, grouping=grouping)
    else:
        shortened = CompactDecimalFormatter(book, tag, width=option(Width, width), grouping=grouping)
    if is_exact:
        return shortened.format_exact(number, **options)
    return f"{shortened.format(number, **options)}\t{shortened.shown(number, **options)}"


def by_formatter(book, line):
    """What a formatter says to a request, as an answer, or the number that it reads; None where none can."""
    try:
        text = text_for(book, line.split(chr(9)))
        return text if isinstance(text, Decimal) else f"ok\t{text}"
    except legumeyet.Error as error:
        return f"err\t{WORDS[error.number]}"
    except KeyError:
        return None


def is_said(answer, said):
    """Whether a formatter says nothing else than the answer. Of what is read a Decimal keeps neither a plus nor zeros in front."""
    if isinstance(said, Decimal):
        return answer.startswith("ok\t") and Decimal(answer[3:]).as_tuple() == said.as_tuple()
    return said in (None, answer)


def main(path):
    """Answers all lines."""
    with Book.from_file(path) as book:
        for count, line in enumerate(sys.stdin.buffer):
            if count == 5000:
                book.keep()
            line = line.rstrip(b"\n")
            answer, said = book.answer(line), by_formatter(book, line.decode())
            sys.stdout.buffer.write(f"{answer}{'' if is_said(answer, said) else f' but {said}'}\n".encode())


main(*sys.argv[1:])
