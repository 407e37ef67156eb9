"""What the comparisons of the program with other formatters have in common: the lines, and causes why two answers differ."""
import argparse
import decimal
import os
import random
import subprocess

from cldr import Fault
from look_up import locale_of, truncated

TOP = os.path.dirname(os.path.dirname(os.path.realpath(__file__)))

FORMS = ("plain", "short", "long")
FIXED = "0 1 -1 2 0.5 11 21 100 1000 -1000 1500 9999 10000 999499 999500 1000000 -1000000".split()
CARRY = "a carry to the next magnitude: the pattern of the number's magnitude here, of the shown value's there"
MINUS_ONE = "slot 1 for minus one: taken here, and not there"
NEGATIVE = "a negative form of a compact pattern, which a book can't hold"
HYPHEN = "a hyphen in a compact pattern: itself here, the system's minus sign there"
RULES = "plural rules by parents here, by cutting the tag there"
SHORT_FOR_LONG = "a long pattern that is not there: the short one of its cell here, there only where no cell is there"
TWO_EXPONENTS = "a type with two exponents, which a book can't hold"
# What is no proof that it is the cause, and only likely where nothing else is.
LIKELY = (SHORT_FOR_LONG, TWO_EXPONENTS, RULES)
# Languages whose data has a type with two exponents.
WITH_TWO_EXPONENTS = ("vec",)


def words_of(doc, numbers=60):
    """The reader of the words that the comparisons have in common; so many numbers without --numbers."""
    words = argparse.ArgumentParser(usage=doc.split("usage: ")[1].split("\n")[0])
    words.add_argument("--program", default=os.environ.get("LOCALE_NUMBERS") or f"{TOP}/locale_numbers")
    words.add_argument("--numbers", type=int, default=numbers)
    words.add_argument("--seed", type=int, default=1)
    words.add_argument("--shown", type=int, default=10)
    return words


def locales_of(path):
    """The locales that a file lists."""
    try:
        with open(path, encoding="utf-8") as given:
            tags = given.read().split()
    except (OSError, ValueError) as fault:
        raise Fault(f"{path} can't be read: {fault}") from None
    unread = [tag for tag in tags if locale_of(tag) is None]
    if unread or not tags:
        raise Fault(f"{path}: {unread[0]!r} is no locale" if unread else f"{path} has no locale")
    return tags


def number(rng):
    """A number without a zero that could be left out; one of five is negative, one of six about to carry."""
    size = rng.randint(1, 16)
    digits = rng.choice("123456789") + "".join(rng.choice("0123456789") for _ in range(size - 1))
    if rng.random() < 1 / 6:
        digits = "".join(rng.choice("99999" + it) for it in digits)
    if rng.random() < 0.25:
        digits += "." + "".join(rng.choice("0123456789") for _ in range(rng.randint(0, 3))) + rng.choice("123456789")
    return ("-" if rng.random() < 0.2 else "") + digits


def request_lines(tags, count, seed, compact_grouping="auto"):
    """The lines that ask for the fixed and the seeded numbers under each tag, in each form."""
    for tag in tags:
        for form in FORMS:
            rng = random.Random(f"{seed} {tag} {form}")
            grouping = "auto" if form == "plain" else compact_grouping
            for it in [*FIXED, *(number(rng) for _ in range(count))]:
                yield f"{tag}\t{form}\t{grouping}\tkeep\t-\t{it}"


def locale_and_system(line):
    """The locale and the system, or the empty text, that a line's tag asks for."""
    locale, _, system = line.split("\t")[0].partition("-u-nu-")
    return locale_of(locale), system


def is_accepted(program, path):
    """Faults where the program does not take the book."""
    try:
        done = subprocess.run([program, path], stdin=subprocess.DEVNULL, capture_output=True, encoding="utf-8")
    except OSError as fault:
        raise Fault(f"{program} can't be run: {fault.strerror}") from None
    if done.returncode != 0:
        said = [f"status {done.returncode}", *done.stderr.strip().splitlines()[-1:]]
        raise Fault(f"{path} is not taken by {program}: {', '.join(said)}")


def answers(command, lines):
    """The answers of a program to these lines."""
    if not lines:
        return []
    try:
        done = subprocess.run(command, input="\n".join(lines) + "\n", capture_output=True, encoding="utf-8")
    except OSError as fault:
        raise Fault(f"{command[0]} can't be run: {fault.strerror}") from None
    found = done.stdout.split("\n")[:-1]
    if done.returncode != 0 or len(found) != len(lines):
        said = f"status {done.returncode} after {len(found)} of {len(lines)} lines: {done.stderr.strip()}"
        raise Fault(f"{command[0]} ended with {said}")
    return found


def text(answer):
    """The answer without the value shown."""
    return answer.split("\t")[:2]


def shown_value(answer):
    """The value that a compact answer shows."""
    significand, _, exponent = answer.split("\t")[2].partition("c")
    return decimal.Decimal(significand).scaleb(int(exponent or 0))


def carries(line, answer):
    """Whether the value shown has more digits than the number."""
    if not answer.startswith("ok\t") or line.split("\t")[1] == "plain":
        return False
    shown = shown_value(answer)
    return shown != 0 and shown.adjusted() > decimal.Decimal(line.split("\t")[5]).adjusted()


def has_rules_by_parents(book, locale):
    """Whether the plural rules of a locale are others than those of the tag that is left when it is cut."""
    cut = truncated(locale)
    other = book.find("plural rules", book.chain(cut), "") if cut else None
    return other is not None and other != book.find("plural rules", book.chain(locale), "")


def with_field(line, place, value):
    """The line with another field."""
    fields = line.split("\t")
    fields[place] = value
    return "\t".join(fields)


def with_number(line, text):
    """The line with another number."""
    return with_field(line, 5, text)


def in_plain(line):
    """The line that asks for the plain text of the line's number without its fraction."""
    number = decimal.Decimal(line.split("\t")[5]).quantize(decimal.Decimal(1), decimal.ROUND_HALF_EVEN)
    return with_field(with_number(line, str(number)), 1, "plain")


def short_for_long(program, peer, lines):
    """Those of these lines that have a long pattern here in the place of a short one, or none there at all."""
    long = [it for it in lines if it[0].split("\t")[1] == "long"]
    short_here = answers(program, [with_field(line, 1, "short") for line, _, _ in long])
    plain_there = answers(peer, [in_plain(line) for line, _, _ in long])
    triples = zip(long, short_here, plain_there)
    return {line for (line, a, b), short, plain in triples if text(a) == text(short) or text(b) == text(plain)}


def causes_of(book, program, peer, lines):
    """The name of the cause for which each of these lines is answered otherwise, or None."""
    signed = [it for it in lines if it[0].split("\t")[5].startswith("-")]
    carried = [it for it in lines if carries(*it[:2])]
    # Asked for the value shown here, the peer has to give the text that it gave for the number.
    again = answers(peer, [with_number(line, f"{shown_value(a):f}") for line, a, _ in carried])
    same_there = {line for (line, _, b), it in zip(carried, again) if text(b) == text(it)}
    # Asked for the number without its sign, both have to agree.
    unsigned = [with_number(line, line.split("\t")[5].lstrip("-")) for line, _, _ in signed]
    pairs = zip(signed, answers(program, unsigned), answers(peer, unsigned))
    same_unsigned = {line for (line, _, _), a, b in pairs if text(a) == text(b)}
    as_short = short_for_long(program, peer, lines)
    for line, a, b in lines:
        form = line.split("\t")[1]
        locale, system = locale_and_system(line)
        symbols = book.find("symbols", book.chain(locale), system)
        sign = symbols[1] if symbols else ""
        if line in same_there:
            yield CARRY
        elif form == "plain":
            yield None
        elif line in same_unsigned:
            yield MINUS_ONE if a.split("\t")[-1].partition("c")[0] == "-1" else NEGATIVE
        elif sign and text(a)[-1].replace(sign, "-") == text(b)[-1].replace(sign, "-"):
            yield HYPHEN
        elif line in as_short:
            yield SHORT_FOR_LONG
        elif locale.language in WITH_TWO_EXPONENTS:
            yield TWO_EXPONENTS
        elif has_rules_by_parents(book, locale):
            yield RULES
        else:
            yield None


def say_lines(found):
    """Prints for each form how many of these lines agree."""
    for form in FORMS:
        of_form = [it for it in found if it[0].split("\t")[1] == form]
        agree = sum(text(a) == text(b) for _, a, b in of_form)
        print(f"{form:<6} {len(of_form):>8} lines, {100 * agree / len(of_form):.3f} % agree")


def say_unknown(unknown, shown):
    """Prints the first of the lines whose cause is not known."""
    for line, a, b in unknown[:shown]:
        print(f"line {line!r}\n  here  {text(a)[-1]!r}\n  there {text(b)[-1]!r}")
