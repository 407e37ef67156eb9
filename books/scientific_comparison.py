"""What the comparison of scientific and engineering text with Node has: the lines, and causes why it writes another text than the definition
of scientific_text.py."""
import collections
import random

from comparison import number, say_unknown, text
from look_up import locale_of
from scientific_text import STEPS, answer, scientific_format

FIXED = "0 1 -1 10 999 1000 0.5 -0.00012 0.1 12345 1234567.891 -120000 0.00000000000000000012 9990000000000000000000000".split()
CUT_DIGITS = "digits outside the basic plane: ICU4C cuts those of an exponent of two digits or more"
LAST_OF_BASIC_PLANE = "\uffff"


def scientific_lines(tags, count, seed):
    """The lines that ask for the fixed and for so many seeded numbers under each tag, in both notations."""
    for tag in tags:
        for form in STEPS:
            rng = random.Random(f"{seed} {tag} {form}")
            for it in [*FIXED, *(number(rng) for _ in range(count))]:
                yield f"{tag}\t{form}\tauto\tkeep\t-\t{it}"


def scientific_answers(book, lines):
    """The answers of the definition to these lines."""
    return [answer(book, line) for line in lines]


def cause_of(book, line, there):
    """Why Node writes this text for a line, or None."""
    name, _, system = line.split("\t")[0].partition("-u-nu-")
    found = scientific_format(book, locale_of(name), system)
    exponent = answer(book, line).rpartition("e")[2].lstrip("-")
    is_cut = found is not None and found[0].digits[0] > LAST_OF_BASIC_PLANE and len(exponent) > 1 and "\ufffd" in text(there)[-1]
    return CUT_DIGITS if is_cut else None


def say_forms(found, causes, shown):
    """Prints for each form how many of these lines agree, the causes of the others, and the first whose cause is not known; answers whether
    every cause is known."""
    for form in STEPS:
        its = [it for it in found if it[0].split("\t")[1] == form]
        agree = sum(text(a) == text(b) for _, a, b in its)
        print(f"{form:<11} {len(its):>8} lines, {agree:>8} agree, {100 * agree / len(its):.3f} %")
    for name, count in collections.Counter(it or "not known" for it in causes.values()).most_common():
        print(f"{count:>8} differ: {name}")
    unknown = [it for it in found if it[0] in causes and causes[it[0]] is None]
    say_unknown(unknown, shown)
    return not unknown
