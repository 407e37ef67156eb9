"""Seeded lines, which each language has to answer as the program does."""
import random
import sys
from decimal import Decimal

from testing import TOP, run

COUNT = 10_000
WORLD = TOP / "books/world.json"
WORLD_COUNT = 2_000
WORLD_TAGS = """af ar ar-EG bn-u-nu-latn bg ca cs-CZ da de de-AT de-CH el en en-IN es es-MX fa fi fr fr-CH gu he hi hi-u-nu-deva hu hy it ja ko
mr my-MM ne nl pl ps pt-PT ru sv-SE ur-IN zh-Hant-TW""".split()
# Tags whose digits are not those of ASCII, forms of units, and what people type of them.
NATIVE_TAGS = "ar-EG fa km-u-nu-khmr mr my ne oc-ES-u-nu-fullwide th-u-nu-thai ur-u-nu-arabext".split()
UNIT_FORMS = "percent currency-EUR currency-JPY accounting-USD code-CHF".split()
PLURAL_FORMS = "plural plural ordinal range-plural".split()
TYPED = ["1,234.5", "1.234,5", "1234.5", "1,234", "1.234", "12,5", "1 234,5", "١٬٢٣٤٫٥", "१,२३४.५", "१२३", "$1,234.5", "5 USD", "5%", "-5", "1,23"]

TAGS = "qaa qaa-001 qaa-Cyrl qaa-QM qaa-QN qaa-QP qaa-QT qaa-u-nu-ring QAB qab-latn qab-QU qad und und-u-nu-lett qax qay".split()
GROUPINGS = "auto never always min2 on-aligned".split()
SIGNS = "keep keep keep auto never always except-zero negative".split()
POSITIONS = (-3, -2, -1, -1, 0, 0, 0, 1, 1, 6)
INCREMENTS = (1, 1, 1, 2, 5, 25)
MODES = "expand trunc ceil floor half-expand half-trunc half-ceil half-floor half-even".split()
# A line of each word of refusal.
REFUSED = [
    "q\tplain\tauto\tkeep\t-\t1", "zz\tplain\tauto\tkeep\t-\t1", "qaa\tplain\tauto\tkeep\t-\t1x", "qaa\tplain\tauto\tkeep\t-\t1e40000",
    "qaa\tplain\tauto\tkeep\t-\t", "q\tshort\tauto\tkeep\t-\t1", "zz\tlong\tauto\tkeep\t-\t1", "qaa\tlong\tauto\tkeep\t-\t1x",
    "qaa\tshort\tauto\tkeep\t-\t1e40000", f"qaa\tshort\tauto\tkeep\t-\t{'9' * 32768}", f"qaa\texact-short\tauto\tkeep\t-\t1{'0' * 32767}c6",
    "qaa\texact-long\tauto\tkeep\t-\t1.2c5", "qaa\texact-short\tauto\tkeep\t-\t1e3", "qaa\texact-short\tauto\tkeep\t-\t1c256",
]


def number(rng):
    """A number as a line gives it."""
    digits = "".join(rng.choice("0123456789") for _ in range(rng.choice((1, 3, 4, 5, 7, 9, 12, 18, 40))))
    fraction = "".join(rng.choice("0123456789") for _ in range(rng.randint(1, 4)))
    end = rng.choice(("", "5", ".5", ".25", f".{fraction}", f"e{rng.randint(-30, 30)}"))
    return f"{rng.choice(('', '', '-', '+'))}{digits}{end}"


def counts(rng, least):
    """A least count of digits and a greatest, as a choice has them."""
    return f"{least}-{least + rng.choice((0, 1, 2, 2, 15))}"


def digits(rng):
    """A rounding that says digits: of the fraction, significant ones, or both with what chooses between them."""
    fraction, significant = f"f{counts(rng, rng.randint(0, 2))}", f"s{counts(rng, rng.choice((1, 1, 2, 3, 6)))}"
    may_be_whole, mode = rng.choice(("", "", ",whole")), rng.choice(MODES)
    if rng.random() < 0.3:
        low, high = fraction[1:].split("-")
        return f"{fraction},{mode},1{may_be_whole if low == high else ''}"
    return f"{rng.choice((significant, f'{fraction},{significant},more', f'{fraction},{significant},less'))},{mode}{may_be_whole}"


def written(rng, form, tags):
    """A line that asks for a number in a form. No rounding above the ones leaves zero, of which a formatter shows one digit and a line all."""
    sign, rounding, given = rng.choice(SIGNS), "-", number(rng)
    if rng.random() < 0.25:
        rounding = digits(rng)
    elif rng.random() < 0.5:
        position, increment = rng.choice(POSITIONS), rng.choice(INCREMENTS)
        if position > 0 and abs(Decimal(given)) <= increment * 10**position:
            position = 0
        rounding = f"{position},{rng.choice(MODES)},{increment}"
    return "\t".join((rng.choice(tags), form, rng.choice(GROUPINGS), sign, rounding, given))


def read_back(rng, line, answer):
    """A line that reads the text of a line's answer back, with a character changed in some."""
    tag, _, grouping = line.split("\t")[:3]
    text = answer.partition("\t")[2]
    if rng.random() < 0.3:
        at = rng.randrange(len(text))
        text = text[:at] + rng.choice(("", "x", "1", ",", 2 * text[at])) + text[at + 1 :]
    return "\t".join((tag, "read", grouping, "keep", "-", text))


def sent_back(rng, line, answer):
    """A line that asks for the exact form of the value that a line's answer shows, with more digits or another exponent in some."""
    tag, form, grouping = line.split("\t")[:3]
    significand, _, exponent = answer.rpartition("\t")[2].partition("c")
    if rng.random() < 0.3:
        significand += f"{'' if '.' in significand else '.'}{rng.choice('0123456789')}"
    if rng.random() < 0.2:
        exponent = rng.choice(("", "2", "3", "5", "6", "12", "300"))
    number = f"{significand}c{exponent}" if exponent else significand
    return "\t".join((tag, f"exact-{form}", grouping, rng.choice(SIGNS), "-", number))


def all_lines(program, book, tags, count, more):
    """The seeded lines: numbers in forms, texts and values that the program answers with, and some more."""
    rng = random.Random(1)
    forms = ("plain", "plain", "plain", "short", "short", "long")
    found = [written(rng, rng.choice(forms), tags) for _ in range(count * 6 // 10)]
    said = answers(program, book, found).decode().split("\n")
    pairs = [it for it in zip(found, said) if it[1].startswith("ok\t")]
    plain, shown = ([it for it in pairs if ("\tplain\t" in it[0]) is is_plain] for is_plain in (True, False))
    found += [sent_back(rng, *rng.choice(shown)) for _ in range(count // 5)]
    found += [read_back(rng, *rng.choice(plain)) for _ in range(count - len(found) - len(more))]
    found += more
    rng.shuffle(found)
    return found


def unit_lines(program):
    """Seeded lines of percents and amounts by the world's book, and of texts that people type, which a formatter may read by second tables."""
    rng = random.Random(2)
    found = [written(rng, rng.choice(UNIT_FORMS), WORLD_TAGS + NATIVE_TAGS) for _ in range(WORLD_COUNT // 4)]
    said = answers(program, WORLD, found).decode().split("\n")
    for line, answer in zip(list(found), said):
        if answer.startswith("ok\t"):
            tag, form, grouping = line.split("\t")[:3]
            text = read_back(rng, line, answer).split("\t")[5]
            found += ["\t".join((tag, f"{task}-{form}", grouping, "keep", "-", text)) for task in ("read", "read-lenient")]
    for tag in NATIVE_TAGS:
        for form in ("read-lenient", "read-lenient-percent", "read-lenient-currency-USD"):
            found += ["\t".join((tag, form, "auto", "keep", "-", text)) for text in TYPED]
    return found


def plural_lines():
    """Seeded lines of plural categories by the world's book, of numbers and of ranges, mostly of few digits; some are none."""
    rng = random.Random(3)

    def few():
        digits = (str(rng.randint(0, 120)), f"{rng.randint(0, 5)}.{rng.choice(('0', '00', '5', '01'))}", "1000000", "-1", number(rng))
        return rng.choice(digits) if rng.random() < 0.98 else rng.choice(("", "x", "1e40000"))

    found = []
    for _ in range(WORLD_COUNT // 2):
        *fields, _given = written(rng, rng.choice(PLURAL_FORMS), WORLD_TAGS + NATIVE_TAGS).split("\t")
        ends = f"{few()}{rng.choice(('..', '..', '..', '...', '.'))}{few()}"
        found.append("\t".join((*fields, ends if fields[1] == "range-plural" else few())))
    return found


def answers(program, book, lines):
    """What the program answers to lines."""
    return run(program, book, stdin=encoded(lines))


def encoded(lines):
    """The bytes of lines."""
    return "".join(f"{line}\n" for line in lines).encode(errors="surrogateescape")


def asked(program, book, lines):
    """A book, the bytes of lines, and the program's answers."""
    return book, encoded(lines), answers(program, book, lines)


def usual(program, folder):
    """What is asked by the sample book, which is made in a folder, and by the world's."""
    sample = folder / "book.json"
    run(sys.executable, TOP / "books/make-cldr", "--from", TOP / "books/sample-cldr", sample)
    books = (sample, TAGS, COUNT, REFUSED), (WORLD, WORLD_TAGS, WORLD_COUNT, [])
    return [asked(program, book, all_lines(program, book, *more)) for book, *more in books]


def of_units(program):
    """Percents and amounts that are asked by the world's book."""
    return [asked(program, WORLD, unit_lines(program))]


def of_plurals(program):
    """Plural categories that are asked by the world's book."""
    return [asked(program, WORLD, plural_lines())]
