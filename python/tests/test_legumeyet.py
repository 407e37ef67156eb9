"""Each call well and badly, and the examples of the docs.

usage: python3 -m unittest discover -s python/tests
"""
import array
import concurrent.futures
import contextlib
import copy
import ctypes
import decimal
import doctest
import functools
import gc
import io
import itertools
import multiprocessing
import os
import pathlib
import pickle
import signal
import subprocess
import sys
import tempfile
import threading
import time
import unittest
import weakref
from decimal import Decimal
from fractions import Fraction

import legumeyet
from legumeyet import (
    Answers, Book, ClosedError, CompactDecimalFormatter, CurrencyFormatter, DecimalFormatter, Error, Grouping, InputError, Kind,
    OutOfMemoryError, PercentFormatter, Rounding, RoundingPriority, ScientificFormatter, Sign, TrailingZeros, Width, _core, _errors, _formatters, _locales,
    _options, _plurals, messages,
)
from legumeyet.__main__ import main

JSON = """[[["en","","latn","-","","+","",".",",",3,3,1],["ar","","arab","-","","+","","٫","٬",3,3,1],
["bad","","latn","","","+","",".",",",3,3,1]],[["latn","0123456789"],["arab","٠١٢٣٤٥٦٧٨٩"]],
[["en",[]]],[["en","",[[3,3,[["other",["","K"]]]],[6,6,[["other",["","M"]]]]],null]],
[["en","",[[3,3,[["other",[""," thousand"]]]]],null]]]"""
FORKS_BESIDE_THREADS = unittest.skipIf(
    "libasan" in os.environ.get("LD_PRELOAD", ""), "the memory of the sanitizer is not for a child of a fork with threads"
)


def load_tests(_loader, tests, _pattern):
    """The tests of this file, and the examples."""
    for module in (legumeyet, _core, _errors, _formatters, _locales, _options, _plurals, messages):
        tests.addTests(doctest.DocTestSuite(module, extraglobs={**vars(legumeyet), "Decimal": Decimal}))
    return tests


def written_in_german(number):
    """What a worker of a pool does."""
    return DecimalFormatter("de").format(number)


class Calls(unittest.TestCase):
    def setUp(self):
        self.book = Book(JSON)
        self.english = DecimalFormatter(self.book, "en")
        self.short = CompactDecimalFormatter(self.book, "en")

    def refused(self, number, call, *words):
        """The call raises the error of this number."""
        kind = {1: OutOfMemoryError, 2: ClosedError}.get(number, InputError)
        with self.assertRaises(kind) as caught:
            call(*words)
        self.assertEqual(caught.exception.number, number)
        self.assertTrue(caught.exception.word)

    def test_numbers(self):
        for number, text in [
            (Decimal("-987654.321"), "-987,654.321"), (-1234, "-1,234"), (-(2**63), "-9,223,372,036,854,775,808"),
            (10**20, "100,000,000,000,000,000,000"), (Decimal("0E-2"), "0.00"), (Decimal("2E+3"), "2,000"), (Decimal("-0"), "-0"),
            ("+5.0", "+5.0"), (Decimal("1.50"), "1.50"), (Decimal("0E+5"), "0"), (Decimal("0E+40000"), "0"), (0, "0"),
        ]:
            self.assertEqual(self.english.format(number), text)
        self.assertEqual(len(self.english.format(10**30000)), 40001)

    def test_bad_numbers(self):
        for number in ("5.", "", "\0", "1\udcff", "١", Decimal("NaN"), Decimal("Infinity")):
            self.refused(7, self.english.format, number)
        for number in (10**32768, Decimal("1E+999999"), Decimal("1E-99999"), "1e40000", Decimal("0." + "1" * 40000), Decimal("0E-40000")):
            self.refused(8, self.english.format, number)
        for number in (float("nan"), float("inf"), -float("inf")):
            self.refused(7, self.english.format, number)
        for number in (None, b"1", [1], 1j, self.english, True, False):
            self.assertRaises(TypeError, self.english.format, number)
        for number in (None, type("NAType", (), {})(), type("MaskedConstant", (), {"__index__": lambda _: None})()):
            self.assertRaisesRegex(TypeError, "^a number is missing: ", self.english.format, number)
        for call, given, said in [
            (self.english.format, "1,5", "7: no decimal number: '1,5'"), (self.english.format_parts, "x" * 50, f"7: no decimal number: '{'x' * 40}'.."),
            (self.english.format, float("nan"), "7: no decimal number: nan"),
            (self.english.read, "1234,5", "12: no number is written so: '1234,5'; with lenient=True what people type is read"),
            (lambda text: self.english.read(text, lenient=True), b"1,23", "12: no number is written so: b'1,23'"),
            (lambda tag: DecimalFormatter(self.book, tag), "xx", "6: the book lacks a table for the tag: 'xx'"),
        ]:
            with self.assertRaises(InputError) as caught:
                call(given)
            self.assertEqual(str(caught.exception), said)
        with self.assertRaisesRegex(TypeError, r"give Decimal\(it.numerator\) / it.denominator"):
            self.english.format(Fraction(1, 3))
        with decimal.localcontext() as context:
            context.capitals = 0
            self.refused(8, self.english.format, Decimal("1E+40000"))
            self.refused(8, self.english.format, Decimal("-12E-40000"))
            self.assertEqual(self.english.format(Decimal("1.5E+3")), "1,500")

    def test_huge_integers(self):
        """An int of more digits than the library takes is refused before its digits are made, which takes time that grows as their square."""
        huge = 1 << 3_000_000
        began = time.monotonic()
        for number in (huge, -huge, 10**100_000):
            for call in (self.english.format, self.english.format_parts, self.short.shown, self.short.format):
                self.refused(8, call, number)
            with self.assertRaisesRegex(InputError, "^8: .*: the number at 1$"):
                self.english.format_all([1, number])
        self.assertLess(time.monotonic() - began, 1)
        self.assertEqual(len(self.english.format(10**32767)), 43690)
        self.assertEqual(self.english.format(10**32768 - 1)[:3], "99,")
        self.refused(8, self.english.format, 10**32768)

    def test_exponents(self):
        for number, exponent, text in [(-12345, -2, "-123.45"), (5, 3, "5,000"), (0, -2, "0.00"), (2**70, -2, "11,805,916,207,174,113,034.24"), (7, 0, "7")]:
            self.assertEqual(self.english.format(number, exponent=exponent), text)
            self.assertEqual(self.english.format_all([number, number], exponent=exponent), [text, text])
        self.assertEqual(self.english.format(12345, exponent=-3, position=-1), "12.3")
        self.assertEqual(self.english.format_all(array.array("h", [1, -250]), exponent=-2), ["0.01", "-2.50"])
        self.assertEqual(self.english.format_all(array.array("Q", [2**64 - 1]), exponent=-2), ["184,467,440,737,095,516.15"])
        self.assertEqual(CurrencyFormatter("en", "USD").format_all([123456, -5], exponent=-2), ["$1,234.56", "-$0.05"])
        for number in (1.5, "5", Decimal(5), None, True):
            self.assertRaises(TypeError, self.english.format, number, exponent=-2)
            self.assertRaisesRegex(TypeError, ": the number at 1$", self.english.format_all, [1, number], exponent=-2)
        self.assertRaises(TypeError, self.english.format_all, array.array("d", [1]), exponent=-2)
        for exponent, error in ((32768, ValueError), (-32769, ValueError), ("1", TypeError), (True, TypeError)):
            self.assertRaises(error, self.english.format, 1, exponent=exponent)
        for call in (self.english.format_parts, self.short.shown):
            self.assertRaises(TypeError, call, 1, exponent=-2)
        self.assertRaises(TypeError, DecimalFormatter, self.book, "en", exponent=-2)
        self.refused(8, lambda: self.english.format(10, exponent=32767))

    def test_zeros(self):
        """A zero that a rounding above the ones leaves is one digit, and zeros may be trimmed of only whole numbers."""
        dollars, whole = CurrencyFormatter("en", "USD"), TrailingZeros.TRIM_WHOLE
        for formatter, number, options, text in [
            (self.english, 400, {"position": 3}, "0"), (self.english, 600, {"position": 3}, "1,000"), (self.english, -400, {"position": 3}, "-0"),
            (self.english, 5, {"position": 3, "rounding": Rounding.TRUNC, "minimum_integer_digits": 3}, "000"), (self.short, 400, {"position": 3}, "0"),
            (self.english, "000", {}, "000"), (self.english, "000", {"position": 0}, "000"), (dollars, 400, {"position": 3}, "$0"),
            (dollars, 5, {"trailing_zeros": whole}, "$5"), (dollars, 5.5, {"trailing_zeros": whole}, "$5.50"),
            (dollars, 0.001, {"trailing_zeros": whole}, "$0"), (self.english, "1.50", {"trailing_zeros": whole}, "1.50"),
            (self.english, "2.00", {"trailing_zeros": whole, "minimum_fraction_digits": 1}, "2"),
        ]:
            self.assertEqual(formatter.format(number, **options), text)
            self.assertEqual(formatter.format_all([number] * 2, **options), [text] * 2)

    def test_significant_digits(self):
        """Significant digits, alone and beside a position, and what does not go together."""
        dollars, cash, whole = CurrencyFormatter("en", "USD"), CurrencyFormatter("en", "CHF", cash=True), TrailingZeros.TRIM_WHOLE
        tenths, twentieths = DecimalFormatter("en", position=-1), DecimalFormatter("en", position=-2, increment=5)
        three = DecimalFormatter("en", maximum_significant_digits=3)
        least, none, most, two = ({f"{it}imum_significant_digits": count} for it, count in (("min", 3), ("min", 0), ("max", 3), ("max", 2)))
        more, less = ({**two, "position": -1, "rounding_priority": it} for it in list(RoundingPriority)[1:])
        for formatter, number, options, text in [
            (self.english, 12345, most, "12,300"), (self.english, -0.012345, most, "-0.0123"), (self.english, 5, least, "5.00"), (self.english, 0, least, "0.00"),
            (self.english, 12345.678, least, "12,345.678"), (self.english, "1.999", {**two, **least, **most}, "2.00"), (self.english, "1.5000", most, "1.5"),
            (self.english, "999.5", most, "1,000"), (self.english, "2.15", {**two, "rounding": Rounding.CEIL}, "2.2"), (self.english, 5, {**least, "trailing_zeros": whole}, "5"),
            (self.english, 5.1, {**least, "trailing_zeros": whole}, "5.10"), (dollars, 1234.5, most, "$1,230"), (dollars, 5, most, "$5"), (cash, "2.345", most, "CHF\xa02.34"),
            (PercentFormatter("en"), "12.345", two, "12%"), (self.english, 1234.56, more, "1,234.6"), (self.english, 1234.56, less, "1,200"), (self.english, 1.04, more, "1"),
            (self.english, 1.04, less, "1.0"), (tenths, 12345, most, "12,300"), (twentieths, 123.456, most, "123"), (three, 1234.56, {"position": -1}, "1,234.6"),
            (three, 1234.56, {"sign": Sign.ALWAYS}, "+1,230"), (three, 1234.56, {**most, **none, "rounding": Rounding.CEIL}, "1,240"),
            (three, 1234.56, {"maximum_significant_digits": 0}, "1,234.56"), (three, 1234.56, less, "1,200"),
            (self.english, "1.9996", {"position": -3, "trailing_zeros": TrailingZeros.TRIM_ALL, "minimum_fraction_digits": 2}, "2"),
            (self.english, "1.5", {"position": -3, "trailing_zeros": TrailingZeros.TRIM_ALL, "minimum_fraction_digits": 2}, "1.50"),
        ]:
            self.assertEqual(formatter.format(number, **options), text)
            self.assertEqual(formatter.format_all([number] * 2, **options), [text] * 2)
        for options, said in [
            ({**most, "minimum_significant_digits": 4}, "is above"), ({**most, "position": -1}, "give rounding_priority too"), ({"maximum_significant_digits": 65536}, "from 0 to 65535"),
            ({"minimum_significant_digits": -1}, "from 0 to 65535"), ({**most, "rounding": Rounding.CASH}, "of no significant"), ({**most, "rounding": Rounding.NONE}, "of no significant"),
            ({**most, "rounding": Rounding.CEIL, "increment": 5}, "of no significant"), ({**more, "increment": 2}, "of no significant"),
            ({**most, "rounding_priority": RoundingPriority.MORE_PRECISION}, "give position too"), ({"rounding_priority": RoundingPriority.LESS_PRECISION}, "too"),
        ]:
            self.assertRaisesRegex(ValueError, said, self.english.format, 1, **options)
            self.assertRaisesRegex(ValueError, said, DecimalFormatter, self.book, "en", **options)
        for options in ({**more, "rounding_priority": 1}, {"maximum_significant_digits": 3.0}, {"minimum_significant_digits": None}, {"rounding_priority": Sign.AUTO}):
            self.assertRaises(TypeError, self.english.format, 1, **options)
        self.assertEqual(DecimalFormatter("es", grouping=Grouping.ON_ALIGNED).format(1234.5), "1.234,5")

    def test_compact(self):
        for number, text in [
            (-1172700, "-1.2M"), (Decimal("999500"), "1M"), (Decimal("1.65E+3"), "1.6K"), ("950", "950"), (10**10, "10,000M"),
            (-(2**63), "-9,223,372,036,855M"), (2**64, "18,446,744,073,710M"),
        ]:
            self.assertEqual(self.short.format(number), text)
        self.assertEqual(self.short.format("-1250000", sign=Sign.ALWAYS, rounding=Rounding.TRUNC, position=6), "-1M")
        self.assertEqual(CompactDecimalFormatter(self.book, "en", width=Width.LONG).format(1650), "1.6 thousand")
        self.assertEqual(CompactDecimalFormatter(self.book, "en", grouping=Grouping.NEVER).format(10**10), "10000M")
        self.assertEqual(self.short.format_parts(1650), ("1.6K", []))
        self.assertEqual(self.short.format_parts("+1650"), ("+1.6K", [(2, 0, 1)]))
        for number, value in [(-1172700, "-1.2c6"), (Decimal("950"), "950"), ("0.2222", "0.22"), (10**20, "100000000000000c6")]:
            self.assertEqual(self.short.shown(number), value)
            self.assertEqual(self.short.format_exact(value), self.short.format(number))
        self.assertEqual(self.short.format_exact("-1.20c6", sign=Sign.NEVER, rounding=Rounding.HALF_EVEN, position=-1), "1.2M")
        nines = "9" * 32768
        for number, call, words in [
            (7, self.short.format, ("5.",)), (7, self.short.shown, (Decimal("NaN"),)), (8, self.short.format, ("1e40000",)),
            (9, self.short.format, (nines,)), (9, self.short.shown, (nines,)), (9, self.short.format_parts, (nines,)),
            (7, self.short.format_exact, ("1.2e6",)), (7, self.short.format_exact, ("\udcff",)), (8, self.short.format_exact, ("1c256",)),
            (9, self.short.format_exact, (f"1{'0' * 32767}c6",)), (13, self.short.format_exact, ("1.2c5",)),
        ]:
            self.refused(number, call, *words)
        self.assertRaises(TypeError, self.short.format_exact, 1)
        self.assertRaises(TypeError, self.short.format_exact, 1.5)
        self.assertEqual((self.short.shown(1250.5), self.short.format(-1172700.0)), ("1.3c3", "-1.2M"))
        for number, tag in ((5, "e"), (5, "\udcff"), (6, "xx"), (6, "ar")):
            self.refused(number, CompactDecimalFormatter, self.book, tag)

    def test_scientific(self):
        powers, engineering = ScientificFormatter("en"), ScientificFormatter("en", notation="engineering")
        for number, text, multiple in [
            (1234567.891, "1.234567891E6", "1.234567891E6"), ("-0.00012", "-1.2E-4", "-120E-6"), (Decimal("1.20E+5"), "1.2E5", "120E3"), (0, "0E0", "0E0"),
            (2**70, "1.180591620717411303424E21", "1.180591620717411303424E21"), (Decimal("0.00"), "0E0", "0E0"), (-5.0, "-5E0", "-5E0"),
            ("1e-400", "1E-400", "100E-402"), ("999999", "9.99999E5", "999.999E3"),
        ]:
            self.assertEqual((powers.format(number), engineering.format(number)), (text, multiple))
            self.assertEqual(powers.format_all([number] * 2), [text] * 2)
            self.assertEqual(Decimal(powers.shown(number)), Decimal(str(number)))
            self.assertEqual(powers.shown(number), text.lower())
            self.assertEqual((powers.read(text), engineering.read(multiple)), (Decimal(str(number)),) * 2)
        self.assertEqual((powers.format(12345, exponent=-2), powers.format_all([5, -250], exponent=3)), ("1.2345E2", ["5E3", "-2.5E5"]))
        for options, text in [
            ({"position": -2}, "1.00E1"), ({"maximum_significant_digits": 2}, "1E1"), ({"minimum_significant_digits": 6}, "9.99500E0"),
            ({"minimum_integer_digits": 3}, "009.995E0"), ({"sign": Sign.ALWAYS}, "+9.995E0"), ({"position": -2, "rounding": Rounding.TRUNC}, "9.99E0"),
            ({"position": -1, "increment": 5, "rounding": Rounding.FLOOR}, "9.5E0"),
        ]:
            self.assertEqual((powers.format(9.995, **options), ScientificFormatter("en", **options).format(9.995)), (text, text))
        text, parts = ScientificFormatter("ar-EG").format_parts("-0.00012")
        self.assertEqual(text, "\u061c-١٫٢أس\u061c-٤")
        self.assertEqual([(it.kind, text[it.start : it.end]) for it in parts][-3:], [(9, "أس"), (10, "\u061c-"), (12, "٤")])
        for number, call, words in [
            (7, powers.format, ("5.",)), (9, powers.format, (f"1{'0' * 300}.{'0' * 32767}1",)), (7, powers.format_exact, ("1.2e6",)),
            (13, powers.format_exact, ("1.2",)), (13, powers.format_exact, ("1.2c6",)), (12, powers.read, ("12E5",)), (12, powers.read, ("1E99999",)),
            (11, functools.partial(powers.read, lenient=True), ("1.2E6",)), (6, ScientificFormatter, (self.book, "en")), (5, ScientificFormatter, ("de_DE",)),
        ]:
            self.refused(number, call, *words)
        for wrong in ("compact", "standard", "", 2, None):
            self.assertRaises(ValueError, ScientificFormatter, "en", notation=wrong)
        self.assertRaises(TypeError, ScientificFormatter, "en", width=Width.SHORT)
        with self.assertRaisesRegex(ValueError, "^notation is 'scientific' or 'engineering', and not 'x'$"):
            ScientificFormatter("en", notation="x")
        powers.share()
        self.assertEqual(powers.format(1200), "1.2E3")

    def test_reads(self):
        for text, number in [("-987,654.321", "-987654.321"), ("1.50", "1.50"), ("-0", "-0"), ("0.00", "0.00"), (b"1,234", "1234")]:
            self.assertEqual(str(self.english.read(text)), number)
        long = 10**1000 + 7
        self.assertEqual(self.english.read(f"{long:,}"), long)
        arabic = DecimalFormatter(self.book, "ar")
        self.assertEqual(arabic.read("-١٬٢٣٤٫٥"), Decimal("-1234.5"))
        for text in ("98,7654", "1234", "", "x", "1,234 ", "٣"):
            self.refused(12, self.english.read, text)
        for text in (b"\xff", "\udcff"):
            self.refused(10, self.english.read, text)
        for text, lenient in itertools.product(("1.6K", "1650", "", "x"), (False, True)):
            self.refused(11, functools.partial(self.short.read, lenient=lenient), text)
        self.refused(11, DecimalFormatter(self.book, "bad").read, "1")
        self.assertRaises(TypeError, self.english.read, 1)

    def test_parts(self):
        arabic = DecimalFormatter(self.book, "ar")
        text, parts = arabic.format_parts(Decimal("-1234567.5"))
        texts = [(it.kind, text[it.start : it.end]) for it in parts]
        self.assertEqual(texts, [(1, "-"), (3, "١٬٢٣٤٬٥٦٧"), (4, "٬"), (4, "٬"), (5, "٫"), (6, "٥")])
        self.assertEqual([it.start for it in parts], [0, 1, 2, 6, 10, 11])
        self.assertEqual(self.english.format_parts("+5"), ("+5", [(2, 0, 1), (3, 1, 2)]))
        text, parts = self.english.format_parts(10**1000)
        self.assertEqual((len(text), len(parts)), (1334, 334))
        self.refused(7, self.english.format_parts, "5.")
        self.refused(8, self.english.format_parts, "1e40000")

    def test_answers(self):
        line = "en\tplain\tauto\tkeep\t-\t"
        self.assertEqual(self.book.answer(f"{line}-987654.321"), "ok\t-987,654.321")
        self.assertEqual(self.book.answer(f"{line}-987654.321".encode()), "ok\t-987,654.321")
        self.assertEqual(len(self.book.answer(f"{line}{10**1000}")), 1337)
        for asked, word in (("", "shape"), (b"\xff", "shape"), ("\udcff", "shape"), (f"{line}5.", "number")):
            self.assertEqual(self.book.answer(asked), f"err\t{word}")
        self.assertRaises(TypeError, self.book.answer, 1)

    def test_options(self):
        self.assertEqual(self.english.format("9.65", sign=Sign.ALWAYS, rounding=Rounding.HALF_EVEN, position=-1), "+9.6")
        self.assertEqual(self.english.format("9.65", rounding=Rounding.CEIL), "10")
        self.assertEqual(self.english.format("1.555", position=-2), "1.56")
        self.assertEqual(self.english.format("2.5", position=0), "2")
        self.assertEqual(self.english.format_parts("2.5", position=0)[0], "2")
        self.assertEqual(self.short.shown("1250000", position=6), "1c6")
        self.assertEqual(DecimalFormatter(self.book, "en", grouping=Grouping.NEVER).format(12345), "12345")
        for options in ({"position": 32768}, {"position": -40000}, {"rounding": Rounding.KEEP, "position": -2}):
            self.assertRaises(ValueError, self.english.format, 1, **options)
        for options in (
            {"sign": 1}, {"sign": Rounding.TRUNC}, {"sign": None}, {"rounding": Sign.AUTO}, {"rounding": 9}, {"position": "1"}, {"grouping": 1},
            {"position": True}, {"minimum_integer_digits": False}, {"position": 1.0},
        ):
            self.assertRaises(TypeError, self.english.format, 1, **options)
            self.assertRaises(TypeError, self.short.shown, 1, **options)
        for options in ({"increment": 5}, {"increment": 5, "rounding": Rounding.KEEP}):
            self.assertRaisesRegex(ValueError, "give position too", self.english.format, 1, **options)
            self.assertRaisesRegex(ValueError, "give position too", DecimalFormatter, self.book, "en", **options)
        self.assertEqual(self.english.format("1.23", increment=5, position=-2), "1.25")
        self.assertEqual(self.english.format("1.23", increment=1), "1.23")
        self.assertEqual(DecimalFormatter(self.book, "en", position=-2).format("1.23", increment=5), "1.25")

        class Index:
            def __index__(self):
                options.clear()
                return -1

        options = {"position": Index(), "sign": Sign.ALWAYS, "minimum_fraction_digits": 2}
        self.assertEqual(self.english.format("1.25", **options), "+1.20")
        self.assertRaises(TypeError, self.english.format, 1, Sign.ALWAYS)
        for name in (b"sign", 1, None, ("sign",)):
            for call in (self.english.format, self.english.format_all, self.english.format_parts, self.short.shown):
                with self.assertRaises(TypeError):
                    call([1], **{name: Sign.ALWAYS})
        for options in ({"grouping": 4}, {"grouping": Width.LONG}, {"width": Width.LONG}):
            self.assertRaises(TypeError, DecimalFormatter, self.book, "en", **options)
        for options in ({"width": Grouping.NEVER}, {"width": 1}, {"grouping": Width.LONG}):
            self.assertRaises(TypeError, CompactDecimalFormatter, self.book, "en", **options)
        self.assertRaises(TypeError, CompactDecimalFormatter, self.book, "en", Width.LONG)

    def test_kind_of_a_later_library(self):
        self.assertEqual([_options.kind_of(it) for it in (6, 12, 13)], [Kind.FRACTION, Kind.EXPONENT_INTEGER, 13])

    def test_what_is_no_book(self):
        for words in ((self.english, "en"), (None, "en"), ("de", "en"), (self.book,), (self.book, None), (None,), (1,), (self.book, 1)):
            for kind in (DecimalFormatter, CompactDecimalFormatter, ScientificFormatter):
                self.assertRaises(TypeError, kind, *words)

    def test_errors_travel(self):
        error = Error(5, ": a hint")
        for other in (copy.copy(error), copy.deepcopy(error), pickle.loads(pickle.dumps(error))):
            self.assertEqual((type(other), other.number, str(other)), (InputError, 5, "5: no locale tag: a hint"))
        self.assertIsInstance(Error(1), MemoryError)
        self.assertNotIsInstance(Error(1), ValueError)
        self.assertIsInstance(Error(2), RuntimeError)
        self.assertNotIsInstance(Error(2), ValueError)
        self.assertIsInstance(Error(12), ValueError)
        # a refused number of a worker is told, and the pool works on
        for how in ("fork", "spawn"):
            with concurrent.futures.ProcessPoolExecutor(1, multiprocessing.get_context(how)) as pool:
                with self.assertRaises(InputError) as caught:
                    pool.submit(written_in_german, "5.").result()
                self.assertEqual(caught.exception.number, 7)
                self.assertEqual(pool.submit(written_in_german, Decimal("1234.5")).result(), "1.234,5")

    def test_no_copies(self):
        for it in (self.book, self.english, self.short, CurrencyFormatter("de", "EUR"), PercentFormatter("de"), Answers()):
            for call in (copy.copy, copy.deepcopy, pickle.dumps):
                self.assertRaisesRegex(TypeError, f"{type(it).__name__}, is not copied: open another", call, it)
        self.assertEqual(self.english.format(1234), "1,234")

    def test_signal_inside_a_call(self):
        english, texts = self.english, []

        class Rings(Decimal):
            """Raises a signal while a call takes its digits."""

            def __str__(self):
                signal.raise_signal(signal.SIGUSR1)
                return super().__str__()

        before = signal.signal(signal.SIGUSR1, lambda *_: texts.append(english.format("1234.5")))
        try:
            texts.append(english.format(Rings("5.0")))
            texts.append(english.format_all([Rings("6.0")]))
        finally:
            signal.signal(signal.SIGUSR1, before)
        self.assertEqual(texts, ["1,234.5", "5.0", "1,234.5", ["6.0"]])

    def test_a_number_that_meddles(self):
        """What a caller's own object does while a call takes it is as if it came before the call."""
        formatter, book = DecimalFormatter(self.book, "en"), self.book

        class Closes(Decimal):
            def __str__(self):
                formatter.close()
                return "1"

        class Opens(Decimal):
            def __str__(self):
                formatter.__init__(book, "ar")
                return "1"

        class Fails(Decimal):
            def __str__(self):
                raise KeyError(1)

        class Clears:
            @property
            def __class__(self):
                options.clear()
                return Sign

        options = {"position": int("9" * 40), "sign": Clears(), "increment": 5}
        self.assertRaises(TypeError, self.english.format, 1, **options)
        self.assertEqual(formatter.format_all(map(Decimal, "12")), ["1", "2"])
        self.assertEqual(formatter.format(Opens(1)), "١")
        self.refused(2, formatter.format, Closes(1))
        formatter.__init__(self.book, "en")
        self.refused(2, formatter.format_all, [1, Closes(1)])
        for call in (self.english.format, self.english.format_parts, self.short.shown):
            self.assertRaises(KeyError, call, Fails(1))
        self.assertRaises(KeyError, self.english.format_all, [1, Fails(1)])

    def test_world(self):
        for tag, text in (("de", "1.234.567,891"), ("hi", "12,34,567.891"), ("ar-EG", "١٬٢٣٤٬٥٦٧٫٨٩١"), (b"de-AT", "1\xa0234\xa0567,891")):
            self.assertEqual(DecimalFormatter(tag).format("1234567.891"), text)
            with Book.world() as world, DecimalFormatter(world, tag) as formatter:
                self.assertEqual(formatter.format("1234567.891"), text)
        self.assertEqual(CompactDecimalFormatter("hi", width=Width.LONG).format(1234567), "12 लाख")
        self.assertEqual(DecimalFormatter("de", grouping=Grouping.NEVER).format(1234), "1234")
        for tag, hint in (("de_DE", ": 'de_DE' is written 'de-DE'"), (b"e_", ": b'e_' is written 'e-'"), ("e", ": 'e'")):
            with self.assertRaises(InputError) as caught:
                CompactDecimalFormatter(tag)
            self.assertEqual(str(caught.exception), f"5: no locale tag{hint}")
        self.refused(6, DecimalFormatter, "xx")
        locales = legumeyet.world_locales()
        self.assertEqual((locales, len(set(locales))), (sorted(locales), len(locales)))
        self.assertTrue({"de", "de-AT", "hi", "ar-EG", "zu-ZA"} <= set(locales))

    @FORKS_BESIDE_THREADS
    def test_children(self):
        words = """if True:
            import os, threading
            from legumeyet import Book, DecimalFormatter
            def work():
                assert DecimalFormatter("de").format(1234) == "1.234"
            threads = [threading.Thread(target=work) for _ in range(8)]
            [it.start() for it in threads]
            # a child of a process with threads, which may be opening or calling
            children = []
            for _ in range(20):
                child = os.fork()
                if child == 0:
                    work()
                    os._exit(0)
                children.append(child)
            [it.join() for it in threads]
            assert [os.waitpid(child, 0)[1] for child in children] == [0] * 20
        """
        subprocess.run([sys.executable, "-W", "ignore::DeprecationWarning", "-c", words], check=True, timeout=60)

    @FORKS_BESIDE_THREADS
    def test_child_of_a_thread_inside_a_call(self):
        words = """if True:
            import array, os, threading, time
            from legumeyet import DecimalFormatter
            german, numbers = DecimalFormatter("de"), array.array("q", range(3000000))
            thread = threading.Thread(target=lambda: german.format_all(numbers))
            thread.start()
            for _ in range(50):
                child = os.fork()
                if child == 0:
                    try:
                        assert german.format(1234) == "1.234"
                    except RuntimeError as error:
                        assert "forked" in str(error), error
                    assert DecimalFormatter("de").format(1234) == "1.234"
                    os._exit(0)
                assert os.waitpid(child, 0)[1] == 0
                time.sleep(0.002)
            thread.join()
            assert german.format(1234) == "1.234"
        """
        subprocess.run([sys.executable, "-W", "ignore::DeprecationWarning", "-c", words], check=True, timeout=120)

    def test_files(self):
        with tempfile.TemporaryDirectory() as folder:
            path = pathlib.Path(folder) / "book.json"
            path.write_text(JSON, encoding="utf-8")
            for it in (path, str(path), os.fsencode(path)):
                with Book.from_file(it) as book:
                    self.assertEqual(DecimalFormatter(book, "en").format(1234), "1,234")
            path.write_text("[", encoding="utf-8")
            self.refused(101, Book.from_file, path)
            self.assertRaises(FileNotFoundError, Book.from_file, f"{folder}/none")
            self.assertRaises(IsADirectoryError, Book.from_file, folder)

    def test_names_of_locales(self):
        for name, tag in (
            ("de_DE", "de-DE"), ("de_DE.UTF-8", "de-DE"), ("sr_RS@latin", "sr-RS"), ("C", "en"), ("POSIX", "en"), ("C.UTF-8", "en"),
            ("", "en"), (None, "en"), ("zh_Hant_TW", "zh-Hant-TW"), ("de", "de"), ("\udcff_x", "\udcff-x"),
        ):
            self.assertEqual(legumeyet.tag_of_locale_name(name), tag)
        for name in (b"de_DE", ("de_DE", "UTF-8"), 5):
            self.assertRaisesRegex(TypeError, "is a str or None", legumeyet.tag_of_locale_name, name)

    def test_books_and_tags(self):
        for number, json in ((101, "[1"), (101, ""), (101, b"\xff"), (101, "\udcff"), (102, "[]"), (111, '[[],[],[],[],[],[["en","en"]]]')):
            self.refused(number, Book, json)
        for number, tag in ((5, "e"), (5, ""), (5, "\udcff"), (5, "a" * 100000), (6, "xx")):
            self.refused(number, DecimalFormatter, self.book, tag)
        self.assertRaises(TypeError, Book, None)
        self.assertRaises(TypeError, DecimalFormatter, self.book, 1)

    def test_closed(self):
        self.book.close()
        self.book.close()
        self.assertEqual(self.english.format(1), "1")
        self.refused(2, DecimalFormatter, self.book, "en")
        self.refused(2, self.book.answer, "")
        self.english.close()
        self.refused(2, self.english.format, 1)
        self.refused(2, self.english.read, "1")
        self.refused(2, self.english.format_parts, "1")
        self.assertEqual(self.short.format(1650), "1.6K")
        self.short.close()
        self.refused(2, CompactDecimalFormatter, self.book, "en")
        for call in (self.short.format, self.short.format_parts, self.short.shown, self.short.format_exact):
            self.refused(2, call, "1")

    def test_names(self):
        self.assertEqual(repr(self.short), "<CompactDecimalFormatter of 'en', open>")
        self.short.close()
        self.assertEqual(repr(self.short), "<CompactDecimalFormatter of 'en', closed>")

    def test_program(self):
        with tempfile.TemporaryDirectory() as folder:
            book = f"{folder}/book.json"
            pathlib.Path(book).write_text(JSON, encoding="utf-8")
            for words, status, text in [
                (["--book", book, "en", "-987654.321", "1e3"], 0, "-987,654.321\n1,000\n"), (["--short", "--book", book, "en", "-1650"], 0, "-1.6K\n"),
                (["--long", "--book", book, "en", "1650"], 0, "1.6 thousand\n"), (["en", "5.", "5"], 1, "5\n"), (["xx", "5"], 1, ""),
                (["--book", f"{folder}/none", "en", "5"], 1, ""), (["de_DE.UTF-8", "1234.5"], 0, "1.234,5\n"),
            ]:
                out, error = io.StringIO(), io.StringIO()
                with contextlib.redirect_stdout(out), contextlib.redirect_stderr(error):
                    self.assertEqual((main(words), out.getvalue()), (status, text))
                self.assertEqual(bool(error.getvalue()), status == 1)

    def test_program_whose_output_fails(self):
        """It ends with one line, and no traceback."""
        words = [sys.executable, "-m", "legumeyet", "ar-EG", "5"]
        for script, said in [
            ('exec "$@" >/dev/full', "standard output: No space left on device"), ('exec "$@" >&-', "standard output: Bad file descriptor"),
            ('exec "$1" "$2" "$3" --book / "$4" "$5"', "/: Is a directory"),
            ('PYTHONIOENCODING=ascii exec "$@"', "standard output, which is ascii, has no such character"),
        ]:
            ran = subprocess.run(["sh", "-c", script, "sh", *words], capture_output=True, check=False, encoding="utf-8")
            self.assertEqual((ran.returncode, ran.stdout, ran.stderr), (1, "", f"legumeyet: {said}\n"))
        for script, status, said in [('exec "$1" "$2" "$3" ar-EG x 2>&-', 1, ""), ('exec "$1" "$2" "$3"', 2, "\nlegumeyet: error: ")]:
            ran = subprocess.run(["sh", "-c", script, "sh", *words], capture_output=True, check=False, encoding="utf-8")
            self.assertEqual((ran.returncode, ran.stdout), (status, ""))
            self.assertIn(said, ran.stderr)

    def test_kept(self):
        book = Book(JSON)
        book.keep()
        book.keep()
        arabic, short = DecimalFormatter(book, "ar"), CompactDecimalFormatter(book, "en")
        self.assertEqual(book.answer("en\tplain\tauto\tkeep\t-\t1234"), "ok\t1,234")
        book.close()
        self.refused(2, book.keep)
        self.assertEqual(arabic.format("-1234.5"), "-١٬٢٣٤٫٥")
        self.assertEqual(arabic.read("-١٬٢٣٤٫٥"), Decimal("-1234.5"))
        self.assertEqual(short.format(-1172700), "-1.2M")

    def test_error_of_another_version(self):
        self.assertEqual((Error(99).number, Error(99).word), (99, "an error of another version"))

    def test_threads(self):
        right = []
        work = lambda: right.append(all(self.english.format(it) == f"{it:,}" for it in range(0, 500000, 997)))
        threads = [threading.Thread(target=work) for _ in range(4)]
        for it in threads:
            it.start()
        for it in threads:
            it.join()
        self.assertEqual(right, [True] * 4)

    def test_threads_inside_a_column(self):
        """Other calls of a formatter wait for one that is without the interpreter's lock, and calls of others go on."""
        numbers, others, right = array.array("q", range(400000)), DecimalFormatter(self.book, "ar"), []

        def column():
            right.append(self.english.format_all(numbers)[-1] == "399,999")

        def single():
            texts = [(self.english.format(it), others.format(5)) for it in range(2000)]
            right.append(texts[1234] == ("1,234", "٥") and self.english.read("1,234") == 1234)

        threads = [threading.Thread(target=it) for it in (column, single, column, single)]
        for it in threads:
            it.start()
        for it in threads:
            it.join()
        self.assertEqual(right, [True] * 4)

    def test_closed_inside_a_column(self):
        numbers, said = array.array("q", range(2000000)), []

        def column():
            try:
                self.english.format_all(numbers)
                said.append("all")
            except ClosedError:
                said.append("closed")

        thread = threading.Thread(target=column)
        thread.start()
        time.sleep(0.01)
        self.english.close()
        thread.join()
        self.assertIn(said, (["all"], ["closed"]))

    def test_calls_beside_a_column(self):
        """Who waits for a column waits for a part of it at most, and other threads run meanwhile, also where the numbers are a list."""
        for numbers in (array.array("q", range(300_000)), list(range(300_000)), [str(it) for it in range(200_000)]):
            ended = threading.Event()

            def column(numbers=numbers, ended=ended):
                self.english.format_all(numbers)
                ended.set()

            threads = [threading.Thread(target=column) for _ in range(2)]
            for it in threads:
                it.start()
            calls = 0
            while not ended.is_set():
                self.assertEqual(self.english.format(1234), "1,234")
                calls += not ended.is_set()
            for it in threads:
                it.join()
            self.assertGreater(calls, 10)

    def test_kinds_in_a_column(self):
        """Numbers of all kinds are written in their order, whatever comes after what, and however many they are."""
        kinds = [1234, 1234.5, "1e3", Decimal("-0.50"), 2**70, 1, -0.0]
        wanted = ["1,234", "1,234.5", "1,000", "-0.50", f"{2**70:,}", "1", "-0"]
        for times in (1, 63, 64, 65, 4095, 4096, 4097):
            self.assertEqual(self.english.format_all([it for it in kinds for _ in range(times)]), [it for it in wanted for _ in range(times)])
        self.assertEqual(self.english.format_all(kinds * 1500), wanted * 1500)
        long = "1" * 100_000
        self.assertRaises(InputError, self.english.format_all, [long])
        long = "1" * 30_000
        self.assertEqual(self.english.format_all([long, 5, long] * 50), [self.english.format(it) for it in (long, 5, long)] * 50)

    def test_refused_in_a_column(self):
        """The first number that is refused, or that is none, ends the call, and the error says where it is."""
        nan, others = float("nan"), [1] * 5000

        def stops(numbers):
            yield from numbers
            raise KeyError(1)

        for before in ([], [1], [1.5, "2"], others, [1.5] * 5000, ["7"] * 5000, [1, 2.0] * 40):
            for wrong, number in ((nan, 7), ("5.", 7), ("", 7), ("1\n2", 7), ("\n", 7), ("1\r", 7), (Decimal("1E+40000"), 8), ("1e40000", 8), (10**32768, 8)):
                for numbers in ([*before, wrong], [*before, wrong, nan, None], iter([*before, wrong]), stops([*before, wrong]), [*before, wrong, *others]):
                    with self.assertRaises(InputError) as caught:
                        self.english.format_all(numbers)
                    self.assertRegex(str(caught.exception), f"^{number}: .*: the number at {len(before)}$")
            self.assertRaises(TypeError, self.english.format_all, [*before, None, nan])
            self.assertRaises(KeyError, self.english.format_all, stops(before))
        self.assertRaises(TypeError, self.english.format_all, [1], position="1")
        for numbers in ([], [1], [1.5] * 100):
            with self.assertRaises(InputError) as caught:
                self.english.format_all(numbers, rounding=int.__new__(Rounding, 12))
            self.assertRegex(str(caught.exception), "^4: [a-z0-9 ,]*$")
        self.english.close()
        for numbers in ([], iter(()), [1], array.array("d"), array.array("d", [1.0] * 100)):
            with self.assertRaises(ClosedError) as closed:
                self.english.format_all(numbers)
            self.assertNotIn("number at", str(closed.exception))

    def test_numbers_that_meddle_with_a_column(self):
        """What a number or an iterator does while it is taken is as if it came before the numbers that are not written yet."""
        english, said = self.english, []

        def uses():
            for at in range(5000):
                said.append(english.format(at))
                yield at

        class Forks(Decimal):
            def __str__(self):
                child = os.fork()
                if child == 0:
                    os._exit(english.format_all(range(200)) != [f"{it:,}" for it in range(200)])
                self.status = os.waitpid(child, 0)[1]
                return "7"

        self.assertEqual(english.format_all(uses()), said)
        forks = Forks(1)
        self.assertEqual(english.format_all([*range(100), forks, 8])[-2:], ["7", "8"])
        self.assertEqual(forks.status, 0)

        def nested():
            yield 1
            yield from map(int, english.format_all([2] * 100))
            english.close()
            yield 3

        self.refused(2, english.format_all, nested())

    @FORKS_BESIDE_THREADS
    def test_children_of_columns(self):
        """A child of a process whose threads are inside columns and wait for them has a formatter of its own, or is told to open one."""
        words = """if True:
            import os, threading
            from legumeyet import DecimalFormatter
            german, numbers, ended = DecimalFormatter("de"), list(range(400000)), []
            def column():
                german.format_all(numbers)
                ended.append(1)
            def single():
                while len(ended) < 2:
                    german.format(1)
            threads = [threading.Thread(target=it) for it in (column, single, column, single)]
            [it.start() for it in threads]
            children = 0
            while len(ended) < 2 and children < 30:
                child = os.fork()
                if child == 0:
                    try:
                        assert german.format_all([1234] * 100) == ["1.234"] * 100
                        assert german.format(1234) == "1.234"
                    except RuntimeError as error:
                        assert "forked" in str(error), error
                    os._exit(0)
                assert os.waitpid(child, 0)[1] == 0
                children += 1
            [it.join() for it in threads]
        """
        subprocess.run([sys.executable, "-W", "ignore::DeprecationWarning", "-c", words], check=True, timeout=120)

    def test_answers_to_many_lines(self):
        """They are those of the book, in the order of the lines."""
        world = Book.world()
        world.keep()
        numbers = ("1234567.891", "5.", "1e300", "٣", "", "1\r", "1\0", "\u2028")
        lines = [f"{tag}\tplain\tauto\tkeep\t-\t{number}" for tag in ("de", "fr", "hi", "en", "de", "xx", "e") for number in numbers] + ["", "x", "\t"]
        wanted = "".join(f"{world.answer(line)}\n" for line in lines)
        text = "".join(f"{line}\n" for line in lines)
        answers, few = Answers(), Answers(book=world, capacity=1)
        world.close()
        for it in (answers, few, Answers(None, 2)):
            self.assertEqual(it.answer(text), wanted)
            self.assertEqual(it.answer(text[:-1]), wanted)
            self.assertEqual(it.answer(text.encode()), wanted.encode())
            self.assertEqual((it.answer(""), it.answer(b""), it.answer("\n")), ("", b"", "err\tshape\n"))
        self.assertEqual(answers.answer(text * 300), wanted * 300)
        long = "de\tplain\tauto\tkeep\t-\t" + "1" * 30_000
        self.assertEqual(answers.answer(long), f"{Book.world().answer(long)}\n")
        for length in (100_000, 65_535, 65_536, 131_072, 1_000_000):
            self.assertEqual(answers.answer("x" * length + "\n" + text), "err\tshape\n" + wanted)
            self.assertEqual(answers.answer(text + "\0" * length), wanted + "err\tshape\n")
        self.assertEqual((answers.answer(b"\xff\n"), answers.answer("\udcff")), (b"err\tshape\n", "err\tshape\n"))

    def test_answers_that_are_refused(self):
        self.refused(15, Answers, self.book)
        self.book.keep()
        for capacity in (0, -1, -(2**70)):
            self.assertRaises(ValueError, Answers, self.book, capacity)
        for capacity in (1.0, "1", None):
            self.assertRaises(TypeError, Answers, self.book, capacity)
        for book in (1, "de", self.english):
            self.assertRaises(TypeError, Answers, book)
        self.refused(1, Answers, self.book, 2**80)
        answers = Answers(self.book, 10_000)
        for lines in (None, 1, ["x"], bytearray(b"x\n"), memoryview(b"x\n")):
            self.assertRaises(TypeError, answers.answer, lines)
        self.assertEqual(repr(answers), "<Answers, open>")
        with answers:
            self.assertEqual(answers.answer("en\tplain\tauto\tkeep\t-\t1234"), "ok\t1,234\n")
        answers.close()
        self.assertEqual((answers.is_open, repr(answers)), (False, "<Answers, closed>"))
        for lines in ("", "x", "x\n", b"x\n" * 10_000):
            self.refused(2, answers.answer, lines)
        self.book.close()
        self.refused(2, Answers, self.book)
        self.assertIsNone(weakref.ref(Answers())())

    def test_answers_in_threads(self):
        """Threads may use the same answers, each for its own lines."""
        answers, wrong, lines = Answers(), [], {}
        for tag in ("de", "en", "hi", "fr"):
            lines[tag] = "".join(f"{tag}\tplain\tauto\tkeep\t-\t{it}\n" for it in range(10_000))
        wanted = {tag: Answers().answer(text) for tag, text in lines.items()}

        def many(tag):
            wrong.extend(tag for _ in range(3) if answers.answer(lines[tag]) != wanted[tag])

        def few(tag):
            wrong.extend(tag for _ in range(3000) if answers.answer(f"{tag}\tplain\tauto\tkeep\t-\t12") != f"ok\t{'१२' if tag == 'mr' else '12'}\n")

        threads = [threading.Thread(target=many, args=(tag,)) for tag in lines] + [threading.Thread(target=few, args=(tag,)) for tag in ("de", "mr")]
        for it in threads:
            it.start()
        for it in threads:
            it.join()
        self.assertEqual(wrong, [])

    def test_answers_that_are_closed_meanwhile(self):
        answers, said = Answers(), []

        def many():
            try:
                said.append(answers.answer("de\tplain\tauto\tkeep\t-\t12\n" * 400_000) == "ok\t12\n" * 400_000)
            except ClosedError:
                said.append(True)

        thread = threading.Thread(target=many)
        thread.start()
        time.sleep(0.02)
        answers.close()
        thread.join()
        self.assertEqual(said, [True])

    @FORKS_BESIDE_THREADS
    def test_answers_and_children(self):
        """A child of a process that has a thread inside answers has its own, or is told to open others."""
        words = """if True:
            import os, threading, time
            from legumeyet import Answers
            answers, line = Answers(), "de\\tplain\\tauto\\tkeep\\t-\\t1234\\n"
            thread = threading.Thread(target=lambda: answers.answer(line * 500000))
            thread.start()
            for _ in range(30):
                child = os.fork()
                if child == 0:
                    try:
                        assert answers.answer(line) == "ok\\t1.234\\n"
                    except RuntimeError as error:
                        assert "forked" in str(error), error
                    assert Answers().answer(line * 100) == "ok\\t1.234\\n" * 100
                    os._exit(0)
                assert os.waitpid(child, 0)[1] == 0
                time.sleep(0.002)
            thread.join()
            assert answers.answer(line) == "ok\\t1.234\\n"
        """
        subprocess.run([sys.executable, "-W", "ignore::DeprecationWarning", "-c", words], check=True, timeout=120)

    def test_interrupted_answers(self):
        """A signal's handler runs between two pieces of the lines, and what it raises ends the call."""

        def stop(*_):
            raise KeyError

        answers, line, said = Answers(), "de\tplain\tauto\tkeep\t-\t1234\n", None
        before = signal.signal(signal.SIGALRM, stop)
        try:
            signal.setitimer(signal.ITIMER_REAL, 0.1)
            said = answers.answer(line * 2_000_000)
        except KeyError:
            pass
        finally:
            signal.setitimer(signal.ITIMER_REAL, 0)
            signal.signal(signal.SIGALRM, before)
        self.assertIsNone(said)
        self.assertEqual(answers.answer(line), "ok\t1.234\n")

    def test_interrupted_column(self):
        """A signal's handler runs between two parts of a column, and what it raises ends the call."""

        def stop(*_):
            raise KeyError

        before = signal.signal(signal.SIGALRM, stop)
        try:
            for numbers in (array.array("q", [1234]) * 5_000_000, itertools.repeat(1234)):
                said = []
                try:
                    signal.setitimer(signal.ITIMER_REAL, 0.02)
                    said = self.english.format_all(numbers)
                except KeyError:
                    pass
                self.assertEqual(len(said), 0)
        finally:
            signal.signal(signal.SIGALRM, before)
        self.assertEqual(self.english.format(1234), "1,234")

    def test_floats(self):
        for number, text in [
            (0.1, "0.1"), (1234.5, "1,234.5"), (5.0, "5"), (-0.0, "-0"), (1e21, "1,000,000,000,000,000,000,000"), (1e-7, "0.0000001"),
            (2**53 + 0.0, "9,007,199,254,740,992"), (-1e22, "-10,000,000,000,000,000,000,000"), (0.1 + 0.2, "0.30000000000000004"),
        ]:
            self.assertEqual(self.english.format(number), text)
            self.assertEqual(self.english.format_parts(number)[0], text)
            self.assertEqual(self.english.format_all(array.array("d", [number])), [text])
        self.assertEqual(len(self.english.format(1.7976931348623157e308)), 411)
        self.assertEqual(len(self.english.format(5e-324)), 326)
        self.assertEqual(self.english.format(2.675, position=-2), "2.68")
        self.refused(7, self.english.format_parts, float("nan"))

    def test_exponents_of_decimals(self):
        for number, text in [
            ("1E-7", "0.0000001"), ("-1.50E-9", "-0.00000000150"), ("0E-8", "0.00000000"), ("1.5E+3", "1,500"), ("-0E+3", "-0"),
            ("1.234567890E+5", "123,456.7890"), ("12E-1", "1.2"),
        ]:
            self.assertEqual(self.english.format(Decimal(number)), text)
        self.assertEqual(len(self.english.format(Decimal("1E+32767"))), 43690)
        self.assertEqual(len(self.english.format(Decimal("1E-32768"))), 32770)

    def test_all(self):
        english = self.english
        self.assertEqual(english.format_all([1234, Decimal("-0.50"), "1e3", 2.5]), ["1,234", "-0.50", "1,000", "2.5"])
        self.assertEqual(english.format_all([]), [])
        self.assertEqual(english.format_all(iter((1, 2))), ["1", "2"])
        self.assertEqual(english.format_all(range(1000, 1003), sign=Sign.ALWAYS), ["+1,000", "+1,001", "+1,002"])
        self.assertEqual(english.format_all([1.255, "7"], position=-1), ["1.3", "7.0"])
        self.assertEqual(self.short.format_all(array.array("q", [-1172700, 950])), ["-1.2M", "950"])
        for numbers in ("12", b"12", bytearray(b"12")):
            self.assertRaises(TypeError, english.format_all, numbers)
        for numbers in (5, None, self.english, [1, None], [[1]]):
            self.assertRaises(TypeError, english.format_all, numbers)
        for missing in (None, True, b"1"):
            with self.assertRaisesRegex(TypeError, ": the number at 100$") as caught:
                english.format_all([*range(100), missing, 1])
            self.assertIsInstance(caught.exception.__cause__, TypeError)
        for numbers in ([1, "5."], iter([1, "5."]), array.array("d", [1, float("nan")])):
            with self.assertRaisesRegex(InputError, "7: .*: the number at 1$"):
                english.format_all(numbers)
        self.assertRaises(TypeError, english.format_all)
        self.assertRaises(TypeError, english.format_all, [1], [2])

        def stops():
            yield 1
            raise KeyError(1)

        self.assertRaises(KeyError, english.format_all, stops())

    def test_rows_in_memory(self):
        for code in "bBhHiIlLqQ":
            bits = 8 * array.array(code).itemsize
            ends = [0, 1, 2**bits - 1] if code.isupper() else [-(2 ** (bits - 1)), -1, 2 ** (bits - 1) - 1]
            row = array.array(code, ends * 2000)
            self.assertEqual(self.english.format_all(row), [f"{it:,}" for it in ends] * 2000)
            self.assertEqual(self.english.format_all(memoryview(row)[1::3]), [f"{ends[1]:,}"] * 2000)
            self.assertEqual(self.english.format_all(memoryview(row)[::-3]), [f"{ends[2]:,}"] * 2000)
        self.assertEqual(self.english.format_all(array.array("d")), [])
        self.assertRaises(TypeError, self.english.format_all, memoryview(bytes(4)).cast("B", (2, 2)))
        for row in (memoryview(b"12").cast("c"), array.array("f", [0.5]), memoryview(array.array("f", [0.5]))):
            self.assertRaises(TypeError, self.english.format_all, row)
        wide = array.array("q", [2**62] * 5000)
        self.assertEqual(self.english.format_all(wide, position=-400), [f"{2**62:,}.{'0' * 400}"] * 5000)

    def test_columns_that_give_an_array(self):
        """What `to_numpy` gives is read in place of the column; where it fails the column is iterated over, and an interrupt ends the call."""

        class Column:
            def __init__(self, given):
                self.given = given

            def to_numpy(self):
                if isinstance(self.given, BaseException):
                    raise self.given
                return self.given

            def __iter__(self):
                return iter((7, 8))

        class Masked(ctypes.c_int * 2):
            mask = (False, True)

        for given, texts in (
            (array.array("q", [1234]), ["1,234"]), (array.array("d", [0.5]), ["0.5"]), (None, ["7", "8"]), ([1], ["7", "8"]),
            (Masked(5, 6), ["7", "8"]), (ValueError(1), ["7", "8"]), (array.array("f", [0.5]), TypeError),
            (KeyboardInterrupt(), KeyboardInterrupt), (SystemExit(), SystemExit),
        ):
            if isinstance(texts, list):
                self.assertEqual(self.english.format_all(Column(given)), texts)
            else:
                self.assertRaises(texts, self.english.format_all, Column(given))

    def test_numpy_and_pandas(self):
        try:
            import numpy
        except ImportError:
            self.skipTest("NumPy is not installed")
        row = numpy.arange(-6, 6) * 1000
        want = [f"{it:,}" for it in row.tolist()]
        for kind in ("int64", "int32", "int16", "float64", ">i8", "object"):
            self.assertEqual(self.english.format_all(row.astype(kind)), want)
        self.assertEqual(self.english.format_all(row.reshape(6, 2)[:, 1]), want[1::2])
        self.assertEqual(self.english.format(numpy.int64(1234)), "1,234")
        self.assertEqual(self.english.format(numpy.float64(0.5)), "0.5")
        for refused in (row.reshape(6, 2), row.astype("float32"), numpy.array([None]), row.astype("datetime64[s]"), row.astype(complex)):
            self.assertRaises(TypeError, self.english.format_all, refused)
        self.assertRaisesRegex(TypeError, r"give it as float\(it\)", self.english.format, numpy.float32(0.1))
        self.assertRaisesRegex(TypeError, r"astype\(float\)", self.english.format_all, row.astype("float16"))
        self.assertEqual(self.english.format_all(numpy.ma.array([1.5, 2.5])), ["1.5", "2.5"])
        masked = numpy.ma.array([1.5, 2.5], mask=[False, True])
        self.assertRaisesRegex(TypeError, "^a number is missing: .*: the number at 1$", self.english.format_all, masked)
        whole = numpy.ma.array([1, 2], mask=[False, True])
        self.assertRaisesRegex(TypeError, "^a number is missing: .*: the number at 1$", self.english.format_all, whole)
        self.assertEqual(self.english.format(1.25, position=numpy.int64(-1)), "1.2")
        self.assertRaisesRegex(TypeError, "a number is no bool", self.english.format, numpy.bool_(True))
        self.assertRaisesRegex(TypeError, "a number is no bool: .*: the number at 1$", self.english.format_all, [1, numpy.bool_(True)])
        self.assertRaises(TypeError, self.english.format, 1.25, position=numpy.bool_(True))
        self.assertRaises(TypeError, self.english.format_all, numpy.array([True]))
        column = type("Column", (), {"to_numpy": lambda _: masked, "__iter__": lambda _: iter(masked)})()
        self.assertRaises(TypeError, self.english.format_all, column)
        try:
            import pandas
        except ImportError:
            self.skipTest("pandas is not installed")
        table = pandas.DataFrame({"a": row, "b": row + 0.5, "c": [Decimal(it) for it in row.tolist()]})
        self.assertEqual(self.english.format_all(table["a"]), want)
        self.assertEqual(self.english.format_all(table["b"]), [f"{it:,}" for it in (row + 0.5).tolist()])
        self.assertEqual(self.english.format_all(table["c"]), want)
        self.assertEqual(self.english.format_all(table["a"].astype("Int64")), want)
        missing = pandas.array([1, None], dtype="Int64")
        self.assertRaisesRegex(TypeError, "^a number is missing: <NA>: the number at 1$", self.english.format_all, missing)
        self.assertRaises(TypeError, self.english.format_all, table[["a", "b"]])
        self.assertRaises(TypeError, self.english.format_all, table["b"].astype("float32"))

    def test_options_of_a_formatter(self):
        money = DecimalFormatter(self.book, "en", position=-2, sign=Sign.ALWAYS)
        self.assertEqual(money.format(1234.505), "+1,234.50")
        self.assertEqual(money.format_all([1, 2]), ["+1.00", "+2.00"])
        self.assertEqual(money.format(1, sign=Sign.AUTO), "1.00")
        self.assertEqual(money.format("1.567", position=-1), "+1.6")
        self.assertEqual(money.format("1.567", rounding=Rounding.FLOOR), "+1.56")
        self.assertEqual(money.format("1.567", rounding=Rounding.KEEP), "+1.567")
        short = CompactDecimalFormatter(self.book, "en", sign=Sign.ALWAYS)
        self.assertEqual((short.format(1650), short.shown(1650)), ("+1.6K", "+1.6c3"))
        for options in ({"sign": 1}, {"position": "1"}, {"places": 2}, {"rounding": Sign.AUTO}):
            self.assertRaises(TypeError, DecimalFormatter, self.book, "en", **options)

    def test_newer_options(self):
        english = self.english
        self.assertEqual(english.format(1.995, position=-2, trailing_zeros=TrailingZeros.TRIM), "2")
        self.assertEqual(english.format("1.5", position=-2, trailing_zeros=TrailingZeros.TRIM, minimum_fraction_digits=2), "1.50")
        self.assertEqual(english.format("1.23", position=-2, increment=5), "1.25")
        self.assertEqual(english.format("1.26", position=-2, increment=50), "1.50")
        self.assertEqual(english.format("1.26", position=-2, increment=50, trailing_zeros=TrailingZeros.TRIM), "1.5")
        self.assertEqual(english.format(1234, position=0, increment=250), "1,250")
        for increment in (1, 2, 5, 10, 20, 25, 50, 100, 200, 250, 500, 1000, 2000, 2500, 5000):
            self.assertEqual(english.format(7 * increment, position=0, increment=increment, rounding=Rounding.TRUNC), english.format(7 * increment))
        self.assertEqual(english.format(7, minimum_integer_digits=3), "007")
        self.assertRaises(Error, english.format, 1, position=32767, increment=10)
        for options in ({"increment": 3}, {"increment": 0}, {"increment": 30}, {"increment": 10000}, {"minimum_integer_digits": -1}, {"minimum_fraction_digits": 32768}):
            self.assertRaises(ValueError, english.format, 1, **options)
        for options in ({"trailing_zeros": 1}, {"trailing_zeros": Sign.AUTO}, {"increment": "5"}, {"minimum_integer_digits": 1.0}):
            self.assertRaises(TypeError, english.format, 1, **options)

    def test_reads_leniently(self):
        for text, number in ((" 1234.5 ", "1234.5"), ("1,234.5", "1234.5"), (".5", "0.5"), ("5.", "5"), ("−5", "-5")):
            self.assertEqual(str(self.english.read(text, lenient=True)), number)
        for text in ("1,23", "1,234,5", "1 234", ""):
            self.refused(12, self.english.read, text)
            self.assertRaises(InputError, self.english.read, text, lenient=True)
        # digits of ASCII with their separators, where the formatter's own are others
        egyptian = DecimalFormatter("ar-EG")
        for text, number in (("1234", "1234"), ("1,234.5", "1234.5"), ("1234.5", "1234.5"), ("١٬٢٣٤٫٥", "1234.5"), ("-1,234,567.50", "-1234567.50")):
            self.assertEqual(str(egyptian.read(text, lenient=True)), number)
        # digits of the formatter's own with the separators of those of ASCII are read as native digits
        self.assertEqual(str(egyptian.read("١,٢٣٤.٥", lenient=True)), "1234.5")
        for text in ("1.234,5", "1,23", "1٬234.5"):
            self.refused(12, functools.partial(egyptian.read, lenient=True), text)
        self.refused(12, egyptian.read, "1,234.5")
        egyptian.share()
        self.assertEqual(egyptian.read("1,234.5", lenient=True), Decimal("1234.5"))
        self.assertEqual(DecimalFormatter("fa").read("1234.5", lenient=True), Decimal("1234.5"))
        self.refused(12, functools.partial(DecimalFormatter(self.book, "ar").read, lenient=True), "1,234.5")

    def test_reads_units_leniently(self):
        euros, percents = CurrencyFormatter("en", "EUR"), PercentFormatter("tr")
        for text, number in (
            ("-€1,234.50", "-1234.50"), (" €1234.5 ", "1234.5"), ("1,234.5 €", "1234.5"), ("EUR 5", "5"), ("5 EUR", "5"), ("-5", "-5"), ("€.5", "0.5"),
        ):
            self.assertEqual(str(euros.read(text, lenient=True)), number)
        for text, number in (("%12,5", "12.5"), ("12,5 %", "12.5"), ("1.234,5", "1234.5"), ("-5%", "-5")):
            self.assertEqual(str(percents.read(text, lenient=True)), number)
        self.assertEqual(str(CurrencyFormatter("en", "USD", accounting=True).read("($1234.5)", lenient=True)), "-1234.5")
        for text in ("1234", "1,234", "EGP 1,234"):
            self.assertEqual(str(CurrencyFormatter("ar-EG", "EGP").read(text, lenient=True)), "1234")

    def test_what_was_never_opened(self):
        for kind in (Book, DecimalFormatter, CompactDecimalFormatter, ScientificFormatter, PercentFormatter, CurrencyFormatter, Answers):
            it = kind.__new__(kind)
            it.close()
            self.assertRegex(repr(it), "closed>$")
            for call in ("format", "format_all", "format_parts", "read", "shown", "format_exact", "answer"):
                if hasattr(it, call):
                    self.assertRaises(RuntimeError, getattr(it, call), "1")
        self.assertRaises(RuntimeError, DecimalFormatter, Book.__new__(Book), "en")
        self.assertRaises(RuntimeError, CurrencyFormatter, Book.__new__(Book), "en", "EUR")
        self.assertRaises(RuntimeError, Book.__new__(Book).locales)
        self.assertRaises(RuntimeError, Answers, Book.__new__(Book))
        kept = Book(JSON)
        kept.keep()
        self.assertRaises(TypeError, _core.Answers.answer, self.book, "x")
        self.assertRaises(TypeError, _core.open_answers, self.book, None, 1)
        self.refused(4, _core.open_answers, Answers(), kept, -1)
        self.assertRaises(TypeError, _core.NumberFormatter.format, self.book, 1)
        for words in (
            (self.book, self.book, "en", None, "", {}), (self.english, 5, "en", None, "", {}), (self.english, self.book, None, None, "", {}),
            (self.english, self.book, "en", None, None, {}), (self.english, self.book, "en", (0, 0, 0, 0, 0, 0), None, {}),
            (self.english, self.book, "en", (0, 0, 0, 0, 0, 0, "0"), None, {}), (self.english, self.book, "en", None, "", None),
        ):
            self.assertRaises(TypeError, _core.open_formatter, *words)
        for format, number in (((4, 0, 0, 0, 0, 0, 0), 4), ((2, 0, 0, 0, 0, 0, 0), 6), ((0, 0, 0, 0, 0, -1, 0), 4), ((0, 0, 2, 0, 0, 0, 0), 14), ((0, 7, 0, 0, 0, 0, 0), 4), ((0, 0, 0, 0, 0, 0, 3), 4)):
            self.refused(number, _core.open_formatter, self.english, self.book, "en", format, None, {})
        self.assertEqual(self.english.format(1234), "1,234")
        self.assertRaises(TypeError, _core.open_book, self.english, None)
        self.assertRaises(TypeError, _core.tag_of_locale_name, 5)

    def test_subclasses(self):
        class Money(DecimalFormatter):
            def __init__(self, tag):
                super().__init__(tag, position=-2)
                self.note = [self]  # a cycle

        money = Money("de")
        self.assertEqual((money.format(5), type(money.note[0])), ("5,00", Money))
        gone = weakref.ref(money)
        del money
        gc.collect()
        self.assertIsNone(gone())
        self.english.__init__("de")
        self.assertEqual(self.english.format(1234), "1.234")

    def test_other_interpreters(self):
        inside = """if True:
            import sys
            sys.path[:] = PATH
            from decimal import Decimal
            from legumeyet import DecimalFormatter, InputError
            assert DecimalFormatter("hi").format(Decimal("1234567.5")) == "12,34,567.5"
            try:
                DecimalFormatter("hi").format("5.")
            except ValueError as error:
                assert type(error) is InputError
            else:
                raise AssertionError
        """
        words = """if True:
            import sys
            try:
                import _interpreters as interpreters
            except ImportError:
                import _xxsubinterpreters as interpreters
            from legumeyet import DecimalFormatter
            german = DecimalFormatter("de")
            for _ in range(3):
                other = interpreters.create()
                said = interpreters.run_string(other, sys.argv[1].replace("PATH", repr(sys.path)))
                assert said is None, said
                interpreters.destroy(other)
                assert german.format(1234) == "1.234"
        """
        ran = subprocess.run([sys.executable, "-c", words, inside], stderr=subprocess.PIPE, timeout=60, check=False)
        self.assertEqual((ran.returncode, ran.stderr), (0, b""))

    def test_end_of_the_interpreter(self):
        words = """if True:
            import sys
            from legumeyet import DecimalFormatter
            class Late:
                def __init__(self):
                    self.german = DecimalFormatter("de")
                def __del__(self):
                    for number in (1234, "5.", 0.5):
                        try:
                            self.german.format(number)
                        except Exception:
                            pass
            sys.late = late = Late()
            late.cycle = late
        """
        subprocess.run([sys.executable, "-c", words], check=True, timeout=60)
        # what a daemon thread was using when the interpreter ended is not waited for
        words = """if True:
            import array, os, threading, time
            from legumeyet import Answers, DecimalFormatter
            class Late:
                def __init__(self, it, call, given):
                    self.it, self.call, self.write = it, call, os.write
                    threading.Thread(target=call, args=(given,), daemon=True).start()
                def __del__(self):
                    for late in (self.it.close, lambda: self.call([1])):
                        try:
                            late()
                        except RuntimeError as error:
                            self.write(1, f"{error}; ".encode())
            german, answers = DecimalFormatter("de"), Answers()
            column = Late(german, german.format_all, array.array("q", [1234]) * 20_000_000)
            lines = Late(answers, answers.answer, b"x\\n" * 20_000_000)
            time.sleep(0.2)
        """
        ran = subprocess.run([sys.executable, "-c", words], stdout=subprocess.PIPE, check=True, timeout=60)
        self.assertIn(b"another thread was using it when the interpreter ended", ran.stdout)

    def test_import_beside_the_garbage_collector(self):
        """The collector may run at each step of the import, and a module that was made may be dropped before it is filled."""
        dropped = "import importlib.util as it, legumeyet._core as core; it.module_from_spec(core.__spec__)"
        for words in ("import gc; gc.set_threshold(1); import legumeyet", dropped):
            subprocess.run([sys.executable, "-c", words], check=True, timeout=60)

    def test_examples(self):
        """What the package has is shown by an example, which load_tests finds."""
        names = [it for it in legumeyet.__all__ if it != "Decimal"]
        self.assertEqual([it for it in names if ">>> " not in (getattr(legumeyet, it).__doc__ or "")], [])

    def test_lets_go(self):
        for _ in range(200):
            DecimalFormatter(Book(JSON), "en").format(1)
            CompactDecimalFormatter(Book(JSON), "en").format(1)
            CurrencyFormatter("en", "EUR").format(1)
            Answers().answer("en\tplain\tauto\tkeep\t-\t1")
        gc.collect()

    def test_amounts(self):
        for tag, code, number, text in [
            ("de", "EUR", Decimal("1234.5"), "1.234,50\xa0€"), ("de", "EUR", -1234567, "-1.234.567,00\xa0€"), ("en", "USD", "1.005", "$1.00"),
            ("en", "JPY", 2.5, "¥2"), ("de-CH", "CHF", -5, "CHF-5.00"), ("nl", "USD", -5, "US$\xa0-5,00"), ("en", "QQQ", 0, "QQQ\xa00.00"),
            (b"en", b"USD", 2**64, "$18,446,744,073,709,551,616.00"), ("en", "USD", 2**63, "$9,223,372,036,854,775,808.00"),
        ]:
            formatter = CurrencyFormatter(tag, code)
            self.assertEqual(formatter.format(number), text)
            self.assertEqual(formatter.format_parts(number)[0], text)
            self.assertEqual(formatter.format_all([number]), [text])
            self.assertEqual(formatter.format(formatter.read(text)), text)
        dollars = CurrencyFormatter("en", "USD", accounting=True, sign=Sign.ALWAYS)
        self.assertEqual((dollars.format(-5), dollars.format(5), dollars.format(5, sign=Sign.AUTO)), ("($5.00)", "+$5.00", "$5.00"))
        self.assertEqual(dollars.format_all(array.array("d", [-0.125, 0.375])), ["($0.12)", "+$0.38"])
        self.assertEqual(dollars.format_all(array.array("q", [5] * 5000)), ["+$5.00"] * 5000)
        self.assertEqual((dollars.read("($1,234.50)"), dollars.read("$1.5")), (Decimal("-1234.50"), Decimal("1.5")))
        text, parts = dollars.format_parts("-1234.5")
        texts = [(it.kind, text[it.start : it.end]) for it in parts]
        wanted = [(1, "($"), (7, "$"), (3, "1,234"), (4, ","), (5, "."), (6, "50"), (1, ")")]
        self.assertEqual(texts, wanted)
        text, parts = CurrencyFormatter("de", "EUR").format_parts(5)
        self.assertEqual((text[parts[-1].start : parts[-1].end], parts[-1].kind), ("€", Kind.CURRENCY))
        self.assertEqual(CurrencyFormatter("en", "USD", code=True).format(5), "USD\xa05.00")
        self.assertEqual(CurrencyFormatter("de", "EUR", grouping=Grouping.NEVER).format(1234), "1234,00\xa0€")

    def test_roundings_of_amounts(self):
        francs, dollars = CurrencyFormatter("en", "CHF", cash=True), CurrencyFormatter("en", "USD")
        self.assertEqual((francs.format("2.345"), francs.format("2.345", rounding=Rounding.KEEP)), ("CHF\xa02.35", "CHF\xa02.34"))
        self.assertEqual((francs.format("2.345", position=-1), francs.format("2.345", rounding=Rounding.CEIL)), ("CHF\xa02.3", "CHF\xa03"))
        self.assertEqual((dollars.format("2.345", rounding=Rounding.NONE), dollars.format(5, rounding=Rounding.NONE)), ("$2.345", "$5"))
        self.assertEqual((dollars.format(5, trailing_zeros=TrailingZeros.TRIM), dollars.format(5, minimum_fraction_digits=3)), ("$5", "$5.000"))
        self.assertEqual(dollars.format("-0.001", sign=Sign.NEGATIVE), "$0.00")
        self.assertEqual(CurrencyFormatter("en", "USD", position=0).format("2.5"), "$2")
        for options in ({"rounding": Rounding.CASH, "position": 0}, {"rounding": Rounding.NONE, "position": -2}):
            self.assertRaises(ValueError, dollars.format, 1, **options)
        for options in ({"cash": True, "position": 0}, {"cash": True, "rounding": Rounding.CEIL}):
            self.assertRaises(ValueError, CurrencyFormatter, "en", "USD", **options)
        for rounding in (Rounding.CASH, Rounding.NONE):
            for formatter, text in ((self.english, "1.005"), (self.short, "1"), (PercentFormatter("en"), "1.005%")):
                self.assertEqual(formatter.format("1.005", rounding=rounding), text)
        for number in (12, -1, 2**31, 2**70):
            for formatter in (self.english, self.short, dollars):
                self.refused(4, functools.partial(formatter.format, rounding=int.__new__(Rounding, number), increment=5), 1)

    def test_percents(self):
        for tag, number, text in [("de", 12.5, "12,5\xa0%"), ("tr", Decimal("-12.50"), "-%12,50"), ("en", 1234, "1,234%"), ("eu", "-5", "−%\xa05")]:
            formatter = PercentFormatter(tag)
            self.assertEqual(formatter.format(number), text)
            self.assertEqual(str(formatter.read(text)), str(number))
        turkish = PercentFormatter("tr", position=-1)
        text, parts = turkish.format_parts("12.55")
        self.assertEqual([(it.kind, text[it.start : it.end]) for it in parts], [(8, "%"), (3, "12"), (5, ","), (6, "6")])
        self.assertEqual(turkish.format_all([1, "2"]), ["%1,0", "%2,0"])

    def test_units_of_a_book(self):
        """Formatters of a book that is not kept outlive it, in threads and forked children too."""
        with Book((pathlib.Path(__file__).parents[2] / "books/world.json").read_text(encoding="utf-8")) as book:
            euros, turkish = CurrencyFormatter(book, "de", "EUR"), PercentFormatter(book, "tr")
            dollars = CurrencyFormatter(book, "en", "USD", accounting=True)
        self.assertEqual((euros.format(1234.5), dollars.format(-5), turkish.format(12.5)), ("1.234,50\xa0€", "($5.00)", "%12,5"))
        self.assertEqual((dollars.read("($5.00)"), euros.read("EUR 1234,5", lenient=True)), (Decimal("-5.00"), Decimal("1234.5")))
        self.refused(2, PercentFormatter, book, "tr")
        euros.share()
        with concurrent.futures.ThreadPoolExecutor(8) as pool:
            self.assertEqual(set(pool.map(euros.format, [7] * 1000)), {"7,00\xa0€"})
        child = os.fork()
        if child == 0:
            os._exit(euros.format(7) != "7,00\xa0€" or dollars.format(7) != "$7.00")
        self.assertEqual(os.waitpid(child, 0)[1], 0)

    def test_units_that_are_refused(self):
        kept = Book(JSON)
        kept.keep()
        self.refused(5, PercentFormatter, self.book, "e")
        self.refused(14, CurrencyFormatter, self.book, "e", "eur")
        self.refused(6, CurrencyFormatter, self.book, "en", "EUR")
        self.refused(6, PercentFormatter, kept, "en")
        self.refused(6, CurrencyFormatter, kept, "en", "EUR")
        self.refused(5, CurrencyFormatter, "e", "EUR")
        for code in ("eur", "EURO", "EU", "", "EÜR", "\udcff", b"\xff\xff\xff", "A1B"):
            self.refused(14, CurrencyFormatter, "e", code)
        with self.assertRaisesRegex(InputError, "14: .*: 'eur'$"):
            CurrencyFormatter("en", "eur")
        with self.assertRaisesRegex(InputError, "'de_DE' is written 'de-DE'$"):
            CurrencyFormatter("de_DE", "EUR")
        for words in (("en",), (kept,), (kept, "en"), (None, "EUR"), ("en", 5), (5, "en", "EUR"), ("en", "EUR", None, 1), (kept, "en", 5), ()):
            self.assertRaises(TypeError, CurrencyFormatter, *words)
        for words in ((kept,), ("en", "EUR"), (None,), ()):
            self.assertRaises(TypeError, PercentFormatter, *words)
        for options in ({"grouping": 1}, {"width": Width.LONG}, {"rounding": 10}, {"places": 2}):
            self.assertRaises(TypeError, CurrencyFormatter, "en", "EUR", **options)
        euros = CurrencyFormatter("en", "EUR")
        for text in ("5.00", "$5.00", "€5,00", ""):
            self.refused(12, euros.read, text)
        self.refused(10, euros.read, "\udcff")
        self.assertRaises(TypeError, euros.read, 5)
        for text in ("$5.00", "€1,23", "5 euros", ""):
            self.assertRaises(InputError, euros.read, text, lenient=True)
        self.assertRaises(TypeError, euros.read, "€5", True)
        self.assertRaises(TypeError, euros.read, "€5", strict=True)
        self.refused(7, euros.format, "5.")
        self.refused(7, euros.format, float("nan"))
        self.refused(8, euros.format, "1e40000")
        self.assertRaises(TypeError, euros.format, Fraction(1, 3))
        self.assertEqual(repr(euros), "<CurrencyFormatter of 'en' and 'EUR', open>")
        euros.close()
        self.assertEqual((repr(euros), euros.is_open), ("<CurrencyFormatter of 'en' and 'EUR', closed>", False))
        for call, words in ((euros.format, 1), (euros.format_all, [1]), (euros.format_parts, 1), (euros.read, "1")):
            self.refused(2, call, words)
        euros.__init__("de", "EUR")
        self.assertEqual(euros.format(5), "5,00\xa0€")

    def test_locales_of_a_book(self):
        self.assertEqual(self.book.locales(), ["en", "ar", "bad"])
        self.assertEqual(Book("[[],[],[],[],[]]").locales(), [])
        world = Book.world()
        self.assertLess({"de", "de-AT", "und"}, set(world.locales()))
        found = [world.found_locale(it) for it in ("de-XX", "de-AT", "de-AT-1996", "en-u-nu-thai", b"en-US")]
        self.assertEqual(found, ["de", "de-AT", "de-AT", "und", "und"])
        self.refused(5, world.found_locale, "de_AT")
        self.refused(6, world.found_locale, "xx")
        self.assertRaises(TypeError, world.found_locale, None)
        self.book.close()
        self.refused(2, self.book.locales)
        self.refused(2, self.book.found_locale, "en")


if __name__ == "__main__":
    unittest.main()
