"""Formatters of number skeletons."""
import array
import copy
import gc
import pathlib
import pickle
import threading
import time
import unittest
import weakref
from decimal import Decimal

from legumeyet import (
    Book, ClosedError, CompactDecimalFormatter, CurrencyFormatter, DecimalFormatter, Error, Fault, InputError, NumberFormatter, PercentFormatter,
    Rounding, ScientificFormatter, Sign, SkeletonError, TrailingZeros, Width, normal_skeleton,
)

WORLD = pathlib.Path(__file__).parents[2] / "books/world.json"


class Skeletons(unittest.TestCase):
    """What a skeleton asks for, and what is none."""

    def test_texts(self):
        for tag, skeleton, number, text in [
            ("de", "", "1234567.891", "1.234.567,891"), ("en", "", "1.23456789", "1.234568"), ("en", "", "007", "7"), ("en", "", "1.500", "1.5"),
            ("en", "", "+5", "5"), ("en", "", "-0", "-0"), ("de", "percent", 12.5, "12,5\xa0%"), ("tr", "%", Decimal("12.50"), "%12,5"), ("de", "permille", 5, "5\xa0‰"),
            ("de", "currency/EUR", 1234.5, "1.234,50\xa0€"), ("de", "currency/eur", 1234.5, "1.234,50\xa0€"), ("en", "currency/JPY", 2.5, "¥2"),
            ("en", "currency/USD sign-accounting", -5, "($5.00)"), ("en", "currency/USD unit-width-iso-code", 5, "USD\xa05.00"),
            ("en", "currency/CHF precision-currency-cash", "2.345", "CHF\xa02.35"), ("en", "currency/USD precision-currency-standard/w", 5, "$5"),
            ("en", "K", -1172700, "-1.2M"), ("en", "compact-long", 1650, "1.6 thousand"), ("en", "compact-short", 1000, "1K"),
            ("en", "compact-short .00", -1234, "-1.23K"), ("de", "KK .0", 1234567, "1,2 Millionen"), ("en", "K rounding-mode-down", 1999, "1.9K"),
            ("en", "scientific", 1234567.891, "1.234568E6"), ("de", "EE+!00 .00", 1234, "1,23E+03"),
            ("sv", "engineering @@@ group-off", "-0.000999999", "\u22121,00×10^\u22123"),
            ("en", ".00", 5, "5.00"), ("en", ".00##", 1.5, "1.50"), ("en", ".00##", 1.23456, "1.2346"), ("en", ".", 2.5, "2"), ("en", ".0*", 2, "2.0"),
            ("en", "rounding-mode-ceiling .", 2.1, "3"), ("en", "group-off", 12345, "12345"), ("en", "group-min2", 1234, "1234"),
            ("en", "sign-always", 5, "+5"), ("en", "sign-never", -5, "5"), ("en", "sign-except-zero", 0, "0"), ("en", "000", 7, "007"),
            ("en", "@@@", 9.996, "10.0"), ("en", "@@#/w", 12345, "12,300"), ("en", "@@*", 0.1, "0.10"), ("en", ".0#/@@r", 0.00123, "0.0012"),
            ("en", ".0#/@@s", 0.00123, "0.0"), ("en", ".0#/w", 3, "3"), ("es", "", 1234.5, "1234,5"), ("es", "group-on-aligned", 1234.5, "1.234,5"),
            (b"en", b"  .00   percent  ", 1, "1.00%"), ("hi", "compact-long", 1234567, "12 लाख"),
        ]:
            formatter = NumberFormatter(tag, skeleton)
            self.assertEqual(formatter.format(number), text)
            self.assertEqual(formatter.format_parts(number)[0], text)
            self.assertEqual(formatter.format_all([number] * 3), [text] * 3)

    def test_calls(self):
        """It has all calls of a formatter, shared ones too."""
        euros = NumberFormatter("de", "currency/EUR sign-always")
        for _ in range(2):
            self.assertEqual(euros.format(123456, exponent=-2), "+1.234,56\xa0€")
            self.assertEqual(euros.format_all(array.array("d", [1.5] * 5000)), ["+1,50\xa0€"] * 5000)
            self.assertEqual(euros.format_all(["1", 2, 2.5]), ["+1,00\xa0€", "+2,00\xa0€", "+2,50\xa0€"])
            text, parts = euros.format_parts(1234.5)
            self.assertEqual([text[it.start : it.end] for it in parts], ["+", "1.234", ".", ",", "50", "€"])
            self.assertEqual(euros.read("1.234,50\xa0€"), Decimal("1234.50"))
            self.assertEqual(euros.read("EUR 1234,5", lenient=True), Decimal("1234.5"))
            self.assertEqual((euros.shown(5), euros.format_exact("5.0")), ("+5.00", "+5,00\xa0€"))
            self.assertRaises(InputError, euros.format, "5.")
            euros.share()

    def test_shown_and_exact(self):
        """What is shown of a number that is not compact is the number, and its exact form has no exponent."""
        english, dollars = DecimalFormatter("en"), CurrencyFormatter("en", "USD")
        percents, short = PercentFormatter("en", position=-1), CompactDecimalFormatter("en")
        for formatter, number, value in [
            (english, "1234.50", "1234.50"), (english, 0.1, "0.1"), (english, "-0", "-0"), (dollars, 5, "5.00"), (dollars, "2.345", "2.34"),
            (percents, 12.25, "12.2"), (short, 950, "950"), (short, -1172700, "-1.2c6"), (NumberFormatter("en", ".0"), "1.25", "1.2"),
            (NumberFormatter("en", "compact-short"), 1650, "1.6c3"), (english, Decimal("1E+3"), "1000"), (english, 2**70, str(2**70)),
        ]:
            self.assertEqual(formatter.shown(number), value)
            self.assertEqual(formatter.format_exact(value), formatter.format(number))
        self.assertEqual((english.shown("1.5", position=0), english.format_exact("1.5", position=0)), ("2", "2"))
        self.assertEqual(dollars.format_exact("2.345", rounding=Rounding.NONE), "$2.345")
        for exact in ("1.2c3", "1c6"):
            with self.assertRaises(InputError) as caught:
                english.format_exact(exact)
            self.assertEqual(caught.exception.number, 13)

    def test_options_in_place_of_its_own(self):
        formatter = NumberFormatter("en", ".00 sign-always group-off")
        self.assertEqual(formatter.format("1234.567"), "+1234.57")
        for options, text in [
            ({"sign": Sign.KEEP}, "1234.567"), ({"position": -1}, "1234.6"), ({"rounding": Rounding.CEIL}, "1235"), ({"minimum_integer_digits": 6}, "001234.567"),
            ({"trailing_zeros": TrailingZeros.TRIM}, "1234.567"), ({"position": None}, "+1234.57"), ({"rounding": None}, "+1234.57"), ({}, "+1234.57"),
            ({"position": None, "sign": Sign.AUTO}, "1234.567"), ({"position": -2, "increment": 5}, "1234.55"), ({"exponent": 0}, "TypeError"),
        ]:
            if text == "TypeError":
                self.assertRaises(TypeError, formatter.shown, "1234.567", **options)
            else:
                self.assertEqual(formatter.format("1234.567", **options), text)
                self.assertEqual(formatter.format_all(["1234.567"], **options), [text])
        self.assertEqual(formatter.format(123456, exponent=-2), "+1234.56")
        self.assertEqual(formatter.format(123456, exponent=-2, sign=Sign.AUTO), "1234.56")
        self.assertRaises(ValueError, formatter.format, 1, increment=5)
        self.assertEqual(NumberFormatter("en", "currency/USD precision-integer").format("2.5", sign=Sign.ALWAYS), "+$2.50")
        self.assertEqual(formatter.format(5), "+5.00")

    def test_faults(self):
        """Each fault, with the place where the faulty word begins in the text that was given."""
        for skeleton, fault, place, word in [
            ("foo", Fault.UNKNOWN, 0, "foo"), ("percent foo bar", Fault.UNKNOWN, 8, "foo"), ("percent\tfoo", Fault.UNKNOWN, 0, "percent\tfoo"),
            ("percent currency/EUR", Fault.TWICE, 8, "currency/EUR"), (".00 .00", Fault.TWICE, 4, ".00"), ("base-unit percent", Fault.TWICE, 10, "percent"),
            ("currency/EURO", Fault.CODE, 0, "currency/EURO"), ("percent sign-accounting", Fault.PAIR, 8, "sign-accounting"),
            ("unit-width-iso-code", Fault.PAIR, 0, "unit-width-iso-code"), ("latin", Fault.SYSTEM, 0, "latin"),
            ("numbering-system/thai", Fault.SYSTEM, 0, "numbering-system/thai"), ("percent scientific", Fault.LATER, 8, "scientific"),
            ("scientific/sign-never", Fault.UNSUPPORTED, 0, "scientific/sign-never"),
            ("compact-short unit-width-narrow", Fault.LATER, 14, "unit-width-narrow"), ("decimal-always", Fault.UNSUPPORTED, 0, "decimal-always"),
            ("percent £ é", Fault.UNKNOWN, 8, "£"), ("percent \udcff", Fault.UNKNOWN, 8, "\udcff"), ("percent \U0001f600 x", Fault.UNKNOWN, 8, "\U0001f600"),
            (b"percent \xff\xfe", Fault.UNKNOWN, 8, b"\xff\xfe"), ("percent\0", Fault.UNKNOWN, 0, "percent\0"), ("  \0", Fault.UNKNOWN, 2, "\0"),
        ]:
            for call in (lambda text: NumberFormatter("en", text), normal_skeleton):
                with self.assertRaises(SkeletonError) as caught:
                    call(skeleton)
                error = caught.exception
                self.assertEqual((error.fault, error.number, error.place), (fault, int(fault), place))
                self.assertIsInstance(error, ValueError)
                self.assertIsInstance(error, InputError)
                self.assertTrue(str(error).endswith(f": {word!r} at {place}"), str(error))
        with self.assertRaises(SkeletonError) as caught:
            NumberFormatter("e", "foo")
        for tag, number in (("e", 5), ("xx", 6)):
            with self.assertRaises(InputError) as other:
                NumberFormatter(tag, "percent")
            self.assertEqual(other.exception.number, number)

    def test_errors_travel(self):
        with self.assertRaises(SkeletonError) as caught:
            NumberFormatter("en", "percent foo")
        error = caught.exception
        for other in (copy.copy(error), copy.deepcopy(error), *(pickle.loads(pickle.dumps(error, at)) for at in range(pickle.HIGHEST_PROTOCOL + 1))):
            self.assertEqual((type(other), other.fault, other.place, str(other)), (SkeletonError, Fault.UNKNOWN, 8, str(error)))
        self.assertEqual((type(Error(207)), Error(207).fault, Error(207).place), (SkeletonError, Fault.UNSUPPORTED, 0))
        words = {Error(it).word for it in Fault}
        self.assertEqual((len(words), "an error of another version" in words, Error(208).word), (7, False, "an error of another version"))
        self.assertEqual((Error(299).fault, Error(299).word), (299, "an error of another version"))
        self.assertNotIsInstance(Error(300), SkeletonError)

    def test_normal_texts(self):
        for skeleton, text in [
            ("", ""), ("   ", ""), ("%", "percent"), ("currency/eur", "currency/EUR"), ("currency/EUR  K sign-auto", "compact-short currency/EUR"),
            ("+! KK", "compact-long sign-always"), (b".00##", ".00##"), (".", "precision-integer"), ("K group-auto", "compact-short group-auto"),
            ("K group-min2", "compact-short"), ("notation-simple base-unit sign-auto", ""), ("000", "integer-width/*000"),
            ("@@+ ,!", "@@* group-on-aligned"), (".##/@@@+", ".##/@@@*"),
            ("E0", "scientific"), ("+! EE+!00", "engineering/*ee/sign-always sign-always"), ("scientific/sign-auto/+ee", "scientific/*ee"),
        ]:
            self.assertEqual(normal_skeleton(skeleton), text)
            self.assertEqual(normal_skeleton(text), text)

    def test_texts_of_other_types(self):
        class Text(str):
            """A text that is not what it says."""

            def encode(self, *_words):
                raise KeyError(1)

            def __str__(self):
                raise KeyError(2)

        self.assertEqual(NumberFormatter(Text("de"), Text("percent")).format(5), "5\xa0%")
        self.assertEqual(normal_skeleton(Text("%")), "percent")
        self.assertRaises(SkeletonError, normal_skeleton, Text("foo"))
        self.assertEqual(NumberFormatter("de", type("Bytes", (bytes,), {})(b"percent")).format(5), "5\xa0%")
        for wrong in (None, 5, 1.5, ["percent"], bytearray(b"percent"), memoryview(b"percent")):
            self.assertRaises(TypeError, NumberFormatter, "de", wrong)
            self.assertRaises(TypeError, NumberFormatter, wrong, "percent")
            self.assertRaises(TypeError, normal_skeleton, wrong)
        for words, named in ((("de",), {}), ((), {}), (("de", "percent", None), {}), (("de", "percent"), {"book": "de"}), (("de", "percent"), {"position": 1})):
            self.assertRaises(TypeError, NumberFormatter, *words, **named)
        self.assertRaises(TypeError, normal_skeleton)
        self.assertRaises(TypeError, NumberFormatter, Book.world(), "de", "percent")
        self.assertEqual(NumberFormatter(tag="de", skeleton="percent").format(5), "5\xa0%")

    def test_long_skeletons(self):
        """Its time is linear in its length, and the error tells its beginning."""
        began = time.process_time()
        many = 10_000_000
        self.assertEqual(NumberFormatter("en", " " * many + "percent").format(5), "5%")
        self.assertEqual(normal_skeleton(" " * many), "")
        for skeleton, place in (("x" * many, 0), (" " * many + "é", many), ("\u3000" * (many // 3), 0), ("percent " * (many // 8), 8), ("." + "0" * many, 0)):
            with self.assertRaises(SkeletonError) as caught:
                normal_skeleton(skeleton)
            self.assertEqual(caught.exception.place, place)
            self.assertLess(len(str(caught.exception)), 300)
        self.assertLess(time.process_time() - began, 20)

    def test_books(self):
        with Book(WORLD.read_bytes()) as book:
            formatter = NumberFormatter("de", "percent", book=book)
        self.assertEqual(formatter.format(5), "5\xa0%")
        with self.assertRaises(ClosedError):
            NumberFormatter("de", "percent", book=book)
        with Book('[[["en","","latn","-","","+","",".",",",3,3,1]],[["latn","0123456789"]],[],[],[]]') as own:
            self.assertEqual(NumberFormatter("en", ".0", book=own).format(1234), "1,234.0")
            for skeleton in ("percent", "currency/EUR", "compact-short", "scientific", "compact-short currency/EUR"):
                with self.assertRaises(InputError) as caught:
                    NumberFormatter("en", skeleton, book=own)
                self.assertEqual(caught.exception.number, 6)
        with self.assertRaises(InputError) as caught:
            NumberFormatter("en", "compact-short currency/EUR")
        self.assertEqual(str(caught.exception), "6: the book lacks a table for the tag: 'en'")

    def test_faces(self):
        """The formatters of plain, compact and scientific numbers, of percents and of amounts are formatters of numbers."""
        plain, others = DecimalFormatter("de"), (ScientificFormatter("de"), PercentFormatter("de"), CurrencyFormatter("de", "EUR"))
        for face in (plain, CompactDecimalFormatter("de", width=Width.LONG), *others):
            self.assertIsInstance(face, NumberFormatter)
        formatter = NumberFormatter("de", "percent")
        self.assertEqual(repr(formatter), "<NumberFormatter of 'de' and 'percent', open>")
        for call in (copy.copy, copy.deepcopy, pickle.dumps):
            self.assertRaisesRegex(TypeError, "NumberFormatter, is not copied: open another", call, formatter)
        with formatter:
            self.assertEqual(formatter.format(5), "5\xa0%")
        self.assertEqual((repr(formatter), formatter.is_open), ("<NumberFormatter of 'de' and 'percent', closed>", False))
        for call in (formatter.format, formatter.read, formatter.shown, formatter.format_exact, formatter.format_parts):
            self.assertRaises(ClosedError, call, "1")
        self.assertRaises(ClosedError, formatter.share)
        self.assertIsNone(weakref.ref(NumberFormatter("de", ""))())

    def test_opened_again(self):
        """What is refused leaves a formatter as it was, a shared one too; what is opened again has nothing of before."""
        formatter = NumberFormatter("en", ".00 sign-always")
        for _ in range(2):
            self.assertRaises(SkeletonError, formatter.__init__, "en", "foo")
            self.assertRaises(InputError, formatter.__init__, "xx", "")
            self.assertEqual((formatter.format(5), repr(formatter)), ("+5.00", "<NumberFormatter of 'en' and '.00 sign-always', open>"))
            formatter.share()
        formatter.__init__("de", "percent")
        self.assertEqual(formatter.format(1234.5), "1.234,5\xa0%")
        formatter.share()
        formatter.close()
        formatter.__init__("en", "group-off")
        self.assertEqual(formatter.format(1234.5), "1234.5")
        face = DecimalFormatter("en", position=-2)
        DecimalFormatter.__init__(face, "de")
        self.assertEqual(face.format(1234.5), "1.234,5")

    def test_threads(self):
        formatter, wrong = NumberFormatter("en", ".00"), []
        numbers = array.array("q", range(20_000))
        wanted = [f"{it:,}.00" for it in numbers]

        def use(turns):
            for turn in range(turns):
                if formatter.format_all(numbers) != wanted or formatter.format(1234 + turn) != f"1,{234 + turn}.00":
                    wrong.append(turn)

        for _ in range(2):
            threads = [threading.Thread(target=use, args=(3,)) for _ in range(4)]
            for it in threads:
                it.start()
            for it in threads:
                it.join()
            formatter.share()
        self.assertEqual(wrong, [])

    def test_lets_go(self):
        for _ in range(200):
            NumberFormatter("en", "currency/EUR .00").format(1)
            self.assertRaises(SkeletonError, NumberFormatter, "en", "foo")
        gc.collect()


if __name__ == "__main__":
    unittest.main()
