"""Plural rules, and what a formatter tells of itself."""
import copy
import pickle
import signal
import threading
import unittest
from decimal import Decimal
from fractions import Fraction

from legumeyet import (
    Book, ClosedError, CompactDecimalFormatter, CurrencyDigits, CurrencyFormatter, DecimalFormatter, Error, InputError, NumberFormatter,
    PercentFormatter, PluralRules, Rounding, Symbols, Width, _core,
)

# Cardinal rules of English, and no others.
JSON = '[[["en","","latn","-","","+","",".",",",3,3,1]],[["latn","0123456789"]],[["en",[["one","i = 1 and v = 0"]]]],[],[]]'


class Rules(unittest.TestCase):
    """The categories of numbers."""

    def refused(self, number, call, *words, **more):
        """The call raises the error of this number."""
        with self.assertRaises(Error) as caught:
            call(*words, **more)
        self.assertEqual(caught.exception.number, number)
        return str(caught.exception)

    def test_cardinal(self):
        for tag, numbers, words in [
            ("en", [1, "1.0", 0, 2, -1, "+1", Decimal("1"), 1.0, 2**70], "one other other other one one one one other"),
            ("pl", [1, 2, 5, 12, 22, 1.5, Decimal("1.0"), 0], "one few many many few other other many"),
            ("ar", [0, 1, 2, 3, 11, 100, 1.5], "zero one two few many other other"),
            ("fr", [0, 1.5, 2, 10**6], "one one other many"),
            ("ja", [1, 2], "other other"),
        ]:
            rules = PluralRules(tag)
            self.assertEqual([rules.select(it) for it in numbers], words.split())
            self.assertTrue({*words.split()} <= {*rules.categories})

    def test_ordinal(self):
        for tag, numbers, words in [("en", [1, 2, 3, 4, 11, 21, 22, 113], "one two few other other one two other"), ("de", [1, 2], "other other")]:
            self.assertEqual([PluralRules(tag, "ordinal").select(it) for it in numbers], words.split())

    def test_as_shown(self):
        """The category is that of what is shown."""
        for rules, number, options, word in [
            (PluralRules("en"), 1, {"minimum_fraction_digits": 1}, "other"), (PluralRules("en"), 1.2, {"position": 0}, "one"),
            (PluralRules("en", position=-1), 1, {}, "other"), (PluralRules("en", position=-1), 1, {"position": 0}, "one"),
            (PluralRules("en"), 100, {"exponent": -2}, "other"), (PluralRules("fr", notation="compact"), 1200000, {}, "many"),
            (PluralRules("fr", notation="compact", width=Width.LONG), 1200000, {}, "many"), (PluralRules("fr", notation="scientific"), 1200000, {}, "many"),
            (PluralRules("fr", notation="engineering"), 999600, {}, "other"),
            (PluralRules("fr", notation="engineering"), 999600, {"maximum_significant_digits": 2}, "many"),
            (PluralRules("en", currency="USD"), 1, {}, "other"), (PluralRules("en", currency="JPY"), 1, {}, "one"),
            (PluralRules("en", currency="USD"), 1, {"rounding": Rounding.NONE}, "one"),
            (PluralRules("en"), 0.99, {"maximum_significant_digits": 1}, "one"), (PluralRules("en"), 1, {"minimum_significant_digits": 2}, "other"),
        ]:
            self.assertEqual(rules.select(number, **options), word)

    def test_ranges(self):
        for tag, start, end, word in [
            ("en", 0, 1, "other"), ("en", "1", 2.5, "other"), ("fr", 0, 1, "one"), ("fr", 1, Decimal(2), "other"), ("pl", 1, 5, "many"), ("ja", 1, 2, "other"),
        ]:
            self.assertEqual(PluralRules(tag).select_range(start, end), word)
        self.assertEqual(PluralRules("fr").select_range(0, 1.9, position=0), "other")

    def test_categories(self):
        for tag, kind, words in [
            ("en", "cardinal", "one other"), ("en", "ordinal", "one two few other"), ("ar", "cardinal", "zero one two few many other"), ("ja", "cardinal", "other"),
        ]:
            self.assertEqual(PluralRules(tag, kind).categories, tuple(words.split()))

    def test_refusals(self):
        rules = PluralRules("en")
        self.assertEqual(self.refused(7, rules.select, "5."), "7: no decimal number: '5.'")
        self.assertEqual(self.refused(7, rules.select_range, 1, "x"), "7: no decimal number: 'x'")
        self.assertEqual(self.refused(7, rules.select_range, "x", "y"), "7: no decimal number: 'x' or 'y'")
        self.refused(7, rules.select_range, 10**5000, "x")
        self.refused(7, rules.select, float("nan"))
        self.refused(8, rules.select, 1 << 200000)
        self.refused(8, rules.select_range, 1, 1 << 200000)
        self.refused(8, rules.select_range, "1e40000", 1)
        self.assertIn("is written 'de-DE'", self.refused(5, PluralRules, "de_DE"))
        self.refused(14, PluralRules, "en", currency="usd")
        self.refused(6, PluralRules, "en", notation="compact", currency="USD")
        for words, more in [(("en", "ordinals"), {}), (("en",), {"notation": "short"}), (("en",), {"increment": 5}), (("en", 1), {})]:
            self.assertRaises(ValueError, PluralRules, *words, **more)
        for words, more in [
            ((), {}), ((None,), {}), (("en",), {"book": "en"}), (("en",), {"width": 1}), (("en",), {"grouping": 1}), (("en",), {"currency": 5}),
        ]:
            self.assertRaises(TypeError, PluralRules, *words, **more)
        for words, more in [((), {}), ((1, 2), {}), ((None,), {}), ((True,), {}), ((Fraction(1, 2),), {}), ((1,), {"sign": 1}), ((1,), {"other": 1})]:
            self.assertRaises(TypeError, rules.select, *words, **more)
        for words, more in [((1,), {}), ((1, 2, 3), {}), ((1, None), {}), ((1, 2), {"exponent": 1})]:
            self.assertRaises(TypeError, rules.select_range, *words, **more)
        self.assertRaises(TypeError, _core.open_formatter, 1, Book(JSON), "en", (0,) * 7, None, {})
        self.assertRaises(RuntimeError, PluralRules.__new__(PluralRules).select, 1)

    def test_books(self):
        """Rules may outlive their book; a book of five arrays has no ordinal ones."""
        with Book(JSON) as book:
            rules = PluralRules("en", book=book)
            self.refused(6, PluralRules, "en", "ordinal", book=book)
        self.assertEqual((rules.select(1), rules.select(2), rules.categories), ("one", "other", ("one", "other")))
        self.refused(2, PluralRules, "en", book=book)

    def test_handle(self):
        with PluralRules("pl") as rules:
            self.assertEqual(repr(rules), "<PluralRules of 'pl' and 'cardinal', open>")
            self.assertTrue(rules.is_open)
        self.assertEqual(repr(rules), "<PluralRules of 'pl' and 'cardinal', closed>")
        for call in (lambda: rules.select(1), lambda: rules.select_range(1, 2), lambda: rules.categories):
            self.assertRaises(ClosedError, call)
        for call in (copy.copy, copy.deepcopy, pickle.dumps):
            self.assertRaises(TypeError, call, rules)
        rules.__init__("en")
        self.assertEqual(rules.select(2), "other")

    def test_threads_and_signals(self):
        rules, found = PluralRules("pl"), []
        threads = [threading.Thread(target=lambda: found.extend(rules.select(it) for it in [1, 2, 5] * 1000)) for _ in range(4)]
        before = signal.signal(signal.SIGUSR1, lambda *_: found.extend((rules.select(1), rules.select(2), rules.select(5))))
        for it in threads:
            it.start()
        signal.raise_signal(signal.SIGUSR1)
        for it in threads:
            it.join()
        signal.signal(signal.SIGUSR1, before)
        self.assertEqual(sorted(found), sorted(["one", "few", "many"] * 4001))


class Facts(unittest.TestCase):
    """What a formatter tells of itself."""

    def test_symbols(self):
        german = Symbols(",", ".", ("-", ""), ("+", ""), "0123456789")
        for formatter in (DecimalFormatter("de"), CompactDecimalFormatter("de"), PercentFormatter("de"), NumberFormatter("de", "percent")):
            for _ in range(2):
                self.assertEqual(formatter.symbols, german)
                formatter.share()
        self.assertEqual(DecimalFormatter("ar-EG").symbols.digits[:3], "٠١٢")
        self.assertEqual(pickle.loads(pickle.dumps(german)), german)
        with DecimalFormatter("de") as closed:
            pass
        self.assertRaises(ClosedError, lambda: closed.symbols)

    def test_currency_digits(self):
        for code, digits in [("EUR", (2, 2, 1)), ("JPY", (0, 0, 1)), ("CHF", (2, 2, 5)), ("KWD", (3, 3, 1))]:
            for formatter in (CurrencyFormatter("en", code), NumberFormatter("en", f"currency/{code}")):
                for _ in range(2):
                    self.assertEqual(formatter.currency_digits, CurrencyDigits(*digits))
                    formatter.share()
        for formatter in (DecimalFormatter("en"), PercentFormatter("en")):
            with self.assertRaises(InputError) as caught:
                formatter.currency_digits  # pylint: disable=pointless-statement
            self.assertEqual(caught.exception.number, 4)


if __name__ == "__main__":
    unittest.main()
