"""Formatters for which no book is given: the first ones are opened of their tags alone, and are as those of the world's book."""
import subprocess
import sys
import threading
import unittest

from legumeyet import (
    Book, ClosedError, CompactDecimalFormatter, CurrencyFormatter, DecimalFormatter, Error, InputError, NumberFormatter, PercentFormatter,
    PluralRules, ScientificFormatter, SkeletonError, world_locales,
)

# In a process of its own: which formatters open the world's book.
COUNTED = """
from legumeyet import Book, DecimalFormatter, NumberFormatter, PluralRules, Answers, _formatters
made = []
for at in range(_formatters.FEW):
    made.append((DecimalFormatter, lambda tag: NumberFormatter(tag, "percent"), PluralRules)[at % 3]("de"))
    assert not _formatters.kept_world, at
assert DecimalFormatter("de").format(1234.5) == "1.234,5"
assert _formatters.kept_world
assert made[0].format(1234.5) == "1.234,5" and made[1].format(5) == "5\\xa0%" and made[2].select(1) == "one"
assert DecimalFormatter("de").read("1.234,5") == DecimalFormatter(Book.world(), "de").read("1.234,5")
"""
ANSWERS_FIRST = """
from legumeyet import Answers, DecimalFormatter, _formatters
Answers()
assert _formatters.kept_world and DecimalFormatter("fr").format(1234.5) == "1\\u202f234,5" and next(_formatters.alone) == 0
"""
FORKED = """
import os
from legumeyet import DecimalFormatter, _formatters
german = DecimalFormatter("de")
child = os.fork()
if child == 0:
    assert DecimalFormatter("fr").format(0.5) == german.format(0.5) == "0,5" and not _formatters.kept_world
    os._exit(0)
assert os.waitpid(child, 0)[1] == 0
"""


def alone(kind, *choices, **options):
    """A formatter that is opened of its tag alone, however many there were before."""
    made = kind.__new__(kind)
    from legumeyet import _formatters
    usual, _formatters.usual_book = _formatters.usual_book, lambda: None
    try:
        made.__init__(*choices, **options)
    finally:
        _formatters.usual_book = usual
    return made


class Alone(unittest.TestCase):
    """What is opened of a tag alone."""

    def test_processes(self):
        for script in (COUNTED, ANSWERS_FIRST, FORKED):
            ran = subprocess.run([sys.executable, "-c", script], stderr=subprocess.PIPE, encoding="utf-8", check=False)
            self.assertEqual((ran.returncode, ran.stderr), (0, ""))

    def test_same(self):
        world = Book.world()
        for tag in [*world_locales()[::40], "de-XX", "ar-EG", "hi-u-nu-deva", "DE-at", "en-u-nu-latn-rg-dezzzz", "und"]:
            for kind, choices in [
                (DecimalFormatter, ()), (CompactDecimalFormatter, ()), (ScientificFormatter, ()), (PercentFormatter, ()), (CurrencyFormatter, ("EUR",)),
            ]:
                own, twin = alone(kind, tag, *choices), kind(world, tag, *choices)
                for number in ("0", "-1234567.5", "1e20"):
                    self.assertEqual(own.format(number), twin.format(number), (tag, kind))
                    self.assertEqual(own.format_parts(number), twin.format_parts(number))
                    if kind in (DecimalFormatter, PercentFormatter):
                        self.assertEqual(own.read(own.format(number)), twin.read(own.format(number)))
                self.assertEqual(own.symbols, twin.symbols)

    def test_calls(self):
        euros = alone(NumberFormatter, "de-AT", "currency/EUR sign-always")
        self.assertEqual(repr(euros), "<NumberFormatter of 'de-AT' and 'currency/EUR sign-always', open>")
        self.assertEqual(euros.format_all(range(3)), [f"+€\xa0{it},00" for it in range(3)])
        self.assertEqual(euros.read("€ 1.234,5", lenient=True), euros.read("1234,5", lenient=True))
        euros.share()
        texts = []
        threads = [threading.Thread(target=lambda: texts.append(euros.format(5))) for _ in range(4)]
        for it in threads:
            it.start()
        for it in threads:
            it.join()
        self.assertEqual(set(texts), {"+€\xa05,00"})
        euros.close()
        self.assertRaises(ClosedError, euros.format, 5)

    def test_refused(self):
        world = Book.world()
        for kind, choices in [
            (DecimalFormatter, ("e",)), (DecimalFormatter, ("de_DE",)), (DecimalFormatter, ("",)), (DecimalFormatter, (b"de\xff",)),
            (CurrencyFormatter, ("de", "eur")), (CurrencyFormatter, ("de", "")), (CompactDecimalFormatter, ("de\0",)), (DecimalFormatter, ("qaa",)),
        ]:
            with self.assertRaises(InputError) as own:
                alone(kind, *choices)
            with self.assertRaises(InputError) as twin:
                kind(world, *choices)
            self.assertEqual((own.exception.number, str(own.exception)), (twin.exception.number, str(twin.exception)))
        for tag, skeleton in [("de", "percent foo"), ("e", "percent percent"), ("de", "currency/EURO"), ("e", "percent"), ("de", "K percent")]:
            with self.assertRaises(Error) as own:
                alone(NumberFormatter, tag, skeleton)
            with self.assertRaises(Error) as twin:
                NumberFormatter(tag, skeleton, book=world)
            self.assertEqual(str(own.exception), str(twin.exception))
            self.assertEqual(isinstance(own.exception, SkeletonError), isinstance(twin.exception, SkeletonError))
        for wrong in ((5,), (None,), ("de", "de")):
            self.assertRaises(TypeError, DecimalFormatter, *wrong)
        self.assertRaises(TypeError, NumberFormatter, "de", "percent", book="de")
        self.assertRaises(TypeError, PluralRules, "de", book=5)


if __name__ == "__main__":
    unittest.main()
