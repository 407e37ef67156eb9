"""Shared formatters, in threads."""
import array
import threading
import unittest
from decimal import Decimal

from legumeyet import ClosedError, CompactDecimalFormatter, CurrencyFormatter, DecimalFormatter, InputError, PercentFormatter, Width


class Shared(unittest.TestCase):
    """What `share` leaves."""

    def test_calls(self):
        """A shared formatter has the calls that it had."""
        german, short = DecimalFormatter("de", position=-1), CompactDecimalFormatter("en", width=Width.SHORT)
        euros, percents = CurrencyFormatter("en", "EUR"), PercentFormatter("tr")
        for formatter in (german, short, euros, percents):
            formatter.share()
            formatter.share()
            self.assertTrue(formatter.is_open)
        self.assertEqual(german.format(Decimal("1234.56")), "1.234,6")
        self.assertEqual(german.format(2**64 - 1), "18.446.744.073.709.551.615,0")
        self.assertEqual(german.format(0.25), "0,2")
        self.assertEqual([text for text in german.format_all([1, 2])], ["1,0", "2,0"])
        self.assertEqual(german.format_all(array.array("q", [1234, -5])), ["1.234,0", "-5,0"])
        self.assertEqual(len(german.format_parts("-1.5")[1]), 4)
        self.assertEqual(german.read("1.234,50"), Decimal("1234.50"))
        self.assertEqual(german.read(" 1234,50 ", lenient=True), Decimal("1234.50"))
        self.assertRaises(InputError, german.format, "5.")
        self.assertEqual((short.format(-1172700), short.shown(-1172700), short.format_exact("-1.20c6")), ("-1.2M", "-1.2c6", "-1.20M"))
        self.assertEqual((euros.format("1234.5"), euros.read("€1,234.50")), ("€1,234.50", Decimal("1234.50")))
        self.assertEqual(percents.format(12.5), "%12,5")

    def test_close(self):
        """It is closed once, and stays so."""
        german = DecimalFormatter("de")
        german.share()
        german.close()
        german.close()
        self.assertFalse(german.is_open)
        self.assertRaises(ClosedError, german.format, 1)
        closed = DecimalFormatter("de")
        closed.close()
        self.assertRaises(ClosedError, closed.share)

    def test_threads(self):
        """Eight threads write rows with one formatter, and numbers beside them; one is closed meanwhile."""
        german, wrong = DecimalFormatter("de"), []
        german.share()
        numbers = array.array("q", range(1_000_000, 1_020_000))
        wanted = [f"{it:,}".replace(",", ".") for it in numbers]

        def use():
            for turn in range(3):
                if german.format_all(numbers) != wanted or german.format(1234 + turn) != f"1.{234 + turn}":
                    wrong.append(turn)

        threads = [threading.Thread(target=use) for _ in range(8)]
        for thread in threads:
            thread.start()
        for thread in threads:
            thread.join()
        self.assertEqual(wrong, [])


if __name__ == "__main__":
    unittest.main()
