"""The functions of MessageFormat 2."""
import unittest
from decimal import Decimal

from legumeyet.messages import MessageFunctionError, functions


def sentence(tag, name, operand, variants, **options):
    """The sentence of the variant that a number has, with its text in the place of {}."""
    number = functions[name](tag, options, operand)
    return variants[number.select_key(set(variants) - {"*"}) or "*"].format(number)


class Functions(unittest.TestCase):
    """What is formatted, and what is selected."""

    def test_selected(self):
        days = {"0": "now", "one": "in {} day", "*": "in {} days"}
        for operand, text in [
            (0, "now"), (1, "in 1 day"), ("1", "in 1 day"), (2, "in 2 days"), (1.5, "in 1.5 days"), (Decimal(1234567), "in 1,234,567 days"), ("0.0", "now"), ("-0", "now"),
        ]:
            self.assertEqual(sentence("en", "number", operand, days), text)
        polish = {"one": "{} dzień", "few": "{} dni", "many": "{} dni!", "*": "{} dnia"}
        texts = ["1 dzień", "2 dni", "5 dni!", "22 dni", "1,5 dnia"]
        self.assertEqual([sentence("pl", "number", it, polish) for it in (1, 2, 5, 22, "1.5")], texts)
        places = {"1": "first", "two": "{}nd", "few": "{}rd", "*": "{}th"}
        texts = ["first", "2nd", "3rd", "4th", "11th", "22nd"]
        self.assertEqual([sentence("en", "number", it, places, select="ordinal") for it in (1, 2, 3, 4, 11, 22)], texts)
        others = {"0": "you", "one": "you and {} other", "*": "you and {} others"}
        texts = ["you", "you and 1 other", "you and 2 others", "you and 1.5 others"]
        self.assertEqual([sentence("en", "offset", it, others, subtract="1") for it in (1, "2", 3, "2.5")], texts)
        exact = {"1": "=1", "1.5": "=1.5", "one": "one", "*": "other"}
        self.assertEqual([sentence("en", "number", it, exact, select="exact") for it in (1, "1.50", "15e-1", 2, "100e-2")], ["=1", "=1.5", "=1.5", "other", "=1"])
        self.assertEqual(sentence("en", "number", 1, {"one": "one {}", "*": "other {}"}, minimumFractionDigits="1"), "other 1.0")
        self.assertEqual([sentence("en", "currency", it, {"1": "one dollar", "*": "{}"}, currency="USD") for it in (1, 1.5)], ["one dollar", "$1.50"])
        percents = {"1": "all", "one": "{} one", "*": "{} other"}
        self.assertEqual([sentence("en", "percent", it, percents) for it in ("0.01", 0.5, 1)], ["1% one", "50% other", "all"])
        whole = {"0": "none", "1": "=1", "one": "one", "*": "{}"}
        texts = ["=1", "=1", "=1", "none", "9,007,199,254,740,994", "-2"]
        self.assertEqual([sentence("en", "integer", it, whole) for it in (1.2, "1.2", "0.5", 0.4, "9007199254740993.5", -1.5)], texts)

    def test_options(self):
        for tag, name, operand, text, options in [
            ("en", "number", 1, "1.00", {"minimumFractionDigits": "2"}), ("en", "number", 1, "01", {"minimumIntegerDigits": 2}), ("en", "number", "0.12345", "0.123", {}),
            ("en", "number", 12345, "+12345", {"signDisplay": "always", "useGrouping": "never"}), ("es", "number", 1234, "1.234", {"useGrouping": "always"}), ("de", "integer", "1234.5", "1.235", {}),
            ("en", "number", "12345", "12,000", {"maximumSignificantDigits": "2"}), ("en", "number", "2.5", "2", {"maximumFractionDigits": "0", "roundingMode": "halfEven"}),
            ("en", "number", "1.23", "1.25", {"minimumFractionDigits": "2", "maximumFractionDigits": "2", "roundingIncrement": "5"}), ("en", "number", 1, "1", {"minimumFractionDigits": "2", "trailingZeroDisplay": "stripIfInteger"}),
            ("en", "number", "123.4", "123", {"maximumSignificantDigits": "2", "maximumFractionDigits": "0", "roundingPriority": "morePrecision"}), ("en", "percent", 0.256, "26%", {}), ("hi", "number", 12, "१२", {"numberingSystem": "deva"}),
            ("en", "percent", "0.2561", "25.6%", {"maximumFractionDigits": "1"}), ("en", "currency", "1234567890123456789.5", "€1,234,567,890,123,456,789.50", {"currency": "EUR"}), ("de", "currency", 5.5, "6\u00a0€", {"currency": "EUR", "fractionDigits": "0"}),
            ("ja", "currency", 5, "JPY\u00a05", {"currency": "jpy", "currencyDisplay": "code"}), ("en", "currency", -5, "($5.00)", {"currency": "USD", "currencySign": "accounting", "fractionDigits": "auto"}),
        ]:
            errors = []
            self.assertEqual(str(functions[name](tag, options, operand, errors.append)), text)
            self.assertEqual(errors, [])
        two = functions["number"]("en", {"minimumFractionDigits": 2}, 1)
        self.assertEqual([str(functions["number"]("en", {"signDisplay": "always"}, two)), str(functions["integer"]("en", {}, two))], ["+1.00", "1"])
        self.assertEqual((two.format_parts()[0], two.options, two.number, two.type), ("1.00", {"minimumFractionDigits": 2}, 1, "number"))
        whole = functions["integer"]("en", {}, functions["number"]("en", {"roundingMode": "floor"}, "1.9"))
        self.assertEqual((str(whole), whole.number, str(functions["offset"]("en", {"add": 1}, whole))), ("1", 1, "2"))
        self.assertEqual(str(functions["number"]("en", {"minimumFractionDigits": 1}, whole)), "1.0")
        dollars = functions["currency"]("en", {"currency": "USD", "fractionDigits": 0}, 5)
        self.assertEqual([str(dollars), str(functions["currency"]("en", {"fractionDigits": "auto"}, dollars))], ["$5", "$5.00"])

    def test_operands(self):
        class Four:
            def __index__(self):
                return 4

        class Half(float):
            def __repr__(self):
                return "a half"

        for operand, text in [(Four(), "4"), (Half(0.5), "0.5"), (10**20, "100,000,000,000,000,000,000"), (Decimal("1.250"), "1.25"), ("-4.20", "-4.2"), ("0.42e+1", "4.2"), (1e21, "1,000,000,000,000,000,000,000")]:
            self.assertEqual(str(functions["number"]("en", {}, operand)), text)

    def test_tags(self):
        for tag, system, text, dir in [
            ("ar-EG", None, "١٢", "rtl"), ("ar-EG", "latn", "12", "rtl"), ("ar-EG-u-nu-latn", "arab", "١٢", "rtl"), ("hi-u-co-standard-x-own", "deva", "१२", "ltr"), ("ks-Deva", "latn", "12", "ltr"), ("uz-Arab", "latn", "12", "rtl"), ("en", "latn", "12", "ltr"),
        ]:
            number = functions["number"](tag, {} if system is None else {"numberingSystem": system}, 12)
            self.assertEqual((str(number).strip("\u200e\u200f\u061c"), number.dir, number.tag), (text, dir, tag))

    def test_refused(self):
        for operand in ("x", "", None, True, float("nan"), Decimal("Infinity"), "1,5", [1], "+1", "01", "1e999999999999999999999", "1e40000", "1e-40000", Decimal("NaN")):
            with self.assertRaises(MessageFunctionError) as caught:
                functions["number"]("en", {}, operand)
            self.assertEqual(caught.exception.type, "bad-operand")
        for name, value in [("minimumFractionDigits", "x"), ("minimumFractionDigits", -1), ("maximumFractionDigits", "101"), ("signDisplay", "plus"), ("select", "all"), ("numberingSystem", "x"), ("numberingSystem", "none"), ("useGrouping", "true"), ("roundingIncrement", 3)]:
            errors = []
            self.assertEqual(str(functions["number"]("en", {name: value}, 1, errors.append)), "1")
            self.assertEqual([it.type for it in errors], ["bad-option"])
        for name, value, type in [("currencyDisplay", "name", "unsupported-operation"), ("currencyDisplay", "never", "unsupported-operation"), ("currencyDisplay", "words", "bad-option"), ("notation", "compact", "unsupported-operation"), ("notation", "standard", None)]:
            errors = []
            self.assertEqual(str(functions["currency"]("en", {"currency": "USD", name: value}, 1000, errors.append)), "$1,000.00")
            self.assertEqual([it.type for it in errors], [] if type is None else [type])
        for name, options, type in [
            ("offset", {}, "bad-option"), ("offset", {"add": 1, "subtract": 1}, "bad-option"), ("offset", {"add": "x"}, "bad-option"), ("currency", {}, "bad-operand"), ("currency", {"currency": "EURO"}, "bad-operand"),
            ("number", {"minimumFractionDigits": 2, "maximumFractionDigits": 1}, "bad-option"), ("number", {"minimumSignificantDigits": 2, "maximumSignificantDigits": 1}, "bad-option"),
            ("number", {"roundingIncrement": 5, "maximumFractionDigits": 1}, "bad-option"), ("number", {"roundingIncrement": 5, "maximumSignificantDigits": 1}, "bad-option"),
            ("unit", {}, "bad-operand"), ("unit", {"unit": "meter"}, "unsupported-operation"),
        ]:
            with self.assertRaises(MessageFunctionError) as caught:
                functions[name]("en", options, 1)
            self.assertEqual(caught.exception.type, type)
        errors = []
        number = functions["number"]("en", {"select": "ordinal"}, 2, errors.append, literals=set())
        self.assertEqual((str(number), [it.type for it in errors]), ("2", ["bad-option"]))
        self.assertRaises(MessageFunctionError, number.select_key, {"two"})


if __name__ == "__main__":
    unittest.main()
