"""Writes a number as German, Hindi and Arabic readers write it."""
from legumeyet import Decimal, DecimalFormatter

german = DecimalFormatter("de")
print(german.format(Decimal("1234567.891")))
print(DecimalFormatter("hi").format(Decimal("1234567.891")))
print(DecimalFormatter("ar-EG").format(Decimal("1234567.891")))
