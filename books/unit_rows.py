"""Rows that books/try tries for percents and amounts of money. In the texts `~` is a no-break space."""

# Under the book of sample-units/: tag, form, sign, rounding, number, and what is answered to the line.
TEXTS = [
    tuple(row.split(" | "))
    for row in """\
en | percent | keep | - | 12.5 | 12.5%
en | percent | keep | - | 1.00 | 1.00%
en | percent | always | - | 5 | +5%
de | percent | keep | - | 0.5 | 0,5~%
tr | percent | keep | - | -12.5 | -%12,5
eu | percent | keep | - | -12.5 | −%~12,5
mr | percent | keep | - | 1234567.5 | १,२३४,५६७.५%
mr | percent | always | - | -1 | -१%
he | percent | keep | - | -5 | \u200e-5%
ar-u-nu-arab | percent | keep | - | 5 | ٥٪\u061c
tr | permille | keep | - | -12.5 | -‰12,5
tr | permille | always | - | 5 | +‰5
en-AU | permille | keep | - | 5 | 50/00
en | currency-EUR | keep | - | 1234.5 | €1,234.50
en | currency-CHF | keep | - | -1234.5 | -CHF~1,234.50
en | currency-JPY | keep | - | 2.5 | ¥2
en | currency-JPY | keep | - | 3.5 | ¥4
en | currency-KWD | keep | - | 2.345 | KWD~2.345
en | currency-QQQ | keep | - | 1 | QQQ~1.00
en | code-EUR | keep | - | 1 | EUR~1.00
en | code-QQQ | always | - | 1 | +QQQ~1.00
de-CH | currency-CHF | keep | - | 5 | CHF~5.00
de-CH | currency-CHF | keep | - | -5 | CHF-5.00
de-CH | currency-CHF | always | - | 5 | CHF+5.00
de-CH | currency-EUR | keep | - | 5 | EUR~5.00
nl | currency-USD | keep | - | -5 | US$~-5,00
nl | accounting-USD | keep | - | -5 | (US$~5,00)
nl | code-USD | always | - | 5 | USD~+5,00
fy | currency-USD | keep | - | -5 | US$~5,00-
fy | currency-USD | always | - | 5 | US$~5,00+
luy | currency-USD | keep | - | -5 | US$-~5.00
luy | currency-USD | keep | - | 5 | US$5.00
luy | code-USD | keep | - | 5 | USD~5.00
de-AT | currency-EUR | keep | - | 1234.5 | €~1.234,50
de-AT | percent | keep | - | 1234.5 | 1~234,5~%
fr-CH | currency-CHF | keep | - | 1234.5 | 1\u202f234.50~CHF
fr-CH | percent | keep | - | 1234.5 | 1\u202f234,5%
mr | currency-EUR | keep | - | 1234567.885 | €१,२३४,५६७.८८
mr | currency-INR | keep | - | 1 | INR~१.००
tr | currency-TRY | keep | - | -5 | -₺5,00
tr | currency-EUR | keep | - | 5 | €5,00
tr | accounting-TRY | keep | - | -5 | -₺5,00
tr | accounting-EUR | keep | - | -5 | (€5,00)
eu | currency-EUR | keep | - | -1234.5 | −1.234,50~€
he | currency-ILS | keep | - | -5 | \u200f\u200e-5.00~\u200f₪
iw | currency-ILS | keep | - | -5 | \u200f\u200e-5.00~\u200f₪
en-AT | currency-EUR | keep | - | 1234.5 | €~1.234,50
en-AT | currency-USD | keep | - | 1234.5 | US$~1.234,50
en-150 | currency-EUR | keep | - | 1234.5 | €1,234.50
en-DE | currency-EUR | keep | - | 1234.5 | €1.234,50
pt-CV | currency-CVE | keep | - | 12345 | 12~345$00~\u200b
pt-CV | currency-EUR | keep | - | 12345 | 12~345,00~€
en-AU | currency-AUD | keep | - | 5 | $5.00
en-Latn-AU | currency-AUD | keep | - | 5 | $5.00
en-ZZ | currency-AUD | keep | - | 5 | A$5.00
gaa | accounting-CHF | keep | - | -5 | (CHF~5.00)
gaa | accounting-EUR | keep | - | -5 | -€~5.00
en | accounting-USD | keep | - | -5 | ($5.00)
en | accounting-USD | always | - | 5 | +$5.00
en | accounting-CHF | keep | - | -5 | (CHF~5.00)
en | accounting-USD | never | - | -5 | $5.00
de | accounting-USD | keep | - | -5 | -5,00~$
en | currency-USD | negative | - | -0.001 | $0.00
en | currency-USD | except-zero | - | 0 | $0.00
en | currency-USD | auto | - | +5 | $5.00
en | currency-USD | keep | - | +5 | +$5.00
en | currency-USD | keep | - | -0.001 | -$0.00
en | currency-USD | keep | - | 0.125 | $0.12
en | currency-USD | keep | - | 999.995 | $1,000.00
en | currency-USD | keep | - | 007 | $007.00
en | currency-CHF | keep | cash | 2.345 | CHF~2.35
en | currency-CHF | keep | cash | 2.325 | CHF~2.30
en | currency-CHF | keep | cash | 2.375 | CHF~2.40
en | currency-DKK | keep | cash | 1.25 | DKK~1.00
en | currency-DKK | keep | cash | 1.75 | DKK~2.00
en | currency-CZK | keep | cash | 2.5 | CZK~2
en | currency-CZK | keep | - | 2.5 | CZK~2.50
ar-u-nu-arab | currency-EUR | keep | - | 5 | \u200f٥٫٠٠~€
en | read-percent | keep | - | -12.50% | -12.50
tr | read-permille | keep | - | -‰12,50 | -12.50
tr | read-permille | keep | - | -%12,50 | err not-written
en-AU | read-permille | keep | - | 50/00 | err unreadable
en | read-currency-EUR | keep | - | €1,234.50 | 1234.50
en | read-accounting-USD | keep | - | ($5.00) | -5.00
nl | read-currency-USD | keep | - | US$~-5,00 | -5.00
fy | read-currency-USD | keep | - | US$~5,00- | -5.00
en | read-currency-CHF | keep | cash | CHF~2.35 | 2.35
en | read-currency-CHF | keep | cash | CHF~2.34 | err not-written
en | read-currency-EUR | keep | - | $1.00 | err not-written
en | read-currency-EUR | keep | - | €1234.50 | err not-written
en | read-currency-EUR | keep | - | €1.5 | err not-written
en | read-currency-EUR | keep | - | €1.00~ | err not-written
en | read-currency-EUR | keep | - | EUR~1.00 | err not-written
en | currency-EURO | keep | - | 1 | err shape
en | currency-eur | keep | - | 1 | err shape
en | percent | keep | cash | 1 | err shape
en | percent | some | - | 1 | err shape
en | permille | keep | cash | 1 | err shape
en | code-EUR | keep | 2 | 1 | err shape
en_US | percent | keep | - | 1 | err tag
xx | percent | keep | - | 1 | err table
en | permille | keep | - | 1 | err table
en | percent | keep | - | 1,5 | err number
""".splitlines()
]

# The same, of what people type, by docs/units.md, "Lenient reading": tag, form, text, and the number that is read, or a word.
TYPED = [
    tuple(row.split(" | "))
    for row in """\
en | currency-EUR | €1,234.50 | 1234.50
en | currency-EUR | 1234.5 | 1234.5
en | currency-EUR | 5 € | 5
en | currency-EUR | 5€ | 5
en | currency-EUR | € 5 | 5
en | currency-EUR | EUR 5 | 5
en | currency-EUR | 5EUR | 5
en | currency-EUR | -€5 | -5
en | currency-EUR | €-5 | -5
en | currency-EUR | -5 € | -5
en | currency-EUR | - € 5 | -5
en | currency-EUR | €1234.5 | 1234.5
en | currency-EUR | €.5 | 0.5
en | currency-EUR | .5 € | not-written
en | currency-EUR | €1,23 | not-written
en | currency-EUR | $5 | not-written
en | currency-EUR | 5 USD | not-written
en | currency-EUR | €5€ | not-written
en | currency-EUR | €5 EUR | not-written
en | currency-EUR | 5€5 | not-written
en | currency-EUR | € | not-written
de | currency-EUR | €1,23 | 1.23
de | currency-EUR | €1234,5 | 1234.5
de | currency-EUR | €1234.5 | not-written
de | currency-EUR | .5 € | not-written
en | accounting-USD | ($5) | -5
en | accounting-USD | ($1234.5) | -1234.5
en | accounting-USD | -$5 | -5
en | accounting-USD | $-5 | -5
en | accounting-USD | ($5 | not-written
en | accounting-USD | $5) | not-written
en | accounting-USD | (5) | not-written
de | percent | 12,5 % | 12.5
de | percent | 12,5 | 12.5
mr | percent | १,२३४,५६७.५% | 1234567.5
mr | percent | 1234567.5% | 1234567.5
mr | currency-EUR | EUR 1,234,567.8 | 1234567.8
mr | currency-EUR | 12,34,567.8 € | not-written
ar-u-nu-arab | percent | 5% | 5
tr | permille | 12,5 ‰ | 12.5
tr | permille | 12,5% | not-written
en-AU | permille | 5 | unreadable
de-AT | currency-EUR | € 1.234,50 | 1234.50
de-AT | currency-EUR | 1.234,50 | 1234.50
de-AT | currency-EUR | € 1 234,50 | 1234.50
de-AT | currency-EUR | 1234,5 | 1234.5
de-AT | currency-EUR | 1,234.5 | not-written
fr-CH | currency-CHF | 5.50 | 5.50
fr-CH | currency-CHF | 5,50 CHF | 5.50
fr-CH | accounting-CHF | -5,50 | -5.50
pt-CV | currency-CVE | 12$50 | 12.50
pt-CV | currency-CVE | 12,50 | 12.50
he | currency-ILS | -5.00 ₪ | -5.00
eu | currency-EUR | -1.234,50 € | -1234.50
xx | percent | 5 | table
""".splitlines()
]

# Lines that another formatter writes otherwise under the same data, what it writes, and the causes that are named.
CAUSES = [
    tuple(row.split(" | "))
    for row in """\
en | currency-DKK | keep | cash | 1.25 | DKK~1.0 | CASH_ZERO
en | currency-CHF | keep | cash | 2.4 | CHF~2.4 | none
pt-CV | currency-EUR | keep | - | 12345 | 12~345$00~€ | OWN_CURRENCY
pt-CV | currency-DKK | keep | cash | 12345.25 | 12~345$0~DKK | OWN_CURRENCY CASH_ZERO
tr | accounting-EUR | keep | - | -5 | -€5,00 | OWN_CURRENCY
gaa | accounting-CHF | keep | - | -5 | -CHF~5.00 | NO_LETTERS
fr-CH-u-nu-arab | currency-CHF | keep | - | 5 | ٥.٠٠~CHF | OF_LATN
en-DE | currency-EUR | keep | - | 1234.5 | €1,234.50 | OF_GIVER
en | currency-EUR | keep | - | 5 | 5.00 euros | none
en | percent | keep | - | 5 | 5~% | none
""".splitlines()
]

OWN = ["latn", "-", "", "+", "", ".", ",", 3, 3, 1]
# Units that are five arrays, with the place and the word of the first fault or None: the array's index and its entries.
FAULTS = [
    (0, [["en", "", "%", None, ["", "¤"]], ["en", "arab", "%", OWN, ["¤", "", "-¤", "", "¤+", ""]]], None),
    (0, [["en", "", "%", None, ["", "¤"]], ["EN", "", "%", None, ["", "¤"]]], (1, "duplicate")),
    (0, [["en", "", "%", None, ["", ""]]], (0, "unit")),
    (0, [["en", "", "%", None, ["¤", "¤"]]], (0, "unit")),
    (0, [["en", "", "%", None, ["¤", "", "-", "", "+¤", ""]]], (0, "unit")),
    (0, [["en", "", "¤", None, ["", " ¤"]]], None),
    (0, [["en", "", "%", None, ["", "¤", ""]]], (0, "shape")),
    (0, [["en", "", "%", None, ["", "¤"], None]], (0, "shape")),
    (0, [["en", "", "%", None, ["", "¤"], "‰"], ["de", "", "%", None, ["", "¤"]]], None),
    (0, [["en", "", "%", None, ["", "¤"], "‰", ""]], (0, "shape")),
    (0, [["en", "", "%", None, ["", ""], "\n"]], (0, "text")),
    (0, [["en", "", "%", OWN[1:], ["", "¤"]]], (0, "shape")),
    (0, [["en", "", "%", [*OWN[:9], 256], ["", "¤"]]], (0, "shape")),
    (0, [["e", "", "%", None, ["", ""]]], (0, "tag")),
    (0, [["en", "EUR", "%", None, ["", "¤"]]], (0, "system")),
    (0, [["en", "", "%", ["LATN", *OWN[1:]], ["", "¤"]]], (0, "system")),
    (0, [["en", "", "\t", None, ["", ""]]], (0, "text")),
    (0, [["en", "", "%", [*OWN[:5], "\n", *OWN[6:]], ["", "¤"]]], (0, "text")),
    (1, [["en", "", None, ["¤", ""], ["¤ ", ""]], ["en", "EUR", None, ["¤", ""], None]], None),
    (1, [["en", "EUR", None, ["¤", ""], None], ["en", "EUR", None, ["¤", ""], None]], (1, "duplicate")),
    (1, [["en", "EURO", None, ["¤", ""], None]], (0, "system")),
    (1, [["en", "eu", None, ["¤", ""], None]], (0, "system")),
    (1, [["en", "", None, ["¤", ""], ["", ""]]], (0, "unit")),
    (1, [["en", "", None, ["¤", ""]]], (0, "shape")),
    (2, [["en", "arab", None, ["¤", ""], None]], None),
    (2, [["en", "EUR", None, ["¤", ""], None]], (0, "system")),
    (3, [["en", "EUR", "€", 0], ["und", "EUR", "", 3]], None),
    (3, [["en", "EUR", "€", 0], ["en", "EUR", "e", 3]], (1, "duplicate")),
    (3, [["en", "eur", "€", 0]], (0, "code")),
    (3, [["en", "EURO", "\t", 0]], (0, "text")),
    (3, [["en", "EUR", "€", 4]], (0, "shape")),
    (3, [["en", "EUR", "€", True]], (0, "shape")),
    (4, [["CHF", 2, 1, 2, 5], ["DKK", 255, 50, 0, 1]], None),
    (4, [["CHF", 2, 1, 2, 5], ["CHF", 2, 1, 2, 5]], (1, "duplicate")),
    (4, [["CHF", 2, 1, 2, 3]], (0, "shape")),
    (4, [["CHF", 256, 1, 2, 5]], (0, "shape")),
    (4, [["CH", 2, 1, 2, 5]], (0, "code")),
]
