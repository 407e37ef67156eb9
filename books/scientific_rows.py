"""Scientific and engineering notation of CLDR 48 in 68 locales, by rows that the program answers so under the world's book."""

# Locales, with what they write: the digit zero, the decimal separator, the minus sign, and the text before exponents.
SYMBOLS = (
    ("en en-IN de-CH es-MX hi ta te ml th ms ja ko zh zh-Hant sw cy ga mt mn", "0", ".", "-", "E"),
    ("en-AT de de-AT fr fr-CA fr-CH es it pt pt-PT nl da is pl cs sr sr-Latn ru be bg ro hu lv tr az lo vi id br wo", "0", ",", "-", "E"),
    ("sv lt et", "0", ",", "\u2212", "\u00d710^"),
    ("nb fi hr eu", "0", ",", "\u2212", "E"),
    ("sk el", "0", ",", "-", "e"),
    ("sl", "0", ",", "\u2212", "e"),
    ("uk", "0", ",", "-", "\u0415"),
    ("he ar ur", "0", ".", "\u200e-", "E"),
    ("ar-EG", "\u0660", "\u066b", "\u061c-", "\u0623\u0633"),
    ("fa", "\u06f0", "\u066b", "\u200e\u2212", "\u00d7\u06f1\u06f0^"),
    ("ps", "\u06f0", "\u066b", "\u200e-\u200e", "\u00d7\u06f1\u06f0^"),
    ("bn", "\u09e6", ".", "-", "E"),
    ("mr", "\u0966", ".", "-", "E"),
)
# A form and a rounding, and of each number its text in English.
TEXTS = (
    ("scientific", "-", "0 0E0; 5 5E0; -0.00012 -1.2E-4; 1234567.891 1.234567891E6; 999999 9.99999E5; 9.995 9.995E0"),
    ("scientific", "s1-3,half-even", "0 0E0; 5 5E0; -0.00012 -1.2E-4; 1234567.891 1.23E6; 999999 1E6; 9.995 1E1"),
    ("scientific", "f2-2,half-expand,1", "0 0.00E0; 5 5.00E0; -0.00012 -1.20E-4; 1234567.891 1.23E6; 999999 1.00E6; 9.995 1.00E1"),
    ("engineering", "-", "0 0E0; 5 5E0; -0.00012 -120E-6; 1234567.891 1.234567891E6; 999999 999.999E3; 9.995 9.995E0"),
    ("engineering", "s1-3,half-even", "0 0E0; 5 5E0; -0.00012 -120E-6; 1234567.891 1.23E6; 999999 1E6; 9.995 10E0"),
    ("engineering", "f2-2,half-expand,1", "0 0.00E0; 5 5.00E0; -0.00012 -120.00E-6; 1234567.891 1.23E6; 999999 1.00E6; 9.995 10.00E0"),
)


def written(text, zero, *symbols):
    """A text in English in other digits and symbols."""
    digits = {str(it): chr(ord(zero) + it) for it in range(10)}
    return "".join({**digits, **dict(zip(".-E", symbols))}[it] for it in text)


def lines():
    """Each row as request lines with their answers."""
    for tags, *symbols in SYMBOLS:
        for tag in tags.split(" "):
            for form, rounding, texts in TEXTS:
                for number, text in (it.split(" ") for it in texts.split("; ")):
                    yield f"{tag}\t{form}\tauto\tkeep\t{rounding}\t{number}", f"ok\t{written(text, *symbols)}\t{text.lower()}"
