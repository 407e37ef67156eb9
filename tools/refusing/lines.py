"""Lines that the program answers while memory, reads and writes are refused, with their answers. `|` stands for a tab.

They are the worked examples of docs/requests.md, and each form, rounding and refusal has one.
"""
NINES = "9" * 32768
ZEROS = "0" * 32768

# A request for a plain number under `en`, with what is after the grouping.
ROWS = {
    "a plain number": [("en|plain|auto|keep|-|-987654.321", "ok|-987,654.321")],
    "an unknown system": [("EN-u-NU-wxyz|plain|auto|keep|-|1234", "ok|1,234")],
    "Thai digits": [("ar-EG-u-nu-thai|plain|auto|keep|-|1234", "ok|๑٬๒๓๔")],
    "extensions in any order": [
        ("en-a-foo-u-nu-latn|plain|min2|keep|-|1000", "ok|1000"),
        ("en-u-nu-latn-a-foo|plain|min2|keep|-|1000", "ok|1000"),
    ],
    "fives": [("en|plain|auto|keep|-1,half-even,5|9.75", "ok|10.0")],
    "a sign that is chosen": [("en|plain|auto|except-zero|0,trunc,1|-0.4", "ok|0")],
    "a rounding past the end": [("en|plain|never|keep|32767,expand,2|9e32767", f"ok|{ZEROS}")],
    "refused lines": [
        ("en|plain|auto|keep|-|10e32767", "err|limit"),
        ("en|plain|auto|keep|-|1e", "err|number"),
        ("en-|plain|auto|keep|-|1", "err|tag"),
        ("xx|plain|auto|keep|-|1", "err|table"),
        ("", "err|shape"),
    ],
    "texts read back": [
        ("en|read|auto|keep|-|-987,654.321", "ok|-987654.321"),
        ("en|read|auto|keep|-|98,7654", "err|not-written"),
        ("en|read|auto|keep|-|1234", "err|not-written"),
    ],
    "zeros and signs read back": [("en|read|auto|keep|-|0,007", "ok|0007"), ("en|read|auto|keep|-|+5", "ok|+5")],
    "short": [
        ("en|short|auto|keep|-|999499.99", "ok|999K|999c3"),
        ("en|short|auto|keep|-|999500", "ok|1M|1c6"),
        ("en|short|auto|keep|-|1650", "ok|1.6K|1.6c3"),
        ("en|short|auto|keep|-|1750", "ok|1.8K|1.8c3"),
    ],
    "zeros in front of a short number": [("en|short|auto|keep|-|001234", "ok|001.2K|001.2c3")],
    "the greatest number in short": [(f"en|short|auto|keep|-|{NINES}", "err|range")],
    "exact forms": [
        ("en|exact-short|auto|keep|-|-1.20c6", "ok|-1.20M"),
        ("en|exact-short|auto|keep|-|1.2c5", "err|exponent"),
        (f"en|exact-short|auto|keep|-|1{ZEROS[1:]}c6", "err|range"),
    ],
    "four lines": [
        ("en|plain|auto|keep|-|1", "ok|1"),
        ("ar-EG|plain|auto|keep|-|1", "ok|١"),
        ("EN|plain|auto|keep|-|1", "ok|1"),
        ("xx|plain|auto|keep|-|1", "err|table"),
    ],
    "roundings": [
        ("en|plain|auto|keep|4,expand,1|99.999", "ok|10,000"),
        ("en|plain|auto|keep|-2,half-trunc,25|-7.235", "ok|-7.25"),
    ],
    "texts of numbers": [
        ("en|plain|auto|keep|-|0e5", "ok|0"),
        ("en|plain|auto|keep|-|.5", "ok|0.5"),
        ("en|plain|auto|keep|-|5.", "err|number"),
        ("en|plain|auto|keep|-|1\r", "err|number"),
    ],
    "small and large in short": [
        ("en|short|auto|keep|-|-1172700", "ok|-1.2M|-1.2c6"),
        ("en|short|auto|keep|-|1149.6", "ok|1.1K|1.1c3"),
        ("en|short|auto|keep|-|0.2222", "ok|0.22|0.22"),
        ("en|short|auto|keep|-|10000000000", "ok|10,000M|10000c6"),
    ],
    "long": [
        ("en|long|auto|keep|-|1000", "ok|a thousand|1c3"),
        ("en|long|auto|keep|-|999.6", "ok|a thousand|1c3"),
        ("en|long|auto|keep|-|2000", "ok|2-thousands|2c3"),
        ("en|long|auto|keep|-|1049999", "ok|1-million|1c6"),
        ("en|exact-long|auto|keep|-|1.0c3", "ok|1.0-thousands"),
    ],
    "signs": [("en|plain|auto|negative|-|-0", "ok|0"), ("en|plain|auto|always|-|5", "ok|+5")],
    "many digits": [(f"en|plain|never|keep|-|{NINES}.{NINES}", f"ok|{NINES}.{NINES}")],
    "a long tag": [("en-US-1996-fonipa-u-attr-ca-buddhist-nu-thai-t-de-h0-hybrid-a-foo-x-a-b|read|auto|keep|-|x", "err|table")],
}


def symbols(minus, sizes):
    """A book of one entry `en`, with this minus sign and these sizes."""
    return f'[[["en","","latn","{minus}","","+","",".",",",{sizes}]],[["latn","0123456789"]],[],[],[]]'


# The same under books of their own.
BOOKS = {
    "a minus that is empty": (symbols("", "3,3,1"), [("en|read|auto|keep|-|5", "err|unreadable")]),
    "sizes three and two": (
        symbols("-", "3,2,1"),
        [
            ("en|plain|auto|keep|-|1000", "ok|1,000"),
            ("en|plain|auto|keep|-|10000", "ok|10,000"),
            ("en|plain|auto|keep|-|100000", "ok|1,00,000"),
            ("en|plain|auto|keep|-|1000000", "ok|10,00,000"),
        ],
    ),
}


def given(rows):
    """The bytes of the lines, each with a line feed."""
    return "".join(f"{line}\n" for line, _ in rows).replace("|", "\t").encode()


def whole(rows):
    """The bytes of the answers."""
    return "".join(f"{answer}\n" for _, answer in rows).replace("|", "\t").encode()
