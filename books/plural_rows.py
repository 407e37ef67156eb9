"""Plural categories of CLDR 48 in 68 locales, by rows that the program and the definition answer so under the world's book."""

# A form, the locales, and of each category the numbers or the ranges that are of it.
ROWS = (
    ("plural", "en en-IN en-AT de de-AT de-CH nl sv fi et ur sw", "one 1; other 0 2 3 4 5 6 8 11 12 13 21 22 100 101 1000000 1.0 1.5 0.5"),
    ("plural", "fr fr-CA fr-CH pt", "one 0 1 1.0 1.5 0.5; many 1000000; other 2 3 4 5 6 8 11 12 13 21 22 100 101"),
    ("plural", "es es-MX", "one 1 1.0; many 1000000; other 0 2 3 4 5 6 8 11 12 13 21 22 100 101 1.5 0.5"),
    ("plural", "it pt-PT", "one 1; many 1000000; other 0 2 3 4 5 6 8 11 12 13 21 22 100 101 1.0 1.5 0.5"),
    ("plural", "nb bg hu el tr az ps mr ta te ml mn eu", "one 1 1.0; other 0 2 3 4 5 6 8 11 12 13 21 22 100 101 1000000 1.5 0.5"),
    ("plural", "da", "one 1 1.0 1.5 0.5; other 0 2 3 4 5 6 8 11 12 13 21 22 100 101 1000000"),
    ("plural", "is", "one 1 21 101 1.0; other 0 2 3 4 5 6 8 11 12 13 22 100 1000000 1.5 0.5"),
    ("plural", "pl", "one 1; few 2 3 4 22; many 0 5 6 8 11 12 13 21 100 101 1000000; other 1.0 1.5 0.5"),
    ("plural", "cs sk", "one 1; few 2 3 4; many 1.0 1.5 0.5; other 0 5 6 8 11 12 13 21 22 100 101 1000000"),
    ("plural", "sl", "one 1 101; two 2; few 3 4 1.0 1.5 0.5; other 0 5 6 8 11 12 13 21 22 100 1000000"),
    ("plural", "hr sr sr-Latn", "one 1 21 101; few 2 3 4 22; other 0 5 6 8 11 12 13 100 1000000 1.0 1.5 0.5"),
    ("plural", "ru uk", "one 1 21 101; few 2 3 4 22; many 0 5 6 8 11 12 13 100 1000000; other 1.0 1.5 0.5"),
    ("plural", "be", "one 1 21 101 1.0; few 2 3 4 22; many 0 5 6 8 11 12 13 100 1000000; other 1.5 0.5"),
    ("plural", "ro", "one 1; few 0 2 3 4 5 6 8 11 12 13 101 1.0 1.5 0.5; other 21 22 100 1000000"),
    ("plural", "lt", "one 1 21 101 1.0; few 2 3 4 5 6 8 22; many 1.5 0.5; other 0 11 12 13 100 1000000"),
    ("plural", "lv", "zero 0 11 12 13 100 1000000; one 1 21 101 1.0; other 2 3 4 5 6 8 22 1.5 0.5"),
    ("plural", "he", "one 1 0.5; two 2; other 0 3 4 5 6 8 11 12 13 21 22 100 101 1000000 1.0 1.5"),
    ("plural", "ar ar-EG", "zero 0; one 1 1.0; two 2; few 3 4 5 6 8; many 11 12 13 21 22; other 100 101 1000000 1.5 0.5"),
    ("plural", "fa hi bn", "one 0 1 1.0 0.5; other 2 3 4 5 6 8 11 12 13 21 22 100 101 1000000 1.5"),
    ("plural", "th lo vi id ms ja ko zh zh-Hant wo", "other 0 1 2 3 4 5 6 8 11 12 13 21 22 100 101 1000000 1.0 1.5 0.5"),
    ("plural", "cy", "zero 0; one 1 1.0; two 2; few 3; many 6; other 4 5 8 11 12 13 21 22 100 101 1000000 1.5 0.5"),
    ("plural", "ga", "one 1 1.0; two 2; few 3 4 5 6; many 8; other 0 11 12 13 21 22 100 101 1000000 1.5 0.5"),
    ("plural", "br", "one 1 21 101 1.0; two 2 22; few 3 4; many 1000000; other 0 5 6 8 11 12 13 100 1.5 0.5"),
    ("plural", "mt", "one 1 1.0; two 2; few 0 3 4 5 6 8; many 11 12 13; other 21 22 100 101 1000000 1.5 0.5"),
    ("ordinal", "en en-IN en-AT", "one 1 21 101 1.0; two 2 22; few 3; other 0 4 5 6 8 11 12 13 100 1000000 1.5 0.5"),
    ("ordinal",
     "de de-AT de-CH es es-MX pt pt-PT nl nb da fi is pl cs sk sl hr sr sr-Latn ru bg lt lv et el tr he ar ar-EG fa ur ps ta te ml "
     "th id ja ko zh zh-Hant sw br mt wo mn eu",
     "other 0 1 2 3 4 5 6 8 11 12 13 21 22 100 101 1000000 1.0 1.5 0.5"),
    ("ordinal", "fr fr-CA fr-CH ro lo vi ms ga", "one 1 1.0; other 0 2 3 4 5 6 8 11 12 13 21 22 100 101 1000000 1.5 0.5"),
    ("ordinal", "it", "many 8 11; other 0 1 2 3 4 5 6 12 13 21 22 100 101 1000000 1.0 1.5 0.5"),
    ("ordinal", "sv", "one 1 2 21 22 101 1.0; other 0 3 4 5 6 8 11 12 13 100 1000000 1.5 0.5"),
    ("ordinal", "uk", "few 3; other 0 1 2 4 5 6 8 11 12 13 21 22 100 101 1000000 1.0 1.5 0.5"),
    ("ordinal", "be", "few 2 3 22; other 0 1 4 5 6 8 11 12 13 21 100 101 1000000 1.0 1.5 0.5"),
    ("ordinal", "hu", "one 1 5 1.0; other 0 2 3 4 6 8 11 12 13 21 22 100 101 1000000 1.5 0.5"),
    ("ordinal", "az", "one 1 2 5 8 11 12 21 22 101 1.0 1.5; few 3 4 13 100; many 0 6 0.5; other 1000000"),
    ("ordinal", "hi", "one 1 1.0; two 2 3; few 4; many 6; other 0 5 8 11 12 13 21 22 100 101 1000000 1.5 0.5"),
    ("ordinal", "bn", "one 1 5 8 1.0; two 2 3; few 4; many 6; other 0 11 12 13 21 22 100 101 1000000 1.5 0.5"),
    ("ordinal", "mr", "one 1 1.0; two 2 3; few 4; other 0 5 6 8 11 12 13 21 22 100 101 1000000 1.5 0.5"),
    ("ordinal", "cy", "zero 0 8; one 1 1.0; two 2; few 3 4; many 5 6; other 11 12 13 21 22 100 101 1000000 1.5 0.5"),
    ("range-plural",
     "en en-IN en-AT de de-AT de-CH nl sv nb da fi is bg hu lv et el tr az he fa ur ps hi bn mr ta te ml th lo vi id ms ja ko zh "
     "zh-Hant sw wo mn eu",
     "other 1..2 3..5 -5..-3 -3..5 3..3 1000..1000000"),
    ("range-plural", "fr fr-CA fr-CH es es-MX it pt pt-PT", "many 1000..1000000; other 1..2 3..5 -5..-3 -3..5 3..3"),
    ("range-plural", "pl ru uk be", "few 1..2 -5..-3 3..3; many 3..5 -3..5 1000..1000000"),
    ("range-plural", "cs sk hr sr sr-Latn", "few 1..2 -5..-3 3..3; other 3..5 -3..5 1000..1000000"),
    ("range-plural", "sl cy", "two 1..2; few -5..-3 3..3; other 3..5 -3..5 1000..1000000"),
    ("range-plural", "ro lt", "few 1..2 3..5 -5..-3 -3..5 3..3; other 1000..1000000"),
    ("range-plural", "ar ar-EG", "few 3..5 -5..-3 -3..5 3..3; other 1..2 1000..1000000"),
    ("range-plural", "ga mt", "two 1..2; few 3..5 -5..-3 -3..5 3..3; other 1000..1000000"),
    ("range-plural", "br", "two 1..2; few -5..-3 3..3; many 1000..1000000; other 3..5 -3..5"),
)


def lines():
    """Each row as request lines with their answers."""
    for form, tags, said in ROWS:
        for tag in tags.split(" "):
            for of_category in said.split("; "):
                category, *numbers = of_category.split(" ")
                yield from ((f"{tag}\t{form}\tauto\tkeep\t-\t{number}", f"ok\t{category}") for number in numbers)
