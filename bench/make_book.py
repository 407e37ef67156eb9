#!/usr/bin/env python3
"""Writes a seeded book of the size of a book of all the world's locales.

usage: make_book.py SYMBOLS [SEED]

SYMBOLS is the count of entries of symbols. For 5500 there are 800 locales with plural rules, a table of short and one
of long patterns each, and about 1.1 MB in all; for another count the others go with it. The names of locales and
systems, the texts and the patterns are made up, of the lengths and the scripts that such books have. The whole book is
read without a fault, and no key is there twice.
"""
import argparse
import json
import random
import sys

# What goes with 5500 entries of symbols.
SYMBOLS, LOCALES = 5500, 800
SYSTEMS = 96

LETTERS = "abcdefghijklmnopqrstuvwxyz"
SCRIPTS = ["Latn", "Cyrl", "Arab", "Deva", "Hans", "Hant", "Beng", "Ethi"]
# First letters of the scripts that texts are made of, with how many letters follow.
ALPHABETS = [(0x61, 26), (0x61, 26), (0x61, 26), (0x430, 32), (0x627, 28), (0x905, 40), (0x10D0, 33), (0x4E00, 99)]
MINUS_SIGNS = ["-", "-", "-", "\u2212", "\u200e-", "\u061c-"]
DECIMALS = [".", ".", ",", ",", "\u066b"]
GROUPINGS = [",", ".", "\u00a0", "\u202f", "\u2019", "\u066c"]

# Sets of plural rules with their categories, from the least to the richest.
CONDITIONS = [
    [],
    [("one", "n = 1")],
    [("one", "i = 1 and v = 0")],
    [("one", "i = 0 or n = 1")],
    [("one", "i = 1 and v = 0"), ("many", "e = 0 and i != 0 and i % 1000000 = 0 and v = 0 or e != 0..5")],
    [("one", "n = 1"), ("two", "n = 2")],
    [
        ("one", "v = 0 and i % 10 = 1 and i % 100 != 11"),
        ("few", "v = 0 and i % 10 = 2..4 and i % 100 != 12..14"),
        ("many", "v = 0 and i % 10 = 0 or v = 0 and i % 10 = 5..9 or v = 0 and i % 100 = 11..14"),
    ],
    [("zero", "n = 0"), ("one", "n = 1"), ("two", "n = 2"), ("few", "n % 100 = 3..10"), ("many", "n % 100 = 11..99")],
]
SAMPLES = " @integer 0, 2~16, 100, 1000, 10000, 100000, 1000000, … @decimal 0.0~1.5, 10.0, 100.0, …"


def locales(rng, count):
    """Tags that are data locales, none twice."""
    found = {}
    while len(found) < count:
        tag = "".join(rng.choice(LETTERS) for _ in range(rng.choice([2, 2, 3])))
        if rng.random() < 0.25:
            tag += "-" + rng.choice(SCRIPTS)
        if rng.random() < 0.7:
            tag += "-" + "".join(rng.choice(LETTERS).upper() for _ in range(2))
        found[tag] = None
    return list(found)


def systems(rng):
    """Names of numbering systems, none twice; the first is the common one."""
    found = {"latn": None}
    while len(found) < SYSTEMS:
        found["".join(rng.choice(LETTERS) for _ in range(rng.choice([4, 4, 4, 8])))] = None
    return list(found)


def word(rng, alphabet, longest):
    first, many = alphabet
    return "".join(chr(first + rng.randrange(many)) for _ in range(rng.randint(1, longest)))


def symbols_entry(rng, locale, system, numsys):
    suffix = "\u200f" if rng.random() < 0.05 else ""
    decimal, grouping = rng.choice(DECIMALS), rng.choice(GROUPINGS)
    sizes = [3, rng.choice([3, 3, 3, 2]), rng.choice([1, 1, 1, 2])]
    return [locale, system, numsys, rng.choice(MINUS_SIGNS), suffix, "+", suffix, decimal, grouping, *sizes]


def all_symbols(rng, count, tags, names):
    """Each locale without a system, and then with each of some systems, until there are enough."""
    entries = [symbols_entry(rng, tag, "", rng.choice(names)) for tag in tags[:count]]
    left = count - len(entries)
    for turn, tag in enumerate(tags):
        share = left // len(tags) + (turn < left % len(tags))
        entries += [symbols_entry(rng, tag, name, name) for name in rng.sample(names, share)]
    return entries


def digits_entry(name, place):
    zero = ord("0") if place == 0 else 0x660 + 16 * place
    return [name, "".join(chr(zero + value) for value in range(10))]


def rules_entry(rng, locale, conditions):
    return [locale, [*map(list, conditions), ["other", SAMPLES if rng.random() < 0.3 else ""]]]


def slots(rng, alphabet, categories, longest):
    names = [*categories, "other"] if rng.random() < 0.15 else ["other"]
    return [[name, ["", word(rng, alphabet, longest)]] for name in names]


def compact_entry(rng, locale, categories, longest):
    """The types 3 to 14, whose exponents stay for two or three types; some languages count by myriads."""
    alphabet, step = rng.choice(ALPHABETS), rng.choice([3, 3, 3, 4])
    types = [[place, place // step * step, slots(rng, alphabet, categories, longest)] for place in range(step, 15)]
    return [locale, "", types, None]


def lines(array):
    """An array with a line for each entry."""
    return "[" + ",\n  ".join(json.dumps(it, ensure_ascii=False, separators=(",", ":")) for it in array) + "]"


def book(count, seed):
    rng = random.Random(seed)
    tags, names = locales(rng, max(1, round(count * LOCALES / SYMBOLS))), systems(rng)
    rules = [rng.choice(CONDITIONS) for _ in tags]
    categories = [[category for category, _ in conditions] for conditions in rules]
    arrays = [
        all_symbols(rng, count, tags, names),
        [digits_entry(name, place) for place, name in enumerate(names)],
        [rules_entry(rng, tag, conditions) for tag, conditions in zip(tags, rules)],
        [compact_entry(rng, tag, known, 2) for tag, known in zip(tags, categories)],
        [compact_entry(rng, tag, known, 6) for tag, known in zip(tags, categories)],
    ]
    return "[" + ",\n ".join(map(lines, arrays)) + "]"


def main():
    words = argparse.ArgumentParser(usage="make_book.py SYMBOLS [SEED]", add_help=False)
    words.add_argument("symbols", type=int)
    words.add_argument("seed", type=int, nargs="?", default=1)
    asked = words.parse_args()
    sys.stdout.reconfigure(encoding="utf-8")
    sys.stdout.write(book(asked.symbols, asked.seed))


main()
