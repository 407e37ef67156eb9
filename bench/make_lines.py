#!/usr/bin/env python3
"""Writes seeded request lines in the form `plain`, for the sample book.

usage: make_lines.py COUNT [SEED [LONGEST]]

Nine lines of ten have an answer; the others are refused, each word in turn. LONGEST bounds the
whole digits of a number (12 without it).
"""
import argparse
import random
import sys

TAGS = ["en", "en", "en", "EN", "ar-EG", "AR-eg", "en-u-nu-thai", "ar-EG-u-nu-latn", "en-u-nu-wxyz"]
GROUPINGS = ["auto", "auto", "never", "always", "min2"]


def digits(rng, longest):
    return "".join(rng.choice("0123456789") for _ in range(rng.randint(1, longest)))


def number(rng, longest):
    sign = rng.choice(["", "", "", "-", "+"])
    text = digits(rng, longest)
    if rng.random() < 0.4:
        text += "." + digits(rng, 4)
    return sign + text


def refused(rng, turn):
    text = number(rng, 6)
    return [
        f"en\tplain\tauto\tkeep\t{text}",
        f"en-\tplain\tauto\tkeep\t-\t{text}",
        f"en\tplain\tauto\tkeep\t-\t{text}x",
        "en\tplain\tauto\tkeep\t-\t1e40000",
        f"xx\tplain\tauto\tkeep\t-\t{text}",
    ][turn % 5]


def main():
    words = argparse.ArgumentParser(usage="make_lines.py COUNT [SEED [LONGEST]]", add_help=False)
    words.add_argument("count", type=int)
    words.add_argument("seed", type=int, nargs="?", default=1)
    words.add_argument("longest", type=int, nargs="?", default=12)
    asked = words.parse_args()
    rng, longest = random.Random(asked.seed), asked.longest
    write = sys.stdout.write
    for turn in range(asked.count):
        if turn % 10 == 9:
            write(refused(rng, turn // 10) + "\n")
        else:
            tag, grouping = rng.choice(TAGS), rng.choice(GROUPINGS)
            write(f"{tag}\tplain\t{grouping}\tkeep\t-\t{number(rng, longest)}\n")


main()
