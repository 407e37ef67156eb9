#!/usr/bin/env python3
"""Writes one request line in the form `plain` whose tag has many distinct variants or attributes.

usage: make_tag.py COUNT variants|attributes rising|falling|shuffled
"""
import argparse
import random
import sys

DIGITS = "0123456789abcdefghijklmnopqrstuvwxyz"


def piece(number):
    """A piece of six letters and digits: a greater number gives a greater piece."""
    text = ""
    for _ in range(5):
        number, digit = divmod(number, 36)
        text = DIGITS[digit] + text
    return "v" + text


def main():
    words = argparse.ArgumentParser(usage="make_tag.py COUNT variants|attributes rising|falling|shuffled", add_help=False)
    words.add_argument("count", type=int)
    words.add_argument("kind", choices=["variants", "attributes"])
    words.add_argument("order", choices=["rising", "falling", "shuffled"])
    asked = words.parse_args()
    pieces = [piece(number * 97) for number in range(asked.count)]
    if asked.order == "falling":
        pieces.reverse()
    elif asked.order == "shuffled":
        random.Random(1).shuffle(pieces)
    front = {"variants": "en-", "attributes": "en-u-"}[asked.kind]
    sys.stdout.write(front + "-".join(pieces) + "\tplain\tauto\tkeep\t-\t1234\n")


main()
