#!/usr/bin/env python3
"""Prints the lines of a crates.txt for a crate and all below it, lowest first, each without its comment.

usage: below.py CRATES_TXT CRATE
"""
import argparse


def main():
    words = argparse.ArgumentParser(usage="below.py CRATES_TXT CRATE", add_help=False)
    words.add_argument("list")
    words.add_argument("crate")
    asked = words.parse_args()
    try:
        with open(asked.list, encoding="utf-8") as text:
            rows = [line.partition("#")[0].strip() for line in text]
    except (OSError, ValueError) as error:
        words.error(f"{asked.list}: {getattr(error, 'strerror', None) or 'this is no text'}")
    lines = {row.partition(":")[0].split()[0]: row for row in rows if ":" in row}
    if asked.crate not in lines:
        words.error(f"{asked.list} has no crate {asked.crate}")
    shown = {}

    def show(name):
        for other in lines[name].partition(":")[2].split():
            if other in lines and other not in shown:
                show(other)
        shown[name] = lines[name]

    show(asked.crate)
    print(*shown.values(), sep="\n")


main()
