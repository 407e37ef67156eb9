"""Prints the nanoseconds of calls of this package and of Babel, in turns, and the one over the other: that write a number in German, that read it
back, and of a number among many that are written. Each has a line for each count of digits.

usage: peers.py TURNS DIGITS..
"""
import array
import sys
import time
from decimal import Decimal
from functools import partial

from babel.numbers import format_decimal, parse_decimal
from legumeyet import DecimalFormatter

COUNT = 1000


def calls(digits):
    """The calls: a name, how many numbers each is of, how often it is made a turn, both calls, and the argument of both."""
    german = DecimalFormatter("de")
    written, read = partial(format_decimal, locale="de"), partial(parse_decimal, locale="de", strict=True)
    number = Decimal("987654321987654321"[:digits])
    all_written = lambda numbers: [written(it) for it in numbers]
    yield "format", 1, COUNT, german.format, written, number
    yield "read", 1, COUNT, german.read, read, written(number)
    yield "all", COUNT, 1, german.format_all, all_written, [number] * COUNT
    yield "row", COUNT, 1, german.format_all, all_written, array.array("q", [int(number)] * COUNT)


def timed(call, argument, count):
    """The nanoseconds of a call."""
    start = time.perf_counter_ns()
    for _ in range(count):
        call(argument)
    return (time.perf_counter_ns() - start) / count


def main(turns, *digits):
    """Times them."""
    print("call    digits   Python   Babel  ratio")
    for count in digits:
        for name, numbers, times, ours, theirs, argument in calls(int(count)):
            if ours(argument) != theirs(argument):
                print(f"bench: {name} of {count} digits differs: {ours(argument)} {theirs(argument)}", file=sys.stderr)
            least = [float("inf")] * 2
            for _ in range(int(turns)):
                for at, call in enumerate((ours, theirs)):
                    least[at] = min(least[at], timed(call, argument, times) / numbers)
            print(f"{name:<7} {count:>6}  {least[0]:>7.0f} {least[1]:>7.0f}  {least[0] / least[1]:>5.3f}")


main(*sys.argv[1:])
