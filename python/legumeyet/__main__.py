"""Writes numbers for a locale, each on a line."""
import argparse
import errno
import os
import sys
from typing import List

from legumeyet import Book, CompactDecimalFormatter, DecimalFormatter, Error, Width, tag_of_locale_name


def tell(said: str) -> None:
    """Writes a line on standard error, where there is one: else `print` would write it on standard output."""
    if sys.stderr is not None:
        print(said, file=sys.stderr)


def told(error: Exception) -> int:
    """Says in a line why no more is written, and returns the status."""
    said = str(error)
    if isinstance(error, UnicodeEncodeError):
        said = f"standard output, which is {error.encoding}, has no such character"
    elif isinstance(error, OSError):
        said = f"{error.filename or 'standard output'}: {error.strerror}"
        if not error.filename:
            os.dup2(os.open(os.devnull, os.O_WRONLY), 1)  # else Python writes what is left once more, at its end
    tell(f"legumeyet: {said}")
    return 1


def main(given: List[str]) -> int:
    """Writes the numbers of the words that are given. A number that is refused has a line on standard error, and the status is 1."""
    usage = "python3 -m legumeyet [--short | --long] [--book FILE] TAG NUMBER.."
    words = argparse.ArgumentParser(prog="legumeyet", usage=usage, description=__doc__)
    width = words.add_mutually_exclusive_group()
    width.add_argument("--short", action="store_const", const=Width.SHORT, dest="width", help="in short compact form, as 1.2K")
    width.add_argument("--long", action="store_const", const=Width.LONG, dest="width", help="in long compact form, as 1.2 thousand")
    words.add_argument("--book", metavar="FILE", help="a book in place of the world's, as books/make-cldr makes it")
    words.add_argument("tag", metavar="TAG", help="a locale tag, as de-AT, or a locale's name, as de_AT.UTF-8")
    words.add_argument("numbers", metavar="NUMBER", nargs=argparse.REMAINDER, help="a decimal number, as -987654.321")
    said = words.parse_args(given)
    status = 0
    try:
        if sys.stdout is None:
            raise OSError(errno.EBADF, os.strerror(errno.EBADF))
        tag = tag_of_locale_name(said.tag)
        with Book.world() if said.book is None else Book.from_file(said.book) as book:
            formatter = DecimalFormatter(book, tag) if said.width is None else CompactDecimalFormatter(book, tag, width=said.width)
        for number in said.numbers:
            try:
                print(formatter.format(number))
            except Error as error:
                tell(f"{number}: {error.word}")
                status = 1
        sys.stdout.flush()
    except (Error, OSError, UnicodeEncodeError) as error:
        return told(error)
    return status


if __name__ == "__main__":
    sys.exit(main(sys.argv[1:]))
