"""What a program wrote beside what it should have written."""
import itertools


def shown(line):
    """A line of bytes, cut where it is long."""
    text = repr(line.decode(errors="replace"))
    return text if len(text) <= 90 else f"{text[:87]}.."


def difference(got, wanted):
    """The first line that differs, and how many do, or an empty text."""
    pairs = itertools.zip_longest(got.splitlines(), wanted.splitlines(), fillvalue=b"no line")
    wrong = [(number, *pair) for number, pair in enumerate(pairs, 1) if pair[0] != pair[1]]
    if not wrong:
        return "" if got == wanted else "the last line feed differs"
    number, line, other = wrong[0]
    return f"lines that differ: {len(wrong)}; line {number} is {shown(line)}, and not {shown(other)}"
