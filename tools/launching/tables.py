"""The tables of --field: where their records end, and what a slice of one needs beside its records.

A program that gets a slice after the first gets the header in front of it, so that the names of fields mean the same. What it writes
for the header is left out, and the numbers of records in its messages become those of the whole table.
"""
import io
import re

from .common import tell

LINE_FEED, QUOTE, MARK = b"\n", b'"', b"\xef\xbb\xbf"
# How many bytes a record may have before a line feed in quotes is no longer read over: LONGEST of legumeyet_columns.
LONGEST = 1 << 24
# The number of a record in a message, and how many bytes of a line have all of it.
NUMBERED, WITH_ITS_NUMBER = re.compile(rb"(\nlegumeyet: record )([0-9]+)"), 1 << 6


class Records:
    """The records of a table, read on piece by piece: how many have ended, and in which place the next piece begins.

    The rule is `Dialect::after` of legumeyet_columns. In front of a field a quote begins quotes, and a quote in them ends them, behind
    which another one begins them again. Any other quote is an ordinary byte. A line feed outside quotes ends a record.
    """

    def __init__(self, delimiter, has_quotes):
        self.delimiter, self.has_quotes = delimiter, has_quotes
        # bytes that stand for a quote in front of a field, and for an ordinary byte
        self.front, self.ordinary = [it for it in (b"\0", b"\1", b"\2") if it != delimiter][:2]
        signs = self.front + QUOTE
        self.others, self.quoted = bytes({*range(256)}.difference(signs + LINE_FEED)), re.compile(b"%b[^%b]*[%b]?" % (self.front, signs, signs))
        self.count, self.is_long = 0, False
        # how much of a record was read that has not ended, and a beginning of a field that stands for it
        self.length, self.place = 0, b""

    def read(self, piece):
        """Reads on, and returns the place in the piece after the last record that ends in it, or 0."""
        if not self.has_quotes or self.length + len(piece) <= LONGEST:
            return self.read_short(piece)
        end = at = 0
        for line in io.BytesIO(piece):
            at += len(line)
            end = at if self.read_short(line) else end
            if self.length > LONGEST and self.place == QUOTE and line.endswith(LINE_FEED):
                self.is_long = True
                break
        return end

    def read_short(self, piece):
        """The same of a piece in which no record gets too long."""
        is_marked = piece.startswith(MARK) and not (self.count or self.length)
        text = self.place + (piece[len(MARK) :] if is_marked else piece)
        if self.has_quotes and QUOTE in text:
            feeds = self.feeds_in(text)
        else:
            feeds, self.place = piece, self.place_after(text, False)
        end = feeds.rfind(LINE_FEED) + 1
        if end and feeds is not piece:
            end = nth_last_feed(piece, feeds.count(self.ordinary, end))
        self.count += feeds.count(LINE_FEED)
        self.length = len(piece) - end + (0 if end else self.length)
        return end

    def feeds_in(self, text):
        """The line feeds of a text, with an ordinary byte for each one in quotes, among other bytes. The place is then that at its end."""
        # two quotes together change nothing, in quotes and outside of them
        text = text.replace(self.front, self.ordinary).replace(QUOTE * 2, b"")
        signs = self.signs_of(text)
        is_open, was_open = is_in_quotes(signs, self.front), is_in_quotes(signs[:-1], self.front)
        self.place = QUOTE if is_open else self.place_after(text, was_open)
        # so do two in front of a field, and one of them before a quote that is not, but where a line feed is between them
        signs = signs.replace(self.front * 2, b"").replace(self.front + QUOTE, QUOTE)
        return self.quoted.sub(lambda found: found[0].replace(LINE_FEED, self.ordinary), signs)

    def signs_of(self, text):
        """The line feeds and quotes of a text in which no two quotes are together. One in front of a field, which is a sign of its own,
        begins quotes or ends them. Any other one ends them, or is an ordinary byte, so what is behind it is outside quotes."""
        if text.startswith(QUOTE):
            text = self.front + text[1:]
        for before in (self.delimiter, LINE_FEED):
            text = text.replace(before + QUOTE, before + self.front)
        return text.translate(None, self.others)

    def place_after(self, text, was_open):
        """The place at the end of a text that does not end in quotes, where `was_open` says whether its last sign was in quotes."""
        is_front = text[-1:] in (b"", self.delimiter, LINE_FEED) or text.endswith(QUOTE) and was_open
        return b"" if is_front else self.ordinary


def is_in_quotes(signs, front):
    """Whether what is behind these signs is in quotes, where `front` is that of a quote in front of a field."""
    return signs.rpartition(QUOTE)[2].count(front) % 2 > 0


def nth_last_feed(piece, count):
    """The place in a piece behind the line feed that so many others follow."""
    end = len(piece)
    for _ in range(count + 1):
        end = piece.rfind(LINE_FEED, 0, end)
    return end + 1


class Table:
    """The table that the words of a call are for: its header, its records, and how the programs of its slices are called."""

    def __init__(self, words):
        delimiter = [*values_of(words, "--delimiter"), ","][0].encode(errors="surrogateescape")
        has_quotes = delimiter not in (b"tab", b"\t")
        self.records = Records(delimiter[:1] if has_quotes else b"\t", has_quotes)
        self.headers, self.header = headers_of(words), bytearray()
        self.is_aborted = "abort" in values_of(words, "--invalid")
        self.others = words if self.headers else ["--header=1", *(it for it in words if it.partition("=")[0] != "--header")]

    def read(self, piece):
        """Reads on, and returns the place in the piece after the last record that ends in it, but not one within the header, or 0."""
        at = 0
        for line in io.BytesIO(piece) if self.records.count < self.headers else ():
            self.records.read(line)
            self.header += line
            at += len(line)
            if self.records.count == self.headers or self.records.is_long:
                break
        if self.records.is_long or self.records.count < self.headers:
            return 0
        return at + self.records.read(piece[at:] if at else piece)

    @property
    def is_over(self):
        """Whether nothing is written of what comes after the piece that was read."""
        return self.records.is_long

    def front(self):
        """What is put in front of a slice after the first: the header, or a line where there is none, since what is first in a table may
        have a byte order mark."""
        return bytes(self.header) or LINE_FEED

    def shift(self):
        """By how much a program's numbers of records are too small in the slice after what is read."""
        return self.records.count - (self.headers or 1)

    def goes_on(self, status):
        """Whether programs after one with this status answer too."""
        return status == 0 or status == 1 and not self.is_aborted


class Messages:
    """What a program says of its slice, with the numbers of records made those of the whole table."""

    def __init__(self, shift):
        # what is known of the last line: a line feed that is told already, and what is behind it; nothing where its number is told
        self.shift, self.left = shift, LINE_FEED

    def send(self, piece):
        """Sends a piece on, but the end of it that may be a part of a number."""
        text = self.left + piece
        end = text.rfind(LINE_FEED) + 1
        if not end or len(text) - end >= WITH_ITS_NUMBER:
            end = len(text)
        self.tell(text[:end])
        self.left = text[end - 1 :] if text[end - 1 : end] == LINE_FEED else b""

    def tell(self, text):
        """Tells a text that begins with what was left."""
        told = NUMBERED.sub(lambda found: b"%b%d" % (found[1], int(found[2]) + self.shift), text)
        tell(told[len(self.left[:1]) :])

    def end(self):
        """Tells what is left."""
        self.tell(self.left)


def values_of(words, name):
    """The values that the words give an option by its name, up to a word of two hyphens. (Where the words are right, one that begins with
    two hyphens is no value.)"""
    words = words[: words.index("--")] if "--" in words else words
    following = [*words[1:], ""]
    return [after if word == name else word[len(name) + 1 :] for word, after in zip(words, following) if word.partition("=")[0] == name]


def headers_of(words):
    """How many first records are a header: what --header says, else one where a field is chosen by its name."""
    said = [word.partition("=")[2] if "=" in word else "1" for word in words if word.partition("=")[0] == "--header"]
    if said:
        return int(said[0].lstrip("+0") or "0") if re.fullmatch(r"\+?0*[0-9]{1,5}", said[0]) else 0
    names = [value.rpartition("=")[0] if "=" in value else value for value in values_of(words, "--field")]
    return 0 if all(re.fullmatch("[0-9]+", name) for name in names) else 1


def table_of(words):
    """The table that the words are for, or None where they are for lines."""
    return Table(words) if values_of(words, "--field") else None
