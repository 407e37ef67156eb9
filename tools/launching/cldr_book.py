"""A book of other data of CLDR, made by books/make-cldr and kept in the user's folder of caches.

A book is named by two checksums, of the scripts and data that it was made of and of its own text, so it is never taken for
that of other data, nor where it is damaged. A note for each folder says which data it had when it was last looked at, so that
a call reads no data where none was touched, and needs none where the folder is gone.
"""
import contextlib
import glob
import hashlib
import os
import secrets
import stat
import subprocess
import sys

from .common import TOP, Fault, fault_of, read_text, say, write_whole
from .guard import Guard

PARTS = ("main", "supplemental")
# What a book may have beside numbers: the first of these for which the data has all.
MORE = (("--units", "--more"), ("--units",), ("--more",), ())


def cache_folder():
    """Where books are kept: below XDG_CACHE_HOME where that is a path from the root, else below ~/.cache."""
    place = os.environ.get("XDG_CACHE_HOME") or ""
    if not os.path.isabs(place):
        place = os.path.expanduser("~/.cache")
    if not os.path.isabs(place):
        raise Fault("no folder of caches is known: name one by HOME or XDG_CACHE_HOME")
    return f"{place}/legumeyet"


def read_files(folder):
    """The files that a book is made of, in order: the scripts and the data, each with its folder and its name there."""
    for name in sorted(os.listdir(f"{TOP}/books")):
        if name == "make-cldr" or name.endswith(".py"):
            yield f"{TOP}/books", name
    for part in PARTS:
        for name in sorted(os.listdir(f"{folder}/{part}")):
            if name.endswith(".xml"):
                yield folder, f"{part}/{name}"


def told(folder, of_text):
    """A checksum over these files: of their texts, or of what tells that one was touched."""
    found = hashlib.sha256()
    for place, name in read_files(folder):
        path = f"{place}/{name}"
        it = os.stat(path)
        if not stat.S_ISREG(it.st_mode):
            raise Fault(f"{path} is not a file")
        if of_text:
            with open(path, "rb") as file:
                found.update(os.fsencode(f"{name}\n") + hashlib.sha256(file.read()).digest())
        else:
            found.update(os.fsencode(f"{path} {it.st_ino} {it.st_size} {it.st_mtime_ns} {it.st_ctime_ns}\n"))
    return found.hexdigest()


def sum_of(path):
    """The checksum of a file, or an empty text where it can't be read."""
    try:
        with open(path, "rb") as file:
            return hashlib.sha256(file.read()).hexdigest()
    except OSError:
        return ""


def kept_book(cache, text):
    """The path of the book of the data with this checksum, or None. A damaged one counts for nothing."""
    whole = (it for it in glob.glob(f"{glob.escape(f'{cache}/{text}')}-*.json") if it.endswith(f"-{sum_of(it)}.json"))
    return next(whole, None) if text else None


def run_maker(guard, folder, book, *more):
    """Has books/make-cldr make the book of this data. Python keeps nothing of its modules, which a full disk would cut short."""
    words = guard.words(sys.executable, "-EsSB", "-X", f"pycache_prefix={os.devnull}", f"{TOP}/books/make-cldr", *more, "--from", folder, book)
    return subprocess.run(words, stdin=subprocess.DEVNULL, stdout=subprocess.DEVNULL, stderr=subprocess.PIPE, errors="replace", check=False)


def make(folder, cache, state, text):
    """Makes the book of this data in a room beside its place, with units, and with ordinal rules and ranges, where the data has them, names
    it and returns its path. Nothing is kept where it goes wrong."""
    room = f"{cache}/part-{secrets.token_hex(8)}"
    with Guard(room) as guard:
        os.mkdir(room)
        book = f"{room}/book"
        for more in MORE:
            ran = run_maker(guard, folder, book, *more)
            if not ran.returncode:
                break
        if ran.returncode:
            lines = ran.stderr.strip().splitlines() or [f"make-cldr ended with status {ran.returncode}"]
            raise Fault(f"no book was made of {folder}: {lines[-1].removeprefix('make-cldr: ')}")
        if told(folder, False) != state:
            raise Fault(f"no book was made of {folder}: its data was touched meanwhile; call again")
        place = f"{cache}/{text}-{sum_of(book)}.json"
        os.rename(book, place)
    say(f"made a book of {folder}: {place}")
    return place


def book_of_data(folder, cache, note):
    """The path of the book of a folder that is there, which is made where it was not made yet of this data."""
    was, text = (read_text(note).split() + ["", ""])[:2]
    state = told(folder, False)
    book = kept_book(cache, text) if was == state else None
    if book:
        return book
    text = told(folder, True)
    os.makedirs(cache, exist_ok=True)
    book = kept_book(cache, text) or make(folder, cache, state, text)
    # without a note the next call looks closer
    with contextlib.suppress(OSError):
        write_whole(note, f"{state} {text}\n")
    return book


def book_of(named):
    """The path of the book of a folder `common` of CLDR, made now or before."""
    folder = os.path.abspath(named)
    cache = f"{cache_folder()}/books"
    note = f"{cache}/{hashlib.sha256(os.fsencode(os.path.realpath(folder))).hexdigest()}.folder"
    if not os.path.exists(folder):
        book = kept_book(cache, (read_text(note).split() + ["", ""])[1])
        if not book:
            raise Fault(f"{named} is not there, and no book was made of it before")
        say(f"{named} is not there: the book that was made of it before is used")
        return book
    if not all(os.path.isdir(f"{folder}/{part}") for part in PARTS):
        raise Fault(f"{named} is no folder `common` of CLDR: that has the folders main and supplemental")
    try:
        return book_of_data(folder, cache, note)
    except OSError as error:
        raise Fault(f"no book was made of {named}: {fault_of(error)}") from None
