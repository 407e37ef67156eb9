"""The words of a call of ./locale_numbers: those of the launcher's own, and those of the programs."""
import os
import re
from dataclasses import dataclass, field

from .common import PROGRAMS, USAGE, Fault
from .tables import table_of

SWITCHES = ("build", "built", "try", "world", "sample")
WITH_A_WORD = ("cldr", "jobs")
# The programs that answer side by side, at most.
MOST_JOBS = 1024
# Formatters that are kept over a book of all locales: with many locales in turn half the time of the program's own 16.
CAPACITY = "512"
# A word that asks the command for help or for its version.
HELP = re.compile(r"--help|--version|-p*[hV].*", re.DOTALL)


@dataclass
class Words:
    """What a call asks for: the launcher's options by name, and the other words."""

    options: dict = field(default_factory=dict)
    others: list = field(default_factory=list)

    def has(self, name):
        """Whether the option was given."""
        return name in self.options

    def jobs(self):
        """How many programs are to answer side by side: of 0 as many as there are processors, and for help one."""
        if any(HELP.fullmatch(word) for word in self.others):
            return 1
        return int(self.options.get("jobs", "1")) or len(os.sched_getaffinity(0))

    def words_for_programs(self, book):
        """The words for a program, where `book` is the path of a book of other data or None."""
        if book is None and not self.has("world"):
            return self.others
        if any(word.startswith("-") for word in self.others):
            return ["--book", book, *self.others]
        return ["--lines", *(["--book", book] if book else []), "--capacity", *(self.others or [CAPACITY])]


def check_together(said):
    """Refuses words that do not go together."""
    given = list(said.options)
    for name in ("build", "built"):
        if said.has(name) and len(given) > 1:
            raise Fault(f"--{name} takes no other option", USAGE)
    if said.has("build") and said.others:
        raise Fault("--build takes no other word", USAGE)
    if said.has("built") and said.others not in ([], *([name] for name in PROGRAMS)):
        raise Fault(f"--built takes the name of a program, {' or '.join(PROGRAMS)}, or none", USAGE)
    books = [name for name in ("world", "sample", "cldr") if said.has(name)]
    if len(books) > 1:
        raise Fault(f"--{books[0]} and --{books[1]} name two books: give one of them", USAGE)
    has_options = any(word.startswith("-") for word in said.others)
    if said.has("sample") and said.others:
        raise Fault("--sample is for lines, and takes no other word", USAGE)
    if said.has("world") and has_options:
        raise Fault("--world is for lines: with other options the book is that of all locales without it", USAGE)
    if books and not has_options and len(said.others) > 1:
        raise Fault(f"--{books[0]} takes one CAPACITY after it and no more", USAGE)


def check_jobs(said):
    """Refuses a count of jobs that is none, and jobs where neither lines nor a table are answered."""
    count = said.options.get("jobs")
    if count is None:
        return
    if not (count.isascii() and count.isdigit() and len(count) < 5 and int(count) <= MOST_JOBS):
        raise Fault(f"--jobs takes a number from 0 to {MOST_JOBS}", USAGE)
    options = [word for word in said.others if word.startswith("-")]
    if options and "--lines" not in options and not table_of(said.others):
        raise Fault("--jobs is for lines and for tables: without other options, with --lines or with --field", USAGE)


def read_words(words):
    """The options and other words of a call. Raises a Fault of usage where they do not go together."""
    said, left = Words(), list(words)
    while left:
        word = left.pop(0)
        name, equals, value = word[2:].partition("=")
        if word == "--":
            said.others += [word, *left]
            break
        if not word.startswith("--") or name not in (*SWITCHES, *WITH_A_WORD):
            said.others.append(word)
            continue
        if name in SWITCHES and equals:
            raise Fault(f"--{name} takes no word", USAGE)
        if name in WITH_A_WORD and not equals:
            if not left:
                raise Fault(f"--{name} needs a word after it", USAGE)
            value = left.pop(0)
        if name in WITH_A_WORD and not value:
            raise Fault(f"--{name} has an empty word", USAGE)
        if said.has(name):
            raise Fault(f"--{name} is there twice", USAGE)
        said.options[name] = value
    check_together(said)
    check_jobs(said)
    return said
