"""Tries the extension of SQLite, from its shell and from Python's module."""
import re
import shutil
import sys

import testing
from testing import TOP, environment, need

from .common import MOST_GROWTH, SANITIZE, folder, library, page_block, run, runtimes, trimmed

WARNINGS = "-O2 -Wall -Wextra -Wpedantic -Wshadow -Wconversion -Werror"
# Where the package of a release has it.
INSTALLED = "/usr/lib/x86_64-linux-gnu/sqlite3/legumeyet"
CAN_LOAD = "import sqlite3; sqlite3.connect(':memory:').enable_load_extension(True)"
VALGRIND = ("valgrind", "-q", "--error-exitcode=9", "--leak-check=full", "--errors-for-leak-kinds=definite,indirect")
# A thousand tags and then many, in columns, with how many kilobytes the process has before and after.
MANY_TAGS = """\
.load {extension}
CREATE VIEW few AS WITH RECURSIVE n(n) AS (SELECT 1 UNION ALL SELECT n + 1 FROM n LIMIT 20000) SELECT * FROM n;
CREATE VIEW many AS WITH RECURSIVE n(n) AS (SELECT 1 UNION ALL SELECT n + 1 FROM n LIMIT {rows}) SELECT * FROM n;
SELECT count(legumeyet_format(n, 'de-x-a' || (n % 1000))) FROM few;
.shell grep VmRSS /proc/$PPID/status
SELECT count(legumeyet_format(n, 'de-x-a' || n, CASE n % 3 WHEN 0 THEN '' ELSE '.00' END)) FROM many;
SELECT count(legumeyet_read('1,5', 'de-x-b' || n)) FROM few;
SELECT count(legumeyet_format(n, 'de-x-a' || n || '{long}')) FROM few;
.shell grep VmRSS /proc/$PPID/status
"""


def built(over, place, name, *flags):
    """The extension over a library, made in a folder, with these flags too."""
    source = place / name
    shutil.copytree(TOP / "sqlite", source)
    run("make", "-C", source, f"LEGUMEYET={over}", f"CFLAGS={' '.join([WARNINGS, *flags])}", env=environment())
    return source / "legumeyet.so"


def python_that_loads():
    """A Python whose module loads extensions."""
    for it in (sys.executable, "/usr/bin/python3"):
        if shutil.which(it) and run("sh", "-c", '"$0" -c "$1" 2>&1 || echo no', it, CAN_LOAD) == "":
            return it
    raise AssertionError("no Python is there whose module sqlite3 loads extensions")


class SQLite(testing.Rows):
    """Tests of the extension as it is, under valgrind, and under the sanitizers of gcc."""

    @classmethod
    def setUpClass(cls):
        """Makes it."""
        need("cc", "gcc", "make", "sqlite3", "sqlite3ext.h", "valgrind")
        cls.python, cls.extension = python_that_loads(), built(library(), folder(), "plain")

    def shell(self, extension, *words, **more):
        """A row: the rows of test.sql are answered as test.out has them."""
        script = f".load {extension}\n{(TOP / 'sqlite/test.sql').read_text(encoding='utf-8')}"
        said = run(*words, "sqlite3", "-batch", "-bail", ":memory:", stdin=script, cwd=folder(), env=environment(**more))
        self.row("the shell of SQLite", said, (TOP / "sqlite/test.out").read_text(encoding="utf-8"))

    def module(self, extension, **more):
        """The rows of test.py hold."""
        run(self.python, "-W", "error", TOP / "sqlite/test.py", env=environment(LEGUMEYET_SQLITE=extension, PYTHONDONTWRITEBYTECODE="1", **more))

    def growth(self, extension, rows, *words, **more):
        """By how many kilobytes the process grows that writes rows of as many tags as rows."""
        script = MANY_TAGS.format(extension=extension, rows=rows, long="-abcdefgh" * 40)
        said = run(*words, "sqlite3", "-batch", "-bail", ":memory:", stdin=script, env=environment(**more))
        self.row("rows of many tags", re.findall(r"^\d+$", said, re.M), ["20000", str(rows), "20000", "20000"])
        before, after = map(int, re.findall(r"VmRSS:\s*(\d+) kB", said))
        return after - before

    def test_shell(self):
        """From the shell."""
        self.shell(self.extension)

    def test_page(self):
        """What docs/databases.md has somebody type prints what it says, with this extension in place of the installed one."""
        typed, shown = page_block("SQLite")
        self.row("docs/databases.md", trimmed(run("sqlite3", ":memory:", stdin=typed.replace(INSTALLED, str(self.extension)))), shown)

    def test_module(self):
        """From Python's module."""
        self.module(self.extension)

    def test_many_tags(self):
        """A million tags hold no more memory than a thousand."""
        self.assertLessEqual(self.growth(self.extension, 1_000_000), MOST_GROWTH, "kB more after a million tags")

    def test_valgrind(self):
        """No call leaves memory, or reads what is not its own."""
        self.shell(self.extension, *VALGRIND)
        self.growth(self.extension, 20_000, *VALGRIND)

    def test_sanitized(self):
        """The sanitizers find nothing."""
        extension, how = built(library(), folder(), "sanitized", *SANITIZE), {"LD_PRELOAD": runtimes("gcc"), "ASAN_OPTIONS": "detect_leaks=0"}
        self.shell(extension, **how)
        self.growth(extension, 1_000_000, **how)
        self.module(extension, PYTHONMALLOC="malloc", **how)
