"""Rows of the extension of SQLite, by Python's module: LEGUMEYET_SQLITE is the path of legumeyet.so. Each value is that of CLDR, of ICU4C or of docs/."""
import os
import sqlite3
import threading
import unittest

EXTENSION = os.environ["LEGUMEYET_SQLITE"]


def connect(path=":memory:"):
    """A connection with the extension."""
    connection = sqlite3.connect(path)
    connection.enable_load_extension(True)
    connection.load_extension(EXTENSION)
    connection.enable_load_extension(False)
    return connection


WRITTEN = [
    # the number, the tag and the format; the text
    (1234567.891, "de", "", "1.234.567,891"), (12345678, "hi", "", "1,23,45,678"), ("1234567.891", "ar-EG", "", "١٬٢٣٤٬٥٦٧٫٨٩١"),
    ("1234.50", "de", "", "1.234,50"), ("0.123456789", "en", "  ", "0.123456789"), (1234.5, "de", "", "1.234,5"),
    (-9223372036854775808, "en", "", "-9,223,372,036,854,775,808"), (0.1, "en", "", "0.1"), (1e21, "en", "", "1,000,000,000,000,000,000,000"),
    (-0.0, "en", "", "-0"), ("1e3", "en", "", "1,000"), ("12345678901234567890.5", "en", "", "12,345,678,901,234,567,890.5"),
    (1234.5, "de", "currency/EUR", "1.234,50\u00a0€"), (1.005, "en", ".00", "1.00"), (5, "ja", "currency/JPY", "￥5"),
    (12.5, "tr", "percent", "%12,5"), (1650, "en", "compact-short", "1.6K"), (12345678, "hi", "compact-long", "1.2 करोड़"),
    (1234567.891, "de", "scientific", "1,234568E6"),
    (1234567, "de", "group-off", "1234567"), (5, "en", "sign-always", "+5"), (1.2, "en", ".00##", "1.20"),
    ("0.123456789", "en", "sign-auto", "0.123457"), ("1.50", "en", "sign-auto", "1.5"),
    (1234567.891, "de", "@@#", "1.230.000"), (0.0012345, "de", "@@#", "0,00123"), (5, "en", "@@#", "5.0"), ("1.500", "en", "@@#", "1.5"),
    (12345678, "hi", "currency/INR @@#", "₹1,23,00,000"), (12.345, "en", "@@# percent", "12.3%"), (5, "de", "permille", "5\u00a0‰"), (1234.567, "de", ".0#/@@r", "1.234,57"),
    (0.012345, "de", ".0#/@@r", "0,012"), (5, "de", ".0#/@@r", "5,0"), (1234.567, "de", ".0#/@@s", "1.200"), (1234.5, "es", "", "1234,5"),
    (1234.5, "es", "group-on-aligned", "1.234,5"), (1234, "pl", ",!", "1\u00a0234"),
    (1234.5, "es", "currency/EUR group-on-aligned", "1.234,50\u00a0€"),
]
READ = [
    # the text, the tag and the format; the number
    ("1.234,5", "de", "", 1234.5), (" 1234,50 ", "de", "", 1234.5), ("१२३", "hi", "", 123), (".5", "en", "", 0.5), ("-5", "en", "", -5),
    ("1.234,50 €", "de", "currency/EUR", 1234.5), ("12,5 %", "de", "percent", 12.5), ("1,234.5", "ar-EG", "", 1234.5),
    ("9,223,372,036,854,775,807", "en", "", 2**63 - 1), ("-9,223,372,036,854,775,808", "en", "", -2**63),
    ("9,223,372,036,854,775,808", "en", "", "9223372036854775808"), ("99,999,999,999,999.99", "en", "", "99999999999999.99"),
    ("123456789012345", "en", "", 123456789012345), ("1234567890123.45", "en", "", 1234567890123.45), ("0.1", "en", "", 0.1),
    ("0.0000000000000000000001", "en", "", 1e-22), ("0.00000000000000000000001", "en", "", "0.00000000000000000000001"),
    ("1.234,5", "es", "group-on-aligned", 1234.5), ("1234,5", "es", "group-on-aligned", 1234.5), ("007", "en", "", 7), ("0.30", "en", "", 0.3), (1234.5, "de", "", 1234.5), (7, "de", "", 7),
]
PLURALS = [
    # the number, the tag and the type; the word
    (1, "pl", "cardinal", "one"), (2, "pl", "cardinal", "few"), (5, "pl", "cardinal", "many"), (1.5, "pl", "cardinal", "other"), ("1.0", "en", "cardinal", "other"),
    (1.0, "en", "cardinal", "one"), (0, "ar", "cardinal", "zero"), (1000000, "fr", "cardinal", "many"), (1, "ja", "cardinal", "other"),
    (1, "en", "ordinal", "one"), (2, "en", "ordinal", "two"), (3, "en", "ordinal", "few"), (11, "en", "ordinal", "other"), (1, "de", "ordinal", "other"),
]
REFUSED = [
    # a call; what the message has
    ("legumeyet_format(1, 'e')", "'e'"), ("legumeyet_format(1, '')", "''"), ("legumeyet_format(1, 'de_DE')", "'de_DE'"),
    ("legumeyet_format(1, 'xx')", "'xx'"), ("legumeyet_format(1, 'en', 'percent foo')", "'foo'"), ("legumeyet_format(1, 'en', 'currency/EURO')", "'currency/EURO'"),
    ("legumeyet_format(1, 'en', 'compact-short currency/EUR')", "'compact-short currency/EUR'"), ("legumeyet_format(1, 'en', 'unit/meter')", "'unit/meter'"),
    ("legumeyet_format(1, 'en', 'compact-short scale/100')", "'scale/100'"),
    ("legumeyet_format('5.', 'en')", "'5.'"), ("legumeyet_format('12 apples', 'en')", "'12 apples'"), ("legumeyet_format('', 'en')", "''"),
    ("legumeyet_format(x'31', 'en')", "a blob is no number"), ("legumeyet_format(9e999, 'en')", "infinity"), ("legumeyet_format(-9e999, 'en')", "infinity"),
    ("legumeyet_format('NaN', 'en')", "'NaN'"), ("legumeyet_format('1e40000', 'en')", "'1e40000'"), ("legumeyet_format(1, x'65ff')", "legumeyet: "),
    ("legumeyet_format(1, 'en', cast(x'ff' as text))", "legumeyet: "), ("legumeyet_format(cast(x'31ff' as text), 'en')", "legumeyet: "),
    ("legumeyet_format(cast(x'310032' as text), 'en')", "'1'"), ("legumeyet_format(1, cast(x'656e00' as text))", "'en'"),
    ("legumeyet_plural(1, 'en', 'ordinals')", "a type of plural categories is"), ("legumeyet_plural(1, 'en', '')", "a type of plural categories is"),
    ("legumeyet_plural('x', 'en')", "'x'"), ("legumeyet_plural(1, 'xx', 'ordinal')", "'xx'"), ("legumeyet_plural(x'31', 'en')", "a blob is no number"),
    ("legumeyet_read('1,23', 'en')", "'1,23'"), ("legumeyet_read('', 'en')", "''"), ("legumeyet_read(cast(x'31ff' as text), 'en')", "legumeyet: "),
    ("legumeyet_read('1,2M', 'en', 'compact-short')", "'1,2M'"), ("legumeyet_read('12E6', 'en', 'scientific')", "'12E6'"), ("legumeyet_read_or_null('1', 'e')", "'e'"), ("legumeyet_read(x'31', 'en')", "a blob is no text"),
    ("legumeyet_format(1, replace(hex(zeroblob(200)), '0', 'é'))", "é'"), ("legumeyet_format(1)", "wrong number of arguments"),
]
NULLS = [
    "legumeyet_plural(NULL, 'de')", "legumeyet_plural(1, NULL)", "legumeyet_plural(1, 'de', NULL)", "legumeyet_format(NULL, 'de')", "legumeyet_format(1, NULL)", "legumeyet_format(1, 'de', NULL)", "legumeyet_read(NULL, 'de')", "legumeyet_read_or_null('x', 'de')",
    "legumeyet_read_or_null('1,23', 'en')", "legumeyet_read_or_null('', 'en')", "legumeyet_read_or_null(cast(x'ff' as text), 'en')", "legumeyet_read_or_null(x'31', 'en')",
]


class Calls(unittest.TestCase):
    """One call each."""

    def setUp(self):
        self.connection = connect()

    def tearDown(self):
        self.connection.close()

    def value(self, call, *arguments):
        """What an expression is."""
        return self.connection.execute(f"SELECT {call}", arguments).fetchone()[0]

    def test_written(self):
        for number, tag, form, text in WRITTEN:
            with self.subTest(number=number, tag=tag, form=form):
                self.assertEqual(self.value("legumeyet_format(?, ?, ?)", number, tag, form), text)
                if not form.strip():
                    self.assertEqual(self.value("legumeyet_format(?, ?)", number, tag), text)

    def test_plurals(self):
        for number, tag, kind, word in PLURALS:
            with self.subTest(number=number, tag=tag, kind=kind):
                self.assertEqual(self.value("legumeyet_plural(?, ?, ?)", number, tag, kind), word)
                if kind == "cardinal":
                    self.assertEqual(self.value("legumeyet_plural(?, ?)", number, tag), word)

    def test_read(self):
        for text, tag, form, number in READ:
            for call in ("legumeyet_read", "legumeyet_read_or_null"):
                with self.subTest(text=text, tag=tag, form=form, call=call):
                    got = self.value(f"{call}(?, ?, ?)", text, tag, form)
                    self.assertEqual((type(got), got), (type(number), number))

    def test_refused(self):
        for call, message in REFUSED:
            with self.subTest(call=call):
                with self.assertRaises(sqlite3.OperationalError) as refused:
                    self.value(call)
                self.assertIn(message, str(refused.exception))
                self.assertEqual(self.value("legumeyet_format(1234.5, 'de')"), "1.234,5")

    def test_nulls(self):
        for call in NULLS:
            with self.subTest(call=call):
                self.assertIsNone(self.value(call))

    def test_long(self):
        digits = "1" + "0" * 32767
        self.assertEqual(self.value("legumeyet_format(?, 'en', 'group-off')", digits), digits)
        self.assertEqual(self.value("length(legumeyet_format(?, 'en'))", digits), 32768 + 10922)
        self.assertEqual(self.value("legumeyet_read(?, 'en')", digits), digits)
        self.assertEqual(self.value("legumeyet_format(1.5, ?)", "de" + "-x" + "-abcdefgh" * 1000), "1,5")
        self.assertEqual(self.value("legumeyet_read_or_null(?, 'en') IS NULL", "1" * 1_000_000), 1)

    def test_names_are_cut_at_a_character(self):
        with self.assertRaises(sqlite3.OperationalError) as refused:
            self.value("legumeyet_format(1, ?)", "e" + "é" * 100)
        self.assertIn(f"'e{'é' * 49}'", str(refused.exception))


class Columns(unittest.TestCase):
    """Many rows, with tags and formats that are columns or not."""

    def setUp(self):
        self.connection = connect()
        self.connection.execute("CREATE TABLE t (at INTEGER PRIMARY KEY, n REAL, tag TEXT, form TEXT, typed TEXT)")
        rows = [(at, at + 0.5, ("de", "en", "hi")[at % 3], ("", ".00")[at % 2], "1,5" if at % 3 == 0 else "1.5") for at in range(600)]
        self.connection.executemany("INSERT INTO t VALUES (?, ?, ?, ?, ?)", rows)

    def tearDown(self):
        self.connection.close()

    def column(self, call):
        """What an expression is in each row."""
        return [row[0] for row in self.connection.execute(f"SELECT {call} FROM t ORDER BY at")]

    def test_columns(self):
        def text(at, tag, form):
            return f"{at}{',' if tag == 'de' else '.'}5{'0' if form else ''}"

        tags, forms = ("de", "en", "hi"), ("", ".00")
        self.assertEqual(self.column("legumeyet_format(n, 'de')"), [text(at, "de", "") for at in range(600)])
        self.assertEqual(self.column("legumeyet_format(n, tag)"), [text(at, tags[at % 3], "") for at in range(600)])
        self.assertEqual(self.column("legumeyet_format(n, 'de', form)"), [text(at, "de", forms[at % 2]) for at in range(600)])
        self.assertEqual(self.column("legumeyet_format(n, tag, '.00')"), [text(at, tags[at % 3], ".00") for at in range(600)])
        self.assertEqual(self.column("legumeyet_format(n, tag, form)"), [text(at, tags[at % 3], forms[at % 2]) for at in range(600)])
        both = self.column("legumeyet_format(n, 'de') || legumeyet_format(n, 'en', '.00')")
        self.assertEqual(both, [text(at, "de", "") + text(at, "en", ".00") for at in range(600)])
        self.assertEqual(self.column("legumeyet_read(typed, tag)"), [1.5] * 600)

    def test_more_tags_than_are_kept(self):
        texts = [f"{at},5" for at in range(600)]
        for tag in ("'de-x-a' || at", "'de-x-a' || (at % 300)", "substr('de-x-abcdefgh', 1, 6 + at % 8)", f"'de-x-a' || (at % 2) || '{'-abcdefgh' * 40}'"):
            with self.subTest(tag=tag):
                self.assertEqual(self.column(f"legumeyet_format(n, {tag})"), texts)
        both = self.column("legumeyet_format(n, 'de-x-a' || at, '.00') || legumeyet_format(n, 'en-x-a' || at) || legumeyet_format(n, 'de', '.0' || printf('%300c', ' '))")
        self.assertEqual(both, [f"{at},50{at}.5{at},5" for at in range(600)])

    def test_a_second_load(self):
        def load():
            self.connection.enable_load_extension(True)
            self.connection.load_extension(EXTENSION)

        texts = self.column("legumeyet_format(n, tag, form)")
        load()
        self.assertEqual(self.column("legumeyet_format(n, tag, form)"), texts)
        rows = self.connection.execute("SELECT legumeyet_format(n, tag, form) FROM t ORDER BY at")
        self.assertEqual(next(rows)[0], texts[0])
        with self.assertRaises(sqlite3.OperationalError):
            load()
        self.assertEqual([row[0] for row in rows], texts[1:])

    def test_a_row_that_is_refused(self):
        self.connection.execute("UPDATE t SET tag = 'e' WHERE at = 300")
        with self.assertRaises(sqlite3.OperationalError):
            self.column("legumeyet_format(n, tag)")
        self.assertEqual(len(self.column("legumeyet_format(n, 'de')")), 600)

    def test_an_index_and_a_generated_column(self):
        self.connection.execute("CREATE TABLE g (n, label TEXT AS (legumeyet_format(n, 'de', '.00')) STORED, CHECK (legumeyet_format(n, 'de') IS NOT NULL))")
        self.connection.execute("CREATE INDEX i ON g (legumeyet_format(n, 'en'))")
        self.connection.executemany("INSERT INTO g (n) VALUES (?)", [(1234.5,), (7,)])
        self.assertEqual(self.connection.execute("SELECT label FROM g ORDER BY n").fetchall(), [("7,00",), ("1.234,50",)])
        plan = self.connection.execute("EXPLAIN QUERY PLAN SELECT n FROM g WHERE legumeyet_format(n, 'en') = '7'").fetchall()
        self.assertIn("USING INDEX i", plan[0][3])

    def test_a_schema_that_is_not_trusted(self):
        self.connection.execute("CREATE VIEW v AS SELECT legumeyet_format(n, 'de') AS label FROM t WHERE at = 1")
        self.connection.execute("PRAGMA trusted_schema = OFF")
        self.assertEqual(self.connection.execute("SELECT label FROM v").fetchone()[0], "1,5")

    def test_a_statement_that_is_stopped(self):
        self.connection.set_progress_handler(lambda: 1, 2000)
        with self.assertRaises(sqlite3.OperationalError):
            self.column("legumeyet_format(n, tag, form)")
        self.connection.set_progress_handler(None, 0)
        self.assertEqual(len(self.column("legumeyet_format(n, tag, form)")), 600)

    def test_the_encoding_utf_16(self):
        connection = connect()
        connection.execute("PRAGMA encoding = 'UTF-16'")
        connection.execute("CREATE TABLE u (tag, n)")
        connection.execute("INSERT INTO u VALUES ('de', '1234.5')")
        self.assertEqual(connection.execute("SELECT legumeyet_format(n, tag, 'currency/EUR') FROM u").fetchone()[0], "1.234,50\u00a0€")
        connection.close()


class Connections(unittest.TestCase):
    """Several connections of a process."""

    def test_threads(self):
        faults = []

        def work(tag, text):
            try:
                for _ in range(5):
                    connection = connect()
                    for _ in range(50):
                        got = connection.execute("SELECT legumeyet_format(1234567.891, ?)", (tag,)).fetchone()[0]
                        if got != text:
                            faults.append(got)
                    connection.close()
            except sqlite3.Error as error:
                faults.append(error)

        asked = {"de": "1.234.567,891", "en": "1,234,567.891", "hi": "12,34,567.891", "ar-EG": "١٬٢٣٤٬٥٦٧٫٨٩١"}
        threads = [threading.Thread(target=work, args=it) for it in list(asked.items()) * 3]
        for it in threads:
            it.start()
        for it in threads:
            it.join()
        self.assertEqual(faults, [])

    def test_many_connections_hold_one_book(self):
        def size():
            with open("/proc/self/statm", encoding="ascii") as said:
                return int(said.read().split()[1])

        connect().close()
        before = size()
        for _ in range(50):
            connection = connect()
            connection.execute("SELECT legumeyet_format(1, 'de')").fetchone()
            connection.close()
        self.assertLess(size() - before, 2048)

    def test_the_version(self):
        self.assertRegex(connect().execute("SELECT legumeyet_version()").fetchone()[0], r"^\d+\.\d+$")


if __name__ == "__main__":
    unittest.main()
