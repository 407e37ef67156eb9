"""Tries the extension of PostgreSQL, on servers of its own, for each version that is installed."""
import contextlib
import functools
import os
import re
import shutil
import signal
import subprocess
import time

import testing
from releasing.common import header_version
from releasing.databases import VERSIONS, postgresql_versions
from testing import BOUND, need

from .common import MOST_GROWTH, folder, library, page_block, trimmed
from .server import Server, made

# The versions that the extension is written for.
WRITTEN_FOR = ("13", "14", "15", "16", "17")
EXTENSION = "legumeyet"
GERMAN = "SELECT legumeyet.format(1234567.891, 'de')"
# A later version of the script, which tools/try_databases makes up, so that one is updated to another.
LATER_VERSION = "2.999"
LATER = "CREATE FUNCTION @extschema@.later() RETURNS text LANGUAGE SQL IMMUTABLE AS $$ SELECT @extschema@.format(1234.5, 'de') $$;\n"
# A thousand tags, and how many kilobytes the backend has then.
SIZE = "\\! grep VmRSS /proc/$PID/status\n"
WARM = f"""\
SELECT pg_backend_pid() AS pid \\gset
\\setenv PID :pid
SELECT count(legumeyet.format(n, 'de-x-a' || n % 1000)) FROM generate_series(1, 20000) n;
{SIZE}"""
# Then a million of them, and how many it has after that.
MANY_TAGS = f"""{WARM}\
SELECT count(legumeyet.format(n, 'de-x-a' || n, CASE n % 3 WHEN 0 THEN '' ELSE '.00' END)) FROM generate_series(1, 1000000) n;
SELECT count(legumeyet.read('1,5', 'de-x-b' || n)) FROM generate_series(1, 100000) n;
{SIZE}"""
# A statement that writes numbers for hours, from its first millisecond on: in FROM the series would be made before them, and where the planner knew
# how long it is, the statement would be compiled first.
ENDLESS = "SELECT count(legumeyet.format(n, 'de-x-a' || n)) FROM (SELECT generate_series(1, (SELECT 1000000000)) AS n) AS numbers;\n"
# The backend that is at it.
BACKEND = """SELECT pid FROM pg_stat_activity WHERE query LIKE 'SELECT count(legumeyet%' AND state = 'active'
    AND query_start < clock_timestamp() - interval '0.5 s'"""
# Or ten that are cancelled, and one after them in the same session.
CANCELLED = f"""{WARM}\
SET statement_timeout = 200;
{10 * ENDLESS}\\echo :SQLSTATE
{SIZE}SET statement_timeout = 0;
{GERMAN};
"""
AMOUNTS = """\
CREATE TABLE amounts AS SELECT n, (n * 7919 % 100000007 - 50000000)::numeric / 100 AS amount,
    (ARRAY['de', 'hi', 'ar-EG', 'en', 'fr-CH'])[n % 5 + 1] AS tag FROM generate_series(1, 200000) n;
ANALYZE amounts;
"""
PARALLEL = "SET parallel_setup_cost = 0; SET parallel_tuple_cost = 0; SET min_parallel_table_scan_size = 0;"
SUM = "SELECT sum(hashtextextended(legumeyet.format(amount, tag, 'currency/EUR'), n)) FROM amounts"
# A table whose parts are on other servers, which here are other databases of the same one, and a part of each: a view that has texts there.
PART = """\
CREATE SERVER {name} FOREIGN DATA WRAPPER postgres_fdw OPTIONS (host '{folder}', port '5433', dbname '{name}', extensions 'legumeyet');
CREATE USER MAPPING FOR postgres SERVER {name} OPTIONS (user 'postgres');
CREATE FOREIGN TABLE sales_{name} PARTITION OF sales FOR VALUES IN ('{name}') SERVER {name} OPTIONS (table_name 'sales');
CREATE FOREIGN TABLE labels_{name} PARTITION OF labels FOR VALUES IN ('{name}') SERVER {name} OPTIONS (table_name 'labels');
"""
SALES, LABELS = "CREATE TABLE sales (place text, typed text)", "CREATE TABLE labels (place text, label text)"
LOCAL = f"""\
CREATE EXTENSION legumeyet; {SALES};
CREATE VIEW labels AS SELECT place, legumeyet.format(legumeyet.read(typed, 'de'), 'de', 'currency/EUR') AS label FROM sales;
"""
READ = "SELECT place, sum(legumeyet.read(typed, 'de')) FROM sales WHERE legumeyet.read(typed, 'de') > 0 GROUP BY place ORDER BY place"
REMOTE = "FROM public.sales WHERE ((legumeyet.read(typed, 'de'::text, ''::text) > 0::numeric))"
DUMPED = """CREATE EXTENSION legumeyet;
CREATE TABLE t (n numeric, typed text CHECK (legumeyet.read_or_null(typed, 'de') IS NOT NULL),
    label text GENERATED ALWAYS AS (legumeyet.format(n, 'de')) STORED);
CREATE INDEX ON t (legumeyet.read(typed, 'de')); INSERT INTO t VALUES (1234.5, '1.234,5');"""
POOL = """\
[databases]
pooled = host={folder} port={port} dbname={database} user=postgres
[pgbouncer]
listen_port = 6433
listen_addr =
unix_socket_dir = {folder}
auth_type = any
pool_mode = transaction
default_pool_size = 2
server_reset_query_always = 1
pidfile = {folder}/pool.pid
logfile = {folder}/pool.log
"""
# What each client of the pool asks for; pgbench stops at an error, as the division by 0 is.
POOLED = """\
\\set n random(-999999, 999999)
\\set t random(1, 3000)
SELECT 1 / (legumeyet.format(:n, 'en-x-a' || :t) = to_char(:n, 'FM999,999,999,990'))::integer;
"""
QUIET = {"stdout": subprocess.DEVNULL, "stderr": subprocess.DEVNULL}


def wait_for(ask, seconds=60):
    """What is answered once there is an answer."""
    end = time.monotonic() + seconds
    while time.monotonic() < end:
        with contextlib.suppress(AssertionError):
            if found := ask():
                return found
        time.sleep(0.2)
    raise AssertionError(f"there was no answer within {seconds} s")


def on_each(sanitized=False):
    """Has a test tried on each server, on those of the sanitized extension too where that is said."""
    def of(test):
        @functools.wraps(test)
        def tried(self):
            for server in self.servers:
                if sanitized or not server.sanitized:
                    with self.subTest(str(server)):
                        test(self, server)
        return tried
    return of


class PostgreSQL(testing.Rows):
    """Tests on a server of each version that is installed, and on another of the extension under gcc's sanitizer of undefined behaviour. The database
    `tried` has the extension and the table `amounts`."""

    @classmethod
    def setUpClass(cls):
        """Starts the servers."""
        need("cc", "make", "pgxs", "postgres", "psql", "pgbouncer")
        cls.servers = []
        for version in postgresql_versions():
            for sanitized in (False, True) if (VERSIONS / version / "bin/postgres").is_file() else ():
                server = Server(made(folder(), f"{version}{'s' * sanitized}"), version, sanitized)
                cls.servers.append(server)
                server.build(library())
                server.initialize()
                cls.addClassCleanup(server.stop)
                server.start()
                server.database("tried")
                server.psql(f"CREATE EXTENSION legumeyet; {AMOUNTS}", "tried")

    def grows_little(self, said, what):
        """A row: a backend has little more memory after something than before."""
        sizes = [int(it) for it in re.findall(r"VmRSS:\s*(\d+) kB", said)]
        self.row(f"kB before and after {what}: {sizes}", len(sizes) == 2 and sizes[1] - sizes[0] <= MOST_GROWTH, True)

    def workers(self, server):
        """A row: parallel workers write what one process does."""
        one, several = (server.psql(f"{PARALLEL} SET max_parallel_workers_per_gather = {count}; {SUM}", "tried") for count in (0, 4))
        self.row("parallel workers", several, one)

    def test_versions(self):
        """For a version without a server the extension is compiled, and without headers not even that."""
        self.assertTrue(self.servers, "no version of PostgreSQL is installed")
        for version in WRITTEN_FOR:
            with self.subTest(version):
                if version not in postgresql_versions():
                    self.skipTest(f"the headers of PostgreSQL {version} are not installed")
                if version not in [it.version for it in self.servers]:
                    Server(made(folder(), version), version).build(library())
                    self.skipTest(f"PostgreSQL {version} is only compiled for, since its server is not installed")

    @on_each(sanitized=True)
    def test_rows(self, server):
        """The rows of sql/ are answered as expected/ has them, by PostgreSQL's pg_regress."""
        out = server.folder / "regress"
        out.mkdir()
        if server.user:
            shutil.chown(out, server.user)
        regress = VERSIONS / server.version / "lib/pgxs/src/test/regress/pg_regress"
        words = (f"--inputdir={server.folder}/source", f"--outputdir={out}", "--bindir=", f"--host={server.folder}", "--port=5433", "--user=postgres")
        try:
            server.run(regress, *words, "--dbname=rows", EXTENSION)
        except AssertionError as error:
            differs = out / "regression.diffs"
            self.fail(differs.read_text(errors="replace")[:6000] if differs.is_file() else str(error))

    @on_each(sanitized=True)
    def test_workers(self, server):
        """Parallel workers write what one process does."""
        plan = server.psql(f"{PARALLEL} SET max_parallel_workers_per_gather = 4; EXPLAIN {SUM}", "tried")
        self.row(f"a parallel plan: {plan}", [it in plan for it in ("Parallel Seq Scan", "Partial Aggregate")], [True, True])
        self.workers(server)

    @on_each()
    def test_page(self, server):
        """What docs/databases.md has somebody type prints what it says."""
        typed, shown = page_block("PostgreSQL")
        self.row("docs/databases.md", trimmed(server.run("psql", "-X", "-q", "-d", server.database("page"), stdin=typed)), shown)

    @on_each()
    def test_encodings(self, server):
        """A database whose texts are not UTF-8 gets no extension."""
        for encoding in ("LATIN1", "SQL_ASCII", "EUC_JP"):
            name = server.database(f"of_{encoding.lower()}", f"ENCODING '{encoding}' LOCALE 'C' TEMPLATE template0")
            said = server.refusal("CREATE EXTENSION legumeyet", name)
            self.row(encoding, said, '0A000 legumeyet needs a database with encoding "UTF8"')
            self.row(f"schemas in {encoding}", server.psql("SELECT count(*) FROM pg_namespace WHERE nspname = 'legumeyet'", name), "0")

    @on_each()
    def test_memory(self, server):
        """A million tags hold no more memory than a thousand."""
        self.grows_little(server.psql(MANY_TAGS, "tried"), "a million tags")

    @on_each()
    def test_infinity(self, server):
        """An infinity of `numeric`, which came with version 14, is refused as that of `double precision` is."""
        for it in ("Infinity", "-Infinity") if float(server.version) >= 14 else ():
            self.row(it, server.refusal(f"SELECT legumeyet.format('{it}'::numeric, 'de')", "tried"), "22023 cannot format infinity")

    @on_each()
    def test_cancelled(self, server):
        """Statements that were cancelled leave nothing behind: the session answers, and holds no more memory."""
        said = server.psql(CANCELLED, "tried", stop=False)
        self.grows_little(said, "ten cancelled statements")
        self.row("after cancelled statements", [it for it in said.splitlines() if "VmRSS" not in it], ["20000", "57014", "1.234.567,891"])

    @on_each()
    def test_crash(self, server):
        """After a backend was killed the others are started again, and answer."""
        client = subprocess.Popen(("psql", "-X", "-q", "-d", "tried", "-c", ENDLESS), env=server.how, **QUIET, **server.as_user)
        try:
            os.kill(int(wait_for(lambda: server.psql(BACKEND, "tried"))), signal.SIGKILL)
            client.wait(BOUND)
        finally:
            client.kill()
            client.wait()
        self.row("after a crash", wait_for(lambda: server.psql(GERMAN, "tried")), "1.234.567,891")

    @on_each()
    def test_update(self, server):
        """The extension is updated from its first version to that of the header, and from this to a later one, with what uses it."""
        name, own = server.database("old"), header_version()
        server.psql("CREATE EXTENSION legumeyet VERSION '2.0'; ALTER EXTENSION legumeyet UPDATE", name)
        said = server.psql("SELECT extversion, legumeyet.plural(5, 'pl') FROM pg_extension WHERE extname = 'legumeyet'", name)
        self.row("after an update", said, f"{own}|many")
        name = server.database("updated")
        place = server.folder / f"usr/share/postgresql/{server.version}/extension"
        (place / f"{EXTENSION}--{own}--{LATER_VERSION}.sql").write_text(LATER, encoding="ascii")
        server.psql("CREATE EXTENSION legumeyet; CREATE VIEW german AS SELECT legumeyet.format(1234.5, 'de') AS text;", name)
        version = "SELECT extversion FROM pg_extension WHERE extname = 'legumeyet'"
        self.row("the version that is made", server.psql(version, name), own)
        server.psql(f"ALTER EXTENSION legumeyet UPDATE TO '{LATER_VERSION}'", name)
        self.row("the version after the update", server.psql(version, name), LATER_VERSION)
        self.row("what uses it after the update", server.psql("SELECT text, legumeyet.later() FROM german", name), "1.234,5|1.234,5")

    @on_each()
    def test_dump(self, server):
        """A dump with a generated column, an index and a constraint is restored."""
        first, second = server.database("dumped"), server.database("restored")
        server.psql(DUMPED, first)
        server.psql(server.run("pg_dump", "-d", first), second)
        self.row("what was restored", server.psql("SELECT * FROM t", second), "1234.5|1.234,5|1.234,5")

    @on_each()
    def test_trusted(self, server):
        """Who owns a database and is no superuser makes the extension there."""
        server.psql("CREATE ROLE somebody LOGIN")
        name = server.database("of_somebody", "OWNER somebody")
        said = server.psql(f"CREATE EXTENSION legumeyet; {GERMAN}", name, env={**server.how, "PGUSER": "somebody"})
        self.row("of an owner", said, "1.234.567,891")

    @on_each()
    def test_parts(self, server):
        """A table with parts on other servers: each server reads and writes the numbers of its own rows."""
        name, parts = server.database("parted"), ("north", "south")
        tables = "; ".join(f"{it} PARTITION BY LIST (place)" for it in (SALES, LABELS))
        server.psql(f"CREATE EXTENSION legumeyet; CREATE EXTENSION postgres_fdw; {tables}", name)
        for at, part in enumerate(parts, 1):
            server.database(part)
            server.psql(f"{LOCAL} INSERT INTO sales VALUES ('{part}', '{at}.234,50'), ('{part}', '{at},5'), ('{part}', '-1')", part)
            server.psql(PART.format(name=part, folder=server.folder), name)
        plan = server.psql(f"EXPLAIN (VERBOSE, COSTS OFF) {READ}", name)
        self.row(f"a plan where the other servers read: {plan}", plan.count(REMOTE), len(parts))
        self.row("what other servers read", server.psql(READ, name), "north|1236.00\nsouth|2237.00")
        said = server.psql("SELECT label FROM labels WHERE place = 'south' ORDER BY length(label) LIMIT 2", name)
        self.row("what other servers wrote", said, "2,50\u00a0€\n-1,00\u00a0€")

    @on_each()
    def test_pool(self, server):
        """Clients that share two connections by a pool get what is right."""
        place, how = server.folder, {**server.how, "PGPORT": "6433"}
        (place / "pool.ini").write_text(POOL.format(folder=place, port=5433, database="tried"), encoding="ascii")
        (place / "pooled.sql").write_text(POOLED, encoding="ascii")
        pool = subprocess.Popen(("pgbouncer", place / "pool.ini"), env=server.how, cwd=place, **QUIET, **server.as_user)
        try:
            self.row("of a pool", wait_for(lambda: server.psql(GERMAN, "pooled", env=how)), "1.234.567,891")
            bench = VERSIONS / server.version / "bin/pgbench"
            said = server.run(bench, "-n", "-c", "16", "-t", "250", "-f", place / "pooled.sql", "pooled", env=how)
            self.assertIn("transactions actually processed: 4000/4000", said, "clients of a pool were refused")
        finally:
            pool.terminate()
            pool.wait(BOUND)

    @on_each()
    def test_preloaded(self, server):
        """Where the server loads the library as it starts, each backend has the book from it."""
        self.addCleanup(server.start)
        self.addCleanup(server.stop)
        server.stop()
        server.start("shared_preload_libraries=legumeyet")
        self.row("where it is preloaded", server.psql(GERMAN, "tried"), "1.234.567,891")
        self.workers(server)
