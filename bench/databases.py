#!/usr/bin/env python3
"""Times the extensions of PostgreSQL and SQLite over a million rows, beside what the databases have of their own.

usage: bench/databases.py LIBRARY [ROWS]

LIBRARY is a folder of tools/build_c. The servers are those of tools/try_databases: one of the newest version that is installed, in a temporary folder,
with what a server has without settings. A row of the output is an expression and the milliseconds, by the clock and of processor, of the fastest of
five runs of a query that counts its values; in PostgreSQL without parallel workers, and with four, whose processor time is not counted.
"""
import os
import pathlib
import re
import sys
import tempfile

TOP = pathlib.Path(__file__).resolve().parent.parent
sys.path.insert(0, str(TOP / "tools"))

from querying.common import run
from querying.server import Server, made
from querying.sqlite import built
from releasing.databases import VERSIONS
from testing import environment, need

RUNS = 5
TABLE = """CREATE TABLE amounts AS SELECT ((n * 7919::bigint % 100000007)::numeric / 100)::numeric(14, 2) AS n,
    (ARRAY['de', 'en', 'hi', 'fr-CH'])[n % 4 + 1] AS tag FROM generate_series(1, {rows}) n"""
OF_POSTGRESQL = [
    "n::text", "to_char(n, 'FM999G999G999G990D00')", "legumeyet.format(n, 'de')", "legumeyet.format(n, tag)", "legumeyet.format(n, 'de', 'currency/EUR')",
    "legumeyet.format(n::double precision, 'de', '.00')", "legumeyet.format(n::bigint, 'de')", "legumeyet.format(n, 'de', 'compact-short')",
    "legumeyet.read(n::text, 'en')",
]
ROWS_OF_SQLITE = """CREATE TABLE amounts AS WITH RECURSIVE m(n) AS (SELECT 1 UNION ALL SELECT n + 1 FROM m WHERE n < {rows})
SELECT (n * 7919 % 100000007) / 100.0 AS n, CASE n % 4 WHEN 0 THEN 'de' WHEN 1 THEN 'en' WHEN 2 THEN 'hi' ELSE 'fr-CH' END AS tag FROM m;
"""
OF_SQLITE = [
    "printf('%,.2f', n)", "legumeyet_format(n, 'de')", "legumeyet_format(n, tag)", "legumeyet_format(n, 'de', 'currency/EUR')",
    "legumeyet_format(n, 'de', '.00')", "legumeyet_format(cast(n AS INTEGER), 'de')", "legumeyet_read(cast(n AS TEXT), 'en')",
]


# What is printed before and after each query: the ticks of the backend.
TICKS = "\\! cut -d' ' -f14,15 /proc/$PID/stat\n"


def spent(said):
    """The least milliseconds of processor, of what the system said of a backend between queries."""
    ticks = [int(user) + int(system) for user, system in re.findall(r"^(\d+) (\d+)$", said, re.M)]
    return round(1000 / os.sysconf("SC_CLK_TCK") * min(after - before for before, after in zip(ticks, ticks[1:])))


def of_postgresql(library, folder, rows):
    """Prints the rows of PostgreSQL."""
    version = max((it.name for it in VERSIONS.iterdir() if (it / "bin/postgres").is_file()), key=float)
    server = Server(made(folder, version), version)
    server.build(library)
    server.initialize()
    try:
        server.start()
        server.psql(f"CREATE EXTENSION legumeyet; {TABLE.format(rows=rows)}; ANALYZE amounts")
        for workers in (0, 4):
            settings = f"SET max_parallel_workers_per_gather = {workers}; SET parallel_setup_cost = 0; SET parallel_tuple_cost = 0;"
            for it in OF_POSTGRESQL:
                query = f"SELECT count({it}) FROM amounts;\n{TICKS}"
                said = server.psql(f"SELECT pg_backend_pid() AS pid \\gset\n\\setenv PID :pid\n{settings}\n\\timing on\n{TICKS}{RUNS * query}")
                clock = round(min(map(float, re.findall(r"Time: ([0-9.]+) ms", said))))
                print(f"PostgreSQL {version}, {workers} workers\t{it}\t{clock}\t{spent(said) if workers == 0 else '-'}", flush=True)
    finally:
        server.stop()


def of_sqlite(library, folder, rows):
    """Prints the rows of SQLite."""
    extension, base = built(library, folder, "sqlite"), folder / "base"

    def ask(text):
        return run("sqlite3", "-batch", "-bail", base, stdin=f".load {extension}\n{text}", env=environment())

    ask(ROWS_OF_SQLITE.format(rows=rows))
    for it in OF_SQLITE:
        said = ask(".timer on\n" + RUNS * f"SELECT count({it}) FROM amounts;\n")
        times = [tuple(map(float, run)) for run in re.findall(r"real ([0-9.]+) user ([0-9.]+) sys ([0-9.]+)", said)]
        clock, processor = min(real for real, _, _ in times), min(user + system for _, user, system in times)
        print(f"SQLite\t{it}\t{round(1000 * clock)}\t{round(1000 * processor)}", flush=True)


def main():
    """Times both."""
    library, rows = pathlib.Path(sys.argv[1]).resolve(), int(sys.argv[2]) if len(sys.argv) > 2 else 1_000_000
    need("cc", "pgxs", "postgres", "psql", "sqlite3", "sqlite3ext.h")
    os.umask(0o022)
    with tempfile.TemporaryDirectory(prefix="bench-") as folder:
        folder = pathlib.Path(folder)
        folder.chmod(0o755)
        of_postgresql(library, folder, rows)
        of_sqlite(library, folder, rows)


if __name__ == "__main__":
    main()
