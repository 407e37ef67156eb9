"""The extensions of PostgreSQL and SQLite as packages have them, made of the last commit over a folder of tools/build_c."""
import os
import pathlib

from .common import committed, said_by

VERSIONS = pathlib.Path("/usr/lib/postgresql")
HEADERS = pathlib.Path("/usr/include/postgresql")
# No path of this machine is in what is made.
FLAGS = "-O2 -g0 -fstack-protector-strong -D_FORTIFY_SOURCE=2 -Wall -Wextra"
SQLITE_HEADER = pathlib.Path("/usr/include/sqlite3ext.h")


def postgresql_versions():
    """The versions of PostgreSQL whose headers are installed, in order."""
    # (what make reads of them is in Debian's package of the client)
    return sorted((it.parent.parent.name for it in HEADERS.glob("*/server/postgres.h")), key=float)


def lacking():
    """What is said of the headers that are not installed; None where all are."""
    if not postgresql_versions():
        return "the headers of PostgreSQL are not installed: Debian has them in the package postgresql-server-dev-all"
    if not SQLITE_HEADER.is_file():
        return "the headers of SQLite are not installed: Debian has them in the package libsqlite3-dev"
    return None


def sources(name, folder):
    """The committed files of an extension, in a new folder."""
    place = folder / name
    for path, data in committed(name).items():
        (place / path).parent.mkdir(parents=True, exist_ok=True)
        (place / path).write_bytes(data)
    return place


def make(place, *words):
    """Calls make without what an earlier one left."""
    env = {name: value for name, value in os.environ.items() if name not in ("MAKEFLAGS", "MAKELEVEL", "MFLAGS")}
    said_by("make", "-C", place, *words, env=env)


def stripped(path):
    """A shared library without what only linkers and debuggers read."""
    said_by("strip", "--strip-unneeded", "--remove-section=.comment", path)
    path.chmod(0o644)
    return path


def place_postgresql(root, version, library, folder):
    """Installs the extension for a version of PostgreSQL below a folder. Returns the shared library."""
    place = sources("postgresql", folder / version)
    words = (f"PG_CONFIG={VERSIONS}/{version}/bin/pg_config", f"LEGUMEYET={library}", f"COPT={FLAGS}")
    make(place, *words)
    make(place, *words, f"DESTDIR={root}", "install")
    return stripped(root / f"usr/lib/postgresql/{version}/lib/legumeyet.so")


def place_sqlite(root, libraries, library, folder):
    """Installs the extension of SQLite below a folder, in the folder `sqlite3` of that of libraries. Returns the shared library."""
    place = sources("sqlite", folder)
    words = (f"LEGUMEYET={library}", f"CFLAGS={FLAGS}", f"LIBDIR={libraries}")
    make(place, *words)
    make(place, *words, f"DESTDIR={root}", "install")
    return stripped(root / libraries.lstrip("/") / "sqlite3/legumeyet.so")
