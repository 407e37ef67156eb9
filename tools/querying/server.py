"""A server of PostgreSQL with the extension."""
import contextlib
import os
import pathlib
import pwd
import shutil

from releasing.databases import VERSIONS
from testing import TOP, environment

from .common import run

# (the headers of PostgreSQL are not looked at)
WARNINGS = "-Wall -Wextra -Wpedantic -Wno-unused-parameter -Werror"
# (a server of Debian's stands still as it starts where the address sanitizer is loaded before it; sqlite.py has that one)
SANITIZE = "-fsanitize=undefined -fno-sanitize-recover=all"


class Server:
    """A server of a version with the extension, in a folder, as another user than root. What Debian installed stays as it is: the folder has
    its programs, and links to its other files beside those of the extension."""

    def __init__(self, folder, version, sanitized=False):
        self.folder, self.version, self.sanitized = folder, version, sanitized
        self.bin = folder / f"usr/lib/postgresql/{version}/bin"
        self.data, self.log = folder / "data", folder / "log"
        root = os.geteuid() == 0
        self.user = next(it for it in ("postgres", "nobody") if known_user(it)) if root else None
        self.as_user = {"user": self.user, "group": pwd.getpwnam(self.user).pw_gid, "extra_groups": []} if root else {}
        self.how = environment(PGHOST=folder, PGPORT="5433", PGUSER="postgres", LC_ALL="C.UTF-8", PGOPTIONS="", PGDATABASE="postgres")

    def __str__(self):
        return f"PostgreSQL {self.version}{', sanitized' * self.sanitized}"

    def build(self, library):
        """Makes the extension and installs it into the folder."""
        source = self.folder / "source"
        shutil.copytree(TOP / "postgresql", source)
        make = ["make", "-C", source, f"PG_CONFIG={VERSIONS}/{self.version}/bin/pg_config", f"LEGUMEYET={library}"]
        headers = run(f"{VERSIONS}/{self.version}/bin/pg_config", "--includedir-server").strip()
        how = [f"COPT=-isystem {headers} {WARNINGS} {SANITIZE if self.sanitized else ''}"]
        run(*make, *how, env=environment())
        run(*make, *how, f"DESTDIR={self.folder}", "install", env=environment())

    def initialize(self):
        """Makes the folders of the server."""
        installed = VERSIONS / self.version
        self.bin.mkdir()
        for name in ("postgres", "initdb", "pg_ctl"):
            shutil.copy(installed / "bin" / name, self.bin)
        share = f"usr/share/postgresql/{self.version}"
        for place in (f"usr/lib/postgresql/{self.version}/lib", share, f"{share}/extension"):
            link_all(pathlib.Path("/") / place, self.folder / place)
        if self.user:
            shutil.chown(self.folder, self.user)
        options = ("--no-sync", "--auth=trust", "--username=postgres", "--encoding=UTF8", "--locale=C.UTF-8")
        self.run(self.bin / "initdb", "-D", self.data, *options)

    def run(self, *words, **how):
        """What a command says, as the user of the server."""
        return run(*words, **{"env": self.how, "cwd": self.folder, **self.as_user, **how})

    def start(self, *settings):
        """Starts the server, and waits until it answers."""
        # (the port only names the socket, so no other server meets it)
        own = ("listen_addresses=", f"unix_socket_directories={self.folder}", "port=5433", "fsync=off", "max_connections=40", *settings)
        options = " ".join(f"-c {it}" for it in own)
        try:
            self.run(self.bin / "pg_ctl", "-D", self.data, "-l", self.log, "-w", "-t", "60", "-o", options, "start")
        except AssertionError as error:
            raise AssertionError(f"{error}\n    {self.last_of_log()}") from None

    def stop(self):
        """Stops the server, if need be at once."""
        words = (self.bin / "pg_ctl", "-D", self.data, "-w", "-t", "20", "-m")
        if not (self.data / "postmaster.pid").exists():
            return
        try:
            self.run(*words, "fast", "stop")
        except AssertionError:
            self.run(*words, "immediate", "stop")

    def last_of_log(self):
        """The last lines of the server's log."""
        return "\n    ".join(self.log.read_text(errors="replace").splitlines()[-8:]) if self.log.is_file() else "it has no log"

    def psql(self, text, database="postgres", stop=True, **how):
        """What psql prints for statements, without alignment."""
        words = ("psql", "-X", "-q", "-A", "-t", "-v", f"ON_ERROR_STOP={int(stop)}", "-d", database)
        return self.run(*words, stdin=text, **how).rstrip("\n")

    def refusal(self, statement, database="postgres"):
        """The SQLSTATE that a statement is refused with, and the line that says why."""
        text = f"\\set VERBOSITY default\n{statement};\n\\echo :SQLSTATE :LAST_ERROR_MESSAGE\n"
        return self.psql(text, database, stop=False).splitlines()[-1]

    def database(self, name, *options):
        """Makes a database."""
        self.psql(f"CREATE DATABASE {name} {' '.join(options)}")
        return name


def known_user(name):
    """Whether there is a user of this name."""
    with contextlib.suppress(KeyError):
        return bool(pwd.getpwnam(name))
    return False


def link_all(source, target):
    """Links what is in a folder into another one, but for what is there."""
    target.mkdir(parents=True, exist_ok=True)
    for it in source.iterdir():
        place = target / it.name
        if not place.exists() and it.name != "extension":
            place.symlink_to(it)


def made(folder, name):
    """A folder that another user may enter."""
    place = folder / f"p{name}"
    place.mkdir()
    return place
