"""Commands, pages and bounds of the trials of the databases."""
import functools
import re
import signal

import testing
from testing import TOP

# So many seconds the trials take at most; to stop a server takes some more.
BOUND = 1800
# So many kilobytes a process grows by at most, from a thousand tags to a million.
MOST_GROWTH = 4096
SANITIZE = ("-fsanitize=address,undefined", "-fno-sanitize-recover=all", "-fno-omit-frame-pointer", "-g")


def run(*words, stdin="", **how):
    """The text that a command says. Where it fails, so does the test."""
    return testing.run(*words, stdin=stdin.encode(), **how).decode(errors="replace")


@functools.lru_cache(None)
def folder():
    """A folder that goes with the script, and that another user may enter. Its path has no blank, at which make would part it, and is short, since that
    of a socket has 107 bytes at most."""
    place = testing.script_folder("try-")
    place.chmod(0o755)
    return place


@functools.lru_cache(None)
def library():
    """The folder of the library for C, below that one. From now on the time of the trials counts."""
    link = folder() / "library"
    link.symlink_to(testing.library())
    signal.alarm(BOUND)
    return link


def runtimes(compiler):
    """The libraries of the sanitizers, as LD_PRELOAD has them: the program that loads what they look at has none of its own."""
    return " ".join(run(compiler, f"-print-file-name={it}").strip() for it in ("libasan.so", "libubsan.so"))


def page_block(heading, page="databases"):
    """What a page of docs/ has somebody type below a heading, and what it says is printed then: each line without its blanks."""
    text = (TOP / f"docs/{page}.md").read_text(encoding="utf-8")
    part = text.partition(f"\n## {heading}\n")[2]
    typed, shown = re.search(r"<<'END'\n(.*?)END\n```\n\n```\n(.*?)```", part, re.DOTALL).groups()
    return typed, trimmed(shown)


def trimmed(text):
    """The lines of a text without blanks and empty lines at their ends."""
    return [line.rstrip() for line in text.strip("\n").splitlines()]
