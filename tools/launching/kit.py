"""The Rattle kit that is installed: its name, its folder, and whether its `rt ci` takes names of crates."""
import functools
import os
import re
import subprocess

from .common import NO_KIT, RT, Fault

# From this kit on `rt ci` takes names, proves on a copy, and keeps on the machine what passed.
TAKES_NAMES = (13, "f")


def said_by_rt(word):
    """What rt says to this word. Raises a Fault where there is no kit."""
    try:
        ran = subprocess.run([RT, word], stdin=subprocess.DEVNULL, stdout=subprocess.PIPE, check=True)
    except (OSError, subprocess.CalledProcessError):
        raise Fault(NO_KIT) from None
    return os.fsdecode(ran.stdout.strip())


@functools.lru_cache
def name():
    """The name of the kit, as `rattle-kit-13f`."""
    return re.split(r"[\s:,]", said_by_rt("version"), maxsplit=1)[0]


@functools.lru_cache
def folder():
    """The kit's folder."""
    return os.path.dirname(said_by_rt("doc").splitlines()[-1])


def ci_takes_names():
    """Whether `rt ci` takes names of crates."""
    known = re.fullmatch(r"rattle-kit-(\d+)([a-z]*)", name())
    return known is not None and (int(known[1]), known[2]) >= TAKES_NAMES
