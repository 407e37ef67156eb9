"""The formatters that the program is compared with, ICU4C and Node: how each is asked, and which data it has."""
import os
import subprocess

from cldr import Fault
from comparison import answers, text
from look_up import locale_of

HERE = os.path.dirname(os.path.realpath(__file__))
NODE = [os.environ.get("NODE") or "node", f"{HERE}/node_peer.js"]
NOT_IN_NODE = "a locale that Node does not have: there the answer is that of a shorter tag, or of English"
NOT_IN_ICU = "a locale that ICU4C does not have: there the answer is that of the tag cut from the right, or of root"
VERSION = "another version of CLDR: under a book of the data that ICU4C has, the answer is its own"


def say_version_of_node():
    """Prints the versions of Node and of its data."""
    try:
        said = subprocess.run([*NODE, "version"], stdout=subprocess.PIPE, encoding="utf-8", check=True).stdout
    except (OSError, subprocess.CalledProcessError) as fault:
        raise Fault(f"{NODE[0]} can't be run: {getattr(fault, 'strerror', None) or fault}") from None
    print(said.strip())


def known(form, tags):
    """What Node knows of each of these tags."""
    return [text(it)[-1] for it in answers(NODE, [f"{tag}\t{form}\tauto\tkeep\t-\t-" for tag in tags])]


def built_peer():
    """The command of the peer over ICU4C, which is built where it is not there."""
    built = subprocess.run([f"{HERE}/build-icu", "icu_peer"], stdout=subprocess.PIPE, encoding="utf-8")
    if built.returncode != 0:
        raise Fault("the peer was not built")
    return [built.stdout.strip()]


def book_of_peer(folder, *words):
    """The path of a book of the data that ICU4C has, made in this folder, and the locales of that data. More words are for
    make-cldr."""
    data, made = os.path.join(folder, "cldr"), os.path.join(folder, "book.json")
    make = [f"{HERE}/make-cldr", *words, "--from", data]
    for command in ([f"{HERE}/icu-to-cldr", data], [*make, made], [*make, "--list"]):
        done = subprocess.run(command, capture_output=True, encoding="utf-8")
        if done.returncode != 0:
            raise Fault(f"{os.path.basename(command[0])} ended with status {done.returncode}: {done.stderr.strip()}")
    return made, {locale_of(line.partition("\t")[0]) for line in done.stdout.splitlines()}


def with_tag_cut(line):
    """The line for the tag without the last subtag of its locale; the system stays."""
    tag, rest = line.split("\t", 1)
    locale, keyword, system = tag.partition("-u-nu-")
    return f"{locale.rpartition('-')[0] or 'und'}{keyword}{system}\t{rest}"


def with_tags_cut(line):
    """The lines for each tag that is left when the locale is cut further and further, to `und`."""
    found = [with_tag_cut(line)]
    while not found[-1].startswith("und"):
        found.append(with_tag_cut(found[-1]))
    return found
