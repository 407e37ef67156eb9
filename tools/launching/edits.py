"""The edits of wrong bodies: those of must-fail/, which the gate tries, and those of mistakes/.

An edit begins with lines that rt does not read: `wrong:` the mistake, `call:` the call that has it, `clause:` what refuses it. One of
must-fail/ has a fourth, `row:` a program of rows and a line of its file stdin, whose answer is another with the edit.
"""
import collections
import glob
import os

from . import sources
from .common import TOP, Fault, read_text

GATE, BESIDE = "must-fail", "mistakes"
SAYS = ("wrong", "call", "clause")
ROW = "row"

Edit = collections.namedtuple("Edit", "kind crate name says")


def edits(*kinds):
    """The edits of these kinds, those of lower crates first, each with its head lines by their words."""
    for kind in kinds:
        for crate in sources.listed():
            for path in sorted(glob.glob(f"{TOP}/crates/{crate}/{kind}/*.edit")):
                words = (line.partition(": ") for line in read_text(path).splitlines())
                says = {word: text for word, _, text in words if word in (*SAYS, ROW)}
                yield Edit(kind, crate, os.path.basename(path)[: -len(".edit")], says)


def applied(edit):
    """The texts that the edit makes, by their paths in the crate. A later pair of lines applies to what the earlier ones made. Raises a
    Fault where rt could not apply it."""
    folder = f"{TOP}/crates/{edit.crate}"
    path, old, was, texts = "", "", {}, {}
    for line in read_text(f"{folder}/{edit.kind}/{edit.name}.edit").splitlines():
        word, _, text = line.partition(": ")
        if word == "file":
            path = text.strip()
            if path not in texts:
                if not os.path.isfile(f"{folder}/{path}"):
                    raise Fault(f"there is no file {path}")
                texts[path] = was[path] = read_text(f"{folder}/{path}")
        elif word == "old":
            old = text
        elif word == "new" or line == "new:":
            count = texts[path].count(old) if old and path else 0
            if count != 1:
                raise Fault(f"its text stands in {path or 'no file'} {count} times: {old.strip()}")
            texts[path] = texts[path].replace(old, text)
    if texts == was:
        raise Fault("it changes nothing")
    return texts


def row_of(edit):
    """The program of rows that an edit names, the row, and its answer as it should be. Raises a Fault where there is no such row."""
    program, _, row = edit.says.get(ROW, "").partition(" ")
    folder = f"{TOP}/crates/{program}"
    if not row or not os.path.isfile(f"{folder}/stdin"):
        raise Fault(f"its line {ROW}: names no program of rows, and a row")
    if row not in read_text(f"{folder}/stdin").split("\n"):
        raise Fault(f"{program} has no row {row}")
    answers = [it for it in read_text(f"{folder}/stdout").split("\n") if it.startswith(f"{row}\t")]
    if len(set(answers)) != 1:
        raise Fault(f"the file stdout of {program} has {len(set(answers))} answers to {row}")
    return program, row, answers[0]
