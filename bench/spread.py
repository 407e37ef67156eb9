#!/usr/bin/python3
"""Answers the same lines by one run and by an engine that spreads over machines, and compares the bytes.

usage: bench/spread.py [LINES [BOOK]]

The engine is Debian's package python3-distributed, with two workers of a cluster on this machine. The lines are cut after
line feeds into blocks of some 1 MB, and each block is a task of its own. It prints the two times and whether the bytes are the same;
the status is 1 where they are not.
"""
import logging
import os
import subprocess
import sys
import tempfile
import time
import warnings

TOP = os.path.dirname(os.path.dirname(os.path.realpath(__file__)))
BLOCK = 1 << 20


def program():
    """The path of the program."""
    if os.environ.get("LOCALE_NUMBERS"):
        return os.path.abspath(os.environ["LOCALE_NUMBERS"])
    asked = subprocess.run([f"{TOP}/locale_numbers", "--built"], stdin=subprocess.DEVNULL, stdout=subprocess.PIPE, check=False)
    if asked.returncode:
        sys.exit(1)
    return os.fsdecode(asked.stdout.rstrip(b"\n"))


def blocks(lines):
    """The text in pieces that end with a line feed."""
    start = 0
    while start < len(lines):
        end = lines.find(b"\n", min(start + BLOCK, len(lines)) - 1) + 1 or len(lines)
        yield lines[start:end]
        start = end


def answer(words, lines):
    """What the program writes for these lines."""
    return subprocess.run(words, input=lines, stdout=subprocess.PIPE, check=True).stdout


def spread(words, lines):
    """What two workers write for the blocks, put together in order, and the time without that of their start."""
    from distributed import Client, LocalCluster

    warnings.simplefilter("ignore")
    with tempfile.TemporaryDirectory() as folder:
        how = {"n_workers": 2, "threads_per_worker": 1, "dashboard_address": None, "local_directory": folder, "silence_logs": logging.CRITICAL}
        with LocalCluster(**how) as cluster, Client(cluster) as client:
            start = time.monotonic()
            tasks = [client.submit(answer, words, block, pure=False) for block in blocks(lines)]
            return b"".join(client.gather(tasks)), time.monotonic() - start, len(tasks)


def main(count="1000000", book=""):
    """Compares the two."""
    try:
        import distributed
    except ImportError:
        print("bench: the package distributed is needed (Debian's python3-distributed)", file=sys.stderr)
        return 1
    words = [program(), *([os.path.abspath(book)] if book else [])]
    lines = subprocess.run([sys.executable, f"{TOP}/bench/make_lines.py", count, "1", "12"], stdout=subprocess.PIPE, check=True).stdout
    start = time.monotonic()
    alone = answer(words, lines)
    spent = time.monotonic() - start
    together, taken, tasks = spread(words, lines)
    same = alone == together
    print(f"one run {spent:.2f} s, distributed {distributed.__version__} with two workers {taken:.2f} s for {tasks} tasks; bytes {'the same' if same else 'DIFFERENT'}")
    return 0 if same else 1


if __name__ == "__main__":
    sys.exit(main(*sys.argv[1:]))
