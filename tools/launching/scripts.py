"""What scripts of tools/ share: how they take their words, and how they end."""
import argparse
import os
import sys

from launching.common import FAILED, Fault, fault_of, fill_closed_ends, tell


def parser(head):
    """What takes the words of a script, whose head is its help."""
    return argparse.ArgumentParser(description=head, formatter_class=argparse.RawDescriptionHelpFormatter)


def ended(work, *given):
    """The status that the work returns, or 0. A fault, or what the system refuses, ends it in one line."""
    fill_closed_ends()
    try:
        return work(*given) or 0
    except (Fault, OSError) as error:
        said = error if isinstance(error, Fault) else fault_of(error)
        tell(f"{os.path.basename(sys.argv[0])}: {' '.join(str(said).split())}\n".encode(errors="backslashreplace"))
        return error.status if isinstance(error, Fault) else FAILED
    except KeyboardInterrupt:
        return 130
