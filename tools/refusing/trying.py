"""Cases, each run again and again with another request for memory, read or write refused."""
import typing

from . import shim

# A program that asks more the more is refused would never be done.
MOST = 100_000
# A row that asks for memory more often is left out.
MOST_OF_ROW = 400
# What a program of rows says at its end that was refused memory.
OUT_OF_MEMORY = b"Error: Kind(OutOfMemory)\n"


class Tried(typing.NamedTuple):
    """What came of a case: how many runs ended by a refusal, what was wrong, and whether it was left out, since it asks too often."""

    refusals: int
    wrong: list
    is_left_out: bool = False


class Lines(typing.NamedTuple):
    """Lines that the program answers, with the words of its book, and the whole output. Memory is refused from the read
    `gate` on."""

    name: str
    program: str
    words: list
    given: bytes
    whole: bytes
    gate: int = 0


class Exact(typing.NamedTuple):
    """A run of the program that is refused something, with exactly its end: status, output, error."""

    name: str
    program: str
    given: bytes
    wishes: dict
    end: tuple


class Call(typing.NamedTuple):
    """A call of the command, with its words, standard input, and the whole output, which a call that is refused nothing says."""

    name: str
    program: str
    words: list
    given: bytes
    whole: bytes


class Row(typing.NamedTuple):
    """A line of a program of rows, with its answer."""

    name: str
    program: str
    given: bytes
    whole: bytes


class Change(typing.NamedTuple):
    """A line of a program of calls that change a receiver, with its answer and the receiver. Its last read is before the
    call, which asks for no memory where it is silent."""

    name: str
    program: str
    given: bytes
    whole: bytes
    receiver: bytes
    is_silent: bool


class Refused(typing.NamedTuple):
    """What is refused: the numbers of these wishes follow one another. `is_end` says whether a run that met them ended as it
    may; beside that it may end right only where `may_be_right`."""

    wishes: tuple
    counted: str
    is_end: typing.Callable
    may_be_right: bool = False


def is_beginning(output, whole):
    return whole.startswith(output)


def is_whole_beginning(output, whole):
    """Whether an output is the answers to some first lines."""
    return whole.startswith(output) and (not output or output.endswith(b"\n"))


def ends_by(status, line, is_left):
    """Whether a run ended by a fault, and left what it may."""
    return lambda case, ended: (ended.status, ended.error) == (status, line) and is_left(ended.output, case.whole)


def ends_by_read(case, ended):
    """Whether a run ended by a failed read: of its lines, or of the file of its book."""
    of_book = (ended.status, ended.output, ended.error) == (3, b"", b"fault: file\n")
    return of_book or ends_by(5, b"fault: read\n", is_whole_beginning)(case, ended)


def ends_never(_case, _ended):
    return False


def ends_without_answer(_case, ended):
    """Whether a program of rows ended without memory, and answered nothing."""
    return (ended.status, ended.output, ended.error) == (1, b"", OUT_OF_MEMORY)


def is_of_sink(case, ended):
    """Whether a row of decimals says that its sink was refused memory, and holds a beginning: `error 2` of a run of calls."""
    if (ended.status, ended.error) != (0, b"") or not (b"run_calls" in case.given or b"\twrite_to " in case.given):
        return False
    start = case.given.rstrip(b"\n") + b"\t"
    said = ended.output.removeprefix(start).removeprefix(b"error 2 ")
    wanted = case.whole.removeprefix(start).removeprefix(b"error 2 ").removeprefix(b"refused ")
    held = said.removeprefix(b"refused").strip()
    return ended.output.startswith(start) and said.startswith(b"refused") and wanted.startswith(held)


def is_told(case, ended):
    """Whether a row of books and runs says that memory was refused, to the call or to the writer that keeps what is written:
    `memory` of a book, else the fault and what was written, which is whole answers, or after a writer's fault a beginning."""
    start = case.given.rstrip(b"\n") + b"\t"
    if (ended.status, ended.error) != (0, b"") or not ended.output.startswith(start):
        return False
    answer, wanted = ended.output.removeprefix(start), case.whole.removeprefix(start)
    if answer == b"memory\n":
        return case.given.startswith(b"from_json\t")
    fault, _, held = answer.partition(b'"')
    held, whole = held.removesuffix(b'"\n'), wanted.partition(b'"')[2]
    if fault.startswith((b"Memory, ", b"fault: memory, ")):
        return whole.startswith(held) and (not held or held.endswith(b"\\n"))
    return fault.startswith((b"Write, ", b"fault: write, ")) and whole.startswith(held)


def ends_by_row(case, ended):
    """Whether a row met a refusal: the program ended without memory, or the row says that it did."""
    return any(is_one(case, ended) for is_one in (ends_without_answer, is_of_sink, is_told))


def is_kept(case, ended):
    """Whether a call was refused, and its receiver is as it was."""
    return (ended.status, ended.output, ended.error) == (0, case.given.rstrip(b"\n") + b"\trefused " + case.receiver + b"\n", b"")


WRITE = ends_by(5, b"fault: write\n", is_beginning)
MEMORY = Refused(("REFUSE_MEMORY",), "memory", ends_by(6, b"fault: memory\n", is_whole_beginning), True)
OF_COMMAND = Refused(("REFUSE_MEMORY",), "memory", ends_by(6, b"legumeyet: fault: memory\n", is_beginning), True)
OTHERS = (
    Refused(("REFUSE_READ",), "read", ends_by_read),
    Refused(("REFUSE_WRITE",), "write", WRITE),
    Refused(("EMPTY_WRITE",), "write", WRITE),
    # one byte is taken, and then the write fails
    Refused(("SHORT_WRITE", "REFUSE_WRITE"), "write", WRITE),
    Refused(("SHORT_READ",), "read", ends_never, True),
    Refused(("SHORT_WRITE",), "write", ends_never, True),
)


def is_right(case, ended):
    return (ended.status, ended.output, ended.error) == (0, case.whole, b"")


def in_turn(case, refused, words=(), **wishes):
    """Refuses each request in turn, until a run has none left to refuse."""
    refusals, wrong = 0, []
    for number in range(1, MOST):
        numbered = {wish: number + behind for behind, wish in enumerate(refused.wishes)}
        ended = shim.run_again(case.program, words, **numbered, **wishes)
        asked = ended.asked[refused.counted]
        is_met = asked >= number + len(refused.wishes) - 1
        if is_met and refused.is_end(case, ended):
            refusals += 1
        elif not is_right(case, ended) or (is_met and not refused.may_be_right):
            wrong.append(f"{case.name}, {' and '.join(refused.wishes)} {number} of {asked}: {ended}")
        if asked < number:
            return Tried(refusals, wrong)
    return Tried(refusals, [*wrong, f"{case.name}, {refused.wishes}: no end of requests"])


def joined(all_tried):
    """What came of several tries, as one."""
    return Tried(sum(it.refusals for it in all_tried), [text for it in all_tried for text in it.wrong])


def try_lines(case):
    """Lines with memory, reads and writes refused, and with reads and writes that are short."""
    gate = {"REFUSE_FROM": case.gate} if case.gate else {}
    memory = in_turn(case, MEMORY, case.words, **gate)
    return joined([memory, *[in_turn(case, refused, case.words) for refused in OTHERS]])


def try_exact(case):
    ended = shim.run_again(case.program, [], **case.wishes)
    is_fine = (ended.status, ended.output, ended.error) == case.end
    return Tried(0, [] if is_fine else [f"{case.name}: {ended}, and not {case.end}"])


def try_call(case):
    """A call of the command with memory refused: it ends as ever, or says that it is out of memory, behind a beginning."""
    free = shim.run_again(case.program, case.words)
    if (free.status, free.error) != (0, b""):
        return Tried(0, [f"{case.name}: {free}"])
    return in_turn(case._replace(whole=free.output), OF_COMMAND, case.words)


def try_row(case):
    """A row with memory refused: it is answered as ever, or the program ends without an answer and says why."""
    ended = shim.run_again(case.program, ())
    if ended.asked["memory"] > MOST_OF_ROW:
        return Tried(0, [] if is_right(case, ended) else [f"{case.name}: {ended}"], True)
    return in_turn(case, Refused(("REFUSE_MEMORY",), "memory", ends_by_row, True))


def try_change(case):
    """A call with memory refused from its own first request on: each request in turn, and all. Each leaves the receiver, and
    one is refused at least; a call that is silent is answered as ever."""
    free = shim.run_again(case.program, ())
    gate = free.asked["read"]
    ended = shim.run_again(case.program, (), REFUSE_MEMORY="all", REFUSE_FROM=gate)
    is_fine = is_right(case, free) and ended.asked["read"] == gate and (is_right if case.is_silent else is_kept)(case, ended)
    first = Tried(0, [] if is_fine else [f"{case.name}: {free}, and with all refused {ended}"])
    if case.is_silent:
        return first
    return joined([first, in_turn(case, Refused(("REFUSE_MEMORY",), "memory", is_kept, True), REFUSE_FROM=gate)])


def tried(case):
    """What comes of a case."""
    with open("given", "wb") as file:
        file.write(case.given)
    return {Lines: try_lines, Exact: try_exact, Call: try_call, Row: try_row, Change: try_change}[type(case)](case)
