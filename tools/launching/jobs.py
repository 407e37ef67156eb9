"""Answers lines, or the records of a table, by several programs at a time, as one program would: the same bytes, status and messages.

The input is cut into slices where a line or a record ends, and each slice is answered by a program of its own. A slice of a file is
sent to its program by the system, from where the file is; one of a pipe is read before its program starts. What the programs write
for the first slice that is not finished goes on at once. That of the others waits, in memory or, where it is much, in a temporary
file.
"""
import fcntl
import os
import queue
import resource
import stat
import subprocess
import tempfile
import threading
from dataclasses import dataclass

from .common import COMMAND, OUTPUT, Fault, tell, write_all
from .tables import LINE_FEED, MARK, Messages, table_of

MIB = 1 << 20
PIECE = MIB
# About the largest slice of a file and of a pipe, and the smallest one of a file: a smaller one costs more starts than it saves.
LARGEST, LARGEST_OF_PIPE, SMALLEST = 32 * MIB, 16 * MIB, MIB
# The largest one of a table, which is read here, piece by piece, before it is answered.
LARGEST_OF_TABLE, PIECE_OF_TABLE = 4 * MIB, MIB // 16
# Answers that wait in memory, of all slices together, and messages, of each; more wait in temporary files.
WAITING = 64 * MIB
WAITING_MESSAGES = MIB // 16
# Slices whose answers wait, for each job.
AHEAD = 2
# The files that a slice has open here at most, and those beside the slices.
FILES_OF_A_SLICE, OTHER_FILES = 5, 32


class Failed(Exception):
    """Standard input or output failed: `read` or `write`, with what the system said."""

    def __init__(self, what, error):
        super().__init__(what)
        self.what, self.error = what, error

    def told_by(self, name):
        """What standard error gets, as the program of this name would tell it."""
        if name != COMMAND:
            return f"fault: {self.what}\n"
        if self.what == "write" and isinstance(self.error, BrokenPipeError):
            return ""
        return f"{COMMAND}: {self.what} error: {self.error.strerror} (os error {self.error.errno})\n"


@dataclass
class Slice:
    """A slice: where it is, what is put in front of it, and by how much its program's numbers of records are too small."""

    place: object
    front: bytes = b""
    shift: int = 0


class FileSlices:
    """The slices of a file, from where it is read on, and how a program is started on one."""

    def __init__(self, jobs, table):
        self.table, self.begun = table, False
        self.at, self.size = os.lseek(0, 0, os.SEEK_CUR), os.fstat(0).st_size
        # how far a table is read, which is beyond the end of a slice where a record is amid
        self.seen = self.at
        rounds = max(1, -(-(self.size - self.at) // (jobs * (LARGEST_OF_TABLE if table else LARGEST))))
        self.length = max(SMALLEST, (self.size - self.at) // (jobs * rounds) + 1)

    def next(self):
        """The next slice, or None after the last. The first may be empty."""
        if self.at >= self.size and self.begun:
            return None
        start, others = self.at, (self.table.front(), self.table.shift()) if self.table and self.begun else ()
        self.begun = True
        if start < self.size:
            end = min(start + self.length, self.size)
            self.at = self.after_record(end) if self.table else self.after_line_feed(end - 1)
            os.lseek(0, self.at, os.SEEK_SET)
        return Slice((start, self.at), *others)

    def after_line_feed(self, at):
        """The first place after a line feed that is at this place or a later one; the end of the file where there is none."""
        while at < self.size:
            piece = os.pread(0, PIECE, at)
            found = piece.find(b"\n")
            if found >= 0:
                return at + found + 1
            if not piece:
                break
            at += len(piece)
        return self.size

    def after_record(self, end):
        """The place after the last record that is read, where the table is read up to this place or a later one; the end of the file
        where there is none. Where the table is over before that, so is the file."""
        while self.seen < self.size:
            piece = os.pread(0, min(PIECE_OF_TABLE, self.size - self.seen), self.seen)
            if not piece:
                break
            start, found = self.seen, self.table.read(piece)
            self.seen += len(piece)
            if self.table.is_over:
                self.size = self.seen
            elif found and end <= self.seen < self.size:
                return start + found
        return self.size

    @staticmethod
    def start(words, part, unread, **ends):
        """Starts a program on a slice. Where the slice can't be read to its end, `unread` gets the error."""
        reading, writing = os.pipe()
        widen(writing)
        program = subprocess.Popen(words, stdin=reading, **ends)
        os.close(reading)
        threading.Thread(target=send, args=(part, writing, program, unread), daemon=True).start()
        return program


class PipeSlices:
    """The slices of a pipe. Each is read whole, into memory, before its program starts."""

    def __init__(self, table):
        self.table, self.left, self.begun, self.ended = table, b"", False, False
        self.largest = LARGEST_OF_TABLE if table else LARGEST_OF_PIPE

    def next(self):
        """The next slice, as a file in memory, or None after the last. The first may be empty."""
        if self.ended:
            return None
        others = (self.table.front(), self.table.shift()) if self.table and self.begun else ()
        whole = os.memfd_create("slice")
        part = Slice(whole, *others)
        write_to(whole, part.front)
        length = write_to(whole, self.left)
        end = 0
        while not end and not self.ended:
            piece = read_piece(PIECE_OF_TABLE if self.table else PIECE)
            found = self.table.read(piece) if self.table else piece.rfind(LINE_FEED) + 1
            self.ended = not piece or self.table and self.table.is_over
            if length + len(piece) >= self.largest and not self.ended:
                end = found
            length += write_to(whole, piece[:end] if end else piece)
            self.left = piece[end:] if end else b""
        if not length and self.begun:
            os.close(whole)
            return None
        self.begun = True
        os.lseek(whole, 0, os.SEEK_SET)
        return part

    @staticmethod
    def start(words, part, _unread, **ends):
        """Starts a program on a slice, which is read already."""
        program = subprocess.Popen(words, stdin=part.place, **ends)
        os.close(part.place)
        return program


def read_piece(length):
    """Reads a piece of standard input of about this length at most, and an empty one at its end. No byte order mark is cut."""
    piece = os.read(0, length)
    while piece and piece != MARK and MARK.startswith(piece) and (more := os.read(0, length)):
        piece += more
    return piece


def widen(pipe):
    """Has a pipe hold a large piece, where the system lets it."""
    try:
        fcntl.fcntl(pipe, fcntl.F_SETPIPE_SZ, PIECE)
    except (OSError, AttributeError):
        pass


def write_to(file, piece):
    """Writes all of a piece to a file, and returns its length."""
    left = memoryview(piece)
    while left:
        left = left[os.write(file, left) :]
    return len(piece)


def send(part, pipe, program, unread):
    """Sends a slice of the standard input to a program, and ends its input. A program that has ended reads no more. One whose slice
    can't be read is ended first, so that it takes no piece of a line for a whole one, and `unread` gets the error."""
    start, end = part.place
    try:
        write_to(pipe, part.front)
        while start < end and (sent := send_piece(pipe, start, min(end - start, PIECE))):
            start += sent
    except BrokenPipeError:
        pass
    except OSError as error:
        unread.append(error)
        program.kill()
    os.close(pipe)


def send_piece(pipe, start, length):
    """Sends a piece of the standard input, and returns the length that was sent: by the system, or by a copy where a file system
    has no such call."""
    try:
        return os.sendfile(pipe, 0, start, length)
    except BrokenPipeError:
        raise
    except OSError:
        return write_to(pipe, os.pread(0, length, start))


class Stream:
    """What a program writes to one of its ends: it waits until the turn of the slice comes, and is then sent on."""

    def __init__(self, turn, send_on, room, left_out=0):
        self.reading, self.writing = os.pipe()
        widen(self.reading)
        self.turn, self.send_on, self.room, self.left_out = turn, send_on, room, left_out
        self.waiting, self.more, self.failed = [], None, None

    def begin(self, ended=None):
        """Begins to carry what the program writes, which was started, and tells by a call when that is at its end."""
        os.close(self.writing)
        self.carrier = threading.Thread(target=self.carry, args=(ended,), daemon=True)
        self.carrier.start()

    def carry(self, ended):
        """Carries what the program writes until it ends, and waits for the turn."""
        try:
            while piece := os.read(self.reading, PIECE):
                # (what it writes for what is in front of its slice)
                piece, self.left_out = piece[self.left_out :], max(0, self.left_out - len(piece))
                if not self.turn.is_set() and self.keeps(piece):
                    continue
                self.turn.wait()
                self.send_waiting()
                self.send_on(piece)
            if ended:
                ended()
            self.turn.wait()
            self.send_waiting()
        except OSError as error:
            self.failed = error
        os.close(self.reading)

    def keeps(self, piece):
        """Whether a piece can wait: in memory, else in a file. Where there is no room for it, the program waits."""
        if len(piece) <= self.room:
            self.room -= len(piece)
            self.waiting.append(piece)
            return True
        self.room, at = 0, self.more.tell() if self.more else 0
        try:
            self.more = self.more or tempfile.TemporaryFile(buffering=0)
            write_to(self.more.fileno(), piece)
            return True
        except OSError:
            if self.more:
                self.more.truncate(at)
            return False

    def send_waiting(self):
        """Sends on what waited, once."""
        waiting, self.waiting = self.waiting, []
        for piece in waiting:
            self.send_on(piece)
        if self.more:
            self.more.seek(0)
            while piece := self.more.read(PIECE):
                self.send_on(piece)
            self.more.close()
            self.more = None


class Answers:
    """The answers of one slice, and the messages of its program."""

    def __init__(self, run, part):
        self.turn, self.unread = threading.Event(), []
        self.output = Stream(self.turn, write_all, run.room, len(part.front))
        self.numbers = Messages(part.shift) if part.shift else None
        self.messages = Stream(self.turn, self.send_message, WAITING_MESSAGES)
        words = run.words_of(part)
        ends = {"stdout": self.output.writing, "stderr": self.messages.writing}
        self.program = run.slices.start(words, part, self.unread, executable=run.program, **ends)
        self.output.begin(run.free.release)
        self.messages.begin()

    def send_message(self, piece):
        """Sends a piece of the messages on; nothing where standard output failed, since the program tells of its pipe then."""
        if not self.output.failed:
            (self.numbers.send if self.numbers else tell)(piece)

    def status(self):
        """Gives the slice its turn, waits until its answers are written, and returns the program's status."""
        self.turn.set()
        self.output.carrier.join()
        if self.output.failed:
            raise Failed("write", self.output.failed)
        self.messages.carrier.join()
        if self.numbers:
            self.numbers.end()
        status = self.program.wait()
        if self.unread:
            raise Failed("read", self.unread[0])
        return status if status >= 0 else 128 - status


class Run:
    """The slices of a run, each begun as soon as a job is free, and their answers in order."""

    def __init__(self, program, words, jobs):
        self.program, self.words, self.room = program, words, WAITING // (jobs * (AHEAD + 1))
        self.table = table_of(words[1:])
        self.slices = FileSlices(jobs, self.table) if stat.S_ISREG(os.fstat(0).st_mode) else PipeSlices(self.table)
        self.free, self.begun, self.queue = threading.Semaphore(jobs), set(), queue.Queue(jobs * AHEAD)
        threading.Thread(target=self.begin_all, daemon=True).start()

    def begin_all(self):
        """Begins each slice, and tells then what ended them: None, or what failed. The next one is looked for while all jobs work."""
        try:
            while part := self.next():
                self.free.acquire()
                answers = Answers(self, part)
                self.begun.add(answers)
                self.queue.put(answers)
            self.queue.put(None)
        except (Failed, OSError) as failed:
            self.queue.put(failed)
        except RuntimeError as failed:
            # the system starts no more threads
            self.queue.put(Fault(failed))

    def next(self):
        """The next slice, or None after the last."""
        try:
            return self.slices.next()
        except OSError as error:
            raise Failed("read", error) from None

    def words_of(self, part):
        """The words that a program is started with: its name, and those for its slice."""
        return [self.words[0], *self.table.others] if part.front else self.words

    def status(self):
        """Has all be answered. Returns the status of the first program that ends them, or of records that are refused, or 0."""
        worst = 0
        while isinstance(answers := self.queue.get(), Answers):
            status = answers.status()
            self.begun.discard(answers)
            if status and not (self.table and self.table.goes_on(status)):
                return status
            worst = max(worst, status)
        if answers is not None:
            raise answers
        return worst

    def end(self):
        """Ends the programs whose answers nobody is to see."""
        for answers in tuple(self.begun):
            answers.program.kill()


def files_of(jobs):
    """How many files so many jobs have open at most."""
    return FILES_OF_A_SLICE * (jobs * (AHEAD + 1) + 2) + OTHER_FILES


def with_files(jobs):
    """So many jobs, or as many as may have their files open: the bound is raised for them where the system lets it."""
    soft, hard = resource.getrlimit(resource.RLIMIT_NOFILE)
    while jobs > 1 and files_of(jobs) > hard != resource.RLIM_INFINITY:
        jobs -= 1
    if files_of(jobs) > soft != resource.RLIM_INFINITY:
        resource.setrlimit(resource.RLIMIT_NOFILE, (files_of(jobs) if hard == resource.RLIM_INFINITY else min(files_of(jobs), hard), hard))
    return jobs


def answer(program, name, words, jobs):
    """Has so many programs answer the lines or the table of standard input, and returns the status, as one would. The programs are
    started by their name: their path may be no text."""
    run = Run(program, [name, *words], with_files(jobs))
    try:
        return run.status()
    except Failed as failed:
        tell(failed.told_by(name).encode())
        return OUTPUT
    finally:
        run.end()
