"""A journal of a live end: a file of the lines that it was told, from which it is again as it was.

The file is an input of `daplive serve`. Its first line is a comment that says which program was told, and with which words.
Then come the files, as `files` prints them, and each line that the end was told since. After the files, and after each
line, is a mark, a comment too: `#= S CRC`, where S is how many bytes of the file were on the disk when the mark was
written, and CRC the CRC-32 of all that is before CRC in the file. Other lines that begin with `#` are notes of the
bridge.

What is after the last good mark isn't taken: that is said, and it is kept as FILE.torn. Mostly it is a line that was being written
when all ended, and was never reported; but no later mark speaks of the last line, so damage of that one looks the same. Damage before
the S of a later mark is damage of what was on the disk, and so perhaps of what was reported: nothing is read then.
"""
import contextlib
import os
import re
import zlib

from decnet import log
from decnet.kept import FILE, RECORD
from decnet.locked import KeptFault, LockedFile, fault_of, sync_folder

MODE = 0o600
HEAD = re.compile(r"#store ([0-9a-f]{64}) (.*)")
MARK = b"#= "
CRC_DIGITS = 8
NOTE = "#"
SYNCS = ("answers", "always", "never")  # when the disk has to have a line
TORN = ".torn"  # after the name of a journal: what wasn't taken of it
CHUNK = 1 << 20
GROWTH = 1 << 20  # bytes that a journal may grow by before it is worth writing anew


def encoded(line):
    return line.encode("utf-8", "surrogateescape") + b"\n"


# ---- reading


def mark_of(synced, crc):
    """A mark after what has this CRC."""
    text = MARK + b"%d " % synced
    return text + b"%08x\n" % zlib.crc32(text, crc)


def synced_in(mark):
    """What a mark says that was on the disk; 0 where it is none."""
    words = mark.split()
    return int(words[1]) if len(words) == 3 and words[1].isdigit() and len(words[1]) < 20 else 0


def crc_after(mark):
    """The CRC of all that ends with a mark, by the mark alone; ValueError where it is none."""
    digits = mark[-CRC_DIGITS - 1:]
    return zlib.crc32(digits, int(digits, 16))


class Parsed:
    """What a journal has up to its last good mark."""

    def __init__(self, path, data):
        """A KeptFault where damage is reported of what was on the disk."""
        self.lines, self.size, self.crc = [], 0, 0  # without the marks; in bytes; of these
        self.first = self.first_size = 0  # how many lines, and bytes, are before the end of the first mark
        crc, at, waiting = 0, 0, []
        while (end := data.find(b"\n", at) + 1) > 0:
            line = data[at:end]
            if not line.startswith(MARK):
                waiting.append(line[:-1].decode("utf-8", "surrogateescape"))
            elif line != mark_of(synced_in(line), crc):
                break
            crc, at = zlib.crc32(line, crc), end
            if line.startswith(MARK):
                self.lines += waiting
                if not self.size:
                    self.first, self.first_size = len(waiting), at
                self.size, self.crc, waiting = at, crc, []
        if any(synced > self.size for synced in later_marks(data, self.size)):
            raise KeptFault(f"{path}: damaged at byte {self.size} or after it, and that was on the disk")

    @property
    def told(self):
        """The lines that a live end was told after its files."""
        return [line for line in self.lines[self.first:] if not line.startswith(NOTE)]


def later_marks(data, at):
    """What the marks after damage say that was on the disk: of those that follow from the mark before them."""
    before = data.find(b"\n" + MARK, at)
    while before >= 0:
        mark = data.find(b"\n" + MARK, before + 1)
        start, end = data.find(b"\n", before + 1) + 1, data.find(b"\n", mark + 1) + 1
        if mark >= 0 and end and start <= mark:
            found = data[mark + 1:end]
            with contextlib.suppress(ValueError):
                crc = crc_after(data[before + 1:start])
                if found == mark_of(synced_in(found), zlib.crc32(data[start:mark + 1], crc)):
                    yield synced_in(found)
        before = mark


# ---- the file


class Journal(LockedFile):
    """A journal that is open: lines are put after it, and it is written anew with the files alone."""

    def __init__(self, path, sync=SYNCS[0]):
        """`sync` is one of SYNCS. Nothing is put after it before `begin`."""
        self.program, self.sync_when = None, sync
        self.size = self.crc = 0
        self.first_size = 0  # what stood in it when it was begun or written anew
        self.synced = 0  # how many bytes are on the disk
        super().__init__(path, MODE)
        with self.closed_at_fault():
            self.clear()
            self.try_beside()
            self.parsed = Parsed(path, self.read_whole())
            self.check_begun()

    @contextlib.contextmanager
    def closed_at_fault(self):
        """Closes it where it can't be used; a KeptFault then."""
        try:
            yield
        except OSError as fault:
            self.close()
            raise fault_of(self.path, fault) from fault
        except KeptFault:
            self.close()
            raise

    def read_whole(self):
        with open(self.path, "rb") as file:
            return file.read()

    # ---- what is there at the start

    @property
    def is_empty(self):
        return not self.parsed.lines

    @property
    def has_no_files(self):
        """Whether it has nothing but its head."""
        return len(self.parsed.lines) < 2

    def check_begun(self):
        """A fault where the file is something else."""
        if self.is_empty:
            if os.fstat(self.lock).st_size:
                raise KeptFault(f"{self.path}: it isn't empty, and it is no file that --store began, or it is damaged")
        elif not HEAD.fullmatch(self.parsed.lines[0]):
            raise KeptFault(f"{self.path}: it is no file that --store began")

    @property
    def made_with(self):
        """The words of the live end that was told its lines; None where it is empty."""
        return None if self.is_empty else HEAD.fullmatch(self.parsed.lines[0])[2]

    def begin(self, program):
        """`program` says which live end is told, and with which words; a fault where another one was told its packets."""
        self.program = program
        with self.closed_at_fault():
            if self.parsed.told and self.parsed.lines[0] != self.head():
                raise KeptFault(f"{self.path}: it has packets that another daplive was told, or this one with other words: "
                                f"'{self.made_with}'. Start that one with them, and stop it: then the files alone are there")

    def head(self):
        return f"#store {self.program}"

    def go_on(self):
        """Continues after the last good mark; what is after that is put aside."""
        found, self.parsed = self.parsed, None
        self.size, self.crc, self.first_size = found.size, found.crc, found.first_size
        try:
            self.put_torn_aside()
            os.ftruncate(self.lock, self.size)
            self.sync()
        except OSError as fault:
            raise fault_of(fault.filename or self.path, fault) from fault

    def put_torn_aside(self):
        """Keeps what is after the last good mark as a file of its own, and says so."""
        count = os.fstat(self.lock).st_size - self.size
        if not count:
            return
        torn, file = self.begin_torn()
        try:
            with os.fdopen(file, "wb") as out:
                self.copy_torn(out)
            sync_folder(self.path)
        except OSError:
            os.unlink(torn)
            raise
        log.say(f"{self.path}: {count} bytes from byte {self.size} on aren't taken: no good mark is after them. They are kept as {torn}")

    def copy_torn(self, out):
        at = self.size
        while chunk := os.pread(self.lock, CHUNK, at):
            out.write(chunk)
            at += len(chunk)
        out.flush()
        os.fsync(out.fileno())

    def begin_torn(self):
        """A new file, whose name none has: the name, and the file."""
        number, torn = 1, f"{self.path}{TORN}"
        while True:
            with contextlib.suppress(FileExistsError):
                return torn, os.open(torn, os.O_WRONLY | os.O_CREAT | os.O_EXCL | os.O_CLOEXEC, MODE)
            number += 1
            torn = f"{self.path}{TORN}.{number}"

    # ---- where it is

    def misplaced(self):
        """The fault of a journal that somebody has removed, or put another file in the place of; or None."""
        try:
            is_here = os.path.samestat(os.lstat(self.path), os.fstat(self.lock))
        except FileNotFoundError:
            return KeptFault(f"{self.path}: somebody has removed it")
        except OSError as fault:
            return fault_of(self.path, fault)
        return None if is_here else KeptFault(f"{self.path}: somebody has put another file there, which is left as it is")

    def check_replaced(self):
        fault = self.misplaced()
        if fault and os.path.lexists(self.path):
            raise fault

    # ---- writing

    def append(self, line):
        """Puts a line after it. An OSError leaves it as it was, as far as the disk lets it."""
        text = encoded(line)
        crc = zlib.crc32(text, self.crc)
        mark = mark_of(self.synced, crc)
        self.write(text + mark)
        self.size, self.crc = self.size + len(text) + len(mark), zlib.crc32(mark, crc)

    def write(self, data):
        at = self.size
        try:
            while data:
                written = os.pwrite(self.lock, data, at)
                at, data = at + written, data[written:]
        except OSError:
            with contextlib.suppress(OSError):
                os.ftruncate(self.lock, self.size)
            raise

    def sync(self):
        """Lets the disk have what was written, where that is asked for."""
        if self.synced != self.size and self.sync_when != "never":
            os.fdatasync(self.lock)
            self.synced = self.size

    @property
    def grown(self):
        """How many bytes came to it since it was begun or written anew."""
        return self.size - self.first_size

    def is_long(self):
        """Whether it is worth writing anew."""
        return self.grown > self.first_size + GROWTH

    def listing(self, then):
        """What takes the answer to `files`, and replaces the journal by it."""
        return Renewal(self, then)


class Renewal:
    """The journal anew, with the files alone, written as the answer to `files` comes."""

    def __init__(self, journal, then):
        self.journal, self.then, self.fault = journal, then, None
        self.size = self.crc = 0
        self.beside = self.file = None
        with self.keeping_fault():
            self.beside, self.file = journal.begin_beside()
            self.put(encoded(journal.head()))

    @contextlib.contextmanager
    def keeping_fault(self):
        """Keeps what is wrong: the rest of the answer has to be taken all the same."""
        try:
            yield
        except OSError as fault:
            self.fault = fault_of(self.journal.path, fault)
        except KeptFault as fault:
            self.fault = fault

    def heard(self, links):
        """What links did meanwhile doesn't matter here."""
        return False

    def told(self):
        return []

    def put(self, text):
        self.file.buffer.write(text)
        self.size, self.crc = self.size + len(text), zlib.crc32(text, self.crc)

    def take(self, line):
        if self.fault:
            return
        if not line.startswith((FILE, RECORD)):
            self.fault = KeptFault(f"{self.journal.path}: the live end answers '{line[:60]}' in place of the files")
            return
        with self.keeping_fault():
            self.put(encoded(line))

    def end(self):
        self.then(self)

    def finish(self):
        """Replaces the journal by what was written, once the disk has it."""
        with self.keeping_fault():
            if not self.fault:
                self.put(mark_of(0, self.crc))
                journal = self.journal
                journal.replace(self.beside, self.file)
                self.beside = None
                journal.size = journal.first_size = self.size
                journal.crc, journal.synced = self.crc, self.size
        self.clear()

    def clear(self):
        if self.file:
            with contextlib.suppress(OSError):
                self.file.close()
        if self.beside:
            with contextlib.suppress(OSError):
                os.unlink(self.beside)
