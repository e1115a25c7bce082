"""The file in which a serving bridge keeps its files: read, locked, and written anew without ever being less than
whole.

It is an input of `daplive serve`. What the bridge writes begins with HEAD and ends with a mark that says how much there
is, both of them comments; a file that begins with HEAD and doesn't end with that mark was cut short. A file without
HEAD, as people write it, needs no mark.
"""
import contextlib
import hashlib
import os
import socket
import threading
from dataclasses import dataclass, field

from decnet import log
from decnet.locked import ENCODING, KeptFault, LockedFile, fault_of

HEAD = "# kept by bridge.py"
MARK = "# end of files: {} files, {} lines"
MAX_LINE = 16_777_216  # the most bytes of a line that a live end takes
MODE = 0o640  # of a file that is made
FILE, RECORD = "file ", "  "  # how a line of files begins
CLOSE_SECONDS = 0.5  # for a save that is given up


# ---- reading


def read_lines(path, opened=None, note=lambda number, line: None):
    """The lines of a file of files with their numbers, without comments, of which `note` is told; a fault where it isn't whole.
    It may be `opened` already."""
    try:
        with open(path if opened is None else opened, **ENCODING) as file:
            yield from check_lines(path, numbered(path, file), note)
    except OSError as fault:
        raise fault_of(path, fault) from fault


def numbered(path, file):
    number = 0
    while line := file.readline(MAX_LINE + 1):
        number += 1
        if len(line) > MAX_LINE:
            raise KeptFault(f"{path}: line {number}: more than {MAX_LINE} bytes")
        yield number, line.rstrip("\r\n")


def check_lines(path, lines, note):
    """The lines that are files, of all of them."""
    first, last, files, count = "", "", 0, 0
    for number, line in lines:
        first, last = first if number > 1 else line, line or last
        if not line or line.startswith("#"):
            note(number, line)
            continue
        if not line.startswith((FILE, RECORD)):
            raise KeptFault(f"{path}: line {number}: not a line of files")
        files, count = files + line.startswith(FILE), count + 1
        yield number, line
    is_kept = first == HEAD or (first and first == last and HEAD.startswith(first))
    if is_kept and last != MARK.format(files, count):
        raise KeptFault(f"{path}: it was cut short or changed: its last line isn't '{MARK.format(files, count)}'. "
                        f"Where that is meant, take its first line out, '{HEAD}'")


# ---- the file


class KeptFile(LockedFile):
    """A file that is kept. While it is, no other bridge keeps it, and nobody else may change it."""

    def __init__(self, path, loaded=None, head=None):
        """`loaded` is the file from which the files come; where it isn't this one, this one has to be empty or missing.
        `head` is a comment that is written at its beginning. A fault where it is no plain file, is kept by another bridge,
        or can't be written anew."""
        self.head = head
        self.digest = None  # of what was saved last
        super().__init__(path, MODE)
        try:
            self.check(loaded)
            self.clear()
            self.try_beside()
        except OSError as fault:
            self.close()
            raise fault_of(path, fault) from fault
        except KeptFault:
            self.close()
            raise
        self.seen = self.state()

    def check(self, loaded):
        """A fault where the file has bytes that aren't loaded: they would be lost."""
        is_loaded = loaded is not None and os.path.exists(loaded) and os.path.samefile(loaded, self.path)
        if os.fstat(self.lock).st_size and not is_loaded:
            raise KeptFault(f"{self.path}: it isn't empty, and isn't the file of --files: it would be overwritten")

    def state(self):
        """What changes where somebody else writes the file or replaces it."""
        try:
            found = os.lstat(self.path)
        except FileNotFoundError:
            return None
        return found.st_dev, found.st_ino, found.st_size, found.st_mtime_ns

    def is_as(self, digest):
        """Whether the file has this already."""
        return digest == self.digest and self.state() == self.seen

    def check_replaced(self):
        if self.state() not in (self.seen, None):
            raise KeptFault(f"{self.path}: somebody else has changed it, and it is left as it is")

    def replaced(self):
        self.seen = self.state()

    def listing(self, then):
        """What takes the answer to `files`, and replaces the file by it."""
        return Listing(self, then)


# ---- writing


class Listing:
    """The answer to `files`, written as it comes; `then` is called with its fault, or None, when it is whole."""

    def __init__(self, kept, then):
        self.kept, self.then, self.fault = kept, then, None
        self.files = self.count = 0
        self.digest = hashlib.sha256()
        self.beside = self.file = None
        with self.keeping_fault():
            self.beside, self.file = kept.begin_beside()
            self.file.write(f"{HEAD}\n" + (f"{kept.head}\n" if kept.head else ""))

    @contextlib.contextmanager
    def keeping_fault(self):
        """Keeps what is wrong: the rest of the answer has to be taken all the same."""
        try:
            yield
        except OSError as fault:
            self.fault = fault_of(self.kept.path, fault)
        except KeptFault as fault:
            self.fault = fault

    def heard(self, links):
        """What links did meanwhile doesn't matter here."""
        return False

    def told(self):
        return []

    def take(self, line):
        if self.fault:
            return
        if not line.startswith((FILE, RECORD)):
            self.fault = KeptFault(f"{self.kept.path}: the live end answers '{line[:60]}' in place of the files")
            return
        self.files, self.count = self.files + line.startswith(FILE), self.count + 1
        text = f"{line}\n"
        self.digest.update(text.encode("utf-8", "surrogateescape"))
        try:
            self.file.write(text)
        except OSError as fault:
            self.fault = fault_of(self.kept.path, fault)

    def end(self):
        self.then(self)

    def finish(self):
        """Replaces the old file by what was written; or removes it, where it is as the old one."""
        try:
            with self.keeping_fault():
                if not self.fault and not self.kept.is_as(self.digest.digest()):
                    self.file.write(MARK.format(self.files, self.count) + "\n")
                    self.kept.replace(self.beside, self.file)
                    self.beside, self.kept.digest = None, self.digest.digest()
        finally:
            self.clear()

    def clear(self):
        if self.file:
            with contextlib.suppress(OSError):
                self.file.close()
        if self.beside:
            with contextlib.suppress(OSError):
                os.unlink(self.beside)


@dataclass
class LinksDid:
    """What links did with files, besides what a live end lists."""

    erased: list = field(default_factory=list)  # names, as they were asked for, of files that they asked to erase
    making: list = field(default_factory=list)  # names, as they were asked for, of files that they make, and haven't closed
    lost: list = field(default_factory=list)  # the same of links that are closed


class Keeper:
    """Saves the files of a live end, one save after another, while other things go on: a thread waits for the disk.

    Where they are kept gives a `listing`, which takes the lines of the answer to `files` and its end, and then calls what
    it was given; when it has `heard` what links did since the last save, it says whether another save is needed. `finish`,
    in the thread, lets the disk have them, `fault` says whether it has, and `told` what is to be said then.
    """

    def __init__(self, kept, end, is_changed=False):
        self.kept, self.end, self.is_changed = kept, end, is_changed
        self.making = lambda: []  # the names, as they were asked for, of files that links are making
        self.links, self.before = LinksDid(), LinksDid()  # what they did since the last save, and before that one
        self.waiting = []  # who is told when the next save is over
        self.served = None  # who is told when this one is over; None where there is none
        self.failed = lambda fault: None  # who is told of a save that failed, besides
        self.listing = self.thread = None
        self.reading, self.writing = socket.socketpair()

    def note_change(self, erased=()):
        """Something may have changed, and files of these names, as they were asked for, may have been erased."""
        self.is_changed = True
        self.links.erased += erased

    def note_lost(self, name):
        """A link was closed before the file that it made was."""
        self.links.lost.append(name)

    @property
    def is_due(self):
        """Whether there is something that isn't on the disk."""
        return self.is_changed or self.is_busy

    @property
    def is_busy(self):
        return self.served is not None

    def save(self, then=lambda fault: None):
        """Saves what the files are now; `then` is called with what is wrong, or None."""
        self.waiting.append(then)
        if not self.is_busy:
            self.begin()

    def begin(self):
        self.served, self.waiting, self.is_changed = self.waiting, [], False
        self.before, self.links = self.links, LinksDid()
        self.listing = self.kept.listing(self.listed)
        self.end.tell("files", self.listing)

    def listed(self, listing):
        """All of it was written; the disk may take long."""
        self.before.making = self.making()
        self.before.lost, self.links.lost = self.before.lost + self.links.lost, []
        self.is_changed |= listing.heard(self.before)
        self.thread = threading.Thread(target=self.finish, args=(listing,), daemon=True)
        self.thread.start()

    def finish(self, listing):
        try:
            listing.finish()
        except Exception as fault:  # whatever it is, who waits for the save is told
            listing.fault = KeptFault(f"{type(fault).__name__}: {fault}", of_machine=True)
        self.writing.send(b"\0")

    def look(self):
        """The disk has it, or there is a fault."""
        self.reading.recv(1)
        self.thread.join()
        fault, served = self.listing.fault, self.served
        for text in self.listing.told():
            log.say(text)
        self.listing = self.served = None
        if fault:
            self.note_change(self.before.erased)
            self.links.lost = self.before.lost + self.links.lost
            self.failed(fault)
        for then in served:
            then(fault)
        if self.waiting and not self.is_busy:
            self.begin()

    def files(self):
        return {self.reading: self.look}

    def close(self):
        """Gives up a save that isn't over; what it has written is left where the disk still has to do with it."""
        if self.thread:
            self.thread.join(CLOSE_SECONDS)
        if self.listing and not (self.thread and self.thread.is_alive()):
            self.listing.clear()
        for one in (self.reading, self.writing, self.kept):
            one.close()
