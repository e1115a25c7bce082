"""A folder of this host that one bridge alone serves. Its files are reached through the folder that was locked, and never through
a path, so that a link or another folder that is put in the way leads nowhere else."""
import contextlib
import errno
import fcntl
import os
import secrets
import stat

from decnet.locked import KeptFault, fault_of, kind_of
from decnet.texts import TextFault

RANDOM_BYTES = 8
BEGUN = b".daplive.new."  # how the name of a file begins that isn't whole yet
MODE = 0o640  # of a file that is made
MAX_FILE = 1 << 30  # bytes of a text that is read
READING = os.O_RDONLY | os.O_NOFOLLOW | os.O_NONBLOCK | os.O_NOCTTY | os.O_CLOEXEC
WRITING = os.O_WRONLY | os.O_CREAT | os.O_EXCL | os.O_CLOEXEC


def state_in(found):
    """What changes where somebody writes a file, or replaces it."""
    return found.st_dev, found.st_ino, found.st_size, found.st_mtime_ns


class Directory:
    """A folder that is locked. Names in it are bytes."""

    def __init__(self, path):
        """A KeptFault where it is no folder that can be written, or another bridge serves it."""
        self.path, self.file = os.path.realpath(path), None
        try:
            self.file = os.open(self.path, os.O_RDONLY | os.O_DIRECTORY | os.O_CLOEXEC)
            fcntl.flock(self.file, fcntl.LOCK_EX | fcntl.LOCK_NB)
            self.try_to_write()
        except BlockingIOError as fault:
            self.close()
            raise KeptFault(f"{path}: another bridge serves it") from fault
        except OSError as fault:
            self.close()
            raise fault_of(path, fault) from fault

    def try_to_write(self):
        beside, file = self.begin_beside()
        file.close()
        self.remove(beside)

    def check_there(self):
        """An OSError where the path doesn't lead to this folder any more."""
        if not os.path.samestat(os.stat(self.path), os.fstat(self.file)):
            raise OSError(errno.ESTALE, "another folder is there now", self.path)

    def path_to(self, name):
        """The path of a file, as it is shown."""
        return os.path.join(self.path, shown(name))

    # ---- what is there

    def names(self):
        return sorted(map(os.fsencode, os.listdir(self.file)))

    def find(self, name):
        """What is known of a file, or None where there is none."""
        try:
            return os.stat(name, dir_fd=self.file, follow_symlinks=False)
        except FileNotFoundError:
            return None

    def state_of(self, name):
        found = self.find(name)
        return state_in(found) if found else None

    def kind_of(self, name):
        """What a file is that is no plain one; nothing where it is one, or there is none."""
        found = self.find(name)
        return kind_of(found.st_mode) if found else ""

    def open(self, name):
        """Opens a plain file to read it; a TextFault where it can't be read, or is none."""
        try:
            file = os.open(name, READING, dir_fd=self.file)
        except OSError as fault:
            raise TextFault(f"{self.path_to(name)}: {self.kind_of(name) or fault.strerror}") from fault
        kind = kind_of(os.fstat(file).st_mode)
        if kind:
            os.close(file)
            raise TextFault(f"{self.path_to(name)}: {kind}")
        return file

    def read(self, name):
        """The bytes of a plain file, and its state before they were read; a TextFault where it can't be read, or is none."""
        with os.fdopen(self.open(name), "rb") as file:
            state = state_in(os.fstat(file.fileno()))
            try:
                data = file.read(MAX_FILE + 1)
            except OSError as fault:
                raise TextFault(f"{self.path_to(name)}: {fault.strerror}") from fault
        if len(data) > MAX_FILE:
            raise TextFault(f"{self.path_to(name)}: more than {MAX_FILE} bytes")
        return data, state

    # ---- what is written

    def begin_beside(self):
        """A new file: its name, and the file."""
        beside = BEGUN + secrets.token_hex(RANDOM_BYTES).encode()
        return beside, os.fdopen(os.open(beside, WRITING, MODE, dir_fd=self.file), "wb")

    def write(self, name, data):
        """Writes a file, which is whole before it has its name; one that is there keeps its mode. Its state."""
        beside, file = self.begin_beside()
        try:
            with file:
                file.write(data)
                file.flush()
                before = self.find(name)
                if before and stat.S_ISREG(before.st_mode):
                    os.fchmod(file.fileno(), stat.S_IMODE(before.st_mode))
                os.fsync(file.fileno())
                state = state_in(os.fstat(file.fileno()))
            os.replace(beside, name, src_dir_fd=self.file, dst_dir_fd=self.file)
        except OSError:
            with contextlib.suppress(OSError):
                self.remove(beside)
            raise
        return state

    def rename(self, name, other):
        os.rename(name, other, src_dir_fd=self.file, dst_dir_fd=self.file)

    def remove(self, name):
        os.unlink(name, dir_fd=self.file)

    def clear(self, name):
        """Removes what a bridge that was killed had begun to write."""
        if name.startswith(BEGUN) and len(name) == len(BEGUN) + 2 * RANDOM_BYTES and not self.kind_of(name):
            self.remove(name)

    def sync(self):
        """Lets the disk have the names."""
        os.fsync(self.file)

    def close(self):
        if self.file is not None:
            os.close(self.file)
            self.file = None


def shown(name):
    """A name as it is shown."""
    return "".join(one if one.isprintable() else "?" for one in name.decode("utf-8", "replace"))
