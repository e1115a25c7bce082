"""Files of this host: read whole, and written so that one is complete or not there."""
import contextlib
import os
import secrets
import stat
import sys

from decnet.locked import sync_folder
from decnet.texts import TextFault

STANDARD = "-"
RANDOM_BYTES = 8


class HostFault(Exception):
    """A file of this host can't be written any more."""


def read_host(path):
    """The bytes of a file, or of standard input."""
    try:
        if path == STANDARD:
            return sys.stdin.buffer.read()
        with open(path, "rb") as file:
            return file.read()
    except OSError as fault:
        raise TextFault(f"{path}: {fault.strerror}") from fault


class HostFile:
    """A file that is written beside its name, and has it when it is whole; or standard output, or a device."""

    def __init__(self, path, is_replaced=False):
        """A TextFault where the file is there already and isn't to be replaced, or can't be written."""
        self.path, self.is_replaced, self.beside = path, is_replaced, None
        try:
            self.file = self.open()
        except OSError as fault:
            raise TextFault(f"{path}: {fault.strerror}") from fault

    def open(self):
        if self.path == STANDARD:
            return sys.stdout.buffer
        self.path = os.path.realpath(self.path)
        mode = None
        with contextlib.suppress(FileNotFoundError):
            found = os.stat(self.path)
            if not stat.S_ISREG(found.st_mode):
                return open(self.path, "wb")
            if not self.is_replaced:
                raise TextFault(f"{self.path}: it is there already; --replace writes it anew")
            mode = stat.S_IMODE(found.st_mode)
        beside = f"{self.path}.new.{secrets.token_hex(RANDOM_BYTES)}"
        made = os.open(beside, os.O_WRONLY | os.O_CREAT | os.O_EXCL | os.O_CLOEXEC, 0o666)
        self.beside = beside
        if mode is not None:
            os.fchmod(made, mode)
        return os.fdopen(made, "wb")

    @contextlib.contextmanager
    def writing(self):
        """A HostFault where the system doesn't write; a pipe that nobody reads is another matter."""
        try:
            yield
        except (BrokenPipeError, FileExistsError):
            raise
        except OSError as fault:
            if self.path != STANDARD:
                raise HostFault(f"{self.path}: {fault.strerror}") from fault
            os.dup2(os.open(os.devnull, os.O_WRONLY), sys.stdout.fileno())
            raise HostFault(f"standard output: {fault.strerror}") from fault

    def write(self, data):
        with self.writing():
            self.file.write(data)

    def finish(self):
        """Gives the file its name; it is on the disk then."""
        with self.writing():
            self.file.flush()
            if self.beside is not None:
                os.fsync(self.file.fileno())
                self.file.close()
                self.name_it()
                sync_folder(self.path)

    def name_it(self):
        try:
            if self.is_replaced:
                os.replace(self.beside, self.path)
            else:
                os.link(self.beside, self.path)
                os.unlink(self.beside)
        except FileExistsError as fault:
            raise TextFault(f"{self.path}: somebody made it meanwhile; --replace writes it anew") from fault
        self.beside = None

    def close(self):
        """Removes what isn't whole."""
        if self.path == STANDARD:
            return
        with contextlib.suppress(OSError):
            self.file.close()
        if self.beside is not None:
            with contextlib.suppress(OSError):
                os.unlink(self.beside)
