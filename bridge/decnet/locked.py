"""A file that one bridge alone changes: it is locked, and written anew beside its name, so that it is always whole."""
import contextlib
import fcntl
import os
import re
import secrets
import stat

BUFFER = 1 << 20
RANDOM_BYTES = 8
ENCODING = {"encoding": "utf-8", "errors": "surrogateescape", "newline": "\n"}


class KeptFault(Exception):
    """The lines in the file aren't files, or it isn't to be overwritten; or, `of_machine`, the machine is at fault."""

    def __init__(self, text, of_machine=False):
        super().__init__(text)
        self.of_machine = of_machine


def fault_of(path, fault):
    return KeptFault(f"{path}: {fault.strerror or fault}", of_machine=True)


def kind_of(mode):
    """What has this mode, in words; nothing for a plain file."""
    kinds = {stat.S_ISREG: "", stat.S_ISLNK: "a symbolic link", stat.S_ISDIR: "a folder"}
    return next((text for is_kind, text in kinds.items() if is_kind(mode)), "a device")


def sync_folder(path):
    """Lets the disk have the names in the folder of a file."""
    folder = os.open(os.path.dirname(path) or ".", os.O_RDONLY)
    try:
        os.fsync(folder)
    finally:
        os.close(folder)


class LockedFile:
    """A plain file that is locked while it is open here; a missing one is made."""

    def __init__(self, path, mode):
        """A fault where it is no plain file, or another bridge has it."""
        self.path, self.mode, self.lock = path, mode, None
        try:
            self.is_new = self.take_lock()
        except OSError as fault:
            self.close()
            raise fault_of(path, fault) from fault
        except KeptFault:
            self.close()
            raise

    def take_lock(self):
        """Opens and locks the file; whether it had to be made."""
        flags = os.O_RDWR | os.O_CLOEXEC | os.O_NOFOLLOW | os.O_NONBLOCK
        while True:
            with contextlib.suppress(FileNotFoundError):
                self.check_kind(os.lstat(self.path))
                self.lock, is_new = os.open(self.path, flags), False
            if self.lock is None:
                with contextlib.suppress(FileExistsError):
                    self.lock, is_new = os.open(self.path, flags | os.O_CREAT | os.O_EXCL, self.mode), True
            if self.lock is not None:
                self.lock_open(self.lock)
                if os.path.samestat(os.fstat(self.lock), os.lstat(self.path)):
                    return is_new
                self.close()

    def lock_open(self, file):
        try:
            fcntl.flock(file, fcntl.LOCK_EX | fcntl.LOCK_NB)
        except BlockingIOError as fault:
            raise KeptFault(f"{self.path}: another bridge keeps it") from fault

    def check_kind(self, found):
        kind = kind_of(found.st_mode)
        if kind:
            raise KeptFault(f"{self.path}: it is {kind}, and no plain file")

    def clear(self):
        """Removes what a bridge that was killed had begun to write."""
        folder, name = os.path.split(self.path)
        begun = re.compile(re.escape(name) + rf"\.new\.[0-9a-f]{{{2 * RANDOM_BYTES}}}")
        for one in os.listdir(folder or "."):
            if begun.fullmatch(one):
                os.unlink(os.path.join(folder, one))

    def try_beside(self):
        """A fault where the file couldn't be written anew."""
        beside, file = self.begin_beside()
        file.close()
        os.unlink(beside)

    def begin_beside(self):
        """A new file beside it, with its owner and its mode: the name, and the file."""
        old = os.fstat(self.lock)
        beside = f"{self.path}.new.{secrets.token_hex(RANDOM_BYTES)}"
        made = os.open(beside, os.O_RDWR | os.O_CREAT | os.O_EXCL | os.O_CLOEXEC, 0o600)
        file = open(made, "w", buffering=BUFFER, **ENCODING)
        try:
            new = os.fstat(made)
            if (new.st_uid, new.st_gid) != (old.st_uid, old.st_gid):
                os.fchown(made, old.st_uid, old.st_gid)
            os.fchmod(made, stat.S_IMODE(old.st_mode))
        except OSError:
            file.close()
            os.unlink(beside)
            raise
        return beside, file

    def replace(self, beside, file):
        """Gives the new file, which is whole, the name of the old one, once it is on the disk."""
        file.flush()
        os.fsync(file.fileno())
        self.check_replaced()
        lock = os.dup(file.fileno())
        try:
            self.lock_open(lock)
            os.replace(beside, self.path)
        except (OSError, KeptFault):
            os.close(lock)
            raise
        os.close(self.lock)
        self.lock = lock
        self.replaced()
        sync_folder(self.path)

    def check_replaced(self):
        """A fault where the old file isn't to be replaced."""

    def replaced(self):
        """The new file has the name."""

    def close(self):
        if self.lock is not None:
            os.close(self.lock)
            self.lock = None
