"""A pcap file of the frames that a bridge sends and gets, which a program that reads a pipe can read as they come."""
import contextlib
import errno
import os
import stat
import struct
import time

from decnet import log

ETHERNET = 1  # the link type of a capture file
MAGIC, VERSION, MAX_FRAME = 0xA1B2C3D4, (2, 4), 65535
HEAD = struct.pack("<IHHiIII", MAGIC, *VERSION, 0, 0, MAX_FRAME, ETHERNET)
RECORD = struct.Struct("<IIII")  # seconds, microseconds, bytes that are kept, bytes of the frame
FLAGS = os.O_RDWR | os.O_CREAT | os.O_APPEND | os.O_CLOEXEC | os.O_NONBLOCK
MODE = 0o600  # passwords are in the frames


class PcapFault(Exception):
    """The file can't be begun, or gone on with."""


class Pcap:
    """A pcap file to which frames are appended; a missing or empty one is begun. A pipe has to have its reader first."""

    def __init__(self, path):
        self.path, self.file = path, None
        try:
            self.file = self.open()
            self.is_plain = stat.S_ISREG(os.fstat(self.file).st_mode)
            self.begin()
        except OSError as fault:
            self.close()
            raise PcapFault(f"--pcap {path}: {fault.strerror}") from fault

    def open(self):
        with contextlib.suppress(FileNotFoundError):
            if stat.S_ISFIFO(os.stat(self.path).st_mode):
                return os.open(self.path, os.O_WRONLY | os.O_CLOEXEC | os.O_NONBLOCK)
        return os.open(self.path, FLAGS, MODE)

    def begin(self):
        """Writes the head, or looks whether it is there; a frame that was cut short is taken out."""
        if not self.is_plain or os.fstat(self.file).st_size == 0:
            os.write(self.file, HEAD)
        elif os.pread(self.file, len(HEAD), 0) != HEAD:
            self.close()
            raise PcapFault(f"--pcap {self.path}: it isn't empty, and it is no file that --pcap began")
        self.cut_short()

    def note(self, frame):
        """Writes a frame. Where that can't be it is reported once, and no more are written; what a slow reader of a pipe
        doesn't take is left out."""
        if self.file is None:
            return
        seconds, rest = divmod(time.time_ns(), 10**9)
        record = RECORD.pack(seconds & 0xFFFFFFFF, rest // 1000, len(frame), len(frame)) + frame
        try:
            if os.write(self.file, record) < len(record):
                raise OSError(errno.ENOSPC, os.strerror(errno.ENOSPC))
        except BlockingIOError:
            return
        except OSError as fault:
            log.say(f"--pcap {self.path}: {fault.strerror}: no more frames are written")
            self.cut_short()
            self.close()

    def cut_short(self):
        """Takes the part of a frame out that is at the end of a plain file."""
        if not self.is_plain:
            return
        with contextlib.suppress(OSError):
            os.ftruncate(self.file, whole_size(self.file))

    def close(self):
        if self.file is not None:
            os.close(self.file)
            self.file = None


def whole_size(file):
    """How many bytes of a pcap file are whole frames."""
    at, size = len(HEAD), os.fstat(file).st_size
    while True:
        head = os.pread(file, RECORD.size, at)
        if len(head) < RECORD.size:
            return at
        end = at + RECORD.size + RECORD.unpack(head)[2]
        if end > size:
            return at
        at = end
