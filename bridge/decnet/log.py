"""The log: lines on standard error or in a file, a limited number a second, which nobody waits for."""
import collections
import contextlib
import os
import select
import sys
import time

MAX_LINES = 20  # in a second; then they are counted
MAX_WAITING = 1000  # lines that can't be written yet
PIECE = 4096  # bytes that a pipe that can be written takes at once


class LogFault(Exception):
    """The file of the log can't be used."""


class Log:
    """Lines after a program's name. Where they can't be written at once they wait, and a line that finds too many
    waiting is counted in place of written."""

    def __init__(self, name, path=None, with_times=False, clock=time.monotonic):
        self.name, self.path, self.with_times, self.clock = name, path, with_times, clock
        self.file, self.is_own = None, False
        self.second, self.count, self.left_out = 0, 0, 0
        self.waiting = collections.deque()
        self.open()

    def open(self):
        """Begins to write: to the file, or to standard error where it is open."""
        if self.path is None:
            self.file = sys.stderr.fileno() if sys.stderr else None
            return
        try:
            file = os.open(self.path, os.O_WRONLY | os.O_CREAT | os.O_APPEND | os.O_CLOEXEC | os.O_NONBLOCK, 0o640)
        except OSError as fault:
            raise LogFault(f"{self.path}: {fault.strerror}") from fault
        if self.file is not None:
            os.close(self.file)
        self.file = file

    def open_again(self):
        """Begins a file anew, where the old one has another name now; the old one goes on where that can't be."""
        try:
            self.open()
        except LogFault as fault:
            self.say(f"the log stays as it was: {fault}")

    def say(self, text):
        """Writes a line, or counts it where there are too many."""
        now = int(self.clock())
        if now != self.second:
            self.begin_second(now)
        self.count += 1
        if self.count > MAX_LINES or len(self.waiting) >= MAX_WAITING:
            self.left_out += 1
        else:
            self.put(text)
        self.write()

    def begin_second(self, now):
        self.second, self.count = now, 0
        if self.left_out and len(self.waiting) < MAX_WAITING:
            self.put(f"{self.left_out} more lines, which were left out")
            self.left_out = 0

    def put(self, text):
        when = time.strftime("%Y-%m-%d %H:%M:%S ") if self.with_times else ""
        line = f"{self.name}: {when}{text}\n"
        self.waiting.append(line.encode("utf-8", "surrogateescape")[:PIECE])

    def write(self):
        """Writes what can be written without waiting."""
        while self.waiting and self.file is not None and select.select([], [self.file], [], 0)[1]:
            try:
                written = os.write(self.file, self.waiting[0])
            except BlockingIOError:
                return
            except OSError:  # a log that can't be written has nobody to be reported to
                self.waiting.clear()
                return
            line = self.waiting.popleft()
            if written < len(line):
                self.waiting.appendleft(line[written:])

    def tick(self):
        """Reports how many lines were left out when their second is over, and writes what waits."""
        if self.left_out and int(self.clock()) != self.second:
            self.begin_second(int(self.clock()))
        self.write()

    def next_seconds(self):
        """In how many seconds there is something to do; None where there is nothing."""
        return 1 if self.left_out or self.waiting else None

    def close(self):
        if self.path is not None and self.file is not None:
            with contextlib.suppress(OSError):
                os.close(self.file)
        self.file = None


class Standard:
    """The log that all parts of a program write to."""

    current = None


def start(name, path=None, with_times=False):
    """Begins the program's log."""
    Standard.current = Log(name, path, with_times)
    return Standard.current


def say(text):
    """A line of the program's log."""
    if Standard.current is None:
        start("bridge")
    Standard.current.say(text)
