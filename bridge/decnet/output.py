"""Standard output, which may be a pipe that nobody reads for long. A thread writes to it, so that nobody waits for that."""
import collections
import contextlib
import errno
import os
import select
import socket
import sys
import threading

from decnet.role import FAILED, Stopped, turn

MAX_WAITING = 16 << 20  # bytes that may wait for it: then nothing more is taken from the link
PIECE = 1 << 16
LOOK_SECONDS = 60


class Output:
    """What is written waits until standard output takes it. An OSError of that is raised at the next use; at once where
    it is a pipe that nobody can read any more, so that no work is said to be done whose output is lost."""

    def __init__(self, signals, file=None, most=MAX_WAITING):
        self.signals, self.most = signals, most
        self.file = sys.stdout.fileno() if file is None else file
        self.pieces, self.size, self.fault = collections.deque(), 0, None
        self.is_slow = False  # from when half of what may wait does, until a quarter of it does
        self.is_wanted, self.is_closed = False, False  # whether somebody waits until all is written; and its end
        self.changed = threading.Condition()
        self.reading, self.writing = socket.socketpair()
        self.reading.setblocking(False)
        self.writing.setblocking(False)
        threading.Thread(target=self.work, daemon=True).start()

    # ---- the thread

    def work(self):
        while not self.is_closed:
            with self.changed:
                self.changed.wait_for(lambda: self.pieces or self.is_closed)
                data = self.take_piece()
            try:
                while data and not self.is_closed:
                    data = data[self.written(data):]
            except OSError as fault:
                self.fault = fault
                self.wake()
                return

    def take_piece(self):
        """Some of what waits, from its beginning."""
        found, size = [], 0
        while self.pieces and size < PIECE:
            found.append(self.pieces.popleft())
            size += len(found[-1])
        return memoryview(b"".join(found))

    def written(self, data):
        """Writes what is taken at once; how much that was."""
        count = os.write(self.file, data[:PIECE])
        with self.changed:
            self.size -= count
        if self.is_slow or self.is_wanted:
            self.wake()
        return count

    def wake(self):
        with contextlib.suppress(OSError):  # it is awake already, or at its end
            self.writing.send(b"\0")

    # ---- the loop

    def write(self, data):
        self.check()
        with self.changed:
            self.pieces.append(data)
            self.size += len(data)
            self.changed.notify()
        self.note_size()

    def note_size(self):
        self.is_slow = self.size >= self.most // (4 if self.is_slow else 2)

    def check(self):
        if self.fault:
            raise self.fault
        if self.is_unread():
            raise BrokenPipeError(errno.EPIPE, os.strerror(errno.EPIPE))

    def is_unread(self):
        """Whether it is a pipe whose other end is closed, though the thread may not have met that yet."""
        found = select.poll()
        found.register(self.file, 0)
        return any(event & select.POLLERR for _, event in found.poll(0))

    @property
    def is_full(self):
        return self.size >= self.most

    def files(self):
        return {self.reading: self.look}

    def look(self):
        """The thread has written something, or can't."""
        with contextlib.suppress(BlockingIOError):
            while self.reading.recv(PIECE):
                pass
        self.note_size()
        self.check()

    def flush(self):
        """Waits until all is written; Stopped at a signal."""
        self.is_wanted = True
        while self.size and not self.is_closed:
            self.check()
            turn({**self.files(), **self.signals.files()}, {}, LOOK_SECONDS)
            if self.signals.take_stop():
                raise Stopped(FAILED)
        self.is_wanted = False

    def drop(self):
        """Forgets what waits, at a signal: nothing more is written."""
        with self.changed:
            self.is_closed = True
            self.pieces.clear()
            self.changed.notify()

    def close(self):
        """Lets what waits be written, but for a fault or a signal, and ends."""
        if not self.is_closed:
            with contextlib.suppress(OSError, Stopped):
                self.flush()
        self.drop()
        self.reading.close()
        self.writing.close()
