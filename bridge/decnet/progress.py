"""How far a long transfer is, in a line on a terminal that is written anew each second."""
import sys
import time

SECONDS = 1
WIDTH = 60


class Progress:
    """Counts bytes of data that a link carries, and reports them where standard error is a terminal."""

    def __init__(self, total=None, is_told=None, clock=time.monotonic):
        """`total` is how many bytes there are in all, where that is known."""
        self.total, self.clock = total, clock
        self.is_told = sys.stderr.isatty() if is_told is None else is_told
        self.carried, self.begun, self.told_at, self.has_told = 0, clock(), clock(), False

    def carry(self, count):
        self.carried += count
        if self.is_told and self.clock() >= self.told_at + SECONDS:
            self.told_at, self.has_told = self.clock(), True
            print(self.text().ljust(WIDTH), end="\r", file=sys.stderr, flush=True)

    def text(self):
        rate = self.carried / max(self.clock() - self.begun, 0.001) / 1000
        share = f" of {self.total:,} ({min(99, 100 * self.carried // self.total)} %)" if self.total else ""
        return f"{self.carried:,} bytes{share}, {rate:,.0f} kB/s"

    def close(self):
        """Takes the line off."""
        if self.has_told:
            print("".ljust(WIDTH), end="\r", file=sys.stderr, flush=True)
