"""How many bytes of answers wait for the other end of a link, by the segments that its live end writes.

A live end serves nothing more while as many bytes of answers wait as `--waiting` says. Of those the bridge sees what the
window allows: the others are written as acknowledgements come. But what is written while no new segment is taken answers
what had been taken before. So it waited already when the last segment was taken, or what it answers wasn't served
then, for which that many others waited.
"""
import collections

from decnet import dap, nsp
from decnet.nsp import Kind

WINDOW, MOST = 8, 1 << 20  # of a live end that isn't told otherwise
SEVERAL = 2  # requests in a message that isn't read here


def requests_in(packet):
    """How many requests, at least one and possibly more, a segment brings to its end."""
    if packet.kind not in nsp.LASTS:
        return 0
    if packet.kind is not Kind.ONLY:
        return SEVERAL
    try:
        return sum(1 for _ in dap.messages(packet.body))
    except dap.Unread:
        return SEVERAL


class Message:
    """An answer of which segments were written: their bytes, and the number of its last segment, when that is."""

    def __init__(self):
        self.size, self.last = 0, None


class Waiting:
    """What waits on a link at least, and whether that is as much as may wait.

    The answers to a single request wait together, however long they are, and hold nothing up: `is_met` wants more requests
    than one that were taken since nothing waited.
    """

    def __init__(self, most=None, window=WINDOW):
        """`most` bytes may wait before no more is served; None for any number."""
        self.most, self.window = most, window
        self.newest = self.acknowledged = 0  # the highest segment that was written, and that the other end has
        self.messages, self.size = collections.deque(), 0  # whose last segment the other end hasn't, and their bytes
        self.requests = 0  # that were taken since nothing waited
        self.known = 0  # bytes that waited at least when a segment was taken last
        self.is_sure = True  # whether all was served then that might be: there was memory

    def took(self, packet):
        """The live end took a new segment: what is written from now on may be its answer."""
        self.requests += requests_in(packet)
        self.known, self.is_sure = self.size, True

    def wrote(self, packet):
        """The live end wrote a segment, for the first time or again."""
        if not 0 < (packet.number - self.newest) % nsp.NUMBERS < nsp.AHEAD:
            return
        self.newest = packet.number
        if not self.messages or self.messages[-1].last is not None:
            self.messages.append(Message())
        size = len(packet.body)
        self.messages[-1].size += size
        self.size, self.known = self.size + size, self.known + size
        if packet.kind in nsp.LASTS:
            self.messages[-1].last = packet.number

    def lacked_memory(self):
        """Something wasn't served for another reason."""
        self.is_sure = False

    def acknowledge(self, number):
        """The other end has the segments up to a number."""
        had_all = (self.newest - self.acknowledged) % nsp.NUMBERS < self.window
        self.acknowledged = number
        while self.messages and self.is_had(self.messages[0]):
            self.size -= self.messages.popleft().size
        if had_all and not self.messages:
            self.requests = 0

    def is_had(self, message):
        return message.last is not None and (self.acknowledged - message.last) % nsp.NUMBERS < nsp.AHEAD

    @property
    def is_met(self):
        """Whether as many bytes waited as may, or wait, since a segment was taken last."""
        return self.most is not None and self.is_sure and self.requests > 1 and self.known >= self.most
