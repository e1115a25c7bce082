"""One DECnet Phase IV end node: what it sends to other nodes and takes from them, and its hello messages."""
import random
import time
from dataclasses import dataclass

from decnet import frames
from decnet.address import PREFIX, ethernet_address, is_node


@dataclass(frozen=True)
class Peer:
    """A node, and the station on this Ethernet that leads to it."""

    node: int
    station: bytes


@dataclass(frozen=True)
class Arrived:
    """An NSP packet that came; one that is `returned` is an own one that couldn't be delivered."""

    peer: Peer
    packet: bytes
    returned: bool


def read_frame(frame, node):
    """What came to the node in a frame; None where it is anything but an NSP packet for it."""
    found = frames.read_frame(frame)
    receiver, station = frame[:len(PREFIX) + 2], frame[len(PREFIX) + 2:frames.STATIONS]
    if isinstance(found, frames.Passed) or receiver != ethernet_address(node) or station[0] & frames.GROUP:
        return None
    if not found.is_long or found.flags & frames.LATER_VERSION:
        return None
    _, _, _, to, _, _, source, _, _, _, _ = frames.LONG_HEADER.unpack_from(frame, found.header)
    if to != ethernet_address(node) or not source.startswith(PREFIX):
        return None
    if not is_node(found.sender) or found.sender == node:
        return None
    return Arrived(Peer(found.sender, station), frame[found.start:found.end], bool(found.flags & frames.RETURNED))


class Harm:
    """A bad network for tests: of what is sent `percent` in a hundred are lost, repeated, or sent after the next."""

    def __init__(self, percent, seed):
        self.share, self.random, self.late = percent / 100, random.Random(seed), None

    def happens(self):
        return self.random.random() < self.share

    def carry(self, frame):
        """The frames that go out where this one was to."""
        if self.happens():
            return []
        if self.late is None and self.happens():
            self.late = frame
            return []
        carried = [frame, frame] if self.happens() else [frame]
        if self.late is not None:
            carried.append(self.late)
            self.late = None
        return carried


class EndNode:
    """An end node: it says hello, and carries NSP packets to and from other nodes over a wire."""

    def __init__(self, wire, node, router=None, harm=None, tap=None, clock=time.monotonic):
        """With a `tap` each frame that is sent or comes is noted there."""
        self.wire, self.node, self.router, self.harm, self.tap, self.clock = wire, node, router, harm, tap, clock
        self.hello_at = clock()

    @property
    def socket(self):
        """What can be waited for."""
        return self.wire.socket

    def hello_frame(self):
        message = frames.hello_message(self.node, self.router)
        return frames.frame_of(frames.ALL_ROUTERS, ethernet_address(self.node), message)

    def say_hello(self):
        """Says hello where it is time."""
        if self.clock() >= self.hello_at:
            self.hello_at = self.clock() + frames.HELLO_SECONDS
            self.wire.refresh()
            self.send_frame(self.hello_frame())

    def start(self):
        """Says the first hello; a fault where the network is down."""
        frame = self.hello_frame()
        self.note(frame)
        self.wire.start(frame)
        self.hello_at = self.clock() + frames.HELLO_SECONDS

    def way_to(self, node):
        """A node from which nothing came yet: by the router where there is one, or on this Ethernet."""
        return Peer(node, ethernet_address(self.router or node))

    def send(self, peer, packet, return_wanted=False):
        message = frames.long_message(peer.node, self.node, packet, return_wanted)
        self.send_frame(frames.frame_of(peer.station, ethernet_address(self.node), message))

    def send_frame(self, frame):
        for one in self.harm.carry(frame) if self.harm else [frame]:
            self.note(one)
            self.wire.send(one)

    def receive(self):
        """The NSP packet of the next frame; None where there is no frame, or it is another's."""
        frame = self.wire.receive()
        if not frame:
            return None
        self.note(frame)
        return read_frame(frame, self.node)

    def note(self, frame):
        if self.tap:
            self.tap.note(frame)

    def close(self):
        self.wire.close()
