"""Frames of DECnet Phase IV on an Ethernet: routing headers and hello messages written, and data packets found."""
import enum
import struct
from dataclasses import dataclass

from decnet.address import ethernet_address

ETHERTYPE = 0x6003
DECNET = ETHERTYPE.to_bytes(2, "big")
TAGS = (b"\x81\x00", b"\x88\xa8", b"\x91\x00")  # 802.1Q, 802.1ad, and the tag that came before it
TAG_SIZE = 4
STATIONS = 12  # bytes of a frame that are the addresses of its stations
ETHERNET_HEADER = struct.Struct("<6s6s2sH")  # receiver, sender, type, and DECnet's length
LENGTH_SIZE = 2
SHORTEST_FRAME = 60
FRAME_LIMIT = 2048  # more than any frame that is read
BLOCK_SIZE = 1498  # the most bytes of a message on an Ethernet
ALL_ROUTERS = bytes.fromhex("ab0000030000")
GROUP = 0x01  # in the first byte of an Ethernet address that isn't one station's
HELLO_SECONDS = 15

# the flags of a routing header
PADDING = 0x80
PADDING_LENGTH = 0x7F
ONE_OF_PADDING = bytes([PADDING | 1])
LATER_VERSION = 0x40
INTRA_ETHERNET = 0x20
RETURNED = 0x10
RETURN_WANTED = 0x08
FORMAT = 0x07
LONG_FORMAT = 0x06
SHORT_FORMAT = 0x02
CONTROL = 0x01  # of a routing message
# flags; area, subarea and address of the receiver and of the sender; next router, visits, service class, protocol type
LONG_HEADER = struct.Struct("<BBB6sBB6sBBBB")
SHORT_HEADER = struct.Struct("<BHHB")  # flags, receiver, sender, visits
BEFORE_PACKET = LENGTH_SIZE + len(ONE_OF_PADDING) + LONG_HEADER.size  # bytes of a frame's data that are no packet

# an end node's hello
END_NODE_HELLO = 0x0D
VERSION = bytes([2, 0, 0])
END_NODE = 3
TEST_DATA = bytes([0xAA, 0xAA])
# kind, version, address, what it is, block size, area, seed, router, seconds, reserved
HELLO = struct.Struct("<B3s6sBHB8s6sHB")


class Passed(enum.Enum):
    """Why a frame is passed over."""

    OTHER = "frames of another kind"
    CUT_SHORT = "packets cut short"
    ROUTING = "routing messages"


@dataclass(frozen=True)
class Data:
    """A data packet between two nodes, and where in the frame its NSP packet is."""

    flags: int
    receiver: int
    sender: int
    header: int  # the offset of the routing header
    start: int  # the offset of the NSP packet
    end: int

    @property
    def is_long(self):
        return self.flags & FORMAT == LONG_FORMAT


def read_frame(frame):
    """The data packet in a frame, or why there is none."""
    at = STATIONS
    while frame[at:at + 2] in TAGS:
        at += TAG_SIZE
    if frame[at:at + 2] != DECNET:
        return Passed.OTHER
    at += len(DECNET)
    end = at + LENGTH_SIZE + int.from_bytes(frame[at:at + LENGTH_SIZE], "little")
    at += LENGTH_SIZE
    if at >= end or end > len(frame):
        return Passed.CUT_SHORT
    if frame[at] & PADDING:
        at += frame[at] & PADDING_LENGTH
        if at >= end:
            return Passed.CUT_SHORT
    return read_routed(frame, at, end)


def read_routed(frame, at, end):
    """The data packet after a routing header, or why there is none."""
    flags = frame[at]
    if flags & (PADDING | CONTROL) or flags & FORMAT not in (LONG_FORMAT, SHORT_FORMAT):
        return Passed.ROUTING
    header = LONG_HEADER if flags & FORMAT == LONG_FORMAT else SHORT_HEADER
    start = at + header.size
    if start >= end:
        return Passed.CUT_SHORT
    if header is SHORT_HEADER:
        _, receiver, sender, _ = SHORT_HEADER.unpack_from(frame, at)
    else:
        _, _, _, to, _, _, source, _, _, _, _ = LONG_HEADER.unpack_from(frame, at)
        receiver, sender = int.from_bytes(to[4:], "little"), int.from_bytes(source[4:], "little")
    return Data(flags, receiver, sender, at, start, end)


def frame_of(receiver, sender, message):
    """A frame with a message, between two stations."""
    head = ETHERNET_HEADER.pack(receiver, sender, DECNET, len(message))
    return (head + message).ljust(SHORTEST_FRAME, b"\0")


def long_message(receiver, sender, packet, return_wanted=False):
    """A packet between two nodes after a long routing header, and one byte of padding."""
    flags = LONG_FORMAT | INTRA_ETHERNET | (RETURN_WANTED if return_wanted else 0)
    header = LONG_HEADER.pack(flags, 0, 0, ethernet_address(receiver), 0, 0, ethernet_address(sender), 0, 0, 0, 0)
    return ONE_OF_PADDING + header + packet


def hello_message(node, router=None):
    """An end node's hello; `router` is the node of the router that it uses."""
    neighbour = ethernet_address(router) if router else bytes(6)
    head = HELLO.pack(END_NODE_HELLO, VERSION, ethernet_address(node), END_NODE, BLOCK_SIZE, 0, bytes(8), neighbour,
                      HELLO_SECONDS, 0)
    return head + bytes([len(TEST_DATA)]) + TEST_DATA
