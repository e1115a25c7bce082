"""Packets of NSP 4.0.0: those of a link's opening and closing written, and all kinds read."""
import enum
import struct
from dataclasses import dataclass

from decnet import tables

NUMBERS = 4096  # segments are numbered modulo this
AHEAD = NUMBERS // 2  # a number nearer than this, going up, is ahead
FAL = 17  # the object number of a file access listener
MIN_SEGMENT, MAX_SEGMENT = 64, 1400  # bytes of a segment that is taken and sent
# MSGFLG, both addresses, two acknowledgement fields, the number: what a data segment has before its bytes
SEGMENT_HEADER = 11
IMAGE_LIMIT = 39  # the most bytes of a user, password or account
# forms of a name in a connect message: an object's number, its name, and its name with the numbers of a group and a user
BY_NUMBER, BY_NAME, BY_GROUP = 0, 1, 2
GROUP_BYTES = 4
NO_OBJECT = 0
WITH_ACCESS_CONTROL = 1
SERVICES = 0x01  # in SERVICES: bits that are always so
VERSION = 0x02  # in INFO: NSP 4.0.0
FIELD = 0x8000  # in an acknowledgement field; a segment number has it not


class BadPacket(Exception):
    """The bytes are no NSP packet."""


class Kind(enum.IntEnum):
    """MSGFLG: what a packet is."""

    MIDDLE = 0x00
    FIRST = 0x20
    LAST = 0x40
    ONLY = 0x60
    DATA_ACK = 0x04
    LINK_SERVICE = 0x10
    INTERRUPT = 0x30
    OTHER_ACK = 0x14
    CONNECT_ACK = 0x24
    NO_OPERATION = 0x08
    CONNECT = 0x18
    CONNECT_AGAIN = 0x68
    CONFIRM = 0x28
    DISCONNECT = 0x38
    DISCONNECT_CONFIRM = 0x48


SEGMENTS = frozenset({Kind.MIDDLE, Kind.FIRST, Kind.LAST, Kind.ONLY})
FIRSTS = frozenset({Kind.FIRST, Kind.ONLY})  # the segments that begin a message
LASTS = frozenset({Kind.LAST, Kind.ONLY})  # the segments that end a message
DATA = SEGMENTS | {Kind.DATA_ACK}  # the data subchannel
NUMBERED_OTHER = frozenset({Kind.LINK_SERVICE, Kind.INTERRUPT})
OTHER = NUMBERED_OTHER | {Kind.OTHER_ACK}  # the other-data subchannel
CONNECTS = frozenset({Kind.CONNECT, Kind.CONNECT_AGAIN})


class Qualifier(enum.IntEnum):
    """What an acknowledgement field says, and of which subchannel."""

    ACK = 0
    NAK = 1
    CROSS_ACK = 2
    CROSS_NAK = 3


OF_OTHER_SUBCHANNEL = {Qualifier.CROSS_ACK: Qualifier.ACK, Qualifier.CROSS_NAK: Qualifier.NAK}


class FlowControl(enum.IntEnum):
    """FCOPT: what the receiver of data counts, so that its sender waits for it."""

    NONE = 0
    SEGMENTS = 1
    MESSAGES = 2


class Modifier(enum.IntEnum):
    """In LSFLAGS: whether data is wanted at all."""

    NO_CHANGE = 0
    STOP = 1
    START = 2


class Reason(enum.IntEnum):
    """Why a link is refused or closed."""

    NO_ERROR = 0
    NO_RESOURCES = 1
    NO_NODE = 2
    SHUTTING_DOWN = 3
    NO_OBJECT = 4
    BAD_NAME = 5
    BUSY = 6
    UNSPECIFIED = 7
    THIRD_PARTY = 8
    ABORTED = 9
    BAD_NODE_NAME = 10
    LOCAL_SHUT_DOWN = 11
    NO_LINK_RESOURCES = 32
    NO_USER_RESOURCES = 33
    ACCESS_CONTROL = 34
    BAD_ACCOUNT = 36
    TIMED_OUT = 38
    UNREACHABLE = 39
    NO_LINK = 41
    COMPLETE = 42
    IMAGE_TOO_LONG = 43


def reason_text(number):
    """A reason in words, with its number."""
    return f"reason {number} ({tables.LINK_REASON.get(number, 'unknown')})"


@dataclass(frozen=True)
class Packet:
    """A packet as it was read; fields that its kind hasn't are 0 or empty."""

    kind: Kind
    whole: bytes
    destination: int
    source: int = 0
    services: int = 0
    segment: int = 0
    reason: int = 0
    acks: tuple = ()  # (Qualifier, number) of each acknowledgement field
    number: int = 0
    body: bytes = b""

    @property
    def flow_control(self):
        """What its sender counts; None for a value that isn't defined."""
        option = self.services >> 2 & 3
        return FlowControl(option) if option in tuple(FlowControl) else None


class Reader:
    """The fields of a packet, from its first byte."""

    def __init__(self, data):
        self.data, self.at = data, 0

    def take(self, count):
        if len(self.data) - self.at < count:
            raise BadPacket("cut short")
        self.at += count
        return self.data[self.at - count:self.at]

    def byte(self):
        return self.take(1)[0]

    def word(self):
        return int.from_bytes(self.take(2), "little")

    def acks(self):
        """Up to two acknowledgement fields."""
        fields = []
        while len(fields) < 2 and len(self.data) - self.at >= 2 and self.data[self.at + 1] & (FIELD >> 8):
            field = self.word()
            qualifier = field >> 12 & 7
            if qualifier > Qualifier.CROSS_NAK:
                raise BadPacket("an acknowledgement of no kind")
            fields.append((Qualifier(qualifier), field % NUMBERS))
        return tuple(fields)

    def number(self):
        """A segment number; the bit that lets its acknowledgement wait doesn't count."""
        field = self.word()
        if field & FIELD:
            raise BadPacket("a third acknowledgement")
        return field % NUMBERS

    def rest(self):
        return self.take(len(self.data) - self.at)


def read(data):
    """The packet that the bytes are, or BadPacket."""
    reader = Reader(data)
    try:
        kind = Kind(reader.byte())
    except ValueError as fault:
        raise BadPacket("of no kind") from fault
    if kind is Kind.NO_OPERATION:
        return Packet(kind, data, 0)
    destination = reader.word()
    if kind is Kind.CONNECT_ACK:
        return Packet(kind, data, destination)
    source = reader.word()
    if kind in CONNECTS or kind is Kind.CONFIRM:
        services, _, segment = reader.byte(), reader.byte(), reader.word()
        if source == 0 or (kind in CONNECTS) != (destination == 0):
            raise BadPacket("link addresses that can't be")
        return Packet(kind, data, destination, source, services=services, segment=segment, body=reader.rest())
    if kind in (Kind.DISCONNECT, Kind.DISCONNECT_CONFIRM):
        return Packet(kind, data, destination, source, reason=reader.word(), body=reader.rest())
    acks = reader.acks()
    if kind in (Kind.DATA_ACK, Kind.OTHER_ACK):
        if not acks:
            raise BadPacket("it acknowledges nothing")
        return Packet(kind, data, destination, source, acks=acks)
    number = reader.number()
    return Packet(kind, data, destination, source, acks=acks, number=number, body=reader.rest())


def without_data(packet):
    """What a segment acknowledges, as a packet by itself; None where it acknowledges nothing."""
    if not packet.acks:
        return None
    fields = [field(qualifier, number) for qualifier, number in packet.acks]
    return read(words(Kind.DATA_ACK, packet.destination, packet.source, *fields))


def read_object(body):
    """The object number of a connect initiate's destination name; None where it is named otherwise."""
    return body[1] if len(body) >= 2 and body[0] == BY_NUMBER else None


@dataclass(frozen=True)
class Session:
    """What a connect initiate says of who asks, and for what."""

    object: int = None  # its number; None where it is named otherwise
    user: bytes = b""
    password: bytes = b""
    account: bytes = b""


def read_name(reader):
    """The object number of a name in a connect message; None where it is named otherwise."""
    form, number = reader.byte(), reader.byte()
    if form == BY_NUMBER:
        return number
    if form == BY_GROUP:
        reader.take(GROUP_BYTES)
    elif form != BY_NAME:
        raise BadPacket("a name of no form")
    reader.take(reader.byte())
    return None


def read_session(body):
    """What is after the sizes of a connect initiate; None where it is cut short, or a field is too long."""
    reader = Reader(body)
    try:
        number = read_name(reader)
        read_name(reader)
        has_access_control = reader.byte() & WITH_ACCESS_CONTROL
        images = [reader.take(reader.byte()) for _ in range(3)] if has_access_control else []
    except BadPacket:
        return None
    if any(len(one) > IMAGE_LIMIT for one in images):
        return None
    return Session(number, *images)


@dataclass(frozen=True)
class LinkService:
    """What a link service message asks for."""

    modifier: Modifier
    is_interrupts: bool
    count: int


def read_link_service(body):
    """The meaning of a link service message's body, or None where it has none."""
    if len(body) != 2:
        return None
    flags, count = struct.unpack("<Bb", body)
    modifier, of_interrupts = flags & 3, flags >> 2 & 3
    if modifier not in tuple(Modifier) or of_interrupts > 1 or flags >> 4:
        return None
    return LinkService(Modifier(modifier), bool(of_interrupts), count)


def words(kind, *numbers):
    return bytes([kind]) + struct.pack(f"<{len(numbers)}H", *numbers)


def image(data):
    """Bytes after their count."""
    return bytes([len(data)]) + data


def session(user=b"", password=b"", account=b"", name=b"DAPLIVE"):
    """What a connect initiate for FAL says after the sizes: both names, and the access control where there is any."""
    names = bytes([BY_NUMBER, FAL, BY_NAME, NO_OBJECT]) + image(name)
    if not (user or password or account):
        return names + b"\0"
    return names + bytes([WITH_ACCESS_CONTROL]) + image(user) + image(password) + image(account)


def connect(local, segment, data):
    return words(Kind.CONNECT, 0, local) + bytes([SERVICES, VERSION]) + struct.pack("<H", segment) + data


def connect_again(packet):
    """A connect initiate as it is sent another time."""
    return bytes([Kind.CONNECT_AGAIN]) + packet[1:]


def connect_ack(remote):
    return words(Kind.CONNECT_ACK, remote)


def confirm(remote, local, segment):
    return words(Kind.CONFIRM, remote, local) + bytes([SERVICES, VERSION]) + struct.pack("<H", segment) + image(b"")


def disconnect(remote, local, reason):
    return words(Kind.DISCONNECT, remote, local, reason) + image(b"")


def disconnect_confirm(remote, local, reason):
    return words(Kind.DISCONNECT_CONFIRM, remote, local, reason)


def field(qualifier, number):
    """An acknowledgement field."""
    return FIELD | qualifier << 12 | number


def data_ack(remote, local, qualifier, number):
    return words(Kind.DATA_ACK, remote, local, field(qualifier, number))


def other_ack(remote, local, number):
    return words(Kind.OTHER_ACK, remote, local, field(Qualifier.ACK, number))


def link_service(remote, local, taken, number, modifier=Modifier.NO_CHANGE, count=0, is_interrupts=False):
    """A link service message, which acknowledges those of the other-data subchannel up to `taken`."""
    head = words(Kind.LINK_SERVICE, remote, local, field(Qualifier.ACK, taken), number)
    return head + struct.pack("<Bb", modifier | is_interrupts << 2, count)
