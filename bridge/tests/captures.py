"""Capture files of Ethernet frames, pcap and pcapng, read frame by frame: what a bridge has written, and what tcpdump has."""
import struct

from decnet.pcap import ETHERNET

LINK_TYPE = 0xFFFF  # the bits of its field that are the link type
MAX_FRAME = 262_144
MAX_BLOCK = 1 << 24
PCAP = {b"\xd4\xc3\xb2\xa1": "<", b"\x4d\x3c\xb2\xa1": "<", b"\xa1\xb2\xc3\xd4": ">", b"\xa1\xb2\x3c\x4d": ">"}
NANOSECONDS = (b"\x4d\x3c\xb2\xa1", b"\xa1\xb2\x3c\x4d")  # of those, the ones whose times have nanoseconds
PCAP_HEADER, PCAP_RECORD = 24, 16
PCAPNG = b"\x0a\x0d\x0d\x0a"
LITTLE = b"\x4d\x3c\x2b\x1a"  # the byte order of a section
INTERFACE, SIMPLE, ENHANCED = 1, 3, 6
EDGES = 12  # bytes of a block that aren't its body
INTERFACE_FIELDS = 8  # bytes of an interface's body before its options
END_OF_OPTIONS, RESOLUTION = 0, 9  # options of an interface


class BadFile(Exception):
    """The file is no capture of Ethernet frames."""


def frames(file):
    """The Ethernet frames of a capture file that is open for bytes; None at the end where the file is cut short in one,
    b"" for a frame of another link type."""
    return (frame for frame, _ in timed_frames(file))


def timed_frames(file):
    """The same, each frame with its time in seconds; None where it has no time."""
    magic = file.read(4)
    if magic in PCAP:
        head = file.read(PCAP_HEADER - len(magic))
        if len(head) == PCAP_HEADER - len(magic):
            return pcap_frames(file, PCAP[magic], head, 1e-9 if magic in NANOSECONDS else 1e-6)
    if magic == PCAPNG:
        return pcapng_frames(file)
    raise BadFile("it is neither pcap nor pcapng")


def pcap_frames(file, order, head, unit):
    """The frames after the header of a pcap file, with their times."""
    if struct.unpack_from(order + "I", head, 16)[0] & LINK_TYPE != ETHERNET:
        raise BadFile("its frames are not those of Ethernet: capture with -i INTERFACE, and not with -i any")
    fields_of, read = struct.Struct(order + "III4x").unpack, file.read
    while record := read(PCAP_RECORD):
        if len(record) < PCAP_RECORD:
            yield None, None
            return
        seconds, fraction, length = fields_of(record)
        if length > MAX_FRAME:
            raise BadFile(f"a frame of {length} bytes, and {MAX_FRAME} are the most")
        frame = read(length)
        if len(frame) < length:
            yield None, None
            return
        yield frame, seconds + fraction * unit


def blocks(file):
    """The byte order, kind and body of each block of a pcapng file; None where the file is cut short in one."""
    order, start = "<", PCAPNG + file.read(4)
    while start:
        if start[:4] == PCAPNG:
            mark = file.read(4)
            order = "<" if mark == LITTLE else ">"
        else:
            mark = b""
        if len(start) < 8:
            yield None
            return
        kind, total = struct.unpack(order + "II", start)
        if not EDGES + len(mark) <= total <= MAX_BLOCK:
            raise BadFile("a block of it has no such length")
        rest = mark + file.read(total - 8 - len(mark))
        if len(rest) < total - 8:
            yield None
            return
        yield order, kind, rest[:-4]
        start = file.read(8)


def resolution(order, body):
    """The seconds in a unit of an interface's times."""
    at = INTERFACE_FIELDS
    while at + 4 <= len(body):
        kind, length = struct.unpack_from(order + "HH", body, at)
        if kind == END_OF_OPTIONS:
            break
        if kind == RESOLUTION and length == 1 and at + 4 < len(body):
            power = body[at + 4]
            return 2.0 ** -(power & 0x7F) if power & 0x80 else 10.0 ** -power
        at += 4 + (length + 3) // 4 * 4
    return 1e-6


def pcapng_frames(file):
    """The frames of a pcapng file, with their times."""
    links, section = [], int.from_bytes(PCAPNG, "little")  # of each interface its link type, and the unit of its times
    for block in blocks(file):
        if block is None:
            yield None, None
            return
        order, kind, body = block
        if kind == section:
            links = []
        elif kind == INTERFACE:
            links.append((struct.unpack_from(order + "H", body)[0], resolution(order, body)))
        elif kind == ENHANCED:
            interface, high, low, length = struct.unpack_from(order + "IIII", body)
            known = interface < len(links) and links[interface][0] == ETHERNET
            yield (body[20:20 + length], (high << 32 | low) * links[interface][1]) if known else (b"", None)
        elif kind == SIMPLE:  # of the first interface
            known = bool(links) and links[0][0] == ETHERNET
            yield body[4:4 + struct.unpack_from(order + "I", body)[0]] if known else b"", None
