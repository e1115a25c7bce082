"""What `dapcap --lines` says of a capture file, read by another program: docs/CAPTURES.md, the two formats, and the routing
headers of DECnet Phase IV."""

SECTION = 0x0A0D0D0A
ORDER = 0x1A2B3C4D
INTERFACE, SIMPLE, ENHANCED = 1, 3, 6
ETHERNET = 1
MAX_UNIT = 262_144  # bytes of a record, or of a block of these three kinds
MAX_INTERFACES = 1024
HEAD = 12  # bytes of which it is known what a file is, and how long a block
MICROSECONDS, NANOSECONDS = 6, 9  # digits of a second
MAGICS = {0xA1B2C3D4: MICROSECONDS, 0xA1B23C4D: NANOSECONDS}
RESOLUTION, OFFSET = 9, 14  # options of an interface
TAGS = (b"\x81\x00", b"\x88\xa8", b"\x91\x00")
STATION = b"\xaa\x00\x04\x00"
MAX_PACKET = 4096
LINES = b"><#\n\r"  # with one of these lines begin


class Fault(Exception):
    """What is wrong with a file, and the offset of the header, record or block."""


class Unit:
    """The bytes from an offset on, for one header, record or block."""

    def __init__(self, data, at, order="little"):
        self.data, self.at, self.order = data, at, order

    def number(self, at, size=4):
        return int.from_bytes(self.data[self.at + at:self.at + at + size], self.order)

    def part(self, start, end):
        return self.data[self.at + start:self.at + end]

    def need(self, size):
        if len(self.data) - self.at < size:
            raise Fault("cut-short", self.at)

    def refuse(self, is_bad, kind="length"):
        if is_bad:
            raise Fault(kind, self.at)


def frames(data):
    """The time, whether it is one of Ethernet, and the bytes of each frame; a fault where the file has one."""
    unit = Unit(data, 0)
    unit.need(HEAD)
    if unit.number(0) == SECTION:
        return section_frames(data)
    for order in ("little", "big"):
        digits = MAGICS.get(Unit(data, 0, order).number(0))
        if digits:
            return record_frames(data, order, digits)
    raise Fault("unknown", 0)


def record_frames(data, order, digits):
    unit = Unit(data, 0, order)
    unit.need(24)
    unit.refuse(unit.number(20) & 0xFFFF != ETHERNET, "link-type")
    at = 24
    while at < len(data):
        unit = Unit(data, at, order)
        unit.need(16)
        count = unit.number(8)
        unit.refuse(count > MAX_UNIT, "too-long")
        unit.need(16 + count)
        yield (unit.number(0) * 10 ** digits + unit.number(4), digits, 0), True, unit.part(16, 16 + count)
        at += 16 + count


def section_frames(data):
    at, order, interfaces = 0, "little", []
    while at < len(data):
        unit = Unit(data, at, order)
        unit.need(HEAD)
        is_section = unit.number(0) == SECTION
        if is_section:
            orders = [one for one in ("little", "big") if Unit(data, at, one).number(8) == ORDER]
            unit.refuse(not orders, "byte-order")
            order = unit.order = orders[0]
        kind, total = unit.number(0), unit.number(4)
        unit.refuse(total < (28 if is_section else 12) or total % 4)
        is_known = not is_section and kind in (INTERFACE, SIMPLE, ENHANCED)
        unit.refuse(is_known and total > MAX_UNIT, "too-long")
        unit.need(total)
        unit.refuse(unit.number(total - 4) != total)
        if is_section:
            interfaces = []
        elif kind == INTERFACE:
            unit.refuse(total < 20)
            unit.refuse(len(interfaces) >= MAX_INTERFACES, "interfaces")
            interfaces.append(interface(unit, total))
        elif kind == SIMPLE:
            yield simple(unit, total, interfaces)
        elif kind == ENHANCED:
            yield enhanced(unit, total, interfaces)
        at += total


def interface(unit, total):
    """Whether it is one of Ethernet, its limit, the resolution of its times and what is added to them."""
    options, at = {}, 16
    while at + 4 <= total - 4 and unit.number(at, 2):
        code, count = unit.number(at, 2), unit.number(at + 2, 2)
        options.setdefault(code, unit.part(at + 4, min(at + 4 + count, total - 4)))
        at += 4 + (count + 3) // 4 * 4
    resolution, offset = options.get(RESOLUTION, b""), options.get(OFFSET, b"")
    return (unit.number(8, 2) == ETHERNET, unit.number(12), resolution[0] if resolution else MICROSECONDS,
            int.from_bytes(offset, unit.order, signed=True) if len(offset) == 8 else 0)


def simple(unit, total, interfaces):
    unit.refuse(total < 16)
    is_ethernet, limit = interfaces[0][:2] if interfaces else (False, 0)
    count = min(unit.number(8), total - 16, limit or MAX_UNIT)
    return None, is_ethernet, unit.part(12, 12 + count)


def enhanced(unit, total, interfaces):
    unit.refuse(total < 32)
    place, count = unit.number(8), unit.number(20)
    unit.refuse(total < 32 + count)
    if place >= len(interfaces):
        return None, False, b""
    is_ethernet, _, resolution, offset = interfaces[place]
    return (unit.number(12) << 32 | unit.number(16), resolution, offset), is_ethernet, unit.part(28, 28 + count)


def packet(frame):
    """The sender, the receiver and the bytes of the NSP packet in an Ethernet frame, or None."""
    at = 12
    while frame[at:at + 2] in TAGS and len(frame) >= at + 4:
        at += 4
    if frame[at:at + 2] != b"\x60\x03" or len(frame) < at + 4:
        return None
    count = int.from_bytes(frame[at + 2:at + 4], "little")
    message = frame[at + 4:at + 4 + count]
    if len(message) < count:
        return None
    if message and message[0] & 0x80:
        padding = message[0] & 0x7F
        message = message[padding:] if padding else b""
    return routed(message)


def routed(message):
    if not message or message[0] & 0x80:
        return None
    if message[0] & 7 == 6 and message[3:7] == STATION and message[11:15] == STATION:
        to, sent_by, start = message[7:9], message[15:17], 21
    elif message[0] & 7 == 2:
        to, sent_by, start = message[1:3], message[3:5], 6
    else:
        return None
    is_listed = start < len(message) <= start + MAX_PACKET and to != sent_by
    return (int.from_bytes(sent_by, "little"), int.from_bytes(to, "little"), message[start:]) if is_listed else None


def time_text(time):
    if time is None:
        return "-"
    parts, resolution, offset = time
    in_second = 10 ** resolution if resolution < 128 else 2 ** (resolution - 128)
    # as a number of 64 bits, whose highest one is a sign
    seconds, digits = (parts // in_second + offset) % (1 << 64), 6 if resolution <= MICROSECONDS else 9
    if seconds >= 1 << 63:
        return "-"
    return f"{seconds}.{parts % in_second * 10 ** digits // in_second:0{digits}}"


def node_text(node):
    return f"{node >> 10}.{node & 0x3FF}"


def is_file(data):
    """Whether the first bytes are those of a capture file."""
    return int.from_bytes(data[:4], "big") in (*MAGICS, *(int.from_bytes(one.to_bytes(4, "little"), "big") for one in MAGICS), SECTION)


def is_lines(data):
    """Whether the first bytes are those of lines."""
    return not is_file(data) and data[:1] in [LINES[at:at + 1] for at in range(len(LINES))]


def listing(data):
    """The lines of each frame that has some; what is reported on standard error; and the exit status. Of lines, which aren't
    read here, there have to be none."""
    if not data:
        return [], b"taken 0 passed 0\n", 0
    if not is_file(data):
        return [], b"bad unknown at=0\n", 1
    lines, count, first_of, fault = [], 0, {}, None
    try:
        for count, (time, is_ethernet, frame) in enumerate(frames(data), 1):
            found = packet(frame) if is_ethernet else None
            if not found:
                continue
            sent_by, to, body = found
            way = ">" if first_of.setdefault(frozenset((sent_by, to)), sent_by) == sent_by else "<"
            heading = f"# frame {count} {time_text(time)} {node_text(sent_by)} -> {node_text(to)}"
            lines.append(f"{heading}\n{way} {body.hex()}\n".encode())
    except Fault as found:
        fault = found
    told = f"taken {len(lines)} passed {count - len(lines)}\n"
    if fault is None:
        return lines, told.encode(), 0
    return lines, f"bad {fault.args[0]} at={fault.args[1]}\n{told}".encode(), 1
