"""Captures that tests make by a seed: altered DAP messages in single segments; streams with holes, retransmissions and wraps;
a transfer between both live ends over a lossy line; and pcap files of such packets."""
import random
import struct

from decnet.address import ethernet_address, read_node
from decnet.frames import LONG_HEADER, SHORT_HEADER, frame_of
from decnet.lossy import Both, Line

NODES = {">": (read_node("1.1"), read_node("1.2")), "<": (read_node("1.2"), read_node("1.1"))}
LINK_ETHERNET = 1
NUMBER, EXTENSIBLE, IMAGE, REST = "number", "extensible", "image", "rest"
ATTRIBUTES = [(EXTENSIBLE, 2), (NUMBER, 1), (NUMBER, 1), (EXTENSIBLE, 3), (NUMBER, 2), (NUMBER, 2), (IMAGE, 5),
              (NUMBER, 1), (NUMBER, 1), (IMAGE, 5), (IMAGE, 40), (NUMBER, 2), (EXTENSIBLE, 6), (NUMBER, 1),
              (EXTENSIBLE, 6), (EXTENSIBLE, 6), (NUMBER, 2), (IMAGE, 5), (IMAGE, 5), (NUMBER, 2), (IMAGE, 5)]
CONTROLS = [(NUMBER, 1), (IMAGE, 255), (NUMBER, 1), (EXTENSIBLE, 6), (IMAGE, 5), (EXTENSIBLE, 4)]
FIELDS = {1: [(NUMBER, 2)] + [(NUMBER, 1)] * 7 + [(EXTENSIBLE, 12)],
          3: [(NUMBER, 1), (EXTENSIBLE, 5), (IMAGE, 255), (EXTENSIBLE, 3), (EXTENSIBLE, 3), (EXTENSIBLE, 4), (IMAGE, 40)],
          5: [(NUMBER, 1)], 6: [], 7: [(NUMBER, 1), (EXTENSIBLE, 6), (NUMBER, 2)], 8: [(IMAGE, 8), (REST, 0)],
          9: [(NUMBER, 2), (IMAGE, 8), (IMAGE, 8), (IMAGE, 8)]}
ODD_PACKETS = ["> 0402020101ff8f", "< 10010102020180", "> 2002", "> 600202010180", "< 6001010202018001800180"]


# ---- DAP messages

def extensible(draw, size):
    """An extensible field, now and then longer than it has to be."""
    value = draw.choice([0, draw.randrange(128), draw.randrange(1 << (7 * size)), (1 << 7 * size) - 1])
    out = []
    while not out or value or (len(out) < size and draw.random() < 0.2):
        out.append(value & 127)
        value >>= 7
    return bytes(byte | 128 for byte in out[:-1]) + bytes(out[-1:])


def field(draw, kind, size):
    if kind == NUMBER:
        return draw.randbytes(size)
    if kind == EXTENSIBLE:
        return extensible(draw, size)
    if kind == IMAGE:
        count = min(size, draw.choice([0, 1, 4, size, draw.randrange(size + 1)]))
        return bytes([count]) + draw.randbytes(count)
    return draw.randbytes(draw.choice([0, 1, 30, 300]))


def menu(bits):
    """The bits of a menu as an extensible field."""
    value, out = sum(1 << bit for bit in bits), []
    while not out or value:
        out.append(value & 127)
        value >>= 7
    return bytes(byte | 128 for byte in out[:-1]) + bytes(out[-1:])


def operand(draw, kind):
    if kind in (2, 4):
        table = ATTRIBUTES if kind == 2 else CONTROLS
        named = [bit for bit in range(len(table)) if draw.random() < 0.35]
        return (draw.randbytes(1) if kind == 4 else b"") + menu(named) + b"".join(field(draw, *table[bit]) for bit in named)
    fields = FIELDS.get(kind, [(REST, 0)])
    keep = len(fields) if draw.random() < 0.8 else draw.randrange(len(fields) + 1)
    return b"".join(field(draw, *one) for one in fields[:keep])


def message(draw):
    """A DAP message of any type, with FLAGS and LENGTH of any form."""
    kind = draw.randrange(1, 17)
    body = operand(draw, kind) + (draw.randbytes(draw.randrange(5)) if draw.random() < 0.1 else b"")
    flags = (2 | (4 if len(body) > 255 or draw.random() < 0.1 else 0)) if draw.random() < 0.9 else 0
    flags |= draw.random() < 0.15
    head = bytes([kind]) + (bytes([flags]) if draw.random() < 0.95 else bytes([flags | 128, 0]))
    length = len(body).to_bytes(2, "little")
    return head + b"\0" * (flags & 1) + (length[:1] if flags & 2 else b"") + (length[1:] if flags & 4 else b"") + body


def altered(draw, payload):
    """The payload cut short, or with bytes put in, left out or changed."""
    payload = bytearray(payload)
    for _ in range(draw.choice([0, 1, 1, 1, 2, 3])):
        at, how = draw.randrange(len(payload) + 1), draw.randrange(6)
        if how == 0:
            del payload[at:]
        elif how == 1:
            payload[at:at] = draw.randbytes(draw.randrange(1, 4))
        elif how == 2:
            del payload[at:at + draw.randrange(1, 4)]
        elif at < len(payload):
            at = min(at, draw.randrange(8)) if draw.random() < 0.5 else at
            payload[at] = draw.choice([payload[at] ^ 1 << draw.randrange(8), draw.randrange(256), 255, 0, 128])
    return bytes(payload)


# ---- lines of captures

def segment(flag, receiver, sender, number, payload, acks=()):
    words = b"".join((0x8000 | ack).to_bytes(2, "little") for ack in acks)
    return (struct.pack("<BHH", flag, receiver, sender) + words + struct.pack("<H", number) + payload).hex()


def altered_segments(seed, count):
    """Whole NSP messages, of which most were altered."""
    draw = random.Random(seed)
    for index in range(count):
        payload = altered(draw, b"".join(message(draw) for _ in range(draw.choice([1, 1, 1, 2, 3]))))[:1450]
        acks = draw.choice([(), (5,), (5, 0x2001)])
        yield "> " + segment(0x60, 0x202, 0x101, (index + 1) % 4096, payload, acks)


def streams(seed, count):
    """Several streams of any segments: retransmissions with other bytes, holes, some filled late, jumps and wraps."""
    draw, highest = random.Random(seed), {}
    for _ in range(count):
        key = draw.choice([(0x202, 0x101, ">"), (0x101, 0x202, "<"), (0x303, 0x101, ">"), (0x202, 0x101, "<")])
        here = highest.setdefault(key, draw.randrange(4096))
        far = draw.random() < 0.3
        step = draw.choice([0, 1, 1, 1, 1, 1, 1, 2, 3, -1, -2, -5, 40, 2047, 2048, -2047] if far else [1, 1, 1, 0, 2, -1])
        number = (here + step) % 4096
        if 0 < step <= 2048:
            highest[key] = number
        payload = (message(draw) if draw.random() < 0.5 else draw.randbytes(draw.randrange(6)))[:1400]
        number |= draw.choice([0, 0x1000, 0x7000])
        yield f"{key[2]} " + segment(draw.choice([0x60, 0x60, 0x20, 0x00, 0x40]), key[0], key[1], number, payload,
                                     draw.choice([(), (7,)]))
        if draw.random() < 0.03:
            yield draw.choice(ODD_PACKETS)


def record(draw):
    return " ".join(draw.choice(["some", "words", "of", "a", "record", "\t", "\0\1"]) for _ in range(draw.randrange(1, 12)))


def transfer(seed, program, records=12, segment_size=100, loss=15, repeat=10):
    """The packets that a client sends (`>`) and receives (`<`) in a transfer over a lossy line, with refusals."""
    draw = random.Random(seed)
    bodies = [record(draw).encode().hex() for _ in range(records)]
    requests = ["hello", "create 46494c45 0 2 0 0 15", "connect", "store " + " ".join(bodies), "connect", "fetch", "rewind",
                *["get"] * 6, "update 4142", "get key 9999", "put 43", "close", "open 4e4f4e45 2", "create 52454c 16 1 8 0 15",
                "connect", *[f"put key {number} 4142434445464748" for number in range(1, 6)], "get key 3", "delete",
                "put key 3 414243", "close", "open 46494c45 2", "connect", "fetch", "close"]
    words = ["--segment", str(segment_size), "--window", "40"]
    both = Both(Line(seed, loss, repeat, 4 if loss else 1), words, words, program)
    try:
        for request in requests:
            both.ask(request)
        both.settle()
        turned = {"<": ">", ">": "<"}  # what the client writes after `<` it sends
        return [turned[line[0]] + line[1:] for line in both.ends["asking"].transcript if line[:2] in ("> ", "< ")]
    finally:
        both.close()


# ---- pcap files

def routed(draw, direction, packet):
    """A packet after a routing header of either form, with padding or without."""
    sender, receiver = NODES[direction]
    if draw.random() < 0.5:
        header = LONG_HEADER.pack(0x26, 0, 0, ethernet_address(receiver), 0, 0, ethernet_address(sender), 0, 0, 0, 0)
    else:
        header = SHORT_HEADER.pack(0x02, receiver, sender, 0)
    padding = draw.choice([0, 0, 1, 1, 3])
    return (bytes([0x80 | padding]) + bytes(padding - 1) if padding else b"") + header + packet


def pcap(frames, link=LINK_ETHERNET):
    """A pcap file of frames, a hundredth of a second apart."""
    head = struct.pack("<IHHIIII", 0xA1B2C3D4, 2, 4, 0, 0, 65535, link)
    return head + b"".join(struct.pack("<IIII", 10**9 + number // 100, number % 100 * 10_000, len(frame), len(frame)) + frame
                           for number, frame in enumerate(frames))


def frames_of(lines, seed=1):
    """Ethernet frames of a capture's lines: either routing header, padding, tags, filling."""
    draw = random.Random(seed)
    for line in lines:
        direction, packet = line.split()
        sender, receiver = NODES[direction]
        frame = frame_of(ethernet_address(receiver), ethernet_address(sender), routed(draw, direction, bytes.fromhex(packet)))
        tag = b"\x81\x00\x00\x05" if draw.random() < 0.1 else b""
        yield frame[:12] + tag + frame[12:]
