"""Packets of each kind, and bytes that are altered."""
from decnet import nsp
from decnet.address import read_node
from decnet.nsp import Kind, Qualifier, Reason
from tests.station import frame_between

NODE, OTHER_NODE = read_node("1.2"), read_node("1.1")


def packets():
    """One packet of each kind, with what has to be read of it."""
    local, remote = 0x1234, 0xFEDC
    head = nsp.words(0, local, remote)[1:]
    ack, cross = (nsp.field(Qualifier.ACK, 4095), nsp.field(Qualifier.CROSS_ACK, 7))
    both = nsp.words(0, ack, cross, 9)[1:]
    fields = ((Qualifier.ACK, 4095), (Qualifier.CROSS_ACK, 7))
    name = nsp.session(b"USER", b"PASSWORD", b"ACCOUNT")
    yield nsp.connect(local, 512, name), {"kind": Kind.CONNECT, "source": local, "segment": 512, "body": name}
    yield nsp.connect_again(nsp.connect(local, 1400, b"")), {"kind": Kind.CONNECT_AGAIN, "segment": 1400}
    yield nsp.connect_ack(local), {"kind": Kind.CONNECT_ACK, "destination": local}
    yield nsp.confirm(local, remote, 99), {"kind": Kind.CONFIRM, "source": remote, "segment": 99, "body": b"\0"}
    for reason in Reason:
        yield nsp.disconnect(local, remote, reason), {"kind": Kind.DISCONNECT, "reason": reason}
        yield nsp.disconnect_confirm(local, remote, reason), {"kind": Kind.DISCONNECT_CONFIRM, "reason": reason}
    for kind in nsp.SEGMENTS:
        yield bytes([kind]) + head + both + b"body", {"kind": kind, "acks": fields, "number": 9, "body": b"body"}
        yield bytes([kind]) + head + nsp.words(0, 0x1000 | 3)[1:], {"kind": kind, "acks": (), "number": 3, "body": b""}
    for qualifier in Qualifier:
        yield nsp.data_ack(local, remote, qualifier, 5), {"kind": Kind.DATA_ACK, "acks": ((qualifier, 5),)}
    yield nsp.other_ack(local, remote, 6), {"kind": Kind.OTHER_ACK, "acks": ((Qualifier.ACK, 6),)}
    yield nsp.link_service(local, remote, 1, 2), {"kind": Kind.LINK_SERVICE, "number": 2, "body": b"\0\0"}
    interrupt = bytes([Kind.INTERRUPT]) + head + nsp.words(0, 1)[1:] + b"!"
    yield interrupt, {"kind": Kind.INTERRUPT, "number": 1, "body": b"!"}
    yield bytes([Kind.NO_OPERATION]) + b"anything", {"kind": Kind.NO_OPERATION}


def good_frame(packet):
    return frame_between(OTHER_NODE, NODE, packet)


def altered(chance, data):
    """Bytes with some of them changed, taken out, put in, or cut off."""
    data = bytearray(data)
    for _ in range(chance.randrange(1, 5)):
        at = chance.randrange(len(data) + 1)
        what = chance.randrange(4)
        if what == 0 and at < len(data):
            data[at] = chance.choice([0, 1, 0x7F, 0x80, 0xFF, chance.randrange(256)])
        elif what == 1:
            data[at:at] = chance.randbytes(chance.randrange(1, 9))
        elif what == 2:
            del data[at:at + chance.randrange(1, 9)]
        elif chance.random() < 0.3:
            del data[at:]
    return bytes(data)
