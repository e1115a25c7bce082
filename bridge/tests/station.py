"""A node that says what a row wants it to say."""
import select
import time

from decnet import frames, nsp, routing
from decnet.address import ethernet_address, read_node
from decnet.nsp import FlowControl, Kind, Qualifier, Reason
from tests.support import PATIENCE, POLL, expect, expect_equal

SILENCE = 0.4  # seconds in which nothing may happen
SERVING, ASKING = "1.2", "1.1"
CONFIGURATION = bytes.fromhex("01020a00040703050600000000")  # with which a client may begin, VMS by what it says
OWN_CONFIGURATION = bytes.fromhex("01020e0020120d0506000000e6e8f08020")  # with which the live end of a bridge begins, and answers


def frame_between(sender, receiver, packet):
    """A frame from a node to another."""
    message = frames.long_message(receiver, sender, packet)
    return frames.frame_of(ethernet_address(receiver), ethernet_address(sender), message)


def segment(local, remote, number, body):
    return nsp.words(Kind.ONLY, local, remote, nsp.field(Qualifier.ACK, 0), number) + body


class Station:
    """A node that says what a row wants it to say."""

    def __init__(self, raw, node, peer):
        """Over a socket: a raw one, or one of a pair."""
        self.raw = raw
        self.node, self.peer = read_node(node), read_node(peer)
        self.local = self.remote = 0

    def send_frame(self, frame):
        self.raw.send(frame)

    def say(self, packet):
        self.send_frame(frame_between(self.node, self.peer, packet))

    def hear(self, seconds=PATIENCE):
        """The next packet to this node, or None where none comes."""
        end = time.monotonic() + seconds
        while True:
            left = end - time.monotonic()
            if left <= 0 or not select.select([self.raw], [], [], left)[0]:
                return None
            arrived = routing.read_frame(self.raw.recv(frames.FRAME_LIMIT), self.node)
            if arrived and arrived.peer.node == self.peer:
                return nsp.read(arrived.packet)

    def hear_all(self):
        """Passes over what came until now."""
        while self.hear(POLL):
            pass

    def hear_kind(self, kind, what=""):
        """The next packet of a kind."""
        end = time.monotonic() + PATIENCE
        while time.monotonic() < end:
            packet = self.hear(end - time.monotonic())
            if packet and packet.kind is kind:
                return packet
        raise AssertionError(f"no {kind.name} came{what and f' {what}'}")

    def hear_nothing(self, of, what, seconds=SILENCE):
        """No packet of these kinds may come for a while."""
        end = time.monotonic() + seconds
        while True:
            packet = self.hear(end - time.monotonic())
            if packet is None:
                return
            expect(packet.kind not in of, f"{packet.kind.name} came {what}")

    def refused(self, packet):
        """What a connect initiate is refused with: the kind and the reason."""
        self.say(packet)
        answer = self.hear()
        expect(answer is not None, "no answer to a connect initiate")
        return answer.kind, answer.reason

    def connect(self, local, segment_size=512, control=FlowControl.NONE):
        """Opens a link."""
        self.local = local
        packet = bytearray(nsp.connect(local, segment_size, nsp.session()))
        packet[5] |= control << 2
        self.say(bytes(packet))
        self.hear_kind(Kind.CONNECT_ACK)
        self.remote = self.hear_kind(Kind.CONFIRM).source
        self.acknowledge(0)

    def acknowledge(self, number):
        self.say(nsp.data_ack(self.remote, self.local, Qualifier.ACK, number))

    def say_hello(self):
        """The Configuration message, which is answered with a data segment or more."""
        self.say(segment(self.remote, self.local, 1, CONFIGURATION))

    def request(self, number, **more):
        """A link service message."""
        self.say(nsp.link_service(self.remote, self.local, 0, number, **more))
        packet = self.hear_kind(Kind.OTHER_ACK)
        expect_equal(packet.acks, ((Qualifier.ACK, number),), "the acknowledgement of a link service message")

    def hear_segments(self, count, first=1):
        """This many segments; each is acknowledged."""
        found = b""
        for number in range(first, first + count):
            packet = self.hear_kind_of(nsp.SEGMENTS, number)
            found += packet.body
            self.acknowledge(number)
        return found

    def hear_to_end(self, first, text):
        """Segments from a number on, each acknowledged, until one ends with a text; its number."""
        number = first
        while True:
            packet = self.hear_kind_of(nsp.SEGMENTS, number)
            self.acknowledge(number)
            if packet.kind in nsp.LASTS and packet.body.endswith(text):
                return number
            number += 1

    def hear_kind_of(self, kinds, number):
        end = time.monotonic() + PATIENCE
        while time.monotonic() < end:
            packet = self.hear(end - time.monotonic())
            if packet and packet.kind in kinds and packet.number == number:
                return packet
        raise AssertionError(f"segment {number} didn't come")

    def disconnect(self):
        self.say(nsp.disconnect(self.remote, self.local, Reason.NO_ERROR))
        packet = self.hear_kind(Kind.DISCONNECT_CONFIRM)
        wanted = (self.remote, Reason.COMPLETE)
        expect_equal((packet.source, packet.reason), wanted, "the answer to a disconnect initiate")

    def close(self):
        self.raw.close()
