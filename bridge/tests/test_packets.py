"""Packets, frames and capture files: what is written is read, what isn't for the node isn't taken, and bad bytes are
refused."""
import io
import random
import struct
import unittest

from decnet import address, dap, frames, nsp, routing
from decnet.address import ethernet_address, read_node
from decnet.nsp import FlowControl, Kind, Modifier
from decnet.link import Flow
from tests import captures
from tests.patterns import NODE, OTHER_NODE, altered, good_frame, packets
from tests.support import SEED


def read_whole(frame):
    """Reads a frame as the bridge does."""
    arrived = routing.read_frame(frame, NODE)
    if arrived is None:
        return None
    packet = nsp.read(arrived.packet)
    nsp.read_object(packet.body)
    nsp.read_link_service(packet.body)
    dap.may_change(packet.body)
    dap.says_closed(packet.body)
    return packet


def is_taken(read, data):
    """Whether bytes are taken; anything but a refusal with its name is a fault."""
    try:
        return read(data) is not None
    except nsp.BadPacket:
        return False


class PacketTest(unittest.TestCase):
    def test_each_kind_is_read_as_it_was_written(self):
        for data, wanted in packets():
            with self.subTest(data.hex()):
                packet = nsp.read(data)
                self.assertEqual({name: getattr(packet, name) for name in wanted}, wanted)
                if packet.kind not in (Kind.CONNECT_ACK, Kind.NO_OPERATION, Kind.CONNECT, Kind.CONNECT_AGAIN):
                    self.assertEqual((packet.destination, packet.source), (0x1234, 0xFEDC))

    def test_link_services(self):
        for modifier in Modifier:
            for count in (-128, -1, 0, 127):
                body = nsp.read(nsp.link_service(1, 2, 3, 4, modifier, count, True)).body
                self.assertEqual(nsp.read_link_service(body), nsp.LinkService(modifier, True, count))
        for body in (b"", b"\0", b"\0\0\0", b"\3\0", b"\x08\0", b"\x10\0"):
            self.assertIsNone(nsp.read_link_service(body), body.hex())

    def test_bytes_of_every_length_cut_anywhere_or_altered(self):
        chance = random.Random(SEED)
        header = good_frame(b"")[:14]
        for length in range(frames.FRAME_LIMIT + 1):
            noise = chance.randbytes(length)
            for data in (noise, header[:length].ljust(length, b"\xFF"), (header + noise)[:length]):
                is_taken(read_whole, data)
                is_taken(nsp.read, data)
        for packet, _ in packets():
            frame = good_frame(packet)
            self.assertTrue(is_taken(read_whole, frame), frame.hex())
            for length in range(len(frame)):
                is_taken(read_whole, frame[:length])
            for length in range(len(packet)):
                is_taken(nsp.read, packet[:length])
                is_taken(read_whole, good_frame(packet[:length]))
            for _ in range(300):
                is_taken(read_whole, altered(chance, frame))
                is_taken(read_whole, good_frame(altered(chance, packet)))


class RoutingTest(unittest.TestCase):
    packet = nsp.connect_ack(1)
    ours, theirs = ethernet_address(NODE), ethernet_address(OTHER_NODE)
    message = frames.long_message(NODE, OTHER_NODE, packet)[1:]

    def read(self, data, receiver=ours, sender=theirs):
        return routing.read_frame(frames.frame_of(receiver, sender, data), NODE)

    def test_padding_and_routers(self):
        for padding in (b"", b"\x81", b"\x82\0", b"\xff" + bytes(126)):
            self.assertEqual(self.read(padding + self.message).packet, self.packet)
        router = ethernet_address(read_node("1.1023"))
        self.assertEqual(self.read(self.message, sender=router).peer.station, router)
        self.assertTrue(self.read(bytes([self.message[0] | frames.RETURNED]) + self.message[1:]).returned)

    def test_what_is_not_for_this_node(self):
        message, packet = self.message, self.packet
        refused = {
            "to another station": self.read(message, receiver=self.theirs),
            "to all routers": self.read(message, receiver=frames.ALL_ROUTERS),
            "from a group": self.read(message, sender=frames.ALL_ROUTERS),
            "to another node": self.read(frames.long_message(OTHER_NODE + 5, OTHER_NODE, packet)),
            "from this node": self.read(frames.long_message(NODE, NODE, packet)),
            "from node 0": self.read(frames.long_message(NODE, 1024, packet)),
            "from area 0": self.read(frames.long_message(NODE, 5, packet)),
            "padding without a length": self.read(b"\x80" + message),
            "padding twice": self.read(b"\x81\x81" + message),
            "padding alone": self.read(b"\xff" + bytes(20)),
            "of a later version": self.read(bytes([message[0] | frames.LATER_VERSION]) + message[1:]),
            "of the short format": self.read(b"\x02" + bytes(40)),
            "a hello": self.read(frames.hello_message(OTHER_NODE)),
            "nothing after the header": self.read(message[:21]),
        }
        self.assertEqual({what: None for what in refused}, refused)

    def test_addresses(self):
        odd = ("", "1", "1.", ".1", "0.1", "64.1", "1.0", "1.1024", "1.1.1", "a.b", "-1.2", " 1.2", "1.2\n", "1.\u00b2",
               "1.\u0661", "1." + "1" * 5000, "9999.1")
        for text in odd:
            with self.assertRaises(ValueError, msg=text):
                read_node(text)
        self.assertEqual(address.node_text(read_node("63.1023")), "63.1023")


class FlowTest(unittest.TestCase):
    def test_thousands_of_segments_under_flow_control(self):
        """Numbers begin anew, and a segment that goes again costs nothing."""
        for control, count in ((FlowControl.SEGMENTS, 3), (FlowControl.MESSAGES, 1)):
            flow = Flow(control)
            for place in range(1, 20001):
                number, ends_message = place % nsp.NUMBERS, place % 3 == 0
                for _ in range(2):
                    self.assertFalse(flow.take(number, ends_message, place))
                if ends_message:
                    flow.change(nsp.LinkService(Modifier.NO_CHANGE, True, 9))
                    flow.change(nsp.LinkService(Modifier.NO_CHANGE, False, count))
                    self.assertEqual(flow.freed(), [place - 2, place - 1, place])
                    self.assertTrue(flow.take(number, True, place) and flow.count == 0)

    def test_stop_and_start(self):
        flow = Flow(FlowControl.NONE)
        flow.change(nsp.LinkService(Modifier.STOP, False, 0))
        self.assertFalse(flow.take(1, True, "one"))
        self.assertEqual(flow.freed(), [])
        flow.change(nsp.LinkService(Modifier.START, False, -128))
        self.assertEqual(flow.freed(), ["one"])

    def test_held_segments_that_are_acknowledged_are_held_no_more(self):
        """However many numbers the other end acknowledges, no more than a window of them is held."""
        flow, window = Flow(FlowControl.SEGMENTS), 8
        for number in range(1, 4 * nsp.NUMBERS):
            flow.take(number % nsp.NUMBERS, True, number)
            if number >= window:
                flow.forget((number - window + 1) % nsp.NUMBERS)
            self.assertLess(len(flow.held), window)


class DapTest(unittest.TestCase):
    def test_which_messages_may_change_files(self):
        harmless = ("", "01020a00040703050600000000", "0300010001460200", "040001", "040002", "040006", "050001",
                    "0600", "070001", "070004", "0900001000", "020403000000" + "040001")
        for text in harmless:
            self.assertFalse(dap.may_change(bytes.fromhex(text)), text)
        changing = ("0300020001460200", "040004", "040003", "040005", "0400", "0700", "070003", "08000041", "02", "0280",
                    "0202", "020203ff", "0202010007000308")
        for text in changing:
            self.assertTrue(dap.may_change(bytes.fromhex(text)), text)
            self.assertTrue(dap.may_store(bytes.fromhex(text)), text)

    def test_an_erase_changes_files_and_stores_nothing(self):
        for text, stores in (("03020804000146000000" + "00", False), ("03020804000146000000" + "00" + "08020041", True), ("03000300014600", True)):
            self.assertEqual((dap.may_change(bytes.fromhex(text)), dap.may_store(bytes.fromhex(text))), (True, stores), text)

    def test_which_answer_says_that_a_file_is_closed(self):
        for text in ("070002", "07020102", "06020007020102"):
            self.assertTrue(dap.says_closed(bytes.fromhex(text)), text)
        for text in ("", "07", "0700", "070001", "080002", "0900001000", "07020202"):
            self.assertFalse(dap.says_closed(bytes.fromhex(text)), text)


def pcap(found, order="<", magic=0xA1B2C3D4, link=1):
    head = struct.pack(order + "IHHIIII", magic, 2, 4, 0, 0, 65535, link)
    return head + b"".join(struct.pack(order + "IIII", 0, 0, len(one), len(one)) + one for one in found)


class CaptureTest(unittest.TestCase):
    def read(self, data):
        return list(captures.frames(io.BytesIO(data)))

    def test_frames_of_both_byte_orders(self):
        for order in "<>":
            for magic in (0xA1B2C3D4, 0xA1B23C4D):
                self.assertEqual(self.read(pcap([b"one", b"", b"two"], order, magic)), [b"one", b"", b"two"])

    def test_what_is_no_capture(self):
        for data in (b"", b"\0" * 100, b"\xd4\xc3\xb2\xa1", pcap([], link=113)):
            with self.assertRaises(captures.BadFile):
                self.read(data)

    def test_a_file_that_is_cut_short_ends_with_none(self):
        whole = pcap([b"one", b"two"])
        for length in range(24 + 16 + 3 + 1, len(whole)):
            self.assertEqual(self.read(whole[:length]), [b"one", None])

    def test_no_length_of_a_file_is_believed(self):
        for length in (captures.MAX_FRAME + 1, 0xFFFFFFFF):
            with self.assertRaises(captures.BadFile):
                self.read(pcap([])[:24] + struct.pack("<IIII", 0, 0, length, length))
        with self.assertRaises(captures.BadFile):
            self.read(captures.PCAPNG + struct.pack("<I", 0xFFFFFFF0) + captures.LITTLE)
