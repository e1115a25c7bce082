"""What a peer can let grow while the live end is busy: the lines that wait for it, and what is remembered of links."""
from decnet import nsp
from decnet.link import MAX_PENDING, Settings, State
from decnet.nsp import Kind, Qualifier, Reason
from decnet.routing import Arrived, Peer
from decnet.server import MAX_OLD, Server
from tests.support import Case

FLOOD = 10_000
LOCAL, REMOTE = 0x0202, 0x0101
PEER = Peer(1027, bytes(6))


class BusyEnd:
    """A live end that answers nothing until it is let."""

    is_kept, is_busy, waits = False, True, 0

    def __init__(self):
        self.asked = []

    @property
    def unanswered(self):
        return len(self.asked)

    def tell(self, line, answer):
        self.asked.append((line, answer))

    def remark(self, text):
        """Nothing is kept."""

    def answer_all(self):
        while self.asked:
            self.asked.pop(0)[1].end()


class Node:
    """A node that counts what is sent."""

    def __init__(self):
        self.sent = []

    def send(self, _peer, packet, _return_wanted=False):
        self.sent.append(nsp.read(packet))


class BoundsTest(Case):
    def setUp(self):
        super().setUp()
        self.now, self.end, self.node = 0.0, BusyEnd(), Node()

    def server(self, **more):
        return Server(self.node, self.end, Settings(512, 1, 30, 30, **more), clock=lambda: self.now)

    def arrive(self, server, packet):
        server.receive(Arrived(PEER, packet, False))

    def open(self, server, remote=REMOTE):
        """A link that is open, before a live end that works long from now on."""
        self.arrive(server, nsp.connect(remote, 512, nsp.session()))
        self.end.answer_all()
        link = next(one for one in server.links.values() if one.remote == remote)
        self.arrive(server, nsp.data_ack(link.local, remote, Qualifier.ACK, 0))
        self.end.answer_all()
        self.assertIs(link.state, State.RUNNING)
        return link

    def test_a_flood_of_each_packet_leaves_as_many_lines(self):
        floods = {
            "acknowledgements": lambda link, _: nsp.data_ack(link.local, REMOTE, Qualifier.ACK, 0),
            "of both subchannels": lambda link, _: nsp.words(
                Kind.DATA_ACK, link.local, REMOTE, nsp.field(Qualifier.ACK, 0), nsp.field(Qualifier.CROSS_ACK, 0)),
            "across": lambda link, _: nsp.words(Kind.OTHER_ACK, link.local, REMOTE, nsp.field(Qualifier.CROSS_ACK, 0)),
            "twice across": lambda link, _: nsp.words(
                Kind.OTHER_ACK, link.local, REMOTE, nsp.field(Qualifier.CROSS_ACK, 0), nsp.field(Qualifier.CROSS_NAK, 0)),
            "link service across": lambda link, number: nsp.words(
                Kind.LINK_SERVICE, link.local, REMOTE, nsp.field(Qualifier.CROSS_ACK, 0), number % nsp.NUMBERS) + b"\0\0",
            "connect confirms": lambda link, _: nsp.confirm(link.local, REMOTE, 512),
            "connect initiates": lambda link, _: nsp.connect(REMOTE, 512, nsp.session()),
            "segments": lambda link, number: nsp.words(
                Kind.ONLY, link.local, REMOTE, nsp.field(Qualifier.ACK, 0), number % nsp.NUMBERS) + b"\4\0\1",
        }
        for name, packet in floods.items():
            with self.subTest(name):
                self.setUp()
                server = self.server()
                link = self.open(server)
                for number in range(1, FLOOD + 1):
                    self.arrive(server, packet(link, number))
                self.assertLessEqual(len(self.end.asked), MAX_PENDING)
                self.assertEqual(link.pending, len(self.end.asked))

    def test_what_found_no_room_is_taken_when_it_comes_again(self):
        server = self.server()
        link = self.open(server)
        packet = nsp.words(Kind.OTHER_ACK, link.local, REMOTE, nsp.field(Qualifier.CROSS_ACK, 0))
        for _ in range(FLOOD):
            self.arrive(server, packet)
        self.end.answer_all()
        self.arrive(server, packet)
        self.assertEqual([line for line, _ in self.end.asked],
                         ["> " + nsp.data_ack(link.local, REMOTE, Qualifier.ACK, 0).hex()])

    def test_a_probe_is_acknowledged_though_the_live_end_has_no_room(self):
        server = self.server()
        link = self.open(server)
        for _ in range(FLOOD):
            self.arrive(server, nsp.confirm(link.local, REMOTE, 512))
        link.probe()
        self.assertIsNotNone(link.other.countdown.at)
        self.arrive(server, nsp.other_ack(link.local, REMOTE, link.other.sent))
        self.assertIsNone(link.other.countdown.at)

    def test_links_that_come_and_go_leave_a_bounded_number_of_lines(self):
        for links in (1, 4):
            with self.subTest(links=links):
                self.setUp()
                server = self.server(links=links)
                for number in range(1, FLOOD + 1):
                    self.arrive(server, nsp.connect(number, 512, nsp.session()))
                    for link in list(server.links.values()):
                        self.arrive(server, nsp.disconnect(link.local, link.remote, Reason.NO_ERROR))
                self.assertLess(len(self.end.asked), MAX_PENDING * (links + 1) + 2)
                self.end.answer_all()
                self.open(server, FLOOD + 1)

    def test_so_many_closed_links_are_remembered(self):
        server = self.server()
        for number in range(1, FLOOD + 1):
            server.remember((1027, number))
        self.assertEqual((len(server.old), min(remote for _, remote in server.old)), (MAX_OLD, FLOOD - MAX_OLD + 1))
        self.now = 11.0
        server.remember((1027, 1))
        self.assertEqual(list(server.old), [(1027, 1)])
