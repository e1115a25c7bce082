"""Several links at once before one table of files: who shares a file, what becomes of who is gone, and what a kill leaves."""
import select
import signal
import threading
import time

from decnet import nsp
from decnet.journal import Parsed
from decnet.nsp import FlowControl, Kind, Reason
from tests.pairs import PairCase
from tests.station import CONFIGURATION, OWN_CONFIGURATION, SERVING, segment
from tests.support import BRIDGE, PROGRAM, PYTHON, file_lines, pair, until

HASTE = ["--resend", "0.2", "--tries", "50", "--idle", "1"]
FRAME = 2048
NODES = ("1.1", "1.3", "1.4")
FILES = ["file 46 seq variable 0 0", "  1 41", "file 47 seq variable 0 0", "  1 42"]
OPEN_TO_READ, OPEN_TO_WRITE = "open 46 2", "open 46 3"
OPENED, LOCKED = "report opened 0 2 0 0", "report refused 4030 0"
# of a station: Attributes and an Access that opens the file F to read and to write; what follows is a Configuration
ACCESS = bytes.fromhex("03000100014603")


class Hub:
    """Connects sockets: each frame that comes from one goes to all others."""

    def __init__(self):
        self.sockets, self.lock = [], threading.Lock()
        self.reading, self.writing = pair()
        self.thread = threading.Thread(target=self.carry, daemon=True)
        self.thread.start()

    def port(self):
        """A socket for one more node."""
        near, far = pair()
        near.setblocking(False)
        with self.lock:
            self.sockets.append(near)
        self.writing.send(b"+")
        return far

    def carry(self):
        while True:
            with self.lock:
                sockets = list(self.sockets)
            ready, _, _ = select.select([self.reading, *sockets], [], [])
            for one in ready:
                data = received(one)
                if one is self.reading and data != b"+":
                    return
                if one is not self.reading:
                    self.hand_on(one, data)

    def hand_on(self, sender, frame):
        if not frame:
            with self.lock:
                self.sockets.remove(sender)
            sender.close()
            return
        for one in self.sockets:
            if one is not sender:
                try:
                    one.send(frame)
                except OSError:
                    continue  # nobody reads there: as lost

    def close(self):
        self.writing.send(b"-")
        self.thread.join()
        for one in (self.reading, self.writing, *self.sockets):
            one.close()


def received(one):
    """A frame; nothing where who had the other end is gone."""
    try:
        return one.recv(FRAME)
    except ConnectionResetError:
        return b""


class LinksCase(PairCase):
    def setUp(self):
        super().setUp()
        self.hub = Hub()
        self.addCleanup(self.hub.close)

    def node(self, role, node, *words, program=PROGRAM, **more):
        """A bridge as a node before the hub."""
        far = self.hub.port()
        own = [*HASTE, *self.naming(role, words), *words]
        command = [*PYTHON, BRIDGE, role, "--frames", far.fileno(), "--node", node, "--daplive", program, *own]
        child = self.start(command, pass_fds=[far.fileno()], **more)
        far.close()
        return child

    def server(self, *words, links=2):
        child = self.node("serve", SERVING, *(["--links", str(links)] if links else []), *words)
        child.wait_for("takes links")
        return child

    def client(self, node, *words):
        """A bridge that asks what it is told later."""
        return self.node("ask", node, "--to", SERVING, *words, stdin=None)

    def far_station(self, node):
        raw = self.hub.port()
        self.addCleanup(raw.close)
        return self.station(raw, node)

    def say(self, child, *pairs):
        """Asks, one after another; each report is what it is to be."""
        for request, report in zip(pairs[::2], pairs[1::2]):
            count = len(child.reports())
            child.write(f"{request}\n".encode())
            until(lambda: len(child.reports()) > count or child.process.poll() is not None, f"a report of {request}")
            self.assertEqual(child.reports()[count:], [report], child.told())

    def finish_asking(self, child, status=0):
        child.end_input()
        self.assertEqual(child.finish(), status, child.told())


class SharedTest(LinksCase):
    def setUp(self):
        super().setUp()
        self.path = self.file("kept", FILES)
        self.words = ["--files", self.path, "--save", self.path]

    def test_two_links_at_once_change_two_files_and_a_third_is_refused(self):
        server = self.server(*self.words)
        first, second = (self.client(node) for node in NODES[:2])
        for child, name in ((first, 46), (second, 47)):
            self.say(child, "hello", "report ready 8192", f"open {name} 3", OPENED, "connect", "report connected")
        third = self.far_station("1.9")
        self.assertEqual(third.refused(nsp.connect(9, 512, nsp.session())), (Kind.DISCONNECT, Reason.BUSY))
        for child, record in ((first, 43), (second, 44), (first, 45)):
            self.say(child, f"put {record}", "report done " + ("3" if record == 45 else "2"))
        for child in (first, second):
            self.say(child, "close", "report closed")
            self.finish_asking(child)
        self.stop(server)
        self.assertEqual(file_lines(self.path), [*FILES[:2], "  2 43", "  3 45", *FILES[2:], "  2 44"])

    def test_sixteen_links_by_default(self):
        server = self.server(links=None)
        stations = [self.far_station(f"1.{number}") for number in range(3, 19)]
        for station in stations:
            station.connect(9)
            station.say_hello()
            self.assertEqual(station.hear_segments(1), OWN_CONFIGURATION)  # with its buffer of 8,192 bytes
        last = self.far_station("1.19")
        self.assertEqual(last.refused(nsp.connect(9, 512, nsp.session())), (Kind.DISCONNECT, Reason.BUSY))
        for station in stations:
            station.disconnect()
        self.stop(server)

    def test_readers_share_and_a_writer_waits_for_them(self):
        server = self.server(*self.words, links=3)
        first, second, third = (self.client(node) for node in NODES)
        for child in (first, second):
            self.say(child, "hello", "report ready 8192", OPEN_TO_READ, OPENED)
        self.say(third, "hello", "report ready 8192")
        third.write(f"{OPEN_TO_WRITE}\n".encode())
        self.assertEqual(third.finish(), 1)
        self.assertEqual(third.reports()[1:], [LOCKED])
        self.assertIn("the file is in use", third.told())
        server.wait_for("a file that it wants is open over link")
        for child in (first, second):
            self.say(child, "close", "report closed")
        third = self.client(NODES[2])
        self.say(third, "hello", "report ready 8192", OPEN_TO_WRITE, OPENED, "close", "report closed")
        for child in (first, second, third):
            self.finish_asking(child)
        self.stop(server)

    def test_a_version_that_a_link_reads_is_not_replaced(self):
        server = self.server(*self.words, "--names", "versions", "--keep", "1")
        first, second = (self.client(node, "--go-on") for node in NODES[:2])
        for child in (first, second):
            self.say(child, "hello", "report ready 8192")
        self.say(first, OPEN_TO_READ, OPENED)
        self.say(second, "create 46 0 2 0 0 1", LOCKED)
        server.wait_for("a file that it wants is open over link")
        self.say(second, "create 48 0 2 0 0 1", OPENED, "purge", "report closed")
        self.say(first, "connect", "report connected", "get", "report found 1 41", "close", "report closed")
        self.say(second, "create 46 0 2 0 0 1", OPENED, "close", "report closed")
        self.finish_asking(first)
        self.finish_asking(second, 1)
        self.stop(server)
        self.assertEqual(file_lines(self.path), ["file 473b31 seq variable 0 0", "  1 42", "file 463b32 seq variable 0 0"])

    def test_who_is_gone_keeps_a_file_no_longer_than_the_link_is_silent(self):
        server = self.server(*self.words)
        gone = self.far_station("1.9")
        gone.connect(0x0111)
        gone.say(segment(gone.remote, gone.local, 1, CONFIGURATION))
        gone.hear_segments(1)
        gone.say(segment(gone.remote, gone.local, 2, ACCESS))
        gone.hear_segments(1, first=2)
        asking = self.client(NODES[0], "--go-on")
        self.say(asking, "hello", "report ready 8192", OPEN_TO_WRITE, LOCKED)
        server.wait_for("node 1.1 wants a file that is open over it")
        self.say(asking, OPEN_TO_WRITE, OPENED, "close", "report closed")
        self.finish_asking(asking, 1)
        self.stop(server)

    def test_a_link_that_only_acknowledges_gives_way_to_who_asks(self):
        """After --idle, where somebody wanted a link; one that has asked for something stays."""
        server = self.server(*self.words)
        silent, asked = self.far_station("1.9"), self.far_station("1.8")
        for number, station in enumerate((silent, asked)):
            station.connect(0x0111 + number)
        asked.say(segment(asked.remote, asked.local, 1, CONFIGURATION))
        asked.hear_segments(1)
        begun, third = time.monotonic(), self.far_station("1.7")
        self.assertEqual(third.refused(nsp.connect(9, 512, nsp.session())), (Kind.DISCONNECT, Reason.BUSY))
        reasons = []
        while not reasons and time.monotonic() < begun + 30:
            for station in (silent, asked):
                packet = station.hear(0.05)
                if packet and packet.kind is Kind.LINK_SERVICE:
                    station.say(nsp.other_ack(station.remote, station.local, packet.number))
                elif packet and packet.kind is Kind.DISCONNECT:
                    reasons.append((station is silent, packet.reason))
        self.assertEqual(reasons, [(True, Reason.TIMED_OUT)])
        silent.say(nsp.disconnect_confirm(silent.remote, silent.local, Reason.COMPLETE))
        server.wait_for("no request within 1 seconds since it was opened, and node 1.7 wants a link")
        third.connect(10)
        third.disconnect()
        asked.disconnect()
        self.stop(server)

    def test_a_link_that_is_closed_lets_its_file_go_and_its_slot(self):
        server = self.server(*self.words)
        for number in range(3):
            near = self.far_station("1.9")
            near.connect(0x0111 + number)
            near.say(segment(near.remote, near.local, 1, CONFIGURATION))
            near.hear_segments(1)
            near.say(segment(near.remote, near.local, 2, ACCESS))
            near.hear_segments(1, first=2)
            near.say(nsp.disconnect(near.remote, near.local, Reason.NO_ERROR))
            near.hear_kind(Kind.DISCONNECT_CONFIRM)
            asking = self.client(NODES[0])
            self.say(asking, "hello", "report ready 8192", OPEN_TO_WRITE, OPENED, "close", "report closed")
            self.finish_asking(asking)
        self.stop(server)

    def test_it_stops_after_this_many_links(self):
        server = self.server(*self.words, "--stop-after", "2", links=3)
        first, second = (self.client(node) for node in NODES[:2])
        for child in (first, second):
            self.say(child, "hello", "report ready 8192")
        third = self.far_station("1.9")
        self.assertEqual(third.refused(nsp.connect(9, 512, nsp.session())), (Kind.DISCONNECT, Reason.BUSY))
        for child in (first, second):
            self.finish_asking(child)
        self.assertEqual(server.finish(), 0)

    def test_a_signal_closes_all(self):
        server = self.server(*self.words)
        clients = [self.client(node) for node in NODES[:2]]
        for child in clients:
            self.say(child, "hello", "report ready 8192")
        self.stop(server)
        self.assertEqual([child.finish() for child in clients], [1, 1])


class FolderTest(LinksCase):
    """A folder with versions: what a link makes of a file there, and hasn't closed, takes no place there."""

    NAMES = ()
    CREATE_F, CREATE_G = "create 46 0 2 0 0 15", "create 47 0 2 0 0 15"

    def setUp(self):
        super().setUp()
        self.path = self.folder / "served"
        self.path.mkdir()
        (self.path / "f").write_text("old\n")

    def texts(self):
        return {one.name: one.read_text() for one in self.path.iterdir() if not one.name.startswith(".")}

    def begun(self):
        """A link makes a version of F, and another one has made G and closed it."""
        server = self.server("--folder", self.path)
        first, second = (self.client(node, "--go-on") for node in NODES[:2])
        self.say(first, "hello", "report ready 8192", self.CREATE_F, OPENED, "connect", "report connected", "put 6e6577", "report done 1")
        self.say(second, "hello", "report ready 8192", self.CREATE_G, OPENED, "connect", "report connected", "put 47", "report done 1")
        self.say(second, "close", "report closed")
        self.assertEqual(self.texts(), {"f": "old\n", "g": "G\n"})
        return server, first, second

    def test_it_is_there_when_it_is_closed(self):
        server, first, second = self.begun()
        self.say(first, "close", "report closed")
        self.assertEqual(self.texts(), {"f": "new\n", "g": "G\n"})
        for child in (first, second):
            self.finish_asking(child)
        self.stop(server)

    def test_where_it_is_taken_back_the_file_there_is_served_again(self):
        server, first, second = self.begun()
        self.say(first, "purge", "report closed")
        for child in (first, second):
            self.finish_asking(child)
        third = self.client(NODES[2])
        self.say(third, "hello", "report ready 8192", "open 46 2", OPENED, "connect", "report connected", "get", "report found 1 6f6c64")
        self.assertEqual(self.texts(), {"f": "old\n", "g": "G\n"})
        third.end_input()
        third.finish()
        self.stop(server)

    def test_where_its_link_is_lost_it_is_kept(self):
        server, first, second = self.begun()
        self.finish_asking(second)
        first.finish(signal.SIGTERM)
        server.wait_for("/F;2: its link was closed before it was: it is kept in .daplive, and ")
        self.stop(server)
        self.assertEqual(self.texts(), {"f": "old\n", "g": "G\n"})
        self.assertEqual(file_lines(self.path / ".daplive"), ["file 463b32 seq variable 0 0", "  1 6e6577"])


class StoreTest(LinksCase):
    def setUp(self):
        super().setUp()
        self.path = self.folder / "store"

    def parsed(self):
        return Parsed(self.path, self.path.read_bytes())

    def test_both_links_go_on_after_a_kill(self):
        server = self.server("--store", self.path)
        first, second = clients = [self.client(node) for node in NODES[:2]]
        for child, name in ((first, 46), (second, 47)):
            self.say(child, "hello", "report ready 8192", f"create {name} 0 2 0 0 15", OPENED, "connect", "report connected")
        for number in range(1, 4):
            for child in clients:
                self.say(child, f"put 4{number}", f"report done {number}")
            server.finish(signal.SIGKILL)
            server = self.server("--store", self.path)
            until(lambda: server.told().count("goes on as it was") == 2, "both links again")
        for child in clients:
            self.say(child, "close", "report closed")
            self.finish_asking(child)
        until(lambda: server.told().count("closed by node") == 2, "the end of both links")
        self.stop(server)
        records = [f"  {number} 4{number}" for number in range(1, 4)]
        self.assertEqual(self.parsed().lines[1:], [FILES[0], *records, FILES[2], *records])

    def test_of_two_links_the_one_without_flow_control_goes_on(self):
        server = self.server("--store", self.path)
        asking = self.client(NODES[0])
        self.say(asking, "hello", "report ready 8192", "create 46 0 2 0 0 15", OPENED, "connect", "report connected")
        gone = self.far_station("1.9")
        gone.connect(0x0111, control=FlowControl.SEGMENTS)
        gone.say_hello()
        time.sleep(0.5)
        server.finish(signal.SIGKILL)
        server = self.server("--store", self.path)
        until(lambda: server.told().count("goes on as it was"), "a link again")
        self.assertEqual(server.told().count("goes on as it was"), 1)
        self.say(asking, "put 41", "report done 1", "close", "report closed")
        self.finish_asking(asking)
        self.stop(server)
        self.assertEqual(self.parsed().lines[1:], FILES[:2])
