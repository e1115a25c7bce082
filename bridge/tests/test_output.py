"""Standard output that nobody reads: the link goes on, and what waits has a bound."""
import os
import select
import signal
import threading
import time

from decnet import nsp
from decnet.client import Client
from decnet.link import Settings, State
from decnet.nsp import Kind, Modifier, Qualifier
from decnet.output import MAX_WAITING, Output
from decnet.role import Stopped
from decnet.routing import Arrived, Peer
from tests.pairs import HASTE, PairCase
from tests.station import SERVING
from tests.support import BRIDGE, PROGRAM, PYTHON, Case, need_live_end, until
from tests.test_bounds import BusyEnd, Node

PIPE = 1 << 16  # bytes that a pipe has room for
FEW = 1 << 17
LINE = b"a line of a file that is long enough to be more than a pipe takes\n"
NODE, LOCAL = 1026, 0x0707


class NoSignals:
    def files(self):
        return {}

    def take_stop(self):
        return False


class OutputTest(Case):
    """By itself, before a pipe."""

    def setUp(self):
        super().setUp()
        self.reading, self.writing = os.pipe()
        self.addCleanup(os.close, self.reading)
        self.signals = NoSignals()
        self.output = Output(self.signals, self.writing, FEW)
        self.addCleanup(self.output.close)

    def read(self, size):
        found = b""
        while len(found) < size:
            found += os.read(self.reading, size - len(found))
        return found

    def test_nobody_waits_and_all_comes_in_order(self):
        data = os.urandom(10 * FEW)
        begun = time.monotonic()
        for at in range(0, len(data), 1000):
            self.output.write(data[at:at + 1000])
        self.assertLess(time.monotonic() - begun, 5)
        self.assertTrue(self.output.is_full and self.output.is_slow)
        self.assertGreaterEqual(self.output.size, len(data) - 2 * PIPE)
        self.assertEqual(self.read(len(data)), data)
        until(lambda: not self.output.size, "an empty output")
        self.output.look()
        self.assertFalse(self.output.is_full or self.output.is_slow)
        os.close(self.writing)

    def test_it_is_slow_from_a_half_until_a_quarter(self):
        os.write(self.writing, bytes(PIPE))
        for size, is_slow in ((FEW // 2 - 1, False), (1, True)):
            self.output.write(bytes(size))
            self.assertEqual(self.output.is_slow, is_slow)
        self.read(PIPE)
        until(lambda: self.output.size < FEW // 4, "less that waits")
        self.output.look()
        self.assertFalse(self.output.is_slow)
        os.close(self.writing)

    def test_a_pipe_that_is_closed_is_told_at_once(self):
        """Also where its thread hasn't written yet, and where the pipe is closed while something waits."""
        reading, writing = os.pipe()
        output = Output(self.signals, writing)
        output.write(bytes(2 * PIPE))
        os.close(reading)
        for use in (output.check, output.flush, lambda: output.write(b"")):
            with self.assertRaises(BrokenPipeError):
                use()
        output.close()
        os.close(writing)
        os.close(self.writing)

    def test_a_flush_waits_and_a_signal_ends_it(self):
        self.output.write(bytes(FEW))
        self.signals.take_stop = lambda: True
        self.signals.files = lambda: {self.output.reading: self.output.look}
        threading.Timer(0.2, self.output.wake).start()
        with self.assertRaises(Stopped):
            self.output.flush()
        self.output.drop()
        self.read(PIPE)
        os.close(self.writing)


class FakeOutput:
    """An output that is as full as a test wants it."""

    def __init__(self):
        self.is_full = self.is_slow = False

    def files(self):
        return {}


class LinkTest(Case):
    """A client whose output is full."""

    def setUp(self):
        super().setUp()
        self.now, self.node, self.end, self.output = 0.0, Node(), BusyEnd(), FakeOutput()
        self.node.way_to = lambda node: Peer(node, bytes(6))
        self.node.say_hello = self.end.tick = lambda: None
        settings = Settings(512, 1, 30, 30)
        requests = type("Requests", (), {"file": None, "is_open": True, "whole": []})()
        self.client = Client(self.node, self.end, settings, requests, 10, output=self.output, clock=lambda: self.now)
        self.client.open(NODE, nsp.session())
        self.link = self.client.link
        self.arrive(nsp.confirm(self.link.local, LOCAL, 512))
        self.end.answer_all()
        self.assertIs(self.link.state, State.RUNNING)
        self.node.sent.clear()

    def arrive(self, packet):
        self.client.receive(Arrived(Peer(NODE, bytes(6)), packet, False))

    def segment(self, number):
        return nsp.words(Kind.ONLY, self.link.local, LOCAL, nsp.field(Qualifier.ACK, 0), number) + b"\4\0\1"

    def test_nothing_is_taken_but_what_it_acknowledges_and_probes_are_answered(self):
        self.output.is_full = self.output.is_slow = True
        self.arrive(self.segment(1))
        only_ack = nsp.data_ack(self.link.local, LOCAL, Qualifier.ACK, 0)
        self.assertEqual([line for line, _ in self.end.asked], ["> " + only_ack.hex()])
        self.arrive(nsp.words(Kind.ONLY, self.link.local, LOCAL, 1) + b"\4\0\1")
        self.assertEqual(len(self.end.asked), 1)
        self.arrive(nsp.link_service(self.link.local, LOCAL, 0, 1))
        self.assertEqual([packet.kind for packet in self.node.sent], [Kind.OTHER_ACK])
        self.output.is_full = False
        self.arrive(self.segment(1))
        self.assertEqual(self.end.asked[-1][0], "> " + self.segment(1).hex())

    def test_the_other_end_is_asked_to_wait_and_to_go_on(self):
        found = []
        for self.output.is_slow in (False, True, True, False, False):
            self.client.tick()
            found += [nsp.read_link_service(packet.body).modifier for packet in self.node.sent]
            for packet in self.node.sent:
                self.arrive(nsp.other_ack(self.link.local, LOCAL, packet.number))
            self.node.sent.clear()
        self.assertEqual(found, [Modifier.STOP, Modifier.START])

    def test_a_message_that_waits_for_its_answer_is_sent_again_as_it_was(self):
        self.output.is_slow = True
        self.client.tick()
        self.output.is_slow = False
        self.client.tick()
        self.now = 1.0
        self.client.tick()
        first, again = self.node.sent
        self.assertEqual(first, again)
        self.arrive(nsp.other_ack(self.link.local, LOCAL, first.number))
        self.client.tick()
        self.assertIs(nsp.read_link_service(self.node.sent[-1].body).modifier, Modifier.START)

    def test_patience_is_for_the_other_end(self):
        self.client.ask(1, "hello")
        self.end.asked.pop()[1].then(["asked 1"])
        self.link.pending = 0
        for second in range(1, 25):
            self.now, self.output.is_slow = float(second), second < 20
            self.client.tick()
            self.link.heard_at = self.now
            self.assertIs(self.link.state, State.RUNNING, second)
        self.now = 30.0
        self.client.tick()
        self.assertIs(self.link.state, State.CLOSING)


class BridgeTest(PairCase):
    """A server that gives up soon, and a client before a pipe that nobody reads for longer."""

    def setUp(self):
        super().setUp()
        need_live_end()
        self.data = LINE * 8000
        (self.folder / "shared").mkdir()
        (self.folder / "shared" / "F").write_bytes(self.data)
        haste = ["--resend", "0.2", "--tries", "10", "--idle", "0.5", "--segment", "1400"]
        self.server, self.raw = self.serve(*haste, "--folder", self.folder / "shared")
        self.reading, self.writing = os.pipe()
        self.addCleanup(os.close, self.reading)

    def client(self, *words, most=MAX_WAITING):
        """A client whose standard output is the pipe."""
        program = self.script("bounded", f"import runpy, sys\nsys.path.insert(0, {str(BRIDGE.parent)!r})\n"
                              f"from decnet import output\noutput.Output.__init__.__defaults__ = (None, {most})\n"
                              "sys.argv = sys.argv[1:]\nrunpy.run_path(sys.argv[0], run_name='__main__')\n")
        line = [*PYTHON, program, BRIDGE, *words, "--frames", self.raw.fileno(), "--node", "1.1", "--daplive", PROGRAM, *HASTE,
                "--segment", "1400", "--idle", "0.5"]
        child = self.start(line, pass_fds=[self.raw.fileno()], stdout=self.writing)
        os.close(self.writing)
        return child

    def read_all(self):
        found = b""
        while piece := os.read(self.reading, 1 << 16):
            found += piece
        return found

    def test_a_link_is_closed_before_its_text_is_read(self):
        child = self.client("type", f"{SERVING}::F")
        self.server.wait_for("closed by node 1.1, reason 0")
        self.assertIsNone(child.process.poll())
        self.assertEqual(self.read_all(), self.data)
        self.assertEqual(child.finish(), 0)
        self.stop(self.server)

    def test_a_link_outlives_a_reader_that_is_away(self):
        child = self.client("type", f"{SERVING}::F", most=FEW)
        time.sleep(6)
        self.assertNotIn("closed", self.server.told())
        self.assertNotIn("no answer", self.server.told())
        self.assertIsNone(child.process.poll())
        self.assertEqual(self.read_all(), self.data)
        self.assertEqual(child.finish(), 0, child.told())
        self.stop(self.server)

    def test_a_signal_ends_a_client_whose_text_nobody_reads(self):
        child = self.client("type", f"{SERVING}::F", most=FEW)
        until(lambda: select.select([self.reading], [], [], 0)[0], "its text")
        time.sleep(1)
        self.assertEqual(child.finish(signal.SIGINT), 1)
        self.assertIn("stopped by a signal", child.told())
        self.stop(self.server)
