"""Frames over UDP: who is heard, what a far end that isn't there does, and the pcap file of what goes by."""
import contextlib
import errno
import os
import resource
import signal
import socket
import struct
import unittest
from unittest import mock

from decnet import nsp, pcap, udp
from decnet.nsp import Kind
from decnet.pcap import Pcap, PcapFault
from decnet.wire import WireFault
from tests import captures
from tests.datagrams import LOOPBACK, UdpCase, bound, free_port, log_of
from tests.patterns import good_frame
from tests.station import SERVING, Station
from tests.support import EXAMPLES, PYTHON, Case, until

ECHO = "return ['accepted'] if line[0] == '>' else []"


class PortsTest(unittest.TestCase):
    def test_ports(self):
        for text, ports in (("4711:localhost:4712", (4711, "localhost", 4712)), ("1:10.0.0.1:65535", (1, "10.0.0.1", 65535)),
                            ("4711:[::1]:4712", (4711, "::1", 4712))):
            found = udp.read_ports(text)
            self.assertEqual((found.local, found.host, found.remote), ports)
            self.assertEqual(str(found), text)
        for text in ("", "4711", "4711:localhost", "0:localhost:1", "1:localhost:65536", ":localhost:1", "1::2", "1:a b:2",
                     "1:a:b:2", "a:localhost:1", "1:[]:2", "1:localhost:", "\u0661:localhost:1", "1" * 5000 + ":a:1"):
            with self.assertRaises(ValueError, msg=text):
                udp.read_ports(text)


class WireTest(Case):
    """The wire by itself."""

    def wire(self, clock=lambda: 0):
        self.port, self.other = free_port(), free_port()
        wire = udp.Udp(udp.Ports(self.port, LOOPBACK, self.other), clock)
        self.addCleanup(wire.close)
        return wire

    def peer(self, port):
        found = bound(port)
        self.addCleanup(found.close)
        found.connect((LOOPBACK, self.port))
        return found

    def test_an_empty_datagram_is_no_end(self):
        wire = self.wire()
        peer = self.peer(self.other)
        peer.send(b"")
        peer.send(b"frame")
        self.assertEqual([wire.receive(), wire.receive(), wire.receive()], [b"", b"frame", None])

    def test_only_the_far_end_is_heard(self):
        wire = self.wire()
        self.peer(free_port()).send(b"a stranger")
        self.peer(self.other).send(b"the far end")
        self.assertEqual([wire.receive(), wire.receive()], [b"the far end", None])

    def test_what_came_before_it_was_connected_is_dropped(self):
        strangers = [bound(), bound()]
        for one in strangers:
            self.addCleanup(one.close)

        class Late(socket.socket):
            """A socket to which strangers send before it is connected."""

            def connect(self, far):
                for number, one in enumerate(strangers):
                    one.sendto(b"a stranger %d" % number, (LOOPBACK, self.getsockname()[1]))
                super().connect(far)

        with mock.patch.object(udp.socket, "socket", Late):
            wire = self.wire()
        self.peer(self.other).send(b"the far end")
        self.assertEqual([wire.receive(), wire.receive()], [b"the far end", None])

    def test_a_far_end_that_is_not_there_is_told_once_until_it_comes(self):
        now = [0]
        path, wire = log_of(self), self.wire(lambda: now[0])
        name, said = f"bridge: udp {self.port}:{LOOPBACK}:{self.other}: ", ""
        for since in ("yet", "any more"):
            for second in (0, 1, 4.9, 5, 6, 20):
                now[0] += second
                for _ in range(2):
                    wire.send(b"frame")
                    wire.receive()
                said += f"{name}nobody is there {since}: frames are lost\n" if second == 4.9 else ""
                self.assertEqual(path.read_text(), said)
            with contextlib.closing(bound(self.other)) as peer:
                peer.sendto(b"frame", (LOOPBACK, self.port))
                self.assertEqual(wire.receive(), b"frame")
            said += f"{name}frames come again\n"
            self.assertEqual(path.read_text(), said)

    def test_a_far_end_that_comes_at_once_is_not_told(self):
        now = [0]
        path, wire = log_of(self), self.wire(lambda: now[0])
        for _ in range(10):
            now[0] += 3
            wire.send(b"frame")
            wire.receive()
            with contextlib.closing(bound(self.other)) as peer:
                peer.sendto(b"frame", (LOOPBACK, self.port))
                self.assertEqual(wire.receive(), b"frame")
        self.assertEqual(path.read_text(), "")

    def test_a_name_is_looked_up_again_after_a_minute_of_silence(self):
        now, asked = [0], []
        wire = self.wire(lambda: now[0])
        other = ("127.0.0.2", self.other)

        def look_up(ports, family=0):
            asked.append(ports.host)
            return family, other

        with mock.patch.object(udp, "look_up", look_up):
            for now[0] in (0, 30, 59):
                wire.refresh()
            self.assertEqual((asked, wire.search), ([], None))
            now[0] = 60
            wire.refresh()
            wire.search.join()
            wire.refresh()
        self.assertEqual((asked, wire.socket.getpeername()), ([LOOPBACK], other))
        wire.refresh()
        self.assertIsNone(wire.search, "a minute begins again")

    def test_a_name_that_is_not_found_any_more_keeps_its_address(self):
        now = [60]
        wire = self.wire(lambda: 0)
        before, wire.clock = wire.socket.getpeername(), lambda: now[0]
        with mock.patch.object(udp, "look_up", side_effect=OSError("no name")):
            wire.refresh()
            wire.search.join()
            wire.refresh()
        self.assertEqual(wire.socket.getpeername(), before)

    def test_a_network_that_says_no_loses_frames_and_ends_nothing(self):
        path, wire = log_of(self), self.wire()
        for number in (errno.EHOSTUNREACH, errno.ENETUNREACH, errno.EHOSTDOWN, errno.EPERM, errno.ENOBUFS):
            def fails(_frame, number=number):
                raise OSError(number, os.strerror(number))
            self.assertIsNone(wire.try_to(fails, b"frame"))
            self.assertIn(f"{os.strerror(number)}: frames are lost", path.read_text())

    def test_faults(self):
        port = free_port()
        taken = bound(port)
        self.addCleanup(taken.close)
        for ports, what in ((udp.Ports(port, LOOPBACK, 1), "Address already in use"),
                            (udp.Ports(free_port(), "no.such.host.invalid", 1), "no.such.host.invalid:1: ")):
            with self.assertRaises(WireFault) as caught:
                udp.Udp(ports)
            self.assertIn(what, str(caught.exception))


class BridgeTest(UdpCase):
    def test_nobody_there(self):
        child = self.ask(b"hello\n", "--resend", "0.05", "--tries", "4", program=self.stand_in(ECHO))
        self.assertEqual(child.finish(), 1)
        self.assertRegex(child.told(), r"^bridge: link \w+: no answer from node 1\.2\n$")
        child = self.begin("type", "1.2::A", "--resend", "1", "--tries", "7", program=self.stand_in(ECHO))
        self.assertEqual(child.finish(), 1)
        name = f"bridge: udp {self.far}:{LOOPBACK}:{self.near}: "
        told = ("bridge: 1.2::A: no answer from node 1.2 yet\n", f"{name}nobody is there yet: frames are lost\n")
        self.assertIn(child.told().removesuffix("bridge: 1.2::A: no answer from node 1.2\n"), ("".join(told), "".join(told[::-1])))

    def test_a_port_that_is_taken_and_a_host_that_is_not_there_have_status_3(self):
        taken = bound(self.near)
        self.addCleanup(taken.close)
        child = self.serve(program=self.stand_in(ECHO), is_ready=False)
        self.assertEqual(child.finish(), 3)
        self.assertIn(f"udp {self.near}:{LOOPBACK}:{self.far}: Address already in use", child.told())

    def test_a_network_is_needed_and_one_alone(self):
        for words in ([], ["--udp", "1:a:2", "--interface", "x"], ["--udp", "1:a"]):
            child = self.start([*PYTHON, self.words("serve", 1, 2)[-6], "serve", "--node", "1.2", *words])
            self.assertEqual(child.finish(), 2)
            self.assertIn("; see bridge.py ", child.told())

    def test_a_stranger_has_no_answer(self):
        child = self.serve(program=self.stand_in(ECHO))
        station = self.station()
        other = Station(self.socket_at(free_port(), self.near), "1.4", SERVING)
        other.say(nsp.connect(9, 512, nsp.session()))
        with contextlib.suppress(ConnectionRefusedError):  # so says the system, and not the bridge
            other.hear_nothing(Kind, "to a stranger")
        station.connect(7)
        station.disconnect()
        self.stop(child)

    def test_a_hub_joins_several(self):
        ports = [free_port() for _ in range(4)]
        hub = self.start([*PYTHON, EXAMPLES / "hub.py", *ports[:1], *(f"{LOOPBACK}:{port}" for port in ports[1:])])
        first, second, third = (self.socket_at(port, ports[0]) for port in ports[1:])
        for one in (first, second, third):
            one.settimeout(0.1)

        def is_there():
            with contextlib.suppress(ConnectionRefusedError):
                first.send(b"frame")
            return heard(second) == heard(third) == b"frame"

        def heard(one):
            try:
                return one.recv(2048)
            except OSError:
                return None

        until(is_there, "a frame to both others")
        self.assertIsNone(heard(first), "its own frame came back")
        self.socket_at(free_port(), ports[0]).send(b"of a stranger")
        self.assertNotIn(b"of a stranger", [heard(second) for _ in range(3)])
        self.assertEqual(hub.finish(signal.SIGINT), -signal.SIGINT)
        self.assertEqual(hub.told(), "")


class PcapTest(UdpCase):
    def setUp(self):
        super().setUp()
        self.path = self.folder / "wire.pcap"

    def frames(self):
        with open(self.path, "rb") as file:
            return list(captures.frames(file))

    def test_all_frames_are_there_both_ways(self):
        child = self.serve("--pcap", self.path, program=self.stand_in(ECHO))
        station = self.station()
        station.connect(7)
        station.disconnect()
        self.stop(child)
        kinds = [nsp.read(frame[38:]).kind for frame in self.frames() if frame[:6].hex() != "ab0000030000"]
        both = [Kind.CONNECT, Kind.CONNECT_ACK, Kind.CONFIRM, Kind.DATA_ACK, Kind.DISCONNECT, Kind.DISCONNECT_CONFIRM]
        self.assertEqual(kinds, both)
        self.assertEqual(self.path.stat().st_mode & 0o777, 0o600)
        more = self.serve("--pcap", self.path, program=self.stand_in(ECHO))
        self.stop(more)
        self.assertEqual(len(self.frames()), len(both) + 2, "a start goes on after what is there")

    def test_a_file_of_another_kind_is_left_alone(self):
        self.path.write_bytes(b"anything at all, and much more than a head")
        child = self.serve("--pcap", self.path, program=self.stand_in(ECHO), is_ready=False)
        self.assertEqual(child.finish(), 3)
        self.assertIn(f"--pcap {self.path}: it isn't empty, and it is no file that --pcap began", child.told())
        self.assertEqual(self.path.read_bytes(), b"anything at all, and much more than a head")
        for path, what in (("/nowhere/x", "No such file"), (self.folder, "Is a directory")):
            with self.assertRaises(PcapFault) as caught:
                Pcap(path)
            self.assertIn(what, str(caught.exception))

    def test_a_frame_that_was_cut_short_is_taken_out(self):
        tap = Pcap(self.path)
        for _ in range(3):
            tap.note(good_frame(b"\x24\1\0"))
        tap.close()
        whole = self.path.read_bytes()
        for length in range(len(pcap.HEAD), len(whole)):
            self.path.write_bytes(whole[:length])
            tap = Pcap(self.path)
            tap.note(b"next")
            tap.close()
            found = self.frames()
            self.assertEqual((found[-1], None in found), (b"next", False), length)

    def test_a_full_disk_is_told_once_and_leaves_whole_frames(self):
        """A limit on the size of files is as a full disk."""
        path, tap = log_of(self), Pcap(self.path)
        self.addCleanup(signal.signal, signal.SIGXFSZ, signal.signal(signal.SIGXFSZ, signal.SIG_IGN))
        before = resource.getrlimit(resource.RLIMIT_FSIZE)
        resource.setrlimit(resource.RLIMIT_FSIZE, (300, before[1]))
        try:
            for _ in range(10):
                tap.note(good_frame(b"\x24\1\0"))
        finally:
            resource.setrlimit(resource.RLIMIT_FSIZE, before)
        self.assertEqual(path.read_text().count("no more frames are written"), 1)
        self.assertEqual(self.frames(), 3 * [good_frame(b"\x24\1\0")])

    def test_a_pipe(self):
        os.mkfifo(self.path)
        with self.assertRaisesRegex(PcapFault, "No such device or address"):
            Pcap(self.path)
        reading = os.open(self.path, os.O_RDONLY | os.O_NONBLOCK)
        path, tap = log_of(self), Pcap(self.path)
        self.addCleanup(tap.close)
        for _ in range(5000):
            tap.note(bytes(60))
        os.close(reading)
        for _ in range(2):
            tap.note(bytes(60))
        self.assertEqual(path.read_text(), f"bridge: --pcap {self.path}: Broken pipe: no more frames are written\n")

    def test_times(self):
        with mock.patch.object(pcap.time, "time_ns", lambda: 1_700_000_000_123_456_789):
            tap = Pcap(self.path)
            tap.note(b"frame")
            tap.close()
        self.assertEqual(self.path.read_bytes()[24:40], struct.pack("<IIII", 1_700_000_000, 123_456, 5, 5))
