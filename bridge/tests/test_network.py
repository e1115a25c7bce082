"""Bridges in two network namespaces: files stored and fetched, and each answer, timer, message and exit status.

Takes Linux, root, `ip`, `tshark` and `dumpcap`; without them it is skipped. It sends only between the namespaces, which
it makes and removes. What goes over the wire is captured, and each frame is read by tshark as it was meant.
"""
import contextlib
import os
import random
import re
import shlex
import shutil
import signal
import subprocess
import sys
import time
import unittest

from decnet import nsp
from decnet.listed import messages_by_way
from decnet.nsp import FlowControl, Kind, Modifier, Qualifier, Reason
from tests import readings
from tests.datagrams import UdpCase
from tests.network import LIBC, Capture, Network, ip
from tests.patterns import altered, good_frame, packets
from tests.station import ASKING, CONFIGURATION, OWN_CONFIGURATION, SERVING, SILENCE, Station, segment
from tests.support import (
    BRIDGE, LISTER, PATIENCE, POLL, PROGRAM, PYTHON, SEED, Case, child_of, expect, expect_equal, file_lines, need_live_end,
    until)

SETTINGS = ["--resend", "0.2", "--tries", "10"]
HASTE = ["--resend", "0.05", "--tries", "100"]
STATION = "1.3"
PR_CAPBSET_DROP, CAP_NET_RAW = 24, 13
# how many of 100 frames are lost, repeated and swapped, with the segment sizes of the serving and the asking side
TRANSFERS = ((0, 512, 512), (5, 230, 1400), (15, 1400, 100))
FOLLOW = shlex.split(os.environ.get("BRIDGE_FOLLOW") or "") or [LISTER, "--bare"]
NETWORK = Network()


def setUpModule():
    if sys.platform != "linux" or os.geteuid() != 0:
        raise unittest.SkipTest("not root on Linux")
    for program in ("ip", "tshark", "dumpcap"):
        if shutil.which(program) is None:
            raise unittest.SkipTest(f"no {program}")
    need_live_end()
    try:
        NETWORK.make()
    except AssertionError as fault:
        NETWORK.remove()
        raise unittest.SkipTest(str(fault)) from fault


def tearDownModule():
    NETWORK.remove()


class Transfer:
    """Requests that store and fetch files, with the reports that have to come and the files that have to be there."""

    PRELOADED = ["file 505245 rel variable 0 9 kept=0202020802", "  2 70726573656e74", "  5 -"]

    def __init__(self, seed):
        chance = random.Random(seed)
        self.bodies = [chance.randbytes(chance.choice([0, 3, 60, 600])).hex() or "-" for _ in range(60)]
        self.fixed = {number: chance.randbytes(5).hex() for number in (7, 2, 9)}
        listed = " ".join(f"{number}:{body}" for number, body in enumerate(self.bodies, 1))
        self.fetched = f"report batch {len(self.bodies)} complete {listed}"
        turns = [("hello", "ready 8192")]
        turns += [("create 46 0 2 0 0 15", "opened 0 2 0 0"), ("connect", "connected")]
        turns += [("store " + " ".join(self.bodies), "stored"), ("close", "closed")]
        turns += [("create 47 16 1 5 9 15", "opened 16 1 5 9"), ("connect", "connected")]
        turns += [(f"put key {number} {body}", f"done {number}") for number, body in self.fixed.items()]
        turns += [("get key 4", "refused 5060 4"), ("close", "closed")]
        turns += [("open 505245 2", "opened 16 2 0 9"), ("connect", "connected")]
        turns += [("fetch", "batch 2 complete 2:70726573656e74 5:-"), ("close", "closed")]
        self.storing = turns
        self.fetching = [("hello", "ready 8192"), ("open 46 2", "opened 0 2 0 0"), ("connect", "connected"),
                         ("fetch", self.fetched.removeprefix("report ")), ("close", "closed")]

    @staticmethod
    def requests(turns):
        return "".join(f"{request}\n" for request, _ in turns).encode()

    @staticmethod
    def reports(turns):
        return [f"report {report}" for _, report in turns]

    def files(self):
        lines = [*self.PRELOADED, "file 46 seq variable 0 0"]
        lines += [f"  {number} {body}" for number, body in enumerate(self.bodies, 1)]
        lines.append("file 47 rel fixed 5 9")
        return lines + [f"  {number} {self.fixed[number]}" for number in sorted(self.fixed)]

    def data_bodies(self):
        """The records in the Data messages of the end that stores, in their order."""
        return [body.replace("-", "") for body in self.bodies] + list(self.fixed.values())


class NetworkCase(Case):
    """A test in the two namespaces."""

    def bridge(self, role, *words, stdin=b"", node=None, **more):
        """A bridge, started."""
        node = node or (SERVING if role == "serve" else ASKING)
        words = ["--interface", NETWORK.interfaces[node], "--node", node, "--daplive", PROGRAM, *self.naming(role, words), *words]
        return self.start([*PYTHON, BRIDGE, role, *words], stdin=stdin, namespace=NETWORK.names[node], **more)

    def serve(self, *words, **more):
        child = self.bridge("serve", *words, **more)
        child.wait_for("takes links")
        return child

    def ask(self, *words, **more):
        return self.bridge("ask", "--to", SERVING, *words, **more)

    def station(self, node=STATION, peer=SERVING):
        raw = NETWORK.raw_socket(ASKING if peer == SERVING else SERVING)
        self.addCleanup(raw.close)
        return Station(raw, node, peer)

    def stop(self, child, number=signal.SIGTERM):
        expect_equal(child.finish(number), 0, f"the exit status of the bridge that served ({child.told()})")
        expect("Traceback" not in child.told() and "Warning" not in child.told(), child.told())


class CapturedCase(NetworkCase):
    """A test whose frames are captured; tshark reads each as it was meant."""

    seen = set()

    def setUp(self):
        super().setUp()
        self.capture = Capture(NETWORK, self.folder, self.id().split(".")[-1])
        self.addCleanup(self.capture.child.end)

    def tearDown(self):
        self.capture.stop()
        CapturedCase.seen |= readings.compare(self.capture)


def records_by_way(listing):
    """The records in each direction of a listing, in the order in which they were sent."""
    found = {way: [line.split()[2] for line in lines if line.startswith("  data ")]
             for way, lines in messages_by_way(listing).items()}
    return {way: [body.removeprefix("body=").replace("-", "") for body in bodies] for way, bodies in found.items()}


class TransferTest(CapturedCase):
    def test_files_are_stored_fetched_and_saved_and_the_capture_lists_them(self):
        transfers = []
        for harm, serving, asking in TRANSFERS:
            with self.subTest(harm=harm, serving=serving, asking=asking):
                transfers.append(self.transfer(harm, serving, asking))
        self.capture.stop()
        self.list_capture(transfers)

    def transfer(self, harm, serving, asking):
        """Files stored over one link, fetched over two more, and saved, with harmed frames and two segment sizes."""
        transfer = Transfer(SEED + harm)
        preloaded, saved = self.file("preloaded", transfer.PRELOADED), self.folder / f"saved{harm}"
        words = [*HASTE, "--harm", harm]
        server = self.serve(*words, "--segment", serving, "--seed", SEED, "--files", preloaded, "--save", saved)
        for number, turns in enumerate((transfer.storing, transfer.fetching, transfer.fetching), 1):
            seeded = ["--segment", asking, "--seed", SEED + number]
            child = self.ask(*words, *seeded, "--go-on", stdin=transfer.requests(turns))
            status = 1 if turns is transfer.storing else 0  # one of its requests is refused
            expect_equal(child.finish(), status, f"the exit status of the bridge that asked ({child.told()})")
            expect_equal(child.reports(), transfer.reports(turns), f"the reports of link {number}")
            expect_equal(file_lines(saved), transfer.files(), f"the files that are saved when link {number} is closed")
            self.free(server)
        self.stop(server)
        expect_equal(file_lines(saved), transfer.files(), "the saved files")
        expect(f"; segments of {min(serving, asking)} bytes;" in server.told(), f"it says {server.told()}")
        self.again(saved, transfer)
        return transfer

    @staticmethod
    def free(server):
        """Waits until the link is closed at the serving side too."""
        until(lambda: server.told().count(": from node") == server.told().count(": closed by"), "a link closed")

    def again(self, saved, transfer):
        """The saved files are good for the next start."""
        server = self.serve(*HASTE, "--files", saved, "--stop-after", 1)
        child = self.ask(*HASTE, stdin=transfer.requests(transfer.fetching))
        expect_equal((child.finish(), server.finish()), (0, 0), "the exit statuses after a new start")
        expect_equal(child.reports(), transfer.reports(transfer.fetching), "the reports after a new start")

    def list_capture(self, transfers):
        """The listing of the capture has each record that was stored, once and in order."""
        command = [LISTER, "--lines", "--between", ASKING, SERVING, self.capture.path]
        lines = subprocess.run(command, capture_output=True, check=True, timeout=PATIENCE).stdout
        run = subprocess.run(FOLLOW, input=lines, capture_output=True, check=False, timeout=2 * PATIENCE)
        expect_equal(run.returncode, 0, f"the exit status of {FOLLOW} ({run.stderr.decode()})")
        listing = run.stdout.decode().splitlines()
        for word in ("gap ", "part "):
            found = [line for line in listing if line.startswith(word)]
            expect(not found, f"{found[:1]} in the listing")
        found = records_by_way(listing)
        stored = [body for transfer in transfers for body in transfer.data_bodies()]
        expect_equal(found[">"], stored, "the records stored by the listing")
        fetched = [body.replace("-", "") for transfer in transfers
                   for body in ["70726573656e74", "-"] + 3 * transfer.bodies]
        expect_equal(found["<"], fetched, "the records fetched by the listing")


class LinkTest(CapturedCase):
    def test_refusals(self):
        """Other objects, links that the live end can't have, and packets to links that aren't there."""
        server, station = self.serve(*SETTINGS), self.station()
        objects = {"18": b"\0\x12\0\0\0", "a name": b"\1\0\4TASK\0\0\0", "none": b"", "a half": b"\0"}
        for name, body in objects.items():
            refused = station.refused(nsp.connect(9, 512, body))
            expect_equal(refused, (Kind.DISCONNECT, Reason.NO_OBJECT), f"object {name}")
        no_resources = (Kind.DISCONNECT_CONFIRM, Reason.NO_RESOURCES)
        expect_equal(station.refused(nsp.connect(9, 0, nsp.session())), no_resources, "segments of 0 bytes")
        unknown_flow = bytearray(nsp.connect(9, 512, nsp.session()))
        unknown_flow[5] |= 0x0C
        expect_equal(station.refused(bytes(unknown_flow)), no_resources, "flow control that isn't defined")
        there = (0x7777, 9)
        for packet in (segment(*there, 1, b"x"), nsp.link_service(*there, 0, 1), nsp.confirm(*there, 512),
                       bytes([Kind.INTERRUPT]) + segment(*there, 1, b"x")[1:]):
            station.say(packet)
            answer = station.hear_kind(Kind.DISCONNECT_CONFIRM, f"for {packet.hex()}")
            expect_equal((answer.reason, answer.destination, answer.source), (Reason.NO_LINK, 9, 0x7777), "no link")
        station.say(nsp.disconnect(*there, Reason.NO_ERROR))
        expect_equal(station.hear_kind(Kind.DISCONNECT_CONFIRM).reason, Reason.COMPLETE, "a disconnect of no link")
        for packet in (nsp.data_ack(*there, Qualifier.ACK, 1), nsp.other_ack(*there, 1), nsp.connect_ack(0x7777),
                       nsp.disconnect_confirm(*there, Reason.NO_LINK), bytes([Kind.NO_OPERATION])):
            station.say(packet)
        station.hear_nothing(Kind, "for answers to no link")
        self.stop(server)

    def test_a_second_link_is_refused_and_the_first_goes_on(self):
        """A second link is refused, and the first one goes on."""
        server, station = self.serve(*SETTINGS, "--links", "1"), self.station()
        station.connect(0x0111)
        child = self.ask(*SETTINGS, stdin=b"hello\n")
        expect_equal((child.finish(), child.reports()), (1, []), "the exit status and reports of a refused link")
        expect("refused by node 1.2, reason 6 (busy)" in child.told(), f"it says {child.told()}")
        station.say_hello()
        station.hear_segments(1)
        station.disconnect()
        child = self.ask(*SETTINGS, stdin=b"hello\n")
        expect_equal((child.finish(), child.reports()), (0, ["report ready 8192"]), "a link after the first")
        self.stop(server)

    def test_opening(self):
        """Connect initiates and confirms that are retransmitted, and one that is never acknowledged."""
        server, station = self.serve("--resend", "0.1", "--tries", "6"), self.station()
        connect = nsp.connect(0x0222, 512, nsp.session())
        station.say(connect)
        expect_equal(station.hear_kind(Kind.CONNECT_ACK).destination, 0x0222, "the connect acknowledgement")
        local = station.hear_kind(Kind.CONFIRM).source
        station.say(nsp.connect_again(connect))
        station.hear_kind(Kind.CONNECT_ACK, "for a connect initiate that came again")
        expect_equal(station.hear_kind(Kind.CONFIRM, "again").source, local, "the link address")
        server.wait_for("no answer from node 1.3")
        station.hear_all()
        station.say(nsp.connect_again(connect))
        station.hear_nothing({Kind.CONNECT_ACK, Kind.CONFIRM}, "for the old connect initiate")
        station.connect(0x0223)
        expect(station.remote != local, "the link address came again")
        station.hear_nothing({Kind.CONFIRM}, "after an acknowledgement")
        station.disconnect()
        station.disconnect()
        self.stop(server)

    def test_other_data(self):
        """Interrupt and link service messages, their numbers, and acknowledgements across subchannels."""
        server, station = self.serve(*SETTINGS), self.station()
        station.connect(0x0333)

        def say(kind, number, body):
            station.say(nsp.words(kind, station.remote, station.local, number) + body)
            return station.hear_kind(Kind.OTHER_ACK).acks

        messages = [(Kind.INTERRUPT, 1, b"hello"), (Kind.INTERRUPT, 1, b"hello"), (Kind.LINK_SERVICE, 3, b"\0\0"),
                    (Kind.LINK_SERVICE, 2, b"\1\0"), (Kind.LINK_SERVICE, 3, b"\7\7\7"), (Kind.LINK_SERVICE, 4, b"\2\0")]
        taken = [say(*message)[0][1] for message in messages]
        expect_equal(taken, [1, 1, 1, 2, 3, 4], "what is acknowledged on the other subchannel")
        station.say_hello()
        station.hear_kind_of(nsp.SEGMENTS, 1)
        station.hear_kind_of(nsp.SEGMENTS, 1)
        field = nsp.field(Qualifier.CROSS_ACK, 1)
        station.say(nsp.words(Kind.OTHER_ACK, station.remote, station.local, field))
        time.sleep(POLL)
        station.hear_all()
        station.hear_nothing(nsp.SEGMENTS, "after an acknowledgement across", 2 * SILENCE)
        station.say(segment(station.remote, station.local, 2, CONFIGURATION))
        found = {station.hear_kind_of(nsp.SEGMENTS, 2).number}
        came = iter(lambda: station.hear(2 * SILENCE), None)
        found |= {packet.number for packet in came if packet.kind in nsp.SEGMENTS}
        expect_equal(found, {2}, "the segments that are sent again")
        station.disconnect()
        self.stop(server)

    FILE = ["file 46 seq variable 0 0", "  1 " + "41" * 150]
    TALK = [CONFIGURATION, bytes.fromhex("0300010001460200"), bytes.fromhex("040002"), bytes.fromhex("040001")]

    def test_flow_control(self):
        """What is sent where the other end counts segments or messages, or wants nothing."""
        server, station = self.serve(*SETTINGS, "--files", self.file("files", self.FILE)), self.station()
        for local, control in ((0x0441, FlowControl.SEGMENTS), (0x0442, FlowControl.MESSAGES)):
            station.connect(local, nsp.MIN_SEGMENT, control)
            for number, body in enumerate(self.TALK, 1):
                station.say(segment(station.remote, station.local, number, body))
            station.hear_nothing(nsp.SEGMENTS, "before it was asked for")
            if control is FlowControl.SEGMENTS:
                station.request(1, count=1)
                station.hear_kind_of(nsp.SEGMENTS, 1)
                again = station.hear_kind_of(nsp.SEGMENTS, 1)
                station.acknowledge(again.number)
                station.hear_nothing(nsp.SEGMENTS, "more than was asked for")
                station.request(2, count=10)
                station.request(3, count=-1)
                last = station.hear_to_end(2, b"A")
            else:
                count = self.messages
                station.request(1, count=count - 1)
                expect(station.hear_segments(count - 1), "the messages before the last")
                station.hear_nothing(nsp.SEGMENTS, "more messages than were asked for")
                station.request(2, count=1)
                last = station.hear_to_end(count, b"A")
            self.messages = last - 2  # the last of them has three segments
            station.disconnect()
        station.connect(0x0443)
        station.request(1, modifier=Modifier.STOP)
        station.say_hello()
        station.hear_nothing(nsp.SEGMENTS, "where nothing is wanted")
        station.request(2, modifier=Modifier.START)
        expect_equal(station.hear_segments(1), OWN_CONFIGURATION, "the answer after a start")
        station.disconnect()
        self.stop(server)

    def test_idle(self):
        """A silent other end is asked whether it is there; one that doesn't answer is given up."""
        server, station = self.serve("--resend", "0.1", "--tries", "4", "--idle", "0.3"), self.station()
        station.connect(0x0555)
        for number in (1, 2):
            probe = station.hear_kind(Kind.LINK_SERVICE)
            while probe.number != number:
                probe = station.hear_kind(Kind.LINK_SERVICE)
            expect_equal(probe.body, b"\0\0", "what is asked of a silent end")
            station.say(nsp.other_ack(station.remote, station.local, number))
        server.wait_for("no answer from node 1.3")
        self.stop(server)
        server = self.serve("--resend", "0.1", "--tries", "4", "--idle", "300")
        station.connect(0x0556)
        station.say_hello()
        count = len([packet for packet in iter(lambda: station.hear(2 * SILENCE), None) if packet.kind in nsp.SEGMENTS])
        expect_equal(count, 5, "how often a segment is sent that nobody acknowledges")
        server.wait_for("no answer from node 1.3")
        self.stop(server)

    def test_stopped_in_the_middle_of_a_link(self):
        """Stopped in the middle of a link, a serving bridge keeps what was stored until then."""
        for number in (signal.SIGTERM, signal.SIGINT):
            saved = self.folder / f"saved{int(number)}"
            server = self.serve(*SETTINGS, "--save", saved)
            child = self.ask(*SETTINGS, stdin=None)
            child.write(b"hello\ncreate 46 0 2 0 0 15\nconnect\nput 6f6e65\nput 74776f\n")
            child.wait_for("report done 2", child.out)
            os.killpg(server.process.pid, number)
            self.stop(server, None)
            expect_equal(file_lines(saved), ["file 46 seq variable 0 0", "  1 6f6e65", "  2 74776f"], "the saved files")
            expect_equal(child.finish(), 1, "the exit status of the bridge that asked")
            reason = "closed by node 1.2, reason 3 (the node is shutting down)"
            expect(reason in child.told(), f"it says {child.told()}")
            expect_equal([path.name for path in self.folder.glob("saved*.new*")], [], "new files that are left")
        self.stop_twice()
        server, child = self.serve(*SETTINGS), self.ask(*SETTINGS, stdin=None)
        child.write(b"hello\n")
        child.wait_for("report ready", child.out)
        expect_equal(child.finish(signal.SIGINT), 1, "the exit status of a stopped bridge that asked")
        server.wait_for("closed by node 1.1, reason 9 (aborted)")
        self.stop(server)

    def stop_twice(self):
        """Stopped again while the other end doesn't answer: the files are saved already, and nothing more is served."""
        preloaded, saved = self.file("preloaded", Transfer.PRELOADED), self.folder / "saved"
        server, station = self.serve("--resend", "5", "--files", preloaded, "--save", saved), self.station()
        station.connect(0x0888)
        server.process.send_signal(signal.SIGTERM)
        expect_equal(station.hear_kind(Kind.DISCONNECT).reason, Reason.SHUTTING_DOWN, "the reason of a stop")
        station.say_hello()
        refused = station.refused(nsp.connect(9, 512, nsp.session()))
        expect_equal(refused, (Kind.DISCONNECT, Reason.SHUTTING_DOWN), "a link that is asked for then")
        station.hear_nothing(nsp.SEGMENTS, "from a link that is closing")
        time.sleep(1)
        begun = time.monotonic()
        self.stop(server)
        expect(time.monotonic() - begun < 5, "a second signal doesn't end it")
        expect_equal(file_lines(saved), Transfer.PRELOADED, "the saved files")

    def test_asking(self):
        """What the asking bridge says of nodes that don't answer or refuse; its access control."""
        child = self.bridge("ask", "--to", "1.7", "--resend", "0.05", "--tries", "4", stdin=b"hello\n")
        expect_equal(child.finish(), 1, "the exit status where nobody is there")
        expect("no answer from node 1.7" in child.told(), f"it says {child.told()}")
        station = self.station("1.8", ASKING)
        secret = self.file("secret", ["SECRET", "not this"])
        words = ["--to", "1.8", "--user", "SMITH", "--account", "ACCT"]
        reasons = {Reason.ACCESS_CONTROL: "the user or the password was rejected", Reason.NO_OBJECT: "unknown object"}
        ways = [["--password-file", secret], ["--password-env", "DAPLIVE_TEST"]]
        for (reason, text), way in zip(reasons.items(), ways):
            env = {**os.environ, "DAPLIVE_TEST": "SECRET"}
            child = self.bridge("ask", *words, *way, *SETTINGS, stdin=b"hello\n", env=env)
            connect = station.hear_kind(Kind.CONNECT)
            expect_equal(connect.body, nsp.session(b"SMITH", b"SECRET", b"ACCT"), "the names and the access control")
            station.hear_kind(Kind.CONNECT_AGAIN)
            station.say(nsp.connect_ack(connect.source))
            station.say(nsp.disconnect(connect.source, 0x0666, reason))
            expect_equal(station.hear_kind(Kind.DISCONNECT_CONFIRM).reason, Reason.COMPLETE, "the answer to a refusal")
            expect_equal(child.finish(), 1, "the exit status after a refusal")
            expect(f"refused by node 1.8, reason {int(reason)} ({text})" in child.told(), f"it says {child.told()}")
        child = self.bridge("ask", "--to", "1.8", *SETTINGS, stdin=b"hello\n")
        source = station.hear_kind(Kind.CONNECT).source
        station.say(nsp.disconnect_confirm(source, 0, Reason.NO_RESOURCES))
        expect_equal(child.finish(), 1, "the exit status where there are no resources")
        expect("reason 1 (no resources)" in child.told(), f"it says {child.told()}")
        self.read_access_control(connect.whole)

    def read_access_control(self, packet):
        """tshark's reading of the access control. Version 4.0 doesn't read it after a source that has a name."""
        named, numbered = nsp.session()[2:-1], b"\0\0"
        expect_equal(packet.count(named), 1, "the source's name")
        text = readings.tshark_text(self.frames_file([good_frame(packet.replace(named, numbered))]))
        expect_equal(re.findall(r"Session Requestor ID: (.*)", text), ["SMITH", "SECRET", "ACCT"], "tshark's reading")
        expect("RQSTRID, PASSWRD and ACCOUNT fields included" in text, "tshark reads another menu")

    def frames_file(self, frames):
        """A pcap file of frames."""
        path = self.file("pcap")
        head = bytes.fromhex("d4c3b2a1020004000000000000000000ffff000001000000")
        path.write_bytes(head + b"".join(bytes(8) + 2 * len(frame).to_bytes(4, "little") + frame for frame in frames))
        return path


class PcapTest(UdpCase):
    """The frames that --pcap writes, of bridges over UDP; tshark reads each as it was meant."""

    def test_both_pcap_files_are_read_as_they_were_meant(self):
        serving, asking = (readings.Kept(self.folder / f"{name}.pcap") for name in ("serving", "asking"))
        server = self.serve("--pcap", serving.path, "--idle", "0.3", "--stop-after", "1")
        child = self.begin("ask", "--pcap", asking.path, stdin=None)
        child.write(b"hello\ncreate 46 0 2 0 0 15\nconnect\n")
        child.wait_for("report connected", child.out)
        time.sleep(1)
        child.write(b"store " + b" ".join([b"41" * 500] * 50) + b"\nclose\n")
        child.end_input()
        expect_equal((child.finish(), server.finish()), (0, 0), "the exit statuses")
        kinds = readings.compare(serving)
        expect_equal(kinds, readings.compare(asking), "the kinds of frames of both sides")
        wanted = {"hello", Kind.CONNECT, Kind.CONNECT_ACK, Kind.CONFIRM, Kind.ONLY, Kind.DATA_ACK, Kind.LINK_SERVICE, Kind.OTHER_ACK,
                  Kind.DISCONNECT, Kind.DISCONNECT_CONFIRM}
        expect(wanted <= kinds, f"there are only {kinds}")


class FaultTest(NetworkCase):
    def test_ends_and_files(self):
        """Live ends that die, files that aren't any, requests that aren't any, and faults of the machine."""
        server, child = self.serve(*SETTINGS), self.ask(*SETTINGS, stdin=None)
        child.write(b"hello\n")
        child.wait_for("report ready", child.out)
        os.kill(child_of(server.process.pid), signal.SIGKILL)
        expect_equal((server.finish(), child.finish()), (3, 1), "the exit statuses where a live end was killed")
        expect("ended with status -9" in server.told(), f"it says {server.told()}")
        expect("reason 9 (aborted)" in child.told(), f"it says {child.told()}")
        bad = {"file 46 seq variable 0": "line 2: refused bad-line", "  1 41": "line 2: refused 4032 0",
               "resend": "line 2: not a line of files", "file 46 seq fixed 0 0": "line 2: refused 4000 11",
               "file 46 seq fixed 4 0 kept=0202020403": "line 2: refused bad-line"}
        for line, text in bad.items():
            child = self.bridge("serve", "--files", self.file("bad", ["# a comment", line]))
            expect_equal(child.finish(), 1, f"the exit status where a line of files is {line}")
            expect(text in child.told(), f"it says {child.told()}")
        child = self.bridge("serve", "--save", "/nowhere/saved")
        expect_equal(child.finish(), 3, "the exit status where the files can't be saved")
        expect("/nowhere/saved: No such file" in child.told(), f"it says {child.told()}")
        server = self.serve(*SETTINGS)
        child = self.ask(*SETTINGS, "--go-on", stdin=b"close\nnothing\nhello\n# no request\n\nhello")
        expect_equal(child.finish(), 1, "the exit status after requests that aren't asked")
        answers = ["refused ask-phase", "refused bad-line", "report ready 8192", "refused ask-phase"]
        expect_equal(child.reports(), answers, "the answers to requests that aren't asked")
        self.stop(server)

    def test_faults_and_words(self):
        """Faults of the machine have their texts and exit status 3, wrong words 2."""
        namespace, serving = NETWORK.names[SERVING], NETWORK.interfaces[SERVING]

        def drop():
            LIBC.prctl(PR_CAPBSET_DROP, CAP_NET_RAW, 0, 0, 0)

        def run(*words, **more):
            child = self.start([sys.executable, BRIDGE, *words], namespace=namespace, **more)
            return child.finish(), child.told()

        daplive, node = ["--daplive", PROGRAM], ["--interface", serving, "--node", SERVING, "--as", "root"]
        faults = {
            "No such device": run("serve", "--interface", "nothing", "--node", SERVING),
            "ip link set serving address aa:00:04:00:05:04": run("serve", "--interface", serving, "--node", "1.5"),
            "is no Ethernet": run("serve", "--interface", "lo", "--node", SERVING),
            "can't be started: No such file": run("serve", *node, "--daplive", "/nowhere/daplive"),
            "ended with status": run("serve", *node, "--daplive", "/bin/true"),
            "answers what no live end does": run("serve", *node, "--daplive", self.impostor()),
            "no permission for a raw socket": run("serve", *node, preexec_fn=drop),
        }
        ip("-n", namespace, "link", "set", serving, "down")
        faults["interface serving: Network is down"] = run("serve", *node, *daplive)
        ip("-n", namespace, "link", "set", serving, "mtu", "1000", "up")
        faults["ask for a --segment of 435 bytes less"] = run("serve", *node, *daplive, "--segment", "1400")
        ip("-n", namespace, "link", "set", serving, "mtu", "1500")
        for text, (status, told) in faults.items():
            expect_equal(status, 3, f"the exit status of: {text} ({told})")
            expect(text in told and told.count("\n") == 1, f"instead of {text}: {told}")
        wrong = [[], ["serve"], ["serve", *node, "--segment", "0"], ["serve", *node, "--resend", "nan"],
                 ["serve", "--interface", serving, "--node", "64.1"], ["ask", *node], ["serve", *node, "--user", "X"],
                 ["ask", *node, "--to", "1.9", "--user", 40 * "X"],
                 ["ask", *node, "--to", "1.9", "--password-file", "/nowhere"],
                 ["ask", *node, "--to", "1.9", "--password", "X", "--password-env", "HOME"],
                 ["ask", *node, "--to", "1.9", "--password-env", "NO_SUCH_VARIABLE"],
                 ["serve", *node, "--segment", "63"],
                 ["ask", *node, "--to", SERVING]]
        for words in wrong:
            status, told = run(*words)
            expect_equal(status, 2, f"the exit status of the words {words}")
            expect("Traceback" not in told, told)

    def impostor(self):
        """A program that answers something else."""
        return self.script("impostor", "import sys\nprint('waits for nobody', flush=True)\nsys.stdin.read()\n")

    def test_bad_frames_over_the_wire(self):
        """Bad frames over the wire, with a link open; it goes on as before."""
        chance = random.Random(SEED)
        server, station = self.serve("--resend", "0.2", "--tries", "200"), self.station()
        station.connect(0x0777)
        patterns = [packet for packet, _ in packets()]
        for _ in range(3000):
            frame = good_frame(chance.choice(patterns))
            frame = altered(chance, frame)[:1514].ljust(14, b"\0")
            with contextlib.suppress(OSError):
                station.send_frame(frame)
        station.hear_all()
        station.say_hello()
        expect_equal(station.hear_segments(1), OWN_CONFIGURATION, "the answer after bad frames")
        station.disconnect()
        self.stop(server)
        expect("Traceback" not in server.told(), server.told())
