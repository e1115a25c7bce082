"""Bridges before live ends that work long, hang, die or speak nonsense, over pairs of sockets."""
import os
import signal
import time

from decnet import nsp
from decnet.nsp import Kind, Reason
from tests.pairs import HASTE, PairCase
from tests.station import ASKING, CONFIGURATION, SERVING, segment
from tests.support import APART, PROMPT, child_of, until

# answers the connection of a link, and holds the bridge up at each packet
SLOW = "line.startswith('>') and time.sleep({0})\nreturn ['accepted'] if line.startswith('>') else []"
SAVED = "file 46 seq variable 0 0\n  1 41\n"


class OneLinkCase(PairCase):
    """The stand-ins answer as a live end of one link does, whose lines don't name it."""

    def serve(self, *words, **more):
        return super().serve("--links", "1", *words, **more)


class LongWorkTest(OneLinkCase):
    def test_a_live_end_that_works_long_makes_nobody_deaf(self):
        """The bridge goes on to refuse, to acknowledge and to say hello, and takes up the link again."""
        child, raw = self.serve(*HASTE, program=self.stand_in(SLOW.format(12)))
        station = self.station(raw)
        station.connect(0x0111)
        station.say_hello()
        begun = time.monotonic()
        station.request(1)
        other = self.station(raw, "1.4")
        self.assertEqual(other.refused(nsp.connect(9, 512, nsp.session())), (Kind.DISCONNECT, Reason.BUSY))
        self.assertLess(time.monotonic() - begun, PROMPT)
        station.disconnect()
        self.assertLess(time.monotonic() - begun, PROMPT)
        station.connect(0x0112)
        station.disconnect()
        self.stop(child)

    def test_a_signal_is_seen_at_once(self):
        child, raw = self.serve(*HASTE, program=self.stand_in(SLOW.format(1000)))
        station = self.station(raw)
        station.connect(0x0111)
        station.say_hello()
        time.sleep(0.2)
        begun = time.monotonic()
        child.process.send_signal(signal.SIGTERM)
        station.hear_kind(Kind.DISCONNECT)
        self.assertLess(time.monotonic() - begun, PROMPT)
        time.sleep(APART)
        child.process.send_signal(signal.SIGTERM)
        self.assertEqual(child.finish(), 0)
        self.assertLess(time.monotonic() - begun, APART + 2 * PROMPT)

    def test_a_third_signal_waits_for_nothing_and_says_that_files_are_not_saved(self):
        child, raw = self.serve(*HASTE, "--save", self.folder / "kept", program=self.stand_in(SLOW.format(1000)))
        station = self.station(raw)
        station.connect(0x0111)
        station.say(segment(station.remote, station.local, 1, b"\x08\0\0A"))
        time.sleep(0.2)
        for _ in range(3):
            time.sleep(APART)
            child.process.send_signal(signal.SIGTERM)
        begun = time.monotonic()
        self.assertEqual(child.finish(), 3)
        self.assertLess(time.monotonic() - begun, PROMPT)

    def test_packets_that_a_live_end_does_not_take_have_a_bound(self):
        child, raw = self.serve(*HASTE, program=self.stand_in(SLOW.format(0.5)))
        station = self.station(raw)
        station.connect(0x0111)
        for number in range(1, 400):
            station.say(segment(station.remote, station.local, number, CONFIGURATION))
        time.sleep(0.3)
        begun = time.monotonic()
        self.assertEqual(child.finish(signal.SIGKILL), -signal.SIGKILL)
        self.assertLess(time.monotonic() - begun, PROMPT)

    def test_saving_does_not_make_the_bridge_deaf(self):
        slow = ("if line == 'files':\n    print('file 46 seq variable 0 0', flush=True)\n    time.sleep(12)\n"
                "return ['accepted'] if line[0] == '>' else []")
        path = self.folder / "kept"
        child, raw = self.serve(*HASTE, "--save", path, program=self.stand_in(slow))
        station = self.station(raw)
        station.connect(0x0111)
        station.say(segment(station.remote, station.local, 1, b"\x08\0\0A"))
        station.disconnect()
        begun = time.monotonic()
        station.say(nsp.connect(0x0112, 512, nsp.session()))
        station.hear_kind(Kind.CONNECT_ACK)
        self.assertLess(time.monotonic() - begun, PROMPT)
        station.remote = station.hear_kind(Kind.CONFIRM).source
        self.assertIn("# end of files: 1 files, 1 lines", until(path.read_text, "a save"))
        self.assertGreater(time.monotonic() - begun, PROMPT)
        self.stop(child)


class ChangeTest(OneLinkCase):
    """What is written, and when, before a live end that counts how often it is asked for its files."""

    def setUp(self):
        super().setUp()
        self.listed, self.path = self.folder / "listed", self.folder / "kept"
        answer = (f"if line == 'files':\n    open({str(self.listed)!r}, 'a').write('x')\n"
                  f"    return {SAVED.splitlines()!r}\n"
                  "return ['accepted'] if line[0] == '>' else []")
        self.child, self.raw = self.serve(*HASTE, "--save", self.path, program=self.stand_in(answer))
        self.near = self.station(self.raw)

    def count(self):
        return len(self.listed.read_text()) if self.listed.exists() else 0

    def talk(self, local, *bodies):
        self.near.connect(local)
        for number, body in enumerate(bodies, 1):
            self.near.say(segment(self.near.remote, self.near.local, number, body))
        self.near.disconnect()

    def test_a_link_that_changed_nothing_writes_nothing(self):
        for local in range(1, 20):
            self.talk(local, CONFIGURATION, *map(bytes.fromhex, ("0300010001460200", "040002", "070001")))
        self.near.refused(nsp.connect(99, 512, b"\0\x12\0\0\0"))
        self.stop(self.child)
        self.assertEqual((self.count(), self.path.stat().st_size), (0, 0))

    def test_a_link_that_may_have_changed_something_is_saved_once(self):
        self.talk(1, CONFIGURATION, bytes.fromhex("0300020001460200"))
        until(lambda: "end of files" in self.path.read_text(), "a save")
        before = self.path.stat().st_ino
        self.talk(2, CONFIGURATION)
        self.stop(self.child)
        self.assertEqual((self.count(), self.path.stat().st_ino), (1, before))


class RefusalTest(OneLinkCase):
    def test_a_refusal_of_memory_is_never_saved_and_ends_in_status_3(self):
        path = self.file("kept", SAVED.splitlines())
        answer = "return ['refused no-memory'] if line == 'files' else ['accepted'] if line[0] == '>' else []"
        child, raw = self.serve(*HASTE, "--files", path, "--save", path, program=self.stand_in(answer))
        station = self.station(raw)
        station.connect(1)
        station.say(segment(station.remote, station.local, 1, b"\x08\0\0A"))
        station.disconnect()
        child.wait_for("the live end answers 'refused no-memory' in place of the files: the files aren't saved")
        self.stop(child, 3)
        self.assertEqual(path.read_text(), SAVED)
        self.assertEqual([one.name for one in self.folder.glob("kept*")], ["kept"])

    def test_files_that_are_not_saved_are_not_said_to_be(self):
        """The answer that a file is closed doesn't go out where the disk is full: the link is aborted."""
        path = self.folder / "kept"
        closed = nsp.words(Kind.ONLY, 0x0111, 0, 0x8001, 1) + b"\7\0\2"
        answer = (f"if line[0] != '>': return ['refused no-memory'] if line == 'files' else []\n"
                  f"packet = bytearray.fromhex({closed.hex()!r})\n"
                  "packet[3:5] = bytes.fromhex(line[4:8])\nreturn ['accepted', '< ' + packet.hex()]")
        child, raw = self.serve(*HASTE, "--save", path, program=self.stand_in(answer))
        station = self.station(raw)
        station.connect(0x0111)
        station.say(segment(station.remote, station.local, 1, b"\x07\2\1\1\x08\0\0A"))
        self.assertEqual(station.hear_kind(Kind.DATA_ACK).acks[0][1], 1)
        self.assertEqual(station.hear_kind(Kind.DISCONNECT).reason, Reason.ABORTED)
        station.say(nsp.disconnect_confirm(station.remote, station.local, Reason.COMPLETE))
        self.stop(child, 3)
        self.assertIn("the files aren't saved", child.told())

    def test_nonsense_packets_have_no_traceback(self):
        for text in ("zz", "00", "60" * 70_000, "60" + "00" * 1500, "24"):
            answer = f"return ['< {text}'] if line[0] == '>' else []"
            child, raw = self.serve(*HASTE, program=self.stand_in(answer))
            station = self.station(raw)
            station.connect(1)
            station.say_hello()
            self.assertEqual(child.finish(), 3)
            self.assertIn("answers what no live end does", child.told())
            self.assertNotIn("Traceback", child.told())

    def test_an_answer_out_of_sequence_says_what_came_and_what_was_due(self):
        """An Acknowledge comes where a Configuration is due; the live end is the real one."""
        near, far = self.ends()
        child = self.bridge("ask", far, "--to", SERVING, *HASTE, stdin=b"hello\n")
        station = self.station(near, SERVING, ASKING)
        connect = station.hear_kind(Kind.CONNECT)
        station.say(nsp.confirm(connect.source, 7, 512))
        station.remote, station.local = connect.source, 7
        station.hear_kind(Kind.ONLY)
        station.say(segment(station.remote, station.local, 1, bytes.fromhex("060200")))
        self.assertEqual(station.hear_kind(Kind.DISCONNECT).reason, Reason.ABORTED)
        station.say(nsp.disconnect_confirm(station.remote, station.local, Reason.COMPLETE))
        self.assertEqual(child.finish(), 1)
        self.assertIn("unexpected-answer: Acknowledge came, and Configuration was due after 'hello'", child.told())

    def test_a_request_that_is_answered_by_nothing(self):
        near, far = self.ends()
        child = self.bridge("ask", far, "--to", SERVING, *HASTE, program=self.stand_in("return []"), stdin=b"hello\n")
        station = self.station(near, SERVING, ASKING)
        connect = station.hear_kind(Kind.CONNECT)
        station.say(nsp.confirm(connect.source, 7, 512))
        self.assertEqual(child.finish(), 3)
        self.assertNotIn("Traceback", child.told())


class StopTest(OneLinkCase):
    def test_a_signal_while_the_live_end_is_built_ends_the_build(self):
        pid = self.folder / "pid"
        program = self.script("builds", "import os, signal, subprocess\n"
                              "signal.pthread_sigmask(signal.SIG_SETMASK, ())\n"
                              f"open({str(pid)!r}, 'w').write(str(os.getpid()))\nsubprocess.run(['sleep', '1000'])\n")
        for number in (signal.SIGTERM, signal.SIGINT, signal.SIGHUP):
            child, _ = self.serve(program=program, is_ready=False)
            until(lambda: pid.exists() and pid.read_text(), "a build")
            begun = time.monotonic()
            self.assertEqual(child.finish(number), 1)
            self.assertLess(time.monotonic() - begun, PROMPT)
            self.assertIn("stopped by a signal", child.told())
            self.assertRaises(OSError, os.kill, int(pid.read_text()), 0)
            pid.unlink()

    def test_signals_to_all_processes_save(self):
        """As systemd and a terminal send them: to the bridge and to its live end."""
        path = self.file("kept", SAVED.splitlines())
        for number in (signal.SIGTERM, signal.SIGINT, signal.SIGHUP):
            answer = f"return {SAVED.splitlines()!r} if line == 'files' else ['accepted'] if line[0] == '>' else []"
            child, raw = self.serve(*HASTE, "--files", path, "--save", path, program=self.stand_in(answer))
            station = self.station(raw)
            station.connect(1)
            station.say(segment(station.remote, station.local, 1, b"\x08\0\0A"))
            time.sleep(0.1)
            end = child_of(child.process.pid)
            os.kill(end, number)
            child.process.send_signal(number)
            station.hear_kind(Kind.DISCONNECT)
            station.say(nsp.disconnect_confirm(station.remote, station.local, Reason.COMPLETE))
            self.assertEqual(child.finish(), 0, child.told())
            self.assertIn("# end of files", path.read_text())

    def test_two_signals_close_together_are_one(self):
        """As `timeout` sends them."""
        answer = f"if line == 'files': time.sleep(0.5)\nreturn {SAVED.splitlines()!r} if line == 'files' else []"
        path, other = self.file("kept", SAVED.splitlines()), self.folder / "other"
        child, _ = self.serve("--files", path, "--save", other, program=self.stand_in(answer))
        for _ in range(3):
            child.process.send_signal(signal.SIGTERM)
            time.sleep(0.05)
        self.assertEqual(child.finish(), 0, child.told())
        self.assertIn("# end of files", other.read_text())

    def test_a_signal_while_files_are_loaded(self):
        path = self.file("kept", SAVED.splitlines())
        begun = self.folder / "begun"
        answer = f"if line != 'new':\n    open({str(begun)!r}, 'w').close()\n    time.sleep(1000)"
        child, _ = self.serve("--files", path, "--save", path, program=self.stand_in(answer), is_ready=False)
        until(begun.exists, "a line of files")
        begun = time.monotonic()
        self.assertEqual(child.finish(signal.SIGTERM), 1)
        self.assertLess(time.monotonic() - begun, 2 * PROMPT)
        self.assertIn("stopped by a signal", child.told())
        self.assertEqual(path.read_text(), SAVED)

    def test_a_network_that_is_gone_is_status_3_and_what_changed_is_saved(self):
        path = self.folder / "kept"
        answer = f"return {SAVED.splitlines()!r} if line == 'files' else ['accepted'] if line[0] == '>' else []"
        child, raw = self.serve(*HASTE, "--save", path, program=self.stand_in(answer))
        station = self.station(raw)
        station.connect(1)
        station.say(segment(station.remote, station.local, 1, b"\x08\0\0A"))
        time.sleep(0.2)
        raw.close()
        self.assertEqual(child.finish(), 3)
        self.assertIn("# end of files: 1 files, 2 lines", path.read_text())

    def test_hang_up_opens_the_log_again_where_it_is_a_file(self):
        log = self.folder / "log"
        child, _ = self.serve("--log", log, program=self.stand_in("return []"), is_ready=False)
        until(lambda: log.exists() and "takes links" in log.read_text(), "a log")
        log.rename(self.folder / "log.1")
        child.process.send_signal(signal.SIGHUP)
        until(log.exists, "a new log")
        self.assertEqual(child.finish(signal.SIGTERM), 0)
        self.assertEqual(child.told(), "")

    def test_a_standard_error_that_nobody_reads_hangs_nothing(self):
        reading, writing = os.pipe()
        near, far = self.ends()
        child = self.bridge("serve", far, program=self.stand_in("return []"), stderr=writing)
        station = self.station(near)
        self.assertTrue(os.read(reading, 10))
        for number in range(1, 4000):
            station.say(nsp.connect(number, 512, b"\0\x12\0\0\0"))
        station.hear_all()
        begun = time.monotonic()
        self.assertEqual(child.finish(signal.SIGTERM), 0)
        self.assertLess(time.monotonic() - begun, PROMPT)
        for file in (reading, writing):
            os.close(file)


class HoldTest(OneLinkCase):
    """How long a peer can hold the only link."""

    def hold(self, *words):
        child, raw = self.serve("--resend", "0.2", "--tries", "100", *words, program=self.stand_in(SLOW.format(0)))
        return child, self.station(raw), self.station(raw, "1.4")

    def free_after(self, station, limit):
        """Seconds until a connect initiate of another node is taken."""
        begun = time.monotonic()
        connect = nsp.connect(9, 512, nsp.session())
        while True:
            station.say(connect)
            answer = station.hear(1)
            if answer and answer.kind is Kind.CONNECT_ACK:
                return time.monotonic() - begun
            self.assertLess(time.monotonic() - begun, limit + 10)
            time.sleep(0.1)

    def test_a_half_open_link_is_given_up_after_5_seconds(self):
        child, station, other = self.hold()
        station.say(nsp.connect(0x0111, 512, nsp.session()))
        station.hear_kind(Kind.CONFIRM)
        self.assertLess(self.free_after(other, 5), 9)
        self.assertIn("no answer from node 1.3", child.told())

    def test_a_silent_link_is_given_up_after_idle_where_another_node_waits(self):
        child, station, other = self.hold("--idle", "6")
        station.connect(0x0111)
        self.assertLess(self.free_after(other, 6), 10)
        self.assertIn("no answer from node 1.3", child.told())

    def test_a_silent_link_stays_where_nobody_waits(self):
        child, station, _ = self.hold("--idle", "1")
        station.connect(0x0111)
        time.sleep(3)
        self.assertNotIn("no answer", child.told())

    def test_a_link_that_only_answers_probes_is_closed_after_a_limit(self):
        child, station, _ = self.hold("--idle", "0.3", "--unused", "2")
        station.connect(0x0111)
        begun = time.monotonic()
        while True:
            packet = station.hear(5)
            if packet.kind is Kind.DISCONNECT:
                break
            if packet.kind is Kind.LINK_SERVICE:
                station.say(nsp.other_ack(station.remote, station.local, packet.number))
        self.assertGreater(time.monotonic() - begun, 1.5)
        self.assertEqual(packet.reason, Reason.TIMED_OUT)
        child.wait_for("no request within 2 seconds")

    def test_an_end_that_acknowledges_nothing_is_told_once_and_given_up(self):
        answer = ("packet = '60' + line[8:12] + line[4:8] + '0180010000'\n"
                  "return ['accepted', '< ' + packet] if line[:4] == '> 60' else ['< ' + '60' + '00' * 8] if line == 'resend' else []")
        script = self.stand_in(answer)
        script.write_text(script.read_text().replace("print('waits 0', flush=True)", "print('waits 3', flush=True)"))
        child, raw = self.serve("--resend", "0.2", "--tries", "8", program=script)
        station = self.station(raw)
        station.connect(0x0111)
        station.say_hello()
        child.wait_for("no answer from node 1.3; 3 segments weren't acknowledged")
        self.assertEqual(child.told().count("node 1.3 acknowledges nothing; 3 segments wait"), 1)

    def test_a_wanted_link_that_answers_stays(self):
        child, station, other = self.hold("--idle", "1")
        station.connect(0x0111)
        end = time.monotonic() + 8
        while time.monotonic() < end:
            other.say(nsp.connect(9, 512, nsp.session()))
            packet = station.hear(0.2)
            if packet and packet.kind is Kind.LINK_SERVICE:
                station.say(nsp.other_ack(station.remote, station.local, packet.number))
        self.assertNotIn("no answer", child.told())
        station.disconnect()

    def test_segments_below_64_bytes_are_refused(self):
        child, station, _ = self.hold()
        for size in (0, 1, 63):
            refused = station.refused(nsp.connect(9, size, nsp.session()))
            self.assertEqual(refused, (Kind.DISCONNECT_CONFIRM, Reason.NO_RESOURCES))
        station.connect(9, 64)
        station.disconnect()
        self.stop(child)

    def test_a_disconnect_confirm_of_a_stranger_closes_nothing(self):
        child, station, _ = self.hold()
        station.connect(0x0111)
        for source in (0, 0x0112, 0xFFFF):
            for reason in (Reason.NO_LINK, Reason.COMPLETE, Reason.NO_RESOURCES):
                station.say(nsp.disconnect_confirm(station.remote, source, reason))
        station.request(1)
        self.assertNotIn("closed", child.told())
        station.disconnect()

    def test_a_client_that_comes_again_with_its_old_address_is_probed_at_once(self):
        """It was switched off: it has no such link, says so, and its next connect initiate is taken."""
        child, station, _ = self.hold()
        station.connect(0x0111)
        connect = nsp.connect(0x0111, 512, nsp.session())
        station.hear_all()
        station.say(connect)
        probe = station.hear_kind(Kind.LINK_SERVICE)
        station.say(nsp.disconnect_confirm(probe.source, probe.destination, Reason.NO_LINK))
        station.hear_all()
        begun = time.monotonic()
        station.connect(0x0111)
        self.assertLess(time.monotonic() - begun, PROMPT)
        station.disconnect()
        self.stop(child)

    def test_link_addresses_cannot_be_guessed(self):
        child, station, _ = self.hold()
        found = []
        for local in range(1, 12):
            station.connect(local)
            found.append(station.remote)
            station.disconnect()
        self.assertEqual(len(set(found)), len(found))
        steps = {second - first for first, second in zip(found, found[1:])}
        self.assertGreater(len(steps), 5)
        self.stop(child)

    def test_a_held_segment_does_not_hold_its_acknowledgement(self):
        answer = ("packet = '60' + line[8:12] + line[4:8] + '0180010000'\n"
                  "return ['accepted', '< ' + packet] if line[:4] == '> 60' else []")
        child, raw = self.serve(*HASTE, program=self.stand_in(answer))
        station = self.station(raw)
        station.connect(0x0111, control=nsp.FlowControl.SEGMENTS)
        station.say_hello()
        self.assertEqual(station.hear_kind(Kind.DATA_ACK).acks[0][1], 1)
        station.hear_nothing(nsp.SEGMENTS, "before it was asked for")
        station.request(1, count=1)
        station.hear_kind_of(nsp.SEGMENTS, 1)
        station.disconnect()

