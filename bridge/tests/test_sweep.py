"""A quick sweep of attacks on a serving bridge: altered frames, limits of memory, kills at any time."""
import contextlib
import os
import random
import signal
import time

from decnet import nsp
from decnet.journal import Parsed
from decnet.kept import KeptFault, read_lines
from decnet.users import make_hash
from tests.datagrams import UdpCase
from tests.pairs import HASTE, PairCase
from tests.patterns import altered, good_frame, packets
from tests.station import SERVING
from tests.support import PROGRAM, SEED, child_of, need_live_end, sweep_count

FRAMES, ROUND = sweep_count(5000, 20_000), 1000
LIMITS = range(3_000, 9_000, 300)  # kB of memory that a live end may have
KILLS = 30
GOOD = b"hello\nopen 4b455054 2\nconnect\nfetch\nclose\n"


class SweepTest(PairCase):
    def kept(self, count):
        lines = ["file 4b455054 seq variable 0 0", *(f"  {number} {'41' * 100}" for number in range(1, count + 1))]
        return self.file("kept", lines), lines

    def test_altered_frames_with_a_good_client_after_each_thousand(self):
        chance, (path, lines) = random.Random(SEED), self.kept(20)
        server, raw = self.serve("--resend", "0.2", "--tries", "5", "--idle", "1", "--files", path, "--save", path)
        patterns = [packet for packet, _ in packets()]
        station = self.station(raw)
        fetched = "report batch 20 complete " + " ".join(f"{number}:{'41' * 100}" for number in range(1, 21))
        for count in range(1, FRAMES + 1):
            frame = good_frame(chance.choice(patterns))
            station.send_frame(altered(chance, frame)[:1514].ljust(14, b"\0") if chance.random() < 0.9 else frame)
            if count % 20 == 0:
                station.hear_all()
            if count % ROUND == 0:
                time.sleep(7)  # longer than a link that was opened meanwhile lasts
                child = self.ask(raw, GOOD)
                self.assertEqual((child.finish(), child.reports()[3]), (0, fetched), child.told() + server.told())
        self.stop(server)
        self.assertEqual([line for _, line in read_lines(path)], lines)

    def test_limits_of_memory_never_destroy_the_file(self):
        need_live_end()
        statuses = set()
        for limit in LIMITS:
            path, lines = self.kept(8000)
            program = self.folder / f"daplive{limit}"
            program.write_text(f"#!/bin/sh\nulimit -v {limit}\nexec {PROGRAM} \"$@\"\n")
            program.chmod(0o755)
            server, raw = self.serve(*HASTE, "--files", path, "--save", path, program=program, is_ready=False)
            deadline = time.monotonic() + 20
            while "takes links" not in server.told() and server.process.poll() is None and time.monotonic() < deadline:
                time.sleep(0.02)
            reports = []
            if server.process.poll() is None:
                reports = self.ask(raw, b"hello\ncreate 4e4557 0 2 0 0 15\nconnect\nput 42\nclose\n").reports()
            status = server.finish(signal.SIGTERM) if server.process.poll() is None else server.process.returncode
            found = [line for _, line in read_lines(path)]
            new = [*lines, "file 4e4557 seq variable 0 0", "  1 42"]
            with self.subTest(limit=limit, told=server.told()):
                self.assertIn(found, (lines, [*lines, new[-2]], new))
                if "report closed" in reports:
                    self.assertEqual(found, new)
                if status == 0:
                    self.assertNotIn("aren't saved", server.told())
                self.assertNotIn("Traceback", server.told())
            statuses.add(status)
        self.assertIn(0, statuses, "no limit was large enough")
        self.assertTrue(statuses - {0}, "no limit was small enough")

    def test_kills_at_any_time_leave_a_whole_file(self):
        """The bridge, or its live end, is killed while files are stored: all that was reported as closed is there."""
        chance, (path, lines) = random.Random(SEED), self.kept(200)
        closed, killed = [], 0
        for turn in range(KILLS):
            server, raw = self.serve(*HASTE, "--files", path, "--save", path)
            names = [f"{turn:02x}{one:02x}" for one in range(20)]
            store = "create {} 0 2 0 0 15\nconnect\nstore 41 42 43\nclose\n"
            requests = "hello\n" + "".join(store.format(name) for name in names)
            child = self.bridge("ask", raw, "--to", SERVING, *HASTE, stdin=requests.encode())
            child.wait_for("report ready", child.out)
            time.sleep(chance.random() * 0.5)
            victim = chance.choice([server.process.pid, child_of(server.process.pid)])
            os.kill(victim, signal.SIGKILL)
            killed += server.finish() != 0
            child.end()
            reported = child.reports().count("report closed")
            closed += names[:reported]
            found = [line for _, line in read_lines(path)]
            self.assertEqual(found[:len(lines)], lines)
            for name in closed:
                at = found.index(f"file {name} seq variable 0 0")
                self.assertEqual(found[at + 1:at + 4], ["  1 41", "  2 42", "  3 43"], f"turn {turn}")
        self.assertEqual(killed, KILLS)
        self.assertGreater(len(closed), KILLS)
        self.assertRaises(KeptFault, list, read_lines(self.folder / "nowhere"))


class DatagramTest(UdpCase):
    """Altered frames and any bytes over UDP, also connect messages of users; a good client is served afterwards."""

    ROUND = 2000

    def datagram(self, chance, patterns):
        """An altered frame, or, of each eleven one, any bytes."""
        if chance.random() < 1 / 11:
            return chance.randbytes(chance.randrange(2000))
        packet = chance.choice(patterns)
        if packet[0] in nsp.CONNECTS:
            packet = altered(chance, nsp.connect(chance.randrange(1, 9), 512, nsp.session(b"SMITH", b"SECRET")))
        return altered(chance, good_frame(packet))[:1514]

    def test_a_good_client_is_served_after_altered_datagrams(self):
        chance, path = random.Random(SEED), self.folder / "store"
        users = self.file("users", [f"SMITH {make_hash(b'SECRET')}"])
        server = self.serve("--store", path, "--users", users, "--idle", "1", "--tries", "5")
        patterns, sent = [packet for packet, _ in packets()], 0
        for _ in range(sweep_count(1, 11)):
            station = self.station()
            for _ in range(self.ROUND):
                with contextlib.suppress(OSError):
                    station.send_frame(self.datagram(chance, patterns))
                sent += 1
                if sent % 50 == 0:
                    time.sleep(0.002)
            station.close()
            time.sleep(5)  # longer than a link that was opened meanwhile lasts
            name = f"{sent:06}"
            requests = f"hello\ncreate {name} 0 2 0 0 15\nconnect\nput 41\nclose\n".encode()
            child = self.ask(requests, "--user", "SMITH", "--password", "SECRET", "--tries", "60")
            self.assertEqual((child.finish(), child.reports()[-1:]), (0, ["report closed"]), child.told() + server.told())
        self.stop(server)
        self.assertEqual(len([line for line in Parsed(path, path.read_bytes()).lines if line.startswith("file ")]), sweep_count(1, 11))
        print(f"{sent} altered frames and random bytes over UDP; a good client was served after each {self.ROUND}")
