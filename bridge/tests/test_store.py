"""Bridges that keep a store: what was reported is there, whatever became of the bridge, and an open link goes on."""
import os
import random
import resource
import shutil
import signal
import subprocess
import time

from decnet import nsp
from decnet.journal import Parsed
from decnet.nsp import FlowControl, Kind, Modifier, Reason
from tests.datagrams import UdpCase
from tests.patterns import altered
from tests.station import CONFIGURATION, OWN_CONFIGURATION, segment
from tests.support import APART, PROGRAM, SEED, need_live_end, sweep_count, until

HASTE = ["--resend", "0.1", "--tries", "100"]
STORED = ["file 46 seq variable 0 0", "  1 41"]


def listed(program, lines):
    """The files of a live end that is told lines of a store, with the words that these name."""
    text = "".join(f"{line}\n" for line in [*lines, "files"])
    run = subprocess.run([program, *lines[0].split(" ")[2:]], input=text.encode(), capture_output=True, check=True, timeout=600)
    found = run.stdout.decode().splitlines()[:-1]
    at = len(found)
    while at and found[at - 1].startswith(("file ", "  ")):
        at -= 1
    return found[at:]


class StoreCase(UdpCase):
    def setUp(self):
        super().setUp()
        need_live_end()
        self.path = self.folder / "store"

    def parsed(self):
        return Parsed(self.path, self.path.read_bytes())

    def kept(self):
        """The files of a live end that is told the store."""
        return listed(PROGRAM, self.parsed().lines)

    def store(self, *words, **more):
        return self.serve("--store", self.path, *words, **more)

    def asking(self, *words):
        """A bridge that asks what it is told later."""
        return self.begin("ask", *HASTE, *words, stdin=None)

    def say(self, child, request, report):
        count = len(child.reports())
        child.write(f"{request}\n".encode())
        until(lambda: len(child.reports()) > count or child.process.poll() is not None, f"a report of {request}")
        self.assertEqual(child.reports()[count:], [report], child.told())


class StartTest(StoreCase):
    def test_files_of_a_file_begin_it_and_are_not_added_again(self):
        files = self.file("files", STORED)
        child = self.store("--files", files)
        self.assertIn("a new store", child.told())
        self.stop(child)
        self.assertEqual(self.parsed().lines[1:], STORED)
        child = self.store("--files", files, is_ready=False)
        self.assertEqual(child.finish(), 1)
        self.assertIn("it has files, and --files would add to them", child.told())

    def test_it_is_an_input_of_a_live_end(self):
        child = self.store()
        self.assertEqual(self.ask(b"hello\ncreate 46 0 2 0 0 15\nconnect\nput 41\nclose\n").finish(), 0)
        self.assertEqual(child.finish(signal.SIGKILL), -signal.SIGKILL)
        words = self.parsed().lines[0].split(" ")[2:]
        run = subprocess.run([PROGRAM, *words], input=self.path.read_bytes() + b"files\n", capture_output=True, check=True)
        self.assertEqual(run.stdout.decode().splitlines()[-3:-1], STORED)

    def test_damage_stops_the_start(self):
        self.stop(self.store("--files", self.file("files", STORED)))
        data = self.path.read_bytes()
        for at, text in ((90, "it is no file that --store began, or it is damaged"), (3, "it is damaged")):
            bad = bytearray(data)
            bad[at] ^= 1
            self.path.write_bytes(bad)
            child = self.store(is_ready=False)
            self.assertEqual(child.finish(), 1)
            self.assertIn(text, child.told())
            self.assertEqual(self.path.read_bytes(), bytes(bad))

    def test_another_program_takes_the_files_and_not_the_packets(self):
        other = self.folder / "daplive"
        shutil.copy(PROGRAM, other)
        with open(other, "ab") as file:
            file.write(b"\0")
        child = self.store()
        asking = self.asking()
        self.say(asking, "hello", "report ready 8192")
        child.finish(signal.SIGKILL)
        for more in ({"program": other}, {}):
            words = [] if more else ["--window", "9"]
            child = self.store(*words, is_ready=False, **more)
            self.assertEqual(child.finish(), 1)
            self.assertIn("it has packets that another daplive was told", child.told())
        self.stop(self.store())
        self.stop(self.store("--window", "9", program=other))
        asking.end()

    def test_options_that_are_not_given_are_those_that_it_was_made_with(self):
        self.NAMES = ()
        made = ["--window", "9", "--buffer", "2048", "--waiting", "70000", "--names", "folded", "--links", "3"]
        child, asking = self.store(*made), self.asking()
        self.say(asking, "hello", "report ready 2048")
        child.finish(signal.SIGKILL)
        for words in (["--links", "2"], ["--buffer", "8192"], ["--names", "exact"], ["--window", "8"], ["--links", "1"]):
            child = self.store(*words, is_ready=False)
            self.assertEqual(child.finish(), 1, words)
            self.assertIn("it has packets that another daplive was told", child.told())
        for words in ([], ["--links", "3", "--buffer", "2048"], []):
            child = self.store(*words)
            child.wait_for("goes on as it was")
            self.assertIn(f"{self.path}: it has packets, and goes on with the options that it was made with: 'serve {' '.join(made)}'\n",
                          child.told())
            child.finish(signal.SIGKILL)
        child = self.store()
        self.say(asking, "create 46 0 2 0 0 15", "report opened 0 2 0 0")
        asking.end()
        self.stop(child)
        child = self.store("--buffer", "512")
        self.assertNotIn("made with", child.told())
        self.stop(child)
        self.assertEqual(self.parsed().lines[0].partition(" serve ")[2], "--buffer 512 --names folded --links 16")

    def test_a_store_of_one_link_goes_on_with_one(self):
        """As one that a bridge before --links began."""
        child, asking = self.store("--links", "1"), self.asking()
        self.say(asking, "hello", "report ready 8192")
        child.finish(signal.SIGKILL)
        child = self.store()
        child.wait_for("goes on as it was")
        self.say(asking, "create 46 0 2 0 0 15", "report opened 0 2 0 0")
        self.assertRegex(self.parsed().lines[0], r" serve --buffer 8192 --names exact$")
        asking.end()
        self.stop(child)

    def test_odd_stores_stop_the_start_without_a_traceback(self):
        """Altered ones, prefixes, other files and any bytes; what is taken is a prefix of what was there."""
        child = self.store("--files", self.file("files", STORED))
        self.assertEqual(self.ask(b"hello\nopen 46 3\nconnect\nput 42\nclose\n").finish(), 0)
        child.finish(signal.SIGKILL)
        chance, data, statuses = random.Random(SEED), self.path.read_bytes(), set()
        for number in range(sweep_count(6, 300)):
            bad = chance.choice([altered(chance, data), data[:chance.randrange(len(data))], chance.randbytes(200),
                                 data + chance.randbytes(chance.randrange(99))])
            self.path.write_bytes(bad)
            child = self.store(is_ready=False)
            until(lambda: "takes links" in child.told() or child.process.poll() is not None, "a start or an end")
            status = child.finish(signal.SIGTERM)
            statuses.add(status)
            with self.subTest(number=number, told=child.told()):
                self.assertNotIn("Traceback", child.told())
                self.assertIn(status, (0, 1))
                if status == 0 and bad:
                    self.assertIn(self.parsed().lines[1:], (STORED, [*STORED, "  2 42"]))
                elif status:
                    self.assertEqual(self.path.read_bytes(), bad)
        self.assertEqual(statuses, {0, 1})

    def test_a_store_that_was_removed_is_written_anew(self):
        child = self.store("--files", self.file("files", STORED))
        self.path.unlink()
        until(lambda: self.ask(b"hello\nopen 46 3\nconnect\nput 42\nclose\n").finish() == 0, "a link that is taken")
        child.finish(signal.SIGKILL)
        self.assertIn(f"{self.path}: somebody has removed it: nothing more is taken until the store can be written", child.told())
        self.assertIn(f"{self.path}: it is written anew", child.told())
        self.assertEqual(self.kept(), [*STORED, "  2 42"])

    def test_another_file_in_the_place_of_a_store_is_never_written_over(self):
        child = self.store("--files", self.file("files", STORED))
        self.path.unlink()
        self.path.write_text("precious")
        self.assertIn("reason 32", self.ask(b"hello\n").told())
        self.assertIn("somebody has put another file there, which is left as it is", child.told())
        self.stop(child, 3)
        self.assertEqual(self.path.read_text(), "precious")

    def test_a_last_line_that_has_changed_is_told(self):
        child = self.store("--files", self.file("files", STORED))
        self.assertEqual(self.ask(b"hello\nopen 46 3\nconnect\nput 42\nclose\n").finish(), 0)
        child.finish(signal.SIGKILL)
        data = bytearray(self.path.read_bytes())
        data[-20] ^= 1
        self.path.write_bytes(data)
        child = self.store()
        self.assertRegex(child.told(), r"store: \d+ bytes from byte \d+ on aren't taken: no good mark is after them\. They are kept as .*store.torn\n")
        torn = (self.folder / "store.torn").read_bytes()
        self.assertTrue(torn and data.endswith(torn))
        self.stop(child)

    def test_two_bridges_do_not_keep_one_store(self):
        first = self.store()
        self.near, self.far = self.far, self.near
        second = self.store(is_ready=False)
        self.assertEqual(second.finish(), 1)
        self.assertIn("another bridge keeps it", second.told())
        self.stop(first)

    def test_words_that_do_not_fit(self):
        for words in (["--store", self.path, "--save", self.path], ["--sync", "never"], ["--growth", "1048576"]):
            self.assertEqual(self.serve(*words, is_ready=False).finish(), 2)


class KilledTest(StoreCase):
    def test_a_link_goes_on_after_a_kill(self):
        """The other end sees a pause; its interrupt and link service messages are known too."""
        child, asking = self.store(), self.asking("--idle", "0.3")
        self.say(asking, "hello", "report ready 8192")
        self.say(asking, "create 46 0 2 0 0 15", "report opened 0 2 0 0")
        self.say(asking, "connect", "report connected")
        for number in range(1, 5):
            time.sleep(2 if number == 4 else 0.4)  # so that some probes were sent
            self.say(asking, f"put 4{number}", f"report done {number}")
            child.finish(signal.SIGKILL)
            child = self.store("--idle", "0.3", "--tries", "10")
            child.wait_for("goes on as it was")
        time.sleep(4)  # longer than a probe that is never acknowledged is tried
        self.say(asking, "close", "report closed")
        asking.end_input()
        self.assertEqual(asking.finish(), 0, asking.told())
        child.wait_for("closed by node 1.1")
        self.stop(child)
        self.assertEqual(self.parsed().lines[1:], [STORED[0], *(f"  {number} 4{number}" for number in range(1, 5))])

    def test_a_link_that_was_stopped_by_the_other_end_stays_so(self):
        child, station = self.store(), self.station()
        station.connect(0x0111)
        station.request(1, modifier=Modifier.STOP)
        child.finish(signal.SIGKILL)
        child = self.store()
        station.hear_kind(Kind.CONFIRM)
        station.acknowledge(0)
        station.say_hello()
        station.hear_nothing(nsp.SEGMENTS, "where nothing is wanted")
        station.request(2, modifier=Modifier.START)
        self.assertEqual(station.hear_segments(1), CONFIGURATION_ANSWER)
        station.disconnect()
        self.stop(child)

    def test_a_link_with_flow_control_is_gone(self):
        child, station = self.store(), self.station()
        station.connect(0x0111, control=FlowControl.SEGMENTS)
        station.say_hello()
        child.finish(signal.SIGKILL)
        child = self.store()
        self.assertNotIn("goes on as it was", child.told())
        station.hear_all()
        station.say(segment(station.remote, station.local, 2, CONFIGURATION))
        self.assertEqual(station.hear_kind(Kind.DISCONNECT_CONFIRM).reason, Reason.NO_LINK)
        self.assertEqual(self.parsed().told, [])
        self.stop(child)

    def test_a_link_that_was_closed_is_not_taken_up(self):
        child = self.store()
        self.assertEqual(self.ask(b"hello\n").finish(), 0)
        child.wait_for("closed by node 1.1")
        child.finish(signal.SIGKILL)
        child = self.store()
        self.assertNotIn("goes on as it was", child.told())
        self.assertEqual(self.parsed().told, [])
        self.stop(child)


class SizeTest(StoreCase):
    def test_it_is_written_anew_after_a_link_when_it_has_doubled(self):
        child = self.store()
        records = " ".join(["41" * 1000] * 300)
        for name in ("46", "47"):
            self.assertTrue(name == "46" or self.parsed().told)
            requests = f"hello\ncreate {name} 0 2 0 0 15\nconnect\nstore {records}\nclose\n"
            self.assertEqual(self.ask(requests.encode(), "--segment", "1400").finish(), 0)
        until(lambda: not self.parsed().told, "a store with files alone")
        self.assertEqual(len(self.parsed().lines), 1 + 2 * 301)
        self.stop(child)

    def test_a_link_that_grows_it_without_an_end_is_closed(self):
        child = self.store("--growth", str(1 << 20), "--buffer", "8192")
        asking = self.asking("--segment", "1400", "--buffer", "8192")
        self.say(asking, "hello", "report ready 8192")
        self.say(asking, "create 46 16 2 0 0 15", "report opened 16 2 0 0")
        self.say(asking, "connect", "report connected")
        asking.write(b"".join(b"put key 1 %s\nget key 1\ndelete\n" % (b"41" * 4000) for _ in range(200)))
        self.assertEqual(asking.finish(), 1)
        self.assertIn("reason 1 (no resources)", asking.told())
        child.wait_for("the store has grown as much as --growth allows for a link")
        until(lambda: not self.parsed().told, "a store with files alone")
        self.assertEqual(self.ask(b"hello\n").finish(), 0)
        self.stop(child)

    def done(self, asking):
        return {int(line.split()[2]) for line in asking.reports() if line.startswith("report done")}

    def test_a_full_disk_loses_nothing_that_was_reported_and_takes_links_again(self):
        """A limit on the size of files is as a full disk; the messages go to a device."""
        def ignore():
            signal.signal(signal.SIGXFSZ, signal.SIG_IGN)

        child = self.store("--log", "/dev/null", is_ready=False, preexec_fn=ignore)
        until(lambda: self.path.exists() and self.path.stat().st_size, "a store")
        asking = self.asking()
        for request, report in (("hello", "report ready 8192"), ("create 46 16 2 0 0 15", "report opened 16 2 0 0"),
                                ("connect", "report connected")):
            self.say(asking, request, report)
        asking.write(b"".join(b"put key %d %s\n" % (number, b"41" * 99) for number in range(1, 60)))
        until(lambda: len(self.done(asking)) == 59, "all reports")
        resource.prlimit(child.process.pid, resource.RLIMIT_FSIZE, (5000, resource.RLIM_INFINITY))
        asking.write(b"put key 100 42\n")
        self.assertEqual(asking.finish(), 1)
        self.assertIn("reason 1 (no resources)", asking.told())
        done, kept = self.done(asking), self.kept()
        self.assertEqual(kept, ["file 46 rel variable 0 0", *(f"  {number} {'41' * 99}" for number in range(1, 60))])
        self.assertEqual(done, set(range(1, 60)))
        time.sleep(0.5)
        self.assertIn("reason 32", self.ask(b"hello\n").told(), "no link is taken while the store can't be written")
        resource.prlimit(child.process.pid, resource.RLIMIT_FSIZE, (resource.RLIM_INFINITY, resource.RLIM_INFINITY))
        until(lambda: self.ask(b"hello\n").finish() == 0, "a link that is taken again")
        self.stop(child)
        self.assertEqual([line for line in self.kept() if line.split()[0] != "100"], kept)

    def test_the_third_signal_waits_for_nothing_and_loses_nothing(self):
        child, asking = self.store(), self.asking()
        for request, report in (("hello", "report ready 8192"), ("create 46 0 2 0 0 15", "report opened 0 2 0 0"),
                                ("connect", "report connected"), ("put 41", "report done 1")):
            self.say(asking, request, report)
        os.kill(asking.process.pid, signal.SIGSTOP)
        for _ in range(2):
            child.process.send_signal(signal.SIGTERM)
            time.sleep(APART)
        self.assertEqual(child.finish(), 0, child.told())
        os.kill(asking.process.pid, signal.SIGKILL)
        self.assertEqual(self.kept(), STORED)


CONFIGURATION_ANSWER = OWN_CONFIGURATION
