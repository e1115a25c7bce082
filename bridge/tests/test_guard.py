"""The guard of a server: wrong passwords, users' files that can't be read, and who waits for whom."""
import os
import threading
import time
from unittest import mock

from decnet import log, nsp, users
from decnet.guesses import LAST_SECONDS, MAX_KEPT, MAX_WRONG, Guesses
from decnet.nsp import Kind, Reason
from decnet.routing import Peer
from decnet.users import CHECK_SECONDS, MARK, Guard, Users, make_hash
from tests.datagrams import UdpCase
from tests.station import SERVING, Station
from tests.support import Case, until

ECHO = "return ['accepted'] if line[0] == '>' else []"
NODE, OTHER = 1027, 1028
GOOD, WRONG = (nsp.session(b"SMITH", password) for password in (b"SECRET", b"WRONG"))


class GuessesTest(Case):
    """With a clock of their own."""

    def setUp(self):
        super().setUp()
        self.now = 0.0
        self.guesses = Guesses(lambda: self.now)

    def wrong(self, count=1, node=NODE, user=b"SMITH"):
        for _ in range(count):
            self.guesses.wrong(node, user)

    def left(self, node=NODE, user=b"SMITH"):
        return self.guesses.seconds_left(node, user)

    def test_after_five_within_a_minute_the_next_are_shut_out(self):
        self.wrong(MAX_WRONG - 1)
        self.assertEqual(self.left(), 0)
        self.wrong()
        self.assertEqual((self.left(), self.left(OTHER), self.left(user=b"JONES")), (1, 0, 0))
        self.now = 1.0
        self.assertEqual(self.left(), 0)

    def test_the_time_doubles_up_to_a_minute(self):
        self.wrong(MAX_WRONG - 1)
        for seconds in (1, 2, 4, 8, 16, 32, LAST_SECONDS, LAST_SECONDS):
            self.wrong()
            self.assertEqual(self.left(), seconds)
            self.now += seconds

    def test_five_in_more_than_a_minute_are_none(self):
        for second in range(0, 150, 15):
            self.now = float(second)
            self.wrong()
            self.assertEqual(self.left(), 0, second)

    def test_a_minute_of_quiet_or_a_right_one_begins_anew(self):
        for anew in (lambda: setattr(self, "now", self.now + 61), lambda: self.guesses.right(NODE, b"SMITH")):
            self.wrong(MAX_WRONG)
            self.now += 1
            anew()
            self.wrong(MAX_WRONG - 1)
            self.assertEqual(self.left(), 0)
            self.guesses.right(NODE, b"SMITH")

    def test_so_many_are_kept(self):
        for number in range(10 * MAX_KEPT):
            self.wrong(node=number)
        self.assertEqual((len(self.guesses.kept), min(node for node, _ in self.guesses.kept)), (MAX_KEPT, 9 * MAX_KEPT))


class GuardTest(Case):
    """A guard by itself, with a clock of its own."""

    def setUp(self):
        super().setUp()
        self.path = self.file("users", [f"SMITH {make_hash(b'SECRET')}"])
        self.now, self.verdicts = 0.0, []
        self.guard = Guard(Users(self.path), lambda: self.now)
        self.addCleanup(self.guard.close)
        self.guard.checked = lambda peer, packet, verdict: self.verdicts.append((peer.node, verdict))
        self.number = 0

    def begin(self, body, node=NODE):
        self.number += 1
        self.guard.check(Peer(node, bytes(6)), nsp.read(nsp.connect(self.number, 512, body)))

    def check(self, body, node=NODE):
        """What is found out about a connect initiate, and whether its password was looked at."""
        with mock.patch.object(users, "make_hash", wraps=make_hash) as work:
            self.begin(body, node)
            if self.guard.current:
                self.guard.look()
        return self.verdicts.pop()[1].reason, work.call_count

    def test_a_password_that_is_guessed_is_not_looked_at_and_nobody_else_waits(self):
        for _ in range(MAX_WRONG):
            self.assertEqual(self.check(WRONG), (Reason.ACCESS_CONTROL, 1))
        for body in (WRONG, GOOD, nsp.session(b"smith", b"secret")):
            self.assertEqual(self.check(body), (Reason.ACCESS_CONTROL, 0))
        self.assertEqual(self.check(GOOD, OTHER), (None, 1))
        self.assertEqual(self.check(nsp.session(b"JONES", b"X")), (Reason.ACCESS_CONTROL, 1))
        self.now = 1.0
        self.assertEqual(self.check(GOOD), (None, 1))

    def test_a_password_that_waits_while_its_node_is_shut_out_is_not_looked_at(self):
        for _ in range(MAX_WRONG - 1):
            self.check(WRONG)
        with mock.patch.object(users, "make_hash", wraps=make_hash) as work:
            for body, node in ((WRONG, NODE), (GOOD, NODE), (GOOD, OTHER)):
                self.begin(body, node)
            while self.guard.current:
                self.guard.look()
        found = [(node, verdict.reason) for node, verdict in self.verdicts]
        self.assertEqual(found, [(NODE, Reason.ACCESS_CONTROL), (NODE, Reason.ACCESS_CONTROL), (OTHER, None)])
        self.assertIn("too many passwords were wrong", self.verdicts[1][1].fault)
        self.assertEqual(work.call_count, 2)

    def test_a_bad_file_is_no_wrong_password(self):
        self.file("users", ["SMITH"])
        for _ in range(2 * MAX_WRONG):
            self.check(WRONG)
        self.assertEqual(self.guard.guesses.seconds_left(NODE, b"SMITH"), 0)

    def test_the_log_is_written_from_one_thread(self):
        self.file("users", ["SMITH"])
        said = []
        with mock.patch.object(log, "say", lambda text: said.append(threading.current_thread())):
            self.begin(GOOD)
            self.guard.look()
        self.assertEqual([one for one in said if one is not threading.main_thread()], [])
        self.assertIn("line 1: no NAME and HASH", self.verdicts[0][1].fault)

    def test_a_check_that_hangs_is_given_up_and_taken_up_again(self):
        goes_on, read = threading.Event(), users.read_users

        def hangs(path):
            goes_on.wait()
            return read(path)

        with mock.patch.object(users, "read_users", hangs):
            self.begin(GOOD)
            self.begin(GOOD, OTHER)
            self.assertEqual(self.guard.next_at(), CHECK_SECONDS)
            self.guard.tick()
            self.assertEqual(self.verdicts, [])
            self.now = float(CHECK_SECONDS)
            self.guard.tick()
            self.guard.tick()
            self.begin(GOOD)
            self.assertEqual([(node, one.reason) for node, one in self.verdicts], [(NODE, 34), (OTHER, 34), (NODE, 34)])
            self.assertIsNone(self.guard.next_at())
            goes_on.set()
            self.guard.look()
        self.assertEqual(len(self.verdicts), 3)
        self.assertEqual(self.check(GOOD), (None, 1))

    def test_files_that_are_none(self):
        for make, what in ((os.mkfifo, "no plain file"), (os.mkdir, "no plain file|Is a directory")):
            self.path.unlink()
            make(self.path)
            begun = time.monotonic()
            self.assertRegex(self.guard.users.look_up(GOOD).fault, what)
            self.assertLess(time.monotonic() - begun, 5)
            (os.rmdir if make is os.mkdir else os.unlink)(self.path)
            self.file("users", [f"SMITH {make_hash(b'SECRET')}"])
            self.assertEqual(self.check(GOOD), (None, 1))

    def test_a_mark_of_its_encoding_is_no_part_of_a_name(self):
        self.path.write_bytes(MARK + self.path.read_bytes())
        self.assertEqual(self.check(GOOD), (None, 1))


class BridgeTest(UdpCase):
    def test_the_same_user_of_another_node_enters_meanwhile(self):
        path = self.file("users", [f"SMITH {make_hash(b'SECRET')}"])
        child = self.serve("--users", path, program=self.stand_in(ECHO))
        raw = self.socket_at(self.far, self.near)
        guessing, good = (Station(raw, node, SERVING) for node in ("1.3", "1.4"))
        for number in range(1, 3 * MAX_WRONG):
            self.assertEqual(guessing.refused(nsp.connect(number, 512, WRONG)), (Kind.DISCONNECT, Reason.ACCESS_CONTROL))
        child.wait_for("node 1.3 was refused, user SMITH, reason 34 (the user or the password was rejected): too many passwords")
        good.say(nsp.connect(9, 512, GOOD))
        good.hear_kind(Kind.CONFIRM)
        self.stop(child)

    def test_a_file_that_is_spoiled_while_it_runs_ends_nothing(self):
        path = self.file("users", [f"SMITH {make_hash(b'SECRET')}"])
        child = self.serve("--users", path, program=self.stand_in(ECHO))
        raw = self.socket_at(self.far, self.near)
        path.write_text("SMITH\n")
        for number in range(3, 13):
            Station(raw, f"1.{number}", SERVING).say(nsp.connect(9, 512, GOOD))
        until(lambda: child.told().count("users: line 1: no NAME and HASH") == 10, "lines of the log")
        self.file("users", [f"SMITH {make_hash(b'SECRET')}"])
        station = Station(raw, "1.200", SERVING)
        station.say(nsp.connect(9, 512, GOOD))
        station.hear_kind(Kind.CONFIRM)
        self.stop(child)
