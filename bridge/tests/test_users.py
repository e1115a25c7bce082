"""Who may open a link: users and passwords, nodes, and connect messages of any bytes."""
import os
import random
import re
import subprocess
import time
from unittest import mock

from decnet import nsp, users
from decnet.locked import KeptFault
from decnet.nsp import Kind, Reason
from decnet.rights import ALL
from decnet.users import Users, is_hash_of, make_hash, read_users
from tests.datagrams import UdpCase
from tests.station import SERVING, Station
from tests.support import BRIDGE, PROMPT, PYTHON, SEED, Case, sweep_count

ECHO = "return ['accepted'] if line[0] == '>' else []"
REJECTED = (Kind.DISCONNECT, Reason.ACCESS_CONTROL)
ODD = [b"", b"\0", b"\0\x11", b"\1\0", b"\3\x11\0\0\0", b"\0\x11\0\0\1", b"\0\x11\0\0\1\5SMITH\6SEC", b"\0\x11\0\0\1\xffSMITH"]


def session_of(data):
    """What is read of a connect message; anything but a session or none is a fault."""
    found = nsp.read_session(data)
    return found and (found.object, found.user, found.password, found.account)


class SessionTest(Case):
    def test_sessions(self):
        self.assertEqual(session_of(nsp.session()), (17, b"", b"", b""))
        self.assertEqual(session_of(nsp.session(b"U", b"P", b"A")), (17, b"U", b"P", b"A"))
        self.assertEqual(session_of(b"\1\0\4TASK\2\0\1\2\3\4\2ME\0"), (None, b"", b"", b""))
        longest = nsp.session(39 * b"U", 39 * b"P", 39 * b"A")
        self.assertEqual(session_of(longest), (17, 39 * b"U", 39 * b"P", 39 * b"A"))
        self.assertIsNone(session_of(longest.replace(b"\x27" + 39 * b"U", b"\x28" + 40 * b"U")))
        for length in range(len(longest)):
            self.assertIsNone(session_of(longest[:length]))

    def test_altered_connect_messages(self):
        chance, base, tally = random.Random(SEED), nsp.session(b"SMITH", b"SECRET", b"ACCT"), [0, 0]
        for number in range(sweep_count(20_000, 200_000)):
            data = bytearray(base)
            for _ in range(chance.randrange(1, 4)):
                data[chance.randrange(len(data))] = chance.randrange(256)
            if number % 3 == 0:
                del data[chance.randrange(len(data) + 1):]
            tally[session_of(bytes(data)) is None] += 1
        self.assertTrue(all(tally), tally)


class UsersCase(Case):
    def users(self, *lines):
        return Users(self.file("users", lines))

    def refusal(self, some, body):
        return some.look_up(body).reason


class FileTest(UsersCase):
    def test_who_may_enter(self):
        some = self.users("# users", "", f"SMITH {make_hash(b'Secret')}", f"jones {make_hash(b'other')}")
        for user, password, reason in ((b"SMITH", b"SECRET", None), (b"smith", b"secret", None), (b"JONES", b"OTHER", None),
                                       (b"SMITH", b"OTHER", 34), (b"SMITH", b"SECRET\0", 34), (b"SMITH", b"", 34), (b"BROWN", b"SECRET", 34), (b"", b"", 34),
                                       (b"", b"SECRET", 34), (b"-", b"-", 34), (b"#", b"USERS", 34)):
            self.assertEqual(self.refusal(some, nsp.session(user, password)), reason, (user, password))
        for data in ODD:
            self.assertEqual(self.refusal(some, data), Reason.IMAGE_TOO_LONG)

    def test_rights(self):
        some = self.users("- - get", f"SMITH {make_hash(b'S')}", f"JONES {make_hash(b'J')} get,put", f"BROWN {make_hash(b'B')} upd,del")
        for user, password, found in ((b"", b"", (None, "get")), (b"SMITH", b"S", (None, ALL)), (b"JONES", b"J", (None, "get,put")),
                                      (b"BROWN", b"B", (None, "upd,del")), (b"JONES", b"S", (34, None)), (b"NONE", b"", (34, None))):
            verdict = some.look_up(nsp.session(user, password))
            self.assertEqual((verdict.reason, verdict.rights), found, user)

    def test_a_link_without_a_user(self):
        some = self.users("- -", f"SMITH {make_hash(b'SECRET')}")
        self.assertIsNone(self.refusal(some, nsp.session()))
        for user in (b"-", b"BROWN"):
            self.assertEqual(self.refusal(some, nsp.session(user, b"-")), 34)

    def test_a_changed_file_holds_for_the_next_link(self):
        some = self.users()
        self.assertEqual(self.refusal(some, nsp.session(b"SMITH", b"SECRET")), 34)
        self.file("users", [f"SMITH {make_hash(b'SECRET')}"])
        self.assertIsNone(self.refusal(some, nsp.session(b"SMITH", b"SECRET")))
        for spoil in (lambda: self.file("users", ["SMITH"]), lambda: os.unlink(some.path)):
            spoil()
            self.assertEqual(self.refusal(some, nsp.session(b"SMITH", b"SECRET")), 34)

    def test_lines_that_are_none(self):
        good = make_hash(b"X")
        for line in ("SMITH", f"SMITH {good} get more", "SMITH secret", "SMITH -", f"SMITH {good[:-1]}", f"- {good}", "SMITH scrypt::"):
            with self.assertRaisesRegex(KeptFault, "line 2: no NAME and HASH"):
                read_users(self.file("bad", ["# users", line]))
        for rights in ("more", "get,", "get,get2", "GET", "15"):
            with self.assertRaisesRegex(KeptFault, f"line 2: '{rights}' isn't some of get, put, upd and del"):
                read_users(self.file("bad", ["# users", f"SMITH {good} {rights}"]))
        with self.assertRaisesRegex(KeptFault, "line 2: smith is there twice"):
            read_users(self.file("bad", [f"SMITH {good}", f"smith {good}"]))
        with self.assertRaisesRegex(KeptFault, "no plain file"):
            read_users("/dev/zero")
        (self.folder / "long").write_bytes(bytes(users.MAX_BYTES + 1))
        with self.assertRaisesRegex(KeptFault, "more than 1048576 bytes"):
            read_users(self.folder / "long")
        for data in (b"\xff\xfe\0", random.Random(SEED).randbytes(5000)):
            (self.folder / "odd").write_bytes(data)
            with self.assertRaises(KeptFault):
                read_users(self.folder / "odd")

    def test_hashes_are_salted(self):
        first, second = make_hash(b"SECRET"), make_hash(b"SECRET")
        self.assertNotEqual(first, second)
        self.assertTrue(is_hash_of(first, b"secret") and is_hash_of(second, b"SECRET"))
        self.assertFalse(is_hash_of(first, b"SECRETS"))

    def test_an_unknown_user_takes_as_long(self):
        some = self.users(f"SMITH {make_hash(b'SECRET')}")
        with mock.patch.object(users, "make_hash", wraps=make_hash) as work:
            for user in (b"SMITH", b"BROWN"):
                self.refusal(some, nsp.session(user, b"WRONG"))
        self.assertEqual(work.call_count, 2)


class PasswordTest(Case):
    def password(self, name, text):
        run = subprocess.run([*PYTHON, BRIDGE, "password", "--", name], input=text, capture_output=True, check=False)
        self.assertNotIn(b"Traceback", run.stderr)
        return run.returncode, os.fsdecode(run.stdout), run.stderr.decode()

    def test_any_name_enters_by_the_line_that_is_printed(self):
        """Also with blanks that aren't those of ASCII, and with bytes that are no text."""
        for name in ("A\u00a0B", "A\u2003B", "A\x1cB", "A\x85B", "A\u2028B", "\u00c4", "\udcff", "-A"):
            status, line, told = self.password(name, b"secret\n")
            self.assertEqual((status, told), (0, ""), name)
            path = self.folder / "users"
            path.write_bytes(os.fsencode(line))
            self.assertIsNone(Users(path).look_up(nsp.session(os.fsencode(name).upper(), b"SECRET")).reason, name)

    def test_a_line_for_a_user(self):
        status, line, _ = self.password("smith", b"secret\n")
        self.assertEqual((status, line.split()[0]), (0, "SMITH"))
        self.assertIsNone(Users(self.file("users", [line.strip()])).look_up(nsp.session(b"SMITH", b"SECRET")).reason)

    def test_what_is_none(self):
        for name, text in (("a b", b"x\n"), ("-", b"x\n"), ("#a", b"x\n"), ("", b"x\n"), (40 * "a", b"x\n"), ("a", b"\n"),
                           ("a", 40 * b"x"), ("a", b""), ("a", b"x\0\n"), ("a", b"x\0y\n"), ("\ufeffa", b"x\n")):
            status, line, told = self.password(name, text)
            self.assertEqual((status, line), (1, ""), name)
            self.assertTrue(told.startswith("bridge: "), told)


class BridgeTest(UdpCase):
    def setUp(self):
        super().setUp()
        self.stand = self.stand_in(ECHO)

    def test_only_users_enter(self):
        child = self.serve("--users", self.file("users", [f"SMITH {make_hash(b'SECRET')}"]), program=self.stand)
        self.assertIn(f"1 user of {self.folder / 'users'} may enter", child.told())
        self.assertIn("users: others can read it: chmod 600 ", child.told())
        station = self.station()
        for user, password in ((b"SMITH", b"WRONG"), (b"BROWN", b"SECRET"), (b"", b"")):
            self.assertEqual(station.refused(nsp.connect(9, 512, nsp.session(user, password))), REJECTED)
        too_long = nsp.session(b"SMITH", b"SECRET").replace(b"\5SMITH", b"\x28" + 40 * b"S")
        self.assertEqual(station.refused(nsp.connect(9, 512, too_long)), (Kind.DISCONNECT, Reason.IMAGE_TOO_LONG))
        station.say(nsp.connect(10, 512, nsp.session(b"smith", b"secret")))
        station.hear_kind(Kind.CONNECT_ACK)
        station.remote, station.local = station.hear_kind(Kind.CONFIRM).source, 10
        station.acknowledge(0)
        station.disconnect()
        self.stop(child)
        for user in ("SMITH", "BROWN"):
            self.assertIn(f"node 1.3 was refused, user {user}, reason 34", child.told())
        self.assertIn("node 1.3 was refused, reason 34", child.told())
        lines = [line for line in child.told().splitlines() if " link " in line]
        self.assertTrue(lines and all(re.search(r" link [0-9a-f]{4}, user SMITH: ", line) for line in lines), lines)

    def test_a_start_without_users_says_so_and_bad_ones_stop_it(self):
        users = self.file("good", [f"SMITH {make_hash(b'SECRET')}"])
        users.chmod(0o600)
        child = self.serve("--users", users, program=self.stand)
        self.assertNotIn("others can read it", child.told())
        self.stop(child)
        child = self.serve(program=self.stand)
        self.assertIn("anybody may enter, with any user or none (no --users)", child.told())
        self.stop(child)
        for path, status in ((self.file("users", ["SMITH"]), 1), ("/nowhere", 3)):
            child = self.serve("--users", path, program=self.stand, is_ready=False)
            self.assertEqual(child.finish(), status)
            self.assertIn(str(path), child.told())

    def test_only_nodes_that_are_allowed_enter(self):
        child = self.serve("--allow", "1.4", "1.5", "--allow", "1.6", program=self.stand)
        self.assertIn("nodes 1.4, 1.5, 1.6 may enter", child.told())
        raw = self.socket_at(self.far, self.near)
        self.assertEqual(Station(raw, "1.3", SERVING).refused(nsp.connect(9, 512, nsp.session())), REJECTED)
        for node in ("1.4", "1.6"):
            station = Station(raw, node, SERVING)
            station.connect(9)
            station.disconnect()
        self.stop(child)

    def test_checks_of_passwords_hold_nothing_up(self):
        """While passwords are checked an open link is served; the check itself is made to last."""
        slow = self.script("slow", "import runpy, sys, time\nfrom decnet import users\nhash = users.make_hash\n"
                           "def make_hash(*words):\n    time.sleep(3)\n    return hash(*words)\n"
                           "users.make_hash = make_hash\nsys.argv = sys.argv[1:]\nrunpy.run_path(sys.argv[0], run_name='__main__')\n")
        path = self.file("users", ["- -", f"SMITH {make_hash(b'SECRET')}"])
        words = ["serve", "--udp", f"{self.near}:127.0.0.1:{self.far}", "--node", SERVING, "--daplive", self.stand, "--users", path]
        child = self.start([*PYTHON, slow, BRIDGE, *words], env={**os.environ, "PYTHONPATH": str(BRIDGE.parent)})
        child.wait_for("takes links")
        raw = self.socket_at(self.far, self.near)
        station, other = Station(raw, "1.3", SERVING), Station(raw, "1.4", SERVING)
        begun = time.monotonic()
        other.say(nsp.connect(9, 512, nsp.session(b"SMITH", b"SECRET")))
        station.say(nsp.disconnect(0x7777, 9, 0))
        station.hear_kind(Kind.DISCONNECT_CONFIRM)
        self.assertLess(time.monotonic() - begun, 2)
        other.hear_kind(Kind.CONFIRM)
        self.assertGreater(time.monotonic() - begun, 2)
        self.assertLess(time.monotonic() - begun, 3 + PROMPT)
        child.end()
