"""Root is given up when the network is open, by the live end too; what can't be done without it is told at the start."""
import os
import pathlib
import shutil
import subprocess
import unittest

from tests.datagrams import UdpCase
from tests.network import Network
from tests.station import SERVING, Station
from tests.support import BRIDGE, PROGRAM, PYTHON, child_of, need_live_end

NOBODY, ROOT = 65534, 0
NETWORK = Network()


def setUpModule():
    if not hasattr(os, "geteuid") or os.geteuid() != ROOT or shutil.which("ip") is None:
        raise unittest.SkipTest("not root, or no ip")
    need_live_end()
    try:
        NETWORK.make()
    except AssertionError as fault:
        NETWORK.remove()
        raise unittest.SkipTest(str(fault)) from fault


def tearDownModule():
    NETWORK.remove()


def users_of(pid):
    """The users and groups that a process is, and the groups that it has besides."""
    lines = pathlib.Path(f"/proc/{pid}/status").read_text().splitlines()
    found = {name: [int(one) for one in rest.split()] for name, _, rest in (line.partition(":") for line in lines)
             if name in ("Uid", "Gid", "Groups")}
    return set(found["Uid"]), set(found["Gid"]), set(found["Groups"]) - {NOBODY}


class RootCase(UdpCase):
    def setUp(self):
        super().setUp()
        self.folder.chmod(0o755)
        self.program = self.folder / "program"
        shutil.copy(PROGRAM, self.program)
        self.program.chmod(0o755)

    def bridge(self, role, *words, **more):
        """A bridge before a raw socket."""
        interface = NETWORK.interfaces[SERVING]
        line = [*PYTHON, BRIDGE, role, "--interface", interface, "--node", SERVING, "--daplive", self.program, *words]
        return self.start(line, namespace=NETWORK.names[SERVING], **more)

    def ready(self, *words):
        child = self.bridge("serve", *words)
        child.wait_for("takes links")
        return child

    def assert_users(self, child, number):
        for pid in (child.process.pid, child_of(child.process.pid)):
            self.assertEqual(users_of(pid)[:2], ({number}, {number}))
            if number == NOBODY:
                self.assertEqual(users_of(pid)[2], set())

    def own_folder(self):
        """A folder that belongs to nobody."""
        path = self.folder / "own"
        path.mkdir()
        os.chown(path, NOBODY, NOBODY)
        return path


class RawTest(RootCase):
    def test_without_files_it_becomes_nobody_and_serves(self):
        child = self.ready()
        self.assert_users(child, NOBODY)
        self.assertNotIn("root", child.told())
        raw = NETWORK.raw_socket("1.1")
        self.addCleanup(raw.close)
        station = Station(raw, "1.3", SERVING)
        station.connect(9)
        station.disconnect()
        self.stop(child)

    def test_with_a_file_it_stays_root_and_says_so(self):
        for name, path in (("files", self.file("files")), ("log", self.folder / "log"), ("pcap", self.folder / "pcap"),
                           ("users", self.file("users", ["- -"])), ("save", self.folder / "save"), ("store", self.folder / "store")):
            path.touch()
            child = self.bridge("serve", f"--{name}", path)
            child.wait_for("it stays root", path if name == "log" else None)
            child.wait_for("takes links", path if name == "log" else None)
            self.assert_users(child, ROOT)
            told = child.told() if name != "log" else path.read_text()
            self.assertIn(f"it stays root, since --{name} names a file: --as USER gives that up", told)
            self.stop(child)

    def test_with_a_folder_it_stays_root_and_says_so(self):
        served = self.folder / "served"
        served.mkdir()
        child = self.ready("--folder", served)
        self.assert_users(child, ROOT)
        self.assertIn("it stays root, since --folder names a file: --as USER gives that up", child.told())
        self.stop(child)

    def test_a_client_with_a_file_of_this_host_stays_root_and_says_so(self):
        text, haste = self.file("text", ["x"]), ["--tries", "1", "--resend", "0.1"]
        for words in (["copy", text, "1.9::F"], ["copy", "1.9::F", self.folder / "new"]):
            child = self.bridge(*words, *haste)
            self.assertEqual(child.finish(), 1, child.told())
            self.assertIn(f"it stays root, since {next(word for word in words[1:] if '::' not in str(word))} is a file: --as USER gives that up",
                          child.told())
        for words in (["copy", "-", "1.9::F"], ["type", "1.9::F"], ["put", "1.9::F", "x"]):
            child = self.bridge(*words, *haste)
            self.assertEqual(child.finish(), 1, child.told())
            self.assertNotIn("root", child.told())

    def test_a_program_that_nobody_can_run_keeps_it_root(self):
        self.program.chmod(0o700)
        child = self.ready()
        self.assert_users(child, ROOT)
        self.assertIn(f"it stays root, since nobody can't run {self.program}", child.told())
        self.stop(child)

    def test_as_a_user_with_files_of_its_own(self):
        own = self.own_folder()
        for words in (["--save", own / "save"], ["--store", own / "store"], ["--folder", own]):
            child = self.ready("--as", "nobody", *words)
            self.assert_users(child, NOBODY)
            self.assertNotIn("root", child.told())
            self.stop(child)
        self.assertEqual({one.stat().st_uid for one in own.iterdir()}, {NOBODY})

    def test_what_that_user_cannot_use_is_told_before_a_link_is_taken(self):
        own, secret = self.own_folder(), self.file("secret", ["- -"])
        secret.chmod(0o600)
        theirs = self.folder / "theirs"
        theirs.mkdir(mode=0o755)
        (own / "log").touch()
        for words, path, what in ((["--save", theirs / "save"], theirs, "write"), (["--store", theirs / "store"], theirs, "write"),
                                  (["--folder", theirs], theirs, "write"), (["--users", secret], secret, "read"),
                                  (["--files", secret], secret, "read"), (["--save", secret, "--files", secret], secret, "read")):
            child = self.bridge("serve", "--as", "nobody", *words)
            self.assertEqual(child.finish(), 3, words)
            self.assertIn(f"{path}: nobody can't {what} it", child.told())
            self.assertNotIn("takes links", child.told())
        child = self.bridge("serve", "--as", "nobody", "--log", own / "log")
        self.assertEqual(child.finish(), 3)
        self.assertIn(f"{own / 'log'}: nobody can't write it", (own / "log").read_text())
        child = self.bridge("copy", "1.1::F", theirs / "F", "--as", "nobody")
        self.assertEqual(child.finish(), 2)
        self.assertIn(f"{theirs / 'F'}: Permission denied", child.told())
        self.assertEqual(list(theirs.iterdir()), [])

    def test_who_is_not_there_is_a_wrong_word(self):
        child = self.bridge("serve", "--as", "no-such-user")
        self.assertEqual(child.finish(), 2)
        self.assertIn("--as: no user no-such-user is here", child.told())


class UdpTest(RootCase):
    def test_over_udp_it_is_given_up_where_that_is_asked_for(self):
        for words, number in ((["--as", "nobody"], NOBODY), ([], ROOT)):
            child = self.serve(*words, program=self.program)
            self.assert_users(child, number)
            self.assertNotIn("root", child.told())
            self.stop(child)

    def test_who_is_not_root_becomes_nobody_else(self):
        text = ("import os, pwd\nfrom decnet import privileges\n"
                f"os.setgroups([]); os.setgid({NOBODY}); os.setuid({NOBODY})\nprivileges.become('nobody')\n"
                "try:\n    privileges.become('root')\nexcept privileges.KeptFault as fault:\n    print(fault)\n")
        done = subprocess.run([*PYTHON, "-c", text], cwd=BRIDGE.parent, capture_output=True, text=True, check=True)
        self.assertEqual(done.stdout, "--as root: Operation not permitted: root alone becomes another user\n")
