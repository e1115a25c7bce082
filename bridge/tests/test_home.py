"""What the bridge is to the system that it runs on: a unit that is told when links are taken, words that bash completes, and a
man page."""
import os
import shutil
import signal
import socket
import subprocess
import unittest

from tests.pairs import PairCase
from tests.support import BRIDGE, PYTHON, Case

ROOT = BRIDGE.parent.parent
UNIT = BRIDGE.parent / "bridge.service"
NODES = "1.10 VAX vaxb  # two names\n1.11 PDP\n"


class ManagerTest(PairCase):
    """Before a manager that is a socket."""

    def serve_for(self, name):
        """A server that a manager of this name has started, which takes links."""
        server, _ = self.serve(program=self.stand_in("return []"), env={**os.environ, "NOTIFY_SOCKET": name})
        return server

    def test_it_is_told_when_links_are_taken_and_when_the_server_stops(self):
        for name in (str(self.folder / "manager"), f"@{os.getpid()}-manager"):
            with self.subTest(name=name), socket.socket(socket.AF_UNIX, socket.SOCK_DGRAM) as manager:
                manager.bind(name.replace("@", "\0"))
                manager.settimeout(60)
                server = self.serve_for(name)
                self.assertEqual(manager.recv(100), b"READY=1")
                self.assertEqual(server.finish(signal.SIGTERM), 0)
                self.assertEqual(manager.recv(100), b"STOPPING=1")

    def test_a_manager_that_is_not_there_holds_nothing_up(self):
        for name in ("/nowhere/manager", "relative", ""):
            self.assertEqual(self.serve_for(name).finish(signal.SIGTERM), 0)


class UnitTest(Case):
    @unittest.skipUnless(shutil.which("systemd-analyze"), "systemd-analyze is missing")
    def test_it_is_a_unit(self):
        """But for what is put in place, with which the paths of this checkout are exchanged."""
        text = UNIT.read_text().replace("/opt/dapnsp/bridge/bridge.py", str(BRIDGE)).replace("man:bridge.py(1)", "man:man(1)")
        path = self.file("daplive.service", text.splitlines())
        done = subprocess.run(["systemd-analyze", "verify", "--man=no", path], capture_output=True, text=True, timeout=60)
        self.assertEqual((done.returncode, [line for line in done.stderr.splitlines() if "daplive.service" in line]), (0, []))

    def test_its_words_are_those_of_the_bridge(self):
        words = next(line for line in UNIT.read_text().splitlines() if line.startswith("ExecStart=")).split()[1:]
        done = subprocess.run([*PYTHON, BRIDGE, *words, "--help"], capture_output=True, text=True, timeout=60)
        self.assertEqual(done.returncode, 0, done.stderr)
        for word in words:
            if word.startswith("--"):
                self.assertIn(word, done.stdout)


class CompletionTest(Case):
    def complete(self, *words):
        """What bash completes the last of these words by."""
        config = self.folder / "daplive"
        config.mkdir(exist_ok=True)
        (config / "nodes").write_text(NODES)
        script = subprocess.run([*PYTHON, BRIDGE, "--completion"], capture_output=True, text=True, timeout=60, check=True).stdout
        shell = f'{script}\nCOMP_WORDS=(bridge.py "$@"); COMP_CWORD=$#; _bridge_py; printf "%s\\n" "${{COMPREPLY[@]}}"'
        done = subprocess.run(["bash", "--norc", "-c", shell, "bash", *words], capture_output=True, text=True, timeout=60,
                              cwd=self.folder, env={**os.environ, "XDG_CONFIG_HOME": str(self.folder)})
        self.assertEqual((done.returncode, done.stderr), (0, ""))
        return done.stdout.split()

    def test_commands_options_and_their_words(self):
        self.assertEqual(self.complete("p"), ["put", "probe", "password"])
        self.assertEqual(self.complete("--v"), ["--version"])
        self.assertEqual(self.complete("serve", "--fo"), ["--folder"])
        self.assertEqual(self.complete("type", "--fo"), [])
        self.assertEqual(self.complete("serve", "--sync", "a"), ["answers", "always"])
        self.assertEqual(self.complete("serve", "--links", "1"), [])

    def test_nodes(self):
        self.assertEqual(self.complete("type", ""), ["VAX::", "VAXB::", "PDP::"])
        self.assertEqual(self.complete("copy", "va"), ["VAX::", "VAXB::"])
        self.assertEqual(self.complete("ask", "--to", "P"), ["PDP"])
        self.assertEqual(self.complete("serve", ""), [])
        other = self.file("others", ["1.12 NEW"])
        self.assertEqual(self.complete("type", "--nodes", str(other), ""), ["NEW::"])

    def test_files_and_folders(self):
        (self.folder / "data").mkdir()
        (self.folder / "data.txt").write_text("")
        self.assertEqual(sorted(self.complete("serve", "--files", "dat")), ["data", "data.txt"])
        self.assertEqual(self.complete("serve", "--folder", "dat"), ["data"])


class ManTest(Case):
    def test_each_command_and_option_stands_in_the_page(self):
        done = subprocess.run([*PYTHON, ROOT / "tools/man", self.folder, BRIDGE], capture_output=True, text=True, timeout=120)
        self.assertEqual((done.returncode, done.stdout, done.stderr), (0, "", ""))
        page = (self.folder / "bridge.py.1").read_text()
        for name in ("SERVE", "ASK", "COPY", "TYPE", "GET", "PUT", "PROBE", "PASSWORD", "SYNOPSIS"):
            self.assertRegex(page, rf'(?m)^\.SH "?{name}"?$')
        self.assertIn(r"\-\-folder DIR", page)
        if shutil.which("groff"):
            done = subprocess.run(["groff", "-man", "-Tutf8", "-ww", self.folder / "bridge.py.1"], capture_output=True, text=True)
            self.assertEqual((done.returncode, done.stderr), (0, ""))

    def test_words_and_programs_that_are_wrong(self):
        for words, status in (([], 2), (["--no-such"], 2), ([self.folder, "/nowhere"], 3), (["/nowhere", BRIDGE], 3)):
            done = subprocess.run([*PYTHON, ROOT / "tools/man", *words], capture_output=True, text=True, timeout=120)
            self.assertEqual((done.returncode, done.stderr[:5]), (status, "man: "), words)
