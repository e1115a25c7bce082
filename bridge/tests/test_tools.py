"""The other Python programs: odd words and Ctrl-C have no traceback."""
import os
import pathlib
import signal
import subprocess
from unittest import mock

from decnet import dapcap, program
from tests.datagrams import bound, free_port
from tests.support import PYTHON, Case, sleeps, until

ROOT = pathlib.Path(__file__).resolve().parent.parent.parent
# programs, with words that they don't take
ODD = {
    "bridge/bridge.py": ["--no-such", "serve", ""],
    "bridge/check": ["--no-such"],
    "build.py": [],
    "wrong_bodies": ["--no-such", "nowhere"],
    "wrong_bodies_tests.py": ["--no-such"],
    "docs/check": ["--no-such", "--help x"],
    "examples/hub.py": ["", "x", "1 a:1", "70000 a:1 b:2", "1 :1 b:2", "1 a:1 nowhere"],
    "examples/lossy.py": ["--no-such", "--loss 1000", "--loss x", "--reach 0", "--seed x", "--links 0", "--links x", "--daplive /nowhere",
                          "--links 2 --daplive /nowhere"],
    "examples/lossy_tests.py": ["--no-such", "--seeds x"],
    "examples/links_tests.py": ["--no-such", "--seeds x"],
    "examples/live_tests.py": ["--no-such", "--inputs x"],
    "examples/longest.py": ["--no-such", "--dapnsp /nowhere"],
    "examples/shown_tests.py": ["--no-such"],
    "hostile/check": ["--no-such", "--only nothing", "--programs /nowhere"],
    "tools/check": ["--no-such", "--seed x"],
    "tools/man": ["--no-such", "", "/nowhere bridge/bridge.py"],
    "tools/screenshots": ["--no-such"],
    "tools/ladder": ["--no-such", "nowhere", "/", "README.md", "--range x", "--link 0", "--dapcap /nowhere examples/wire.pcap"],
    "bench/capture.py": ["", "x", "10 x", "x typical", "10 typical x"],
    "bench/schedules.py": ["", "x 1", "window x"],
    "bench/ratios": ["x"],
    "bench/wire": ["/nowhere"],
    "bench/live": ["x", "--no-such"],
    "bench/start": ["x", "--no-such", "--daplive /nowhere"],
    "bench/names": ["--no-such"],
    "bench/link": ["x"],
    "bench/world": ["x"],
    "bench/files": ["x"],
}


class ToolCase(Case):
    def run_it(self, program, words=(), shell='exec "$@"', **more):
        command = ["bash", "-c", shell, "bash", *PYTHON, ROOT / program, *words]
        options = {"stdin": subprocess.DEVNULL, "capture_output": True, "timeout": 60, "check": False, **more}
        done = subprocess.run(command, text=True, **options)
        for word in ("Traceback", "Warning", "Exception ignored"):
            self.assertNotIn(word, done.stderr or "", f"{program} {words}")
        return done


class WordsTest(ToolCase):
    def test_odd_words_have_a_line_and_a_status(self):
        for program, some in ODD.items():
            for words in some:
                with self.subTest(program=program, words=words):
                    done = self.run_it(program, words.split())
                    self.assertIn(done.returncode, (1, 2, 3))
                    self.assertTrue(done.stderr, "nothing is said")

    def test_words_of_any_bytes(self):
        for program in ("bridge/bridge.py", "wrong_bodies", "bench/ratios", "tools/ladder"):
            command = [*PYTHON, str(ROOT / program), b"\xff\xfe"]
            done = subprocess.run(command, capture_output=True, check=False, timeout=60)
            self.assertIn(done.returncode, (1, 2, 3))
            self.assertNotIn(b"Traceback", done.stderr)

    def test_the_program_is_named_first(self):
        for program, words, name in (("examples/lossy.py", "--daplive /nowhere", "lossy.py"),
                                     ("docs/check", "x", "docs/check"), ("wrong_bodies", "x", "wrong_bodies")):
            told = self.run_it(program, words.split()).stderr
            self.assertTrue(told.startswith(f"{name}: "), told)


class CheckTest(ToolCase):
    """bridge/check itself, before a live end that says when it is started."""

    def check(self, *tests):
        program = self.script("program", "import sys\nprint('it is being built', file=sys.stderr)\n")
        return self.run_it("bridge/check", ["--daplive", program, "--dapcap", program, *tests])

    def test_names_are_looked_at_before_anything_is_built(self):
        for name in ("tests.nope", "nope", "tests.test_guard.Nope", "tests.test_guard.GuessesTest.nope"):
            done = self.check("tests.test_guard.GuessesTest", name)
            self.assertEqual((done.returncode, done.stdout), (2, ""))
            self.assertTrue(done.stderr.startswith("bridge/check: no such test, or it can't be loaded: "), done.stderr)
            self.assertEqual((done.stderr.count("\n"), "nope" in done.stderr.lower()), (1, True))

    def test_a_build_is_heard(self):
        done = self.check("tests.test_guard.GuessesTest")
        self.assertEqual((done.returncode, done.stderr), (0, "it is being built\n" * 2))
        self.assertTrue(done.stdout.endswith("5 passed, 0 failed\n"), done.stdout)


class ListerTest(ToolCase):
    """Which program lists captures: the one that is named, else $DAPCAP, else one that is built. None is built by the way."""

    def test_which_one(self):
        one, other = (self.script(name, "") for name in ("one", "other"))
        built = mock.patch.object(dapcap, "BUILT", (pathlib.Path("/nowhere"), pathlib.Path(other)))
        with built, mock.patch.dict(os.environ):
            os.environ.pop("DAPCAP", None)
            self.assertEqual(dapcap.find(), str(other))
            os.environ["DAPCAP"] = str(one)
            self.assertEqual(dapcap.find(), str(one))
            self.assertEqual(dapcap.find(other), str(other))
            for named in ("/nowhere", str(self.folder)):
                with self.assertRaises(program.Fault, msg=named):
                    dapcap.find(named)
            os.environ["DAPCAP"] = "/nowhere"
            with self.assertRaises(program.Fault):
                dapcap.find()

    def test_none_is_built(self):
        nowhere = mock.patch.object(dapcap, "BUILT", (pathlib.Path("/nowhere"),))
        with nowhere, mock.patch.dict(os.environ), mock.patch.object(subprocess, "Popen", side_effect=AssertionError):
            os.environ.pop("DAPCAP", None)
            with self.assertRaises(program.Fault) as raised:
                dapcap.find()
        self.assertEqual(str(raised.exception), "dapcap isn't built, which lists captures: ./dapcap --try --version compiles it")

    def test_a_probe_without_one_sends_nothing(self):
        with bound() as peer:
            ports = f"{free_port()}:127.0.0.1:{peer.getsockname()[1]}"
            words = ["probe", "--udp", ports, "--node", "1.1", "--to", "1.2", "--daplive", "/bin/true", "--dapcap", "/nowhere"]
            done = self.run_it("bridge/bridge.py", words)
            self.assertEqual((done.returncode, done.stdout), (3, ""))
            self.assertEqual(done.stderr, "bridge: /nowhere: no program that lists captures\n")
            peer.settimeout(0.2)
            with self.assertRaises(OSError):  # none has come in that time
                peer.recv(2000)

    def test_a_page_without_one_is_none(self):
        for words in (["--dapcap", "/nowhere"], []):
            done = self.run_it("tools/ladder", [*words, str(ROOT / "examples/wire.pcap")], env={**os.environ, "DAPCAP": "/nowhere"})
            self.assertEqual((done.returncode, done.stdout), (3, ""))
            self.assertEqual(done.stderr, "ladder: /nowhere: no program that lists captures\n")


class HelpTest(ToolCase):
    def test_help(self):
        for program in ("examples/hub.py", "docs/check", "wrong_bodies", "bridge/check"):
            done = self.run_it(program, ["--help"])
            self.assertEqual((done.returncode, done.stderr), (0, ""))
            self.assertIn(f"usage: {program.removeprefix('examples/')} ", done.stdout)
        done = subprocess.run([ROOT / "examples/check", "--help"], capture_output=True, text=True, check=False, timeout=60)
        self.assertEqual((done.returncode, done.stdout, done.stderr), (0, "usage: examples/check [--play [PROGRAM]] | [--run [PROGRAM]]\n", ""))


class InterruptTest(ToolCase):
    def test_ctrl_c(self):
        stand_in = self.stand_in("return []")
        child = self.start([*PYTHON, ROOT / "examples/lossy.py", "--daplive", stand_in], stdin=None)
        until(lambda: sleeps(child.process.pid), "a start")
        self.assertEqual(child.finish(signal.SIGINT), -signal.SIGINT)
        self.assertEqual(child.told(), "")
