"""What tests share: what they expect, what they wait for, the programs that they start, and stand-ins for live ends."""
import contextlib
import os
import pathlib
import shutil
import signal
import socket
import subprocess
import sys
import tempfile
import time
import unittest

from decnet import log
from decnet.dapcap import ROOT as TOP
from decnet.end import DAPLIVE, End

PATIENCE = 60  # seconds for anything that has to happen, on a machine that has much other work
BUILD_SECONDS = 3600  # ./daplive may have to be built
PROMPT = 5  # seconds for what happens within one, on a machine that has other work
APART = 3  # seconds after which a signal is another one, on such a machine too
POLL = 0.02
BRIDGE = pathlib.Path(__file__).resolve().parent.parent / "bridge.py"
EXAMPLES = BRIDGE.parent.parent / "examples"
PYTHON = [sys.executable, "-X", "dev", "-W", "error"]
BUILT = BRIDGE.parent.parent / "crates/daplive/out/daplive"  # as ./daplive builds it
PROGRAM = os.environ.get("DAPLIVE") or str(BUILT)
LISTER = os.environ.get("DAPCAP") or str(TOP / "crates/dapcap/out/dapcap")
SEED = int(os.environ.get("BRIDGE_SEED") or 1)
KEEP = os.environ.get("BRIDGE_KEEP")
os.environ["XDG_CONFIG_HOME"] = "/nowhere"  # no file of options of who runs the tests holds
ALL = bool(os.environ.get("BRIDGE_ALL"))  # whether sweeps are run in their whole form


def expect(is_so, what):
    if not is_so:
        raise AssertionError(what)


def expect_equal(found, wanted, what):
    if found != wanted:
        raise AssertionError(f"{what}: {str(found)[:300]!r} instead of {str(wanted)[:300]!r}")


def sweep_count(short, whole):
    """How many of a sweep are run."""
    return whole if ALL else short


def until(happens, what, seconds=PATIENCE):
    """Waits until something happens; what it gives."""
    end = time.monotonic() + seconds
    while True:
        found = happens()
        if found:
            return found
        if time.monotonic() > end:
            raise AssertionError(f"{what} didn't happen within {seconds} seconds")
        time.sleep(POLL)


def need_live_end(program=PROGRAM):
    """Skips a test where the live end isn't built: none is built by the way."""
    if program == PROGRAM and not os.access(PROGRAM, os.X_OK):
        raise unittest.SkipTest(f"{PROGRAM} isn't built")


def file_lines(path):
    """The lines of a file that is kept, without comments."""
    return [line for line in path.read_text().splitlines() if not line.startswith("#")]


class Child:
    """A program that was started, with what it writes."""

    started = []

    def __init__(self, folder, words, stdin=b"", namespace=None, **more):
        self.words = [str(word) for word in words]
        files = [tempfile.mkstemp(suffix=suffix, dir=folder) for suffix in (".out", ".err")]
        self.out, self.err = (pathlib.Path(path) for _, path in files)
        prefix = ["ip", "netns", "exec", namespace] if namespace else []
        options = {"stdout": files[0][0], "stderr": files[1][0], "start_new_session": True, **more}
        self.process = subprocess.Popen(prefix + self.words, stdin=subprocess.PIPE, **options)
        Child.started.append(self)
        for number, _ in files:
            os.close(number)
        if stdin is not None:
            self.write(stdin)
            self.end_input()

    def write(self, data):
        with contextlib.suppress(BrokenPipeError):
            self.process.stdin.write(data)
            self.process.stdin.flush()

    def end_input(self):
        with contextlib.suppress(BrokenPipeError):
            self.process.stdin.close()

    def wait_for(self, text, file=None):
        """Waits until it has written a text."""
        file = file or self.err
        until(lambda: text in file.read_text() or self.process.poll() is not None, f"{self.words}: {text!r}")
        expect(text in file.read_text(), f"{self.words} ended without {text!r}: {self.err.read_text()}")

    def finish(self, number=None):
        """Waits for its end, after a signal; the exit status."""
        if number is not None:
            self.process.send_signal(number)
        try:
            return self.process.wait(PATIENCE)
        except subprocess.TimeoutExpired as fault:
            raise AssertionError(f"{self.words} doesn't end: {self.err.read_text()}") from fault

    def reports(self):
        return self.out.read_text().splitlines()

    def told(self):
        return self.err.read_text()

    def end(self):
        if self.process.poll() is None:
            self.process.kill()
            self.process.wait()
        self.end_input()

    @classmethod
    def end_all(cls):
        for child in cls.started:
            child.end()


class Case(unittest.TestCase):
    """A test with a folder of its own; the programs that it leaves running are ended, and their live ends with them."""

    NAMES = ("--names", "exact")  # of a bridge that serves, where a test doesn't say it; most tests are about other things

    def naming(self, role, words):
        """These options, where they aren't among the words of a role."""
        return self.NAMES if role == "serve" and "--names" not in words else ()

    def setUp(self):
        log.start("bridge", os.devnull)
        self.addCleanup(lambda: log.Standard.current.close())
        self.folder = pathlib.Path(tempfile.mkdtemp(prefix=f"bridge-{self.id().split('.')[-1]}-", dir=KEEP))
        if not KEEP:
            self.addCleanup(shutil.rmtree, self.folder, ignore_errors=True)

    def start(self, words, **more):
        child = Child(self.folder, words, **more)
        self.addCleanup(child.end)
        return child

    def end(self, role, *words, program=PROGRAM, **more):
        """A live end of this process."""
        need_live_end(program)
        end = End(program, [role, *words], **more)
        self.addCleanup(end.close)
        return end

    def file(self, name, lines=()):
        path = self.folder / name
        path.write_text("".join(f"{line}\n" for line in lines))
        return path

    def script(self, name, text):
        """A program of Python."""
        path = self.folder / name
        path.write_text(f"#!{sys.executable}\n{text}")
        path.chmod(0o755)
        return path

    def stand_in(self, answer, name="stand_in"):
        """A live end that answers as the body of a function of `line` says, which gives the lines before `waits`."""
        body = "".join(f"    {line}\n" for line in answer.splitlines())
        return self.script(name, "import os, sys, time\n"
                                 f"def answer(line):\n{body}\n"
                                 "for line in sys.stdin:\n"
                                 "    for text in answer(line.rstrip('\\n')) or []:\n"
                                 "        print(text)\n"
                                 "    print('waits 0', flush=True)\n")


def child_of(pid):
    """The live end of a bridge."""
    return int(pathlib.Path(f"/proc/{pid}/task/{pid}/children").read_text().split()[0])


def sleeps(pid):
    """Whether a process waits for something, and has for a while."""
    for _ in range(10):
        if pathlib.Path(f"/proc/{pid}/stat").read_text().rpartition(")")[2].split()[0] != "S":
            return False
        time.sleep(POLL)
    return True


def pair():
    """Two sockets between which each message is a frame."""
    ends = socket.socketpair(socket.AF_UNIX, socket.SOCK_SEQPACKET)
    for end in ends:
        end.setsockopt(socket.SOL_SOCKET, socket.SO_SNDBUF, 1 << 20)
    return ends


def build():
    """A first start, which builds ./daplive and ./dapcap where they aren't built and no others are named. What it says is seen."""
    for program in (os.environ.get("DAPLIVE") or str(DAPLIVE), os.environ.get("DAPCAP") or str(TOP / "dapcap")):
        run = subprocess.run([program, "--help"], stdout=subprocess.DEVNULL, check=False, timeout=BUILD_SECONDS)
        expect(run.returncode == 0, f"{program} --help: status {run.returncode}")


def default_signals():
    """What a child does before it begins: signals do what they do at first."""
    for number in (signal.SIGTERM, signal.SIGINT, signal.SIGHUP):
        signal.signal(number, signal.SIG_DFL)
