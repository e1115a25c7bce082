"""Bridges over UDP on the loopback: a bridge as a program, and a station or another bridge at the far port."""
import contextlib
import itertools
import os
import signal
import socket

from decnet import log, udp
from tests.station import ASKING, SERVING, Station
from tests.support import BRIDGE, PROGRAM, PYTHON, Case, expect, expect_equal, need_live_end

HASTE = ["--resend", "0.2", "--tries", "50"]
LOOPBACK = "127.0.0.1"
FIRST_PORT, LAST_PORT = 15_000, 32_000  # the system itself gives none of these
PORTS = itertools.cycle(range(FIRST_PORT, LAST_PORT))
for _ in range(97 * os.getpid() % (LAST_PORT - FIRST_PORT)):  # other tests at the same time begin elsewhere
    next(PORTS)


def bound(port=0):
    """A socket at a port of the loopback."""
    found = socket.socket(socket.AF_INET, socket.SOCK_DGRAM)
    try:
        found.setsockopt(socket.SOL_SOCKET, socket.SO_RCVBUF, udp.RECEIVE_BUFFER)
        found.bind((LOOPBACK, port))
    except OSError:
        found.close()
        raise
    return found


def free_port():
    """A port that nobody has."""
    while True:
        port = next(PORTS)
        with contextlib.suppress(OSError):
            bound(port).close()
            return port


class UdpCase(Case):
    """A serving bridge at the near one of two ports."""

    def setUp(self):
        super().setUp()
        self.near, self.far = free_port(), free_port()

    def words(self, role, local, remote):
        node = SERVING if role == "serve" else ASKING
        return [*PYTHON, BRIDGE, role, "--udp", f"{local}:{LOOPBACK}:{remote}", "--node", node]

    def serve(self, *words, program=PROGRAM, is_ready=True, **more):
        need_live_end(program)
        command = self.words("serve", self.near, self.far)
        child = self.start([*command, "--daplive", program, *HASTE, *self.naming("serve", words), *words], **more)
        if is_ready:
            child.wait_for("takes links")
        return child

    def begin(self, role, *words, stdin=b"", program=PROGRAM, **more):
        """A bridge at the far port, which asks."""
        need_live_end(program)
        to = ["--to", SERVING] if role in ("ask", "probe") else []
        command = [*self.words(role, self.far, self.near), *to, "--daplive", program, *HASTE]
        return self.start([*command, *words], stdin=stdin, **more)

    def ask(self, requests, *words, **more):
        """Asks; the bridge, which has ended."""
        child = self.begin("ask", *words, stdin=requests, **more)
        child.finish()
        return child

    def socket_at(self, port, peer):
        """A socket at a port, for another one."""
        found = bound(port)
        self.addCleanup(found.close)
        found.connect((LOOPBACK, peer))
        return found

    def station(self, node="1.3"):
        """A station at the far port."""
        return Station(self.socket_at(self.far, self.near), node, SERVING)

    def stop(self, child, status=0):
        found = child.finish(signal.SIGTERM)
        expect_equal(found, status, f"the exit status of the bridge that served ({child.told()})")
        expect("Traceback" not in child.told() and "Warning" not in child.told(), child.told())


def log_of(case):
    """The lines that are said in this process from now on, in a file."""
    path = case.folder / "log"
    current = log.start("bridge", path)
    case.addCleanup(current.close)
    return path
