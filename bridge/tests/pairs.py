"""Bridges over pairs of sockets, without a network: a bridge as a program, and a station or another one before it."""
import signal

from tests.station import ASKING, SERVING, Station
from tests.support import BRIDGE, PROGRAM, PYTHON, Case, expect, expect_equal, need_live_end, pair

HASTE = ["--resend", "0.2", "--tries", "10"]
OTHER = "1.3"


class PairCase(Case):
    """A serving bridge at one end of a pair of sockets."""

    def bridge(self, role, raw, *words, program=PROGRAM, stdin=b"", **more):
        """A bridge as a program, over a socket of this process."""
        need_live_end(program)
        node = SERVING if role == "serve" else ASKING
        command = [*PYTHON, BRIDGE, role, "--frames", raw.fileno(), "--node", node, "--daplive", program, *self.naming(role, words), *words]
        return self.start(command, stdin=stdin, pass_fds=[raw.fileno()], **more)

    def ends(self):
        """A pair of sockets, which are closed at the end of the test."""
        ends = pair()
        for end in ends:
            self.addCleanup(end.close)
        return ends

    def serve(self, *words, is_ready=True, **more):
        """A serving bridge, and the socket before it."""
        near, far = self.ends()
        child = self.bridge("serve", far, *words, **more)
        far.close()
        if is_ready:
            child.wait_for("takes links")
        return child, near

    def station(self, raw, node=OTHER, peer=SERVING):
        raw.settimeout(30)
        return Station(raw, node, peer)

    def ask(self, raw, requests, *words, **more):
        """Asks over the socket before a serving bridge; the asking bridge, which has ended."""
        child = self.bridge("ask", raw, "--to", SERVING, *HASTE, *words, stdin=requests, **more)
        child.finish()
        return child

    def stop(self, child, status=0):
        found = child.finish(signal.SIGTERM)
        expect_equal(found, status, f"the exit status of the bridge that served ({child.told()})")
        expect("Traceback" not in child.told() and "Warning" not in child.told(), child.told())
