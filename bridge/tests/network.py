"""Two network namespaces that a pair of Ethernet interfaces connects, and captures of what goes between them."""
import ctypes
import os
import signal
import socket
import subprocess
import time

from decnet.address import ethernet_address, ethernet_text, read_node
from decnet.frames import ETHERTYPE
from decnet.nsp import Kind
from tests import captures
from tests.station import ASKING, SERVING, Station
from tests.support import PATIENCE, POLL, Child, expect_equal, until

CLONE_NEWNET = 0x40000000
LIBC = ctypes.CDLL(None, use_errno=True)


def ip(*words):
    run = subprocess.run(["ip", *words], capture_output=True, text=True, check=False, timeout=PATIENCE)
    if run.returncode:
        raise AssertionError(f"ip {' '.join(words)}: {run.stderr.strip()}")


class Network:
    """Two namespaces that a pair of Ethernet interfaces connects, each with the DECnet address of its node."""

    def __init__(self):
        self.names = {SERVING: f"daplive{os.getpid()}s", ASKING: f"daplive{os.getpid()}a"}
        self.interfaces = {SERVING: "serving", ASKING: "asking"}

    def make(self):
        """Makes them; an AssertionError says why, where they can't be."""
        for name in self.names.values():
            ip("netns", "add", name)
        ip("link", "add", "serving", "netns", self.names[SERVING], "type", "veth",
           "peer", "name", "asking", "netns", self.names[ASKING])
        for node, interface in self.interfaces.items():
            address = ethernet_text(ethernet_address(read_node(node)))
            ip("-n", self.names[node], "link", "set", "dev", interface, "address", address, "addrgenmode", "none")
            ip("-n", self.names[node], "link", "set", "dev", interface, "up")

    def remove(self):
        for name in self.names.values():
            subprocess.run(["ip", "netns", "del", name], capture_output=True, check=False, timeout=PATIENCE)

    def raw_socket(self, node):
        """A raw socket in the namespace of a node."""
        own = os.open("/proc/self/ns/net", os.O_RDONLY)
        other = os.open(f"/var/run/netns/{self.names[node]}", os.O_RDONLY)
        try:
            if LIBC.setns(other, CLONE_NEWNET):
                raise OSError(ctypes.get_errno(), "setns")
            try:
                raw = socket.socket(socket.AF_PACKET, socket.SOCK_RAW, 0)
                raw.bind((self.interfaces[node], ETHERTYPE))
            finally:
                LIBC.setns(own, CLONE_NEWNET)
        finally:
            os.close(own)
            os.close(other)
        raw.settimeout(PATIENCE)
        return raw


class Capture:
    """What goes over the wire, kept by dumpcap."""

    def __init__(self, network, folder, name):
        self.network, self.path = network, folder / f"{name}.pcapng"
        self.child = Child(folder, ["dumpcap", "-q", "-i", "asking", "-f", "ether proto 0x6003", "-w", self.path],
                           namespace=network.names[ASKING])
        self.child.wait_for("File:")

    def stop(self):
        """Stops when all that went before is in the file."""
        marker = b"the end of " + self.path.name.encode()
        station = Station(self.network.raw_socket(ASKING), "1.60", "1.61")

        def is_there():
            station.say(bytes([Kind.NO_OPERATION]) + marker)
            time.sleep(5 * POLL)
            return marker in self.path.read_bytes()

        until(is_there, "the end of a capture")
        station.close()
        expect_equal(self.child.finish(signal.SIGINT), 0, "the exit status of dumpcap")
        self.child.end()

    def frames(self):
        with open(self.path, "rb") as file:
            return list(captures.frames(file))
