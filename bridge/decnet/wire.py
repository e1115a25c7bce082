"""What carries Ethernet frames: a raw socket on an interface, or, for tests, a socket that somebody passes on. Frames over
UDP are in `udp`."""
import errno
import fcntl
import os
import socket
import struct

from decnet import frames, log
from decnet.address import ethernet_address, ethernet_text, node_text

ARPHRD_ETHER = 1
SIOCGIFMTU = 0x8921
INTERFACE_REQUEST = struct.Struct("16si12x")
# a frame that meets one of these is as lost; of those that are reported, once until a frame goes again
SILENT = {errno.EAGAIN, errno.EINTR}
TOLD = {errno.ENOBUFS, errno.ENETDOWN, errno.EMSGSIZE, errno.ECONNREFUSED}


class WireFault(Exception):
    """The network can't be used."""


class Wire:
    """Frames, sent and received, none of which is waited for."""

    told_faults = TOLD

    def __init__(self, name, raw):
        self.name, self.socket, self.fault = name, raw, None
        raw.setblocking(False)

    def send(self, frame):
        """Sends a frame, or loses it."""
        if self.try_to(self.socket.send, frame) and self.fault:
            self.fault = None
            log.say(f"{self.name}: frames are sent again")

    def receive(self):
        """The next frame; None where there is none."""
        frame = self.try_to(self.socket.recv, frames.FRAME_LIMIT)
        if frame == b"":
            raise WireFault(f"{self.name}: closed")
        return frame

    def try_to(self, call, argument):
        """What a call of the socket gives; None where the frame is lost."""
        try:
            return call(argument)
        except OSError as fault:
            if fault.errno in self.told_faults:
                self.tell_once(fault)
            elif fault.errno not in SILENT:
                raise WireFault(f"{self.name}: {fault.strerror}") from fault
            return None

    def tell_once(self, fault):
        if self.fault != fault.errno:
            self.fault = fault.errno
            log.say(f"{self.name}: {fault.strerror}: frames are lost")

    def refresh(self):
        """Called now and then, for what is to be done besides."""

    def start(self, frame):
        """Sends the first frame; a fault where it can't be sent."""
        try:
            self.socket.send(frame)
        except OSError as fault:
            raise WireFault(f"{self.name}: {fault.strerror}") from fault

    def close(self):
        self.socket.close()


def given(number):
    """A socket that was passed on, by the number of its file: a message is a frame."""
    try:
        return Wire(f"file {number}", socket.socket(fileno=os.dup(number)))
    except OSError as fault:
        raise WireFault(f"file {number}: {fault.strerror}") from fault


def interface(name, node, longest):
    """A raw socket on an interface, with the node's Ethernet address, which takes frames with `longest` bytes of data."""
    try:
        raw = socket.socket(socket.AF_PACKET, socket.SOCK_RAW, 0)
    except PermissionError as fault:
        raise WireFault("no permission for a raw socket: it takes root, or the capability cap_net_raw") from fault
    except (AttributeError, OSError) as fault:
        raise WireFault(f"no raw sockets here: {fault}") from fault
    try:
        raw.bind((name, frames.ETHERTYPE))
        check_address(raw, name, node)
        check_mtu(raw, name, longest)
    except OSError as fault:
        raw.close()
        raise WireFault(f"interface {name}: {fault.strerror}") from fault
    except WireFault:
        raw.close()
        raise
    return Wire(f"interface {name}", raw)


def check_address(raw, name, node):
    _, _, _, hardware, address = raw.getsockname()
    wanted = ethernet_address(node)
    if hardware != ARPHRD_ETHER:
        raise WireFault(f"interface {name} is no Ethernet")
    if address != wanted:
        raise WireFault(
            f"interface {name} has the address {ethernet_text(address)}, and node {node_text(node)} "
            f"needs {ethernet_text(wanted)}: ip link set {name} address {ethernet_text(wanted)}")


def check_mtu(raw, name, longest):
    request = INTERFACE_REQUEST.pack(name.encode(), 0)
    _, mtu = INTERFACE_REQUEST.unpack(fcntl.ioctl(raw, SIOCGIFMTU, request))
    if mtu < longest:
        raise WireFault(f"interface {name} has an MTU of {mtu} bytes, and frames of {longest} are needed: "
                        f"ask for a --segment of {longest - mtu} bytes less, or set a larger MTU")
