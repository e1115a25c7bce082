"""Ethernet frames over UDP, a datagram for each: from the frame's header on, without a checksum."""
import contextlib
import errno
import re
import socket
import threading
import time
from dataclasses import dataclass

from decnet import frames, log
from decnet.wire import TOLD, Wire, WireFault

MAX_PORT = 65535
SPELLED = re.compile(r"([0-9]{1,20}):(\[[^\[\]]+\]|[^:\[\]\s]+):([0-9]{1,20})", re.ASCII)
RECEIVE_BUFFER = 4 << 20  # bytes that may come while the bridge is busy
SILENT_SECONDS = 60  # in which nothing came before the host's name is looked up again
# what a network says of a far end that isn't there; the frame is lost
AWAY_SECONDS = 5  # in which nobody is at the far end's port before that is said
AWAY = {errno.EHOSTUNREACH, errno.ENETUNREACH, errno.EHOSTDOWN, errno.EPERM, errno.EACCES}


@dataclass(frozen=True)
class Ports:
    """The port of this side, and the host and port of the far one."""

    local: int
    host: str
    remote: int

    def __str__(self):
        return f"{self.local}:{f'[{self.host}]' if ':' in self.host else self.host}:{self.remote}"


def read_ports(text):
    """LPORT:HOST:RPORT, as 4711:localhost:4712 or 4711:[::1]:4712; ValueError for any other text."""
    found = SPELLED.fullmatch(text)
    if not found:
        raise ValueError(f"{text[:60]} is no LPORT:HOST:RPORT, as 4711:localhost:4712")
    for port in (found[1], found[3]):
        if not 1 <= int(port) <= MAX_PORT:
            raise ValueError(f"{port} is no port, 1 to {MAX_PORT}")
    return Ports(int(found[1]), found[2].strip("[]"), int(found[3]))


def look_up(ports, family=0):
    """The family and the address of the far end."""
    found = socket.getaddrinfo(ports.host, ports.remote, family, socket.SOCK_DGRAM)[0]
    return found[0], found[4]


def drop_all(raw):
    """Drops what came before a socket was connected, which may be anybody's."""
    raw.setblocking(False)
    with contextlib.suppress(BlockingIOError):
        while True:
            raw.recv(frames.FRAME_LIMIT)


class LookUp(threading.Thread):
    """A look-up of the far end's name, which may take long."""

    def __init__(self, ports, family):
        super().__init__(daemon=True)
        self.ports, self.family, self.far = ports, family, None
        self.start()

    def run(self):
        try:
            self.far = look_up(self.ports, self.family)[1]
        except OSError:  # the old address is as good as any
            self.far = None


class Udp(Wire):
    """A UDP socket that is connected: the system drops what doesn't come from the far end's address and port. Nobody has
    to be at the far end yet; a frame to nobody is lost."""

    told_faults = TOLD | AWAY

    def __init__(self, ports, clock=time.monotonic):
        self.ports, self.clock, self.search = ports, clock, None
        name = f"udp {ports}"
        try:
            family, self.far = look_up(ports)
            raw = socket.socket(family, socket.SOCK_DGRAM)
        except OSError as fault:
            raise WireFault(f"{name}: {fault.strerror or fault}") from fault
        try:
            raw.setsockopt(socket.SOL_SOCKET, socket.SO_RCVBUF, RECEIVE_BUFFER)
            raw.bind(("::" if family == socket.AF_INET6 else "", ports.local))
            raw.connect(self.far)
            drop_all(raw)
        except OSError as fault:
            raw.close()
            raise WireFault(f"{name}: {fault.strerror or fault}") from fault
        super().__init__(name, raw)
        self.heard_at = clock()
        self.has_heard, self.refused_at = False, None  # whether anything came; since when nobody is at the far end's port

    def start(self, frame):
        self.send(frame)

    def send(self, frame):
        """Sends a frame, or loses it; that it is sent doesn't say that it comes there."""
        self.try_to(self.socket.send, frame)

    def receive(self):
        """The next frame; None or nothing where there is none."""
        frame = self.try_to(self.socket.recv, frames.FRAME_LIMIT)
        if frame is not None:
            self.heard_at, self.has_heard, self.refused_at = self.clock(), True, None
            if self.fault:
                self.fault = None
                log.say(f"{self.name}: frames come again")
        return frame

    def tell_once(self, fault):
        """Nobody has to be there at first, and who is away may come back at once: that is said after a while."""
        if fault.errno != errno.ECONNREFUSED:
            super().tell_once(fault)
            return
        if self.refused_at is None:
            self.refused_at = self.clock()
        if self.fault != fault.errno and self.clock() >= self.refused_at + AWAY_SECONDS:
            self.fault = fault.errno
            log.say(f"{self.name}: nobody is there {'any more' if self.has_heard else 'yet'}: frames are lost")

    def refresh(self):
        """Looks the far end's name up again after some silence; it may have another address now."""
        if self.search is None:
            if self.clock() >= self.heard_at + SILENT_SECONDS:
                self.search = LookUp(self.ports, self.socket.family)
            return
        if self.search.is_alive():
            return
        far, self.search, self.heard_at = self.search.far, None, self.clock()
        if far and far != self.far:
            self.go_to(far)

    def go_to(self, far):
        """Goes on with another address of the far end."""
        try:
            self.socket.connect(far)
        except OSError as fault:
            log.say(f"{self.name}: {far[0]}: {fault.strerror}: the far end's address stays {self.far[0]}")
            return
        log.say(f"{self.name}: the far end's address is {far[0]} now")
        self.far = far
