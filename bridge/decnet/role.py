"""A node's part in links: what both the serving and the asking bridge do, and the loop that drives them."""
import collections
import random
import select
import signal
import socket
import time

from decnet import log, nsp
from decnet.address import node_text
from decnet.link import Link, State
from decnet.nsp import Kind, Reason

GOOD, FAILED, WORDS, FAULT = 0, 1, 2, 3  # exit statuses: done; refused or incomplete; wrong words; the machine
STOPPING = (signal.SIGTERM, signal.SIGINT, signal.SIGHUP)
ONE_STOP_SECONDS = 1  # signals within it are one: `timeout` and systemd send two
STOP_SECONDS = 3  # for a live end to end that isn't ready yet
CHUNK = 4096


class Signals:
    """The signals that stop the bridge, as something to wait for. SIGHUP opens the log anew where it is a file."""

    def __init__(self, current):
        self.log, self.stopped_at, self.is_stop = current, None, False
        self.reading, self.writing = socket.socketpair()
        self.reading.setblocking(False)
        self.writing.setblocking(False)
        self.before = signal.set_wakeup_fd(self.writing.fileno(), warn_on_full_buffer=False)
        for number in STOPPING:
            if number != signal.SIGHUP or signal.getsignal(number) != signal.SIG_IGN:  # as nohup leaves it
                signal.signal(number, lambda *_: None)

    def files(self):
        return {self.reading: self.look}

    def look(self):
        """Notes a signal to stop, and opens the log anew where that is asked for."""
        numbers = set(self.reading.recv(CHUNK))
        if self.log.path is not None and signal.SIGHUP in numbers:
            numbers.remove(signal.SIGHUP)
            self.log.open_again()
        if not numbers & set(STOPPING):
            return
        now = time.monotonic()
        if self.stopped_at is None or now >= self.stopped_at + ONE_STOP_SECONDS:
            self.stopped_at, self.is_stop = now, True

    def take_stop(self):
        """Whether a signal to stop came since the last look."""
        is_stop, self.is_stop = self.is_stop, False
        return is_stop

    def close(self):
        for number in STOPPING:
            signal.signal(number, signal.SIG_IGN)
        signal.set_wakeup_fd(self.before)
        self.reading.close()
        self.writing.close()


class Stopped(Exception):
    """A signal came before the bridge was ready, or a last one that waits for nothing; with the exit status."""

    def __init__(self, status):
        super().__init__("stopped by a signal")
        self.status = status


class Addresses:
    """Link addresses, none of which anybody can guess; none is used again soon."""

    def __init__(self):
        self.random, self.recent = random.SystemRandom(), collections.deque(maxlen=4096)

    def next(self):
        while True:
            address = self.random.randrange(1, 0x10000)
            if address not in self.recent:
                self.recent.append(address)
                return address


class Role:
    """A node's part in links to it and from it."""

    def __init__(self, node, end, settings, clock=time.monotonic):
        self.node, self.end, self.settings, self.clock = node, end, settings, clock
        self.addresses, self.keeper, self.space = Addresses(), None, None
        self.refusing = self.addresses.next()  # the address of links that are refused
        self.refused = None  # what was refused last
        self.links = {}  # those that aren't closed, by their own addresses
        self.is_done, self.status = False, GOOD

    def link_to(self, peer):
        """A link that isn't open yet; no link has the address of those that are refused."""
        local = self.addresses.next()
        while local == self.refusing:
            local = self.addresses.next()
        return self.link_at(peer, local)

    @property
    def link(self):
        """The link of a role that has one at most."""
        return next(iter(self.links.values()), None)

    def add(self, link):
        self.links[link.local] = link

    def link_at(self, peer, local):
        link = Link(self.node, self.end, self.settings, peer, local, self.told, self.keeper, self.space, self.clock)
        link.noted = lambda text: self.say_of(link, text)
        return link

    def say_of(self, link, text):
        """A line of the log about a link, with its user where that was checked."""
        log.say(f"link {link.local:04x}{link.who}: {text}")

    def receive(self, arrived):
        """Takes a packet that came; what is no packet of NSP is passed over."""
        try:
            packet = nsp.read(arrived.packet)
        except nsp.BadPacket:
            return
        if arrived.returned:
            self.returned(arrived.peer.node, packet)
        elif packet.kind in nsp.CONNECTS:
            self.connect(arrived.peer, packet)
        else:
            link = self.links.get(packet.destination)
            if link and link.is_to(arrived.peer.node, packet):
                link.receive(arrived.peer, packet)
            else:
                self.answer_no_link(arrived.peer, packet)
        self.look()

    def returned(self, node, packet):
        """A router gave an own packet back."""
        link = self.links.get(packet.source)
        if link and packet.kind in nsp.CONNECTS and node == link.peer.node:
            link.returned()

    def answer_no_link(self, peer, packet):
        """Answers a packet to a link that isn't there, but for one that is an answer itself."""
        if packet.kind is Kind.DISCONNECT:
            self.node.send(peer, nsp.disconnect_confirm(packet.source, packet.destination, Reason.COMPLETE))
        elif packet.kind in nsp.SEGMENTS | nsp.NUMBERED_OTHER | {Kind.CONFIRM}:
            self.node.send(peer, nsp.disconnect_confirm(packet.source, packet.destination, Reason.NO_LINK))

    def refuse(self, peer, packet, reason, who="", why=""):
        """Refuses a connect initiate. Nothing is kept: where the refusal is lost, the connect initiate is retransmitted."""
        self.node.send(peer, nsp.disconnect(packet.source, self.refusing, reason))
        self.log_refused(peer, packet, reason, who, why)

    def log_refused(self, peer, packet, reason, who="", why=""):
        """Reports a refused link once, with its user and with what is wrong besides."""
        what = (peer.node, packet.source, reason, who)
        if what != self.refused:
            self.refused = what
            log.say(f"node {node_text(peer.node)} was refused{who}, {nsp.reason_text(reason)}{why and ': '}{why}")

    def tick(self):
        self.node.say_hello()
        self.end.tick()
        for link in list(self.links.values()):
            link.tick()
        self.look()

    def next_at(self):
        """When there is something to do at the latest."""
        times = [self.node.hello_at, self.end.next_at(), *(link.next_at() for link in self.links.values())]
        return min(at for at in times if at is not None)

    def files(self):
        """What is read and written, each with what is done then."""
        readers, writers = self.end.files()
        readers[self.node.socket] = self.take_frame
        return {**readers, **(self.keeper.files() if self.keeper else {})}, writers

    def take_frame(self):
        arrived = self.node.receive()
        if arrived:
            self.receive(arrived)

    def abandon(self):
        """Closes all links where the bridge can't go on."""
        self.disconnect(Reason.ABORTED, "the bridge can't go on")

    def disconnect(self, reason, why):
        """Closes all links from this side."""
        for link in self.links.values():
            link.disconnect(reason, why)

    def lose_network(self):
        """The network is gone: the links are too, and what isn't saved yet is."""
        self.links.clear()

    def told(self, text):
        """The live end said something that is no packet."""
        log.say(f"the live end: {text}")

    def is_over(self, link):
        """Whether nothing more is wanted of a link that is closed."""
        return True

    def look(self):
        """Looks at what became of the links."""
        for link in [one for one in self.links.values() if one.state is State.CLOSED and self.is_over(one)]:
            del self.links[link.local]
            self.tell_closed(link)
            self.closed(link)

    def tell_closed(self, link):
        self.say_of(link, link.why)


def turn(readers, writers, seconds):
    """Waits until a file can be read or written, at most this many seconds, and does what is done then."""
    ready, writable, _ = select.select(list(readers), list(writers), [], max(0, seconds))
    for file in ready:
        readers[file]()
    for file in writable:
        if not file.closed:
            writers[file]()


def wait_for(is_done, end, signals, more=lambda: None, files=lambda: {}):
    """Lets a live end answer until something is so; `more` is called between answers, and `files` are read too. Stopped
    at a signal."""
    more()
    while not is_done():
        readers, writers = end.files()
        turn({**readers, **files(), **signals.files()}, writers, end.next_at() - end.clock())
        end.tick()
        if signals.take_stop():
            end.close_seconds = STOP_SECONDS
            raise Stopped(FAILED)
        more()


def run(role, signals):
    """Carries packets until the role is done; the exit status."""
    while not role.is_done:
        readers, writers = role.files()
        seconds = role.next_at() - role.clock()
        waits = signals.log.next_seconds()
        turn({**readers, **signals.files()}, writers, seconds if waits is None else min(seconds, waits))
        if signals.take_stop():
            role.stop()
        role.tick()
        signals.log.tick()
    return role.status


def finish(role, signals):
    """Lets a save come to its end where there is no network any more; a signal ends that too."""
    while role.keeper and role.keeper.is_busy and not signals.take_stop():
        readers, writers = role.end.files()
        turn({**readers, **role.keeper.files(), **signals.files()}, writers, role.end.next_at() - role.clock())
        role.end.tick()
