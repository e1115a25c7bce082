"""A live end whose lines are kept in a journal: what it answers is done when the line that it answers is kept."""
import hashlib
import pathlib
import time

from decnet import log, nsp
from decnet.address import read_node
from decnet.end import End
from decnet.journal import NOTE
from decnet.kept import Keeper
from decnet.link import LeftLink
from decnet.locked import fault_of
from decnet.nsp import FlowControl, Qualifier
from decnet.routing import Peer

QUERIES = ("files",)  # lines that change nothing
OF_LINK = ("resend", "ack")  # lines that may change the link, and no file
ONLY_ACK, NO_MEMORY = "ack-only", "refused no-memory"
SEGMENTS = ("< 00", "< 20", "< 40", "< 60")  # how a packet with a segment begins in an answer
RETRY_SECONDS = 10  # before a journal that couldn't be written is tried again
CHUNK = 1 << 20


def program_of(end):
    """The SHA-256 of the program that runs as a live end, which has answered."""
    digest, running = hashlib.sha256(), pathlib.Path(f"/proc/{end.process.pid}/exe")
    try:
        with open(running, "rb") as file:
            while chunk := file.read(CHUNK):
                digest.update(chunk)
    except OSError as fault:
        raise fault_of(end.program, fault) from fault
    return digest.hexdigest()


class Opened:
    """What a journal says of a link that is open."""

    def __init__(self, node, station, remote, segment, flow):
        self.peer, self.remote = Peer(read_node(node), bytes.fromhex(station)), int(remote, 16)
        self.segment, self.can_go_on = int(segment), flow == FlowControl.NONE.name.lower()
        self.taken, self.is_on, self.packet = 0, True, None  # of other data; the last packet of data that came

    def left(self, local):
        return LeftLink(self.peer, local, self.remote, self.segment, self.taken, self.is_on, acknowledged_in(self.packet),
                        self.can_go_on)


def left_links(lines):
    """The links that were open when the bridge before ended, by the lines of its journal."""
    links = {}  # by their own addresses, in hex
    for line in lines:
        word, _, rest = line.partition(" ")
        words = rest.split(" ")
        if word == NOTE + "link" and rest == "-":
            links.clear()
        elif word == NOTE + "link":
            node, station, local, *others = words
            links[local] = Opened(node, station, *others)
        elif word == NOTE + "other" and words[0] in links:
            links[words[0]].taken, links[words[0]].is_on = int(words[1]), words[2] == "on"
        elif word == ">" and (local := receiver_of(rest)) in links:
            links[local].packet = rest
        elif word == "close":
            links.pop(rest, None)
    return [link.left(int(local, 16)) for local, link in links.items()]


def receiver_of(packet):
    """The address that a packet is sent to: two bytes after the first, the least one first."""
    return packet[4:6] + packet[2:4]


def acknowledged_in(packet):
    """The segment up to which a packet acknowledges; 0 where it doesn't."""
    if packet is None:
        return 0
    acks = nsp.read(bytes.fromhex(packet)).acks
    return max((number for qualifier, number in acks if qualifier in (Qualifier.ACK, Qualifier.NAK)), default=0)


class Kept:
    """The answer to a line that is kept: it is given on when the line is, and none is where the line can't be."""

    def __init__(self, end, line, answer):
        self.end_of, self.line, self.answer, self.lines = end, line, answer, []

    def take(self, text):
        self.lines.append(text)

    def end(self):
        if self.end_of.keep_line(self.line, self.lines):
            for text in self.lines:
                self.answer.take(text)
        self.answer.end()


class StoredEnd(End):
    """A live end that has a journal, once `journal` is set."""

    journal = None
    fault = None  # why the journal can't be written
    is_due = False  # whether a line was told that the disk hasn't, besides acknowledgements
    has_wanted_memory = False  # whether a line was refused memory: a replay may do more than was done

    @property
    def is_kept(self):
        return self.journal is not None

    def queue(self, line, answer):
        is_kept = self.is_kept and line not in QUERIES
        self.queue_all([line], Kept(self, line, answer) if is_kept else answer)

    def failed(self, fault):
        """Told when a line can't be kept."""

    def keep_line(self, line, answer):
        """Keeps a line, and lets the disk have it before what its answer says goes out; false where that can't be."""
        if self.fault:
            return False
        is_only_ack = line.partition(" ")[0] in OF_LINK or answer[:1] == [ONLY_ACK]
        self.is_due = self.is_due or not is_only_ack or NO_MEMORY in answer
        self.has_wanted_memory = self.has_wanted_memory or NO_MEMORY in answer
        try:
            self.journal.append(line)
            if self.journal.sync_when == "always" or (self.is_due and any(text.startswith(SEGMENTS) for text in answer)):
                self.journal.sync()
                self.check()
                self.is_due = False
        except OSError as fault:
            self.fail(fault_of(self.journal.path, fault))
        return self.fault is None

    def check(self):
        """Looks whether the journal is still the file of its name: where it isn't, nothing is kept in it any more."""
        fault = None if self.fault else self.journal.misplaced()
        if fault:
            self.fail(fault)

    def remark(self, text):
        if self.is_kept and not self.fault:
            try:
                self.journal.append(NOTE + text)
            except OSError as fault:
                self.fail(fault_of(self.journal.path, fault))

    def fail(self, fault):
        self.fault = fault
        self.failed(fault)


class Store:
    """The journal of a serving bridge: when it is written anew, and whether a link may be taken."""

    def __init__(self, end, journal, growth, clock=time.monotonic):
        """A link may let the journal grow by `growth` bytes."""
        self.end, self.growth, self.clock = end, growth, clock
        self.keeper = Keeper(journal, end)
        self.tried_at = clock()
        end.journal = journal

    @property
    def is_busy(self):
        return self.keeper.is_busy

    @property
    def fault(self):
        """Why no link is taken."""
        return self.end.fault

    def look(self):
        """Looks at its file before a link is taken; why none is. While it is written anew, another file gets its name."""
        if not self.is_busy:
            self.end.check()
        return self.fault

    @property
    def has_grown_too_much(self):
        return self.end.journal.grown > self.growth

    def files(self):
        return self.keeper.files()

    def renew(self, then=lambda fault: None):
        """Writes the journal anew, with the files alone; no link may be open. `then` is called with what is wrong, or
        None."""
        if not self.is_busy:
            self.tried_at = self.clock()
            self.keeper.save(lambda fault: (self.renewed(fault), then(fault)))

    def renewed(self, fault):
        """It is written anew; or it stays as it was, which is enough where lines can still be put after it."""
        if fault:
            log.say(f"{fault}: the store isn't written anew")
            self.end.check()
        else:
            if self.fault:
                log.say(f"{self.end.journal.path}: it is written anew")
            self.end.fault, self.end.has_wanted_memory, self.end.is_due = None, False, False

    def try_again(self):
        """Tries it after some time where the journal couldn't be written."""
        if self.fault and self.clock() >= self.tried_at + RETRY_SECONDS:
            self.renew()

    def links_closed(self, is_last):
        """The last link that was open is closed; the bridge ends after it if it `is_last`."""
        if is_last:
            self.stop()
        elif self.fault or self.end.has_wanted_memory or self.end.journal.is_long() or self.has_grown_too_much:
            self.renew()

    def stop(self):
        """Writes it anew where it isn't the files alone: another daplive may take those."""
        if self.look() or self.end.journal.grown:
            self.renew()

    def close(self):
        self.keeper.close()
