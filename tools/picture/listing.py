"""Packets as `dapcap` lists them, with what is worked out of their sequence numbers: retransmissions and gaps."""
import subprocess
from dataclasses import dataclass, field

from decnet.nsp import AHEAD, CONNECTS, NUMBERS
from decnet.program import FAULT, Fault
from picture.messages import BadLine, Message

BEGINS, ENDS = {"first", "only"}, {"last", "only"}
INITIATES = {bytes([kind]) for kind in CONNECTS}
CONNECT_SIZE = 5  # bytes of a connect initiate before which it has no sender


class Disagreement(Exception):
    """What is worked out here isn't what the listing says."""


@dataclass
class NspMessage:
    """A whole NSP message: the sequence numbers of its first and last segment, its length and its DAP messages."""

    first: int
    last: int
    length: int
    messages: list = field(default_factory=list)

    @property
    def segments(self):
        return (self.last - self.first) % NUMBERS + 1


@dataclass(frozen=True)
class Run:
    """A `part` or `gap` of the listing: its word, a stream, and a run of its sequence numbers."""

    word: str
    stream: tuple
    first: int
    last: int

    @property
    def count(self):
        return (self.last - self.first) % NUMBERS + 1


class Packet:
    """A packet, its line, and what is drawn of it."""

    def __init__(self, captured, words, runs):
        self.runs = runs  # the parts and gaps of the streams that it ends
        self.number, self.direction, self.data = captured.number, captured.direction, captured.data
        self.frame, self.time, self.nodes = captured.frame, captured.time, captured.nodes
        self.kind, self.words = words[0], words
        self.fields = dict(word.split("=", 1) for word in words if "=" in word)
        self.mark = words[1] if self.is_segment else None
        self.acks = self.fields.get("acks", "-")
        self.whole = None  # the NSP message that is whole with it
        self.retransmits = None  # the packet that had this segment first
        self.is_early = False  # a segment before it comes later, or never
        self.is_unfinished = False  # of an NSP message that is never whole
        self.gaps = []  # runs that are missing before it

    @property
    def is_segment(self):
        return self.kind == "segment"

    @property
    def messages(self):
        return self.whole.messages if self.whole else []

    @property
    def sequence(self):
        return int(self.fields["seg"])

    @property
    def stream(self):
        """Direction, nodes, receiver and sender of a segment."""
        return self.direction, self.nodes, self.fields["dst"], self.fields["src"]

    def ends(self, stream):
        """Whether it is a connect initiate which says that a stream is over: its link is opened again."""
        if len(self.data) < CONNECT_SIZE or self.data[:1] not in INITIATES:
            return False
        direction, nodes, receiver, sender = stream
        own = f"{int.from_bytes(self.data[3:5], 'little'):04x}"
        return nodes == self.nodes and own == (sender if direction == self.direction else receiver)


def list_packets(captured, dapcap):
    """The packets of captured ones, and the gaps, as `dapcap` lists them."""
    lines = "".join(f"{one.comment}\n" * bool(one.comment) + f"{one.direction} {one.data.hex()}\n" for one in captured)
    try:
        done = subprocess.run([dapcap, "--bare"], input=lines.encode(), stdout=subprocess.PIPE, check=False)
    except OSError as fault:
        raise Fault(f"{dapcap}: {fault.strerror}", FAULT) from fault
    if done.returncode:
        raise Fault(f"{dapcap}: ended with status {done.returncode}", FAULT)
    try:
        return read_listing(done.stdout.decode("ascii"), captured)
    except (BadLine, ValueError, IndexError, KeyError, AttributeError) as fault:
        raise Fault(f"{dapcap}: no listing: {str(fault)[:100]}", FAULT) from fault
    except Disagreement as fault:
        raise Fault(f"{dapcap}: not as its sequence numbers say: {fault}", FAULT) from fault


def nodes_in(direction, words):
    """The nodes at the beginning of words, `>` end first, and the words behind them."""
    if words[1:2] != ["->"]:
        return None, words
    return (words[0], words[2]) if direction == ">" else (words[2], words[0]), words[3:]


def read_listing(text, captured):
    """The packets of a listing, and the gaps."""
    packets, runs, gaps = [], [], []
    for line in text.splitlines():
        words = line.split()
        if line.startswith("  message "):
            first, last = words[1].removeprefix("seg=").split("..")
            packets[-1].whole = NspMessage(int(first), int(last), int(words[2].removeprefix("len=")))
        elif line.startswith("  "):
            packets[-1].whole.messages.append(Message(line[2:]))
        elif words[0] in ("part", "gap"):
            nodes, rest = nodes_in(words[1], words[2:])
            fields = dict(word.split("=", 1) for word in rest)
            first, last = fields["seg"].split("..")
            runs.append(Run(words[0], (words[1], nodes, fields["dst"], fields["src"]), int(first), int(last)))
            gaps += runs[-1:] if words[0] == "gap" else []
        else:
            packets.append(Packet(captured[len(packets)], nodes_in(words[1], words[2:])[1], runs))
            runs = []
    if len(packets) != len(captured):
        raise Disagreement(f"{len(packets)} packets of {len(captured)}")
    number_segments(packets, runs)
    return packets, gaps


def number_segments(packets, last_runs):
    """Marks retransmissions, gaps, and segments of messages that are never whole, by sequence numbers without modulus, which
    are worked out as docs/LISTING.md says; a Disagreement where parts and gaps aren't those of the listing."""
    streams, highest = {}, {}
    for packet in packets:
        for stream in ended_streams(packet, streams):
            mark_stream(stream, streams.pop(stream), packet.runs)
            del highest[stream]
        if not packet.is_segment:
            continue
        stream = packet.stream
        held = streams.setdefault(stream, {})
        sequence = sequence_near(packet.sequence, highest.get(stream))
        packet.retransmits = held.get(sequence)
        packet.is_early = stream in highest and sequence > highest[stream] + 1
        held.setdefault(sequence, packet)
        highest[stream] = max(highest.get(stream, sequence), sequence)
    for stream, held in streams.items():
        mark_stream(stream, held, last_runs)


def ended_streams(packet, streams):
    """The streams that end before a packet: by what it says, or by the listing."""
    if not packet.runs and packet.data[:1] not in INITIATES:
        return []
    of_runs = {run.stream for run in packet.runs}
    return [stream for stream in streams if stream in of_runs or packet.ends(stream)]


def mark_stream(stream, held, runs):
    """Marks the gaps and the segments without a whole message of a stream that has ended."""
    mark_gaps(held, [run for run in runs if (run.word, run.stream) == ("gap", stream)])
    unfinished = mark_unfinished(held)
    listed = [(run.first, run.last) for run in runs if (run.word, run.stream) == ("part", stream)]
    if unfinished != listed:
        raise Disagreement(f"stream {stream}: parts {unfinished[:3]}, and {listed[:3]} in the listing")


def sequence_near(number, highest):
    """The sequence number without modulus that is nearest to the highest so far."""
    if highest is None:
        return number + NUMBERS
    ahead = (number - highest) % NUMBERS
    return highest + (ahead if ahead <= AHEAD else ahead - NUMBERS)


def mark_gaps(held, gaps):
    """Gives each gap to the earliest packet after it in the stream."""
    earliest, gaps, above = None, list(gaps), None
    for sequence in sorted(held, reverse=True):
        if above is not None and above > sequence + 1:
            if not gaps or (gaps[-1].first, gaps[-1].last) != ((sequence + 1) % NUMBERS, (above - 1) % NUMBERS):
                raise Disagreement(f"a gap from {(sequence + 1) % NUMBERS} to {(above - 1) % NUMBERS}")
            earliest.gaps.insert(0, gaps.pop())
        packet = held[sequence]
        earliest = packet if earliest is None or packet.number < earliest.number else earliest
        above = sequence
    if gaps:
        raise Disagreement(f"a gap from {gaps[-1].first} to {gaps[-1].last} in the listing alone")


def mark_unfinished(held):
    """Marks the segments that belong to no whole message; their runs, each by its first and last number."""
    runs, run = [], []
    for sequence in sorted(held):
        run.append(held[sequence])
        after = held.get(sequence + 1)
        if run[-1].mark in ENDS or after is None or after.mark in BEGINS:
            if not (run[0].mark in BEGINS and run[-1].mark in ENDS):
                runs.append((run[0].sequence, run[-1].sequence))
                for packet in run:
                    packet.is_unfinished = True
            run = []
    return runs
