"""NSP packets of a capture, as `dapcap --lines` writes them: of pcap, pcapng, or the lines of a capture."""
import re
import subprocess
import tempfile
from dataclasses import dataclass

from decnet.program import FAULT, Fault

MAX_PACKETS = 10_000  # of a page
LINE = re.compile(r"([<>]) ((?:[0-9a-f]{2})*)")
COMMENT = re.compile(r"# frame ([0-9]+) (-|[0-9]+\.[0-9]+) ([0-9]+\.[0-9]+) -> ([0-9]+\.[0-9]+)")
COUNTS = re.compile(r"taken [0-9]+ passed ([0-9]+)")
BAD_LINE = re.compile(r"bad line ([0-9]+)")
FAULTY = re.compile(r"bad ([a-z-]+) at=([0-9]+)")
WHY = {"cut-short": "the end of the file, which is cut short", "link-type": "frames that are not those of Ethernet"}


@dataclass(frozen=True)
class Captured:
    """An NSP packet. `nodes` are the addresses of the node that sends what has `>` and of the other, where they are known."""

    number: int  # among the packets of the file, from 1
    direction: str
    data: bytes
    comment: str | None  # the line before it, where that says where it came from
    frame: int | None
    time: float | None
    nodes: tuple | None


class Chosen:
    """The packets of a range; all, and at most as many as a page may have, where there is none."""

    def __init__(self, name, chosen):
        self.name, self.range = name, chosen
        self.packets, self.total = [], 0
        if chosen and chosen[1] - chosen[0] >= MAX_PACKETS:
            raise Fault(f"--range {chosen[0]}-{chosen[1]}: more than {MAX_PACKETS:,} packets")

    def add(self, comment, direction, digits):
        self.total += 1
        first, last = self.range or (1, MAX_PACKETS)
        if first <= self.total <= last:
            self.packets.append(Captured(self.total, direction, bytes.fromhex(digits), *origin(comment, direction)))

    def all(self):
        if not self.range and self.total > MAX_PACKETS:
            raise Fault(f"{self.name}: {self.total:,} packets, and a page has at most {MAX_PACKETS:,}: choose some, as "
                        f"--range 1-{MAX_PACKETS}")
        if self.total and not self.packets:
            raise Fault(f"{self.name}: {self.total:,} packets, and none in --range {self.range[0]}-{self.range[1]}")
        return self.packets


def origin(comment, direction):
    """The comment, the frame, its time and both nodes."""
    if comment is None:
        return None, None, None, None
    frame, time, sender, receiver = COMMENT.fullmatch(comment).groups()
    nodes = (sender, receiver) if direction == ">" else (receiver, sender)
    return comment, int(frame), None if time == "-" else float(time), nodes


def read_capture(name, file, chosen, dapcap):
    """The packets of a file that is open for bytes, and what is to be known of what was left out."""
    packets = Chosen(name, chosen)
    with tempfile.TemporaryFile("w+") as told:
        try:
            child = subprocess.Popen([dapcap, "--lines"], stdin=file, stdout=subprocess.PIPE, stderr=told, text=True)
        except OSError as fault:
            raise Fault(f"{dapcap}: {fault.strerror}", FAULT) from fault
        with child:
            take_lines(dapcap, child.stdout, packets)
        told.seek(0)
        told = told.read()
    notes = notes_of(name, dapcap, child.returncode, told)
    if not packets.total and not told:
        raise Fault(f"{dapcap} --lines: it lists nothing", FAULT)
    if not packets.total:
        raise Fault(f"{name}: no DECnet data packets{': ' + '; '.join(notes) if notes else ''}")
    return packets.all(), notes


def take_lines(dapcap, lines, packets):
    comment = None
    for line in lines:
        line = line.removesuffix("\n")
        if COMMENT.fullmatch(line):
            comment = line
        elif found := LINE.fullmatch(line):
            packets.add(comment, *found.groups())
            comment = None
        else:
            raise Fault(f"{dapcap} --lines: no packet: {line[:100]}", FAULT)


def notes_of(name, dapcap, status, told):
    """Notes on what was left out, by what was reported."""
    notes = []
    for line in told.splitlines():
        if found := BAD_LINE.fullmatch(line):
            raise Fault(f"{name}: line {found[1]} is no packet (> or <, a space, and bytes in hex), and the file is neither pcap "
                        "nor pcapng")
        if found := FAULTY.fullmatch(line):
            if found[1] == "unknown":
                raise Fault(f"{name}: it is neither pcap nor pcapng, and has no lines of a capture")
            notes.append(WHY.get(found[1]) or f"what is behind offset {found[2]}, where the file is at fault: {found[1]}")
        if (found := COUNTS.fullmatch(line)) and found[1] != "0":
            notes.append(f"{int(found[1]):,} frames of another kind")
    if status not in (0, 1) or status == 1 and not told:
        raise Fault(f"{dapcap} --lines: ended with status {status}{': ' + told.strip() if told else ''}", FAULT)
    return notes
