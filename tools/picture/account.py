"""What is said of a link before its picture: files, records and refusals."""
import collections
from dataclasses import dataclass

from picture.messages import CLOSE, DELETE, PURGE, Message
from picture.listing import Packet

REQUESTS = {"config", "access", "control", "continue", "complete"}


@dataclass
class Records:
    """Records that went one way."""

    count: int = 0
    size: int = 0

    def add(self, message):
        self.count += 1
        self.size += len(message.body)


@dataclass
class Opened:
    """An Access, and what came of it."""

    access: Message
    packet: Packet
    to: Records
    back: Records
    outcome: str = "no answer"
    attributes: str = ""
    refused: int = 0
    deleted: int = 0

    @property
    def is_refused(self):
        return self.outcome.startswith("refused")


@dataclass(frozen=True)
class Refusal:
    """A refusal, with the request that was the latest before it, or None."""

    status: Message
    packet: Packet
    request: Message | None
    request_packet: Packet | None


def client_of(packets):
    """The direction of what the client sends: Access or Control, else the first Configuration."""
    for words in ({"access", "control"}, {"config"}):
        for packet in packets:
            if any(one.word in words for one in packet.messages):
                return packet.direction
    return ">"


class Account:
    """Files, refusals and counts of messages, in the order of the messages."""

    def __init__(self, packets, client):
        self.files, self.refusals, self.kinds = [], [], collections.Counter()
        self.file, self.is_waiting = None, False  # the latest Access, and whether it has no answer yet
        self.request, self.request_packet = None, None
        for packet in packets:
            for one in packet.messages:
                self.kinds[one.kind] += 1
                if packet.direction == client:
                    self.take_request(one, packet)
                else:
                    self.take_response(one, packet)

    @property
    def is_open(self):
        return self.file is not None and not self.is_waiting

    def take_request(self, one, packet):
        if one.word in REQUESTS:
            self.request, self.request_packet = one, packet
        if one.word == "access":
            self.file, self.is_waiting = Opened(one, packet, Records(), Records()), True
            self.files.append(self.file)
        elif one.word == "data" and self.is_open:
            self.file.to.add(one)
        elif one.word == "complete" and self.is_open and one.number("func") in (CLOSE, PURGE):
            self.file.outcome = "closed" if one.number("func") == CLOSE else "purged"
        elif one.word == "status":
            self.take_status(one, packet, is_response=False)

    def take_response(self, one, packet):
        if one.word == "attributes" and self.is_waiting:
            self.file.attributes = one.detail
        elif one.word == "ack" and self.is_waiting:
            self.file.outcome, self.is_waiting = "left open", False
        elif one.word == "data" and self.is_open:
            self.file.back.add(one)
        elif one.word == "status":
            self.take_status(one, packet, is_response=True)

    def take_status(self, one, packet, is_response):
        if one.is_refusal:
            self.refusals.append(Refusal(one, packet, self.request, self.request_packet))
            if self.file is not None:
                self.file.refused += 1
            if self.is_waiting:
                self.file.outcome, self.is_waiting = f"refused: {one.text}", False
        elif is_response and self.is_open and self.request.word == "control" and self.request.number("func") == DELETE:
            self.file.deleted += 1
