"""The data segments of a link without any DAP: it says what bytes it is given, and keeps what comes. A link has it in place
of a live end."""
from decnet import nsp
from decnet.end import EndFault
from decnet.nsp import Kind, Qualifier

MAX_EARLY = 2047  # segments that came before the ones ahead of them
MAX_MESSAGE = 65_535  # bytes of an NSP message that is kept
FIRST, LAST = 0x20, 0x40  # in MSGFLG of a segment: it begins a message, and ends one


def ahead(number, of):
    """How far a number is ahead of another one; those before it are far ahead."""
    return (number - of) % nsp.NUMBERS


class RawEnd:
    """Takes the lines that a link tells a live end, and answers them at once."""

    program = "raw"

    def __init__(self):
        self.renew(0, 0, nsp.MIN_SEGMENT)

    def renew(self, local, remote, segment):
        """A new link."""
        self.local, self.remote, self.segment = local, remote, segment
        self.sent, self.unacknowledged = 0, {}  # segments by their numbers
        self.taken, self.early, self.begun = 0, {}, b""
        self.inbox = []  # the NSP messages that came

    @property
    def waits(self):
        return len(self.unacknowledged)

    def remark(self, text):
        """Nothing is kept."""

    def strange(self, text):
        return EndFault(f"what was to be sent is no packet: {text[:60]}")

    # ---- as a live end

    def tell(self, line, answer):
        for text in self.answer(line):
            answer.take(text)
        answer.end()

    def answer(self, line):
        """What a live end says to a line, without the last line of it."""
        word, *rest = line.split(" ")
        if word == "new":
            local, remote, segment = rest
            self.renew(int(local, 16), int(remote, 16), int(segment))
            return []
        if word == "resend":
            return [self.packet(number) for number in self.unacknowledged]
        if word == "ack":
            return [self.acknowledgement()]
        return self.take(nsp.read(bytes.fromhex(rest[0])))

    def take(self, packet):
        for qualifier, number in packet.acks:
            if qualifier is Qualifier.ACK:
                self.unacknowledged = {one: kept for one, kept in self.unacknowledged.items()
                                       if 0 < ahead(one, number) < nsp.AHEAD}
        if packet.kind not in nsp.SEGMENTS:
            return ["ack-only"]
        distance = ahead(packet.number, self.taken)
        if 0 < distance <= MAX_EARLY:
            self.early[packet.number] = packet
        while (next_one := (self.taken + 1) % nsp.NUMBERS) in self.early:
            self.taken = next_one
            self.join(self.early.pop(next_one))
        return ["accepted" if distance == 1 else "repeat", self.acknowledgement()]

    def join(self, packet):
        """Puts a segment after those of its message."""
        self.begun = (b"" if packet.kind & FIRST else self.begun) + packet.body
        self.begun = self.begun[:MAX_MESSAGE]
        if packet.kind & LAST:
            self.inbox.append(self.begun)
            self.begun = b""

    def acknowledgement(self):
        return "< " + nsp.data_ack(self.remote, self.local, Qualifier.ACK, self.taken).hex()

    # ---- what is said

    def say(self, body, cut=None):
        """The lines of an NSP message's packets; with `cut` segments have that many bytes."""
        size = cut or self.segment
        pieces = [body[at:at + size] for at in range(0, len(body), size)] or [b""]
        first = self.sent + 1
        for index, piece in enumerate(pieces):
            kind = Kind((FIRST if index == 0 else 0) | (LAST if index == len(pieces) - 1 else 0))
            self.sent += 1
            self.unacknowledged[self.sent % nsp.NUMBERS] = (kind, piece)
        return [self.packet(number % nsp.NUMBERS) for number in range(first, self.sent + 1)]

    def packet(self, number):
        kind, piece = self.unacknowledged[number]
        head = nsp.words(kind, self.remote, self.local, nsp.field(Qualifier.ACK, self.taken), number)
        return "< " + (head + piece).hex()

    def take_inbox(self):
        """The NSP messages that came since the last time."""
        found, self.inbox = self.inbox, []
        return found
