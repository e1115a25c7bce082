"""One NSP link between a live end and another node: its opening, what it carries, its timers, its closing."""
import enum
import time
from dataclasses import dataclass

from decnet import dap, nsp
from decnet.address import node_text
from decnet.end import Answer
from decnet.nsp import FlowControl, Kind, Modifier, Reason
from decnet.waiting import WINDOW, Waiting

CONFIRM_SECONDS = 60  # how long an announced link may take to be confirmed
PROMPT_SECONDS = 5  # how long an answer may take that a node gives at once, where two --resend aren't longer
CLOSING_TRIES = 5
STALLED_TRIES = 5  # without an answer or an acknowledgement, before that is said
MAX_PENDING = 64  # lines of a link that a live end hasn't answered; a packet that takes one more is as lost
MAX_PACKET = nsp.SEGMENT_HEADER + nsp.MAX_SEGMENT
# answers of a live end after which its link is of no more use
UNEXPECTED = "unexpected-answer"
LINK_FAILED = ("bad-sequence", "message-too-long", "exhausted", UNEXPECTED, "failed")
NO_MEMORY = "refused no-memory"
LOCKED = "locked"  # in an answer, before the address of the link that locks a file


@dataclass(frozen=True)
class Settings:
    """What the user chose for all links."""

    segment: int  # the most bytes of a segment that is taken
    resend: float  # seconds without an answer before a packet is retransmitted
    tries: int  # how often that is done
    idle: float  # seconds in which nothing came before the other end is asked whether it is there
    unused: float = None  # seconds without a new data segment before the link is closed; None for never
    waiting: int = None  # bytes of answers that may wait before the live end serves no more; None for any number
    window: int = WINDOW  # segments that the live end has on their way
    links: int = 1  # how many the live end may have at once; with more than one its lines name theirs


class State(enum.Enum):
    OPENING = "a connect initiate is on its way"
    ANNOUNCED = "the connect initiate was acknowledged"
    ACCEPTING = "the live end is told of the link"
    CONFIRMING = "a connect confirm is on its way"
    RUNNING = "the link is open"
    CLOSING = "a disconnect initiate is on its way"
    CLOSED = "the link is closed"


@dataclass(frozen=True)
class LeftLink:
    """A link that another bridge left open."""

    peer: object
    local: int
    remote: int
    segment: int
    taken: int = 0  # messages of the other-data subchannel
    is_on: bool = True  # whether data is wanted
    acknowledged: int = 0  # the highest segment that the other end has
    can_go_on: bool = True  # a link with flow control can't: nobody knows what may be sent


class Countdown:
    """A wait that begins again so often, until it is stopped."""

    def __init__(self, clock):
        self.clock, self.at, self.seconds, self.left = clock, None, 0, 0

    def start(self, seconds, tries):
        self.seconds, self.left, self.at = seconds, tries, self.clock() + seconds

    def stop(self):
        self.at = None

    def is_due(self):
        return self.at is not None and self.clock() >= self.at

    def again(self):
        """Begins the wait anew; false where it was begun often enough."""
        self.left -= 1
        self.at = self.clock() + self.seconds
        return self.left >= 0


class Flow:
    """Which segments may go now; the others are held, and go when the other end asks for them.

    While it `is_shut` none may go. Without flow control all are wanted. With segment or message flow control each segment
    that goes for the first time needs a count above 0, and takes 1 from it: with segment flow control always, with message
    flow control where it ends a message. A segment that is retransmitted takes nothing.
    """

    def __init__(self, control):
        self.control, self.count, self.is_on, self.is_shut = control, 0, True, False
        self.newest = 0  # the highest number that went
        self.held = {}  # packets by their numbers, the lowest first

    def take(self, number, ends_message, packet):
        """Whether this segment may go; where it may not, it is held."""
        if self.may_go(number):
            self.went(number, ends_message)
            return True
        self.held[number] = (ends_message, packet)
        return False

    def is_new(self, number):
        return 0 < (number - self.newest) % nsp.NUMBERS < nsp.AHEAD

    def may_go(self, number):
        if self.is_shut or not self.is_on:
            return False
        return self.control is FlowControl.NONE or self.count > 0 or not self.is_new(number)

    def forget(self, number):
        """The other end has the segments up to a number: none of them is held."""
        for held in list(self.held):
            if (number - held) % nsp.NUMBERS < nsp.AHEAD:
                del self.held[held]

    def went(self, number, ends_message):
        if self.is_new(number):
            self.newest = number
            if self.control is FlowControl.SEGMENTS or (self.control is FlowControl.MESSAGES and ends_message):
                self.count -= 1

    def freed(self):
        """The held packets that may go now, which are held no more."""
        packets = []
        while self.held:
            number, (ends_message, packet) = next(iter(self.held.items()))
            if not self.may_go(number):
                break
            del self.held[number]
            self.went(number, ends_message)
            packets.append(packet)
        return packets

    def change(self, service):
        """A link service message's requests for data."""
        if service.modifier is not Modifier.NO_CHANGE:
            self.is_on = service.modifier is Modifier.START
        if not service.is_interrupts:
            self.count = max(0, self.count + service.count)


class OtherData:
    """The other-data subchannel: link service and interrupt messages, numbered and acknowledged by themselves."""

    def __init__(self, clock):
        self.taken, self.sent, self.is_resumed = 0, 0, False
        self.modifier = Modifier.NO_CHANGE  # of the message that was sent last
        self.countdown = Countdown(clock)

    def takes(self, number):
        """Whether a message is the next one; it is taken."""
        if number != (self.taken + 1) % nsp.NUMBERS:
            return False
        self.taken = number
        return True

    def acknowledged(self, number):
        if self.is_resumed and 0 < (number - self.sent) % nsp.NUMBERS < nsp.AHEAD:
            self.sent = number  # of the bridge before
        if number == self.sent:
            self.countdown.stop()

    def resume(self, taken):
        """Continues after the messages that a bridge before this one took; what that one sent isn't known."""
        self.taken, self.is_resumed = taken, True


class Link:
    """One link. It acts on nothing but its end node, its live end, and what keeps the files of that."""

    def __init__(self, node, end, settings, peer, local, told, keeper=None, space=None, clock=time.monotonic):
        """`told` is called with each report of the live end, and with what it says of refused memory. An answer that
        says that a file is closed goes out when the `keeper` has saved what was changed. Where the `space` is full
        nothing is stored."""
        self.node, self.end, self.settings, self.told, self.clock = node, end, settings, told, clock
        self.keeper, self.space = keeper, space
        self.carried = lambda count: None  # told of the bytes of each new segment, either way
        self.noted = lambda text: None  # told of what is to be said of it while it is open
        self.explain = lambda packet: ""  # what to say of a packet that brought an answer out of sequence
        self.locked_by = lambda local: None  # told of the link that has a file open which this one can't have
        self.is_full = lambda: False  # whether nothing more of the data can be taken
        self.peer, self.local, self.remote = peer, local, 0
        self.state, self.was_open = State.CLOSED, False
        self.why, self.reason = "", None  # why it was closed, in words; the reason that the other end gave
        self.packet = b""  # of the opening or closing, sent until it is answered
        self.countdown = Countdown(clock)
        self.resend = Countdown(clock)
        self.other = OtherData(clock)
        self.flow = Flow(FlowControl.NONE)
        self.waiting, self.is_told = Waiting(settings.waiting, settings.window), False
        self.segment, self.rights = settings.segment, None  # in words, where they are said
        self.who = ""  # its user, as the log has it
        self.acknowledged = 0  # the highest segment that the other end has
        self.pending = 0  # lines that the live end hasn't answered
        self.waits = 0  # how many of its packets wait to be acknowledged, as its last answer says
        self.is_data_wanted = True  # as the other end was told last
        self.has_changed = False  # whether anything came on it that may change files
        self.saves = 0  # saves that answers wait for
        self.asked_for = self.making = None  # the name, as it was asked for, of a file that is to be made, and of one that is
        self.wanted_at = None  # when somebody wanted its slot or its file, since it was heard
        self.wanted_by = ""  # who, and what
        self.has_asked, self.is_wanted = False, False  # whether a segment was taken; whether somebody wanted it while none was
        self.half_open_until = None
        # when anything came; when a new segment came; when that, or an acknowledgement of one more segment, came
        self.heard_at = self.used_at = self.moved_at = clock()

    # ---- opening

    def open(self, session):
        """Asks the peer for a link."""
        self.state = State.OPENING
        self.send_until_answered(nsp.connect(self.local, self.settings.segment, session), self.settings.tries)

    def accept(self, connect, rights=None):
        """Takes the link that a connect initiate asks for, with these rights or as before; false where the end can't have
        it. The connect confirm goes out when the live end has the link. After an acknowledgement the connect initiate isn't
        retransmitted: where the link is kept, that waits too."""
        if not self.read_sizes(connect):
            return False
        self.rights = rights
        self.state = State.ACCEPTING
        if not self.end.is_kept:
            self.send(nsp.connect_ack(self.remote))
        self.begin(self.accepted)
        return True

    def accepted(self, answer):
        """The live end has the link, or refuses it."""
        if self.state is not State.ACCEPTING:
            return
        if answer:
            self.send(nsp.disconnect_confirm(self.remote, 0, Reason.NO_RESOURCES))
            self.close(f"the live end can't have the link: {answer[0]}")
            return
        self.end.remark(self.note())
        if self.state is State.ACCEPTING:
            if self.end.is_kept:
                self.send(nsp.connect_ack(self.remote))
            self.half_open_until = self.clock() + self.prompt()
            self.confirm()

    def confirm(self):
        self.state = State.CONFIRMING
        self.send_until_answered(nsp.confirm(self.remote, self.local, self.settings.segment), self.settings.tries)

    def note(self):
        """What a bridge has to know besides the live end to go on with the link."""
        station, flow = self.peer.station.hex(), self.flow.control.name.lower()
        return f"link {node_text(self.peer.node)} {station} {self.local:04x} {self.remote:04x} {self.segment} {flow}"

    def resume(self, left):
        """Goes on with a link that another bridge left, before the same live end. The other end may not have the connect
        confirm; where it has, it acknowledges it again."""
        self.remote, self.segment, self.acknowledged = left.remote, left.segment, left.acknowledged
        self.waiting.newest = self.waiting.acknowledged = left.acknowledged
        self.other.resume(left.taken)
        self.flow.is_on, self.has_asked = left.is_on, True
        self.confirm()
        self.tell(self.named("ack"))  # of which nothing is sent yet: what waits is told after it

    def connect_again(self):
        """The connect initiate came another time. Where the link is open the other end may have begun anew: it is
        asked."""
        is_known = self.state in (State.CONFIRMING, State.RUNNING)
        if is_known or (self.state is State.ACCEPTING and not self.end.is_kept):
            self.send(nsp.connect_ack(self.remote))
        self.probe()

    def read_sizes(self, packet):
        """Takes the other end's address, segment size and flow control; false where they can't be had."""
        self.remote, self.segment = packet.source, min(self.settings.segment, packet.segment)
        if packet.flow_control is None or packet.segment < nsp.MIN_SEGMENT:
            return False
        self.flow = Flow(packet.flow_control)
        return True

    def begin(self, then):
        """Gives the live end the link's addresses and segment size, and its rights."""
        rights = "" if self.rights is None else f" {self.rights}"
        self.ask_end(f"new {self.local:04x} {self.remote:04x} {self.segment}{rights}", then)

    def run(self):
        self.state, self.was_open = State.RUNNING, True
        self.countdown.stop()
        self.used_at = self.clock()

    def announced(self):
        """The peer has the connect initiate; its answer may take long."""
        if self.state is State.OPENING:
            self.state = State.ANNOUNCED
            self.countdown.start(CONFIRM_SECONDS, 0)

    def confirmed(self, packet):
        """The peer takes the link. What is told then is an acknowledgement of no segment."""
        if self.state in (State.OPENING, State.ANNOUNCED):
            is_good = self.read_sizes(packet)
            self.run()
            if is_good:
                self.begin(self.begun)
            else:
                self.begun(["segments of less than 64 bytes, or an unknown flow control"])
        if self.state is State.RUNNING and self.has_room():
            self.tell(self.named("ack"))

    def begun(self, answer):
        if answer:
            self.disconnect(Reason.ABORTED, f"the link of the connect confirm can't be had: {answer[0]}")

    # ---- closing

    def disconnect(self, reason, why):
        """Closes the link from this side."""
        if self.state in (State.CLOSING, State.CLOSED):
            return
        self.why = why
        self.stop_timers()
        if self.state in (State.OPENING, State.ANNOUNCED):
            self.close(why)
            return
        self.state = State.CLOSING
        self.send_until_answered(nsp.disconnect(self.remote, self.local, reason), CLOSING_TRIES)

    def disconnected(self, packet):
        """The other end refuses the link, or closes it."""
        self.send(nsp.disconnect_confirm(packet.source, self.local, Reason.COMPLETE))
        self.close_by_other(packet.reason)

    def confirmed_closed(self, packet):
        """The other end has closed the link, has no such link, or no room for one."""
        self.close_by_other(packet.reason)

    def returned(self):
        """A router gave the connect initiate back."""
        if self.state is State.OPENING:
            self.close(f"{nsp.reason_text(Reason.UNREACHABLE)}: a router gave the connect initiate back")

    def close_by_other(self, reason):
        what = "closed" if self.was_open else "refused"
        self.reason = reason
        self.close(self.why or f"{what} by node {node_text(self.peer.node)}, {nsp.reason_text(reason)}")

    def close(self, why):
        self.stop_timers()
        self.state, self.why = State.CLOSED, why

    def stop_timers(self):
        self.half_open_until = None
        for countdown in (self.countdown, self.resend, self.other.countdown):
            countdown.stop()

    # ---- what comes

    def is_to(self, node, packet):
        """Whether a packet of a node is this link's."""
        return node == self.peer.node and packet.destination == self.local and self.state is not State.CLOSED

    def is_from(self, packet):
        """Whether a packet of this link has the other end's address, which nobody else knows."""
        if packet.kind is Kind.CONNECT_ACK:
            return True
        if self.state in (State.OPENING, State.ANNOUNCED):
            return packet.kind in (Kind.CONFIRM, Kind.DISCONNECT, Kind.DISCONNECT_CONFIRM)
        return packet.source == self.remote

    def receive(self, peer, packet):
        """Takes a packet of this link."""
        if not self.is_from(packet):
            return
        self.peer, self.heard_at, self.wanted_at = peer, self.clock(), None
        if packet.kind is Kind.CONNECT_ACK:
            self.announced()
        elif packet.kind is Kind.CONFIRM:
            self.confirmed(packet)
        elif packet.kind is Kind.DISCONNECT:
            self.disconnected(packet)
        elif packet.kind is Kind.DISCONNECT_CONFIRM:
            self.confirmed_closed(packet)
        else:
            self.carry(packet)

    def carry(self, packet):
        """Takes a packet of one of the two subchannels."""
        if self.state is State.CONFIRMING:
            self.half_open_until = None
            self.run()
        if self.state is not State.RUNNING:
            return
        if packet.kind in nsp.DATA:
            self.take_data(packet)
        else:
            self.take_other(packet)

    def has_room(self):
        """Whether the live end can be told one more line of what comes."""
        return self.pending < MAX_PENDING

    def take_data(self, packet):
        if not self.has_room():
            return
        if packet.kind in nsp.SEGMENTS and self.is_full():
            packet = nsp.without_data(packet)
            if packet is None:
                return
        for qualifier, number in packet.acks:
            if qualifier in nsp.OF_OTHER_SUBCHANNEL:
                self.other.acknowledged(number)
            else:
                self.note_progress(number)
        if packet.kind in nsp.SEGMENTS:
            self.note_change(packet)
        if self.state is State.RUNNING:
            self.ask_end("> " + packet.whole.hex(), lambda answer: self.do(answer, packet))

    def note_change(self, packet):
        """Takes note of a segment that may change files. One that may need more space than there is closes the link."""
        is_whole = packet.kind is Kind.ONLY
        if is_whole and not dap.may_change(packet.body):
            if self.space and dap.may_be_kept(packet.body):
                self.space.take(len(packet.body))
            return
        if self.space and (not is_whole or dap.may_store(packet.body)):
            if self.space.is_full:
                self.disconnect(Reason.NO_RESOURCES, "the files have as many bytes as --space allows")
                return
            self.space.take(len(packet.body))
        if self.keeper:
            self.has_changed = True
            begins = packet.kind in nsp.FIRSTS
            self.keeper.note_change(dap.names_erased(packet.body) if begins else ())
            self.asked_for = (begins and dap.name_made(packet.body)) or self.asked_for

    def take_other(self, packet):
        for qualifier, number in packet.acks:
            if qualifier not in nsp.OF_OTHER_SUBCHANNEL:
                self.other.acknowledged(number)
            elif self.has_room():
                self.note_progress(number)
                inner = nsp.data_ack(self.local, self.remote, nsp.OF_OTHER_SUBCHANNEL[qualifier], number)
                self.tell("> " + inner.hex())
        if packet.kind in nsp.NUMBERED_OTHER and self.state is State.RUNNING:
            self.take_message(packet)

    def take_message(self, packet):
        """A link service message, or an interrupt message, which nothing here wants."""
        before = self.other.taken
        if self.other.takes(packet.number) and packet.kind is Kind.LINK_SERVICE:
            service = nsp.read_link_service(packet.body)
            if service:
                self.flow.change(service)
        if self.other.taken != before:
            self.end.remark(f"other {self.local:04x} {self.other.taken} {'on' if self.flow.is_on else 'off'}")
        if self.state is State.RUNNING:
            self.send(nsp.other_ack(self.remote, self.local, self.other.taken))
            self.send_freed()

    def note_progress(self, number):
        """The other end has the segments up to a number: what waits more has all its tries again."""
        count = (number - self.acknowledged) % nsp.NUMBERS
        if 0 < count < nsp.AHEAD:
            self.carried(count * self.segment)
            self.acknowledged, self.moved_at = number, self.clock()
            self.waiting.acknowledge(number)
            self.flow.forget(number)
            self.resend.stop()

    # ---- the live end

    def ask_end(self, line, then):
        """Tells the live end a line; `then` is called with the answer."""
        self.pending += 1
        self.end.tell(line, Answer(lambda answer: self.answered(answer, then)))

    def named(self, word):
        """A line of the live end that concerns this link."""
        return f"{word} {self.local:04x}" if self.settings.links > 1 else word

    def tell(self, line):
        """Tells the live end a line, and does what its answer says when it comes."""
        self.ask_end(line, self.do)

    def answered(self, answer, then):
        self.pending -= 1
        if answer != [NO_MEMORY]:  # which leaves the link as it was, and may not say what waits on it
            self.waits = self.end.waits
        then(answer)
        self.watch()

    def do(self, answer, packet=None):
        """Does what an answer of the live end says, to this packet or to another line."""
        failed = ""
        for text in answer:
            word, _, rest = text.partition(" ")
            if word == "<":
                self.write(self.read_packet(rest))
            elif word == "accepted":
                self.took(packet)
            elif word == "report":
                self.told(text)
            elif word == LOCKED:
                self.locked_by(int(rest, 16))
            elif text == NO_MEMORY:
                self.waiting.lacked_memory()
                self.told(text)
            elif word == "refused" and rest.split(" ")[0].rstrip(":") in LINK_FAILED:
                failed = failed or rest
        if failed:
            why = self.explain(packet) if packet and failed == UNEXPECTED else ""
            self.disconnect(Reason.ABORTED, f"the live end refused: {failed}{why and ': '}{why}")
        self.note_limit()

    def took(self, packet):
        """The live end took a new segment."""
        self.has_asked, self.used_at = True, self.clock()
        self.moved_at = self.used_at
        if packet:
            self.carried(len(packet.body))
            self.waiting.took(packet)

    def write(self, packet):
        """The live end wrote a packet."""
        if packet.kind in nsp.SEGMENTS:
            self.waiting.wrote(packet)
        self.send_or_hold(packet)

    def note_limit(self):
        """Says once that so much waits that the live end serves no more."""
        if self.waiting.is_met and not self.is_told:
            self.is_told = True
            self.noted(f"node {node_text(self.peer.node)} lets {self.waiting.known} bytes of answers wait, and "
                       f"--waiting allows {self.waiting.most}: what else it asks is served as it acknowledges them")

    def read_packet(self, text):
        """A packet of the live end."""
        try:
            packet = nsp.read(bytes.fromhex(text))
        except (ValueError, nsp.BadPacket) as fault:
            raise self.end.strange(text) from fault
        if len(packet.whole) > MAX_PACKET:
            raise self.end.strange(text)
        return packet

    # ---- what goes

    def send(self, packet, return_wanted=False):
        self.node.send(self.peer, packet, return_wanted)

    def send_until_answered(self, packet, tries):
        self.packet = packet
        self.countdown.start(self.settings.resend, tries)
        self.send(packet, return_wanted=self.state is State.OPENING)

    def send_or_hold(self, packet):
        """Sends a packet of the live end, or holds a segment that may not go yet, and sends alone what it
        acknowledges."""
        if self.state is not State.RUNNING:
            return
        if packet.kind not in nsp.SEGMENTS:
            self.send(packet.whole)
            return
        self.note_answer(packet.body)
        self.save_before(packet)
        was_held = packet.number in self.flow.held
        if self.flow.take(packet.number, packet.kind in nsp.LASTS, packet.whole):
            self.send(packet.whole)
        elif packet.acks and not was_held:
            self.send(nsp.data_ack(self.remote, self.local, *packet.acks[0]))

    def note_answer(self, body):
        """Takes note of the file that is made over this link, from the answer to its Access to that to its Access Complete."""
        if self.asked_for is self.making is None:
            return
        if self.asked_for is not None and dap.says_opened(body):
            self.making, self.asked_for = self.asked_for, None
        if dap.says_closed(body):
            self.making = self.asked_for = None

    def save_before(self, packet):
        """Begins a save where a packet says that a file is closed, and what this link may have changed isn't on the
        disk: the packet, and all segments after it, go out when it is."""
        if self.has_changed and packet.kind is Kind.ONLY and dap.says_closed(packet.body) and self.keeper.is_due:
            self.flow.is_shut = True
            self.saves += 1
            self.keeper.save(self.saved)

    def saved(self, fault):
        """The files are on the disk; or they aren't, and the other end isn't told that its file is closed."""
        self.saves -= 1
        if fault:
            self.disconnect(Reason.ABORTED, "the files aren't saved")
        elif not self.saves:
            self.flow.is_shut = False
            self.send_freed()

    def send_freed(self):
        if self.state is State.RUNNING:
            for packet in self.flow.freed():
                self.send(packet)
            self.watch()

    def watch(self):
        """Runs the timer while segments that went aren't acknowledged."""
        is_stopped = self.flow.is_shut or not self.flow.is_on
        if self.state is not State.RUNNING or is_stopped or self.waits <= len(self.flow.held):
            self.resend.stop()
        elif self.resend.at is None:
            self.resend.start(self.settings.resend, self.settings.tries)

    def probe(self, modifier=Modifier.NO_CHANGE):
        """Asks the other end whether it is there, by a link service message, which changes nothing by default. One is on its
        way at a time; whether this one is."""
        if self.state is not State.RUNNING or self.other.countdown.at is not None:
            return False
        self.other.sent, self.other.modifier = (self.other.sent + 1) % nsp.NUMBERS, modifier
        self.other.countdown.start(self.settings.resend, self.settings.tries)
        self.send_probe()
        return True

    def send_probe(self):
        self.send(nsp.link_service(self.remote, self.local, self.other.taken, self.other.sent, self.other.modifier))

    def want_data(self, is_wanted):
        """Lets the other end send no new data, or send it again, where it was told otherwise."""
        if is_wanted != self.is_data_wanted and self.probe(Modifier.START if is_wanted else Modifier.STOP):
            self.is_data_wanted = is_wanted

    def want(self, who):
        """Somebody wants its slot or its file: it is closed where its other end is silent for too long, or has asked nothing
        since the link was opened."""
        if self.wanted_at is None:
            self.wanted_at, self.wanted_by = self.clock(), who
        self.is_wanted = not self.has_asked
        self.probe()

    # ---- the clock

    def prompt(self):
        return max(PROMPT_SECONDS, 2 * self.settings.resend)

    def wanted_until(self):
        """When a silent link is closed that another node wants."""
        return max(self.heard_at + self.settings.idle, self.wanted_at + self.prompt())

    def tick(self):
        """Does what it is time for."""
        if self.half_open_until is not None and self.clock() >= self.half_open_until:
            self.give_up()
        if self.countdown.is_due():
            self.shake_again()
        if self.resend.is_due() and not self.pending:
            if self.resend.again():
                self.note_stall()
                self.tell(self.named("resend"))
            else:
                self.give_up()
        if self.other.countdown.is_due():
            if self.other.countdown.again():
                self.send_probe()
            else:
                self.give_up()
        if self.state is State.RUNNING:
            self.look_at_silence()

    def note_stall(self):
        """Says once that nothing is acknowledged for long: what is answered meanwhile waits."""
        if self.settings.tries - self.resend.left == STALLED_TRIES:
            self.noted(f"node {node_text(self.peer.node)} acknowledges nothing; {self.waits} segments wait")

    def look_at_silence(self):
        """Asks a silent other end whether it is there, and closes a link that is of no use."""
        if self.wanted_at is not None and self.clock() >= self.wanted_until():
            seconds = self.clock() - self.heard_at
            self.give_up(f" for {seconds:.0f} seconds, and {self.wanted_by}")
        elif self.clock() >= self.heard_at + self.settings.idle:
            self.probe()
        if self.gives_way() and self.clock() >= self.used_at + self.settings.idle:
            why = f"no request within {self.settings.idle:g} seconds since it was opened, and {self.wanted_by}"
            self.disconnect(Reason.TIMED_OUT, why)
        if self.settings.unused and self.clock() >= self.used_at + self.settings.unused:
            self.disconnect(Reason.TIMED_OUT, f"no request within {self.settings.unused:g} seconds")

    def gives_way(self):
        """Whether it is closed after --idle, since somebody wants it and nothing was asked on it yet."""
        return self.is_wanted and not self.has_asked and not self.pending

    def shake_again(self):
        """A packet of the opening or closing wasn't answered."""
        if not self.countdown.again():
            self.give_up()
            return
        if self.state is State.OPENING and self.settings.tries - self.countdown.left == STALLED_TRIES:
            self.noted(f"no answer from node {node_text(self.peer.node)} yet")
        if self.packet[0] == Kind.CONNECT:
            self.packet = nsp.connect_again(self.packet)
        self.send(self.packet, return_wanted=self.state is State.OPENING)

    def give_up(self, more=""):
        """Closes the link, of which nothing is heard any more."""
        waits = self.waits if self.state is State.RUNNING else 0
        segments = f"; {waits} segments weren't acknowledged" if waits else ""
        self.close(self.why or f"no answer from node {node_text(self.peer.node)}{more}{segments}")

    def next_at(self):
        """When it is time for something, or None."""
        times = [self.countdown.at, self.other.countdown.at, self.half_open_until]
        if not self.pending:
            times.append(self.resend.at)
        if self.state is State.RUNNING:
            if self.wanted_at is not None:
                times.append(self.wanted_until())
            if self.other.countdown.at is None:
                times.append(self.heard_at + self.settings.idle)
            if self.gives_way():
                times.append(self.used_at + self.settings.idle)
            if self.settings.unused:
                times.append(self.used_at + self.settings.unused)
        return min((at for at in times if at is not None), default=None)
