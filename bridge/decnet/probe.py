"""Conversations with the file access listener of another node, and the same ones with the proved end, without a network."""
import contextlib
import json
import random
import string
import time

from decnet import log, messages, nsp
from decnet.address import node_text
from decnet.link import Link, State
from decnet.locked import KeptFault
from decnet.nsp import Reason
from decnet.raw import RawEnd
from decnet.role import FAILED, Addresses, Stopped, turn
from decnet.talks import Names, erasing, talks

LOCAL, REMOTE, SEGMENT = 0x0A01, 0x0A02, 512  # of the links to the proved end
SOON = 0.05  # seconds for what nobody expects after an answer that is over
POLL = 0.01
STAMP_LETTERS = 4
# the last message of an answer after which none comes unless there is a fault
ENDING = (messages.CONFIG, messages.ACK, messages.COMPLETE, messages.STATUS)


def stamp():
    """What makes names of files new."""
    chance = random.SystemRandom()
    return "".join(chance.choice(string.ascii_uppercase + string.digits) for _ in range(STAMP_LETTERS))


def kinds_in(body):
    """The types of the DAP messages in an NSP message, as far as their headers can be read."""
    at = 0
    while at + 2 <= len(body):
        kind, flags = body[at], body[at + 1]
        yield kind
        size = 2 if flags & messages.LONG_LENGTH else 1
        if not flags & messages.HAS_LENGTH or flags & ~(messages.HAS_LENGTH | messages.LONG_LENGTH):
            return
        at += 2 + size + int.from_bytes(body[at + 2:at + 2 + size], "little")


def is_over(inbox):
    """Whether an answer ends with a message after which none comes: then little more is waited."""
    kinds = [kind for body in inbox for kind in kinds_in(body)]
    return bool(kinds) and kinds[-1] in ENDING


class Beside:
    """The proved end."""

    def __init__(self, end):
        self.end = end

    def answers(self, talk):
        """The NSP messages that answer each step."""
        raw, found = RawEnd(), []
        self.end.say(f"new {REMOTE:04x} {LOCAL:04x} {SEGMENT}")
        raw.renew(LOCAL, REMOTE, SEGMENT)
        for step in talk.steps:
            for body in step.bodies:
                self.exchange(raw, raw.say(body, step.cut))
            found.append(raw.take_inbox())
        return found

    def exchange(self, raw, lines):
        """Carries packets both ways until there are none."""
        way = list(lines)
        while way:
            for text in self.end.say("> " + way.pop(0)[2:]):
                if text.startswith("< "):
                    way += [one for one in raw.answer("> " + text[2:]) if one.startswith("< ")]


class Across:
    """The end of another node, over links of an end node."""

    def __init__(self, node, settings, to, session, quiet, signals, clock=time.monotonic):
        """An answer that doesn't end by itself is over when nothing came for `quiet` seconds."""
        self.node, self.settings, self.to, self.session = node, settings, to, session
        self.quiet, self.signals, self.clock = quiet, signals, clock
        self.addresses, self.link, self.heard_at = Addresses(), None, 0
        self.lost = ""  # why the last link was closed, where that was by the other end

    def answers(self, talk):
        """The NSP messages that answer each step; fewer steps where the link was closed."""
        raw, found = RawEnd(), []
        self.link = link = Link(self.node, raw, self.settings, self.node.way_to(self.to), self.addresses.next(), log.say)
        link.open(self.session)
        self.wait(lambda: link.state is State.RUNNING)
        for step in talk.steps:
            if link.state is not State.RUNNING:
                break
            for body in step.bodies:
                for line in raw.say(body, step.cut):
                    link.send_or_hold(link.read_packet(line[2:]))
                link.waits = raw.waits
                link.watch()
            self.wait(lambda: is_over(raw.inbox), self.quiet)
            self.wait(lambda: False, min(self.quiet, SOON))
            found.append(raw.take_inbox())
        self.lost = link.why if link.state is State.CLOSED else ""
        link.disconnect(Reason.NO_ERROR, "done")
        self.wait(lambda: False)
        return found

    def wait(self, is_done, quiet=None):
        """Carries packets until it is done, the link is closed, or for so long none came."""
        self.heard_at = self.clock()
        while not is_done() and self.link.state is not State.CLOSED:
            if quiet is not None and self.clock() >= self.heard_at + quiet and not self.link.waits:
                return
            times = [self.link.next_at(), self.node.hello_at, self.heard_at + quiet if quiet else None]
            seconds = min(at for at in times if at is not None) - self.clock()
            turn({self.node.socket: self.take_frame, **self.signals.files()}, {}, max(POLL, seconds))
            if self.signals.take_stop():
                raise Stopped(FAILED)
            self.node.say_hello()
            self.link.tick()

    def take_frame(self):
        """Takes a packet of the link; others are passed over."""
        arrived = self.node.receive()
        if not arrived:
            return
        with contextlib.suppress(nsp.BadPacket):
            packet = nsp.read(arrived.packet)
            if arrived.returned:
                self.link.returned()
            elif packet.kind not in nsp.CONNECTS and self.link.is_to(arrived.peer.node, packet):
                if packet.kind in nsp.SEGMENTS:
                    self.heard_at = self.clock()
                self.link.receive(arrived.peer, packet)


class Probe:
    """All conversations, or those that are named, with another end, and with the one `beside` where there is one."""

    def __init__(self, across, only=None):
        self.across, self.beside, self.names = across, None, Names(stamp())
        self.talks = [talk for talk in talks(self.names) if not only or talk.name in only]
        self.own, self.other, self.lost = {}, {}, {}  # by a conversation's name

    def run(self, told):
        """Has the conversations; `told` is called before each."""
        for talk in self.talks:
            told(talk.name)
            if self.beside:
                self.own[talk.name] = self.beside.answers(talk)
            self.other[talk.name] = self.across.answers(talk)
            self.lost[talk.name] = self.across.lost
            if not self.other[talk.name] and self.across.lost:
                log.say(f"node {node_text(self.across.to)}: {talk.name}: {self.across.lost}")

    def erase(self):
        """Asks the other end to remove the files that the conversations made; what answered that, by their names."""
        found = {}
        for name in self.names.made:
            answers = self.across.answers(erasing(name))
            found[name.decode()] = answers[1] if len(answers) > 1 else []
        return found


# ---- answers that are kept


def keep(path, talks_, answers):
    """Writes what answered into a file, which isn't there yet."""
    text = {talk.name: {step.label: [body.hex() for body in inbox] for step, inbox in zip(talk.steps, answers[talk.name])}
            for talk in talks_}
    try:
        with open(path, "x", encoding="ascii") as file:
            json.dump(text, file, indent=1)
            file.write("\n")
    except OSError as fault:
        raise KeptFault(f"{path}: {fault.strerror}", of_machine=not isinstance(fault, FileExistsError)) from fault


def kept(path, talks_):
    """What answered these conversations at an earlier time."""
    try:
        with open(path, encoding="ascii") as file:
            text = json.load(file)
        return {talk.name: [[bytes.fromhex(body) for body in text[talk.name][step.label]] for step in talk.steps
                            if step.label in text[talk.name]] for talk in talks_}
    except OSError as fault:
        raise KeptFault(f"{path}: {fault.strerror}", of_machine=True) from fault
    except KeyError as fault:
        raise KeptFault(f"{path}: it has no answers to the conversation {fault}") from fault
    except (ValueError, TypeError, AttributeError) as fault:
        raise KeptFault(f"{path}: it has no answers that --keep wrote") from fault
