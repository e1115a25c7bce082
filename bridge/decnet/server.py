"""The serving bridge: links to object 17, as many at once as are allowed, before a live end that holds the files."""
import collections
import itertools
import time
from dataclasses import dataclass

from decnet import log, manager, nsp
from decnet.address import node_text
from decnet.end import Answer
from decnet.journal import NOTE
from decnet.kept import FILE, RECORD
from decnet.link import MAX_PENDING, NO_MEMORY
from decnet.locked import KeptFault
from decnet.nsp import Reason
from decnet.role import FAULT, Role, Stopped, wait_for
from decnet.stored import left_links

OLD_SECONDS = 10  # how long connect initiates of a link that is closed may still come
MAX_OLD = 4096  # links of which that is remembered
MAX_UNANSWERED = 4000  # lines that the live end is told at the start before it answers the first
AT_ONCE = 1000  # lines that are written to it at once then


@dataclass(frozen=True)
class Entry:
    """Who may open a link."""

    nodes: frozenset = None  # only these, where any are named
    guard: object = None  # what checks users and passwords

    def is_open_to(self, node):
        return self.nodes is None or node in self.nodes

    def __str__(self):
        nodes = "nodes " + ", ".join(map(node_text, sorted(self.nodes))) if self.nodes else ""
        if self.guard is None:
            return f"{nodes or 'anybody'} may enter, with any user or none (no --users)"
        return f"{self.guard.users} may enter{nodes and ', from '}{nodes}"


class Server(Role):
    """Takes links for the object 17; its live end holds the files."""

    def __init__(self, node, end, settings, keeper=None, stop_after=None, store=None, space=None, entry=None,
                 clock=time.monotonic):
        """A `keeper` saves the files when one is closed; it ends when `stop_after` links are closed; a `store` keeps each
        line; `space` says how much is stored at most, and `entry` who may open a link."""
        super().__init__(node, end, settings, clock)
        self.keeper, self.stop_after, self.store, self.space = keeper, stop_after, store, space
        self.entry = entry or Entry()
        if self.entry.guard:
            self.entry.guard.checked = self.checked
        if keeper:
            keeper.failed = self.save_failed
            keeper.making = lambda: [link.making for link in self.links.values() if link.making is not None]
        if store:
            end.failed = self.store_failed
        self.stops = 0
        self.old = {}  # until when connect initiates of closed links are passed over, by their nodes and addresses

    # ---- links

    def connect(self, peer, packet):
        """A connect initiate came."""
        link = self.link_from(peer.node, packet.source)
        if link:
            link.connect_again()
        elif self.clock() < self.old.get((peer.node, packet.source), 0):
            return
        elif nsp.read_object(packet.body) != nsp.FAL:
            self.refuse(peer, packet, Reason.NO_OBJECT)
        elif not self.entry.is_open_to(peer.node):
            self.refuse(peer, packet, Reason.ACCESS_CONTROL)
        elif self.is_free(peer, packet):
            if self.entry.guard:
                self.entry.guard.check(peer, packet)
            else:
                self.take(peer, packet)

    def link_from(self, node, remote):
        """The link of another node by its address there."""
        return next((link for link in self.links.values() if (link.peer.node, link.remote) == (node, remote)), None)

    def has_room(self):
        """Whether one more link may be open."""
        most = self.settings.links if self.stop_after is None else min(self.settings.links, self.stop_after)
        return len(self.links) < most

    def is_free(self, peer, packet, who=""):
        """Whether a link can be taken now; a connect initiate is refused where not, or passed over where it will be soon."""
        if self.stops:
            self.refuse(peer, packet, Reason.SHUTTING_DOWN, who)
        elif not self.has_room():
            self.refuse(peer, packet, Reason.BUSY, who)
            for link in self.links.values():
                link.want(f"node {node_text(peer.node)} wants a link")
        elif self.store and self.store.look():
            self.refuse(peer, packet, Reason.NO_LINK_RESOURCES, who)
            self.store.try_again()
        else:
            return not (self.store and self.store.is_busy) and self.end_has_room()
        return False

    def end_has_room(self):
        """Whether the live end can be told of one more link: it may not have heard yet of those that came and went."""
        return self.end.unanswered < MAX_PENDING * (self.settings.links + 1)

    def checked(self, peer, packet, verdict):
        """It is known who sent a connect initiate, and what the link may do; or there is a reason why it isn't taken."""
        if verdict.reason is not None:
            self.refuse(peer, packet, verdict.reason, verdict.who, verdict.fault)
        elif self.is_free(peer, packet, verdict.who):
            self.take(peer, packet, verdict)
        self.look()

    def resume(self, left):
        """Goes on with a link that another bridge left."""
        while self.refusing == left.local:
            self.refusing = self.addresses.next()
        link = self.link_at(left.peer, left.local)
        self.add(link)
        link.resume(left)
        self.say_of(link, f"from node {node_text(left.peer.node)}, goes on as it was")

    def link_to(self, peer):
        """A link that isn't open yet, with an address that none has."""
        link = super().link_to(peer)
        return link if link.local not in self.links else self.link_to(peer)

    def link_at(self, peer, local):
        link = super().link_at(peer, local)
        link.locked_by = lambda holder: self.locked(link, holder)
        return link

    def locked(self, link, local):
        """A link asked for a file that another one has open: that one is asked whether its other end is there."""
        holder = self.links.get(local)
        if holder:
            if holder.wanted_at is None:
                link.noted(f"a file that it wants is open over link {local:04x}, from node {node_text(holder.peer.node)}")
            holder.want(f"node {node_text(link.peer.node)} wants a file that is open over it")

    def take(self, peer, packet, verdict=None):
        self.look_at_folder()
        link = self.link_to(peer)
        if not link.accept(packet, verdict and verdict.rights):
            self.node.send(peer, nsp.disconnect_confirm(packet.source, 0, Reason.NO_RESOURCES))
            self.log_refused(peer, packet, Reason.NO_RESOURCES, verdict.who if verdict else "")
            return
        if verdict:
            link.who = verdict.who
        self.add(link)
        self.say_of(link, f"from node {node_text(peer.node)}, whose address is {link.remote:04x}; "
                          f"segments of {link.segment} bytes; flow control: {link.flow.control.name.lower()}")

    def closed(self, link):
        """A link is closed. Where the other end had no such link it begins anew, perhaps with the same address."""
        if link.reason != Reason.NO_LINK:
            self.remember((link.peer.node, link.remote))
        if self.stop_after is not None and link.was_open:
            self.stop_after -= 1
        self.end_link(link.local)
        if self.store and not self.links:
            self.store.links_closed(is_last=self.stops > 0 or self.stop_after == 0)
        if self.space:
            self.space.link_closed()
        if self.keeper and link.making is not None:
            self.keeper.note_lost(link.making)
        self.save()

    def remember(self, source):
        """Connect initiates of a link that was closed are passed over for some time."""
        now = self.clock()
        self.old.pop(source, None)
        self.old[source] = now + OLD_SECONDS
        while len(self.old) > MAX_OLD or next(iter(self.old.values())) <= now:
            del self.old[next(iter(self.old))]

    def end_link(self, local):
        """Lets the live end forget a link; where it has one alone, it does so when the next one comes."""
        if self.settings.links > 1:
            self.end.tell(f"close {local:04x}", Answer(lambda answer: None))
        else:
            self.end.remark("link -")

    # ---- files

    def look_at_folder(self):
        """Where no link is open the live end is given what somebody has changed in the folder, before it is told of the
        next one."""
        changes = getattr(self.keeper and self.keeper.kept, "changes", None)
        if changes is None or self.links or self.keeper.is_due:
            return
        lines = changes()
        for text in self.keeper.kept.said():
            log.say(text)
        if lines and self.settings.links == 1:
            self.end.tell("new", Answer(lambda answer: None))  # so that no link is used
        for _, line in self.space.noted(enumerate(lines)) if self.space else enumerate(lines):
            self.end.queue(line, Answer(lambda answer, line=line: self.given(line, answer)))
        self.end.write()

    def given(self, line, answer):
        """The live end has this of a file of the folder, or refuses it."""
        folder = self.keeper.kept
        if answer and not folder.leaves_out(line, answer[0]) and NO_MEMORY in answer:
            log.say(f"{folder.path}: {answer[-1]}: not all of what was changed is served")
        for text in folder.said():
            log.say(text)

    def files(self):
        readers, writers = super().files()
        for one in (self.store, self.entry.guard):
            if one:
                readers.update(one.files())
        return readers, writers

    def next_at(self):
        at = self.entry.guard.next_at() if self.entry.guard else None
        return super().next_at() if at is None else min(at, super().next_at())

    def tick(self):
        super().tick()
        if self.entry.guard:
            self.entry.guard.tick()
        if self.store and self.store.has_grown_too_much:
            self.disconnect(Reason.NO_RESOURCES, "the store has grown as much as --growth allows for a link")

    def store_failed(self, fault):
        """A line can't be kept, and what answers it doesn't go out."""
        log.say(f"{fault}: nothing more is taken until the store can be written")
        self.disconnect(Reason.NO_RESOURCES, "the store can't be written")

    def save(self):
        """Saves the files where something isn't on the disk."""
        if self.keeper and self.keeper.is_changed:
            self.keeper.save()

    def save_failed(self, fault):
        """A save has failed. That doesn't end the bridge, which holds the files; but its exit status reports it."""
        log.say(f"{fault}: the files aren't saved")
        self.status = FAULT

    # ---- the end

    def lose_network(self):
        super().lose_network()
        self.save()

    def look(self):
        super().look()
        keepers = [one for one in (self.keeper, self.store) if one]
        is_saving = keepers and (self.end.is_busy or any(one.is_busy for one in keepers))
        self.is_done = not self.links and not is_saving and (self.stops > 0 or self.stop_after == 0)
        if self.is_done and self.store and self.store.fault:
            self.status = FAULT

    def stop(self):
        """The first time: closes the links that are open, saves the files, and ends. The second time the other end isn't
        waited for, the third time nothing is."""
        self.stops += 1
        if self.stops > 2:
            self.end.close_seconds = 0
            raise Stopped(FAULT)
        self.end.hurry()
        if self.stops == 1:
            manager.tell(manager.STOPPING)
            self.disconnect(Reason.SHUTTING_DOWN, "stopped by a signal")
        else:
            self.end.close_seconds = 1
            for link in self.links.values():
                link.close(link.why)
        if self.store and not self.links:
            self.store.stop()
        self.save()
        self.look()


# ---- the start


class Answers:
    """The answers to many lines, each of which has a number; `check` gets the number, the line and the answer, where
    there is one."""

    def __init__(self, check):
        self.check, self.lines, self.answer = check, collections.deque(), []

    def take(self, text):
        self.answer.append(text)

    def end(self):
        number, line = self.lines.popleft()
        if self.answer:
            answer, self.answer = self.answer, []
            self.check(number, line, answer)


def tell_all(end, lines, check, signals):
    """Tells a live end many lines, each with a number, before it has answered the first."""
    answers = Answers(check)

    def tell_more():
        if len(answers.lines) <= MAX_UNANSWERED - AT_ONCE:
            some = list(itertools.islice(lines, AT_ONCE))
            answers.lines.extend(some)
            end.queue_all([line for _, line in some], answers)
            end.write()

    wait_for(lambda: not answers.lines, end, signals, tell_more)


def load(end, path, lines, space, signals, folder=None):
    """Gives a live end files by such lines as `files` prints, each with its number; they come from `path`, or from a
    `folder`, which may leave some out."""
    def check(number, line, answer):
        if folder is None or not folder.leaves_out(line, answer[0]):
            where = f"{path}: '{line[:60]}'" if folder else f"{path}: line {number}"
            raise KeptFault(f"{where}: {answer[0]}", of_machine=answer[0] == NO_MEMORY)

    tell_all(end, space.noted(lines), check, signals)


def replay(end, journal, space, signals):
    """Tells a live end the lines of a journal; the links that were open then."""
    def check(number, line, answer):
        if line.startswith((FILE, RECORD)) or NO_MEMORY in answer:
            raise KeptFault(f"{journal.path}: line {number} after its marks: {answer[-1]}", of_machine=NO_MEMORY in answer)

    lines = journal.parsed.lines
    told = ((number, line) for number, line in enumerate(lines, 1) if line and not line.startswith(NOTE))
    tell_all(end, space.noted(told), check, signals)
    return left_links(lines)
