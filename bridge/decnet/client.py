"""The asking bridge: one link to object 17 of a node, and over it what the lines of standard input ask."""
import contextlib
import os
import sys
import time

from decnet import answers, dap, log
from decnet.end import Lines as Pieces
from decnet.link import State
from decnet.nsp import Kind, Reason
from decnet.role import FAILED, GOOD, Role
from decnet.scripts import STOPPED

MAX_LINE = 16_777_216  # the most bytes of a line that a live end takes
CHUNK = 65536


class InputFault(Exception):
    """Standard input or output can't be used."""


class Requests:
    """The requests on standard input with the numbers of their lines, as they come."""

    def __init__(self, file):
        self.file, self.whole, self.rest, self.count, self.is_open = file, [], Pieces(), 0, True

    def read(self):
        """Reads what is there."""
        try:
            chunk = os.read(self.file, CHUNK)
        except OSError as fault:
            raise InputFault(f"standard input: {fault.strerror}") from fault
        self.is_open = bool(chunk)
        for line in self.rest.of(chunk or b"\n"):
            self.count += 1
            text = line.rstrip("\r")
            if text and not text.startswith("#"):
                self.whole.append((self.count, text))
        if self.rest.size > MAX_LINE:
            raise InputFault(f"standard input: line {self.count + 1}: more than {MAX_LINE} bytes")


class Client(Role):
    """Opens one link, and asks over it what the lines of standard input say."""

    def __init__(self, node, end, settings, requests, patience, goes_on=False, output=None, clock=time.monotonic):
        """A request that is refused ends it, unless it `goes_on`; so does a report that doesn't come within `patience`
        seconds in which the other end does nothing. What is written goes to the `output`."""
        super().__init__(node, end, settings, clock)
        self.requests, self.patience, self.goes_on, self.output = requests, patience, goes_on, output
        self.number, self.request = 0, ""  # the line that was asked last
        self.is_due, self.due_from, self.is_finished = False, 0, False
        self.is_refused = self.is_stopped = False  # whether something was refused; whether a transfer has stopped
        self.status = FAILED

    def open(self, to, session):
        self.add(self.link_to(self.node.way_to(to)))
        self.link.explain = self.explain
        self.link.open(session)

    def connect(self, peer, packet):
        self.refuse(peer, packet, Reason.NO_OBJECT)

    def link_at(self, peer, local):
        link = super().link_at(peer, local)
        if self.output:
            link.is_full = lambda: self.output.is_full
        return link

    # ---- requests and reports

    def files(self):
        """Standard input too, where a next line is wanted and not there yet; and standard output."""
        readers, writers = super().files()
        if self.requests.file is not None and self.is_free() and self.requests.is_open and not self.requests.whole:
            readers[self.requests.file] = self.requests.read
        if self.output:
            readers.update(dict.fromkeys(self.output.files(), self.look_at_output))
        return readers, writers

    def look_at_output(self):
        with self.writing():
            self.output.look()

    def is_free(self):
        """Whether a request can be asked."""
        return self.link is not None and self.link.state is State.RUNNING and not self.is_due and not self.has_failed()

    def has_failed(self):
        return self.is_refused and not self.goes_on

    def ask(self, number, request):
        """Asks a request; what isn't asked is reported at once."""
        self.number, self.request = number, request
        self.is_due, self.due_from = True, self.clock()
        self.link.ask_end(f"ask {request}", self.asked)

    def asked(self, answer):
        """The live end has asked it, or doesn't."""
        if not answer:
            raise self.end.strange("waits")
        if answer[0].startswith("refused "):
            self.is_due = False
            self.take_refusal(answer[0])
        self.link.do(answer)

    def take_refusal(self, answer):
        """The request isn't asked."""
        self.say(answer)
        self.note_refusal(answers.not_asked(self.request, answer))

    def told(self, text):
        if not text.startswith("report "):
            super().told(text)
            return
        self.is_due = False
        self.is_stopped = answers.is_stopped(text)
        self.say(text)
        refusal = answers.refusal(text)
        if refusal:
            self.note_refusal(f"'{answers.shown(self.request)}': {refusal}")

    def explain(self, packet):
        """What came in the packet that brought an answer out of sequence, and what was due."""
        came = dap.named(packet.body) if packet.kind is Kind.ONLY else "a part of a message"
        return answers.unexpected(came, self.request if self.is_due else "")

    def note_refusal(self, why):
        self.is_refused = True
        log.say(f"line {self.number}: {why}")

    def say(self, text):
        with self.writing():
            self.output.write(os.fsencode(f"{text}\n"))

    @contextlib.contextmanager
    def writing(self):
        """An InputFault where the system doesn't write; a pipe that nobody reads is another matter."""
        try:
            yield
        except BrokenPipeError:
            raise
        except OSError as fault:
            os.dup2(os.open(os.devnull, os.O_WRONLY), sys.stdout.fileno())
            raise InputFault(f"standard output: {fault.strerror}") from fault

    # ---- the clock, and the end

    def tick(self):
        super().tick()
        self.look_at_room()
        if self.is_free() and self.requests.whole:
            self.ask(*self.requests.whole.pop(0))
        if self.link and self.link.state is State.RUNNING and not self.link.pending:
            self.look_at_end()
        self.look()

    def look_at_room(self):
        """Lets the other end send no data while too much waits to be written; it isn't lost patience with meanwhile."""
        if self.output and self.link:
            self.link.want_data(not self.output.is_slow)
            if self.output.is_slow:
                self.due_from = self.clock()

    def last_asked(self):
        """What was asked last."""
        return f"line {self.number}"

    def look_at_end(self):
        """Closes the link where nothing more is to be asked, or a report doesn't come."""
        if self.has_failed():
            self.link.disconnect(Reason.NO_ERROR, f"closed at line {self.number}, which was refused")
        elif self.is_due:
            if self.clock() >= self.report_until():
                why = f"no report of {self.last_asked()} within {self.patience:g} seconds"
                self.link.disconnect(Reason.ABORTED, why)
        elif not self.requests.is_open and not self.requests.whole and not self.link.waits:
            self.is_finished = True
            self.link.disconnect(Reason.NO_ERROR, "closed, all was asked")

    def report_until(self):
        """When a report has to be there: each new segment, and each acknowledgement of one, gives more time."""
        return max(self.due_from, self.link.moved_at) + self.patience

    def next_at(self):
        times = [super().next_at()]
        if self.is_due and self.link and self.link.state is State.RUNNING:
            times.append(self.report_until())
        if self.is_free() and self.requests.whole:
            times.append(self.clock())
        return min(times)

    def is_over(self, link):
        """Whether all reports are there that have come."""
        return not link.pending

    def closed(self, _link):
        self.is_done = True
        is_good = self.is_finished and not self.is_refused and not self.is_stopped
        self.status = GOOD if is_good else FAILED

    def stop(self):
        if self.output:
            self.output.drop()
        if not self.links:
            self.closed(None)
        elif self.link.state is State.CLOSING:
            self.stop_closing()
            self.closed(self.link)
        else:
            self.link.disconnect(Reason.ABORTED, STOPPED)
            self.look()

    def stop_closing(self):
        """A signal comes while the link is being closed, which isn't waited for any more."""
        self.is_finished = False
        log.say(STOPPED)
