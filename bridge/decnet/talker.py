"""A link to another node over which a script asks, as people do who name a file: one report after another."""
import time

from decnet import answers, log
from decnet.client import Client
from decnet.link import State
from decnet.nsp import Reason
from decnet.scripts import STOPPED, Refused, Stop

DONE = "done"


class Script:
    """The requests of a script, as a client takes them."""

    file = None  # they aren't read

    def __init__(self, script):
        self.script, self.whole, self.is_open, self.refusal, self.count = script, [], True, None, 0
        self.may_have_made = self.may_have_stored = False  # whether a file was to be made; whether records were to be stored
        self.is_stopping = False  # at the report that is due
        self.go_on(None)

    def go_on(self, report):
        """Gives the script a report, and takes what it asks then; whether it wants another report first."""
        wants_more = self.take(lambda: self.script.send(report))
        if self.is_stopping and self.is_open:
            self.throw_stop()
        return wants_more

    def take(self, step):
        """Takes what the script asks at a step; whether it wants another report first."""
        try:
            request = step()
        except StopIteration:
            self.is_open = False
            return False
        except (Refused, Stop) as fault:
            self.refusal, self.is_open = str(fault) or STOPPED, False
            return False
        if request is not None:
            self.count += 1
            self.whole.append((self.count, request))
        return request is None

    def note(self, request):
        """A request is asked."""
        self.may_have_made = self.may_have_made or request.startswith("create ")
        self.may_have_stored = self.may_have_stored or request.startswith(("store ", "put "))

    def stop(self):
        """Ends the script where it has a file to take back; whether it has. That waits for the report that is due."""
        if not (self.is_open and self.may_have_made):
            return False
        if self.whole:
            self.throw_stop()
        else:
            self.is_stopping = True
        return True

    def throw_stop(self):
        self.is_stopping = False
        self.whole.clear()
        self.take(lambda: self.script.throw(Stop()))

    def left(self):
        """What may be there of a script that didn't come to its end, in words."""
        if not self.is_open:
            return ""
        if self.may_have_made:
            return "; what was stored until then may be there"
        return "; some of the new records may be there" if self.may_have_stored else ""


class Talker(Client):
    """Opens one link, and asks over it what a script says. A refusal ends it, and is reported after the file's name."""

    def __init__(self, node, end, settings, script, patience, name, progress, output=None, clock=time.monotonic):
        super().__init__(node, end, settings, Script(script), patience, output=output, clock=clock)
        self.name, self.progress, self.is_taking_back = name, progress, False

    def link_at(self, peer, local):
        link = super().link_at(peer, local)
        link.carried = self.progress.carry
        return link

    def say_of(self, link, text):
        log.say(f"{self.name}: {text}")

    def last_asked(self):
        return answers.shown(self.request)

    def told(self, text):
        if text.startswith("report "):
            self.take(text)
        else:
            super().told(text)

    def take_refusal(self, answer):
        self.take(answer)

    def take(self, report):
        """Gives a report to the script."""
        self.is_due = self.requests.go_on(report)
        if self.requests.refusal is not None:
            self.is_refused = True

    def ask(self, number, request):
        self.requests.note(request)
        super().ask(number, request)

    def stop(self):
        """The first time a file that was made is taken back, and then the link is closed. The second time nothing is waited for."""
        is_running = self.link is not None and self.link.state is State.RUNNING
        if self.is_taking_back or not is_running or not self.requests.stop():
            super().stop()
            return
        self.is_taking_back, self.is_refused = True, self.requests.refusal is not None
        log.say(f"{self.name}: {STOPPED}: what was stored is being taken back; a second signal leaves it there")

    def stop_closing(self):
        """What was done stays so."""
        self.tell_closed(self.link)

    def look_at_end(self):
        if self.is_refused:
            self.link.disconnect(Reason.NO_ERROR, DONE)
        else:
            super().look_at_end()

    def tell_closed(self, link):
        """Says only what nobody has been told."""
        if self.requests.refusal is not None:
            log.say(f"{self.name}: {self.requests.refusal}")
        elif not self.is_finished:
            log.say(f"{self.name}: {link.why}{self.requests.left()}")
        elif self.is_taking_back:
            log.say(f"{self.name}: all was stored before that")
