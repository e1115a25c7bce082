"""Live clients, a live server, and lines between them that lose, repeat and reorder packets by a seed."""
import random

from decnet import program
from decnet.end import DAPLIVE, End

ASK_CHANCE = 0.5  # that the next is a request where one can be asked
LOCAL, REMOTE = 0x0201, 0x0101  # of the first of several links, at the server


class LinkFailed(program.Fault):
    """The link of an end has failed, or a request had no report."""


class Line:
    """What is on its way to each end."""

    def __init__(self, seed, loss=0, repeat=0, reach=1):
        self.random, self.loss, self.repeat, self.reach = random.Random(seed), loss / 100, repeat / 100, reach
        self.ways = {"asking": [], "serving": []}

    def lead_to(self, names):
        """Leads to other ends."""
        self.ways = {name: [] for name in names}

    def carry(self, to, packet):
        if self.random.random() < self.loss:
            return
        self.ways[to].append(packet)
        while self.random.random() < self.repeat:
            self.ways[to].append(packet)

    def arrives(self):
        """An end and the packet that comes to it, or nothing where none is on its way."""
        ends = [to for to, way in self.ways.items() if way]
        if not ends:
            return None
        to = self.random.choice(ends)
        way = self.ways[to]
        return to, way.pop(self.random.randrange(min(len(way), self.reach)))


class Both:
    """Both ends, and the line between them."""

    OTHER = {"asking": "serving", "serving": "asking"}

    def __init__(self, line, asking=(), serving=(), program=DAPLIVE, ends=None):
        self.line, self.reports = line, []
        self.ends = ends or {
            "asking": End(program, ["ask", *asking], keep=True),
            "serving": End(program, ["serve", *serving], keep=True),
        }

    def tell(self, name, line):
        """Tells an end, and gives what it writes to the line."""
        answer = self.ends[name].say(line)
        for text in answer:
            word, _, rest = text.partition(" ")
            if word == "<":
                self.line.carry(self.OTHER[name], rest)
            elif word == "report":
                self.reports.append(rest)
        if "refused failed" in answer:
            raise LinkFailed(f"the link of the end that is {name} failed")
        return answer

    def settle(self, done=lambda: False):
        """Carries packets until it is done, or all is quiet and nothing waits."""
        while not done():
            arrived = self.line.arrives()
            if arrived:
                self.tell(arrived[0], "> " + arrived[1])
                continue
            waiting = [name for name in self.ends if self.ends[name].waits]
            if not waiting:
                return
            self.tell(self.line.random.choice(waiting), "resend")

    def ask(self, request):
        """The report of a request, or `refused` and why it isn't asked."""
        count = len(self.reports)
        answer = self.tell("asking", "ask " + request)
        if answer[0].startswith("refused"):
            return answer[0]
        self.settle(lambda: len(self.reports) > count)
        if len(self.reports) != count + 1:
            raise LinkFailed(f"{len(self.reports) - count} reports of: {request}")
        return "report " + self.reports[-1]

    def files(self):
        """The files, when all is quiet."""
        self.settle()
        return self.ends["serving"].say("files")

    def transcript(self):
        return [line for end in self.ends.values() for line in end.transcript]

    def close(self):
        """The exit statuses."""
        return [end.close() for end in self.ends.values()]


def reports_in(answer):
    return [text for text in answer if text.startswith("report ")]


class Several:
    """Clients, each over its own link, and one server for all of them; a line leads each way of each link.

    The clients are numbered from 0. What is on its way to one of them, and over its link to the server,
    has a way of its own.
    """

    def __init__(self, line, count, asking=(), serving=(), program=DAPLIVE):
        self.line, self.program = line, program
        self.node = End(program, ["serve", "--links", str(max(2, count)), *serving], keep=True)
        self.ends, self.waits = [], [0] * count  # what waits at the server, on each link
        line.lead_to([(way, number) for number in range(count) for way in ("asking", "serving")])
        for number in range(count):
            near, far = f"{REMOTE + number:04x}", f"{LOCAL + number:04x}"
            self.ends.append(End(program, ["ask", "--local", near, "--remote", far, *asking], keep=True))
            answer = self.node.say(f"new {far} {near}")
            if answer:
                raise LinkFailed(f"the end that serves can't have link {number + 1}: {answer[0]}")

    def name(self, number):
        """The word after lines of the server that concern a link."""
        return f"{LOCAL + number:04x}"

    def tell(self, way, number, line):
        """Tells an end of a link, and gives what it writes to the line; the answer."""
        end = self.ends[number] if way == "asking" else self.node
        answer = end.say(line)
        if way == "serving":
            self.waits[number] = end.waits
        for text in answer:
            if text.startswith("< "):
                self.line.carry(("serving" if way == "asking" else "asking", number), text[2:])
        if "refused failed" in answer:
            raise LinkFailed(f"link {number + 1} failed at the end that is {way}")
        return answer

    def waiting(self):
        """The ends at which something waits, each with its link, and what they are told then."""
        for number, end in enumerate(self.ends):
            if end.waits:
                yield "asking", number, "resend"
            if self.waits[number]:
                yield "serving", number, f"resend {self.name(number)}"

    def play(self, ask, told):
        """Asks what `ask` gives for a link, or None, as soon as the report of the request before has come there; `told`
        gets the link, the request and its report, or `refused` and why it isn't asked."""
        due = {}  # the requests without a report, by their links
        free = list(range(len(self.ends)))
        while True:
            if free and self.line.random.random() < ASK_CHANCE:
                number = free.pop(self.line.random.randrange(len(free)))
                request = ask(number)
                if request is None:
                    continue
                due[number], reports = request, self.ask(number, request)
            else:
                step = self.carry()
                if step is None and not free:
                    break
                number, reports = step or (0, [])
            for report in reports:
                if number not in due:
                    raise LinkFailed(f"a report too many on link {number + 1}: {report}")
                told(number, due.pop(number), report)
                free.append(number)
        if due:
            raise LinkFailed(f"no report of: {next(iter(due.values()))}")

    def ask(self, number, request):
        """Asks a request; its report where that is there at once."""
        answer = self.tell("asking", number, f"ask {request}")
        return answer[:1] if answer[0].startswith("refused ") else reports_in(answer)

    def carry(self):
        """Carries a packet, or lets an end send again at which something waits; its link, and the reports that came. None
        where all is quiet."""
        arrived = self.line.arrives()
        waiting = [] if arrived else list(self.waiting())
        if not arrived and not waiting:
            return None
        if arrived:
            (way, number), packet = arrived
            line = f"> {packet}"
        else:
            way, number, line = self.line.random.choice(waiting)
        return number, reports_in(self.tell(way, number, line))

    def files(self):
        return self.node.say("files")

    def transcript(self):
        return [line for end in [*self.ends, self.node] for line in end.transcript]

    def close(self):
        """The exit statuses."""
        return [end.close() for end in [*self.ends, self.node]]
