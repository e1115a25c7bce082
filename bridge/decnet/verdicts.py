"""What two ends say to the same conversations, side by side. Their answers are read by `dapcap`, which is proved."""
import enum
import subprocess
from dataclasses import dataclass

from decnet import nsp, systems, tables
from decnet.end import EndFault
from decnet.nsp import Kind, Qualifier

LOCAL, REMOTE = 1, 2  # addresses of packets that are only listed
WIDTH, LONG_WIDTH, CELL = 96, 400, 32  # characters of what is shown
BODY_DIGITS = 24  # of a record
FOLLOW_SECONDS = 600


class Verdict(enum.Enum):
    """How the answer of another end is beside that of the proved one."""

    SAME = "same"
    SAME_MORE = "same, more"  # and other messages besides
    ALIKE = "alike"  # messages of the same kinds, and refusals of the same kind
    DIFFERS = "differs"
    NO_ANSWER = "no answer"
    NO_LINK = "no link"


GOOD = (Verdict.SAME, Verdict.SAME_MORE, Verdict.ALIKE)


# ---- the listing of answers


class Listing:
    """The lines of each answer."""

    def __init__(self, program, bodies):
        self.program, self.lines = str(program), {}
        bodies = sorted(set(bodies))
        for at in range(0, len(bodies), nsp.NUMBERS - 1):
            self.add(bodies[at:at + nsp.NUMBERS - 1])

    def add(self, bodies):
        """Lists NSP messages, each as one segment."""
        field = nsp.field(Qualifier.ACK, 0)
        packets = [nsp.words(Kind.ONLY, REMOTE, LOCAL, field, number) + body for number, body in enumerate(bodies, 1)]
        text = "".join(f"> {packet.hex()}\n" for packet in packets)
        try:
            run = subprocess.run([self.program, "--bare"], input=text, capture_output=True, text=True, timeout=FOLLOW_SECONDS,
                                 check=False)
        except (OSError, subprocess.TimeoutExpired) as fault:
            raise EndFault(f"{self.program}: {fault}") from fault
        found = -1
        for line in run.stdout.splitlines():
            if not line.startswith(" "):
                found += 1
                if found < len(bodies):
                    self.lines[bodies[found]] = []
            elif not line.startswith("  message ") and found < len(bodies):
                self.lines[bodies[found]].append(line.strip())
        if any(body not in self.lines for body in bodies):
            raise EndFault(f"{self.program}: it doesn't list {len(bodies)} messages: {run.stderr[:200]}")

    def of(self, inbox):
        """The lines of the messages that answer a step."""
        return [line for body in inbox for line in self.lines[body]]


def fields(line):
    """The word of a line, and its fields."""
    word, *rest = line.split(" ")
    if word == "status" and rest:
        rest[0] = f"code={rest[0]}"
    return word, dict(one.split("=", 1) for one in rest if "=" in one)


# ---- verdicts

# which fields have to be the same; of a Configuration none
COMPARED = {"attributes": ("org", "rfm", "mrs", "mrn"), "config": (), "data": ("recnum", "body"), "complete": ("func",),
            "ack": (), "status": ("code", "recnum", "rfa", "stv")}
NUMBERS = ("mrn", "recnum", "rfa")


def number_in(text):
    """Images that stand for a number are the same with zeros after them."""
    digits = text.replace("-", "")
    while digits.endswith("00"):
        digits = digits[:-2]
    return digits


def meaning(line):
    """What has to be the same of a line."""
    word, found = fields(line)
    if word not in COMPARED:
        return line
    values = [number_in(found.get(name, "")) if name in NUMBERS else found.get(name, "") for name in COMPARED[word]]
    return " ".join([word, *values])


def kind(line):
    """What has to be the same for messages to be alike: of a Status the first digit."""
    word, found = fields(line)
    return f"status {found.get('code', '')[:1]}" if word == "status" else word


def compare(own, other):
    """The verdict on the lines of an answer."""
    if other is None:
        return Verdict.NO_LINK
    if own and not other:
        return Verdict.NO_ANSWER
    plain = [line for line in other if not line.startswith("other ")]
    if [meaning(line) for line in own] == [meaning(line) for line in plain]:
        return Verdict.SAME if plain == other else Verdict.SAME_MORE
    return Verdict.ALIKE if [kind(line) for line in own] == [kind(line) for line in plain] else Verdict.DIFFERS


@dataclass(frozen=True)
class Row:
    """A step of a conversation, with the lines of both answers, and the verdict."""

    talk: str
    label: str
    verdict: Verdict
    own: list
    other: list


def rows(talks, own, other, listing):
    """All steps."""
    for talk in talks:
        mine, theirs = own.get(talk.name, []), other.get(talk.name, [])
        for at, step in enumerate(talk.steps):
            one = listing.of(mine[at]) if at < len(mine) else []
            two = listing.of(theirs[at]) if at < len(theirs) else None
            yield Row(talk.name, step.label, compare(one, two), one, two or [])


# ---- how they are shown


def described(line):
    """A Configuration in words."""
    _, found = fields(line)
    ostype, filesys = int(found["ostype"]), int(found["filesys"])
    able = systems.abilities(int(found["syscap"]))
    return (f"system {ostype} ({tables.OSTYPE.get(ostype, 'unknown')}), files {filesys} "
            f"({tables.FILESYS.get(filesys, 'unknown')}), DAP {found['version']}, buffer {found['bufsiz']}; "
            f"says that it can: {'; '.join(able) or 'nothing beyond the basic'}")


def shown(line):
    """A line in short."""
    word, found = fields(line)
    if word == "status":
        stv, recnum = found.get("stv", "-"), found.get("recnum", "-")
        return f"status {found['code']}{'' if stv == '-' else f':{stv}'}{'' if recnum == '-' else f' n={recnum}'}"
    if word == "data":
        return f"data {number_in(found['recnum']) or '-'}:{found['body'][:BODY_DIGITS]}"
    if word == "attributes":
        return "attributes " + ",".join(f"{name}={value}" for name, value in found.items())
    return line if word in ("config", "bad", "other") else word


def short(lines, limit=WIDTH):
    text = " | ".join(map(shown, lines)) or "nothing"
    return text if len(text) <= limit else text[:limit - 2] + ".."


def report(table, lost, beside):
    """What is printed of each conversation; `beside` names what the other end is compared with."""
    for talk in dict.fromkeys(row.talk for row in table):
        some = [row for row in table if row.talk == talk and row.verdict not in (Verdict.SAME, Verdict.SAME_MORE)]
        why = f"  [{lost[talk]}]" if lost.get(talk) else ""
        yield f"{talk}:{'' if some else ' same'}{why}"
        for row in some:
            yield f"    {row.label:14} {row.verdict.value}"
            yield f"        {'other':8} {short(row.other)}"
            yield f"        {beside:8} {short(row.own)}"
    more = next((row.other for row in table if row.verdict is Verdict.SAME_MORE), None)
    if more:
        yield f"where a file is opened the other end says more: {short(more, LONG_WIDTH)}"


def is_opened(lines):
    return kind(lines[-1]) == "ack" if lines else False


def is_done(lines):
    return kind(lines[-1]) in ("status 1", "complete", "data") if lines else False


def is_answered(_lines):
    """What counts is the answer itself."""
    return False


def is_erasing(lines):
    """A missing file can't be erased, by an end that can erase."""
    return short(lines) == "status 4032"


def is_gone(lines):
    """Whether what answered an erase says that there is no such file now."""
    return bool(lines) and (kind(lines[-1]) == "complete" or is_erasing(lines))


# of each ability its name, the conversation and step that show it, and what says that it is there
ABILITIES = (
    ("sequential files", "store a file", "create", is_opened), ("a whole file stored", "store a file", "store", is_done),
    ("relative files", "relative file", "create", is_opened), ("records by number", "relative file", "get 3", is_done),
    ("update", "update and delete", "update", is_done), ("delete", "update and delete", "delete", is_done),
    ("find", "find", "find 7", is_done), ("purge of a new file", "purge a new file", "purge", is_done),
    ("create what is there", "create what is there", "create again", is_opened),
    ("names in small letters", "name in small letters", "open", is_opened),
    ("names with a version", "name with a version", "open", is_opened),
    ("RFM VFC", "create with RFM VFC", "create", is_opened), ("RFM stream", "create with RFM stream", "create", is_opened),
    ("RFM undefined", "create with RFM undefined", "create", is_opened), ("blocks", "blocks", "get block", is_done),
    ("erase", "access erase", "erase", is_erasing), ("directory", "access directory", "directory", is_answered),
    ("no such record", "relative file", "get 4", is_answered), ("record exists", "relative file", "put 3 again", is_answered),
    ("no such file", "open a missing file", "open", is_answered),
    ("no current record", "update and delete", "delete again", is_answered))


def abilities(table, beside):
    """What both ends can do, by their answers."""
    found = {(row.talk, row.label): row for row in table}
    some = [(name, found[talk, label], is_there) for name, talk, label, is_there in ABILITIES if (talk, label) in found]
    if some:
        yield f"    {'':24} {'the other end':{CELL}} {beside}"
    for name, row, is_there in some:
        cells = ["yes" if is_there(lines) else short(lines, CELL - 2) for lines in (row.other, row.own)]
        yield f"    {name:24} {cells[0]:{CELL}} {cells[1]}"


def counted(table):
    """How many steps have which verdict."""
    counts = {verdict: sum(row.verdict is verdict for row in table) for verdict in Verdict}
    return ", ".join(f"{count} {verdict.value}" for verdict, count in counts.items() if count)
