"""Tells both live ends packets that were altered or cut on the way: a part of hostile/check.

Each time the link is new, the end has sent a segment that isn't acknowledged, has taken the first segment of a message, and
holds an early one. Then it is told a packet with one byte altered, to each other value, or cut at each offset, and after it
the packet as it was:

- each line has one answer, of the words of docs/LIVE.md;
- a packet that is refused, and doesn't fail the link, changed nothing: the packet as it was is answered as where nothing came
  before it;
- one that fails the link, or the client, is followed by the refusal that says so.
"""
import re
import subprocess

SECONDS = 120
# The words of an end, its link's addresses as they are in a packet to it, and what it is told before. The server
# has the file of the messages from the first, so that no packet that was altered makes it.
SERVED = [b"new 0202 0101 16", b"file 46 seq variable 0 0", b"> 60020201010080010001020a00040703050600000000"]
ROLES = {
    "serve": ("02020101", SERVED),
    "ask": ("01010202", [b"new 0101 0202 16", b"ask hello"]),
}
# NSP messages: those of each kind, several in one, and bytes of which none can be read.
MESSAGES = [
    "01020a00040703050600000000",
    "02020ba6041002000004030000000302080200014607000000",
    "020201000302080100014602000000",
    "0402020200",
    "0402030405000000",
    "040208040301040802054142434445",
    "05020101",
    "060200",
    "070203010000",
    "08020500414243",
    "090202275000",
    "0a020300010203",
    "ff020141",
]
ANSWERED = re.compile(
    rb"accepted|repeat|early|ack-only|refused (bad (truncated|trailing|number) at=\d+|not-here [a-z-]+|wrong-link|"
    rb"bad-sequence|message-too-long|exhausted)"
)
# What fails a link, or the client, and what a packet is answered then.
FAILS = {b"refused bad-sequence": b"refused failed", b"refused message-too-long": b"refused failed"}
UNEXPECTED = b"refused unexpected-answer"


def packet(marks, link, acknowledged, number, message):
    words = "".join(f"{word & 0xFF:02x}{word >> 8:02x}" for word in (0x8000 | acknowledged, number))
    return bytes.fromhex(f"{marks:02x}{link}{words}{message}")


def cases(role):
    """For each message, what an end is told before, and the packets of which each is altered: the segment that is due, with
    which the message is whole; one that is early, one that was taken, a whole message, and an acknowledgement."""
    link, begins = ROLES[role]
    taken = 1 if role == "serve" else 0
    for message in MESSAGES:
        first = packet(0x20, link, 0, taken + 1, message[:2])
        early = packet(0x60, link, 0, taken + 3, "060200")
        before = begins + [b"> " + one.hex().encode() for one in (first, early)]
        yield before, packet(0x40, link, 1, taken + 2, message[2:])
        yield before, packet(0x60, link, 1, taken + 4, message)
    yield before, first
    yield before, bytes.fromhex(f"04{link}0180")


def altered(whole):
    """The packet with each byte altered to each other value, and cut at each offset."""
    for at, old in enumerate(whole):
        yield from (whole[:at] + bytes([new]) + whole[at + 1 :] for new in range(256) if new != old)
        yield whole[:at]


def answers_of(text):
    """The answers of a text."""
    answers = [[]]
    for line in text.splitlines():
        answers[-1].append(line)
        if line.startswith(b"waits "):
            answers.append([])
    return answers[:-1] if not answers[-1] else answers


def tell(program, role, lines):
    ran = subprocess.run([program, role], input=b"\n".join(lines), capture_output=True, timeout=SECONDS)
    return ran, answers_of(ran.stdout)


def is_right(first, after, plain):
    """Whether a packet that was altered, and then the packet as it was, are answered as they have to be."""
    if not ANSWERED.fullmatch(first[0]) and first[0] != UNEXPECTED:
        return False
    if first[0] in FAILS:
        return after[0] == FAILS[first[0]]
    if UNEXPECTED in first:
        return UNEXPECTED not in after
    return after == plain if first[0].startswith(b"refused") else bool(ANSWERED.fullmatch(after[0]))


def altered_packets(program, role):
    """How many packets an end was told, and how many of them were answered wrongly."""
    told, wrong = 0, 0
    for before, whole in cases(role):
        line = b"> " + whole.hex().encode()
        plain = tell(program, role, [*before, line])[1][-1]
        others = list(altered(whole))
        lines = [one for other in others for one in [*before, b"> " + other.hex().encode(), line]]
        ran, answers = tell(program, role, lines)
        told += len(others)
        # a packet without a byte is a bad line
        bad = sum(not other for other in others)
        if len(answers) != len(lines) or ran.returncode != 1 or ran.stderr.count(b"bad line ") != bad:
            wrong += len(others)
            continue
        step = len(before) + 2
        for index, other in enumerate(others):
            first, after = answers[index * step + step - 2 : index * step + step]
            if other:
                wrong += not is_right(first, after, plain)
            else:
                wrong += first[0] != b"refused bad-line" or after != plain
    return told, wrong
