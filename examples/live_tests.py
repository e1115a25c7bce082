#!/usr/bin/env python3
"""Tells both live ends lines of every kind, good and bad, and looks at each answer.

usage: live_tests.py [--first SEED] [--inputs N] [--daplive PROGRAM] [--dapnsp PROGRAM]

Each input is made by its seed: lines of talks between the two ends, altered, repeated, left out and in another order,
and between them random lines, good and bad, of any bytes; at its end a line may be cut. Each line that says something
has to have one answer, which ends in `waits N`, and is one that docs/LIVE.md names for such a line; a server
has the files that lines gave it; `resend` writes as many packets as waited; each bad line is reported, and the exit status
says whether there were any. In all packets that were written `dapnsp show` finds nothing bad.
"""
import argparse
import os
import pathlib
import random
import re
import subprocess
import sys
from concurrent.futures import ThreadPoolExecutor

from decnet import dap, messages, program
from decnet.lossy import Both, Line

# the programs, as `./daplive` and `./dapnsp` build them
BUILT = pathlib.Path(__file__).resolve().parent.parent / "crates"
DAPLIVE = BUILT / "daplive/out/daplive"
DAPNSP = BUILT / "dapnsp/out/dapnsp"
MAX_LINE = 16_777_216
# inputs of that many are one with a line about as long as lines may be
SELDOM = 400
# this many packets make a capture, at most 16,777,216 bytes
CAPTURE = 20_000
# the files that the talks make, where no packet of them is altered; lines give others
TALKED = [b"54454d50", b"54455854"]
GIVEN = [b"46", b"47", b"5359532e444154", b"-"]

# ---- What a line says.


def number(most):
    return lambda word: 1 <= len(word) <= 10 and word.isdigit() and int(word) <= most


def one_of(*words):
    return lambda word: word in words


def matches(pattern):
    return lambda word: re.fullmatch(pattern, word) is not None


HEX, TEXT, ADDRESS = matches(rb"([0-9a-fA-F]{2})+"), matches(rb"-|([0-9a-fA-F]{2})+"), matches(rb"[0-9a-fA-F]{4}")
BYTE, SHORT, LONG, ACCESS = number(255), number(65_535), number(4_294_967_295), number(15)
ASK = {
    b">": [[HEX]],
    b"resend": [[]],
    b"ack": [[]],
    b"new": [[], [ADDRESS, ADDRESS], [ADDRESS, ADDRESS, LONG]],
}
SERVE = {
    **ASK,
    b"new": [*ASK[b"new"], [ADDRESS, ADDRESS, LONG, ACCESS]],
    b"files": [[]],
    b"drop": [[TEXT]],
    b"file": [[TEXT, one_of(b"seq", b"rel"), one_of(b"fixed", b"variable"), SHORT, LONG]],
    b"": [[one_of(b""), LONG, TEXT]],
}
REQUESTS = {
    b"hello": [[]],
    b"create": [[TEXT, BYTE, BYTE, SHORT, LONG, ACCESS]],
    b"open": [[TEXT, ACCESS]],
    b"connect": [[]],
    b"get": [[], [one_of(b"key", b"rfa"), LONG]],
    b"put": [[TEXT], [one_of(b"key"), LONG, TEXT]],
    b"update": [[TEXT]],
    b"delete": [[]],
    b"rewind": [[]],
    b"fetch": [[], [one_of(b"each")]],
    b"continue": [[one_of(b"again", b"skip", b"abort")]],
    b"close": [[]],
    b"purge": [[]],
}


# what a file keeps of Attributes; RFM of records with a fixed part in front; each RFM that may be kept
FILE_KEEPS = {"datatype", "rfm", "rat", "bls", "bks", "fsz", "bsz"}
FRONTED, VARYING = 3, (0, 3, 4, 5, 6)


def kept_in(word):
    """The fields of what is kept with a file, by the last word of its line; None where it is no canonical message of that."""
    if not word.startswith(b"kept=") or not HEX(word[5:]):
        return None
    kept = bytes.fromhex(word[5:].decode())
    try:
        (kind, operand), = dap.messages(kept)
        fields = dap.read_attributes(operand)
    except (dap.Unread, ValueError):
        return None
    is_canonical = kind == messages.ATTRIBUTES and messages.attributes(**fields) == kept
    return fields if is_canonical and fields and fields.keys() <= FILE_KEEPS else None


def is_good_file(words):
    """Whether a line `file` with a last word `kept=HEX` says what such a file may keep."""
    if not fits(words[:5], SERVE[b"file"]) or len(words) != 6:
        return False
    fields = kept_in(words[5])
    if fields is None or "rfm" in fields and (words[2] != b"variable" or fields["rfm"] not in VARYING):
        return False
    return (fields.get("rfm") == FRONTED) == (fields.get("fsz", 0) > 0) and fields.get("fsz") != 0


def fits(words, forms):
    return any(len(words) == len(form) and all(is_good(word) for is_good, word in zip(form, words)) for form in forms)


def is_good(role, line):
    """Whether a line is one of the end's."""
    word, *others = line.split(b" ")
    if len(line) > MAX_LINE:
        return False
    if role == "ask" and word == b"ask":
        if others[:1] == [b"store"]:
            return all(map(TEXT, others[1:]))
        return fits(others[1:], REQUESTS.get(others[0], [])) if others else False
    is_kept = role == "serve" and word == b"file" and is_good_file(others)
    return is_kept or fits(others, (SERVE if role == "serve" else ASK).get(word, []))


# ---- What a line is answered.

PACKETS = r"(< [0-9a-f]+\n)*"
REPORTS = r"(report [^\n]+\n)*"
ANSWERS = {
    b">": rf"((accepted|repeat|early|ack-only)\n{REPORTS}{PACKETS}(refused (unexpected-answer|ask-failed)\n)?"
    r"|refused (not-here [a-z-]+|bad (truncated|trailing|number) at=\d+"
    r"|wrong-link|bad-sequence|message-too-long|failed)\n)",
    b"resend": rf"({PACKETS}|refused failed\n)",
    b"ack": r"(< 04[0-9a-f]+\n|refused failed\n)",
    b"new": r"(refused bad-setup\n)?",
    b"files": r"((file|  )[^\n]+\n)*",
    b"file": r"(refused (busy|4000 1|4000 11)\n)?",
    b"": r"(refused (busy|4032 0|5000 [567])\n)?",
    b"drop": r"(refused (busy|4032 0)\n)?",
    b"ask": rf"((asked \d+|refused ask-busy)\n{REPORTS}{PACKETS}(refused (unexpected-answer|ask-failed)\n)?"
    r"|refused (failed|ask-phase|ask-too-large|ask-failed)\n)",
}
ANSWERS = {word: re.compile(pattern) for word, pattern in ANSWERS.items()}


def front_of(kept):
    """The bytes in front of each record that MRS doesn't count, by what is kept with a file, if anything is."""
    return kept_in(kept[0]).get("fsz", 0) if kept else 0


class Model:
    """What is known of an end by the lines that it was told, and by its answers."""

    def __init__(self, role):
        # the link is used: a packet came on it that it didn't refuse
        self.role, self.waits, self.has_failed, self.is_used = role, 0, False, False
        self.link = (b"0202", b"0101") if role == "serve" else (b"0101", b"0202")
        # the files by their names: the words after the name, and the records; whether a talk may have added others
        self.files, self.is_sure = {}, True
        # the name of the file to which records are added, and those of all files that lines gave
        self.given, self.by_lines = None, set()

    def goes_on(self, line, answer, waits):
        """What is wrong with the answer to a good line, or nothing."""
        words = line.split(b" ")
        if not ANSWERS[words[0]].fullmatch(answer):
            return "no answer to such a line"
        before, self.waits = self.waits, waits
        if self.has_failed and waits:
            return "packets wait on a link that has failed"
        wrong = {b">": self.packet, b"new": self.new, b"files": self.list, b"file": self.file, b"": self.record,
                 b"drop": self.drop}.get(words[0], self.other)(words, answer)
        if not wrong and words[0] == b"resend" and answer.count("< ") != before:
            return f"{before} packets waited"
        return wrong

    def other(self, _words, answer):
        if self.has_failed != (answer == "refused failed\n"):
            return "whether the link has failed"
        return None

    def packet(self, words, answer):
        packet = words[1].lower()
        if self.has_failed:
            return None if answer == "refused failed\n" else "the link has failed"
        self.has_failed = answer in ("refused bad-sequence\n", "refused message-too-long\n")
        if answer.startswith("refused"):
            return "the link hasn't failed" if answer == "refused failed\n" else None
        if (packet[2:6], packet[6:10]) != tuple(word[2:] + word[:2] for word in self.link):
            return "a packet of another link is taken"
        self.is_used = True
        if answer.startswith("accepted"):
            self.is_sure = False
        return None

    def new(self, words, answer):
        is_setup = len(words) < 4 or 1 <= int(words[3]) <= 1400
        if is_setup != (answer == ""):
            return "whether the link can be so"
        if is_setup:
            self.has_failed = self.is_used = False
            self.link = tuple(word.lower() for word in words[1:3]) or self.link
        return "packets wait" if is_setup and self.waits else None

    def file(self, words, answer):
        name, org, rfm, mrs, mrn, kept = words[1].lower(), words[2], words[3], int(words[4]), int(words[5]), words[6:]
        wanted, self.given = "", None
        if mrs and mrs + front_of(kept) > 32_767 or mrn > 2_147_483_647 or rfm == b"fixed" and not mrs:
            wanted = "refused 4000 11\n"
        elif self.is_used:
            wanted = "refused busy\n"
        elif name in self.files:
            wanted = "refused 4000 1\n"
        else:
            self.given = name
            self.by_lines.add(name)
            kept = [word.lower() for word in kept]
            self.files[name] = ([org, rfm, b"%d" % mrs, b"%d" % (mrn if org == b"rel" else 0), *kept], {})
        return None if answer == wanted else f"not {wanted!r}"

    def record(self, words, answer):
        wanted = ""
        place, body = int(words[2]), words[3].lower()
        size = 0 if body == b"-" else len(body) // 2
        if self.is_used:
            wanted = "refused busy\n"
        elif self.given not in self.files:
            wanted = "refused 4032 0\n"
        else:
            (org, rfm, mrs, mrn, *kept), records = self.files[self.given]
            limit, longest = int(mrn) or 2_147_483_647, int(mrs) + front_of(kept) if int(mrs) else 32_767
            if size > longest or rfm == b"fixed" and size != int(mrs):
                wanted = "refused 5000 7\n"
            elif not 1 <= place <= limit or org == b"seq" and place > max(records, default=0) + 1:
                wanted = "refused 5000 6\n"
            elif place in records:
                wanted = "refused 5000 5\n"
            else:
                records[place] = body
        return None if answer == wanted else f"not {wanted!r}"

    def drop(self, words, answer):
        name = words[1].lower()
        if answer == "refused 4032 0\n":
            return "the file is there" if name in self.files else None
        if answer:
            # A link has it open, which a file has that a talk made or opened.
            return None if self.is_used else "no link has it open"
        if self.is_sure and name not in self.files:
            return "there is no such file"
        self.files.pop(name, None)
        self.by_lines.discard(name)
        self.given = None if name == self.given else self.given
        return None

    def list(self, _words, answer):
        """Compares the files, and goes on with those that are there."""
        there, newest = {}, {}
        for line in answer.encode().splitlines():
            first, second, *words = line.split(b" ")
            if first:
                newest = {}
                there[second] = (words, newest)
            else:
                newest[int(words[0])] = words[1]
        was, self.files = self.files, there
        if self.is_sure:
            return None if there == was and list(there) == list(was) else "other files"
        self.is_sure = True
        kept = [name for name in was if name in self.by_lines]
        if any(there.get(name) != was[name] for name in kept) or [name for name in there if name in kept] != kept:
            return "a file that was given is lost or changed"
        return None


# ---- Inputs.


def talks(program):
    """What each end was told in talks between the two, over clean and lossy lines, in small segments and large ones."""
    told = {"ask": [], "serve": []}
    requests = [
        ["hello", "create 54454d50 16 2 0 0 15", "connect", "put key 3 41", "put key 9 " + "42" * 90, "get key 3",
         "update 4344", "delete", "rewind", "fetch", "close", "open 54454d50 2", "connect", "fetch", "close"],
        ["hello", "create 54455854 0 1 3 0 15", "connect", "store 414141 424242 434343", "connect", "fetch", "put 41",
         "get rfa 2", "close", "open 58 15", "create 54455854 0 2 0 0 15", "purge"],
    ]
    for seed, (words, loss) in enumerate([("--segment 16", 0), ("--segment 512", 0), ("--segment 40 --window 2", 30)]):
        for session in requests:
            both = Both(Line(seed, loss, loss, 1 + loss // 10), words.split(), words.split(), program)
            for request in session:
                both.ask(request)
            both.close()
            for role, end in (("ask", both.ends["asking"]), ("serve", both.ends["serving"])):
                lines = [line for line in end.transcript if re.match("> |ask |resend", line)]
                told[role].append([line.encode() for line in lines])
    return told


class Input:
    """An input to an end, by a seed."""

    def __init__(self, seed, told):
        self.chance = random.Random(seed)
        self.role = self.chance.choice(["serve", "ask"])
        self.told = told
        lines = self.talk()
        for _ in range(self.chance.randrange(12)):
            lines.insert(self.chance.randrange(len(lines) + 1), self.line())
        if self.role == "serve":
            given = self.given() if self.chance.randrange(2) else []
            lines = given + [line for one in lines for line in ([one, b"files"] if one.startswith(b"new") else [one])]
            lines += [b"files", b"resend"]
        if seed % SELDOM == 0:
            lines.insert(self.chance.randrange(len(lines) + 1), b"#" * (MAX_LINE + self.chance.randrange(2)))
        self.bytes = b"".join(line + self.chance.choice([b"\n", b"\n", b"\r\n"]) for line in lines)
        if not self.chance.randrange(4):
            self.bytes = self.bytes[: len(self.bytes) - self.chance.randrange(9)]

    def talk(self):
        """Lines of a talk, of which some are altered, repeated, left out or moved."""
        choice, lines = self.chance.choice, []
        talk = choice(self.told[self.role])
        harm = choice([0, 0, 0.05, 0.3])
        for line in talk[: self.chance.randrange(len(talk) + 1)]:
            while self.chance.random() < harm:
                line = choice([self.altered, lambda line: line, lambda line: b""])(line)
                lines.insert(self.chance.randrange(max(0, len(lines) - 3), len(lines) + 1), line)
            lines.append(line)
        return lines

    def altered(self, line):
        """A line of which a byte is another, or one more or fewer."""
        at = self.chance.randrange(len(line) + 1)
        byte = self.chance.choice([b"", b"0", b"f", b"-", b" ", b"  ", b"\r", b"\0", b"\xff", b"A", b"#"])
        return line[:at] + byte + line[at + self.chance.randrange(2) :]

    def text(self, most=None):
        most = most or self.chance.choice([40, 40, 40, 2000])
        return self.chance.randbytes(self.chance.randrange(most)).hex().encode() or b"-"

    def number(self):
        return b"%d" % self.chance.choice([0, 1, 1, 2, 3, 9, 16, 255, 256, 32768, 65536, 2147483648, 4294967296])

    def file(self):
        choice = self.chance.choice
        return b"file %b %b %b %d %d%b" % (
            choice(GIVEN), choice([b"seq", b"rel"]), choice([b"fixed", b"variable"]), choice([0, 3, 3, 20, 32766, 32768]),
            choice([0, 0, 4, 2147483648]), choice([b"", self.kept()]))

    def kept(self):
        """What is kept with a file, mostly good: some fields, of which FSZ is there with RFM 3; or altered."""
        choice, chance = self.chance.choice, self.chance
        values = {"datatype": [0, 2, 300, 16383], "rfm": [0, 3, 3, 3, 3, 3, 4, 5, 6, 7], "rat": [0, 2, 8, 300, 2097151], "bls": [0, 512, 65535],
                  "bks": [0, 255], "bsz": [8], "org": [0], "mrs": [3]}
        names = [name for name in values if chance.random() < {"org": 0.02, "mrs": 0.02, "rfm": 0.6}.get(name, 0.2)]
        fields = {name: choice(values[name]) for name in names}
        if fields.get("rfm") == FRONTED or not chance.randrange(30):
            fields["fsz"] = choice([1, 1, 2, 2, 255, 0])
        kept = messages.attributes(**fields)
        if not chance.randrange(8):
            at = chance.randrange(len(kept))
            kept = kept[:at] + chance.randbytes(chance.randrange(2)) + kept[at + chance.randrange(2):]
        word = choice([b" kept=%b"] * 20 + [b" kept= %b", b" keep=%b", b" %b", b" kept=%b "]) % kept.hex().encode()
        return choice([word, word, word.replace(b"f", b"F")])

    def record(self):
        size = self.chance.choice([0, 3, 3, 4, 20, 21, 22])
        return b"  %d %b" % (self.chance.choice([0, 1, 2, 3, 4, 5]), self.chance.randbytes(size).hex().encode() or b"-")

    def given(self):
        """Files, and records after them; some are dropped."""
        lines = []
        for _ in range(self.chance.randrange(1, 4)):
            lines += [self.file()] + [self.record() for _ in range(self.chance.randrange(6))]
            if not self.chance.randrange(6):
                lines += [b"drop " + self.chance.choice(GIVEN), self.record()]
        return lines

    def packet(self):
        """A packet of this link or another, with any numbers, whole or not, or of another kind, or any bytes."""
        choice, chance = self.chance.choice, self.chance
        link = choice([b"02020101", b"02020101", b"01010202", b"03030404"])
        heads = [b"60", b"20", b"40", b"00", b"04", b"04", b"10", b"14", b"24", b"38", b"%02x" % chance.randrange(256)]
        head = choice(heads)
        acks = choice([b"0080"] * 6 + [b"ff8f", b"0090", b"", b"00800190", b"0180", b"%04x" % chance.randrange(65536)])
        count = choice([b"0100", b"0200", b"0900", b"0010", b"%04x" % chance.randrange(65536)])
        whole = head + link + acks + (b"" if head == b"04" else count + (self.text() if chance.randrange(3) else b""))
        whole = whole.replace(b"-", b"")
        part = whole[: chance.randrange(len(whole))]
        return b"> " + choice([whole, whole, whole.upper(), part, self.text(), self.text(3000)])

    def request(self):
        choice = self.chance.choice
        word = choice([*REQUESTS, b"store"])
        kinds = {TEXT: self.text, BYTE: self.number, SHORT: self.number, LONG: self.number, ACCESS: self.number}
        others = [kinds[one]() if one in kinds else choice([b"key", b"rfa", b"again", b"skip", b"abort", b"each"])
                  for one in choice(REQUESTS.get(word, [[TEXT] * 3, []]))]
        return b" ".join([b"ask", word, *others])

    def line(self):
        """A line of any kind."""
        choice, chance = self.chance.choice, self.chance
        good = [
            lambda: b"resend", lambda: b"ack", lambda: b"files", lambda: b"new", self.packet, self.packet, self.packet,
            lambda: b"new " + choice([b"0202 0101", b"0101 0202", b"0303 0404"]),
            lambda: b"new 0202 0101 " + self.number(), self.file, self.record, self.request, self.request,
            lambda: b"new 0202 0101 512 " + self.number(), lambda: b"drop " + choice([*GIVEN, *TALKED]),
        ]
        bad = [
            lambda: b"", lambda: b"# " + self.text(), lambda: b"#\0\xff\r", lambda: b" ", lambda: b"\0", lambda: b"\r",
            lambda: chance.randbytes(chance.randrange(30)).replace(b"\n", b""),
            lambda: b" ".join(choice([b">", b"ask", b"new", b"file", b"files", b"", b"1", b"41"]) for _ in range(5)),
            lambda: b"a" * chance.choice([4095, 4096, 4097, 70000]),
            lambda: b"  1 " + b"41" * chance.choice([2000, 2047, 32767, 32768]),
            lambda: b"> " + b"00" * chance.choice([4096, 4097, 40000]),
            lambda: self.altered(choice(good)()), lambda: self.altered(choice(good)()), lambda: b"> -",
        ]
        return choice(choice([good, bad]))()


def lines_of(given):
    """The lines of an input, without their ends."""
    *lines, last = given.split(b"\n")
    return [line.removesuffix(b"\r") for line in lines] + ([last] if last else [])


def differs(given, program):
    """What isn't as it has to be in the answers to an input, or nothing; how many lines it has; its packets."""
    ran = subprocess.run([str(program), given.role], input=given.bytes, capture_output=True, check=False)
    text = ran.stdout.decode("ascii", "replace")
    answers = re.findall(r"(.*?)^waits (\d+)\n", text, re.M | re.S)
    model, bad = Model(given.role), b""
    lines = lines_of(given.bytes)
    packets = [line for line in text.split("\n") if line.startswith("< ")]
    for place, line in enumerate(lines, 1):
        is_silent = len(line) <= MAX_LINE and (not line or line.startswith(b"#"))
        if is_silent:
            continue
        if not answers:
            return f"line {place}, {line[:60]!r}, has no answer", len(lines), packets
        answer, waits = answers.pop(0)
        if not is_good(given.role, line):
            bad += b"bad line %d\n" % place
            if (answer, int(waits)) != ("refused bad-line\n", model.waits):
                return f"line {place}, {line[:60]!r}, is bad: {answer[:60]!r}", len(lines), packets
        else:
            wrong = model.goes_on(line, answer, int(waits))
            if wrong:
                return f"line {place}, {line[:60]!r}: {answer[:60]!r}: {wrong}", len(lines), packets
    if answers or text and not text.endswith("\n"):
        return "there are more answers than lines", len(lines), packets
    if (ran.returncode, ran.stderr) != (1 if bad else 0, bad):
        return f"status {ran.returncode}, told {ran.stderr[:60]!r}, and not {bad[:60]!r}", len(lines), packets
    return None, len(lines), packets


def shown(packets, program):
    """Whether `dapnsp show` lists packets, and finds nothing that is bad."""
    text = "".join(f"{packet}\n" for packet in packets)
    ran = subprocess.run([str(program), "show"], input=text, capture_output=True, text=True, check=False)
    return not ran.returncode and not re.search(r"^(\d+ [<>]| ) bad ", ran.stdout, re.M)


def tells_version(daplive):
    """Whether the program prints the newest version of the changelog."""
    newest = re.search(r"^## ([0-9.]+)", (BUILT.parent / "CHANGELOG.md").read_text(), re.M)
    done = subprocess.run([daplive, "--version"], capture_output=True, check=False)
    return (done.returncode, done.stdout, done.stderr) == (0, f"daplive {newest[1]}\n".encode(), b"")


def main():
    parser = argparse.ArgumentParser(description="Tells both live ends lines of every kind.")
    parser.add_argument("--first", type=int, default=1)
    parser.add_argument("--inputs", type=int, default=2000)
    parser.add_argument("--daplive", default=DAPLIVE)
    parser.add_argument("--dapnsp", default=DAPNSP)
    options = parser.parse_args()
    told = talks(options.daplive)
    seeds = range(options.first, options.first + options.inputs)
    wrong = count = 0
    if not tells_version(options.daplive):
        wrong += 1
        print("live_tests: daplive --version doesn't tell the newest version of CHANGELOG.md", file=sys.stderr)
    captures = [[]]
    with ThreadPoolExecutor(os.cpu_count()) as pool:
        run = lambda seed: differs(Input(seed, told), options.daplive)
        for seed, (what, lines, packets) in zip(seeds, pool.map(run, seeds)):
            count += lines
            if len(captures[-1]) > CAPTURE:
                captures.append([])
            captures[-1] += packets
            if what:
                wrong += 1
                print(f"live_tests: seed {seed}: {what}", file=sys.stderr)
    for packets in captures:
        if not shown(packets, options.dapnsp):
            wrong += 1
            print("live_tests: dapnsp show finds something bad in the packets, or fails", file=sys.stderr)
    print(f"live_tests: {options.inputs} inputs, {count} lines, {sum(map(len, captures))} packets, {wrong} wrong")
    return 1 if wrong else 0


if __name__ == "__main__":
    program.run("live_tests.py", main)
