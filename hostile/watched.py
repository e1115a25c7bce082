"""Lists captures with `dapcap` where growths are refused, where standard input and output fail, and where packets are lost,
repeated and reordered: a part of hostile/check.

- Of a whole capture it writes what `dapcap --strict` writes; a line that is none is reported, and changes nothing else.
- Where memory is refused, or a read fails, what is written is the lines of the packets so far; where a write fails, a prefix of
  the whole text. The status is 3.
"""
import random
import re
import subprocess
from concurrent.futures import ThreadPoolExecutor
from os import cpu_count

from captured import NO_MEMORY

SECONDS = 60
CAPTURES = 300
SEED = 1
SIZES = (1, 16, 100)  # bytes of segments
PACKET = re.compile(rb"^\d+ [<>] ", re.M)


def line(marks, way, number, payload):
    there, back = (b"0202", b"0101") if way == b">" else (b"0101", b"0202")
    number = (number % 4096).to_bytes(2, "little").hex().encode()
    return way + b" " + b"%02x" % marks + there + back + number + payload.hex().encode()


def message(choose):
    """An NSP message: acknowledges, a Data message, or bytes that are none."""
    kind = choose.randrange(3)
    if kind == 0:
        return b"\x06\x02\x00" * choose.randint(1, 40)
    if kind == 1:
        return b"\x08\x00\x00" + choose.randbytes(choose.randint(0, 300))
    return choose.randbytes(choose.randint(1, 60))


def capture(choose):
    """Segments of messages, both ways, some of them lost, repeated or moved after others."""
    lines = []
    for way in (b">", b"<"):
        number = choose.choice((1, 4090))
        for _ in range(choose.randint(1, 8)):
            whole, size = message(choose), choose.choice(SIZES)
            pieces = [whole[at : at + size] for at in range(0, len(whole), size)]
            for at, piece in enumerate(pieces):
                marks = 0x20 * (at == 0) | 0x40 * (at == len(pieces) - 1)
                lines += [line(marks, way, number, piece)] * choose.choice((0, 1, 1, 1, 1, 1, 1, 2))
                number += 1
    order = [(at + choose.choice((0, 0, 0, choose.uniform(0, 40))), one) for at, one in enumerate(lines)]
    return b"".join(b"".join(before(choose)) + one + b"\n" for _at, one in sorted(order))


def before(choose):
    """Lines that say nothing, before a packet: some name its frame, if no other line is after them."""
    for _ in range(choose.choice((0, 1, 1, 2))):
        number = choose.randint(1, 99_999)
        yield choose.choice((b"# frame %d 1.%06d 1.1 -> 1.2\n" % (number, number), b"# frame %d - 1.2 -> 1.1\n" % number, b"\n",
                             b"# frame %d\n" % number, b"# %d\n" % number))


class Watched:
    """The listing as lines come, by the program; also in words."""

    def __init__(self, suite, program, example, *words):
        self.suite, self.listed, self.strict = suite, [program, *words], [program, "--strict", *words]
        self.given, self.name = example, " ".join(["dapcap", *words])
        self.text = self.run(self.strict, example).stdout

    def all(self):
        self.alike()
        self.bad_lines()
        self.refuse()
        self.fail()

    @staticmethod
    def run(words, given):
        return subprocess.run(words, input=given, capture_output=True, timeout=SECONDS, check=False)

    def alike(self):
        """What is listed as lines come, and after all are checked, is the same."""
        choose = random.Random(SEED)
        captures = [self.given, *(capture(choose) for _ in range(CAPTURES))]
        run = lambda given: (self.run(self.listed, given), self.run(self.strict, given))
        with ThreadPoolExecutor(cpu_count()) as pool:
            came = list(pool.map(run, captures))
        wrong = [at for at, (one, other) in enumerate(came) if (one.returncode, one.stdout, one.stderr) != (0, other.stdout, b"")]
        self.tell(f"{self.name}, {len(captures)} captures as --strict lists them", len(captures), wrong)

    def bad_lines(self):
        """Lines that are none are reported by their numbers, and the others are listed as if those were comments."""
        lines = self.given.splitlines(keepends=True)
        wrong = []
        for at in range(len(lines) + 1):
            given = lambda line: b"".join([*lines[:at], line, *lines[at:]])
            ran, wanted = self.run(self.listed, given(b"> 6\n")), self.run(self.strict, given(b"# none\n")).stdout
            if (ran.returncode, ran.stdout, ran.stderr.splitlines()[:1]) != (1, wanted, [b"bad line %d" % (at + 1)]):
                wrong.append(at)
        self.tell(f"{self.name}, a line that is none", len(lines) + 1, wrong)

    def tell(self, name, count, wrong):
        self.suite.passed += count - len(wrong)
        self.suite.failed += len(wrong)
        print(f"{name}:", f"{len(wrong)} WRONG, first {wrong[:3]}" if wrong else "right", flush=True)

    def is_whole(self, ran):
        return (ran.status, ran.written, ran.told) == (0, self.text, b"")

    def is_of_packets(self, written):
        """The lines of the first packets, whole."""
        rest = self.text[len(written) :]
        return self.text.startswith(written) and (not rest or PACKET.match(rest) or rest.startswith((b"part", b"gap")))

    def refuse(self):
        def is_right(ran, _at):
            if not ran.was_met:
                return self.is_whole(ran)
            return self.is_whole(ran) or ran.status == 3 and ran.told in NO_MEMORY and self.is_of_packets(ran.written)

        for manner, what in [("", "one growth refused"), ("..", "all growths refused from one on")]:
            run = lambda at: self.suite.ran(self.listed, self.given, REFUSE_GROWTH=f"{at}{manner}")
            self.suite.until_none(f"{self.name}, {what}", run, is_right)

    def fail(self):
        def unread(ran, _at):
            if not ran.was_met:
                return self.is_whole(ran)
            return (ran.status, ran.told) == (3, b"read failed\n") and self.is_of_packets(ran.written)

        def unwritten(ran, _at):
            if not ran.was_met:
                return self.is_whole(ran)
            return (ran.status, ran.told) == (3, b"write failed\n") and self.text.startswith(ran.written)

        for size in (1, 65536):
            run = lambda at: self.suite.ran(self.listed, self.given, FAIL_READ=at, SHORT_READ=size)
            self.suite.until_none(f"{self.name}, a read of {size} fails", run, unread)
        for size in (1, 5, 65536):
            for fault, what in [("FAIL_WRITE", "fails"), ("EMPTY_WRITE", "takes nothing")]:
                run = lambda at: self.suite.ran(self.listed, self.given, SHORT_WRITE=size, **{fault: at})
                self.suite.until_none(f"{self.name}, a write of {size} {what}", run, unwritten)
