"""Writes the packets of capture files with `dapcap --lines` where they are cut and altered, where they name any length, where
growths are refused, and where standard input and output fail: a part of hostile/check.

What is written and reported is compared with what another program reads of the file (framed.py): the lines of all frames before
a fault, the fault with its offset, and the counts.
"""
import random
import struct
import subprocess
from concurrent.futures import ThreadPoolExecutor
from os import cpu_count

from framed import is_lines, listing

# what dapcap tells where memory is refused; the second where that is to open its input
NO_MEMORY = (b"no memory\n", b"dapcap: -: no memory\n")

SECONDS = 60
ALTERED = 20_000
SEED = 1
# Lines of 64 KiB of input, of a frame of 262,144 bytes, and what the C library takes; no length that a file names.
MAX_MEMORY = 12_000  # KiB of addresses
ENDLESS = 64 << 20  # bytes of a file that goes on
MAX_PAIRS = 65_536  # whose first sender is kept: the others' sign is from the lower node
MANY, MANY_MEMORY, MANY_SECONDS = 1_000_000, 200_000, 600  # links and pairs of nodes, and KiB of addresses and time for them
# Segments, one run after the other: marks, the receiver, the number of the first, how many, and how many bytes each has; and what
# stands before the line of the last one of each. There is room for 4,096 segments of 4,032 bytes, with 64 for each.
RUNS = [
    ((0x00, 1, 1, 2048, 4032), None),
    ((0x00, 2, 1, 2048, 4032), None),  # both just fit
    ((0x00, 1, 2049, 1, 0), b"part > dst=0002 src=0101 seg=1..2048 len=8257536"),  # its own stream ends last, though it came earlier
    ((0x00, 2, 1, 2047, 4032), None),
    ((0x00, 1, 7, 1, 4032), None),  # a repeat needs no room, and is a last segment
    ((0x00, 3, 1, 1, 3968), None),  # the last byte
    ((0x60, 4, 1, 1, 0), b"part > dst=0002 src=0101 seg=1..2047 len=8253504"),  # a whole message takes its room before it is one
    ((0x60, 4, 2, 2100, 4032), None),  # then a run of messages takes 64 bytes
    ((0x00, 1, 2050, 2047, 4032), b"part > dst=0003 src=0101 seg=1..1 len=3968"),
    ((0x00, 1, 4097, 1, 4032), b"part > dst=0001 src=0101 seg=1..0 len=16511040"),  # no other is left: its own ends, and begins anew
    ((0x00, 1, 4097, 1, 4032), None),
]
LEFT = b"part > dst=0001 src=0101 seg=1..1 len=4032"  # at the end
LENGTHS = sorted({max(0, (1 << bits) + more) for bits in range(33) for more in (-4, -1, 0, 1, 4)} - {1 << 32})
LENGTHS = [length for length in LENGTHS if length < 1 << 32]
PACKET = bytes.fromhex("0402010103ff8f")


# ---- files


def ethernet(message, tags=b""):
    return (bytes(12) + tags + b"\x60\x03" + len(message).to_bytes(2, "little") + message).ljust(60, b"\0")


def short(sender, receiver, packet=PACKET, tags=b"", areas=(1, 1)):
    """The areas are those of the sender and the receiver."""
    ends = [(area << 10 | node).to_bytes(2, "little") for area, node in ((areas[1], receiver), (areas[0], sender))]
    return ethernet(b"\x02" + ends[0] + ends[1] + b"\0" + packet, tags)


def long(sender, receiver, packet=PACKET, padding=b""):
    ends = [b"\xaa\x00\x04\x00" + (1 << 10 | node).to_bytes(2, "little") for node in (receiver, sender)]
    return ethernet(padding + b"\x26\0\0" + ends[0] + b"\0\0" + ends[1] + bytes(4) + packet)


FRAMES = [short(1, 2), long(2, 1, padding=b"\x83\0\0"), short(2, 1, tags=b"\x81\0\0\5"), short(3, 1), bytes(60),
          long(1, 2, PACKET + bytes(90)), short(1, 2, tags=b"\x88\xa8\0\5\x91\0\0\5")[:-20], short(1, 2)]


def segment(marks, receiver, number, length):
    """A line with a segment of this many bytes."""
    return b"> %02x%02x000101%s%s\n" % (marks, receiver, number.to_bytes(2, "little").hex().encode(), b"00" * length)


def pcap(frames, order="<", magic=0xA1B2C3D4):
    head = struct.pack(order + "IHHIIII", magic, 2, 4, 0, 0, 262_144, 1)
    return head + b"".join(struct.pack(order + "IIII", at, 500_000 + at, len(one), len(one)) + one for at, one in enumerate(frames))


def block(order, kind, body):
    body += bytes(-len(body) % 4)
    return struct.pack(order + "II", kind, len(body) + 12) + body + struct.pack(order + "I", len(body) + 12)


def section(frames, order="<", options=b"", length=-1):
    """A section with three interfaces, one of which isn't of Ethernet, other blocks, and frames in turn on all of them."""
    parts = [block(order, 0x0A0D0D0A, struct.pack(order + "IHHq", 0x1A2B3C4D, 1, 0, length))]
    for link in (1, 113, 1):
        parts.append(block(order, 1, struct.pack(order + "HHI", link, 0, 96) + (options if link == 1 else b"")))
    parts.append(block(order, 5, bytes(12)))
    for at, one in enumerate(frames):
        if at % 4 == 3:
            parts.append(block(order, 3, struct.pack(order + "I", len(one)) + one[:96]))
        else:
            parts.append(block(order, 6, struct.pack(order + "IIIII", at % 3, 0, at << 20, len(one), len(one)) + one))
    return b"".join(parts)


def finer(order, resolution):
    """Options of an interface: the resolution of its times, seconds that are added to them, and the last."""
    return struct.pack(order + "HHB3xHHqHH", 9, 1, resolution, 14, 8, 5, 0, 0)


FILES = {
    "pcap": pcap(FRAMES),
    "pcap, highest byte first, nanoseconds": pcap(FRAMES, ">", 0xA1B23C4D),
    "pcapng": section(FRAMES),
    "pcapng, two sections": section(FRAMES, ">", finer(">", 9)) + section(FRAMES[:4], "<", finer("<", 0x8A)),
}
# of each file a part in which a number lies: its offset, and how it is written
NUMBERS = {
    "pcap": [(24 + 8, "<I"), (24 + 12, "<I"), (24 + 16 + 60 + 8, "<I")],
    "pcapng": [(4, "<I"), (28 + 4, "<I"), (28 + 12, "<I"), (28 + 60 + 4, "<I"), (28 + 60 + 24 + 4, "<I"), (28 + 60 + 24 + 8, "<I"),
               (28 + 60 + 24 + 20, "<I"), (28 + 60 + 24 + 24, "<I")],
}


def many(count):
    """More lines than are written at once."""
    return pcap(FRAMES * count)


def interfaces(count):
    """A section with this many interfaces and a frame on the last one, and a section with one interface."""
    frame = struct.pack("<IIIII", count - 1, 0, 7, 60, 60) + short(1, 2)
    parts = [block("<", 0x0A0D0D0A, struct.pack("<IHHq", 0x1A2B3C4D, 1, 0, -1)), block("<", 1, struct.pack("<HHI", 1, 0, 0)) * count]
    return b"".join(parts) + block("<", 6, frame) + section(FRAMES[:3])


# ---- altered files


def with_number(choose, file):
    """A number of four bytes is another one, often one near a power of two."""
    at = choose.randrange(len(file) - 3)
    number = choose.choice(LENGTHS) if choose.random() < 0.7 else choose.randrange(1 << 32)
    return file[:at] + struct.pack(choose.choice("<>") + "I", number) + file[at + 4:]


def with_bytes(choose, file):
    file = bytearray(file)
    for _ in range(choose.randint(1, 4)):
        file[choose.randrange(len(file))] = choose.randrange(256)
    return bytes(file)


def with_bit(choose, file):
    file, at = bytearray(file), choose.randrange(len(file))
    file[at] ^= 1 << choose.randrange(8)
    return bytes(file)


def with_part(choose, file):
    """A part is missing, is there twice, or is another one."""
    start, end, to = sorted(choose.randrange(len(file) + 1) for _ in range(3))
    return choose.choice((file[:start] + file[end:], file[:end] + file[start:], file[:end] + file[start:end] + file[to:]))


def with_end(choose, file):
    return file[:choose.randrange(len(file))]


def altered(count):
    choose, files = random.Random(SEED), list(FILES.values())
    ways = (with_number, with_number, with_bytes, with_bit, with_part, with_end)
    while count:
        file = choose.choice(files)
        for _ in range(choose.choice((1, 1, 1, 2))):
            file = choose.choice(ways)(choose, file) if len(file) > 4 else file
        if not is_lines(file):
            count -= 1
            yield file


# ---- the runs


def without_help(told):
    """What is reported, without what may help besides."""
    return b"".join(line for line in told.splitlines(keepends=True) if not line.startswith(b"dapcap: "))


class Captures:
    """Runs of `dapcap --lines`; the suite counts and reports them."""

    def __init__(self, suite, program):
        self.suite, self.words = suite, [program, "--lines"]

    def all(self):
        for name, file in FILES.items():
            self.cut(name, file)
        for name, numbers in NUMBERS.items():
            self.lengths(name, FILES[name], numbers)
        self.compare("dapcap --lines, up to 1,025 interfaces", map(interfaces, (1, 1023, 1024, 1025)))
        self.compare(f"dapcap --lines, {ALTERED} altered files", altered(ALTERED))
        for name, file in {**FILES, "many lines": many(200)}.items():
            self.refuse(name, file)
        for name in ("pcap", "pcapng, two sections"):
            self.fail(name, FILES[name])
        self.fail("many lines", many(200), small=False)
        self.go_on()
        self.many()
        self.full()

    # -- files

    def run(self, file):
        return subprocess.run(self.words, input=file, capture_output=True, timeout=SECONDS, check=False)

    @staticmethod
    def run_within(memory, words, file, seconds=SECONDS):
        shell = ["bash", "-c", f'ulimit -v {memory}; exec "$@"', "bash"]
        return subprocess.run([*shell, *words], input=file, capture_output=True, timeout=seconds, check=False)

    def run_bounded(self, file):
        return self.run_within(MAX_MEMORY, self.words, file)

    def compare(self, name, files, run=None):
        """Each file is listed as the other program reads it."""
        run, count, wrong = run or self.run, 0, []
        with ThreadPoolExecutor(cpu_count()) as pool:
            for file, ran in pool.map(lambda file: (file, run(file)), files):
                lines, told, status = listing(file)
                count += 1
                if (ran.stdout, without_help(ran.stderr), ran.returncode) != (b"".join(lines), told, status):
                    wrong.append((ran, told, file))
        self.suite.passed += count - len(wrong)
        self.suite.failed += len(wrong)
        print(f"{name}: {count} files", f"{len(wrong)} WRONG" if wrong else "", flush=True)
        for ran, told, file in wrong[:3]:
            print(f"  status {ran.returncode}, wrote {len(ran.stdout)} bytes, told {ran.stderr[-200:]!r} in place of {told!r}: {file.hex()}")

    def cut(self, name, file):
        self.compare(f"dapcap --lines, {name}, cut at every byte",
                     (file[:end] for end in range(len(file) + 1) if not is_lines(file[:end])))

    def lengths(self, name, file, numbers):
        """A number is each length, where the program has little memory."""
        files = [file[:at] + struct.pack(form, length) + file[at + 4:] for at, form in numbers for length in LENGTHS]
        self.compare(f"dapcap --lines, {name}, lengths up to 2^32", files, self.run_bounded)

    def go_on(self):
        """Files that go on, where the program has little memory: records, and another block than those that are read."""
        for name, head, piece in [("records", FILES["pcap"], pcap(FRAMES * 100)[24:]),
                                  ("a block", FILES["pcapng"] + struct.pack("<II", 5, (1 << 32) - 4), bytes(1 << 16))]:
            file = head + piece * (ENDLESS // len(piece))
            self.compare(f"dapcap --lines, {name} of {ENDLESS >> 20} MiB", [file], self.run_bounded)

    def many(self):
        """Links, and pairs of nodes, without number, where the program has little memory: each packet is listed."""
        links = b"".join(b"> 20%04x%04x010000\n" % (at & 0xFFFF, at >> 16) for at in range(MANY))
        done = self.run_within(MANY_MEMORY, [self.words[0], "--bare"], links, MANY_SECONDS)
        listed = done.stdout.count(b"\npart > ") + done.stdout.count(b" > segment first ")
        self.tell(f"dapcap, {MANY:,} links", (done.returncode, done.stderr, listed) == (0, b"", 2 * MANY), done)
        pairs = (short(1 + at % 1000, 1 + at // 1000, areas=(3, 2)) for at in range(MANY))
        file = pcap([])[:24] + b"".join(struct.pack("<IIII", 0, 0, 60, 60) + one for one in pairs)
        done = self.run_within(MANY_MEMORY, self.words, file, MANY_SECONDS)
        ways = [line[:1] for line in done.stdout.splitlines()[1::2]]
        is_right = (done.returncode, done.stderr) == (0, b"taken %d passed 0\n" % MANY)
        is_right = is_right and ways == [b">"] * MAX_PAIRS + [b"<"] * (MANY - MAX_PAIRS)
        self.tell(f"dapcap --lines, {MANY:,} pairs of nodes", is_right, done)

    def full(self):
        """Streams end where the room is full, those first whose last segment, or repeat, is the earliest, and no others."""
        packets, ends = [], {}
        for (marks, receiver, first, count, length), ended in RUNS:
            numbers = ((first + at) % 4096 for at in range(count))
            packets += [segment(marks, receiver, number, length) for number in numbers]
            ends |= {len(packets): [ended]} if ended else {}
        done = subprocess.run([self.words[0], "--bare"], input=b"".join(packets), capture_output=True, timeout=MANY_SECONDS, check=False)
        listed, found = 0, {}
        for line in done.stdout.splitlines():
            if line.startswith((b"part", b"gap")):
                found.setdefault(listed + 1, []).append(line)
            listed += b" > segment " in line
        is_right = (done.returncode, done.stderr, listed) == (0, b"", len(packets))
        self.tell("dapcap, 16 MiB that wait", is_right and found == {**ends, len(packets) + 1: [LEFT]}, done)

    def tell(self, name, is_right, done):
        self.suite.passed, self.suite.failed = self.suite.passed + is_right, self.suite.failed + (not is_right)
        print(f"{name}: {'right' if is_right else f'WRONG, status {done.returncode}, told {done.stderr[-200:]!r}'}", flush=True)

    # -- memory and devices

    def refuse(self, name, file):
        """The lines before a growth is refused are written, and no part of a line pair; then that is reported."""
        lines, told, status = listing(file)
        fronts = {b"".join(lines[:count]) for count in range(len(lines) + 1)}

        def is_right(ran, _at):
            if (ran.status, ran.written, ran.told) == (status, b"".join(lines), told):
                return True
            return ran.was_met and ran.written in fronts and ran.status == 3 and ran.told in NO_MEMORY

        for manner, what in [("", "one growth refused"), ("..", "all growths refused from one on")]:
            run = lambda at: self.suite.ran(self.words, file, REFUSE_GROWTH=f"{at}{manner}")
            self.suite.until_none(f"dapcap --lines, {name}, {what}", run, is_right)

    def fail(self, name, file, small=True):
        """Each read fails, and each write fails or takes nothing."""
        lines, told, status = listing(file)
        text, whole = b"".join(lines), (status, b"".join(lines), told)
        for size in (1, 65_536) if small else (1 << 12,):
            run = lambda at: self.suite.ran(self.words, file, FAIL_READ=at, SHORT_READ=size)
            unread = lambda at: (3, b"".join(listing(file[:size * (at - 1)])[0]), b"read failed\n")
            is_right = lambda ran, at: (ran.status, ran.written, ran.told) == (unread(at) if ran.was_met else whole)
            self.suite.until_none(f"dapcap --lines, {name}, a read of {size} fails", run, is_right)
        for size in (1, 5, 65_536) if small else (1 << 12,):
            for fault, what in [("FAIL_WRITE", "fails"), ("EMPTY_WRITE", "takes nothing")]:
                run = lambda at: self.suite.ran(self.words, file, SHORT_WRITE=size, **{fault: at})
                is_right = lambda ran, _at: text.startswith(ran.written) and (
                    (ran.status, ran.told) == (3, b"write failed\n") if ran.was_met else
                    (ran.status, ran.written, ran.told) == whole)
                self.suite.until_none(f"dapcap --lines, {name}, a write of {size} {what}", run, is_right)
