"""Tests dap.lua: each message of tshark's tree is that of `dapcap`, by frame and order.

By default 2,000 altered segments and two streams are compared, and three wrong bodies are tried; with TOOLS_ALL=1 10,000, six
and all. TOOLS_SEED is the seed; TOOLS_CAPTURES a folder of more captures, as `bridge/check --keep` leaves them.
"""
import collections
import os
import pathlib
import random
import re
import shutil
import subprocess
import tempfile
import unittest
import xml.etree.ElementTree as ElementTree

import made_captures
from support import ALL, DAPCAP, DAPLIVE, ROOT, SEED, need_programs

LUA = pathlib.Path(__file__).with_name("dap.lua")
EXAMPLES = ROOT / "examples"
ATTRIBUTES = "datatype org rfm rat bls mrs alq bks fsz mrn runsys deq fop bsz dev sdc lrl hbk ebk ffb sbn".split()
CONTROLS = "rac key krf rop hsh display".split()
IMAGES = {"alq", "mrn", "runsys", "hbk", "ebk", "sbn", "key", "hsh"}
AT_ONCE = 5_000 if ALL else 750  # packets of a stream
LISTED = re.compile(r"  (?!message )(.*)")
FRAME = re.compile(r" ; frame ([0-9]+) ")

# Wrong bodies: a name, the text of dap.lua, and what it is replaced by.
WRONG_BODIES = [
    ("an extensible field one byte longer", "for index = 0, size - 1 do\n", "for index = 0, size do\n"),
    ("2,049 is ahead", "local NUMBERS, HALF = 4096, 2048", "local NUMBERS, HALF = 4096, 2049"),
    ("not cut before a first mark", "if before and not ENDS[before.mark] and not BEGINS[segment.mark] then",
     "if before and not ENDS[before.mark] then"),
    ("flag bit 3 allowed", "if bit > LENGTH_256_BIT then", "if bit > LENGTH_256_BIT + 1 then"),
    ("LEN256 without LENGTH", "if has[LENGTH_256_BIT] and not has[LENGTH_BIT] then", "if false then"),
    ("stream 1 allowed", "if stream ~= 0 then", "if stream > 1 then"),
    ("a fault in LENGTH told after it", 'return nil, "truncated", length_at end', 'return nil, "truncated", at end'),
    ("a menu's bit too many", "if bit >= #formats then", "if bit > #formats then"),
    ("type 17 read", '"Name", "Access Control List" }', '"Name", "Access Control List", "Seventeen" }'),
    ("FAC has to be there", 'optional(extensible("fac", 3))', 'extensible("fac", 3)'),
    ("a missing CHECK is 0", 'found.check and decimal(found.check) or "-"', "decimal(found.check)"),
    ("an image's limit after its bytes",
     '  if count > size then return nil, "too-long" end\n  if at + 1 + count > stop then return nil, "truncated" end',
     '  if at + 1 + count > stop then return nil, "truncated" end\n  if count > size then return nil, "too-long" end'),
    ("SYSCAP as a double", "decimal_of_bits(found.syscap.bits)", "decimal(found.syscap)"),
    ("goes on after a fault", "until message.fault or at >= #bytes", "until at >= #bytes"),
    ("2,048 is older", "local NUMBERS, HALF = 4096, 2048", "local NUMBERS, HALF = 4096, 2047"),
    ("the later of two copies", "if stream.segments[at] then return stream.segments[at], nil end",
     "if stream.segments[at] then stream.segments[at].payload = segment.payload return stream.segments[at], nil end"),
    ("not cut after a last mark", "if after and not BEGINS[after.mark] and not ENDS[segment.mark] then",
     "if after and not BEGINS[after.mark] then"),
    ("one acknowledgement field at most", "local FIELDS_BEFORE_PAYLOAD = 3", "local FIELDS_BEFORE_PAYLOAD = 2"),
    ("a message that a late segment completes is left out", "from = stream.left[at - 1] end", "from = at end"),
    ("an Ethernet's filling is payload", "local range = tvb(at, stop - at)", "local range = tvb(at)"),
]
TRIED = WRONG_BODIES if ALL else WRONG_BODIES[:3]


def need_tshark():
    if not shutil.which("tshark"):
        raise unittest.SkipTest("no tshark")
    need_programs()


def listed_by(*words, text=None):
    """What `dapcap` lists: by the number that stands before a packet's line, or behind its frame, the lines of its messages."""
    done = subprocess.run([DAPCAP, *words], input=text, capture_output=True, text=True, check=True)
    result, number, frames = {}, 0, {}
    for line in done.stdout.splitlines():
        if found := LISTED.fullmatch(line):
            result.setdefault(number, []).append(found[1].partition(" ; ")[0])
        elif line[0].isdigit():
            number = int(line.split()[0])
            if found := FRAME.search(line):
                frames[number] = int(found[1])
    return result, frames


def follow(lines):
    """By packet the DAP lines of a capture's lines."""
    return listed_by("--bare", text="".join(f"{line}\n" for line in lines))[0]


# ---- tshark

def tshark(pcap, *words, lua=LUA):
    """What tshark prints of a capture file."""
    command = ["tshark", "-X", f"lua_script:{lua}", "-r", pcap, *words]
    done = subprocess.run(command, capture_output=True, text=True, check=False)
    if "Lua" in done.stderr or "Lua Error" in done.stdout:
        raise AssertionError(f"{pcap}: {(done.stderr + done.stdout)[:300]}")
    return done.stdout


def texts(pcap, lua=LUA, passes=()):
    """By frame the lines that dap.lua gives; no frame has an error of Lua."""
    result = {}
    words = [*passes, "-T", "fields", "-E", "aggregator=|", "-e", "frame.number", "-e", "dec_dap.text", "-e", "_ws.expert.message"]
    for line in tshark(pcap, *words, lua=lua).splitlines():
        number, lines, _ = line.split("\t")
        if lines:
            result[int(number)] = lines.split("|")
    return result


def rebuilt_lines(pcap):
    """By frame the lines that the fields of each message make."""
    result = {}
    for packet in ElementTree.fromstring(tshark(pcap, "-T", "pdml", "-J", "dec_dap frame")):
        number = next(one.get("show") for one in packet.iter("field") if one.get("name") == "frame.number")
        lines = [Rebuilt(item).line() for item in packet.iter("field") if item.get("name") == "dec_dap.summary"]
        if lines:
            result[int(number)] = lines
    return result


class Rebuilt:
    """A listing's line, made of the fields of a message by their names."""

    def __init__(self, item):
        self.fields = collections.defaultdict(list)
        for one in item.iter("field"):
            self.fields[one.get("name").removeprefix("dec_dap.")].append(one)

    def number(self, name):
        return int(self.fields[name][0].get("show"), 0) if self.fields[name] else 0

    def image(self, name):
        return self.fields[name][0].get("value") or "-" if self.fields[name] else "-"

    def line(self):
        if self.fields["bad"]:
            return f"bad {self.fields['bad'][0].get('show')} type={self.number('bad.type')} at={self.number('bad.at')}"
        kind, number, image = self.number("type"), self.number, self.image
        if kind == 1:
            version = ".".join(str(number(f"config.{name}")) for name in "vernum econum usrnum softver usrsoft".split())
            syscap = sum(1 << int(one.get("show")) for one in self.fields["config.syscap.bit"])
            return (f"config bufsiz={number('config.bufsiz')} ostype={number('config.ostype')} "
                    f"filesys={number('config.filesys')} version={version} syscap={syscap}")
        if kind in (2, 4):
            return self.menu_line(*(("attributes", "attmenu", ATTRIBUTES) if kind == 2 else ("control", "ctlmenu", CONTROLS)))
        if kind == 3:
            return (f"access func={number('access.accfunc')} opt={number('access.accopt')} name={image('access.filespec')} "
                    f"fac={number('access.fac')} shr={number('access.shr')} display={number('access.display')} "
                    f"password={number('access.password_length')}")
        if kind == 7:
            check = number("complete.check") if self.fields["complete.check"] else "-"
            return f"complete func={number('complete.cmpfunc')} fop={number('complete.fop')} check={check}"
        if kind == 9:
            return (f"status {number('status.code'):04x} rfa={image('status.rfa')} recnum={image('status.recnum')} "
                    f"stv={image('status.stv')}")
        return {5: f"continue func={number('continue.confunc')}", 6: "ack",
                8: f"data recnum={image('data.recnum')} body={image('data.filedata')}"}.get(
                    kind, f"other type={kind} body={image('other.body')}")

    def menu_line(self, word, menu, names):
        parts = [word] + [f"func={self.number('control.ctlfunc')}"] * (word == "control")
        for bit, name in enumerate(names):
            if self.number(f"{word}.{menu}") >> bit & 1:
                value = self.image(f"{word}.{name}") if name in IMAGES else self.number(f"{word}.{name}")
                parts.append(f"{name}={value}")
        return " ".join(parts)


# ---- tests

class Case(unittest.TestCase):
    maxDiff = 2000

    @classmethod
    def setUpClass(cls):
        need_tshark()
        folder = tempfile.TemporaryDirectory()
        cls.addClassCleanup(folder.cleanup)
        cls.folder = pathlib.Path(folder.name)

    def pcap(self, lines, name="made.pcap"):
        path = self.folder / name
        path.write_bytes(made_captures.pcap(made_captures.frames_of(lines, SEED)))
        return path

    def compare(self, pcap, listed):
        self.assertTrue(listed)
        self.first_difference(listed, rebuilt_lines(pcap), "of the fields")
        self.first_difference(listed, texts(pcap), "of dec_dap.text")
        self.first_difference(listed, texts(pcap, passes=["-2"]), "in two passes")

    def first_difference(self, listed, found, what):
        for frame in sorted({*listed, *found}):
            self.assertEqual(found.get(frame), listed.get(frame), f"frame {frame}, {what}")

    @staticmethod
    def listed_of(path):
        """The DAP lines of each frame of a capture file with a packet, or None."""
        listed, frames = listed_by(str(path))
        return {frame: listed.get(number) for number, frame in frames.items()}


class ListingTest(Case):
    def test_the_examples(self):
        for name in ("wire.pcap", "wire.pcapng"):
            with self.subTest(name):
                self.compare(EXAMPLES / name, self.listed_of(EXAMPLES / name))

    def test_the_page_shows_what_tshark_prints(self):
        page = (ROOT / "docs" / "CAPTURES.md").read_text(encoding="utf-8")
        (command, printed), = re.findall(r"^```shell\n(tshark .*\n)```\n\n```\n((?:.*\n)+?)```", page, re.M)
        done = subprocess.run(["bash", "-c", command], cwd=ROOT, capture_output=True, text=True, check=True)
        self.assertEqual(done.stdout, printed)

    def test_altered_segments(self):
        lines = list(made_captures.altered_segments(SEED + 8, 10_000 if ALL else 2_000))
        self.compare(self.pcap(lines), follow(lines))

    def test_streams_with_holes_retransmissions_and_wraps(self):
        for seed in range(SEED, SEED + (6 if ALL else 2)):
            with self.subTest(seed=seed):
                lines = list(made_captures.streams(seed, AT_ONCE))
                self.compare(self.pcap(lines), follow(lines))

    def test_a_link_that_is_opened_again(self):
        first = ["> 600202010101000600", "> 600202010102000600"]
        for again in ("> 1800000101012500", "> 6800000101012500"):
            lines = [*first, again, *first]
            listed = follow(lines)
            self.assertEqual(sorted(listed), [1, 2, 4, 5])
            self.compare(self.pcap(lines), listed)

    def test_a_transfer_over_a_lossy_line(self):
        lines = made_captures.transfer(SEED, DAPLIVE)
        draw = random.Random(SEED)
        for name, some in (("whole", lines), ("with losses", [line for line in lines if draw.random() > 0.05])):
            with self.subTest(name):
                self.compare(self.pcap(some), follow(some))

    def test_captures_of_a_folder(self):
        folder = os.environ.get("TOOLS_CAPTURES")
        if not folder:
            self.skipTest("no TOOLS_CAPTURES")
        listed = {path: self.listed_of(path) for path in pathlib.Path(folder).rglob("*.pcapng") if path.is_file()}
        self.assertTrue(any(any(lines.values()) for lines in listed.values()), "there are none with DAP messages")
        for path, lines in listed.items():
            with self.subTest(path.name):
                found = {frame: some for frame, some in texts(path).items() if frame in lines}
                self.first_difference(lines, found, "of dec_dap.text")


class ReaderTest(Case):
    SCRIPT = """
        local reader = dofile(arg[1])
        for line in io.lines() do
          local bytes = line:gsub("%x%x", function(pair) return string.char(tonumber(pair, 16)) end)
          local segment = reader.read_segment(bytes)
          for _, message in ipairs(reader.read_payload(segment.payload)) do
            assert(#reader.summary(message) > 0)
            print(reader.listing_line(message))
          end
        end"""

    def test_lua_without_wireshark(self):
        programs = [name for name in ("lua5.2", "lua5.3", "lua5.4") if shutil.which(name)]
        if not programs:
            self.skipTest("no lua5.2, lua5.3 or lua5.4")
        lines = list(made_captures.altered_segments(SEED, 500))
        listed = [line for some in follow(lines).values() for line in some]
        script = self.folder / "script.lua"
        script.write_text(self.SCRIPT)
        for name in programs:
            done = subprocess.run([name, script, LUA], input="".join(f"{line[2:]}\n" for line in lines), capture_output=True,
                                  text=True, check=True)
            self.assertEqual(done.stdout.splitlines(), listed, name)


class LinkTypesTest(Case):
    """What carries DECnet, and links to other objects."""

    NSP = bytes.fromhex("60020201010080010001020a00040703050600000000")
    LINE = "config bufsiz=1024 ostype=7 filesys=3 version=5.6.0.0.0 syscap=0"
    SHORT = bytes.fromhex("020204010400")  # a routing header
    MESSAGE = len(SHORT + NSP).to_bytes(2, "little") + SHORT + NSP

    def lines_of(self, frames, link=made_captures.LINK_ETHERNET, *words):
        path = self.folder / "link.pcap"
        path.write_bytes(made_captures.pcap(frames, link))
        found = tshark(path, *words, "-T", "fields", "-e", "frame.number", "-e", "dec_dap.text")
        return [line.split("\t")[1] for line in found.splitlines()]

    def test_link_types(self):
        stations = bytes.fromhex("aa0004000204aa0004000104")
        for name, link, head in (("PPP", 9, "ff030027"), ("Cisco HDLC", 104, "0f006003"),
                                 ("Linux cooked", 113, "00000001000600000000000000006003"),
                                 ("two tags", 1, stations.hex() + "88a80005810000066003")):
            self.assertEqual(self.lines_of([bytes.fromhex(head) + self.MESSAGE], link), [self.LINE], name)

    def test_links_to_other_objects(self):
        def connect(address, number):
            return f"> 180000{address}01020002{0:02x}{number:02x}000000"

        def data(direction, receiver, sender):
            return f"{direction} 60{receiver}{sender}0100{self.NSP[9:].hex()}"

        lines = [connect("0a0b", 42), data(">", "0102", "0a0b"), data("<", "0a0b", "0102"),
                 connect("0c0d", 17), data(">", "0103", "0c0d"), data("<", "0c0d", "0103"), data(">", "0909", "0808")]
        frames = list(made_captures.frames_of(lines))
        self.assertEqual([bool(line) for line in self.lines_of(frames)], [False, False, False, False, True, True, True])
        self.assertEqual(sum(map(bool, self.lines_of(frames, 1, "-o", "dec_dap.fal:FALSE"))), 5)

    def test_files_that_are_no_such_captures(self):
        whole = made_captures.pcap(made_captures.frames_of(made_captures.streams(SEED, 20)))
        other = made_captures.pcap([bytes(12) + b"\x08\x00" + bytes(60), bytes(12) + b"\x60\x03" + bytes(46)])
        for name, data in (("cut", whole[:-7]), ("cut in a head", whole[:60]), ("empty", whole[:24]), ("other", other)):
            path = self.folder / f"{name}.pcap"
            path.write_bytes(data)
            self.assertNotIn("dec_dap.text", tshark(path, "-T", "pdml") if name in ("empty", "other") else texts(path))


class WrongBodiesTest(Case):
    """Each wrong body of dap.lua differs from the listing, or has an error, in captures as those above."""

    def test_each_is_caught(self):
        captures = [list(made_captures.altered_segments(SEED + 8, 10_000 if ALL else 1_000)),
                    list(made_captures.streams(SEED, AT_ONCE))]
        paths = [self.pcap(lines, f"{at}.pcap") for at, lines in enumerate(captures)]
        listed = [follow(lines) for lines in captures]
        self.assertFalse(any(self.differs(path, LUA, lines) for path, lines in zip(paths, listed)), "without an edit")
        source = LUA.read_text(encoding="utf-8")
        wrong = self.folder / "wrong.lua"
        for name, old, new in TRIED:
            with self.subTest(name):
                self.assertEqual(source.count(old), 1, "the text is there once")
                wrong.write_text(source.replace(old, new), encoding="utf-8")
                self.assertTrue(any(self.differs(path, wrong, lines) for path, lines in zip(paths, listed)), "not caught")

    @staticmethod
    def differs(path, lua, listed):
        try:
            return texts(path, lua=lua) != listed
        except AssertionError:
            return True


if __name__ == "__main__":
    unittest.main()
