#!/usr/bin/env python3
"""Looks at what the programs report where something is wrong: of files of captured frames, of other lines, of words, of files
that can't be opened; and that they end silently where nobody reads what they write.

usage: told_tests.py [--dapnsp PROGRAM] [--daplive PROGRAM] [--dapcap PROGRAM]
"""
import argparse
import ctypes
import os
import pathlib
import subprocess
import sys
import tempfile

from decnet import program

HERE = pathlib.Path(__file__).resolve().parent
TOP = HERE.parent
SECONDS = 60
# what a shell shows of a program that SIGPIPE ended
CLOSED_PIPE = 141
# with these root reads files that nobody may read
PR_CAPBSET_DROP, CAP_DAC_OVERRIDE, CAP_DAC_READ_SEARCH = 24, 1, 2

# how files of captured frames begin, as pcap and pcapng say
MICROSECONDS, NANOSECONDS, SECTION = "a1b2c3d4", "a1b23c4d", "0a0d0d0a"
STARTS = [(bytes.fromhex(magic)[::way], "pcap") for magic in (MICROSECONDS, NANOSECONDS) for way in (1, -1)]
STARTS += [(bytes.fromhex(SECTION), "pcapng")]
FILES = [(start + bytes(20), kind) for start, kind in STARTS]
FILES += [((HERE / f"wire.{kind}").read_bytes(), kind) for kind in ("pcap", "pcapng")]
# lines that are none of a capture nor of a schedule, with the number of the first: some begin as a file of frames might
OTHERS = [(bytes.fromhex(MICROSECONDS)[:3], 1), (bytes.fromhex("a1b2c3d5"), 1), (b"foo\n", 1), (b"#\n\xa1\xb2\xc3\xd4", 2)]
COMMANDS = {("dapnsp", "show"): "a capture", ("dapnsp", "msg"): "a capture", ("dapnsp", "run"): "a schedule"}
TURNS = "dapcap lists it, and dapcap --lines turns it into lines for dapnsp show"

ADDRESS, NUMBER = "an address is four hex digits", "a number is decimal digits, ten at most"
WORDS = [
    ("serve --local 1", f"--local 1: {ADDRESS}"),
    ("ask --remote=01012", f"--remote 01012: {ADDRESS}"),
    ("ask --local 000g --remote 1", f"--local 000g: {ADDRESS}"),
    ("ask --remote 1 --local 000g", f"--local 000g: {ADDRESS}"),
    ("serve --segment +512", f"--segment +512: {NUMBER}"),
    ("serve --links 2 --local 0303", "--local 0303: with several links the addresses are those of 'new'"),
    ("serve --names upper", "--names upper: names are exact, folded or versions"),
    ("serve --names folded --keep 2", "--keep 2: goes with --names versions alone"),
]
NODES = "--between: two nodes, as 1.1 1.2"
CAPTURE_WORDS = [
    ("--word", "--word: no such word"), ("-x", "-x: no such word"), ("--bare --bare", "--bare: given twice"),
    ("--segments --strict --segments", "--segments: given twice"), ("--lines --bare", "--bare: not with --lines"),
    ("--segments --lines", "--segments: not with --lines"), ("--between 1.1", NODES), ("--between 1.1 1.1", NODES),
    ("--between 0.1 1.1", NODES), ("--between 64.1 1.1", NODES), ("--between 1.1 1.1024", NODES), ("--between 1 2", NODES),
    ("--help --bare", "--help: no such word"), ("one two", "two: given twice"), ("\udcff", "a word is no text"),
]
# what each FILE that can't be opened is, by its name in a folder, and what is told of it
UNOPENED = [("none", "not found"), ("", "is a folder"), ("wire.pcap/x", "a part of its path is no folder"), ("locked", "not permitted")]
# a segment of a whole message of an Acknowledge and bytes after it, and its listing
SEGMENT = b"> 600202010101000600"
LISTED = "1 > segment only dst=0202 src=0101 seg=1 acks=- len=%d\n  message seg=1..1 len=%d\n  ack\n"
LONGEST_LINE, LONGEST_PACKET, BEFORE = 16_777_216, 4_096, 7  # bytes of a line, of a packet, and before its message
FILE_END = b"gap > 1.1 -> 1.2 dst=0202 src=0101 seg=2..4\ngap < 1.2 -> 1.1 dst=0101 src=0202 seg=2..4\n"
# what has a listing or answers of more than a pipe holds
PACKETS = b"".join(b"> 60020201010%d80010001020a00040703050600000000\n" % (number % 8) for number in range(2_000))
HEADER = 24  # bytes before the records of a pcap file
WIRE = (HERE / "wire.pcap").read_bytes()
MUCH = {("dapnsp", "show"): PACKETS, ("dapnsp", "msg"): b"> 0600\n" * 20_000,
        ("daplive", "ask"): b"ack\n" * 20_000, ("daplive", "serve"): b"ack\n" * 20_000,
        ("dapcap", "-"): PACKETS, ("dapcap", "--strict"): PACKETS, ("dapcap", "--lines"): WIRE + WIRE[HEADER:] * 2_000}


def obey_rights():
    """The next program of this process may read what the rights of a file say, also where it is root's."""
    for capability in (CAP_DAC_OVERRIDE, CAP_DAC_READ_SEARCH):
        ctypes.CDLL(None).prctl(PR_CAPBSET_DROP, capability, 0, 0, 0)


class Suite:
    def __init__(self, programs):
        self.programs, self.looked, self.wrong = programs, 0, []

    def look(self, what, is_right, done):
        self.looked += 1
        if not is_right:
            written = (done.stdout or b"")[:80]
            self.wrong.append(f"{what}: status {done.returncode}, {written!r} and {done.stderr[:300]!r}")

    def tells(self, name, words, given, status, told, **more):
        """The program ends with that status, and writes nothing but this to standard error."""
        how = {"input": given, "capture_output": True, "timeout": SECONDS, "check": False, **more}
        done = subprocess.run([self.programs[name], *words], **how)
        is_right = (done.returncode, done.stdout, done.stderr.decode()) == (status, b"", told)
        self.look(f"{name} {' '.join(words)} of {given[:20]!r}", is_right, done)

    def files(self):
        for (name, command), lines in COMMANDS.items():
            for given, kind in FILES:
                # a pcapng file begins with a line feed, and so with an empty line
                bad = {"pcap": 1, "pcapng": 2}[kind]
                self.tells(name, [command], given, 1, f"bad line {bad}\n{name}: line 1: a {kind} file; {TURNS}\n")
            for given, bad in OTHERS:
                told = f"bad line {bad}\n{name}: line {bad}: not a line of {lines}; see {name} {command} --help\n"
                self.tells(name, [command], given, 1, told)

    def words(self):
        for words, told in WORDS:
            self.tells("daplive", words.split(), b"ack\n", 2, f"daplive: {told}\n")

    def captures(self):
        """What dapcap reports of words, and of files that it can't open."""
        for words, told in CAPTURE_WORDS:
            self.tells("dapcap", words.split(), b"> 60\n", 2, f"dapcap: {told}\n")
        with tempfile.TemporaryDirectory() as folder:
            for name in ("wire.pcap", "locked"):
                pathlib.Path(folder, name).write_bytes(WIRE)
            os.chmod(f"{folder}/locked", 0)
            for name, told in UNOPENED:
                path = f"{folder}/{name}"
                self.tells("dapcap", [path], b"", 3, f"dapcap: {path}: {told}\n", preexec_fn=obey_rights)
            self.tells("dapcap", ["/proc/self/mem"], b"", 3, "read failed\n")
            fifo = f"{folder}/fifo"
            os.mkfifo(fifo)
            with subprocess.Popen(["cp", HERE / "wire.pcap", fifo]):
                done = subprocess.run([self.programs["dapcap"], fifo], capture_output=True, timeout=SECONDS, check=False)
            is_right = (done.returncode, done.stderr, done.stdout.count(b"\n  message ")) == (0, b"taken 5 passed 2\n", 4)
            self.look("dapcap of a FIFO", is_right, done)

    def lists(self, what, given, is_listed, told):
        """dapcap lists what is good, tells what is bad, and a line that helps, and ends with 1."""
        done = subprocess.run([self.programs["dapcap"], "--bare"], input=given, capture_output=True, timeout=SECONDS, check=False)
        lines = [line for line in done.stderr.decode().splitlines() if not line.startswith("dapcap: ")]
        self.look(f"dapcap of {what}", done.returncode == 1 and is_listed(done.stdout) and lines == told, done)

    def bounds(self):
        """What is longer than dapcap takes, and the gaps of a file that ends by a fault."""
        long = b"> " + b"0" * (LONGEST_LINE - 1) + b"\n"
        self.lists("a line that is too long", long + SEGMENT + b"\n", lambda text: text.decode() == LISTED % (2, 2), ["bad line 1"])
        whole, longer = (SEGMENT + b"00" * (size - BEFORE - 2) + b"\n" for size in (LONGEST_PACKET, LONGEST_PACKET + 1))
        size = LONGEST_PACKET - BEFORE
        self.lists("a packet that is too long", whole + longer, lambda text: text.decode() == LISTED % (size, size), ["bad line 2"])
        self.lists("a file that is cut short", WIRE[:520], lambda text: text.endswith(FILE_END), ["bad cut-short at=487", "taken 5 passed 1"])

    def pipe(self, name, words, given, reader):
        """A plain shell's pipe to a program that reads little or nothing, where SIGPIPE is looked at and where it isn't."""
        for before in ("", "trap '' PIPE; "):
            script = f'{before}"$@" | {reader}; exit "${{PIPESTATUS[0]}}"'
            how = {"input": given, "capture_output": True, "timeout": SECONDS, "check": False}
            done = subprocess.run(["bash", "-c", script, "bash", self.programs[name], *words], **how)
            is_right = (done.returncode, done.stderr) == (CLOSED_PIPE, b"")
            self.look(f"{before}{name} {' '.join(words)} | {reader}", is_right, done)

    def unwritten(self):
        """A standard output that isn't there, or is full: that is reported."""
        for (name, command), given in MUCH.items():
            for output in (">&-", ">/dev/full"):
                how = {"input": given, "capture_output": True, "timeout": SECONDS, "check": False}
                shell = ["bash", "-c", f'exec "$@" {output}', "bash"]
                done = subprocess.run([*shell, self.programs[name], command], **how)
                is_right = (done.returncode, done.stderr) == (3, b"write failed\n")
                self.look(f"{name} {command} {output}", is_right, done)

    def no_input(self):
        """A standard input that isn't there."""
        done = subprocess.run(["bash", "-c", 'exec "$@" <&-', "bash", self.programs["dapcap"]], capture_output=True,
                              timeout=SECONDS, check=False)
        self.look("dapcap <&-", (done.returncode, done.stdout, done.stderr) == (3, b"", b"read failed\n"), done)

    def unread(self, name, word, given):
        """A pipe that nobody reads from the start."""
        reader, writer = os.pipe()
        os.close(reader)
        with open(writer, "wb") as output:
            how = {"input": given, "stdout": output, "stderr": subprocess.PIPE, "timeout": SECONDS, "check": False}
            done = subprocess.run([self.programs[name], word], **how)
        self.look(f"{name} {word}, a pipe that nobody reads", (done.returncode, done.stderr) == (CLOSED_PIPE, b""), done)

    def pipes(self):
        for (name, command), given in MUCH.items():
            self.pipe(name, [command], given, "head -n 1")
            self.unread(name, command, given)
        for name in self.programs:
            self.unread(name, "--help", b"")
        self.unwritten()
        self.no_input()


def main():
    parser = argparse.ArgumentParser(description="Looks at what the programs report where something is wrong.")
    for name in ("dapnsp", "daplive", "dapcap"):
        parser.add_argument(f"--{name}", default=TOP / name)
    suite = Suite({name: str(path) for name, path in vars(parser.parse_args()).items()})
    suite.files()
    suite.words()
    suite.captures()
    suite.bounds()
    suite.pipes()
    for line in suite.wrong:
        print(f"examples: {line}", file=sys.stderr)
    print(f"examples: {suite.looked} errors, {len(suite.wrong)} of them not told as they should be")
    return 1 if suite.wrong else 0


if __name__ == "__main__":
    program.run("told_tests.py", main)
