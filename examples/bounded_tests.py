#!/usr/bin/env python3
"""A client that asks for a file many times, in one NSP message, and acknowledges late: how much waits for it. And early
segments that are longer than any message: they aren't held.

usage: bounded_tests.py [--daplive PROGRAM]

Two servers get the same packets, one that may let 1,000 bytes of answers wait and one that may let 1 GiB wait. Both have
to send the same segments in the end. The first never has more bytes that aren't acknowledged than 1,000 and the answers
to one message.
"""
import pathlib
import subprocess
import sys
import unittest

BUILT = pathlib.Path(__file__).resolve().parent.parent / "crates/daplive/out/daplive"
SEGMENT, RECORD, RECORDS, TIMES = 100, 500, 4, 20
CONFIG, OPEN, CONNECT = "01020a00040703050600000000", "0302080100014602000000", "0402020200"
FETCH, REWIND = "040203010103", "040203060100"
WINDOW = 2047
MAX_MESSAGE = 65535  # the longest message that a live end takes
TOO_LONG = "refused message-too-long"
# how a line with a data segment begins, by its marks, and the digits before its payload
DATA, HEADER = ("< 00", "< 20", "< 40", "< 60"), 18


class Server:
    """A live server, with a file of some records; what it sent, and how much was acknowledged."""

    def __init__(self, program, waiting):
        words = ["serve", "--segment", str(SEGMENT), "--window", str(WINDOW), "--waiting", str(waiting)]
        self.end = subprocess.Popen([program, *words], stdin=subprocess.PIPE, stdout=subprocess.PIPE, text=True)
        self.payloads, self.acked, self.sent = [], 0, 0
        self.say("file 46 seq variable 0 0")
        for number in range(1, RECORDS + 1):
            self.say(f"  {number} " + "%02x" % number * RECORD)

    def __enter__(self):
        return self

    def __exit__(self, *_):
        self.end.stdin.close()
        self.end.stdout.read()
        self.end.wait()
        self.end.stdout.close()

    def say(self, line):
        """The lines of the answer but the last one, and the number in that."""
        self.end.stdin.write(line + "\n")
        self.end.stdin.flush()
        lines = []
        while not (lines and lines[-1].startswith("waits ")):
            lines.append(self.end.stdout.readline().rstrip("\n"))
            if not lines[-1]:
                raise AssertionError(f"{line}: no answer")
        self.payloads += [it[len("< ") + HEADER :] for it in lines if it.startswith(DATA)]
        return lines[:-1], int(lines[-1].split()[1])

    def send(self, payload):
        """Sends the next NSP message, of one segment, which acknowledges nothing new."""
        self.sent += 1
        return self.send_numbered(self.sent, payload)

    def send_numbered(self, number, payload):
        return self.say(f"> 6002020101{little(0x8000 + self.acked % 4096)}{little(number % 4096)}{payload}")

    def acknowledge(self, count):
        self.acked = count
        return self.say(f"> 0402020101{little(0x8000 + count % 4096)}")

    def unacknowledged(self):
        return sum(len(it) // 2 for it in self.payloads[self.acked:])


def little(number):
    return "%02x%02x" % (number % 256, number // 256)


def begun(program, waiting):
    """A server of which the file is open."""
    server = Server(program, waiting)
    for payload in (CONFIG, OPEN, CONNECT):
        server.send(payload)
        server.acknowledge(len(server.payloads))
    return server


class Bounded(unittest.TestCase):
    program = BUILT

    def test_what_waits_is_bounded_and_nothing_is_lost(self):
        with begun(self.program, 1 << 30) as free, begun(self.program, 1000) as bounded:
            before = len(free.payloads)
            self.assertEqual(free.payloads, bounded.payloads)
            _, waits = free.send((FETCH + REWIND) * TIMES)
            self.assertEqual(waits, len(free.payloads) - before)
            one = RECORDS * (RECORD + 50)
            self.assertGreater(free.unacknowledged(), TIMES * RECORDS * RECORD)
            _, waits = bounded.send((FETCH + REWIND) * TIMES)
            turns = 0
            while waits:
                self.assertLess(bounded.unacknowledged(), 1000 + one)
                turns += 1
                _, waits = bounded.acknowledge(min(bounded.acked + 7, len(bounded.payloads)))
            self.assertGreater(turns, TIMES)
            self.assertEqual(free.payloads, bounded.payloads)

    def test_a_client_that_never_acknowledges(self):
        with begun(self.program, 1000) as bounded:
            counts = []
            for _ in range(20):
                bounded.send((FETCH + REWIND) * TIMES)
                counts.append(len(bounded.payloads))
            self.assertEqual(counts[0], counts[-1])

    def test_an_early_segment_longer_than_any_message_is_not_held(self):
        for size, is_held in (MAX_MESSAGE, True), (MAX_MESSAGE + 1, False):
            with self.subTest(size=size), Server(self.program, 1000) as server:
                self.assertEqual(server.send_numbered(2, "ff" * size), (["early", "< 0401010202" + little(0x8000)], 0))
                answer, _ = server.send_numbered(1, CONFIG)
                self.assertEqual(answer[0], "accepted")
                self.assertEqual(answer[1][: len("< 60010102020280")], "< 6001010202" + little(0x8000 + 1 + is_held))
                self.assertEqual(server.send_numbered(2, "ff" * size)[0][0], "repeat" if is_held else TOO_LONG)


if __name__ == "__main__":
    if "--daplive" in sys.argv:
        at = sys.argv.index("--daplive")
        Bounded.program = sys.argv[at + 1]
        del sys.argv[at : at + 2]
    unittest.main()
