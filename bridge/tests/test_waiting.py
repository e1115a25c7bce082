"""What waits for a peer that acknowledges slowly: how it is counted, and that the limit is reported when it is met."""
from decnet import nsp
from decnet.nsp import Kind
from decnet.waiting import Waiting
from tests.pairs import PairCase
from tests.station import CONFIGURATION, segment
from tests.support import Case

RECORDS = ["file 46 rel variable 0 0", *(f"  {number} {'41' * 100}" for number in range(1, 11))]
OPEN = bytes.fromhex("020201000302080100014602000000")  # Attributes and Access of file 46
CONNECT = bytes.fromhex("0402020200")
GET = bytes.fromhex("0402080103010401000000")  # record 1
FETCH = bytes.fromhex("040203010103")
END_OF_FILE = bytes.fromhex("2750000000")  # how its Status ends
ANSWER = 108  # bytes of a record with what is before it


def packet(kind, number=1, body=b"\x04\x00\x01"):
    return nsp.read(nsp.words(kind, 1, 2, 0x8000, number) + body)


class CountTest(Case):
    """Rows of what happens before a server that serves while fewer than 100 bytes wait: `took` N requests, one segment
    each, `wrote` a segment of a size in bytes and of a kind, the other end `has` the segments up to a number, no `memory`;
    and whether the limit is met after each."""

    ROWS = [
        ("one request, however long its answer is", 8, [("took", 1), ("wrote", 99), ("wrote", 99)], []),
        ("two requests, with less than the limit", 8, [("took", 2), ("wrote", 50), ("wrote", 49)], []),
        ("two requests, with the limit", 8, [("took", 2), ("wrote", 50), ("wrote", 50)], [2]),
        ("what waited before a request counts", 8, [("took", 2), ("wrote", 99), ("took", 1), ("wrote", 1)], [3]),
        ("what was acknowledged before a request doesn't", 8,
         [("took", 2), ("wrote", 60), ("wrote", 20), ("has", 1), ("took", 1), ("wrote", 79), ("wrote", 1)], [6]),
        ("what is written as acknowledgements come waited", 2,
         [("took", 3), ("wrote", 40), ("wrote", 40), ("has", 1), ("wrote", 20)], [4]),
        ("a segment that is written again is none", 8, [("took", 2), ("wrote", 60), ("again", 60), ("again", 60)], []),
        ("where all is acknowledged, requests begin anew", 8,
         [("took", 5), ("wrote", 60), ("has", 1), ("took", 1), ("wrote", 200)], []),
        ("but not where the window was full: more may wait", 1,
         [("took", 5), ("wrote", 60), ("has", 1), ("took", 1), ("wrote", 200)], [4]),
        ("an answer waits until its last segment is acknowledged", 8,
         [("took", 2), ("begun", 60), ("has", 1), ("wrote", 10), ("took", 1), ("wrote", 30)], [5]),
        ("being out of memory is another reason", 8,
         [("took", 2), ("wrote", 60), ("memory", 0), ("wrote", 60), ("took", 1)], [4]),
    ]

    def count(self, waiting, what, number):
        if what == "took":
            for _ in range(number):
                waiting.took(packet(Kind.ONLY))
        elif what == "has":
            waiting.acknowledge(number)
        elif what == "memory":
            waiting.lacked_memory()
        else:
            kind = Kind.FIRST if what == "begun" else Kind.ONLY
            if what == "wrote" and waiting.messages and waiting.messages[-1].last is None:
                kind = Kind.LAST
            waiting.wrote(packet(kind, waiting.newest + (what != "again"), bytes(number)))

    def test_rows(self):
        for name, window, steps, met in self.ROWS:
            with self.subTest(name):
                waiting, found, was_met = Waiting(100, window), [], False
                for place, (what, number) in enumerate(steps):
                    self.count(waiting, what, number)
                    if waiting.is_met and not was_met:
                        found.append(place)
                    was_met = waiting.is_met
                self.assertEqual(found, met)

    def test_requests_in_a_message(self):
        get = b"\x04\x02\x01\x01"
        rows = [(Kind.ONLY, get, 1), (Kind.ONLY, get + get + b"\x04\x00", 3), (Kind.ONLY, b"\x04\xff", 2),
                (Kind.FIRST, get, 0), (Kind.MIDDLE, get, 0), (Kind.LAST, get, 2)]
        for kind, body, count in rows:
            waiting = Waiting(100)
            waiting.took(packet(kind, body=body))
            self.assertEqual(waiting.requests, count)

    def test_numbers_begin_anew(self):
        waiting = Waiting(100)
        waiting.newest = waiting.acknowledged = nsp.NUMBERS - 2
        for number in (nsp.NUMBERS - 1, 0, 1):
            waiting.took(packet(Kind.ONLY))
            waiting.wrote(packet(Kind.ONLY, number, bytes(30)))
        self.assertEqual(waiting.known, 90)
        waiting.acknowledge(0)
        waiting.took(packet(Kind.ONLY))
        self.assertEqual(waiting.known, 30)

    def test_without_a_limit_none_is_met(self):
        waiting = Waiting()
        for number in range(1, 9):
            waiting.took(packet(Kind.ONLY))
            waiting.wrote(packet(Kind.ONLY, number, bytes(1000)))
        self.assertFalse(waiting.is_met)


class BridgeTest(PairCase):
    """A bridge with its live end, before a station that acknowledges when the test says so."""

    def begin(self, *words):
        """A link on which the file is open."""
        child, raw = self.serve("--files", self.file("files", RECORDS), *words)
        station = self.station(raw)
        station.connect(0x0111)
        self.sent = 0
        for number, body in enumerate((CONFIGURATION, OPEN, CONNECT), 1):
            self.say(station, body)
            station.hear_segments(1, number)
        return child, station

    def say(self, station, body, times=1):
        for _ in range(times):
            self.sent += 1
            station.say(segment(station.remote, station.local, self.sent, body))

    def end(self, child, station):
        station.disconnect()
        self.stop(child)

    def test_a_peer_that_asks_for_much_and_acknowledges_slowly_is_told_once(self):
        child, station = self.begin("--waiting", "200")
        self.say(station, GET, 9)
        child.wait_for(f"link {station.remote:04x}: node 1.3 lets {2 * ANSWER} bytes of answers wait, and --waiting allows 200: "
                       "what else it asks is served as it acknowledges them")
        self.assertEqual(len(station.hear_segments(9, 4)), 9 * ANSWER, "all that was asked is served")
        self.end(child, station)
        self.assertEqual(child.told().count("--waiting"), 1)

    def test_it_is_told_where_the_window_hides_what_waits(self):
        child, station = self.begin("--waiting", "400", "--window", "1")
        self.say(station, GET, 9)
        station.hear_segments(2, 4)
        station.hear_all()
        self.assertNotIn("--waiting", child.told())
        station.hear_segments(7, 6)
        child.wait_for(f"lets {4 * ANSWER} bytes of answers wait, and --waiting allows 400")
        self.end(child, station)

    def test_a_peer_that_acknowledges_and_one_long_answer_are_not_told(self):
        child, station = self.begin("--waiting", "200", "--window", "2")
        for number in range(4, 24):
            self.say(station, GET)
            station.hear_segments(1, number)
        self.say(station, FETCH)
        station.hear_to_end(24, END_OF_FILE)
        self.end(child, station)
        self.assertNotIn("--waiting", child.told())
