"""A probe of a file access listener: what it says, what it finds the same, and what it keeps."""
import random

from decnet import nsp, probe, systems, talks, verdicts
from decnet.nsp import Kind, Qualifier
from decnet.raw import RawEnd
from decnet.verdicts import Verdict
from tests.datagrams import UdpCase
from tests.support import BRIDGE, SEED, Case, need_live_end

OTHER = BRIDGE.parent / "tests/other_fal.py"


class RawTest(Case):
    """The data segments that are said and taken."""

    def two(self, segment=64):
        one, two = RawEnd(), RawEnd()
        one.renew(1, 2, segment)
        two.renew(2, 1, segment)
        return one, two

    def test_messages_come_whole_and_once_over_a_bad_line(self):
        chance = random.Random(SEED)
        one, two = self.two()
        bodies = [chance.randbytes(chance.randrange(300)) for _ in range(100)]
        found, to_say, way = [], list(bodies), []
        while len(found) < len(bodies):
            if to_say and one.waits < 20:
                way += [(two, line) for line in one.say(to_say.pop(0), chance.choice([None, 1, 5]))]
            elif not way:
                way += [(two, line) for line in one.answer("resend")]
            to, line = way.pop(chance.randrange(min(3, len(way))))
            if chance.random() < 0.1:
                continue
            back = one if to is two else two
            way += [(back, text) for text in to.answer("> " + line[2:]) if text.startswith("< ")]
            found += two.take_inbox()
        self.assertEqual(found, bodies)

    def test_any_packets(self):
        chance, (one, _) = random.Random(SEED), self.two()
        for _ in range(3000):
            kind = chance.choice([*nsp.SEGMENTS, Kind.DATA_ACK])
            field = nsp.field(chance.choice(list(Qualifier)), chance.randrange(4096))
            number = [] if kind is Kind.DATA_ACK else [chance.randrange(4096)]
            one.answer("> " + (nsp.words(kind, 1, 2, field, *number) + (chance.randbytes(9) if number else b"")).hex())
        self.assertLess(len(one.early), nsp.NUMBERS)


class VerdictTest(Case):
    def test_verdicts(self):
        done, data = "status 1000 rfa=- recnum=03 stv=-", "data recnum=03000000 body=41"
        for own, other, verdict in (
                ([done], [done], Verdict.SAME), ([data], ["data recnum=03 body=41"], Verdict.SAME),
                (["config bufsiz=1 ostype=7"], ["config bufsiz=2 ostype=9"], Verdict.SAME),
                (["ack"], ["ack", "other 15"], Verdict.SAME_MORE), (["attributes org=0 rfm=2 mrs=0 mrn=-"],
                                                                    ["attributes org=0 rfm=2 rat=2 mrs=0"], Verdict.SAME),
                (["status 5000 stv=04"], ["status 5060 stv=-"], Verdict.ALIKE), ([data], ["data recnum=03 body=42"], Verdict.ALIKE),
                (["status 4032"], ["status 5032"], Verdict.DIFFERS), (["ack"], ["ack", "ack"], Verdict.DIFFERS),
                (["ack"], [], Verdict.NO_ANSWER), ([], [], Verdict.SAME), ([], ["ack"], Verdict.DIFFERS), (["ack"], None, Verdict.NO_LINK)):
            self.assertIs(verdicts.compare(own, other), verdict, (own, other))

    def test_a_system_in_words(self):
        line = "config bufsiz=4156 ostype=7 filesys=3 version=7.2.0.115.0 syscap=6"
        self.assertEqual(verdicts.described(line), "system 7 (VAX/VMS), files 3 (RMS-32), DAP 7.2.0.115.0, buffer 4156; "
                                                   "says that it can: sequential files; relative files")
        self.assertEqual(systems.abilities(1 << 83), ["bit 83"])
        self.assertEqual(len(systems.SYSCAP), 44)

    def test_the_conversations(self):
        found = talks.talks(talks.Names("ABCD"))
        self.assertEqual((len(found), sum(len(talk.steps) for talk in found)), (33, 139))
        self.assertEqual(len({talk.name for talk in found}), 33)
        for talk in found:
            self.assertEqual(len({step.label for step in talk.steps}), len(talk.steps), f"{talk.name}: a label is there twice")
        known = {(talk.name, step.label) for talk in found for step in talk.steps}
        self.assertEqual([one for one in verdicts.ABILITIES if one[1:3] not in known], [])

    def test_which_answers_are_over(self):
        for inbox, wanted in (([], False), ([b"\1\2\0"], True), ([b"\x08\0\0A"], False), ([b"\2\2\0\6\2\0"], True),
                              ([b"\6\2\0", b"\x08\2\2\0A"], False), ([b""], False), ([b"\x09\6\0\0"], True), ([b"\6"], False)):
            self.assertEqual(probe.is_over(inbox), wanted, inbox)
        chance = random.Random(SEED)
        for _ in range(20_000):
            probe.is_over([chance.randbytes(chance.randrange(12))])


class BridgeTest(UdpCase):
    def setUp(self):
        super().setUp()
        need_live_end()

    def probe(self, *words, **more):
        child = self.begin("probe", *words, **more)
        child.process.wait(300)
        self.assertNotIn("Traceback", child.told())
        return child

    def test_the_own_end_is_the_same(self):
        """Also over a line that harms frames; answers that are kept are the same later."""
        server, answers = self.serve(), self.folder / "answers"
        child = self.probe("--keep", answers, "--quiet", "0.5")
        lines = child.reports()
        self.assertEqual((child.finish(), lines[-1]), (0, "139 same"), child.told())
        self.assertIn("records by number        yes                              yes", "\n".join(lines))
        self.assertIn("erase                    yes                              yes", "\n".join(lines))
        self.assertNotIn("left on node", "\n".join(lines), "it erases files")
        some = ["--only", "store a file", "fetch it", "relative file", "malformed: empty"]
        child = self.probe("--against", answers, "--quiet", "0.5", "--harm", "5", "--resend", "0.1", "--tries", "100", *some)
        self.assertEqual((child.finish(), child.reports()[-1]), (0, "24 same"), child.told())
        child = self.probe("--keep", answers, "--only", "fetch it")
        self.assertEqual((child.finish(), child.reports()), (1, []))
        self.assertIn(f"{answers}: File exists", child.told())
        self.stop(server)

    def test_another_end_is_not(self):
        other = self.script("other", f"import os, sys\nos.environ['PYTHONPATH'] = {str(BRIDGE.parent)!r}\n"
                                     f"os.execv(sys.executable, [sys.executable, {str(OTHER)!r}])\n")
        server = self.serve(program=other)
        child = self.probe("--quiet", "0.5")
        lines = child.reports()
        self.assertEqual((child.finish(), child.told()), (1, ""))
        self.assertEqual(lines[-1], "78 same, 23 same, more, 27 alike, 10 differs, 1 no answer")
        self.assertTrue(lines[0].startswith("system 7 (VAX/VMS), files 3 (RMS-32), DAP 7.2.0.115.0, buffer 4156; "), lines[0])
        text = "\n".join(lines)
        for row in ("find                     yes                              status 2", "names with a version     yes",
                    "no such record           status 5060                      status 5060:04", "where a file is opened the other end says more:"):
            self.assertIn(row, text)
        self.assertNotIn("left on node", text, "it erases files")
        self.stop(server)

    def test_some_conversations(self):
        server = self.serve()
        child = self.probe("--only", "fetch it", "malformed: empty", "--quiet", "0.5")
        self.assertEqual((child.finish(), child.reports()[-1]), (0, "8 same"), child.told())
        self.stop(server)

    def test_nobody_there(self):
        child = self.probe("--only", "fetch it", "--resend", "0.05", "--tries", "2")
        self.assertEqual((child.finish(), child.reports()[-1]), (1, "5 no link"))
        self.assertIn("fetch it: no answer from node 1.2", child.told())

    def test_answers_that_are_none(self):
        for number, text in enumerate(("", "[]", "{\"fetch it\": {\"open\": 3}}", "{\"fetch it\": {\"open\": [\"zz\"]}}", "\0")):
            path = self.file(f"answers{number}", [text])
            child = self.probe("--against", path, "--only", "fetch it", "--tries", "2")
            self.assertEqual(child.finish(), 1, text)
            self.assertIn("it has no answers that --keep wrote", child.told())
        child = self.probe("--against", self.file("others", ["{\"find\": {}}"]), "--only", "fetch it", "--tries", "2")
        self.assertEqual(child.finish(), 1)
        self.assertIn("it has no answers to the conversation 'fetch it'", child.told())
        self.assertEqual(self.probe("--against", "/nowhere").finish(), 3)
