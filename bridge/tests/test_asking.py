"""The asking bridge: what is refused is never called success, and odd standard files have a word and a status."""
import os
import signal
import time

from decnet import answers, nsp
from decnet.nsp import Kind
from tests.pairs import HASTE, PairCase
from tests.station import ASKING, SERVING
from tests.support import BRIDGE, PROGRAM, PROMPT, PYTHON, until

STORING = b"hello\ncreate 46 0 1 2 0 15\nconnect\nstore 4141 4242\nclose\n"


class AskCase(PairCase):
    def setUp(self):
        super().setUp()
        self.server, self.raw = self.serve(*HASTE)

    def asks(self, requests, *words, **more):
        """What an asking bridge ends with: its status, its reports, and what it says."""
        child = self.ask(self.raw, requests, *words, **more)
        told = child.told()
        self.assertNotIn("Traceback", told)
        self.assertNotIn("Warning", told)
        return child.finish(), child.reports(), told


class RefusalTest(AskCase):
    def test_all_is_good(self):
        reports = ["report ready 8192", "report opened 0 1 2 0", "report connected", "report stored", "report closed"]
        status, found, told = self.asks(STORING)
        self.assertEqual((status, found), (0, reports), told)

    def test_a_report_of_a_refusal_stops_it(self):
        status, reports, told = self.asks(b"hello\n\n# a comment\nopen 4e 2\nconnect\nfetch\n")
        self.assertEqual((status, reports), (1, ["report ready 8192", "report refused 4032 0"]))
        self.assertIn("bridge: line 4: 'open 4e 2': refused: no such file (4032, 0)\n", told)
        self.assertIn("closed at line 4, which was refused", told)

    def test_it_goes_on_where_that_is_asked_for(self):
        status, reports, told = self.asks(b"hello\nopen 4e 2\nconnect\n", "--go-on")
        self.assertEqual((status, reports), (1, ["report ready 8192", "report refused 4032 0", "refused ask-phase"]))
        self.assertIn("line 3: 'connect': it doesn't fit here\n", told)

    def test_a_request_that_is_none(self):
        bad = ((b"type x", "no request 'type'"), (b"HELLO", "no request 'HELLO'"), (b"ask hello", "no request 'ask'"),
               (b"hello ", "'hello ': wrong words for 'hello'"), (b"\x1b[2J", "no request '?[2J'"),
               (b"open n.txt 2", "'open n.txt 2': wrong words for 'open'; names and records are hex digits"))
        for request, why in bad:
            status, reports, told = self.asks(request + b"\nhello\n")
            self.assertEqual((status, reports), (1, ["refused bad-line"]))
            self.assertIn(f"bridge: line 1: {why}", told)
            self.assertNotIn("bad line", told)

    def test_a_store_in_part(self):
        status, reports, told = self.asks(b"hello\ncreate 47 0 1 2 0 15\nconnect\nstore 4141 42 4343\nclose\n")
        self.assertEqual((status, reports[-1]), (1, "report stored refused 5066 7 2"))
        why = "refused: the record's length isn't one of the file's (5066, 7)"
        self.assertIn(f"line 4: 'store 4141 42 4343': {why}", told)

    def test_a_fetch_that_stops_and_is_not_gone_on_with(self):
        record = b"42" * 500
        self.assertEqual(self.asks(b"hello\ncreate 48 0 2 0 0 15\nconnect\nput " + record + b"\nclose\n")[0], 0)
        status, reports, _ = self.asks(b"hello\nopen 48 2\nconnect\nfetch\n", "--buffer", "200")
        self.assertEqual((status, reports[-1]), (1, "report batch 0 stopped"))
        status, _, told = self.asks(b"hello\nopen 48 2\nconnect\nfetch\ncontinue skip\nclose\n", "--buffer", "200")
        self.assertEqual(status, 0, told)

    def test_refusals_in_words(self):
        batch, name = "report batch 2 refused 0127 0 1:0102 2:-", "report refused 4000 1"
        self.assertEqual(answers.refusal(batch), "refused: by the other end (0127, 0)")
        self.assertEqual(answers.refusal(name), "refused: a file of that name is there (4000, 1)")
        self.assertEqual(answers.refusal("report refused 402d 1"), "refused: a file of that name is there (402d, 1)")
        self.assertEqual(answers.refusal("report refused 4055 2"), "refused: this user, or this file, doesn't allow that (4055, 2)")
        self.assertEqual(answers.refusal("report refused 502c 2"), "refused: the file isn't open for that (502c, 2)")
        self.assertEqual(answers.refusal("report refused 4000 2"), "refused: this user, or this file, doesn't allow that (4000, 2)")
        self.assertEqual(answers.refusal("report refused 5000 2"), "refused: the file isn't open for that (5000, 2)")
        for report in ("report stored", "report batch 1 stopped 1:41", "report done 1", "report end-of-file"):
            self.assertIsNone(answers.refusal(report))


class PatienceTest(PairCase):
    def client(self, requests, *words):
        near, far = self.ends()
        child = self.bridge("ask", far, "--to", SERVING, *HASTE, *words, stdin=requests)
        station = self.station(near, SERVING, ASKING)
        connect = station.hear_kind(Kind.CONNECT)
        station.local, station.remote = 7, connect.source
        station.say(nsp.confirm(connect.source, 7, 512))
        return child, station

    def test_a_report_that_never_comes(self):
        """The other end acknowledges, and does no more."""
        child, station = self.client(b"# nothing\nhello\n", "--patience", "1")
        station.hear_kind_of(nsp.SEGMENTS, 1)
        station.acknowledge(1)
        begun = time.monotonic()
        station.hear_kind(Kind.DISCONNECT)
        self.assertLess(time.monotonic() - begun, PROMPT)
        station.say(nsp.disconnect_confirm(station.remote, 7, 42))
        self.assertEqual(child.finish(), 1)
        self.assertIn("no report of line 2 within 1 seconds", child.told())

    def test_lines_may_come_slowly(self):
        child, station = self.client(None, "--patience", "0.5")
        time.sleep(1.5)
        self.assertIsNone(child.process.poll())
        child.end_input()
        station.hear_kind(Kind.DISCONNECT)


class StartTest(PairCase):
    def test_ctrl_c_and_a_stop_while_parts_are_imported_have_no_traceback(self):
        """A module of the standard library is one that waits."""
        (self.folder / "argparse.py").write_text("import time\nprint('here', flush=True)\ntime.sleep(60)\n")
        for number in (signal.SIGINT, signal.SIGTERM):
            child = self.start([*PYTHON, BRIDGE, "ask"], env={**os.environ, "PYTHONPATH": str(self.folder)})
            child.wait_for("here", child.out)
            self.assertEqual((child.finish(number), child.told()), (-number, ""))


class StandardFilesTest(AskCase):
    def redirected(self, how, requests=b"hello\n"):
        """An asking bridge started by a shell that redirects its standard files."""
        command = ["sh", "-c", f'exec "$@" {how}', "sh"]
        near = self.raw
        words = ["--frames", near.fileno(), "--node", ASKING, "--daplive", PROGRAM, "--to", SERVING, *HASTE]
        child = self.start([*command, *PYTHON, BRIDGE, "ask", *words], stdin=requests, pass_fds=[near.fileno()])
        child.finish()
        self.assertNotIn("Traceback", child.told())
        return child

    def test_standard_output_is_closed(self):
        child = self.redirected(">&-")
        self.assertEqual(child.finish(), 3)
        self.assertIn("standard output: closed", child.told())

    def test_standard_output_is_full(self):
        child = self.redirected(">/dev/full")
        self.assertEqual(child.finish(), 3)
        self.assertIn("standard output: No space left on device", child.told())

    def test_standard_input_is_closed(self):
        child = self.redirected("<&-")
        self.assertEqual(child.finish(), 3)
        self.assertIn("standard input: closed", child.told())

    def test_standard_error_is_closed(self):
        child = self.redirected("2>&-")
        self.assertEqual((child.finish(), child.reports()), (0, ["report ready 8192"]))

    def test_a_pipe_that_is_closed_is_silent(self):
        reading, writing = os.pipe()
        os.close(reading)
        child = self.bridge("ask", self.raw, "--to", SERVING, *HASTE, stdin=b"hello\n", stdout=writing)
        os.close(writing)
        self.assertEqual(child.finish(), -signal.SIGPIPE)
        self.assertEqual(child.told(), "")

    def test_ctrl_c_while_the_link_is_being_closed(self):
        """As where the same Ctrl-C ends what standard input comes from."""
        child = self.bridge("ask", self.raw, "--to", SERVING, *HASTE, stdin=None)
        child.write(b"hello\n")
        until(lambda: child.reports(), "a report")
        self.server.process.send_signal(signal.SIGSTOP)
        child.end_input()
        time.sleep(0.5)
        self.assertEqual(child.finish(signal.SIGINT), 1)
        self.assertEqual(child.told(), "bridge: stopped by a signal\n")
        self.server.process.send_signal(signal.SIGCONT)

    def test_ctrl_c(self):
        child = self.bridge("ask", self.raw, "--to", SERVING, *HASTE, stdin=None)
        child.write(b"hello\n")
        until(lambda: child.reports(), "a report")
        self.assertEqual(child.finish(signal.SIGINT), 1)
        self.assertIn("stopped by a signal", child.told())
        self.assertNotIn("Traceback", child.told())
