"""What people ask for: names of files and nodes, options of a file, text as records and back, and scripts of requests."""
import io
import os
import random
import re
import shlex
import stat
import tempfile
import unittest

from decnet import answers, hostfile, nodes, options, progress, scripts, texts, words
from decnet.hostfile import HostFile
from decnet.remote import is_remote, read_remote
from decnet.scripts import Refused
from decnet.talker import Script
from decnet.texts import Text, TextFault
from tests.support import SEED, Case, sweep_count

NAMES = nodes.Names({"VAX": 1034, "HERE": 1025})


class RemoteTest(unittest.TestCase):
    def test_names_of_files(self):
        for text, wanted in (
                ("1.10::DATA.TXT", ("1.10::DATA.TXT", 1034, b"DATA.TXT", ())),
                ("vax::[DIR]DATA.TXT;1", ("vax::[DIR]DATA.TXT;1", 1034, b"[DIR]DATA.TXT;1", ())),
                ('1.10"SMITH SECRET ACCT"::D', ("1.10::D", 1034, b"D", (b"SMITH", b"SECRET", b"ACCT"))),
                ('VAX"SMITH"::"small.txt"', ("VAX::small.txt", 1034, b"small.txt", (b"SMITH",))),
                ("1.10::a::b", ("1.10::a::b", 1034, b"a::b", ())), ("1.10::\udcff", ("1.10::\udcff", 1034, b"\xff", ()))):
            found = read_remote(text, NAMES)
            self.assertEqual((found.text, found.node, found.name, found.images), wanted)

    def test_what_is_none(self):
        for text in ("", "DATA.TXT", "/tmp/1.10::X", "1.10:X", "::X", '1.10"A::X'):
            self.assertFalse(is_remote(text), text)
        for text in ("1.10::", "64.1::X", "NOBODY::X", "1.10::" + 256 * "X", '1.10"A B C D"::X', f'1.10"{40 * "A"}"::X', '1.10::""'):
            with self.assertRaises(ValueError, msg=text):
                read_remote(text, NAMES)

    def test_any_text(self):
        chance = random.Random(SEED)
        for _ in range(20_000):
            text = "".join(chance.choice('1.0:"VAX \t\n[];\u00e9\udc80') for _ in range(chance.randrange(30)))
            try:
                read_remote(text, NAMES)
            except ValueError:
                continue


class NodesTest(Case):
    def test_names(self):
        path = self.file("nodes", ["# nodes", "", "1.10 VAX", "1.1 here there  # and more"])
        found = nodes.read_names(path)
        self.assertEqual(found, {"VAX": 1034, "HERE": 1025, "THERE": 1025})
        self.assertEqual([nodes.find(text, found) for text in ("vax", "1.10", "There")], [1034, 1034, 1025])
        for text in ("PDP", "", "1.1024", "TOOLONG", "1"):
            with self.assertRaises(ValueError, msg=text):
                nodes.find(text, found)

    def test_lines_that_are_none(self):
        for line in ("VAX", "64.1 VAX", "1.10 TOOLONG", "1.10 123", "1.10 V-X", "1.11 A\n1.12 A", "\0", "1.10 \u00c4"):
            with self.assertRaisesRegex(ValueError, "line [23]: "):
                nodes.read_names(self.file("nodes", ["# nodes", line]))


    def test_any_bytes(self):
        chance, path = random.Random(SEED), self.folder / "nodes"
        for _ in range(2000):
            path.write_bytes(chance.choice([b"1.1 ", b"", b"# "]) + chance.randbytes(chance.randrange(40)))
            try:
                nodes.read_names(path)
            except ValueError:
                continue


class OptionsTest(Case):
    def setUp(self):
        super().setUp()
        self.path = self.folder / "options"

    def read(self, *line, text=""):
        self.path.write_text(text)
        return words.read([*map(str, line), "--options", str(self.path)])

    def mistake(self, what, *line, text=""):
        with self.assertRaises(words.Mistake) as caught:
            self.read(*line, text=text)
        self.assertIn(what, caught.exception.text)

    FILE = "# mine\n--udp 4711:localhost:4712\n--node 1.1   # this one\n--store '/a b'\n--go-on\n--segment 1400\n"

    def test_a_file_gives_what_the_line_does_not(self):
        found = self.read("ask", "--to", "1.2", "--segment", "600", text=self.FILE)
        self.assertEqual((str(found.udp), found.node, found.segment, found.go_on), ("4711:localhost:4712", 1025, 600, True))
        found = self.read("serve", "--node", "1.5", text=self.FILE)
        self.assertEqual((found.node, found.store, found.segment), (1029, "/a b", 1400))

    def test_one_of_a_group_holds(self):
        found = self.read("serve", "--interface", "x", "--save", "y", text=self.FILE)
        self.assertEqual((found.interface, found.udp, found.save, found.store), ("x", None, "y", None))

    def test_what_is_no_option(self):
        for text, what in (("--no-such 1", "line 1: no option --no-such 1"), ("node 1.1", "line 1: node is no option"),
                           ("--node", "expected one argument"), ("\n--node '1", "line 2: No closing quotation"),
                           ("--udp x", "--udp: x is no LPORT"), ("--node 9999.1", "--node: 9999.1 is no DECnet address"),
                           ("--interface x\n--udp 1:a:2", "not allowed with"), ("serve --node 1.1", "serve is no option"),
                           ("x" * (options.MAX_BYTES + 1), "more than 1048576 bytes"), ("--\0", "no option")):
            self.mistake(what, "serve", text=text)
        with self.assertRaisesRegex(words.Mistake, "/nowhere: No such file"):
            words.read(["serve", "--options", "/nowhere"])

    def test_random_bytes(self):
        chance = random.Random(SEED)
        for _ in range(sweep_count(60, 2000)):
            self.path.write_bytes(chance.choice([b"--", b"", b"--node "]) + chance.randbytes(chance.randrange(40)))
            try:
                words.read(["serve", "--options", str(self.path), "--interface", "x", "--node", "1.1"])
            except words.Mistake:
                continue

    def test_which_word_is_the_other_node(self):
        line = ["--udp", "1:a:2", "--node", "1.1"]
        found = self.read("copy", "x", "1.2::Y", *line)
        self.assertEqual((found.host, found.is_stored, found.to, found.remote.name, found.buffer), ("x", True, 1026, b"Y", 65535))
        found = self.read("copy", "1.2::Y", "-", *line)
        self.assertEqual((found.host, found.is_stored), ("-", False))
        found = self.read("type", '1.2"S P"::Y', *line)
        self.assertEqual((found.host, found.images), (None, (b"S", b"P", b"")))
        self.mistake("copy: one of FROM and TO has to be NODE::NAME", "copy", "x", "y", *line)
        self.mistake("only one of FROM and TO may be NODE::NAME", "copy", "1.2::X", "1.2::Y", *line)
        self.mistake("is this node itself", "type", "1.1::X", *line)
        self.mistake("given twice", "type", '1.2"S P"::X', "--user", "S", *line)

    def test_a_password_of_a_file_goes_with_a_user_that_was_typed(self):
        secret = self.file("secret", ["WORD", "more"])
        line = ["--udp", "1:a:2", "--node", "1.1", "--password-file", secret]
        self.assertEqual(self.read("type", '1.2"S"::Y', *line).images, (b"S", b"WORD", b""))
        self.assertEqual(self.read("type", "1.2::Y", "--user", "S", *line).images, (b"S", b"WORD", b""))
        self.mistake("given twice", "type", '1.2"S P"::X', *line)


class MistakesTest(unittest.TestCase):
    """What is said of words that people mistype: one line, with what may be meant, and where more is."""

    LINE = ("--udp", "1:a:2", "--node", "1.1")
    WAYS = (
        (["server"], "bridge.py: no command 'server' (did you mean serve?); the commands are serve, ask, copy, "),
        (["dir", "1.2::"], "bridge.py: no command 'dir', since a live end has no directories; the commands are "),
        (["DELETE", "1.2::X"], "bridge.py: no command 'DELETE', since a live end has no request that erases a file; "),
        (["rename", "1.2::X", "1.2::Y"], "bridge.py: no command 'rename', since a live end renames no file; "),
        ([], "bridge.py: the first word has to be a command: the commands are "),
        (["--node", "1.1", "serve"], "bridge.py: the first word has to be a command: "),
        (["copy", "x", "1.2::X", "--usr", "X"], "bridge.py copy: no option --usr (did you mean --user?); see bridge.py copy --help"),
        (["serve", "--folders", "x"], "bridge.py serve: no option --folders (did you mean --folder?); see bridge.py serve --help"),
        (["serve", "--user=x"], "bridge.py serve: no option --user (did you mean --users?); see bridge.py serve --help"),
        (["serve", "--qqq"], "bridge.py serve: no option --qqq; see bridge.py serve --help"),
        (["serve", "x"], "bridge.py serve: one word too many: 'x'; see"),
        (["copy", "x", "1.2:", *LINE], "bridge.py copy: 1.2: is no NODE::NAME, as 1.10::DATA.TXT; see"),
        (["copy", "x", '1.2"SMITH::A', *LINE], "bridge.py copy: 1.2\"SMITH::A: the quote isn't closed, as in 1.10\"SMITH\"::DATA.TXT; see"),
        (["type", '1.2"SMITH::A', *LINE], "bridge.py type: 1.2\"SMITH::A: the quote isn't closed"),
        (["type", "VAX::A", *LINE], "bridge.py type: no node VAX is known: there is no file of names (--nodes); see"),
        (["serve", "--udp", "99999:h:1"], "bridge.py serve: argument --udp: 99999 is no port, 1 to 65535; see"),
        (["serve", "--udp", "1:h:123456"], "123456 is no port, 1 to 65535; see"),
        (["serve", "--udp", "1:a:2", "--node", "1.1024"], "1.1024 is no DECnet address, as 1.10: an area 1 to 63, and a number 1 to 1023; see"),
        (["serve", "--sync", "never", *LINE], "bridge.py serve: --sync: only with --store; see"),
        (["serve", "--growth", "1048576", *LINE], "bridge.py serve: --growth: only with --store; see"),
    )

    def test_each_has_one_line(self):
        for line, wanted in self.WAYS:
            with self.subTest(line=line), self.assertRaises(words.Mistake) as caught:
                words.read(line)
            self.assertTrue(caught.exception.text.startswith(wanted) or wanted[0].isdigit(), (caught.exception.text, wanted))
            self.assertIn(wanted, caught.exception.text)
            self.assertNotIn("\n", caught.exception.text)

    def test_the_file_of_names_is_named(self):
        with tempfile.NamedTemporaryFile() as file, self.assertRaises(words.Mistake) as caught:
            words.read(["type", "VAX::A", "--nodes", file.name, *self.LINE])
        self.assertIn(f"no node VAX is in the file of names, {file.name}; see", caught.exception.text)


class HelpTest(unittest.TestCase):
    def text(self, *line):
        with self.assertRaises(words.Asked) as caught:
            words.read(line)
        return str(caught.exception)

    def test_own_options_come_first_and_an_example_last(self):
        for name, kind in words.ROLES.items():
            text = self.text(name, "--help")
            self.assertTrue(text.startswith(f"usage: bridge.py {name}"), text)
            self.assertIn(f"example: bridge.py {name} {kind.example}", " ".join(text.split()))
            self.assertLess(text.index("\n"), 80, "a usage of one line")
            if kind.own:
                places = [text.index(f"options {title}:") for title in ("of this command", "of the network", "for tests")]
                self.assertEqual(places, sorted(places))
        self.assertLess(self.text("copy", "--help").index("--fixed BYTES"), self.text("copy", "--help").index("--udp LPORT"))

    def test_examples_are_good_words(self):
        for name, kind in words.ROLES.items():
            self.assertEqual(words.read([name, *shlex.split(re.sub("[<>].*", "", kind.example))]).role, name)

    def test_a_version(self):
        self.assertRegex(self.text("--version"), r"^bridge\.py [0-9]+\.[0-9.]+\n$")


class TextTest(Case):
    def test_lines_and_records(self):
        for data, records in ((b"", []), (b"\n", [b""]), (b"a\nb", [b"a", b"b"]), (b"a\r\n\r\nb\r\n", [b"a", b"", b"b"]),
                              (b"a\n\n", [b"a", b""]), (b"a\rb\n", [b"a\rb"]), (b"\0\xff\n", [b"\0\xff"])):
            self.assertEqual(texts.records_of(data), records)
        with self.assertRaisesRegex(TextFault, "line 2 has more than 32767 bytes"):
            texts.records_of(b"a\n" + 32768 * b"b")

    def test_a_text_comes_back(self):
        chance = random.Random(SEED)
        for _ in range(500):
            data = b"".join(chance.randbytes(chance.randrange(9)).replace(b"\n", b"").replace(b"\r", b"") + b"\n"
                            for _ in range(chance.randrange(9)))
            out = io.BytesIO()
            text = Text(out.write)
            text.opened(False, False)
            for number, record in enumerate(texts.records_of(data), 1):
                text.record(number, record)
            self.assertEqual(out.getvalue(), data)

    def test_numbers(self):
        self.assertEqual(texts.numbered_of(b"3\tthree\n1\t\n"), [(3, b"three"), (1, b"")])
        for data in (b"three", b"\tx", b"0\tx", b"2147483648\tx", b"-1\tx", b"1 x", b"\xd9\xa1\tx", b"1" * 5000 + b"\tx"):
            with self.assertRaisesRegex(TextFault, "line 1 doesn't begin with a number and a tab"):
                texts.numbered_of(data)

    def test_what_does_not_come_back_as_it_is(self):
        for data, found in ((b"", []), (b"a\nb\n", []), (b"a\rb\n", []), (b"a", ["an LF added at the end"]),
                            (b"a\r\nb\r\n", ["2 CRs at the end of a line left out"]),
                            (b"a\nb\r", ["1 CR at the end of a line left out", "an LF added at the end"]),
                            (b"\0\0\n", ["2 NUL bytes, which a text has none of"])):
            self.assertEqual(texts.changes_of(data), found, data)
        for size, found in ((3, []), (1, []), (4, ["2 zero bytes added to the last record; --fixed 3 adds none"]),
                            (7, ["1 zero byte added to the last record; --fixed 6 adds none"])):
            self.assertEqual(texts.padding_of(b"abcdef", size), found, size)

    def test_records_of_one_length(self):
        self.assertEqual(texts.pieces_of(b"abcde", 2), [b"ab", b"cd", b"e\0"])
        self.assertEqual(texts.pieces_of(b"", 2), [])

    def test_forms(self):
        for words_, opened, wanted in (((), (False, False), b"a\nb\n"), ((), (True, False), b"1\ta\n3\tb\n"), ((), (False, True), b"ab"),
                                       ((Text.NUMBERED,), (False, False), b"1\ta\n3\tb\n"), ((None, True), (False, True), b"a\nb\n"),
                                       ((Text.LINES,), (True, False), b"a\nb\n")):
            out = io.BytesIO()
            text = Text(out.write, *words_)
            text.opened(*opened)
            text.record(1, b"a")
            text.record(3, b"b")
            self.assertEqual(out.getvalue(), wanted)


class HostFileTest(Case):
    def setUp(self):
        super().setUp()
        self.path = self.folder / "out"

    def names(self):
        return sorted(one.name for one in self.folder.iterdir() if one.name != "log")

    def test_a_file_is_whole_or_not_there(self):
        file = HostFile(self.path)
        file.write(b"half")
        self.assertFalse(self.path.exists())
        file.close()
        self.assertEqual(self.names(), [])
        file = HostFile(self.path)
        file.write(b"whole")
        file.finish()
        file.close()
        self.assertEqual((self.path.read_bytes(), self.names()), (b"whole", ["out"]))

    def test_what_is_there_stays(self):
        self.path.write_text("precious")
        with self.assertRaisesRegex(TextFault, "it is there already; --replace writes it anew"):
            HostFile(self.path)
        self.path.unlink()
        file = HostFile(self.path)
        self.path.write_text("precious")
        with self.assertRaisesRegex(TextFault, "somebody made it meanwhile"):
            file.finish()
        file.close()
        self.assertEqual((self.path.read_text(), self.names()), ("precious", ["out"]))

    def test_a_file_that_is_replaced_keeps_its_mode(self):
        self.path.write_text("old")
        self.path.chmod(0o604)
        link = self.folder / "link"
        link.symlink_to(self.path)
        file = HostFile(link, is_replaced=True)
        file.write(b"new")
        self.assertEqual(self.path.read_text(), "old")
        file.finish()
        file.close()
        self.assertEqual((self.path.read_text(), stat.S_IMODE(self.path.stat().st_mode)), ("new", 0o604))
        self.assertTrue(link.is_symlink())

    def test_devices_and_faults(self):
        file = HostFile("/dev/null")
        file.write(b"x")
        file.finish()
        file.close()
        self.assertTrue(stat.S_ISCHR(os.stat("/dev/null").st_mode))
        for path, what in (("/nowhere/x", "No such file"), (self.folder, "Is a directory")):
            with self.assertRaisesRegex(TextFault, what):
                HostFile(path)
        for path, what in (("/nowhere/x", "No such file"), (self.folder, "Is a directory")):
            with self.assertRaisesRegex(TextFault, what):
                hostfile.read_host(path)


class ProgressTest(unittest.TestCase):
    def test_text(self):
        now = [0]
        found = progress.Progress(4000, is_told=False, clock=lambda: now[0])
        now[0] = 2
        found.carry(1000)
        self.assertEqual(found.text(), "1,000 bytes of 4,000 (25 %), 0 kB/s")
        found.carry(9000)
        self.assertEqual(found.text(), "10,000 bytes of 4,000 (99 %), 5 kB/s")


def played(script, reports):
    """The requests of a script that is sent these reports; and what it refuses, or None."""
    asked, report = [], None
    try:
        while True:
            request = script.send(report)
            asked.append(request)
            report = reports[len(asked) - 1]
    except StopIteration:
        return asked, None
    except Refused as refusal:
        return asked, str(refusal)


class ScriptTest(unittest.TestCase):
    OPENED = ["report ready 8192", "report opened 0 2 0 0", "report connected"]

    def test_store(self):
        requests, refusal = played(scripts.store(b"F", [b"A", b""]), [*self.OPENED, "report stored", "report closed"])
        self.assertEqual((requests, refusal), (["hello", "create 46 0 2 0 0 1", "connect", "store 41 -", "close"], None))
        requests, _ = played(scripts.store(b"F", [], True), [*self.OPENED, "report stored", "report closed"])
        self.assertEqual(requests, ["hello", "open 46 1", "connect", "store", "close"])
        requests, _ = played(scripts.store(b"F", [b"AB"], size=2), [*self.OPENED, "report stored", "report closed"])
        self.assertEqual(requests[1], "create 46 0 1 2 0 1")

    def test_a_long_file_goes_in_parts(self):
        records = [b"x" * 30_000] * 500
        self.assertEqual(sum(scripts.parts(records), []), records)
        sizes = [sum(2 * len(one) + 1 for one in part) for part in scripts.parts(records)]
        self.assertEqual((len(sizes), max(sizes) < 16_000_000), (3, True))
        reports = [*self.OPENED, "report stored", "report connected", "report stored", "report connected", "report stored", "report closed"]
        requests, refusal = played(scripts.store(b"F", records), reports)
        self.assertEqual(([one.split()[0] for one in requests[2:]], refusal),
                         (["connect", "store"] * 3 + ["close"], None))

    def test_numbered(self):
        requests, _ = played(scripts.store_numbered(b"F", [(3, b"A"), (1, b"")]),
                             [*self.OPENED, "report done 3", "report done 1", "report closed"])
        self.assertEqual(requests[1:], ["create 46 16 2 0 0 1", "connect", "put key 3 41", "put key 1 -", "close"])

    def test_refusals_in_words(self):
        for reports, what in ((["report ready 8192", "report refused 4000 1"], "refused: a file of that name is there (4000, 1)"),
                              (["report ready 8192", "report refused 4032 0"], "refused: no such file (4032, 0)"),
                              ([*self.OPENED, "report stored refused 5000 7 2", "report closed"],
                               "the record's length isn't one of the file's (5000, 7); what was stored is taken back"),
                              ([*self.OPENED, "refused ask-too-large", "report closed"],
                               "it is longer than the buffers of both ends allow (--buffer); what was stored is taken back"),
                              ([*self.OPENED, "refused ask-too-large", "report refused 4052 0"],
                               "what was stored is there, since it can't be taken back: refused: by the other end (4052, 0)")):
            self.assertIn(what, played(scripts.store(b"F", [b"A"]), reports)[1])

    def test_what_was_there_is_never_taken_back(self):
        requests, refusal = played(scripts.store(b"F", [b"A"], True), [*self.OPENED, "report stored refused 5000 7 2"])
        self.assertEqual((requests[-1], refusal), ("store 41", "refused: the record's length isn't one of the file's (5000, 7)"))

    def test_a_script_that_is_stopped(self):
        """Before anything was made, while a request is on its way, and before the next one."""
        script = Script(scripts.store(b"F", [b"A"]))
        script.note("hello")
        self.assertFalse(script.stop(), "nothing was made")
        for is_asked in (True, False):
            script = Script(scripts.store(b"F", [b"A"]))
            for report in self.OPENED:
                script.note(script.whole.pop()[1])
                script.go_on(report)
            if is_asked:
                script.note(script.whole.pop()[1])
            self.assertTrue(script.stop())
            if is_asked:
                self.assertEqual((script.whole, script.left()), ([], "; what was stored until then may be there"))
                script.go_on("report stored")
            self.assertEqual(script.whole.pop()[1], "purge")
            script.go_on("report closed")
            self.assertEqual((script.refusal, script.is_open, script.left()),
                             ("stopped by a signal; what was stored is taken back", False, ""))
        script = Script(scripts.store(b"F", [b"A"], True))
        for report in self.OPENED:
            script.note(script.whole.pop()[1])
            script.go_on(report)
        self.assertFalse(script.stop())

    def test_numbers_are_for_relative_files(self):
        for script in (scripts.get(b"F", 3, Text(print)), scripts.put(b"F", b"A", 3)):
            self.assertIn("(5000, 8); the file is sequential, and --number is for relative files",
                          played(script, [*self.OPENED, "report refused 5000 8"])[1])
        opened = [*self.OPENED[:1], "report opened 16 2 0 0", *self.OPENED[2:]]
        self.assertTrue(played(scripts.put(b"F", b"A", 3), [*opened, "report refused 5000 8"])[1].endswith("(5000, 8)"))

    def test_words_for_codes(self):
        for code, text in (("4032", "no such file"), ("5060", "there is no such record"), ("402d", "a file of that name is there"),
                           ("4055", "this user, or this file, doesn't allow that"), ("2100", "it isn't supported there"), ("4fff", "by the other end"),
                           ("a001", "a message out of sequence"), ("0127", "by the other end")):
            self.assertEqual(answers.meaning(code, "0"), text)

    def fetched(self, reports, opened="report opened 0 2 0 0"):
        out = io.BytesIO()
        requests, refusal = played(scripts.fetch(b"F", Text(out.write)), ["report ready 8192", opened, "report connected", *reports])
        return requests[3:], refusal, out.getvalue()

    def test_fetch(self):
        """From a live end that knows `fetch each`, and from one that doesn't."""
        each = ["report record 1 41", "report record 2 -", "report batch 2 complete", "report closed"]
        self.assertEqual(self.fetched(each), (["fetch each", None, None, "close"], None, b"A\n\n"))
        whole = ["refused bad-line", "report batch 2 complete 1:41 2:-", "report closed"]
        self.assertEqual(self.fetched(whole), (["fetch each", "fetch", "close"], None, b"A\n\n"))

    def test_fetch_skips_what_is_too_long_and_says_so(self):
        reports = ["refused bad-line", "report batch 1 stopped 1:41", "report batch 1 complete 3:43", "report closed"]
        requests, refusal, data = self.fetched(reports)
        self.assertEqual((requests, data), (["fetch each", "fetch", "continue skip", "close"], b"A\nC\n"))
        self.assertEqual(refusal, "1 records are longer than --buffer allows, and were left out")
        self.assertIn("refused: by the other end (0127, 0)", self.fetched(["report batch 1 refused 0127 0 1:41"])[1])

    def test_one_record(self):
        out = io.BytesIO()
        requests, refusal = played(scripts.get(b"F", 3, Text(out.write, Text.LINES)), [*self.OPENED, "report found 3 414243", "report closed"])
        self.assertEqual((requests[3:], refusal, out.getvalue()), (["get key 3", "close"], None, b"ABC\n"))
        for number, request in ((None, "put 41"), (7, "put key 7 41")):
            requests, refusal = played(scripts.put(b"F", b"A", number), [*self.OPENED, "report done 7", "report closed"])
            self.assertEqual((requests[1:], refusal), (["open 46 1", "connect", request, "close"], None))
