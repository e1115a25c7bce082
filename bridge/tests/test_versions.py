"""Versions of files: what a copy makes and replaces, what a store keeps of them, and words that don't go together."""
import getpass
import shutil
import signal
import zlib

from decnet import parts, privileges, words
from decnet.journal import Parsed, encoded, mark_of
from tests.support import Case, file_lines
from tests.test_words import WordsCase

KEEPING_TWO = ["--names", "versions", "--keep", "2"]
LINE = ["--udp", "1:a:2", "--node", "1.1"]


def lines(*files):
    """What `files` prints of files that have one line each."""
    return [line for name, text in files for line in (f"file {name.encode().hex()} seq variable 0 0", f"  1 {text.encode().hex()}")]


class VersionsCase(WordsCase):
    NAMES = ()

    def setUp(self):
        super().setUp()
        self.path = self.folder / "store"

    def copy(self, *files):
        """Copies texts of one line to these names."""
        for name, text in files:
            self.type_in("copy", "-", f"1.2::{name}", stdin=f"{text}\n".encode())

    def copy_three(self):
        self.copy(("DATA.TXT", "one"), ("[SMITH]data.txt", "two"), ("DATA.TXT;", "three"))

    def typed(self, name):
        return self.type_in("type", f"1.2::{name}")[0].decode()

    def assert_none(self, *names):
        for name in names:
            self.assertIn("refused: no such file (4032, 0)", self.type_in("type", f"1.2::{name}", status=1)[1])

    def kept(self):
        """The lines of the store after its head."""
        return Parsed(self.path, self.path.read_bytes()).lines[1:]

    def made_with(self):
        return Parsed(self.path, self.path.read_bytes()).lines[0].partition(" serve ")[2]


class CopyTest(VersionsCase):
    def test_each_copy_is_a_version_and_the_lowest_is_replaced(self):
        server = self.serve(*KEEPING_TWO)
        self.copy_three()
        self.assertEqual(self.typed("data.txt"), "three\n")
        name = b"DUA0:[X]data.txt;2".hex()
        asking = self.ask(f"hello\nopen {name} 2\nconnect\nfetch\nclose\n".encode())
        self.assertEqual(asking.reports()[1:], ["report opened 0 2 0 0", "report connected", "report batch 1 complete 1:74776f", "report closed"])
        self.assert_none("DATA.TXT;1", "DATA.TXT;4", "DATA.TXT;*")
        self.type_in("put", "1.2::DATA.TXT;2", "more")
        self.assertEqual((self.typed("DATA.TXT;2"), self.typed("DATA.TXT")), ("two\nmore\n", "three\n"))
        self.stop(server)

    def test_three_are_kept_where_no_number_is_given(self):
        server = self.serve("--names", "versions")
        self.copy(*(("A", text) for text in ("one", "two", "three", "four")))
        self.assertEqual([self.typed(f"A;{number}") for number in (2, 3, 4)], ["two\n", "three\n", "four\n"])
        self.assert_none("A;1")
        self.stop(server)

    def test_a_copy_that_is_taken_back_brings_nothing_back(self):
        server = self.serve(*KEEPING_TWO)
        self.copy(("A", "one"), ("A", "two"))
        told = self.type_in("copy", self.host("long", b"x" * 9000), "1.2::A", status=1)[1]
        self.assertIn("; what was stored is taken back\n", told)
        self.assertEqual(self.typed("A"), "two\n")
        self.assert_none("A;1", "A;3")
        self.stop(server)


class KeptTest(VersionsCase):
    def test_a_store_goes_on_with_its_versions(self):
        server = self.serve(*KEEPING_TWO, "--store", self.path)
        self.copy_three()
        self.stop(server)
        self.assertEqual(self.kept(), lines(("DATA.TXT;2", "two"), ("DATA.TXT;3", "three")))
        server = self.serve("--store", self.path)
        self.assertIn("it has versions of files, and goes on with --names versions --keep 2\n", server.told())
        self.assertEqual(self.typed("data.txt"), "three\n")
        self.copy(("data.txt", "four"))
        server.finish(signal.SIGKILL)
        server = self.serve("--store", self.path)
        self.assertEqual([self.typed(name) for name in ("data.txt", "data.txt;3")], ["four\n", "three\n"])
        self.assert_none("data.txt;2")
        self.stop(server)
        self.assertEqual(self.made_with(), "--buffer 8192 --names versions --keep 2 --links 16")

    def test_a_link_goes_on_with_versions(self):
        """While it has packets, a store is taken with those names and that number of versions alone."""
        server = self.serve(*KEEPING_TWO, "--store", self.path)
        self.copy(("A", "one"), ("A", "two"))
        asking = self.begin("ask", "--tries", "100", stdin=None)
        asking.write(b"hello\ncreate 41 0 2 0 0 15\nconnect\nput 7468726565\n")
        asking.wait_for("report done 1", asking.out)
        server.finish(signal.SIGKILL)
        for some, status, what in ((["--keep", "3"], 1, "it has packets that another daplive was told"),
                                   (["--names", "folded"], 1, "it has packets that another daplive was told"),
                                   (["--names", "versions"], None, ""), (["--keep", "2"], None, "")):
            server = self.serve("--store", self.path, *some, is_ready=status is None)
            if status is None:
                server.wait_for("goes on as it was")
                server.finish(signal.SIGKILL)
            else:
                self.assertEqual(server.finish(), status)
                self.assertIn(what, server.told())
        server = self.serve("--store", self.path)
        server.wait_for("goes on as it was")
        asking.write(b"close\n")
        asking.end_input()
        self.assertEqual(asking.finish(), 0, asking.told())
        self.stop(server)
        self.assertEqual(self.kept(), lines(("A;2", "two"), ("A;3", "three")))

    def test_other_names_of_a_store_with_versions(self):
        server = self.serve(*KEEPING_TWO, "--store", self.path)
        self.copy(("A", "one"), ("A", "two"))
        self.stop(server)
        server = self.serve("--store", self.path, "--names", "folded", is_ready=False)
        self.assertEqual(server.finish(), 1)
        self.assertIn(f"{self.path}: line 4 after its marks: refused 4000 1", server.told())
        server = self.serve("--store", self.path, "--keep", "1")
        self.copy(("A", "three"), ("A", "four"))
        self.stop(server)
        self.assertEqual(self.kept(), lines(("A;3", "three"), ("A;4", "four")), "each copy replaces one")
        server = self.serve("--store", self.path, "--names", "exact")
        self.assertEqual(self.typed("A;3"), "three\n")
        self.assert_none("A", "a;3")
        self.stop(server)
        self.assertEqual(self.made_with(), "--buffer 8192 --names exact --links 16")

    def test_a_store_without_versions_gets_them(self):
        server = self.serve("--store", self.path, "--names", "exact")
        self.copy(("A.TXT", "one"), ("[X]a.txt", "two"), ("B;7", "three"))
        self.stop(server)
        server = self.serve("--store", self.path)
        self.assertNotIn("versions", server.told())
        self.stop(server)
        server = self.serve("--store", self.path, "--names", "versions")
        self.stop(server)
        self.assertEqual(self.kept(), lines(("A.TXT;1", "one"), ("A.TXT;2", "two"), ("B;7", "three")))

    def test_a_file_that_is_saved_has_the_names_of_versions(self):
        saved = self.folder / "saved"
        server = self.serve(*KEEPING_TWO, "--save", saved)
        self.copy_three()
        self.stop(server)
        self.assertEqual(file_lines(saved), lines(("DATA.TXT;2", "two"), ("DATA.TXT;3", "three")))
        server = self.serve(*KEEPING_TWO, "--files", saved, "--save", saved)
        self.copy(("DATA.TXT", "four"))
        self.assertEqual(self.typed("DATA.TXT;3"), "three\n")
        self.stop(server)
        self.assertEqual(file_lines(saved), lines(("DATA.TXT;3", "three"), ("DATA.TXT;4", "four")))


class DefaultTest(VersionsCase):
    """Without --names what begins with nothing has versions, and what has files goes on as it was made."""

    SAID = "a file that is made anew is its next version (--names versions"

    def refused(self, what, *some):
        server = self.serve(*some, is_ready=False)
        self.assertEqual(server.finish(), 2, server.told())
        self.assertIn(what, server.told())
        self.assertNotIn("Traceback", server.told())

    def test_memory_has_versions(self):
        server = self.serve()
        self.assertIn(f" {self.SAID})\n", server.told())
        self.copy(*(("A.TXT", text) for text in ("one", "two", "three", "four")))
        self.assertEqual([self.typed(name) for name in ("a.txt", "A.TXT;2")], ["four\n", "two\n"])
        self.assert_none("A.TXT;1")
        self.stop(server)
        server = self.serve("--keep", "1")
        self.copy(("A", "one"), ("A", "two"))
        self.assert_none("A;1")
        self.stop(server)

    def test_a_new_store_has_versions(self):
        self.stop(self.serve("--store", self.path))
        self.assertEqual(self.made_with(), "--buffer 8192 --names versions --links 16")
        server = self.serve("--store", self.path)
        self.copy(("A", "one"), ("A", "two"))
        self.stop(server)
        self.assertEqual(self.kept(), lines(("A;1", "one"), ("A;2", "two")))

    def before(self):
        """Takes the names out of the head of a store, which had none before there were versions."""
        parsed = Parsed(self.path, self.path.read_bytes())
        text = b"".join(encoded(line.replace(" --names exact", "")) for line in parsed.lines)
        self.path.write_bytes(text + mark_of(0, zlib.crc32(text)))

    def test_a_store_of_before_goes_on_exactly_where_it_has_files(self):
        server = self.serve("--store", self.path, "--names", "exact")
        self.copy(("A.TXT", "one"))
        self.stop(server)
        self.before()
        server = self.serve("--store", self.path)
        self.assertNotIn("versions", server.told())
        self.assertEqual(self.typed("A.TXT"), "one\n")
        self.assert_none("a.txt")
        self.stop(server)
        self.assertEqual((self.kept(), self.made_with()), (lines(("A.TXT", "one")), "--buffer 8192 --links 16"))
        self.path.unlink()
        self.stop(self.serve("--store", self.path, "--names", "exact"))
        self.before()
        self.stop(self.serve("--store", self.path))
        self.assertEqual(self.made_with(), "--buffer 8192 --names versions --links 16", "it had no files")

    def test_a_store_goes_on_with_the_names_that_it_was_made_with(self):
        server = self.serve("--store", self.path, "--names", "folded")
        self.copy(("A.TXT", "one"))
        self.stop(server)
        server = self.serve("--store", self.path)
        self.assertIn(": it goes on with --names folded\n", server.told())
        self.assertEqual(self.typed("[X]a.txt"), "one\n")
        self.stop(server)
        self.assertEqual(self.kept(), lines(("A.TXT", "one")))

    def test_a_file_that_is_saved_says_its_names(self):
        saved = self.folder / "saved"
        server = self.serve("--save", saved)
        self.copy(("A.TXT", "one"), ("A.TXT", "two"))
        self.stop(server)
        self.assertEqual(saved.read_text().splitlines()[:2], ["# kept by bridge.py", "# --names versions"])
        both = ["--files", saved, "--save", saved]
        server = self.serve(*both, "--keep", "2")
        self.assertIn(f"{self.SAID} --keep 2)\n", server.told())
        self.copy(("a.txt", "three"))
        self.stop(server)
        self.assertEqual(saved.read_text().splitlines()[1], "# --names versions --keep 2")
        self.assertEqual(file_lines(saved), lines(("A.TXT;2", "two"), ("A.TXT;3", "three")))
        self.refused(f"--names exact: {saved} says --names versions, which goes on; its files are carried over where its line "
                     "'# --names versions --keep 2' is taken out", *both, "--names", "exact")

    def test_a_file_of_before_goes_on_exactly(self):
        for some in (["# kept by bridge.py", *lines(("A.TXT", "one")), "# end of files: 1 files, 2 lines"], lines(("A.TXT", "one")), []):
            saved = self.file("saved", some)
            both = ["--files", saved, "--save", saved]
            server = self.serve(*both)
            self.assertNotIn("versions", server.told())
            self.copy(("a.txt", "two"))
            self.stop(server)
            self.assertEqual(file_lines(saved), [*(lines(("A.TXT", "one")) if some else []), *lines(("a.txt", "two"))])
            self.assertNotIn("--names", saved.read_text())
            self.refused("--keep 2: goes with --names versions alone", *both, "--keep", "2")

    def test_a_new_folder_has_versions_and_one_of_before_none(self):
        served = self.folder / "served"
        for line, name in ((None, "new.txt"), ("# kept by bridge.py\n# end of files: 0 files, 0 lines\n", "NEW.TXT"), ("", "NEW.TXT")):
            served.mkdir()
            (served / "a.txt").write_text("one\n")
            if line is not None:
                (served / ".daplive").write_text(line)
            for _ in range(2):
                server = self.serve("--folder", served)
                self.copy((name, "two"))
                self.assertEqual((self.typed("a.txt"), (served / name).read_text()), ("one\n", "two\n"))
                self.stop(server)
                self.assertEqual(f"{self.SAID} --keep 1)\n" in server.told(), line is None)
                if line is not None:
                    self.assert_exact(served)
                    break
            shutil.rmtree(served)

    def assert_exact(self, served):
        """It has said so since, and says so once more."""
        self.assertIn("# --names exact\n", (served / ".daplive").read_text())
        self.refused("--names versions: ", "--folder", served, "--names", "versions")


class WordsTest(Case):
    def mistake(self, what, *line):
        with self.assertRaises(words.Mistake) as caught:
            words.read(["serve", *LINE, *line])
        self.assertIn(f"bridge.py serve: {what}; see", caught.exception.text)

    def told(self, *line):
        """The words of the live end that is started for these words."""
        return parts.words_of_end(words.read(["serve", *LINE, *map(str, line)]))

    def test_words_of_the_live_end(self):
        self.assertEqual(self.told(*KEEPING_TWO), ["serve", "--buffer", "8192", *KEEPING_TWO, "--links", "16"])
        self.assertEqual(self.told("--names", "versions"), ["serve", "--buffer", "8192", "--names", "versions", "--links", "16"])
        self.assertEqual(self.told("--names", "versions", "--keep", "32767")[-4:], ["--keep", "32767", "--links", "16"])

    def test_words_that_do_not_go_together(self):
        for names in (["--names", "exact"], ["--names", "folded"], ["--names", "folded", "--store", "f"]):
            self.mistake("--keep 3: goes with --names versions alone", "--keep", "3", *names)
        for number in ("0", "32768", "-1", "x", "1.5", ""):
            self.mistake(f"argument --keep: {number} is no number from 1 to 32767", "--names", "versions", f"--keep={number}")

    def test_a_file_of_options_has_the_number_of_versions_and_no_answers_of_a_probe(self):
        path, some = self.folder / "options", ["--options", str(self.folder / "options"), *LINE]
        path.write_text("--names versions\n--keep 5\n")
        self.assertEqual(words.read(["serve", *some]).keep, 5)
        self.assertEqual(words.read(["serve", "--keep", "6", *some]).keep, 6)
        for line in (["probe", "--to", "1.2"], ["ask", "--to", "1.2"], ["type", "1.2::A"]):
            self.assertIsNone(words.read([*line, *some]).answers)
        self.assertEqual(words.read(["probe", "--to", "1.2", "--keep", "new", *some]).answers, "new")

    def test_a_number_of_versions_names_no_file(self):
        found = words.read(["serve", *LINE, *KEEPING_TWO])
        self.assertEqual([name for name in privileges.NAMING if getattr(found, name) is not None], [])
        found = words.read(["probe", "--to", "1.2", "--interface", "i", "--node", "1.1", "--keep", "new"])
        self.assertEqual(privileges.why_root(found), "since --keep names a file")


class StartTest(VersionsCase):
    def test_words_that_do_not_go_together_end_with_2(self):
        """With a store, too, unless that has versions."""
        self.stop(self.serve("--store", self.path, "--names", "exact"))
        for some in (["--keep", "3", "--names", "exact"], ["--keep", "3", "--store", self.path]):
            server = self.serve(*some, is_ready=False)
            self.assertEqual(server.finish(), 2)
            self.assertIn("--keep 3: goes with --names versions alone", server.told())
            self.assertNotIn("Traceback", server.told())

    def test_as_a_user(self):
        server = self.serve("--as", getpass.getuser(), *KEEPING_TWO)
        self.copy(("A", "one"))
        self.assertEqual(self.typed("A;1"), "one\n")
        self.stop(server)
