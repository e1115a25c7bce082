"""A folder whose files have versions: what stands there, what is kept in `.daplive`, and that nothing of anybody is lost."""
import os
import random
import unittest
from unittest import mock

from decnet import dap, messages, nsp
from decnet.folder import files_in
from decnet.folds import Folds
from decnet.kept import Keeper, LinksDid
from decnet.messages import Access
from decnet.rights import FAC
from decnet.versions import VersionsFolder
from tests.station import CONFIGURATION, segment
from tests.support import SEED, Case, file_lines, sweep_count
from tests.test_folder import PLAIN, FolderCase, file_of, name_of
from tests.test_words import WordsCase

REL = "rel variable 0 9"
HEAD = "# --names versions --keep 2"


class VersionsCase(FolderCase):
    def open(self):
        found = VersionsFolder(self.path, HEAD, is_due=not (self.path / ".daplive").exists())
        self.addCleanup(found.close)
        found.folds = Folds(self.end("serve", "--names", "versions"))
        return found

    def begun(self, **files):
        """A folder with these files, which is read, and what it gives to a live end."""
        self.put(**files)
        folder = self.open()
        return folder, self.lines(folder)

    def write_back(self, folder, lines, erased=(), making=(), lost=()):
        """The same where links did this besides."""
        listing = folder.listing(lambda listing: None)
        for line in lines:
            listing.take(line)
        listing.heard(LinksDid(list(erased), list(making), list(lost)))
        listing.finish()
        return listing.told(), listing.fault

    def written(self, folder, lines, **more):
        self.assertEqual(self.write_back(folder, lines, **more), ([], None))

    def kept(self):
        return file_lines(self.path / ".daplive")


class FoldsTest(Case):
    def test_folds_are_those_of_the_proved_end(self):
        folds = Folds(self.end("serve", "--names", "versions"))
        wanted = {b"data.txt": b"DATA.TXT", b"Read Me": b"READ ME", b"x.": b"X", b"log.txt.1": b"LOG.TXT", b"log.txt.20261201": b"LOG.TXT",
                  b"a.tar.gz": b"A.TAR.GZ", b"f;7": b"F", b"f;0": b"F", b"f;x": None, b"f;*": None, b"f;1;2": None, b"DU0:[X]b": b"B",
                  b"\xc3\xa4": b"\xc3\xa4", b"f;99999": None, b";": b""}
        folds.ask(list(wanted))
        self.assertEqual(folds.found, wanted)
        folds.ask_all([b"data.txt", b"new"])
        self.assertEqual(folds.found, {b"data.txt": b"DATA.TXT", b"new": b"NEW"})
        self.assertEqual(folds.end.say("files"), [])

    def test_folds_of_lower_letters_are_themselves(self):
        """A file that a link makes is found again under the name that it gets here."""
        folds = Folds(self.end("serve", "--names", "versions"))
        names = [b"data.txt", b"A.B.", b"A.B.3", b"A..5", b"A.B.3.", b"A.", b"..", b".", b"[X]Y;3", b"a.b.c.7", b"\xc3\x84.TXT"]
        folds.ask(names)
        found = list(folds.found.values())
        folds.ask([fold.lower() for fold in found])
        self.assertEqual([folds.of(fold.lower()) for fold in found], found)


class StandingTest(VersionsCase):
    def test_a_file_of_the_host_is_a_version_and_keeps_its_spelling(self):
        folder, lines = self.begun(**{"Readme.txt": b"old\n", "x": b"one\n"})
        self.assertEqual(lines, [*file_of("README.TXT;1", b"old"), *file_of("X;1", b"one")])
        self.written(folder, [*file_of("X;1", b"one"), *file_of("README.TXT;2", b"new")])
        self.assertEqual(self.texts(), {"Readme.txt": b"new\n", "x": b"one\n"})
        self.assertEqual(self.kept(), [])
        self.assertEqual(self.again(folder), ([*file_of("README.TXT;2", b"new"), *file_of("X;1", b"one")], []))

    def test_a_new_file_has_its_fold_in_small_letters(self):
        folder, _ = self.begun()
        self.written(folder, [*file_of("DATA.TXT;1", b"one"), *file_of("X;7", b"two")])
        self.assertEqual(self.texts(), {"data.txt": b"one\n", "x": b"two\n"})
        self.assertEqual(self.again(folder)[0], [*file_of("DATA.TXT;1", b"one"), *file_of("X;7", b"two")])

    def test_lower_versions_are_kept_and_come_back_with_their_numbers(self):
        folder, _ = self.begun(**{"Data": b"one\n"})
        two = [*file_of("DATA;1", b"one"), *file_of("DATA;2", b"two")]
        self.written(folder, two)
        self.assertEqual((self.texts(), self.kept()), ({"Data": b"two\n"}, two[:2]))
        folder.close()
        folder, lines = self.begun()
        self.assertEqual(lines, [*two[2:], *two[:2]])
        self.written(folder, [*file_of("DATA;2", b"two"), *file_of("DATA;3", b"three")])
        self.assertEqual((self.texts(), self.kept()), ({"Data": b"three\n"}, file_of("DATA;2", b"two")))

    def test_a_version_below_the_highest_is_kept(self):
        folder, _ = self.begun(a=b"one\n")
        self.written(folder, [*file_of("A;7", b"seven")])
        low = file_of("A;3", b"three")
        self.written(folder, [*file_of("A;7", b"seven"), *low])
        self.assertEqual((self.texts(), self.kept()), ({"a": b"seven\n"}, low))

    def test_what_a_text_was_made_with_is_kept_with_each_version(self):
        folder, _ = self.begun()
        made = f"{PLAIN} kept=020203090202"
        lines = [*file_of("A;1", b"one", attributes=made), *file_of("A;2", b"two", attributes=PLAIN)]
        self.written(folder, lines)
        self.assertEqual(self.again(folder), ([*lines[2:], *lines[:2]], []))
        folder, lines = self.begun()
        self.written(folder, lines[2:], erased=[b"a;2"])
        self.assertEqual((self.texts(), self.kept()), ({"a": b"one\n"}, []))
        self.assertEqual(self.again(folder)[0], file_of("A;1", b"one", attributes=made))

    def test_only_what_changed_is_written(self):
        folder, _ = self.begun(a=b"one\r\ntwo", b=b"old\n")
        before = [(self.path / name).stat().st_ino for name in ("a", ".daplive")]
        self.written(folder, [*file_of("A;1", b"one", b"two"), *file_of("B;1", b"old")])
        self.assertEqual([(self.path / name).stat().st_ino for name in ("a", ".daplive")], before)
        self.written(folder, [*file_of("A;1", b"one", b"two"), *file_of("B;1", b"old", b"new")])
        self.assertEqual(self.texts(), {"a": b"one\r\ntwo", "b": b"old\nnew\n"})

    def test_the_same_text_again_is_a_version(self):
        folder, _ = self.begun(a=b"one\n")
        self.written(folder, file_of("A;2", b"one"))
        self.assertEqual((self.texts(), self.again(folder)), ({"a": b"one\n"}, (file_of("A;2", b"one"), [])))


class NamesTest(VersionsCase):
    def test_of_two_names_of_one_fold_one_is_served(self):
        folder, lines = self.begun(**{"A.TXT": b"one\n", "a.txt": b"two\n", "a.txt.1": b"three\n"})
        self.assertEqual(lines, file_of("A.TXT;1", b"one"))
        self.assertEqual(folder.said(), [f"{self.path}/{name}: A.TXT is the file of this name: it isn't served"
                                         for name in ("a.txt", "a.txt.1")])
        self.assertEqual((folder.changes(), folder.said()), ([], []))
        self.written(folder, file_of("A.TXT;2", b"new"))
        self.assertEqual(self.texts(), {"A.TXT": b"new\n", "a.txt": b"two\n", "a.txt.1": b"three\n"})
        (self.path / "A.TXT").unlink()
        self.assertEqual(folder.changes(), [f"drop {name_of('A.TXT;2')}", *file_of("A.TXT;1", b"two")])

    def test_the_one_that_a_link_wrote_is_served_at_the_next_start_too(self):
        folder, _ = self.begun(**{"data.txt": b"one\n"})
        self.written(folder, file_of("DATA.TXT;2", b"by a link"))
        self.put(**{"DATA.TXT": b"of the host\n"})
        self.assertEqual(folder.changes(), [])
        self.assertEqual(folder.said(), [f"{self.path}/DATA.TXT: data.txt is the file of this name: it isn't served"])
        self.assertEqual(self.again(folder)[0], file_of("DATA.TXT;2", b"by a link"))

    def test_the_one_that_was_served_is_served_at_the_next_start_too(self):
        folder, _ = self.begun(**{"a.txt": b"one\n"})
        self.put(**{"A.TXT": b"two\n"})
        self.assertEqual((folder.changes(), len(folder.said())), ([], 1))
        self.written(folder, file_of("A.TXT;1", b"one"))
        self.assertEqual(self.again(folder)[0], file_of("A.TXT;1", b"one"))

    def test_the_other_one_is_served_when_a_link_has_erased_the_first(self):
        folder, _ = self.begun(**{"a.txt": b"two\n", "A.TXT": b"one\n"})
        folder.said()
        self.put(**{"A.TXT": b"edited\n"})
        self.assertEqual(folder.changes(), [f"drop {name_of('A.TXT;1')}", *file_of("A.TXT;1", b"edited")])
        self.assertEqual(folder.said(), [], "the other one is told once")
        self.written(folder, [], erased=[b"A.TXT"])
        self.assertEqual((self.texts(), folder.changes()), ({"a.txt": b"two\n"}, file_of("A.TXT;1", b"two")))

    def test_a_name_that_asks_for_no_file_is_told(self):
        folder, lines = self.begun(**{"f;x": b"one\n", "g;7": b"two\n", "h.txt.20261201": b"three\n"})
        self.assertEqual(lines, [*file_of("G;1", b"two"), *file_of("H.TXT;1", b"three")])
        self.assertEqual(folder.said(), [f"{self.path}: not served: f;x (its name)"])

    def test_names_that_no_file_here_can_have_are_kept(self):
        (self.path / "folder").mkdir()
        folder, _ = self.begun()
        folder.said()
        kept = [line for name in (".HIDDEN;1", "A/B;1", "\x1b;1", "FOLDER;2", ";1", "N" * 201 + ";1") for line in file_of(name, b"x")]
        told, fault = self.write_back(folder, kept)
        self.assertEqual((len(told), fault), (6, None))
        self.assertIn(f"{self.path}/FOLDER;2: it is a folder here: it is kept in .daplive", told)
        self.written(folder, kept)
        self.assertEqual(self.again(folder)[0], kept)

    def test_what_is_edited_again_and_again_is_served_under_names_of_its_own(self):
        """Also where the link's version has the lines of the one before."""
        folder, _ = self.begun(a=b"one\n")
        others = []
        for number in (2, 3):
            self.put(a=b"edited %d\n" % number)
            told, fault = self.write_back(folder, [*file_of(f"A;{number}", b"by a link"), *others])
            self.assertEqual((len(told), fault), (1, None))
            others = folder.changes()
        self.assertEqual(self.texts(), {"a": b"by a link\n", "a.host": b"edited 2\n", "a.host-2": b"edited 3\n"})
        self.assertEqual(others, file_of("A.HOST-2;1", b"edited 3"))
        self.assertEqual([line.split(" ")[1] for line in self.again(folder)[0] if line.startswith("file")],
                         [name_of(name) for name in ("A;3", "A.HOST;1", "A.HOST-2;1")])


class HostTest(VersionsCase):
    """What somebody does here meanwhile."""

    def two(self):
        folder, _ = self.begun(a=b"one\n")
        self.written(folder, [*file_of("A;1", b"one"), *file_of("A;2", b"two")])
        return folder

    def test_what_somebody_edits_is_the_next_after_those_that_are_kept(self):
        folder = self.two()
        self.put(a=b"edited\n")
        self.assertEqual(folder.changes(), [f"drop {name_of('A;2')}", *file_of("A;2", b"edited")])
        self.assertEqual(folder.changes(), [])
        self.written(folder, [*file_of("A;1", b"one"), *file_of("A;2", b"edited"), *file_of("A;3", b"by a link")])
        self.assertEqual((self.texts(), self.kept()), ({"a": b"by a link\n"}, [*file_of("A;1", b"one"), *file_of("A;2", b"edited")]))

    def test_what_somebody_edits_while_nothing_is_served_has_no_number_of_before(self):
        folder, _ = self.begun(a=b"one\n")
        self.written(folder, file_of("A;5", b"five"))
        folder.close()
        self.put(a=b"edited\n")
        folder, lines = self.begun()
        self.assertEqual(lines, file_of("A;1", b"edited"))
        folder.close()
        self.put(a=b"five\n")
        self.assertEqual(self.begun()[1], file_of("A;5", b"five"), "what was edited is taken back")

    def test_what_somebody_edits_while_a_link_writes_gets_another_name(self):
        for number in (1, 2):
            folder, _ = self.begun(a=b"old\n")
            self.put(a=b"edited\n")
            new = file_of("A;2", b"new")
            told, fault = self.write_back(folder, new if number == 1 else [*file_of("A;1", b"old"), *new])
            self.assertEqual((told, fault), ([f"{self.path}/a: somebody has edited it meanwhile: that is {self.path}/a.host now"], None))
            self.assertEqual(self.texts(), {"a": b"new\n", "a.host": b"edited\n"})
            self.assertEqual(self.kept(), [] if number == 1 else file_of("A;1", b"old"))
            self.assertEqual(folder.changes(), file_of("A.HOST;1", b"edited"))
            folder.close()
            for name in ("a", "a.host", ".daplive"):
                (self.path / name).unlink()

    def test_what_somebody_makes_while_a_link_makes_it_gets_another_name(self):
        folder, _ = self.begun()
        self.put(a=b"of the host\n")
        told, _ = self.write_back(folder, file_of("A;1", b"by a link"))
        self.assertEqual((len(told), self.texts()), (1, {"a": b"by a link\n", "a.host": b"of the host\n"}))

    def test_a_file_that_somebody_removes_does_not_come_back_here(self):
        """The versions that are kept are served, and the next one is written here again."""
        folder = self.two()
        (self.path / "a").unlink()
        self.assertEqual(folder.changes(), [f"drop {name_of('A;2')}"])
        one = file_of("A;1", b"one")
        self.written(folder, [*one, *file_of("B;1", b"x")])
        self.assertEqual((self.texts(), self.kept()), ({"b": b"x\n"}, one))
        folder.close()
        folder, lines = self.begun()
        self.assertEqual(lines, [*file_of("B;1", b"x"), *one])
        self.written(folder, lines)
        self.assertEqual((self.texts(), self.kept()), ({"b": b"x\n"}, one))
        self.written(folder, [*lines, *file_of("A;2", b"anew")])
        self.assertEqual((self.texts(), self.kept()), ({"a": b"anew\n", "b": b"x\n"}, one))

    def test_a_file_that_is_removed_between_two_runs(self):
        self.two().close()
        (self.path / "a").unlink()
        folder, lines = self.begun()
        self.assertEqual(lines, file_of("A;1", b"one"))
        folder.close()
        self.assertEqual(self.begun(a=b"another\n")[1], [*file_of("A;2", b"another"), *file_of("A;1", b"one")])

    def test_a_file_that_is_given_another_name(self):
        folder = self.two()
        os.rename(self.path / "a", self.path / "b")
        self.assertEqual(folder.changes(), [f"drop {name_of('A;2')}", *file_of("B;1", b"two")])
        os.rename(self.path / "b", self.path / "B")
        self.assertEqual(folder.changes(), [f"drop {name_of('B;1')}", *file_of("B;1", b"two")])

    def test_a_file_for_which_no_number_is_left(self):
        folder, _ = self.begun(a=b"one\n")
        high = file_of("A;32767", b"x", attributes=REL)
        self.write_back(folder, [*file_of("A;1", b"one"), *high])
        folder.close()
        folder, lines = self.begun(a=b"edited\n")
        self.assertEqual(lines, [*file_of("A;32768", b"edited"), *high])
        self.assertTrue(folder.leaves_out(lines[0], self.end("serve", "--names", "versions").say(lines[0])[0]))
        self.assertEqual(folder.said(), [f"{self.path}/a: another file has this version, or there is no such one: it isn't served"])
        self.written(folder, high)
        self.assertEqual((self.texts(), self.kept()), ({"a": b"edited\n"}, high))


class ErasedTest(VersionsCase):
    def test_a_lower_version_takes_the_place_of_what_a_link_erases(self):
        folder, _ = self.begun(Data=b"one\n")
        self.written(folder, [*file_of("DATA;1", b"one"), *file_of("DATA;2", b"two")])
        self.written(folder, file_of("DATA;1", b"one"), erased=[b"data"])
        self.assertEqual((self.texts(), self.kept()), ({"Data": b"one\n"}, []))
        self.assertEqual(self.again(folder), (file_of("DATA;1", b"one"), []))

    def test_the_last_one_is_removed_unless_somebody_has_edited_it(self):
        folder, _ = self.begun(a=b"one\n", b=b"two\n", c=b"three\n")
        self.put(b=b"edited\n")
        told, fault = self.write_back(folder, file_of("C;1", b"three"), erased=[b"A", b"[X]b;1"])
        what = f"{self.path}/b: a link has erased it, and somebody has edited it meanwhile: it is served as it is here"
        self.assertEqual((told, fault), ([what], None))
        self.assertEqual(self.texts(), {"b": b"edited\n", "c": b"three\n"})
        self.assertEqual(folder.changes(), file_of("B;1", b"edited"))

    def test_what_somebody_has_edited_stays_where_a_lower_version_is_kept(self):
        folder, _ = self.begun(a=b"one\n")
        one = file_of("A;1", b"one")
        self.written(folder, [*one, *file_of("A;2", b"two")])
        self.put(a=b"edited\n")
        told, fault = self.write_back(folder, one, erased=[b"A;2"])
        self.assertEqual((len(told), fault, self.texts(), self.kept()), (1, None, {"a": b"edited\n"}, one))
        self.assertEqual(folder.changes(), file_of("A;2", b"edited"))

    def test_a_version_that_is_taken_back_leaves_what_it_replaced(self):
        """With --keep 1 the live end has none of them then; nobody has asked to erase what is here."""
        folder, _ = self.begun(Data=b"one\n")
        told, fault = self.write_back(folder, [])
        self.assertEqual((told, fault), ([f"{self.path}/Data: a link has replaced it, and has taken that back: it is served as it is here"],
                                         None))
        self.assertEqual(self.texts(), {"Data": b"one\n"})
        self.assertEqual((folder.changes(), folder.changes()), (file_of("DATA;1", b"one"), []))
        self.written(folder, file_of("DATA;2", b"two"))
        self.write_back(folder, [])
        self.assertEqual((folder.changes(), self.texts()), (file_of("DATA;2", b"two"), {"Data": b"two\n"}))
        self.assertEqual(self.again(folder)[0], file_of("DATA;2", b"two"))

    def test_what_is_taken_back_stays_where_another_file_is_erased_meanwhile(self):
        folder, _ = self.begun(a=b"one\n", b=b"two\n")
        told, fault = self.write_back(folder, [], erased=[b"a"])
        self.assertEqual((told, fault), ([f"{self.path}/b: a link has replaced it, and has taken that back: it is served as it is here"], None))
        self.assertEqual((self.texts(), folder.changes()), ({"b": b"two\n"}, file_of("B;1", b"two")))

    def test_what_is_taken_back_lets_no_kept_version_in(self):
        """Where it has replaced the lowest, which was here, and a higher one is kept."""
        folder, _ = self.begun(a=b"one\n")
        part = file_of("A;2", b"part")
        self.write_back(folder, [*file_of("A;1", b"one"), *part], lost=[b"a"])
        told, _ = self.write_back(folder, part)
        self.assertIn("a: a link has replaced it, and has taken that back", told[0])
        self.assertEqual((self.texts(), self.kept()), ({"a": b"one\n"}, part))
        self.assertEqual(folder.changes(), file_of("A;1", b"one"))

    def test_what_somebody_has_made_and_a_link_erases_at_once_is_removed(self):
        folder, _ = self.begun()
        self.put(a=b"one\n")
        self.assertEqual(folder.changes(), file_of("A;1", b"one"))
        self.written(folder, [], erased=[b"a"])
        self.assertEqual(self.texts(), {})

    def test_an_erase_is_noted_until_it_is_saved(self):
        self.put(a=b"one\n")
        folder = self.open()
        self.lines(folder)
        keeper, faults = Keeper(folder, self.end("serve", "--names", "versions")), []
        self.addCleanup(keeper.close)
        keeper.note_change([b"A"])
        keeper.note_change()
        for fault in (OSError(28, "No space left on device"), None):
            with mock.patch.object(folder.directory, "check_there", side_effect=fault):
                keeper.save(faults.append)
                while keeper.is_busy:
                    keeper.end.turn() if keeper.end.is_busy else keeper.look()
        self.assertEqual(([str(fault) for fault in faults], self.texts()), ([f"{self.path}: No space left on device", "None"], {}))


class NoTextTest(VersionsCase):
    BINARY = file_of("DATA;2", b"\0\n", attributes=REL)

    def replaced(self):
        """A folder whose file a link has replaced by one that is no text, where one version is kept."""
        folder, _ = self.begun(Data=b"one\n")
        told, fault = self.write_back(folder, self.BINARY)
        self.assertEqual((told, fault), ([f"{self.path}/DATA;2: its records aren't the lines of a text: it is kept in .daplive, and "
                                          f"{self.path}/Data stays as it was"], None))
        self.assertEqual((self.texts(), self.kept()), ({"Data": b"one\n"}, self.BINARY))
        return folder

    def test_what_is_no_text_is_kept_and_the_file_here_is_an_older_version(self):
        folder, _ = self.begun(Data=b"one\n")
        lines = [*file_of("DATA;1", b"one"), *self.BINARY]
        told, fault = self.write_back(folder, lines)
        self.assertEqual((told, fault), ([f"{self.path}/DATA;2: its records aren't the lines of a text: it is kept in .daplive"], None))
        self.written(folder, lines)
        self.assertEqual(self.again(folder), (lines, []))
        self.put(Data=b"edited\n")
        folder, lines = self.begun()
        self.assertEqual(lines, [*file_of("DATA;3", b"edited"), *self.BINARY], "it is the highest then")

    def test_what_it_replaces_stays_and_is_served_at_the_next_start(self):
        folder = self.replaced()
        self.assertEqual(folder.changes(), [], "links see what was put")
        self.assertEqual(self.again(folder), ([*file_of("DATA;1", b"one"), *self.BINARY], []))

    def test_what_it_replaces_is_served_when_somebody_edits_it(self):
        folder = self.replaced()
        self.put(Data=b"edited\n")
        self.assertEqual(folder.changes(), file_of("DATA;3", b"edited"))
        self.written(folder, [*self.BINARY, *file_of("DATA;3", b"edited")])
        self.assertEqual(self.again(folder)[0], [*file_of("DATA;3", b"edited"), *self.BINARY])

    def test_what_it_replaces_is_served_where_a_link_erases_it(self):
        folder = self.replaced()
        self.written(folder, [], erased=[b"DATA"])
        self.assertEqual((self.texts(), self.kept(), folder.changes()), ({"Data": b"one\n"}, [], file_of("DATA;1", b"one")))

    def test_a_text_after_it_is_written_here(self):
        folder = self.replaced()
        self.written(folder, file_of("DATA;3", b"three"))
        self.assertEqual((self.texts(), self.kept()), ({"Data": b"three\n"}, []))
        folder.close()
        (self.path / "Data").unlink()
        folder = self.replaced()
        self.put(Data=b"edited\n")
        told, _ = self.write_back(folder, file_of("DATA;3", b"three"))
        self.assertEqual((len(told), self.texts()), (1, {"Data": b"three\n", "Data.host": b"edited\n"}))

    def test_a_text_that_a_link_makes_none_stays_as_it_was_here(self):
        folder, _ = self.begun(a=b"one\n")
        put = file_of("A;1", b"one\ntwo")
        told, fault = self.write_back(folder, put)
        what = f"{self.path}/A;1: record 1 has an LF, or a CR at its end, and is no line of a text: it is kept in .daplive"
        self.assertEqual((told, fault), ([f"{what}, and {self.path}/a stays as it was"], None))
        self.assertEqual((self.texts(), self.kept(), folder.changes()), ({"a": b"one\n"}, put, []), "links see what was put")
        self.assertEqual(self.again(folder)[0], [*file_of("A;2", b"one"), *put])
        self.put(a=b"edited\n")
        self.assertEqual(self.begun()[1], [*file_of("A;2", b"edited"), *put])

    def test_a_file_that_can_not_be_read_stays(self):
        folder, lines = self.begun(**{"A.x": b"x" * 32_768})
        self.assertEqual(lines, [])
        self.assertEqual(folder.said(), [f"{self.path}/A.x: line 1 has more than 32767 bytes: it isn't served"])
        told, fault = self.write_back(folder, file_of("A.X;1", b"by a link"))
        self.assertEqual((told, fault), ([f"{self.path}/A.X;1: the file of this host isn't served: it is kept in .daplive"], None))
        self.assertEqual(self.texts(), {"A.x": b"x" * 32_768})
        self.put(**{"A.x": b"short\n"})
        self.assertEqual(folder.changes(), file_of("A.X;2", b"short"))


class MakingTest(VersionsCase):
    """A file that a link makes while another one closes its own."""

    ONE, PART = file_of("A;1", b"one"), file_of("A;2", b"par")

    def test_what_a_link_has_not_closed_is_not_here_yet(self):
        for keep in (1, 2):
            folder, _ = self.begun(a=b"one\n")
            before = [] if keep == 1 else self.ONE
            part, new = [*before, *self.PART], file_of("N;1", b"n")
            self.written(folder, [*part, *new], making=[b"[X]a.txt;", b"a;"])
            self.assertEqual((self.texts(), self.kept()), ({"a": b"one\n", "n": b"n\n"}, self.PART))
            self.assertEqual(folder.changes(), [])
            self.written(folder, [*part, *new], making=[b"A"])
            self.assertEqual((self.texts(), self.kept()), ({"a": b"one\n", "n": b"n\n"}, self.PART))
            self.written(folder, [*before, *file_of("A;2", b"part", b"whole"), *new])
            self.assertEqual((self.texts(), self.kept()), ({"a": b"part\nwhole\n", "n": b"n\n"}, before))
            self.assertEqual(self.again(folder)[0][:3], file_of("A;2", b"part", b"whole"))
            for one in self.path.iterdir():
                one.unlink()

    def test_what_is_taken_back_then_leaves_nothing(self):
        folder, _ = self.begun(a=b"one\n")
        self.written(folder, [*self.PART, *file_of("N;1", b"n")], making=[b"a", b"n"])
        self.assertEqual(self.texts(), {"a": b"one\n"})
        self.written(folder, [])
        self.assertEqual((self.texts(), self.kept(), folder.changes()), ({"a": b"one\n"}, [], self.ONE))

    def test_what_a_link_never_closed_takes_no_place(self):
        for keep in (1, 2):
            folder, _ = self.begun(a=b"one\n")
            part = [*([] if keep == 1 else self.ONE), *self.PART]
            told, fault = self.write_back(folder, [*part, *file_of("N;1", b"n")], lost=[b"A", b"N"])
            stays = f", and {self.path}/a stays as it was" if keep == 1 else ""
            self.assertEqual((told, fault), ([f"{self.path}/A;2: its link was closed before it was: it is kept in .daplive{stays}"], None))
            self.assertEqual((self.texts(), self.kept()), ({"a": b"one\n", "n": b"n\n"}, self.PART))
            folder.close()
            folder, lines = self.begun()
            self.assertEqual(lines, [*self.ONE, *file_of("N;1", b"n"), *self.PART])
            self.written(folder, lines)
            self.assertEqual((self.texts(), self.kept()), ({"a": b"one\n", "n": b"n\n"}, self.PART))
            self.written(folder, [*lines, *file_of("A;3", b"three")])
            self.assertEqual(self.texts(), {"a": b"three\n", "n": b"n\n"})
            folder.close()
            for one in self.path.iterdir():
                one.unlink()

    def test_what_links_did_is_heard_again_where_a_save_failed(self):
        keeper = Keeper(mock.Mock(), self.end("serve", "--names", "versions"))
        self.addCleanup(keeper.close)
        keeper.making = lambda: [b"m"]
        keeper.note_change([b"e"])
        keeper.note_lost(b"l")
        both = LinksDid([b"e"], [b"m"], [b"l"])
        for fault, heard in (("full", both), (None, both), (None, LinksDid([], [b"m"], []))):
            listing = mock.Mock(fault=fault, told=list, **{"heard.return_value": False})
            keeper.kept.listing = lambda then, listing=listing: setattr(listing, "end", lambda: then(listing)) or listing
            keeper.save()
            while keeper.is_busy:
                keeper.end.turn() if keeper.end.is_busy else keeper.look()
            listing.heard.assert_called_once_with(heard)


class AnyStepsTest(VersionsCase):
    """Any steps of links and of the host: what a live end had is there again at the next start, and nothing else but what was hidden."""

    NAMES_HERE = ("a", "A", "Bee.txt", "bee.TXT", "c.d")

    def start(self):
        folder, end = self.open(), self.end("serve", "--names", "versions", told=lambda line: None)
        for line in self.lines(folder):
            self.assertEqual(end.say(line), [])
        return folder, end

    def files(self, end):
        """The files of a live end, by their names."""
        return {name.decode(): lines for name, lines in files_in(end.say("files"))}

    def make(self, chance, end, keep, number):
        """As a link makes a version, which replaces the lowest one."""
        name = chance.choice(self.NAMES_HERE)
        there = sorted(int(one.rpartition(";")[2]) for one in self.files(end) if one.rpartition(";")[0] == name.upper())
        if len(there) >= keep:
            self.assertEqual(end.say(f"drop {name_of(f'{name};{there[0]}')}"), [])
        attributes = chance.choice([PLAIN, f"{PLAIN} kept=0202020802", REL])
        for line in file_of(name, b"%d" % number, attributes=attributes):
            self.assertEqual(end.say(line), [])

    def change(self, chance, folder, end, number):
        """As somebody changes a file here, which the live end hears of."""
        path = self.path / chance.choice(self.NAMES_HERE)
        if chance.random() < 0.6:
            path.write_text(f"{number} by the host\n")
        else:
            path.unlink(missing_ok=True)
        for line in folder.changes():
            self.assertEqual(end.say(line), [])

    def test_any_steps(self):
        for seed in range(sweep_count(2, 40)):
            chance, keep = random.Random(SEED + seed), 1 + seed % 3
            folder, end = self.start()
            for number in range(40):
                step, erased = chance.random(), []
                if step < 0.5:
                    self.make(chance, end, keep, number)
                elif step < 0.65 and self.files(end):
                    erased.append(chance.choice(list(self.files(end))).encode())
                    self.assertEqual(end.say(f"drop {erased[0].hex()}"), [])
                elif step < 0.85:
                    self.change(chance, folder, end, number)
                self.assertIsNone(self.write_back(folder, end.say("files"), erased)[1])
                if step >= 0.85:
                    folder, end = self.start_again(folder, end)
            folder.close()

    def start_again(self, folder, end):
        for line in folder.changes():
            self.assertEqual(end.say(line), [])
        self.write_back(folder, end.say("files"))
        before, hidden = self.files(end), len(folder.hidden)
        folder.close()
        end.close()
        folder, end = self.start()
        after = self.files(end)
        self.assertEqual({name: after.get(name) for name in before}, before)
        self.assertLessEqual(len(after), len(before) + hidden)
        return folder, end


class FaultsTest(VersionsCase):
    def test_a_version_is_kept_before_the_next_one_takes_its_place(self):
        folder, _ = self.begun(a=b"one\n")
        two = [*file_of("A;1", b"one"), *file_of("A;2", b"two")]
        written = []
        with mock.patch.object(folder.directory, "write", side_effect=lambda name, data: written.append(name) or (0, 0, 0, 0)):
            self.written(folder, two)
        self.assertEqual(written, [b".daplive", b"a"])

    def test_a_version_that_comes_back_is_here_before_it_leaves_the_kept_ones(self):
        folder, _ = self.begun(a=b"one\n")
        self.written(folder, [*file_of("A;1", b"one"), *file_of("A;2", b"two")])
        written = []

        def write(name, data):
            written.append((name, b"6f6e65" in data))
            return 0, 0, 0, 0

        with mock.patch.object(folder.directory, "write", write):
            self.written(folder, file_of("A;1", b"one"), erased=[b"A"])
        self.assertEqual(written, [(b".daplive", True), (b"a", False), (b".daplive", False)])

    def test_faults_leave_what_is_there(self):
        folder, _ = self.begun(a=b"one\n")
        two = [*file_of("A;1", b"one"), *file_of("A;2", b"two")]
        for call in ("os.fsync", "os.replace"):
            with mock.patch(f"decnet.folder.{call}", side_effect=OSError(28, "No space left on device")):
                self.assertIn("No space left on device", str(self.write_back(folder, two)[1]))
            self.assertEqual((self.texts(), self.kept()), ({"a": b"one\n"}, []))
        self.written(folder, two)
        self.assertEqual((self.texts(), self.kept()), ({"a": b"two\n"}, two[:2]))

    def test_kept_files_that_the_live_end_refuses_stay_kept(self):
        folder, _ = self.begun()
        kept = file_of("A;1", b"x", attributes=REL)
        self.write_back(folder, kept)
        folder.close()
        folder, lines = self.begun()
        self.assertTrue(folder.leaves_out(lines[0], "refused 4000 1"))
        why = "another file has this version, or there is no such one"
        self.assertEqual(folder.said(), [f"{self.path}/A;1: {why}: it stays in .daplive, and it isn't served"])
        self.write_back(folder, file_of("B;1", b"x"))
        self.assertEqual(self.kept(), kept)

    def test_a_file_that_the_live_end_has_no_memory_for_is_not_written_over(self):
        folder, _ = self.begun()
        self.put(A=b"one\ntwo\n")
        self.assertEqual(folder.changes(), file_of("A;1", b"one", b"two"))
        self.assertFalse(folder.leaves_out("  2 74776f", "refused no-memory"))
        told, fault = self.write_back(folder, file_of("A;1", b"one"))
        self.assertEqual((told, fault), ([f"{self.path}/A;1: the file of this host isn't served: it is kept in .daplive"], None))
        self.assertEqual(self.texts(), {"A": b"one\ntwo\n"})


class MessagesTest(unittest.TestCase):
    """What of a link is read for that."""

    CREATE = messages.attributes() + messages.access(Access.CREATE, b"[X]a.txt;", 1)
    ERASE = messages.access(Access.ERASE, b"a", 4)
    PUT = messages.control(messages.Control.PUT, messages.Rac.NEXT) + messages.data(bytes(300))

    def test_the_name_of_what_is_made(self):
        for body in (self.CREATE, self.PUT + self.CREATE, self.CREATE + self.PUT, (self.CREATE + self.PUT)[:-200]):
            self.assertEqual((dap.name_made(body), dap.names_erased(body)), (b"[X]a.txt;", []))
        for body in (b"", b"\1", b"\3", self.PUT, self.PUT[:20], self.ERASE, messages.access(Access.OPEN, b"a", 2)):
            self.assertIsNone(dap.name_made(body), body)

    def test_the_names_of_what_is_erased(self):
        for body in (self.ERASE, self.PUT + self.ERASE, (self.ERASE + self.PUT)[:-200], self.CREATE + self.ERASE):
            self.assertEqual(dap.names_erased(body), [b"a"], body)
        self.assertEqual(dap.names_erased(self.ERASE + messages.access(Access.ERASE, b"B;2", 4)), [b"a", b"B;2"])
        for body in (b"", b"\1\xff", self.PUT, self.PUT[:20], self.CREATE, self.CREATE[:-4], messages.access(Access.OPEN, b"a", 2)):
            self.assertEqual(dap.names_erased(body), [], body)


class ServedTest(WordsCase):
    """A bridge that serves a folder, and copies over a link."""

    NAMES = ()
    local = 0  # of the last link of a station

    def setUp(self):
        super().setUp()
        self.served = self.folder / "served"
        self.served.mkdir()

    def texts(self):
        return {one.name: one.read_text() for one in self.served.iterdir() if not one.name.startswith(".")}

    def begin(self, *words, **more):
        return self.serve("--folder", self.served, *words, **more)

    def copy(self, name, text, *words, **more):
        return self.type_in("copy", "-", f"1.2::{name}", *words, stdin=text.encode(), **more)[1]

    def typed(self, *names):
        return [self.type_in("type", f"1.2::{name}")[0].decode() for name in names]

    def assert_none(self, *names):
        for name in names:
            self.assertIn("refused: no such file (4032, 0)", self.type_in("type", f"1.2::{name}", status=1)[1])

    def erase(self, name):
        """Erases a file over a link, which is told so."""
        station = self.station()
        self.local += 1
        station.connect(self.local)
        for number, body in enumerate((CONFIGURATION, messages.access(Access.ERASE, name, FAC["del"])), 1):
            station.say(segment(station.remote, station.local, number, body))
            answer = station.hear_kind_of(nsp.SEGMENTS, number).body
            station.acknowledge(number)
        station.disconnect()
        station.close()
        self.assertTrue(dap.says_closed(answer), answer)

    def refused(self, what, *words, status=2):
        server = self.begin(*words, is_ready=False)
        self.assertEqual(server.finish(), status, server.told())
        self.assertIn(what, server.told())
        self.assertNotIn("Traceback", server.told())

    def test_a_copy_overwrites_the_file_of_the_host(self):
        (self.served / "Readme.txt").write_text("old\n")
        server = self.begin("--names", "versions")
        self.assertEqual(self.typed("readme.txt", "README.TXT;1"), ["old\n", "old\n"])
        self.copy("[SMITH]README.TXT", "new\n")
        self.copy("DATA.TXT", "data\n")
        self.copy("X.", "x\n")
        self.assertEqual(self.texts(), {"Readme.txt": "new\n", "data.txt": "data\n", "x": "x\n"})
        self.assert_none("README.TXT;1")
        (self.served / "data.txt").write_text("edited\n")
        self.assertEqual(self.typed("readme.txt;2", "data.txt;1", "x"), ["new\n", "edited\n", "x\n"])
        self.stop(server)

    def test_versions_after_a_start(self):
        server = self.begin("--names", "versions", "--keep", "2")
        for text in ("one", "two", "three"):
            self.copy("A.TXT", f"{text}\n")
        self.stop(server)
        self.assertEqual((self.texts(), file_lines(self.served / ".daplive")[0].split(" ")[1]), ({"a.txt": "three\n"}, name_of("A.TXT;2")))
        server = self.begin()
        self.assertIn("a file that is made anew is its next version (--names versions --keep 2)\n", server.told())
        self.assertEqual(self.typed("a.txt", "a.txt;2", "a.txt;3"), ["three\n", "two\n", "three\n"])
        self.erase(b"A.TXT")
        self.assertEqual((self.typed("a.txt"), self.texts()), (["two\n"], {"a.txt": "two\n"}))
        self.copy("A.TXT", "four\n")
        (self.served / "a.txt").unlink()
        self.assertEqual((self.typed("a.txt", "A.TXT;2"), self.texts()), (["two\n", "two\n"], {}))
        self.erase(b"A.TXT;2")
        self.assert_none("a.txt")
        self.stop(server)
        self.assertEqual(file_lines(self.served / ".daplive"), [])

    def test_a_copy_that_is_taken_back_leaves_the_file_of_the_host(self):
        (self.served / "a").write_text("old\n")
        server = self.begin("--names", "versions")
        told = self.copy("A", "x" * 9000, status=1)
        self.assertIn("; what was stored is taken back\n", told)
        self.assertEqual((self.texts(), self.typed("A")), ({"a": "old\n"}, ["old\n"]))
        self.assertIn("/a: a link has replaced it, and has taken that back: it is served as it is here\n", server.told())
        self.copy("A", "new\n")
        self.erase(b"A")
        self.assert_none("A")
        self.assertEqual(self.texts(), {})
        self.stop(server)

    def test_what_is_no_text_takes_the_place_of_a_text(self):
        (self.served / "a").write_text("old\n")
        server = self.begin("--names", "versions")
        self.copy("A", "abcd", "--fixed", "2")
        self.assertEqual((self.texts(), self.typed("A")), ({"a": "old\n"}, ["ab\ncd\n"]))
        self.stop(server)
        server = self.begin()
        self.assertEqual(self.typed("A", "A;1", "A;2"), ["ab\ncd\n", "old\n", "ab\ncd\n"])
        self.copy("A", "new\n")
        self.assertEqual((self.texts(), self.typed("A;2")), ({"a": "new\n"}, ["ab\ncd\n"]))
        self.stop(server)

    def test_other_names_than_a_folder_was_served_with(self):
        kept = self.served / ".daplive"
        for made, others in (("versions", ("exact", "folded")), ("exact", ("folded", "versions")), ("folded", ("exact", "versions"))):
            self.stop(self.begin("--names", made))
            line = f"# --names {made}" + " --keep 1" * (made == "versions")
            self.assertEqual(kept.read_text(), f"# kept by bridge.py\n{line}\n# end of files: 0 files, 0 lines\n")
            for other in others:
                what = f"{kept} says --names {made}, which goes on; its files are carried over where its line '{line}' is taken out"
                self.refused(f"--names {other}: {what}", "--names", other)
            self.stop(self.begin())
            self.assertIn(f"{line}\n", kept.read_text())
            kept.unlink()

    def test_words_that_do_not_go_together(self):
        self.refused("--keep 2: goes with --names versions alone", "--keep", "2", "--names", "exact")
        self.stop(self.begin("--names", "exact"))
        self.refused("--keep 2: goes with --names versions alone", "--keep", "2")
        kept = self.served / ".daplive"
        for line in ("# --names", "# --names other", "# --names versions --keep 0", "# --names versions --keep 32768"):
            kept.write_text(f"# kept by bridge.py\n{line} \n# end of files: 0 files, 0 lines\n")
            self.refused(f"{kept}: '{line} ': not how names are compared", status=1)

    def test_files_of_before_are_carried_over(self):
        """Without the line that says how names are compared, those are taken that are asked for."""
        kept = self.served / ".daplive"
        (self.served / "a.txt").write_text("text\n")
        lines = [*file_of("Rel.dat", b"x", attributes=REL), *file_of("A.TXT", b"y", attributes=REL)]
        kept.write_text("\n".join(["# kept by bridge.py", *lines, "# end of files: 2 files, 4 lines", ""]))
        server = self.begin()
        self.assertEqual(self.typed("a.txt", "Rel.dat", "A.TXT"), ["text\n", "1\tx\n", "1\ty\n"])
        self.assert_none("REL.DAT")
        self.stop(server)
        kept.write_text(kept.read_text().replace("# --names exact\n", ""))
        server = self.begin("--names", "versions")
        self.assertEqual(self.typed("a.txt;1", "A.TXT;2", "REL.DAT;1"), ["text\n", "1\ty\n", "1\tx\n"])
        self.copy("NEW", "new\n")
        self.stop(server)
        self.assertEqual(self.texts(), {"a.txt": "text\n", "new": "new\n"})
        self.assertEqual(file_lines(kept), [*file_of("REL.DAT;1", b"x", attributes=REL), *file_of("A.TXT;2", b"y", attributes=REL)])
