"""A folder that is served: what is read of it, what is written back, and that nothing of anybody is lost."""
import os
import stat
from unittest import mock

from decnet.directory import Directory
from decnet.folder import Folder
from decnet.kept import Keeper, read_lines
from decnet.locked import KeptFault
from tests.support import Case

PLAIN = "seq variable 0 0"  # nothing is kept besides
TEXT = f"{PLAIN} kept=0202020802"  # RAT 2, as a text of the host is served


def name_of(text):
    return os.fsencode(text).hex()


def file_of(name, *records, attributes=TEXT):
    return [f"file {name_of(name)} {attributes}", *(f"  {number} {one.hex() or '-'}" for number, one in enumerate(records, 1))]


class FolderCase(Case):
    def setUp(self):
        super().setUp()
        self.path = self.folder / "served"
        self.path.mkdir()

    def open(self):
        found = Folder(self.path)
        self.addCleanup(found.close)
        return found

    def lines(self, folder):
        return [line for _, line in folder.read_lines()]

    def again(self, folder):
        """The lines that the folder has after a restart, and what is said then; it isn't served after that."""
        folder.close()
        folder = self.open()
        found = self.lines(folder), folder.said()
        folder.close()
        return found

    def kept_text(self):
        """The file of what no file here can hold; nothing where there is none."""
        path = self.path / ".daplive"
        return path.read_text() if path.exists() else ""

    def write_back(self, folder, lines):
        """Writes back what a live end answers; what is said of it, and its fault."""
        listing = folder.listing(lambda listing: None)
        for line in lines:
            listing.take(line)
        listing.finish()
        return listing.told(), listing.fault

    def texts(self):
        return {one.name: one.read_bytes() for one in self.path.iterdir() if not one.name.startswith(".")}

    def put(self, **files):
        for name, data in files.items():
            (self.path / name).write_bytes(data)


class ReadTest(FolderCase):
    def test_each_plain_file_that_is_not_hidden_is_served(self):
        self.put(b=b"one\r\n\nlast without end", a=b"")
        (self.path / ".hidden").write_text("x\n")
        (self.path / "folder").mkdir()
        (self.path / "link").symlink_to("a")
        os.mkfifo(self.path / "pipe")
        self.assertEqual(self.lines(self.open()), [*file_of("a"), *file_of("b", b"one", b"", b"last without end")])

    def test_what_can_be_no_file_is_told_and_the_others_are_served(self):
        self.put(a=b"x" * 32_768, b=b"good\n", c=b"no right\n")
        folder, read = self.open(), os.open

        def denied(name, *more, **options):
            if name == b"c":
                raise PermissionError(13, "Permission denied")
            return read(name, *more, **options)

        with mock.patch("decnet.directory.os.open", denied):
            self.assertEqual(self.lines(folder), file_of("b", b"good"))
            self.assertEqual(folder.said(), [f"{self.path}/a: line 1 has more than 32767 bytes: it isn't served",
                                             f"{self.path}/c: Permission denied: it isn't served"])
            self.assertEqual((folder.changes(), folder.said()), ([], []), "it is told once")
        os.utime(self.path / "c", (1, 1))
        self.put(a=b"short\n")
        self.assertEqual(folder.changes(), [*file_of("a", b"short"), *file_of("c", b"no right")])

    def test_what_is_no_plain_file_is_told(self):
        (self.path / "folder").mkdir()
        (self.path / "link").symlink_to("folder")
        folder = self.open()
        self.assertEqual((self.lines(folder), folder.said()),
                         ([], [f"{self.path}: not served: folder (a folder), link (a symbolic link)"]))

    def test_a_link_or_a_pipe_that_is_put_there_meanwhile_is_not_followed(self):
        """After the folder was looked at, and before the file is opened."""
        secret = self.file("secret", ["secret"])
        for make in (lambda path: path.symlink_to(secret), os.mkfifo):
            self.put(a=b"one\n", b=b"two\n")
            folder, find = self.open(), Directory.state_of

            def put_there(directory, name, make=make, find=find):
                found = find(directory, name)
                if name == b"a":
                    (self.path / "a").unlink()
                    make(self.path / "a")
                return found

            with mock.patch.object(Directory, "state_of", put_there):
                self.assertEqual(self.lines(folder), file_of("b", b"two"))
            folder.close()
            (self.path / "a").unlink()

    def test_the_folder_that_was_locked_is_read_and_no_other_in_its_place(self):
        self.put(a=b"one\n")
        folder = self.open()
        os.rename(self.path, self.folder / "away")
        self.path.mkdir()
        self.put(a=b"of another folder\n")
        self.assertEqual(self.lines(folder), file_of("a", b"one"))
        self.assertEqual((folder.changes(), folder.said()), ([], [f"{self.path}: another folder is there now"]))
        _, fault = self.write_back(folder, file_of("a", b"by a link"))
        self.assertIn("another folder is there now", str(fault))
        self.assertEqual(self.texts(), {"a": b"of another folder\n"})

    def test_kept_files_that_are_no_plain_file_stop_the_start(self):
        path = self.path / ".daplive"
        for make, kind in ((os.mkfifo, "a device"), (os.mkdir, "a folder"), (lambda one: os.symlink("a", one), "a symbolic link")):
            make(path)
            folder = self.open()
            with self.assertRaisesRegex(KeptFault, f"/.daplive: it is {kind}, and no plain file"):
                self.lines(folder)
            folder.close()
            path.rmdir() if kind == "a folder" else path.unlink()

    def test_one_bridge_serves_a_folder_that_it_can_write(self):
        self.open()
        with self.assertRaisesRegex(KeptFault, "another bridge serves it"):
            Folder(self.path)
        for path in ("/nowhere", self.file("plain")):
            with self.assertRaises(KeptFault) as caught:
                Folder(path)
            self.assertTrue(caught.exception.of_machine)

    def test_what_a_killed_bridge_left_is_removed(self):
        left = self.path / (".daplive.new." + "0" * 16)
        left.touch()
        self.lines(self.open())
        self.assertFalse(left.exists())


class ChangesTest(FolderCase):
    """What somebody does in the folder while no link is open."""

    def test_what_changed_is_given_and_what_is_gone_is_dropped(self):
        self.put(a=b"one\n", b=b"two\n", c=b"three\n")
        folder = self.open()
        self.lines(folder)
        self.assertEqual(folder.changes(), [])
        self.put(b=b"two\nmore\n", d=b"four\n")
        (self.path / "c").unlink()
        (self.path / "a").touch()
        self.assertEqual(folder.changes(), ["drop 63", "drop 62", *file_of("b", b"two", b"more"), *file_of("d", b"four")])
        self.assertEqual(folder.changes(), [])
        files = [*file_of("a", b"one"), *file_of("b", b"two", b"more"), *file_of("d", b"four", b"by a link")]
        self.assertEqual(self.write_back(folder, files), ([], None))
        self.assertEqual(self.texts(), {"a": b"one\n", "b": b"two\nmore\n", "d": b"four\nby a link\n"})
        self.assertEqual(folder.changes(), [])

    def test_what_can_be_no_file_stays_as_it_was(self):
        self.put(a=b"one\n")
        folder = self.open()
        self.lines(folder)
        self.put(a=b"x" * 32_768, b=b"y" * 32_768)
        self.assertEqual(folder.changes(), [])
        told = folder.said()
        self.assertRegex(told[0], "/a: line 1 has more than 32767 bytes: it is served as it was$")
        self.assertRegex(told[1], "/b: line 1 has more than 32767 bytes: it isn't served$")
        told, fault = self.write_back(folder, file_of("a", b"by a link"))
        self.assertIsNone(fault)
        self.assertEqual(self.texts()["a.host"], b"x" * 32_768)
        self.assertEqual(self.texts()["a"], b"by a link\n")

    def test_of_two_names_that_are_one_the_other_is_served_when_the_first_is_gone(self):
        self.put(a=b"one\n", A=b"two\n")
        folder = self.open()
        self.lines(folder)
        self.assertTrue(folder.leaves_out(f"file 61 {TEXT}", "refused 4000 1"))
        self.assertTrue(folder.leaves_out("  1 41", "refused 4032 0"))
        self.assertFalse(folder.leaves_out("  1 41", "refused no-memory"))
        self.assertEqual(folder.said(), [f"{self.path}/a: another file has this name: it isn't served"])
        self.assertEqual(folder.changes(), [])
        self.assertEqual(self.write_back(folder, file_of("A", b"by a link")), ([], None))
        self.assertEqual(self.texts(), {"A": b"by a link\n", "a": b"one\n"})
        (self.path / "A").unlink()
        self.assertEqual(folder.changes(), ["drop 41", *file_of("a", b"one")])

    def test_a_kept_file_that_the_live_end_refuses_stays_kept(self):
        folder = self.open()
        self.lines(folder)
        kept = file_of("r", b"x", attributes="rel variable 0 9")
        self.write_back(folder, kept)
        folder.close()
        folder = self.open()
        self.assertEqual(self.lines(folder), kept)
        self.assertTrue(folder.leaves_out(kept[0], "refused 4000 1"))
        self.assertEqual(folder.said(), [f"{self.path}/r: another file has this name: it stays in .daplive, and it isn't served"])
        self.assertEqual(self.write_back(folder, file_of("s", b"x", attributes="rel variable 0 9"))[1], None)
        self.assertIn("\n".join(kept), (self.path / ".daplive").read_text())


    def test_what_the_live_end_has_no_memory_for_is_not_written_over(self):
        folder = self.open()
        self.lines(folder)
        self.put(a=b"one\ntwo\n")
        self.assertEqual(folder.changes(), file_of("a", b"one", b"two"))
        self.assertFalse(folder.leaves_out("  2 74776f", "refused no-memory"))
        told, fault = self.write_back(folder, file_of("a", b"one"))
        self.assertIn("/a: the file of this host isn't served: it stays as it was", told[0])
        self.assertEqual((self.texts(), fault), ({"a": b"one\ntwo\n"}, None))


class WriteTest(FolderCase):
    def test_only_what_changed_is_written(self):
        self.put(a=b"one\r\ntwo", b=b"old\n")
        (self.path / "b").chmod(0o604)
        folder = self.open()
        self.lines(folder)
        before = (self.path / "a").stat().st_ino
        self.assertEqual(self.write_back(folder, [*file_of("a", b"one", b"two"), *file_of("b", b"old", b"new"), *file_of("c", b"")]),
                         ([], None))
        self.assertEqual(self.texts(), {"a": b"one\r\ntwo", "b": b"old\nnew\n", "c": b"\n"})
        self.assertEqual((self.path / "a").stat().st_ino, before)
        self.assertEqual(stat.S_IMODE((self.path / "b").stat().st_mode), 0o604)

    def test_what_somebody_edited_meanwhile_is_kept(self):
        self.put(a=b"old\n", b=b"old\n")
        folder = self.open()
        self.lines(folder)
        self.put(a=b"edited\n", b=b"edited too\n", c=b"made by hand\n")
        told, fault = self.write_back(folder, [*file_of("a", b"new"), *file_of("b", b"old"), *file_of("c", b"by a link")])
        self.assertIsNone(fault)
        self.assertEqual(self.texts(), {"a": b"new\n", "a.host": b"edited\n", "b": b"edited too\n", "c": b"by a link\n",
                                        "c.host": b"made by hand\n"})
        self.assertEqual([one.split(": ", 1)[1] for one in told],
                         [f"somebody has edited it meanwhile: that is {self.path}/{name}.host now" for name in "ac"])
        self.put(a=b"edited again\n")
        self.write_back(folder, [*file_of("a", b"newer"), *file_of("b", b"old"), *file_of("c", b"by a link")])
        self.assertEqual((self.path / "a.host.2").read_bytes(), b"edited again\n")

    def test_a_file_that_somebody_only_touched_is_written(self):
        self.put(a=b"old\n")
        folder = self.open()
        self.lines(folder)
        os.utime(self.path / "a", (1, 1))
        self.assertEqual(self.write_back(folder, file_of("a", b"new")), ([], None))
        self.assertEqual(self.texts(), {"a": b"new\n"})

    def test_what_is_no_text_stands_beside_and_comes_again(self):
        self.put(a=b"one\n")
        (self.path / "folder").mkdir()
        folder = self.open()
        self.lines(folder)
        others = [*file_of("r", b"x", attributes="rel variable 0 9"), *file_of("lf", b"a\nb"), *file_of("cr", b"a\r"),
                  *file_of("../up", b"x"), *file_of("a/b", b"x"), *file_of(".hidden", b"x"), *file_of("\x1b", b"x"), *file_of("\udcff", b"x"),
                  *file_of("folder", b"x"), *file_of("n" * 201, b"x"), f"file - {TEXT}"]
        folder.said()
        told, fault = self.write_back(folder, [*file_of("a", b"one"), *others])
        self.assertEqual((len(told), fault), (sum(line.startswith("file") for line in others), None))
        self.assertEqual(told[1], f"{self.path}/lf: record 1 has an LF, or a CR at its end, and is no line of a text: it is kept in "
                         ".daplive")
        self.assertEqual(sorted(one.name for one in self.path.iterdir()), [".daplive", "a", "folder"])
        self.assertEqual(self.write_back(folder, [*file_of("a", b"one"), *others]), ([], None))
        folder.close()
        self.assertEqual(self.lines(self.open()), [*file_of("a", b"one"), *others])

    def begun(self):
        """A folder whose file `a` a link has made what no text is."""
        self.put(a=b"one\n")
        folder = self.open()
        self.lines(folder)
        self.assertEqual(self.write_back(folder, file_of("a", b"one\ntwo")), (
            [f"{self.path}/a: record 1 has an LF, or a CR at its end, and is no line of a text: it stays as it was, and what links "
             "see is kept in .daplive"], None))
        self.assertEqual(self.texts(), {"a": b"one\n"})
        return folder

    BESIDE = [*file_of("a", b"one"), *file_of("a.put", b"one\ntwo")]

    def test_a_file_of_the_host_stays_as_it_was_where_links_made_it_no_text(self):
        folder = self.begun()
        self.assertEqual(folder.changes(), [], "links see what was put")
        self.assertEqual(self.write_back(folder, file_of("a", b"one\ntwo", b"more")), ([], None))
        self.assertEqual(self.texts(), {"a": b"one\n"})
        self.write_back(folder, file_of("a", b"one\ntwo"))
        folder.close()
        folder = self.open()
        self.assertEqual(self.lines(folder), self.BESIDE, "at the next start both are served")
        self.assertEqual(folder.said(), [f"{self.path}/a: it is served as it is here; what links had put in its place is a.put now"])
        self.assertEqual(self.write_back(folder, self.BESIDE), ([], None))
        folder.close()
        folder = self.open()
        self.assertEqual((self.lines(folder), folder.said()), (self.BESIDE, []))

    def test_it_is_served_again_when_the_host_changes_it(self):
        folder = self.begun()
        self.put(a=b"edited\n")
        beside = [*file_of("a", b"edited"), *self.BESIDE[2:]]
        self.assertEqual(folder.changes(), ["drop 61", *beside])
        self.assertEqual(folder.changes(), [])
        self.assertEqual(self.write_back(folder, beside)[1], None)
        folder.close()
        self.assertEqual(self.lines(self.open()), beside)

    def test_kept_files_that_cannot_be_written_are_written_later(self):
        folder = self.begun()
        folder.close()
        folder = self.open()
        with mock.patch("decnet.directory.os.fsync", side_effect=OSError(28, "No space left on device")):
            self.assertEqual(self.lines(folder), self.BESIDE)
        self.assertIn(f"{self.path}/.daplive: No space left on device", folder.said())
        self.assertEqual(self.write_back(folder, self.BESIDE), ([], None))
        self.assertIn(f"file {name_of('a.put')} ", (self.path / ".daplive").read_text())

    def test_a_file_that_no_link_has_changed_is_not_kept_where_it_is_gone(self):
        self.put(a=b"one\n", b=b"two\n")
        folder = self.open()
        self.lines(folder)
        (self.path / "a").unlink()
        (self.path / "a").mkdir()
        self.assertEqual(self.write_back(folder, [*file_of("a", b"one"), *file_of("b", b"by a link")]), ([], None))
        self.assertFalse((self.path / ".daplive").exists())
        self.assertEqual(folder.changes(), ["drop 61"])

    def test_names_that_are_there_are_not_taken_for_it(self):
        folder = self.begun()
        self.put(**{"a": b"edited\n", "a.put": b"of the host\n"})
        self.assertIn(f"file {name_of('a.put.2')} {TEXT}", folder.changes())

    def test_what_a_link_stored_while_the_name_was_no_plain_file(self):
        """A folder, or a symbolic link, has the name for a moment; then the host's file is there again."""
        self.put(a=b"one\n")
        folder = self.open()
        self.lines(folder)
        os.rename(self.path / "a", self.folder / "away")
        (self.path / "a").mkdir()
        told, fault = self.write_back(folder, file_of("a", b"by a link"))
        self.assertEqual((told, fault), ([f"{self.path}/a: it is a folder here: it is kept in .daplive"], None))
        self.assertEqual(folder.changes(), [])
        (self.path / "a").rmdir()
        os.rename(self.folder / "away", self.path / "a")
        self.assertEqual(folder.changes(), ["drop 61", *file_of("a", b"one"), *file_of("a.put", b"by a link")])
        self.assertEqual(folder.said(), [f"{self.path}/a: it is served as it is here; what links had put in its place is a.put now"])

    def test_a_file_that_is_not_served_stays_where_a_link_makes_one_of_its_name(self):
        self.put(a=b"x" * 32_768)
        folder = self.open()
        self.lines(folder)
        told, fault = self.write_back(folder, file_of("a", b"by a link"))
        self.assertIsNone(fault)
        self.assertIn("/a: the file of this host isn't served: it stays as it was, and what links see is kept in .daplive", told[-1])
        self.assertEqual(self.texts(), {"a": b"x" * 32_768})
        self.put(a=b"short\n")
        self.assertEqual(folder.changes(), ["drop 61", *file_of("a", b"short"), *file_of("a.put", b"by a link")])

    def test_what_a_link_purges_is_taken_back_unless_somebody_has_edited_it(self):
        folder = self.open()
        self.lines(folder)
        self.write_back(folder, [*file_of("a", b"one"), *file_of("b", b"two")])
        self.put(b=b"edited\n")
        self.assertEqual(self.write_back(folder, []), ([], None))
        self.assertEqual(self.texts(), {"b": b"edited\n"})
        self.assertEqual(folder.changes(), file_of("b", b"edited"))

    def test_what_a_link_erases_is_removed_unless_somebody_has_edited_it(self):
        self.put(a=b"one\n", b=b"two\n", c=b"three\n")
        folder = self.open()
        self.lines(folder)
        self.put(b=b"edited\n")
        self.assertEqual(self.write_back(folder, file_of("c", b"three")), (
            [f"{self.path}/b: a link has erased it, and somebody has edited it meanwhile: it is served as it is here"], None))
        self.assertEqual(self.texts(), {"b": b"edited\n", "c": b"three\n"})
        self.assertEqual((folder.changes(), folder.said()), (file_of("b", b"edited"), []))

    def test_a_file_that_is_new_here_is_not_taken_for_one_that_was_erased(self):
        """The live end listed its files before it was given that one."""
        self.put(a=b"one\n")
        folder = self.open()
        self.lines(folder)
        self.put(b=b"two\n")
        self.assertEqual(folder.changes(), file_of("b", b"two"))
        self.assertEqual(self.write_back(folder, file_of("a", b"one")), ([], None))
        self.assertEqual(self.texts(), {"a": b"one\n", "b": b"two\n"})
        self.assertEqual(self.write_back(folder, [*file_of("a", b"one"), *file_of("b", b"two")]), ([], None))
        self.assertEqual(self.write_back(folder, file_of("a", b"one")), ([], None))
        self.assertEqual(self.texts(), {"a": b"one\n"})

    def test_others_may_not_write_a_new_file(self):
        folder = self.open()
        self.lines(folder)
        before = os.umask(0)
        self.addCleanup(os.umask, before)
        self.write_back(folder, [*file_of("a", b"one"), *file_of("r", b"x", attributes="rel variable 0 9")])
        self.assertEqual([stat.S_IMODE((self.path / name).stat().st_mode) for name in ("a", ".daplive")], [0o640, 0o640])

    def test_others_that_were_cut_short_stop_the_start(self):
        folder = self.open()
        self.lines(folder)
        self.write_back(folder, file_of("r", b"x", attributes="rel variable 0 9"))
        folder.close()
        path = self.path / ".daplive"
        path.write_text(path.read_text()[:-5])
        with self.assertRaisesRegex(KeptFault, "it was cut short or changed"):
            self.lines(self.open())

    def test_faults_leave_what_is_there(self):
        self.put(a=b"old\n")
        folder = self.open()
        self.lines(folder)
        for call in ("os.fsync", "os.replace", "os.fchmod"):
            with mock.patch(f"decnet.folder.{call}", side_effect=OSError(28, "No space left on device")):
                _, fault = self.write_back(folder, file_of("a", b"new"))
            self.assertIn("No space left on device", str(fault))
            self.assertEqual(sorted(one.name for one in self.path.iterdir()), ["a"])
            self.assertEqual(self.texts(), {"a": b"old\n"})
        self.assertIsNone(self.write_back(folder, file_of("a", b"new"))[1])
        self.assertEqual(self.texts(), {"a": b"new\n"})

    def test_only_a_listing_of_files_is_written(self):
        self.put(a=b"old\n")
        folder = self.open()
        self.lines(folder)
        for answer in (["refused no-memory"], [*file_of("a", b"new"), "refused no-memory"], ["  1 41"], ["file zz x"], ["file 4"]):
            _, fault = self.write_back(folder, answer)
            self.assertIn("in place of the files", str(fault))
            self.assertEqual(self.texts(), {"a": b"old\n"})

    def test_a_keeper_says_what_became_of_it(self):
        self.put(a=b"old\n")
        folder = self.open()
        self.lines(folder)
        self.put(a=b"edited\n")
        end = self.end("serve", program=self.stand_in(f"return {file_of('a', b'new')!r}"))
        keeper, faults = Keeper(folder, end), []
        self.addCleanup(keeper.close)
        keeper.save(faults.append)
        while not faults:
            if end.is_busy:
                end.turn()
            else:
                keeper.look()
        self.assertEqual(faults, [None])
        self.assertEqual(self.texts(), {"a": b"new\n", "a.host": b"edited\n"})


class AttributesTest(FolderCase):
    """What is kept with a file besides its records: RAT and the like."""

    # what is kept with texts: nothing, RAT 0, 2 and 8 with it, RFM 4, 5 and 6, and all that doesn't matter
    TEXTS = (PLAIN, TEXT, *(f"{PLAIN} kept={kept}" for kept in (
        "0202020800", "0202020808", "020202080a", "0202020404", "0202020405", "0202020406", "0202030c0402",
        "02020a" "9d41" "8101" "04" "0a" "0002" "10" "08")))
    # and with files that are none, with why
    OTHERS = {"rel variable 0 0 kept=0202020802": "", "seq fixed 1 0 kept=0202020802": "", "seq variable 9 0 kept=0202020802": "",
              f"{PLAIN} kept=0202020801": " (RAT FTN)", f"{PLAIN} kept=0202020804": " (RAT PRN)", f"{PLAIN} kept=0202020803": " (RAT FTN+CR)",
              f"{PLAIN} kept=0202020812": " (RAT CR+bit 4)", f"{PLAIN} kept=0202058c02030202": " (RFM VFC)",
              f"{PLAIN} kept=0202020400": " (RFM undefined)"}

    def test_a_text_with_which_a_link_kept_something_is_one_of_the_host_and_has_it_after_a_restart(self):
        for attributes in self.TEXTS:
            folder = self.open()
            self.lines(folder)
            lines = file_of("a", b"one", attributes=attributes)
            self.assertEqual(self.write_back(folder, lines), ([], None), attributes)
            self.assertEqual(self.texts(), {"a": b"one\n"}, attributes)
            self.assertEqual((folder.changes(), self.again(folder)), ([], (lines, [])), attributes)
            (self.path / "a").unlink()
            (self.path / ".daplive").unlink(missing_ok=True)

    def test_only_what_a_text_of_the_host_has_takes_no_line(self):
        for attributes in self.TEXTS:
            folder = self.open()
            self.lines(folder)
            self.write_back(folder, file_of("a", b"one", attributes=attributes))
            self.assertEqual("# text 61 " in self.kept_text(), attributes != TEXT, attributes)
            folder.close()
            (self.path / "a").unlink()
            (self.path / ".daplive").unlink(missing_ok=True)

    def test_what_is_no_text_is_kept_whole_and_the_log_says_why(self):
        for attributes, why in self.OTHERS.items():
            folder = self.open()
            self.lines(folder)
            lines = file_of("a", b"1", attributes=attributes)
            told, fault = self.write_back(folder, lines)
            self.assertEqual((told, fault), ([f"{self.path}/a: its records aren't the lines of a text{why}: it is kept in .daplive"], None))
            self.assertEqual((self.texts(), self.again(folder)), ({}, (lines, [])), attributes)
            (self.path / ".daplive").unlink()

    def test_what_a_live_end_never_prints_is_no_text(self):
        """FSZ without RFM 3, another type, two messages, none, bytes after it, a number in more bytes than it takes."""
        for kept in ("020203800202", "0102020802", "02020208020202020802", "00", "020203080200", "020203088200", "0202", "02020280"):
            folder = self.open()
            self.lines(folder)
            self.write_back(folder, file_of("a", b"1", attributes=f"{PLAIN} kept={kept}"))
            self.assertEqual(self.texts(), {}, kept)
            folder.close()
            (self.path / ".daplive").unlink()

    def made(self, *records, kept="020203090202", name="a"):
        """A folder in which a link has made a text, with DATATYPE 2 and RAT 2."""
        folder = self.open()
        self.lines(folder)
        self.assertEqual(self.write_back(folder, file_of(name, *records, attributes=f"{PLAIN} kept={kept}")), ([], None))
        return folder

    MADE = f"{PLAIN} kept=020203090202"

    def test_what_the_host_edits_is_a_text_of_the_host(self):
        folder = self.made(b"one")
        self.put(a=b"edited\n")
        edited = file_of("a", b"edited")
        self.assertEqual(folder.changes(), ["drop 61", *edited])
        self.assertEqual(self.write_back(folder, edited), ([], None))
        self.assertNotIn("# text", self.kept_text())
        self.assertEqual(self.again(folder), (edited, []))

    def test_an_edit_while_nothing_is_served_is_seen_and_one_that_is_taken_back_is_none(self):
        self.made(b"one").close()
        self.put(a=b"edited\n")
        self.assertEqual(self.lines(folder := self.open()), file_of("a", b"edited"))
        folder.close()
        self.put(a=b"one\r\n")
        self.assertEqual(self.lines(self.open()), file_of("a", b"one", attributes=self.MADE))

    def test_other_attributes_of_the_same_records_are_kept(self):
        """A link has erased the file, and made it anew."""
        self.put(a=b"one\n")
        folder = self.open()
        self.lines(folder)
        before = (self.path / "a").stat().st_ino
        for attributes in (self.MADE, PLAIN, TEXT):
            lines = file_of("a", b"one", attributes=attributes)
            self.assertEqual(self.write_back(folder, lines), ([], None))
            self.assertEqual(self.again(folder), (lines, []), attributes)
            self.lines(folder := self.open())
        self.assertEqual((self.path / "a").stat().st_ino, before, "the host's file isn't written")

    def test_records_that_a_link_puts_after_it_keep_it(self):
        folder = self.made(b"one")
        lines = file_of("a", b"one", b"two", attributes=self.MADE)
        self.assertEqual(self.write_back(folder, lines), ([], None))
        self.assertEqual((self.texts(), self.again(folder)), ({"a": b"one\ntwo\n"}, (lines, [])))

    def test_a_file_that_is_erased_takes_it_along(self):
        folder = self.made(b"one")
        self.assertEqual(self.write_back(folder, []), ([], None))
        self.assertEqual((self.texts(), "# text" in self.kept_text()), ({}, False))
        self.put(a=b"one\n")
        self.assertEqual(folder.changes(), file_of("a", b"one"))

    def test_a_file_that_is_gone_takes_it_along(self):
        folder = self.made(b"one")
        (self.path / "a").unlink()
        self.assertEqual((folder.changes(), self.write_back(folder, [])), (["drop 61"], ([], None)))
        self.assertNotIn("# text", self.kept_text())
        folder.close()
        self.made(b"one").close()
        (self.path / "a").unlink()
        self.lines(folder := self.open())
        self.write_back(folder, file_of("b", b"x"))
        self.assertNotIn("# text", self.kept_text())

    def test_it_stays_where_the_file_is_not_served_for_a_while(self):
        """Another file has the name, or the live end had no memory for it."""
        self.made(b"one").close()
        lines = self.lines(folder := self.open())
        self.assertTrue(folder.leaves_out(lines[0], "refused 4000 1"))
        self.assertEqual(self.write_back(folder, file_of("b", b"x"))[1], None)
        self.assertEqual(self.again(folder)[0], [*file_of("a", b"one", attributes=self.MADE), *file_of("b", b"x")])

    def test_it_stays_with_the_file_in_whose_place_links_put_another(self):
        folder = self.made(b"one")
        put = file_of("a", b"one\ntwo", attributes=self.MADE)
        for text in (b"x", b"y"):
            self.assertEqual(self.write_back(folder, [*put, *file_of("b", text)])[1], None)
        self.assertEqual(self.again(folder)[0], [*file_of("a", b"one", attributes=self.MADE), *file_of("b", b"y"),
                                                 *file_of("a.put", b"one\ntwo", attributes=self.MADE)])

    def test_it_stays_where_a_file_was_given_after_the_live_end_had_listed_its_files(self):
        self.made(b"one").close()
        os.rename(self.path / "a", self.folder / "away")
        self.lines(folder := self.open())
        os.rename(self.folder / "away", self.path / "a")
        lines = file_of("a", b"one", attributes=self.MADE)
        self.assertEqual(folder.changes(), lines)
        self.assertEqual(self.write_back(folder, []), ([], None))
        self.assertEqual((self.texts(), self.again(folder)), ({"a": b"one\n"}, (lines, [])))

    def test_the_lines_of_other_files_stay_as_they_are(self):
        kept = file_of("v", b"x", attributes=f"{PLAIN} kept=0202058c02030402")
        folder = self.made(b"one")
        text = file_of("a", b"one", attributes=self.MADE)
        self.assertEqual(self.write_back(folder, [*text, *kept])[1], None)
        self.assertEqual(self.again(folder), ([*text, *kept], []))

    def test_a_comment_that_says_no_such_thing_stops_the_start(self):
        path = self.path / ".daplive"
        end = "# end of files: 0 files, 0 lines\n"
        good = f"# text 61 {'0' * 64} 020203090202"
        self.put(a=b"one\n")
        for line in (good, f"# text 61 {'0' * 64} -", "# of my own"):
            path.write_text(f"# kept by bridge.py\n{line}\n{end}")
            self.assertEqual(self.lines(folder := self.open()), file_of("a", b"one"), "the digest of other lines")
            folder.close()
        for line in ("# text 61", good[:-1], f"{good} -", good.replace(" 61 ", "  "), good.replace("0" * 64, "0" * 63),
                     f"# text 61 {'0' * 64} 0202020801", f"# text 61 {'0' * 64} 0202", f"# text 61 {'0' * 64} 0202020802ff"):
            path.write_text(f"# kept by bridge.py\n{line}\n{end}")
            folder = self.open()
            with self.assertRaisesRegex(KeptFault, "/.daplive: line 2: not what is kept with a text", msg=line):
                self.lines(folder)
            folder.close()

    def test_a_bridge_without_them_reads_the_other_files(self):
        """They are comments to whoever reads files, as a live end or a bridge of before."""
        kept = file_of("r", b"x", attributes="rel variable 0 9")
        folder = self.made(b"one")
        self.write_back(folder, [*file_of("a", b"one", attributes=self.MADE), *kept])
        self.assertIn("# text", self.kept_text())
        self.assertEqual([line for _, line in read_lines(self.path / ".daplive")], kept)
