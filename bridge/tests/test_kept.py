"""The file that is kept: what is loaded, what is never overwritten, and that it is always whole."""
import os
import stat
import unittest
from unittest import mock

from decnet import kept
from decnet.kept import HEAD, Keeper, KeptFault, KeptFile, read_lines
from tests.support import Case

FILES = ["file 46 rel variable 0 0 kept=0202058c02030402", "  3 41", "file 47 seq fixed 2 0 kept=0202020802"]
MARK = "# end of files: 2 files, 3 lines"
WHOLE = "".join(f"{line}\n" for line in [HEAD, *FILES, MARK])


class KeptCase(Case):
    def setUp(self):
        super().setUp()
        self.path = self.folder / "kept"

    def keep(self, loaded=None):
        file = KeptFile(self.path, loaded)
        self.addCleanup(file.close)
        return file

    def refused(self, text, loaded=None, of_machine=False):
        with self.assertRaises(KeptFault) as caught:
            self.keep(loaded)
        self.assertIn(text, str(caught.exception))
        self.assertEqual(caught.exception.of_machine, of_machine)

    def save(self, file, answer=tuple(FILES)):
        """Saves what a live end answers; the fault, or None."""
        end = self.end("serve", program=self.stand_in(f"return {list(answer)!r} if line == 'files' else []"))
        keeper, faults = Keeper(file, end), []
        self.addCleanup(keeper.close)
        keeper.save(faults.append)
        while not faults:
            if end.is_busy:
                end.turn()
            else:
                keeper.look()
        return faults[0]

    def names(self):
        return sorted(path.name for path in self.folder.iterdir() if path.name.startswith("kept"))


class StartTest(KeptCase):
    def test_a_file_with_bytes_that_were_not_loaded_is_refused(self):
        self.path.write_text("anything\n")
        other = self.file("other", FILES)
        for loaded in (None, other, self.folder / "nowhere"):
            self.refused("it isn't empty, and isn't the file of --files: it would be overwritten", loaded)
        self.assertEqual(self.path.read_text(), "anything\n")
        self.keep(self.path)

    def test_a_missing_file_is_made_and_an_empty_one_taken(self):
        self.assertTrue(self.keep().is_new)
        self.path.unlink()
        self.path.touch()
        self.assertFalse(self.keep().is_new)

    def test_symbolic_links_devices_and_folders_are_refused(self):
        target = self.file("target", FILES)
        self.path.symlink_to(target)
        self.refused("it is a symbolic link, and no plain file", loaded=target)
        self.path.unlink()
        self.path.mkdir()
        self.refused("it is a folder, and no plain file")
        self.path.rmdir()
        os.mkfifo(self.path)
        self.refused("it is a device, and no plain file")
        self.assertTrue(stat.S_ISFIFO(self.path.lstat().st_mode))

    def test_the_folder_is_tried(self):
        self.path = self.folder / "nowhere" / "kept"
        self.refused("No such file or directory", of_machine=True)

    @unittest.skipUnless(os.geteuid() == 0, "takes root to be somebody else")
    def test_a_folder_that_cannot_be_written_is_refused(self):
        self.path.touch()
        self.path.chmod(0o666)
        self.folder.chmod(0o755)
        child = os.fork()
        if child == 0:
            os.setgid(65534)
            os.setuid(65534)
            try:
                KeptFile(self.path)
            except KeptFault as fault:
                os._exit(0 if "Permission denied" in str(fault) and fault.of_machine else 1)
            os._exit(2)
        self.assertEqual(os.waitstatus_to_exitcode(os.waitpid(child, 0)[1]), 0)

    def test_one_bridge_keeps_a_file(self):
        first = self.keep()
        self.refused("another bridge keeps it")
        self.assertIsNone(self.save(first))
        self.refused("another bridge keeps it", loaded=self.path)
        first.close()
        self.keep(self.path)

    def test_what_a_killed_bridge_left_is_removed_and_nothing_else(self):
        left = self.folder / ("kept.new." + "0" * 16)
        others = [self.folder / name for name in ("kept.new", "kept.new.1", "other.new." + "0" * 16)]
        for path in (left, *others):
            path.touch()
        self.keep()
        self.assertEqual([path.exists() for path in (left, *others)], [False, True, True, True])


class SaveTest(KeptCase):
    def test_what_is_saved_has_its_end_mark_and_is_read_again(self):
        self.assertIsNone(self.save(self.keep()))
        self.assertEqual(self.path.read_text(), WHOLE)
        self.assertEqual([line for _, line in read_lines(self.path)], FILES)
        self.assertEqual(self.names(), ["kept"])

    def test_only_a_listing_of_files_is_saved(self):
        for answer in (["refused no-memory"], [*FILES, "refused no-memory"], ["file 46", "waiting"], [" 3 41"], [""]):
            self.path.write_text(WHOLE)
            file = self.keep(self.path)
            fault = self.save(file, answer)
            file.close()
            self.assertIn(f"the live end answers '{answer[-1]}' in place of the files", str(fault))
            self.assertEqual(self.path.read_text(), WHOLE)
            self.assertEqual(self.names(), ["kept"])

    def test_an_answer_that_does_not_end_is_not_saved(self):
        self.path.write_text(WHOLE)
        end = self.end("serve", program=self.stand_in("print('file 46 seq variable 0 0', flush=True)\nos._exit(0)"))
        keeper = Keeper(self.keep(self.path), end)
        keeper.save(lambda fault: self.fail("it says that it is over"))
        with self.assertRaises(Exception):
            while True:
                end.turn()
        keeper.close()
        self.assertEqual(self.path.read_text(), WHOLE)
        self.assertEqual(self.names(), ["kept"])

    def test_faults_of_the_disk_leave_the_old_file(self):
        full = OSError(28, "No space left on device")
        for call in ("os.fsync", "os.replace", "os.fchmod"):
            self.path.write_text(WHOLE)
            file = self.keep(self.path)
            with mock.patch(f"decnet.locked.{call}", side_effect=full):
                self.assertIn("No space left on device", str(self.save(file, ["file 48 seq variable 0 0"])))
            self.assertEqual(self.path.read_text(), WHOLE, call)
            self.assertEqual(self.names(), ["kept"])
            self.assertIsNone(self.save(file))
            file.close()

    def test_mode_and_owner_stay(self):
        self.path.touch()
        self.path.chmod(0o600)
        if os.geteuid() == 0:
            os.chown(self.path, 65534, 65533)
        before = self.path.stat()
        self.assertIsNone(self.save(self.keep()))
        after = self.path.stat()
        self.assertEqual((before.st_mode, before.st_uid, before.st_gid), (after.st_mode, after.st_uid, after.st_gid))
        self.assertNotEqual(before.st_ino, after.st_ino)

    def test_a_symbolic_link_in_the_way_is_not_followed(self):
        """The name beside the file can't be guessed, and is made anew in any case."""
        victim = self.file("victim", ["precious"])
        with mock.patch("decnet.locked.secrets.token_hex", return_value="1" * 16):
            file = self.keep()
            (self.folder / ("kept.new." + "1" * 16)).symlink_to(victim)
            self.assertIn("File exists", str(self.save(file)))
        self.assertEqual(victim.read_text(), "precious\n")

    def test_what_somebody_else_wrote_is_left_as_it_is(self):
        file = self.keep()
        self.assertIsNone(self.save(file))
        self.path.write_text("edited\n")
        self.assertIn("somebody else has changed it", str(self.save(file)))
        self.assertEqual(self.path.read_text(), "edited\n")
        os.replace(self.file("moved", ["moved"]), self.path)
        self.assertIn("somebody else has changed it", str(self.save(file)))
        self.assertEqual(self.path.read_text(), "moved\n")

    def test_what_is_there_already_is_not_written_again(self):
        file = self.keep()
        self.assertIsNone(self.save(file))
        before = self.path.stat().st_ino
        self.assertIsNone(self.save(file))
        self.assertEqual((self.path.stat().st_ino, self.names()), (before, ["kept"]))
        self.assertIsNone(self.save(file, FILES[:2]))
        self.assertNotEqual(self.path.stat().st_ino, before)

    def test_a_file_that_was_removed_is_written_anew(self):
        file = self.keep()
        for _ in range(2):
            self.path.unlink()
            self.assertIsNone(self.save(file))
            self.assertEqual(self.path.read_text(), WHOLE)

    def test_saves_that_are_asked_for_meanwhile_are_made_one_after_another(self):
        end = self.end("serve", program=self.stand_in(
            "global count\ncount = globals().get('count', 0) + (line == 'files')\n"
            "return [f'file {count:02} seq variable 0 0'] if line == 'files' else []"))
        keeper, told = Keeper(self.keep(), end), []
        self.addCleanup(keeper.close)
        keeper.save(lambda fault: told.append(("first", self.path.read_text())))
        for name in ("second", "third"):
            keeper.save(lambda fault, name=name: told.append((name, self.path.read_text())))
        while keeper.is_busy:
            if end.is_busy:
                end.turn()
            else:
                keeper.look()
        texts = ["\n".join([HEAD, f"file {count} seq variable 0 0", "# end of files: 1 files, 1 lines", ""])
                 for count in ("01", "02")]
        self.assertEqual(told, [("first", texts[0]), ("second", texts[1]), ("third", texts[1])])

    def test_a_save_that_fails_in_any_way_is_told(self):
        file = self.keep()
        with mock.patch.object(KeptFile, "replace", side_effect=ZeroDivisionError("odd")):
            self.assertEqual(str(self.save(file)), "ZeroDivisionError: odd")
        self.assertEqual(list(self.path.parent.glob("kept*")), [self.path])


class LoadTest(KeptCase):
    def test_a_file_that_was_cut_short_is_known(self):
        """Of all prefixes of a kept file only the empty one, and all but its last LF, are taken."""
        taken = []
        for length in range(len(WHOLE) + 1):
            self.path.write_text(WHOLE[:length])
            try:
                list(read_lines(self.path))
                taken.append(length)
            except KeptFault as fault:
                self.assertRegex(str(fault), "cut short|not a line of files")
        self.assertEqual(taken, [0, len(WHOLE) - 1, len(WHOLE)])

    def test_what_people_write_needs_no_mark(self):
        self.path.write_text("# my files\n\nfile 46 seq variable 0 0\r\n  1 -\n")
        self.assertEqual(list(read_lines(self.path)), [(3, "file 46 seq variable 0 0"), (4, "  1 -")])

    def test_lines_that_are_no_files(self):
        for line in ("refused no-memory", "resend", " 1 41", "new"):
            self.path.write_text(f"file 46 seq variable 0 0\n{line}\n")
            with self.assertRaisesRegex(KeptFault, "line 2: not a line of files"):
                list(read_lines(self.path))

    def test_a_line_without_an_end_takes_no_memory(self):
        with mock.patch.object(kept, "MAX_LINE", 1000):
            with self.assertRaisesRegex(KeptFault, "line 1: more than 1000 bytes"):
                list(read_lines("/dev/zero"))
