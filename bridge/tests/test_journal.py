"""The journal: each prefix of it and each altered byte of it is read as what was kept, or reported as damage."""
import os
import random
import re
from unittest import mock

from decnet import journal
from decnet.journal import Journal, Parsed
from decnet.locked import KeptFault
from decnet.stored import Store, StoredEnd, left_links
from tests.datagrams import log_of
from tests.support import SEED, Case

PROGRAM = f"{'0' * 64} serve"
FILES = ["file 46 seq variable 0 0 kept=020203090202", "  1 41"]
LINES = 60


class JournalCase(Case):
    def setUp(self):
        super().setUp()
        self.path = self.folder / "store"

    def open(self, program=PROGRAM, sync="answers"):
        found = Journal(self.path, sync)
        self.addCleanup(found.close)
        found.begin(program)
        return found

    def renew(self, kept, files=tuple(FILES)):
        """The journal anew; what is wrong, or None."""
        listing = kept.listing(lambda listing: None)
        for line in files:
            listing.take(line)
        listing.finish()
        return listing.fault

    def begun(self, count=LINES):
        """A journal of this many lines; the lines, and where the mark of each ends."""
        chance, kept = random.Random(SEED), self.open()
        kept.go_on()
        self.assertIsNone(self.renew(kept))
        told, ends = [kept.head(), *FILES], [kept.size]
        for number in range(count):
            line = "> " + chance.randbytes(chance.randrange(1, 60)).hex()
            kept.append(line)
            if number % 3 == 2:
                kept.sync()
            told.append(line)
            ends.append(kept.size)
        kept.close()
        return told, ends

    def refused(self, text, of_machine=False, program=PROGRAM):
        with self.assertRaises(KeptFault) as caught:
            self.open(program)
        self.assertIn(text, str(caught.exception))
        self.assertEqual(caught.exception.of_machine, of_machine)


class ParseTest(JournalCase):
    def setUp(self):
        super().setUp()
        self.told, self.ends = self.begun()
        self.data = self.path.read_bytes()
        self.first = len(self.told) - LINES

    def test_each_front_gives_the_lines_that_were_whole(self):
        for length in range(len(self.data) + 1):
            found, whole = Parsed("store", self.data[:length]), sum(end <= length for end in self.ends)
            self.assertEqual(found.size, self.ends[whole - 1] if whole else 0, length)
            self.assertEqual(found.lines, self.told[:self.first + whole - 1] if whole else [], length)

    def test_no_altered_byte_loses_what_a_later_mark_says_was_on_the_disk(self):
        marks = [match.span() for match in re.finditer(rb"^#= .*\n", self.data, re.M)]
        tally = {"told": 0, "cut": 0}
        for at in range(len(self.data)):
            for bit in (1, 0x80):
                bad = bytearray(self.data)
                bad[at] ^= bit
                try:
                    found = Parsed("store", bytes(bad))
                except KeptFault as fault:
                    self.assertIn("and that was on the disk", str(fault))
                    tally["told"] += 1
                    continue
                tally["cut"] += 1
                self.assertLessEqual(found.size, at + 1, "an altered line was taken")
                self.assertEqual(found.lines, self.told[:len(found.lines)])
                later = [journal.synced_in(self.data[slice(*mark)]) for before, mark in zip(marks, marks[1:]) if before[0] > at]
                self.assertGreaterEqual(found.size, max(later, default=0), "what was on the disk is lost, and isn't told")
        self.assertGreater(tally["told"], 10 * tally["cut"])

    def test_garbage_after_the_last_mark_is_cut(self):
        chance = random.Random(SEED)
        for number in range(2000):
            tail = chance.randbytes(chance.randrange(200)) if number % 2 else bytes(chance.randrange(200))
            found = Parsed("store", self.data + tail)
            self.assertEqual((found.size, found.lines), (len(self.data), self.told))

    def test_what_was_reported_after_the_files(self):
        found = Parsed("store", self.data)
        self.assertEqual(found.told, self.told[self.first:])
        self.assertEqual(Parsed("store", self.data[:self.ends[0]]).told, [])


class FileTest(JournalCase):
    def test_it_is_gone_on_with(self):
        told, ends = self.begun(3)
        kept = self.open()
        self.assertEqual(kept.parsed.lines, told)
        kept.go_on()
        self.assertEqual((kept.first_size, kept.grown), (ends[0], ends[-1] - ends[0]), "what came before counts as grown")
        kept.append("> 00")
        kept.close()
        self.assertEqual(Parsed("store", self.path.read_bytes()).lines, [*told, "> 00"])

    def test_what_was_cut_short_goes_before_the_next_line(self):
        told, ends = self.begun(3)
        data = self.path.read_bytes()
        for length in range(ends[-2], ends[-1]):
            self.path.write_bytes(data[:length])
            kept = self.open()
            kept.go_on()
            kept.append("> 00")
            kept.close()
            self.assertEqual(Parsed("store", self.path.read_bytes()).lines, [*told[:-1], "> 00"], length)

    def test_what_is_not_taken_is_kept_and_said(self):
        """A bit of the last line that has changed, the last line cut short, garbage after it; each has a file of its own."""
        _, ends = self.begun(3)
        data, path = self.path.read_bytes(), log_of(self)
        flipped = data[:-20] + bytes([data[-20] ^ 1]) + data[-19:]
        for number, bad in enumerate((flipped, data[:-1], data + bytes(99)), 1):
            self.path.write_bytes(bad)
            kept = self.open()
            kept.go_on()
            size = ends[-1] if number == 3 else ends[-2]
            self.assertEqual((kept.size, kept.path.stat().st_size), (size, size))
            kept.close()
            torn = self.folder / ("store.torn" + (f".{number}" if number > 1 else ""))
            self.assertEqual((torn.read_bytes(), torn.stat().st_mode & 0o777), (bad[size:], 0o600))
            self.assertIn(f"bridge: {self.path}: {len(bad) - size} bytes from byte {size} on aren't taken: no good mark is after them. "
                          f"They are kept as {torn}\n", path.read_text())
        before = path.read_text()
        kept = self.open()
        kept.go_on()
        self.assertEqual(path.read_text(), before, "a whole one loses nothing")

    def test_what_cannot_be_kept_stops_the_start(self):
        self.begun(3)
        data = self.path.read_bytes()
        self.path.write_bytes(data[:-1])
        kept = self.open()
        with mock.patch("decnet.journal.os.fsync", side_effect=OSError(28, "No space left on device")):
            with self.assertRaisesRegex(KeptFault, "No space left on device"):
                kept.go_on()
        self.assertEqual(self.path.read_bytes(), data[:-1])
        self.assertEqual([one.name for one in self.folder.iterdir()], ["store"])

    def test_another_file_in_its_place_is_not_written_over(self):
        kept = self.open()
        kept.go_on()
        self.assertIsNone(self.renew(kept))
        self.path.unlink()
        self.assertEqual(str(kept.misplaced()), f"{self.path}: somebody has removed it")
        self.path.write_text("precious")
        self.assertIn("somebody has put another file there, which is left as it is", str(kept.misplaced()))
        self.assertIn("which is left as it is", str(self.renew(kept)))
        self.assertEqual(self.path.read_text(), "precious")
        self.path.unlink()
        self.assertIsNone(self.renew(kept))
        self.assertIsNone(kept.misplaced())
        self.assertEqual(Parsed("store", self.path.read_bytes()).lines[1:], FILES)

    def test_nobody_else_reads_it_and_one_bridge_keeps_it(self):
        kept = self.open()
        self.assertEqual(self.path.stat().st_mode & 0o777, 0o600)
        self.refused("another bridge keeps it")
        self.assertIsNone(self.renew(kept))
        self.refused("another bridge keeps it")
        self.assertEqual(self.path.stat().st_mode & 0o777, 0o600)

    def test_what_is_no_store_is_refused_and_left(self):
        for text in ("anything\n", "# kept by bridge.py\n", "\0", "#store\n#= 0 00000000\n"):
            self.path.write_text(text)
            self.refused("it is no file that --store began")
            self.assertEqual(self.path.read_text(), text)
        self.path.unlink()
        self.path.symlink_to(self.file("other"))
        self.refused("it is a symbolic link, and no plain file")

    def test_another_program_has_the_files_and_not_the_packets(self):
        self.begun(1)
        for other in (f"{'1' * 64} serve", f"{'0' * 64} serve --window 9"):
            self.refused("it has packets that another daplive was told, or this one with other words: 'serve'", program=other)
        kept = self.open()
        kept.go_on()
        self.assertIsNone(self.renew(kept))
        kept.close()
        self.assertEqual(self.open(f"{'1' * 64} serve").parsed.lines[1:], FILES)

    def test_a_line_that_cannot_be_written_leaves_it_as_it_was(self):
        told, _ = self.begun(3)
        kept = self.open()
        kept.go_on()
        pwrite = os.pwrite

        def full(file, data, at):
            if at == kept.size:
                return pwrite(file, data[:7], at)
            raise OSError(28, "No space left on device")

        with mock.patch("decnet.journal.os.pwrite", full):
            with self.assertRaises(OSError):
                kept.append("> 0011")
        self.assertEqual(self.path.stat().st_size, kept.size)
        kept.append("> 22")
        kept.close()
        self.assertEqual(Parsed("store", self.path.read_bytes()).lines, [*told, "> 22"])

    def test_a_renewal_that_fails_leaves_the_old_one_which_goes_on(self):
        told, _ = self.begun(3)
        full = OSError(28, "No space left on device")
        for call in ("os.fsync", "os.replace", "os.fchmod"):
            kept = self.open()
            kept.go_on()
            with mock.patch(f"decnet.locked.{call}", side_effect=full):
                self.assertIn("No space left on device", str(self.renew(kept)))
            told.append("> 33")
            kept.append("> 33")
            kept.close()
            self.assertEqual(Parsed("store", self.path.read_bytes()).lines, told)
            self.assertEqual([one.name for one in self.folder.iterdir()], ["store"])

    def test_only_files_are_in_a_renewal(self):
        told, _ = self.begun(3)
        kept = self.open()
        self.assertIn("answers 'refused no-memory' in place of the files", str(self.renew(kept, [*FILES, "refused no-memory"])))
        self.assertEqual(Parsed("store", self.path.read_bytes()).lines, told)

    def test_marks_say_what_is_on_the_disk(self):
        kept = self.open()
        self.assertIsNone(self.renew(kept))
        sizes = [kept.size]
        for line in ("> 00", "> 11"):
            kept.append(line)
            kept.sync()
            sizes.append(kept.size)
        marks = [line for line in self.path.read_bytes().split(b"\n") if line.startswith(journal.MARK)]
        self.assertEqual([journal.synced_in(mark) for mark in marks], [0, sizes[0], sizes[1]])
        never = Journal(self.folder / "never", "never")
        self.addCleanup(never.close)
        with mock.patch("decnet.journal.os.fdatasync") as sync:
            never.append("> 00")
            never.sync()
        sync.assert_not_called()


class NotesTest(Case):
    NOTE = "#link 1.1 aa0004000104 0a01 0b02 512 none"

    def test_the_link_that_was_left(self):
        lines = ["file 46 seq variable 0 0", "> 11", "#link 1.9 000000000000 0001 0002 64 none", "#other 0001 9 on", "#link -",
                 self.NOTE, "> 60010a020b0580010041", "#other 0a01 1 on", "#other 0a01 2 off", "> 04010a020b0780", "resend"]
        left, = left_links(lines)
        self.assertEqual((left.peer.node, left.peer.station.hex()), (1025, "aa0004000104"))
        self.assertEqual((left.local, left.remote, left.segment), (0x0A01, 0x0B02, 512))
        self.assertEqual((left.taken, left.is_on, left.acknowledged, left.can_go_on), (2, False, 7, True))

    def test_several_links_that_were_left(self):
        """One that was closed isn't; what is reported of one is reported of that one alone."""
        others = ["#link 1.9 000000000000 0a02 0b02 64 segments", "#link 1.8 000000000000 0a03 0b03 64 none"]
        lines = [self.NOTE, *others, "> 04020a020b0780", "> 04010a020b0580", "#other 0a02 9 off", "close 0a03", "ack 0a01"]
        first, second = left_links(lines)
        self.assertEqual((first.local, first.taken, first.is_on, first.acknowledged, first.can_go_on),
                         (0x0A01, 0, True, 5, True))
        self.assertEqual((second.local, second.taken, second.is_on, second.acknowledged, second.can_go_on),
                         (0x0A02, 9, False, 7, False))

    def test_no_link_was_left(self):
        for lines in ([], [self.NOTE, "#link -"], [self.NOTE, "close 0a01"], ["> 00"]):
            self.assertEqual(left_links(lines), [])


class StoredEndTest(JournalCase):
    """What an answer waits for, before a live end that answers what it is told to."""

    def stored(self, answer, sync="answers"):
        end = StoredEnd(self.stand_in(answer), ["serve"])
        self.addCleanup(end.close)
        kept = self.open(sync=sync)
        self.assertIsNone(self.renew(kept))
        store = Store(end, kept, 1 << 30)
        self.addCleanup(store.close)
        return end, store

    def syncs(self, sync):
        """How often the disk is waited for at each of some lines."""
        end, _ = self.stored("return {'> 1': ['accepted', '< 04'], '> 2': ['accepted', '< 60'], '> 3': ['ack-only', '< 00'],"
                             " 'resend': ['< 60'], 'files': [], 'new 1': []}[line]", sync)
        counts = []
        for line in ("new 1", "> 2", "> 3", "resend", "> 1", "resend", "files"):
            with mock.patch("decnet.journal.os.fdatasync") as call:
                end.say(line)
            counts.append(call.call_count)
        return counts

    def test_when_the_disk_is_waited_for(self):
        self.assertEqual(self.syncs("answers"), [0, 1, 0, 0, 0, 1, 0])

    def test_always_and_never(self):
        self.assertEqual(self.syncs("always"), [1, 1, 1, 1, 1, 1, 0])
        self.path.unlink()
        self.assertEqual(self.syncs("never"), [0, 0, 0, 0, 0, 0, 0])

    def test_each_line_is_kept_before_its_answer_goes_on(self):
        end, _ = self.stored("return [line]")
        for line in ("> 00", "new", "resend", "ack"):
            self.assertEqual(end.say(line), [line])
            self.assertEqual(Parsed("store", self.path.read_bytes()).lines[-1], line)
        end.say("files")
        end.remark("link -")
        self.assertEqual(Parsed("store", self.path.read_bytes()).lines[-2:], ["ack", "#link -"])

    def test_what_cannot_be_kept_is_not_answered_until_it_can(self):
        end, store = self.stored("return [f for f in ['file 46 seq variable 0 0'] if line == 'files'] or [line]")
        faults = []
        end.failed = faults.append
        with mock.patch("decnet.journal.os.pwrite", side_effect=OSError(28, "No space left on device")):
            self.assertEqual(end.say("> 00"), [])
        self.assertEqual(end.say("> 11"), [])
        end.remark("link -")
        self.assertEqual(Parsed("store", self.path.read_bytes()).told, [], "what follows a line that isn't there is no good")
        self.assertEqual([str(fault) for fault in faults], [f"{self.path}: No space left on device"])
        store.links_closed(is_last=False)
        self.until_renewed(end, store)
        self.assertEqual((end.say("> 22"), store.fault), (["> 22"], None))
        lines = Parsed("store", self.path.read_bytes()).lines
        self.assertEqual(lines[1:], ["file 46 seq variable 0 0", "> 22"])

    def test_nothing_is_reported_where_the_file_is_gone(self):
        end, store = self.stored("return [line]")
        faults = []
        end.failed = faults.append
        self.assertEqual(end.say("< 60"), ["< 60"])
        self.path.unlink()
        self.assertEqual(end.say("< 60"), [])
        self.assertEqual([str(fault) for fault in faults], [f"{self.path}: somebody has removed it"])
        self.assertEqual(store.look(), faults[0])

    def test_it_is_not_looked_at_while_it_is_written_anew(self):
        """Another file gets its name then, and the old one is closed."""
        end, store = self.stored("return []")
        store.renew()
        self.assertTrue(store.is_busy)
        with mock.patch.object(end.journal, "misplaced", side_effect=AssertionError):
            self.assertIsNone(store.look())
        self.until_renewed(end, store)
        self.path.unlink()
        self.assertEqual(str(store.look()), f"{self.path}: somebody has removed it")

    def until_renewed(self, end, store):
        while store.is_busy:
            if end.is_busy:
                end.turn()
            else:
                store.keeper.look()

    def test_out_of_memory_makes_it_anew(self):
        end, store = self.stored("return ['refused no-memory'] if line[0] == '>' else []")
        store.links_closed(is_last=False)
        self.assertFalse(store.is_busy)
        end.say("> 00")
        store.links_closed(is_last=False)
        self.assertTrue(store.is_busy)
        while end.is_busy:
            end.turn()
