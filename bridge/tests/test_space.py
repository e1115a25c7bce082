"""How much a link may store: what is counted, and what becomes of a link that stores more."""
from decnet import dap, messages, nsp
from decnet.nsp import Kind, Reason
from decnet.space import LISTED, NUMBERED, Space
from tests.datagrams import UdpCase
from tests.station import CONFIGURATION, segment
from tests.support import Case, expect_equal

DATA = b"\x08\0\0A"  # a Data message, which may change a file
ERASE = b"\x03\0\4\0\1F\0\0\0\0"  # an Access that erases one


class CountTest(Case):
    def space(self, sizes, most=1000, **more):
        """Before a live end that lists files of these sizes, one after another."""
        self.sizes = self.folder / "sizes"
        self.sizes.write_text(" ".join(map(str, sizes)))
        end = self.end("serve", program=self.stand_in(
            f"first, *rest = open({str(self.sizes)!r}).read().split()\nopen({str(self.sizes)!r}, 'w').write(' '.join(rest or [first]))\n"
            "return ['x' * (int(first) - 1)]"))
        return Space(end, most, **more), end

    def settle(self, end):
        while end.is_busy:
            end.turn()

    def test_it_counts_where_it_may_be_full(self):
        space, end = self.space([500, 900, 950])
        lines = list(enumerate(["file 46 seq variable 0 0", "  1 41", "> " + "00" * 20]))
        self.assertEqual(list(space.noted(iter(lines))), lines)
        self.assertEqual(space.used, 25 + 7 + LISTED * 21)
        space.take(100)
        self.assertFalse(space.is_counting)
        space.take(100)
        self.assertTrue(space.is_counting)
        space.take(10)
        self.settle(end)
        self.assertEqual((space.used, space.is_full), (500 + 50, False))
        space.take(95)
        self.settle(end)
        self.assertEqual((space.used, space.is_full), (900, False))
        space.take(21)
        self.settle(end)
        self.assertTrue(space.is_full)

    def test_the_name_of_a_version_is_counted(self):
        space, end = self.space([500], has_versions=True)
        list(space.noted([(1, "file 46 seq variable 0 0"), (2, "  1 41"), (3, "> " + "00" * 20)]))
        self.assertEqual(space.used, 25 + NUMBERED + 7 + LISTED * 21)
        before = space.used
        space.take(10)
        self.assertEqual(space.used, before + LISTED * 10 + NUMBERED)
        space.take(200)
        self.settle(end)
        space.take(10)
        self.assertEqual(space.used, 500 + LISTED * 10 + NUMBERED)

    def test_there_is_space_again_where_files_are_gone(self):
        space, end = self.space([990, 300])
        space.take(400)
        self.settle(end)
        self.assertTrue(space.is_full)
        space.link_closed()
        self.settle(end)
        self.assertEqual((space.used, space.is_full), (300, False))

    def test_the_most_that_a_record_can_come_to(self):
        for size in (0, 1, 2, 100):
            listed = len(f"  4294967295 {'00' * size or '-'}\n")
            self.assertLessEqual(listed, LISTED * (3 + size))


    def test_the_most_that_the_line_of_a_file_can_come_to(self):
        """Of Attributes and Access without LENGTH and FAC, as short as they can be."""
        values = {"datatype": 16_383, "rat": 2_097_151, "bls": 65_535, "bks": 255, "bsz": 255, "rfm": 3, "fsz": 255, "org": 16, "mrs": 32_512,
                  "mrn": 2_147_483_647}
        for count in range(len(values) + 1):
            for size in (0, 1, 50):
                fields = dict(list(values.items())[:count])
                kept = messages.attributes(**{name: value for name, value in fields.items() if name not in ("org", "mrs", "mrn")})
                numbers = f"{fields.get('mrs', 0)} {fields.get('mrn', 0)}"
                rest = f" seq variable {numbers}" + (f" kept={kept.hex()}" if len(kept) > 4 else "") + "\n"
                sent = len(messages.attributes(**fields)) - 1 + 5 + size if fields else 5 + size
                line, version = f"file {'00' * size or '-'}{rest}", f"file {'00' * size}{b';32767'.hex()}{rest}"
                self.assertLessEqual(len(line), LISTED * sent, line)
                self.assertLessEqual(len(version), LISTED * sent + NUMBERED, version)

    def test_files_of_the_real_end_take_no_more_than_was_counted(self):
        """Given by lines, and made by segments as short as they can be: of no name, and of two names."""
        for names in ("exact", "folded", "versions"):
            end = self.end("serve", "--names", names)
            space = Space(end, 1 << 30, names == "versions")

            def check(line, answer):
                self.assertEqual(end.say(line)[:1], answer)
                self.assertGreaterEqual(space.used, sum(len(one) + 1 for one in end.say("files")), (names, line))

            for line in ("file 3b3332373636 seq variable 0 0", "  1 -", "file 412e42 seq variable 0 0 kept=0202020802", "  1 41"):
                list(space.noted([(1, line)]))
                check(line, [])
            made = [CONFIGURATION, b"\3\0\2\0\0", b"\7\0\1", b"\3\2\4\2\0\1C\7\2\1\1\3\0\2\0\1D"]
            for number, body in enumerate(made, 1):
                if dap.may_change(body):
                    space.take(len(body))
                check("> " + segment(0x0202, 0x0101, number, body).hex(), ["accepted"])
            self.assertEqual(end.say("files")[-1], f"file {'443b31' if names == 'versions' else '44'} seq variable 0 0")

    def test_attributes_are_counted_and_no_others_that_change_nothing(self):
        kept = messages.attributes(rat=2)
        for body, is_so in ((kept, True), (kept + ERASE, True), (CONFIGURATION, False), (messages.access(1, b"F", 2), False), (b"\2", True)):
            self.assertEqual(dap.may_be_kept(body), is_so, body)


class BridgeTest(UdpCase):
    def test_a_link_that_stores_too_much_is_closed_and_one_that_reads_is_not(self):
        answer = "return ['file 46 seq variable 0 0', '  1 ' + '41' * 600] if line == 'files' else ['accepted'] if line[0] == '>' else []"
        child = self.serve("--space", "1024", program=self.stand_in(answer))
        station = self.station()
        for local in (1, 2):
            station.connect(local)
            station.say(segment(station.remote, station.local, 1, CONFIGURATION))
            for number in range(2, 80):
                station.say(segment(station.remote, station.local, number, DATA))
                if station.hear(0.02):
                    break
            expect_equal(number < 79, True, "the link is closed")
            station.say(nsp.disconnect_confirm(station.remote, station.local, Reason.COMPLETE))
            station.hear_all()
        child.wait_for("the files have 1230 bytes, and --space allows 1024: nothing more is stored")
        child.wait_for("the files have as many bytes as --space allows")
        station.connect(3)
        for number in range(1, 50):
            station.say(segment(station.remote, station.local, number, CONFIGURATION))
        station.say(segment(station.remote, station.local, 50, ERASE))
        station.hear_nothing({Kind.DISCONNECT}, "where nothing is stored, or a file is erased")
        station.disconnect()
        self.stop(child)

    def test_attributes_that_come_alone_are_counted_and_close_no_link(self):
        answer = "return ['file 46 seq variable 0 0', '  1 ' + '41' * 600] if line == 'files' else ['accepted'] if line[0] == '>' else []"
        child = self.serve("--space", "1024", program=self.stand_in(answer))
        station = self.station()
        station.connect(1)
        kept = messages.attributes(rat=2)
        for number in range(1, 50):
            station.say(segment(station.remote, station.local, number, kept))
        child.wait_for("the files have 1230 bytes, and --space allows 1024: nothing more is stored")
        station.hear_nothing({Kind.DISCONNECT}, "where Attributes come, as before an open")
        station.disconnect()
        self.stop(child)
