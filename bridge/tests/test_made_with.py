"""What a file was made with, besides its shape: it is kept with the file, over each way to keep files, and given back at an open."""
from decnet import dap, messages, nsp
from decnet.messages import Access, Complete, Control, Rac
from decnet.rights import ALL, FAC, fac_of
from tests.datagrams import UdpCase
from tests.station import CONFIGURATION, segment
from tests.support import Case, file_lines


# what a VMS COPY of a text may say of it, and what comes back at an open
TEXT = {"datatype": 2, "org": 0, "rfm": 2, "rat": 2, "bls": 512, "mrs": 0, "bks": 0, "bsz": 8}
TEXT_LINE = "file 46 seq variable 0 0 kept=0202089941020200020008"
VFC = {"rfm": 3, "rat": 4, "mrs": 80, "fsz": 2}
VFC_LINE = "file 46 seq variable 80 0 kept=0202058c02030402"
PLAIN = {"org": 0, "rfm": 2, "mrs": 0, "mrn": bytes(4)}
# what is kept with a file of variable records alone, and of fixed ones too
GOOD = {"variable": ["0202058c02030402", "0202058c02030401", "0202020400", "0202020404", "0202020405", "0202020406"],
        "either": ["0202020802", "0202020800", "02020408ffff7f", "02020301ff7f", "0202031002ff", "020203800110", "020203804008"]}
BAD = {
    "no digits": ["", "-", "0", "020202080", "02020208zz"],
    "no message": ["02", "0202", "02020308", "020202", "0202020802ff", "02020208020202020802", "ff02020802"],
    "another message": ["0302020802", "0802020802", "06"],
    "not canonical": ["02000802", "020602000802", "020103000802", "020203880002", "020203088200", "020200", "0200"],
    "more than a file keeps": ["0202020200", "020203200300", "020203400101", "020203802001", "020203040000"],
    "a format that there isn't, or that the line says": ["0202020401", "0202020402", "0202020407", "02020204ff"],
    "FSZ without RFM 3, or RFM 3 without it, or 0": ["020203800202", "02020484020402", "0202020403", "02020484020300"],
}


class LineTest(Case):
    """A line of a file with `kept=HEX`, told to the proved end."""

    def setUp(self):
        super().setUp()
        self.serving = self.end("serve", told=lambda line: None)

    def test_what_is_kept_is_printed_as_it_was_read(self):
        for form, some in GOOD.items():
            for kept in some:
                for number, (org, said) in enumerate((org, said) for org in ("seq", "rel") for said in ("variable", "fixed")):
                    line = f"file {number:02x} {org} {said} 9 0 kept={kept}"
                    found = self.serving.say(line)
                    is_good = form in ("either", said)
                    self.assertEqual(found, [] if is_good else ["refused bad-line"], line)
                    if is_good:
                        self.assertEqual(self.serving.say("files"), [line])
                        self.assertEqual(self.serving.say(f"drop {number:02x}"), [])

    def test_capitals_are_small_letters(self):
        self.assertEqual(self.serving.say("file 46 seq variable 0 0 kept=0202058C02030402"), [])
        self.assertEqual(self.serving.say("files"), ["file 46 seq variable 0 0 kept=0202058c02030402"])

    def test_each_kind_of_bad_line(self):
        for kind, some in BAD.items():
            for kept in some:
                self.assertEqual(self.serving.say(f"file 46 seq variable 0 0 kept={kept}"), ["refused bad-line"], f"{kind}: {kept}")
        for end in (" KEPT=0202020802", " kept=0202020802 ", " kept=0202020802 kept=0202020802", "  kept=0202020802", " 0202020802", " kept"):
            self.assertEqual(self.serving.say(f"file 46 seq variable 0 0{end}"), ["refused bad-line"], end)
        self.assertEqual(self.serving.say("files"), [])

    def test_the_fixed_part_in_front_counts_for_the_longest_record(self):
        self.assertEqual(self.serving.say("file 46 seq variable 32766 0 kept=0202058c02030402"), ["refused 4000 11"])
        self.assertEqual(self.serving.say("file 46 seq variable 3 0 kept=0202058c02030402"), [])
        self.assertEqual(self.serving.say("  1 " + 6 * "41"), ["refused 5000 7"])
        self.assertEqual(self.serving.say("  1 " + 5 * "41"), [])


class WireTest(UdpCase):
    """Over the wire, by messages that no client of this repository sends."""

    local = 0  # of the last link

    def talk(self, *bodies):
        """What a link is answered that says hello, and then these messages, one after another."""
        station = self.station()
        self.local += 1
        station.connect(self.local)
        answers = []
        for number, body in enumerate((CONFIGURATION, *bodies), 1):
            station.say(segment(station.remote, station.local, number, body))
            answers.append(station.hear_kind_of(nsp.SEGMENTS, number).body)
            station.acknowledge(number)
        station.disconnect()
        station.close()
        return answers[1:]

    def make(self, *records, name=b"F", **attributes):
        """A file is made so, with these records, and closed."""
        puts = [messages.control(Control.PUT, Rac.NEXT) + messages.data(one) for one in records]
        create = messages.attributes(**attributes) + messages.access(Access.CREATE, name, fac_of(ALL))
        first, *_, last = self.talk(create, messages.control(Control.CONNECT), *puts, messages.complete(Complete.CLOSE))
        self.assertEqual(last, messages.complete(Complete.RESPONSE))
        return self.fields(first)

    def open(self, name=b"F"):
        """The fields of the Attributes with which an open is answered."""
        opening = messages.attributes() + messages.access(Access.OPEN, name, FAC["get"])
        return self.fields(self.talk(opening)[0])

    def fields(self, answer):
        (kind, operand), (ack, _) = dap.messages(answer)
        self.assertEqual((kind, ack), (messages.ATTRIBUTES, messages.ACK), answer)
        return dap.read_attributes(operand)

    def ways(self):
        """Each way to keep files: its words at first, and at the next start."""
        store, saved, folder, versions = (self.folder / name for name in ("store", "saved", "served", "versions"))
        folder.mkdir()
        versions.mkdir()
        yield ["--store", store], ["--store", store]
        yield ["--save", saved], ["--files", saved, "--save", saved]
        yield ["--folder", folder], ["--folder", folder]
        yield 2 * [["--folder", versions, "--names", "versions"]]

    def test_a_file_comes_back_as_it_was_made_after_a_stop_and_a_start(self):
        for first, then in self.ways():
            server = self.serve(*first)
            for name, attributes in ((b"F", TEXT), (b"V", VFC), (b"P", {})):
                self.assertEqual(self.make(b"one", name=name, **attributes), {**PLAIN, **attributes}, (first, name))
            self.stop(server)
            server = self.serve(*then)
            for name, attributes in ((b"F", TEXT), (b"V", VFC), (b"P", {})):
                self.assertEqual(self.open(name), {**PLAIN, **attributes}, (then, name))
            self.stop(server)

    def test_the_lines_of_a_saved_file(self):
        saved = self.folder / "saved"
        for attributes, line in ((TEXT, TEXT_LINE), (VFC, VFC_LINE), ({}, "file 46 seq variable 0 0")):
            server = self.serve("--save", saved)
            self.make(b"one", **attributes)
            self.stop(server)
            self.assertEqual(file_lines(saved), [line, "  1 6f6e65"])
            saved.unlink()

    def test_a_text_of_a_link_is_one_of_the_host_and_what_is_none_is_told(self):
        served = self.folder / "served"
        served.mkdir()
        (served / "HOST").write_text("of the host\n")
        server = self.serve("--folder", served)
        self.assertEqual(self.open(b"HOST"), {**PLAIN, "rat": 2})
        self.make(b"one", b"two", **TEXT)
        for name, attributes in ((b"FTN", {"rat": 1}), (b"PRN", {"rat": 4}), (b"VFC", VFC)):
            self.make(b"one", name=name, **attributes)
        found = {one.name: one.read_bytes() for one in served.iterdir() if not one.name.startswith(".")}
        self.assertEqual(found, {"HOST": b"of the host\n", "F": b"one\ntwo\n"})
        for name, why in (("FTN", " (RAT FTN)"), ("PRN", " (RAT PRN)"), ("VFC", "")):
            server.wait_for(f"/{name}: its records aren't the lines of a text{why}: it is kept in .daplive")
        (served / "F").write_text("edited\n")
        self.assertEqual(self.open(), {**PLAIN, "rat": 2})
        self.stop(server)
