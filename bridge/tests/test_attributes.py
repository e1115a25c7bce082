"""The fields of Attributes: what is written is read back, and what is cut or too long is none. The table is made of the specs."""
import pathlib
import shutil
import subprocess
import sys

from decnet import dap, messages, tables
from tests.support import BRIDGE, Case

ROOT = BRIDGE.parent.parent
# each field by its bit, with its bytes, as DAP 5.6.0 has them
FIELDS = [("datatype", "ff7f", 16_383), ("org", "10", 16), ("rfm", "03", 3), ("rat", "808001", 16_384), ("bls", "0002", 512),
          ("mrs", "ff7f", 32_767), ("alq", "0107", b"\7"), ("bks", "ff", 255), ("fsz", "02", 2), ("mrn", "0409000000", b"\t\0\0\0"),
          ("runsys", "024142", b"AB"), ("deq", "0100", 1), ("fop", "80808001", 1 << 21), ("bsz", "08", 8), ("dev", "01", 1), ("sdc", "02", 2),
          ("lrl", "2000", 32), ("hbk", "00", b""), ("ebk", "050102030405", b"\1\2\3\4\5"), ("ffb", "ff01", 511), ("sbn", "0101", b"\1")]


class AttributesTest(Case):
    def test_each_field_by_itself_and_all_together(self):
        for bit, (name, data, value) in enumerate(FIELDS):
            operand = messages.extensible(1 << bit) + bytes.fromhex(data)
            self.assertEqual(dap.read_attributes(operand), {name: value})
            self.assertEqual(messages.attributes(**{name: value})[3:], operand, name)
        every = {name: value for name, _, value in FIELDS}
        operand = bytes.fromhex("ffff7f" + "".join(data for _, data, _ in FIELDS))
        self.assertEqual((dap.read_attributes(operand), messages.attributes(**every)), (every, bytes([2, 2, len(operand)]) + operand))
        self.assertEqual((dap.read_attributes(b""), dap.read_attributes(operand + b"more")), ({}, every))

    def test_what_is_cut_or_too_long_is_not_read(self):
        whole = bytes.fromhex("ffff7f" + "".join(data for _, data, _ in FIELDS))
        for size in range(1, len(whole)):
            with self.assertRaises(dap.Unread, msg=size):
                dap.read_attributes(whole[:size])
        for operand in ("80808001", "01808001", "0880808001", "4006010203040506", "808080808080"):
            with self.assertRaises(dap.Unread, msg=operand):
                dap.read_attributes(bytes.fromhex(operand))

    def test_a_number_in_an_image_has_four_bytes(self):
        self.assertEqual(messages.attributes(mrn=9).hex(), "02020780040409000000")


class TablesTest(Case):
    FILES = ("tools/tables", "crates/dap_meanings/specs/Tables.antt", "crates/link_words/specs/Tables.antt",
             "crates/dap_msg/specs/Codes.antt", "crates/dap_msg/specs/Formats.antt", "tools/wireshark/dap.lua", "bridge/decnet/tables.py")

    def tables(self, path, before, after):
        """What tools/tables says of a copy of its files in which one is altered."""
        for name in self.FILES:
            (self.folder / name).parent.mkdir(parents=True, exist_ok=True)
            shutil.copy(ROOT / name, self.folder / name)
        for name in ("__init__.py", "program.py"):
            pathlib.Path(self.folder / "tools/decnet").mkdir(exist_ok=True)
            shutil.copy(ROOT / "bridge/decnet" / name, self.folder / "tools/decnet" / name)
        text = (self.folder / path).read_text()
        self.assertIn(before, text)
        (self.folder / path).write_text(text.replace(before, after))
        done = subprocess.run([sys.executable, self.folder / "tools/tables"], capture_output=True, text=True, check=False)
        return done.returncode, done.stderr

    def test_a_field_that_the_specs_have_otherwise_is_found(self):
        formats, table = "crates/dap_msg/specs/Formats.antt", "bridge/decnet/tables.py"
        self.assertEqual(self.tables(formats, "fsz = ", "fsz = "), (0, ""))
        other = (1, f"tools/tables: {table} has other words or fields than the specs: tools/tables --write\n")
        for path, before, after in ((table, '"rat": ("extensible", 3)', '"rat": ("extensible", 2)'), (formats, "menu 6 21", "menu 5 21"),
                                    (formats, "optional_part bits 3 (Extensible 3)", "optional_part bits 3 (Extensible 4)"),
                                    (formats, "fsz = (← optional_part bits 8 Byte)", "fsz = (← optional_part bits 8 Word)"),
                                    (table, '1: "CR"', '0: "CR"'),
                                    ("crates/link_words/specs/Tables.antt", '(6, codes "busy")', '(7, codes "busy")')):
            self.assertEqual(self.tables(path, before, after), other, after)
        for before, after in (("menu 6 21", "menu 6 22"), ("bits 8 Byte", "bits 9 Byte"), ("bits 8 Byte", "bits 8 Long")):
            status, said = self.tables(formats, before, after)
            self.assertEqual((status, "isn't a field for each bit of a menu" in said), (1, True), said)

    def test_numbers_are_those_of_dap(self):
        self.assertEqual((tables.ATTRIBUTES_MENU, list(tables.ATTRIBUTES)), (6, [name for name, _, _ in FIELDS]))
