"""DAP messages: a line of the listing, and the same in words."""
import re

from decnet.rights import FAC
from decnet.tables import ACCFUNC, CMPFUNC, CONFUNC, CTLFUNC, MACCODE, ORG, OSTYPE, RAC, REASON, RFM, STSCODE


def number_of(words, wanted):
    """The number that has a word."""
    return next(number for number, word in words.items() if word == wanted)


OPEN, CLOSE, PURGE = number_of(ACCFUNC, "open"), number_of(CMPFUNC, "close"), number_of(CMPFUNC, "purge")
GET, CONNECT, UPDATE, PUT, DELETE, REWIND = (number_of(CTLFUNC, word) for word in "get connect update put delete rewind".split())
NEXT_RECORD = number_of(RAC, "sequential")
END_OF_FILE = number_of(STSCODE, "end of file")
SUCCESS, UNSUPPORTED, OPENING, TRANSFER, FORMAT, INVALID, SEQUENCE = (number_of(MACCODE, word) for word in (
    "success", "unsupported", "error on opening", "transfer error", "format", "invalid", "out of synchronization"))
NAMES = {1: "Configuration", 2: "Attributes", 3: "Access", 4: "Control", 5: "Continue Transfer", 6: "Acknowledge",
         7: "Access Complete", 8: "Data", 9: "Status", 10: "Key Definition", 11: "Allocation", 12: "Summary",
         13: "Date and Time", 14: "Protection", 15: "Name", 16: "Access Control List"}
PREVIEW = 46  # characters of a record
PRINTABLE = 0.85  # the share of a text's bytes that are printable
MAX_NUMBER = 8  # bytes of a number
BODY = re.compile(r"(?<=body=)[0-9a-f]+")


class BadLine(Exception):
    """A line that isn't in any listing."""


def counted(count, one):
    return f"{count:,} {one}{'' if count == 1 else 's'}"


def shortened(text, most):
    return text if len(text) <= most else text[:most - 1] + "…"


def as_text(data):
    """Bytes in quotation marks where most are printable, else in hex."""
    if sum(32 <= byte < 127 for byte in data) >= PRINTABLE * len(data):
        return "“" + "".join(chr(byte) if 32 <= byte < 127 else "·" for byte in data) + "”"
    return data.hex()


class Message:
    """A message: its line, its word and fields, what is said of it (`name`, `detail`), and the `kind` that gives its color."""

    def __init__(self, line):
        self.line = line
        self.word, *self.words = line.split()
        self.fields = dict(word.split("=", 1) for word in self.words if "=" in word)
        self.kind, self.name, self.detail, self.preview = self.word, self.word.capitalize(), "", ""
        self.is_refusal = False
        describe = DESCRIBE.get(self.word)
        try:
            describe(self)
        except (KeyError, ValueError, IndexError, TypeError) as fault:
            raise BadLine(line) from fault

    def number(self, name):
        return int(self.fields.get(name, "0"))

    def image(self, name):
        text = self.fields.get(name, "-")
        return b"" if text == "-" else bytes.fromhex(text)

    def image_number(self, name):
        """An image as a number; None where it is empty, or too long for one."""
        image = self.image(name)
        return int.from_bytes(image, "little") if 0 < len(image) <= MAX_NUMBER else None

    def word_of(self, words, name):
        """A field in words; else its name and its number."""
        return words.get(self.number(name), f"{name.upper()} {self.fields[name]}")

    def without_contents(self):
        """The line without the bytes of a record."""
        return BODY.sub(lambda found: f"({counted(len(found[0]) // 2, 'byte')})", self.line)


def describe_config(one):
    version = ".".join(one.fields["version"].split(".")[:3])
    one.name = "Configuration"
    one.detail = f"{one.word_of(OSTYPE, 'ostype')}, buffer {one.number('bufsiz')}, DAP {version}"


def describe_attributes(one):
    parts = [one.word_of(words, name) for name, words in (("org", ORG), ("rfm", RFM)) if name in one.fields]
    if one.number("mrs"):
        parts.append(f"records of {one.number('mrs')}")
    if one.image_number("mrn"):
        parts.append(f"at most {one.image_number('mrn')}")
    one.detail = ", ".join(parts)


def describe_access(one):
    one.file = as_text(one.image("name"))
    one.rights = " ".join(word.upper() for word, bit in FAC.items() if one.number("fac") & bit)
    one.action = ACCFUNC.get(one.number("func"), f"ACCFUNC {one.fields['func']}")
    one.detail = f"{one.action} {one.file}" + (f" for {one.rights}" if one.rights else "")


def describe_control(one):
    function = one.number("func")
    parts = [CTLFUNC[function].upper() if function in CTLFUNC else f"CTLFUNC {function}"]
    if one.number("rac") != NEXT_RECORD and function not in (CONNECT, DELETE, REWIND):
        parts.append(one.word_of(RAC, "rac"))
    if "key" in one.fields:
        key = one.image_number("key")
        parts.append(one.fields["key"] if key is None else str(key))
    one.detail = " ".join(part for part in parts if part)


def describe_continue(one):
    one.name, one.detail = "Continue Transfer", CONFUNC.get(one.number("func"), f"CONFUNC {one.fields['func']}")


def describe_ack(one):
    one.kind, one.name = "dapack", "Acknowledge"


def describe_complete(one):
    one.name, one.detail = "Access Complete", CMPFUNC.get(one.number("func"), f"CMPFUNC {one.fields['func']}")


def describe_data(one):
    one.body, record = one.image("body"), one.image_number("recnum")
    one.detail = (f"record {record}, " if record is not None else "") + counted(len(one.body), "byte")
    if one.body:
        text = as_text(one.body[:PREVIEW])
        is_whole = len(one.body) <= PREVIEW and len(text) <= PREVIEW + len("“”")
        one.preview = text if is_whole else text.rstrip("”")[:PREVIEW] + "…"


def describe_status(one):
    code, record = int(one.words[0], 16), one.image_number("recnum")
    one.is_refusal = code >> 12 != SUCCESS and code != END_OF_FILE
    one.text = status_text(code, one.image("stv"))
    one.detail = f"{one.words[0]} {one.text}" + (f", record {record}" if record is not None else "")
    if one.is_refusal:
        one.kind = "refusal"


def status_text(code, stv):
    """A status in words."""
    major, minor = code >> 12, code & 0xFFF
    text = STSCODE.get(code, MACCODE.get(major, f"MACCODE {major}"))
    if code not in STSCODE:
        if major in (OPENING, TRANSFER) and not minor and len(stv) == 1:
            text += f": {REASON.get(stv[0], f'reason {stv[0]}')}"
        elif major == SEQUENCE:
            text += f" at {NAMES.get(minor, f'type {minor}')}"
        elif major in (UNSUPPORTED, FORMAT, INVALID):
            text += f": {NAMES.get(minor >> 6, f'type {minor >> 6}')}" + (f" field {minor & 63}" if minor & 63 else "")
    return text


def describe_other(one):
    one.name, one.detail = NAMES[one.number("type")], counted(len(one.image("body")), "byte")


def describe_bad(one):
    one.name, one.detail = "Malformed", f"{one.words[0]}, type {one.fields['type']}, at byte {one.fields['at']}"


DESCRIBE = {"config": describe_config, "attributes": describe_attributes, "access": describe_access,
            "control": describe_control, "continue": describe_continue, "ack": describe_ack, "complete": describe_complete,
            "data": describe_data, "status": describe_status, "other": describe_other, "bad": describe_bad}
