"""Files of this host as records of another, and back: lines, lines with numbers, and records of one length."""

RECORD_LIMIT = 32_767  # bytes of a record
MAX_NUMBER = 2_147_483_647  # of a record
TAB = b"\t"


class TextFault(Exception):
    """A file of this host can't be records, or can't be read or written."""


def lines_of(data):
    """The lines of a text without their ends, LF or CR LF; the last one may have none."""
    lines = data.split(b"\n")
    if not lines[-1]:
        lines.pop()
    return [line.removesuffix(b"\r") for line in lines]


def counted(count, what):
    return f"{count} {what}" + ("" if count == 1 else "s")


def changes_of(data):
    """What of a file doesn't come back as it is where it is stored as lines, in words."""
    ends, nuls = data.count(b"\r\n") + data.endswith(b"\r"), data.count(b"\0")
    found = [f"{counted(ends, 'CR')} at the end of a line left out"] if ends else []
    if data and not data.endswith(b"\n"):
        found.append("an LF added at the end")
    if nuls:
        found.append(f"{counted(nuls, 'NUL byte')}, which a text has none of")
    return found


def padding_of(data, size):
    """What of a file doesn't come back as it is where it is stored as records of one length, in words."""
    zeros = -len(data) % size
    if not zeros:
        return []
    fitting = next(length for length in range(size, 0, -1) if len(data) % length == 0)
    return [f"{counted(zeros, 'zero byte')} added to the last record; --fixed {fitting} adds none"]


def records_of(data):
    """A record for each line."""
    records = lines_of(data)
    for number, record in enumerate(records, 1):
        if len(record) > RECORD_LIMIT:
            raise TextFault(f"line {number} has more than {RECORD_LIMIT} bytes")
    return records


def numbered_of(data):
    """A number and a record for each line `N<TAB>TEXT`."""
    found = []
    for at, line in enumerate(records_of(data), 1):
        number, tab, record = line.partition(TAB)
        if not (tab and number.isdigit() and len(number) <= 10 and 1 <= int(number) <= MAX_NUMBER):
            raise TextFault(f"line {at} doesn't begin with a number and a tab")
        found.append((int(number), record))
    return found


def pieces_of(data, size):
    """Records of one length; the last one is filled with zeros."""
    return [data[at:at + size].ljust(size, b"\0") for at in range(0, len(data), size)]


class Text:
    """Records as they are written into a file of this host: as lines, as lines with their numbers, or by themselves."""

    LINES, NUMBERED, BARE = range(3)

    def __init__(self, write, form=None, has_ends=False):
        """Without a form, a relative file has its numbers; and records of one length have no ends, unless it `has_ends`."""
        self.write, self.form, self.has_ends, self.count, self.split = write, form, has_ends, 0, 0

    def opened(self, is_relative, is_fixed):
        if self.form is None:
            self.form = self.NUMBERED if is_relative else self.BARE if is_fixed and not self.has_ends else self.LINES

    def record(self, number, body):
        self.count += 1
        if self.form == self.BARE:
            self.write(body)
            return
        self.split += b"\n" in body
        self.write((b"%d\t" % number if self.form == self.NUMBERED else b"") + body + b"\n")
