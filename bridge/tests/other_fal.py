"""A file access listener that isn't the proved one, for tests of a probe: it takes the lines of `daplive serve`, and answers
in the manner of RMS as far as that is remembered.

It is written apart from the proved end, and answers otherwise on purpose: codes of RMS, names without regard to case and
with versions, more attributes and a Name message, Data without LENGTH, and one DAP message in an NSP message.
"""
import re
import struct
import sys

from decnet import messages as dap
from decnet.messages import Access, Complete, Control, Rac
from decnet.nsp import image
from decnet.raw import RawEnd
from decnet.rights import FAC

NAME = 15  # the type of a Name message
CAPABILITIES = (0, 1, 2, 5, 6, 7, 8, 10, 11, 12, 13, 16, 18, 19, 20, 21, 22, 23, 24, 25, 26, 27, 33, 35, 37, 38, 40, 42)
NOT_FOUND, EXISTS, END, NO_RECORD, THERE, PLACE, CURRENT, NUMBER, RIGHT = (
    0o62, 0o55, 0o47, 0o140, 0o133, 0o127, 0o31, 0o111, 0o54)
DONE = 0o225
FIELDS = ["datatype", "org", "rfm", "rat", "bls", "mrs", "alq", "bks", "fsz", "mrn"]
FORMS = {"org": "b", "rfm": "b", "bls": "w", "mrs": "w", "bks": "b", "fsz": "b", "alq": "i", "mrn": "i"}
# what is said of each file besides: block size, allocation, device and the like
MORE = bytes.fromhex("0200020103")


def take_number(body, at):
    """An extensible field, and the offset after it."""
    value = shift = 0
    while True:
        byte, at = body[at], at + 1
        value, shift = value | (byte & 0x7F) << shift, shift + 7
        if byte < 0x80:
            return value, at


def take_image(body, at):
    return body[at + 1:at + 1 + body[at]], at + 1 + body[at]


def split(body):
    """The type and operand of each message; what can't be read is of no type."""
    at = 0
    while at < len(body):
        try:
            kind, (flags, at) = body[at], take_number(body, at + 1)
            if not 1 <= kind <= 16 or flags & ~7:
                raise IndexError
            length = len(body) - at
            if flags & 2:
                length, at = body[at], at + 1
                if flags & 4:
                    length, at = length | body[at] << 8, at + 1
            if at + length > len(body):
                raise IndexError
        except IndexError:
            yield None, body[at:]
            return
        yield kind, body[at:at + length]
        at += length


def read_attributes(body):
    found, (menu, at) = {}, take_number(body, 0)
    for bit, name in enumerate(FIELDS):
        if menu >> bit & 1:
            form = FORMS.get(name)
            if form == "b":
                found[name], at = body[at], at + 1
            elif form == "w":
                found[name], at = body[at] | body[at + 1] << 8, at + 2
            elif form == "i":
                found[name], at = take_image(body, at)
            else:
                found[name], at = take_number(body, at)
    return found


def status(macro, micro, rfa=b"", recnum=b""):
    return dap.message(dap.STATUS, struct.pack("<H", macro << 12 | micro) + image(rfa) + image(recnum) + image(b""))


class Listener:
    """Holds files, and answers DAP messages."""

    def __init__(self):
        self.files = {}
        self.begin()

    def begin(self):
        """A new link."""
        self.state, self.shape, self.file, self.fac = "fresh", {}, None, 0
        self.pending, self.is_storing, self.is_new = None, False, False
        self.next, self.current = 1, None

    def serve(self, body):
        out = []
        for kind, operand in split(body):
            try:
                out += self.answer(kind, operand)
            except IndexError:
                out.append(status(8, 0))
        return out

    def answer(self, kind, body):
        if kind is None:
            return [status(8, 0o20)]
        if kind == dap.CONFIG:
            self.state = "ready"
            syscap = sum(1 << bit for bit in CAPABILITIES)
            return [dap.config(4156, 7, 3, (7, 2, 0, 0x73, 0), syscap, has_length=False)]
        if self.state == "fresh":
            return [status(10, kind)]
        if kind > dap.STATUS:
            return []
        if kind == dap.ATTRIBUTES and self.state == "ready":
            self.shape = read_attributes(body)
            return []
        if kind == dap.ACCESS and self.state == "ready":
            return self.access(body)
        if kind == dap.COMPLETE and self.state != "ready":
            return self.complete(body)
        if kind == dap.CONTROL and self.state != "ready":
            return self.control(body)
        if kind == dap.DATA and (self.pending or self.is_storing):
            return self.put(body[take_image(body, 0)[1]:])
        return [status(10, kind)]

    def access(self, body):
        function, (_, at) = body[0], take_number(body, 1)
        name, at = take_image(body, at)
        self.fac = take_number(body, at)[0] if at < len(body) else FAC["get"]
        name = re.sub(rb"^.*[:\]]|;.*$", b"", name).upper()
        if function == Access.ERASE:
            return [dap.message(dap.COMPLETE, bytes([Complete.RESPONSE]))] if self.files.pop(name, None) else [status(4, NOT_FOUND)]
        if function == Access.OPEN and name not in self.files:
            return [status(4, NOT_FOUND)]
        if function not in (Access.OPEN, Access.CREATE):
            return [status(2, 0o60)]
        self.is_new = function == Access.CREATE
        if self.is_new:
            self.files[name] = {"shape": {"org": 0, "rfm": 2, "mrs": 0, **self.shape}, "records": {}}
        self.name, self.file, self.state = name, self.files[name], "open"
        return [self.attributes(), dap.message(NAME, bytes([1]) + image(b"DISK:[PROBE]" + name + b";1")), dap.message(dap.ACK, b"")]

    def attributes(self):
        shape = {name: value for name, value in self.file["shape"].items() if name != "fsz"}
        if "mrn" in shape:
            shape["mrn"] = int.from_bytes(shape["mrn"], "little")
        return dap.attributes(**{**shape, "rat": 2})

    def complete(self, body):
        if body[0] == Complete.END_OF_STREAM:
            self.is_storing, self.state = False, "open"
        elif body[0] in (Complete.CLOSE, Complete.PURGE):
            if body[0] == Complete.PURGE and self.is_new:
                self.files.pop(self.name)
            self.state, self.is_storing, self.shape = "ready", False, {}
        else:
            return [status(2, 0o100)]
        return [dap.message(dap.COMPLETE, bytes([Complete.RESPONSE]))]

    def control(self, body):
        function, menu, at, rac, key = body[0], 0, 1, 0, b""
        if len(body) > 1:
            menu, at = take_number(body, 1)
        if menu & 1:
            rac, at = body[at], at + 1
        if menu & 2:
            key, at = take_image(body, at)
        if function == Control.CONNECT:
            self.state, self.next = "connected", 1
            return [dap.message(dap.ACK, b"")]
        if self.state != "connected":
            return [status(10, dap.CONTROL)]
        return self.operate(function, rac, int.from_bytes(key, "little"))

    def operate(self, function, rac, number):
        records = self.file["records"]
        if function == Control.GET and rac == Rac.WHOLE:
            out = [self.record(one) for one in sorted(records) if one >= self.next]
            self.next = max(records, default=0) + 1
            return [*out, status(5, END)]
        if function in (Control.GET, Control.FIND):
            return self.get(function, rac, number)
        if function in (Control.PUT, Control.UPDATE):
            self.is_storing = function == Control.PUT and rac == Rac.WHOLE
            self.pending = -2 if function == Control.UPDATE else None if self.is_storing else number if rac == Rac.KEY else -1
            return []
        if function == Control.DELETE:
            if self.current not in records:
                return [status(5, CURRENT)]
            del records[self.current]
            return [status(1, DONE)]
        if function == Control.REWIND:
            self.next = 1
            return [status(1, DONE)]
        return [status(2, 0o120)]

    def get(self, function, rac, number):
        records = self.file["records"]
        if rac == Rac.KEY and self.file["shape"]["org"] == 0:
            return [status(5, PLACE)]
        found = number if rac == Rac.KEY else min((one for one in records if one >= self.next), default=None)
        if found is None or found not in records:
            return [status(5, NO_RECORD if rac else END)]
        self.current, self.next = found, found + 1
        return [self.record(found) if function == Control.GET else status(1, DONE)]

    def record(self, number):
        recnum = dap.number(number) if self.file["shape"]["org"] else b""
        return dap.message(dap.DATA, image(recnum) + self.file["records"][number], has_length=False)

    def put(self, body):
        records, pending, self.pending = self.file["records"], self.pending, None
        if pending == -2:
            records[self.current] = body
            return [status(1, DONE, dap.number(self.current))]
        if not self.fac & FAC["put"]:
            return [status(5, RIGHT)]
        number = pending if pending and pending > 0 else max(records, default=0) + 1
        limit = int.from_bytes(self.file["shape"].get("mrn", b""), "little")
        if limit and number > limit:
            return [status(5, NUMBER)]
        if number in records:
            return [status(5, THERE)]
        records[number] = body
        return [] if self.is_storing else [status(1, DONE, dap.number(number), dap.number(number))]


def main():
    raw, listener = RawEnd(), Listener()
    for line in sys.stdin:
        line, answer = line.rstrip("\r\n"), []
        word, *rest = line.split(" ")
        if word == "new" and rest:
            raw.answer(line)
            listener.begin()
        elif word in (">", "resend", "ack"):
            answer = raw.answer(line)
            for body in raw.take_inbox():
                for one in listener.serve(body):
                    answer += raw.say(one)
        elif word not in ("new", "files", "file", "", "#"):
            answer = ["refused bad-line"]
        print(*answer, f"waits {raw.waits}", sep="\n", flush=True)


if __name__ == "__main__":
    main()
