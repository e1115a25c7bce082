"""The conversations of a probe: small ones, each over a link of its own, that say what a file access listener may be said."""
from dataclasses import dataclass

from decnet import messages as dap
from decnet.messages import Access, Complete, Control, Rac
from decnet.rights import ALL, fac_of

PIECES, SINGLE = 5, 1  # bytes of a segment where messages are cut into many
SMALL_BUFFER = 64
END_OF_FILE = 1  # ROP: records are put after the last one
BY_BLOCKS = 32  # the bit of FAC for blocks, which no user is given


@dataclass(frozen=True)
class Step:
    """What is said at once: NSP messages, in segments of `cut` bytes where that is given."""

    label: str
    bodies: tuple
    cut: int = None


@dataclass(frozen=True)
class Talk:
    """A conversation."""

    name: str
    steps: tuple


def step(label, *parts, cut=None):
    """A step of one NSP message, of DAP messages one after the other."""
    return Step(label, (b"".join(parts),), cut)


HELLO = step("config", dap.config())
CONNECT = step("connect", dap.control(Control.CONNECT))
CLOSE = step("close", dap.complete(Complete.CLOSE))
REWIND = step("rewind", dap.control(Control.REWIND))
FETCH = step("fetch", dap.control(Control.GET, Rac.WHOLE))
PURGE = step("purge", dap.complete(Complete.PURGE))
RECORDS = (b"first", b"", b"third record")
SEQUENTIAL = {"org": 0, "rfm": 2, "mrs": 0, "mrn": 0}
RELATIVE = {"org": 16, "rfm": 2, "mrs": 0, "mrn": 9}
FORMATS = {"RFM undefined": 0, "RFM fixed, MRS 0": 1, "RFM VFC": 3, "RFM stream": 4}
FUNCTIONS = {"rename": Access.RENAME, "erase": Access.ERASE, "directory": Access.DIRECTORY, "of no function": Access.NONE}


class Names:
    """Names of files, none of which is there already."""

    def __init__(self, stamp):
        self.sequential, self.relative, self.new, self.twice, self.small, self.missing = (
            f"P{stamp}{letter}.TMP".encode() for letter in "SRNDQX")
        self.formats = {word: f"P{stamp}{rfm}.TMP".encode() for word, rfm in FORMATS.items()}

    @property
    def made(self):
        """The files that may be there in the end."""
        return [self.sequential, self.relative, self.new, self.twice, self.small, *self.formats.values()]


def opened(name, rights="get", label="open", cut=None):
    return step(label, dap.attributes(), dap.access(Access.OPEN, name, fac_of(rights)), cut=cut)


def made(name, rights="put", label="create", **shape):
    return step(label, dap.attributes(**(shape or SEQUENTIAL)), dap.access(Access.CREATE, name, fac_of(rights)))


def get(label="get"):
    return step(label, dap.control(Control.GET, Rac.NEXT))


def get_key(number, label=None):
    return step(label or f"get {number}", dap.control(Control.GET, Rac.KEY, dap.number(number)))


def put(record, label="put"):
    return step(label, dap.control(Control.PUT, Rac.NEXT), dap.data(record))


def put_key(number, record, label=None):
    return step(label or f"put {number}", dap.control(Control.PUT, Rac.KEY, dap.number(number)), dap.data(record))


def sequential(names):
    """Conversations about a sequential file."""
    name = names.sequential
    yield Talk("open a missing file", (HELLO, opened(names.missing)))
    stored = step("store", dap.control(Control.PUT, Rac.WHOLE), *map(dap.data, RECORDS), dap.complete(Complete.END_OF_STREAM))
    yield Talk("store a file", (HELLO, made(name), CONNECT, stored, CLOSE))
    yield Talk("create what is there", (HELLO, made(names.twice), CLOSE, made(names.twice, label="create again")))
    yield Talk("fetch it", (HELLO, opened(name), CONNECT, FETCH, CLOSE))
    gets = [get(f"get {number}") for number in range(1, len(RECORDS) + 2)]
    yield Talk("get record by record", (HELLO, opened(name), CONNECT, *gets, REWIND, get("get after"), CLOSE))
    at_end = step("connect", dap.control(Control.CONNECT, rop=END_OF_FILE))
    yield Talk("put at the end", (HELLO, opened(name, "get,put"), at_end, put(b"fourth"), CLOSE))
    yield Talk("without the right", (HELLO, opened(name), CONNECT, put(b"no"), CLOSE))
    yield Talk("key in a sequential file", (HELLO, opened(name), CONNECT, get_key(1, "get key 1"), CLOSE))


def relative(names):
    """Conversations about a relative file."""
    name = names.relative
    yield Talk("relative file", (
        HELLO, made(name, ALL, **RELATIVE), CONNECT, put_key(3, b"three"), put_key(7, b"seven"),
        put_key(3, b"again", "put 3 again"), put_key(99, b"far"), get_key(3), get_key(4), FETCH, CLOSE))
    update = step("update", dap.control(Control.UPDATE), dap.data(b"new three"))
    delete, again = (step(label, dap.control(Control.DELETE)) for label in ("delete", "delete again"))
    yield Talk("update and delete", (HELLO, opened(name, ALL), CONNECT, get_key(3), update, get_key(3, "get 3 updated"),
                                     delete, get_key(3, "get 3 deleted"), again, CLOSE))
    find = step("find 7", dap.control(Control.FIND, Rac.KEY, dap.number(7)))
    yield Talk("find", (HELLO, opened(name, ALL), CONNECT, find, get(), CLOSE))


def others(names):
    """Conversations about names, formats, and functions that an end may not have."""
    name = names.sequential
    yield Talk("purge a new file", (HELLO, made(names.new), PURGE, opened(names.new)))
    yield Talk("name in small letters", (HELLO, opened(name.lower())))
    yield Talk("name with a version", (HELLO, opened(name + b";1")))
    for word, rfm in FORMATS.items():
        shape = {**SEQUENTIAL, "rfm": rfm, "fsz": 2, "rat": 2}
        yield Talk(f"create with {word}", (HELLO, made(names.formats[word], **shape), PURGE))
    by_blocks = step("open", dap.attributes(), dap.access(Access.OPEN, name, fac_of("get") | BY_BLOCKS))
    block = step("get block", dap.control(Control.GET, Rac.BLOCK, dap.number(1)))
    yield Talk("blocks", (HELLO, by_blocks, CONNECT, block, CLOSE))
    for word, function in FUNCTIONS.items():
        yield Talk(f"access {word}", (HELLO, step(word, dap.attributes(), dap.access(function, names.missing, 0))))


def odd(names):
    """Conversations that are cut, out of sequence or malformed."""
    name = names.sequential
    yield Talk("in pieces", (HELLO, opened(name, cut=PIECES), CONNECT, Step("fetch", FETCH.bodies, SINGLE), CLOSE))
    every = (1 << 43) - 1  # all bits of SYSCAP
    yield Talk("without LENGTH", (step("config", dap.config(has_length=False, syscap=every)), opened(name), CONNECT))
    yield Talk("a small buffer", (step("config", dap.config(bufsiz=SMALL_BUFFER)), made(names.small, ALL), CONNECT,
                                  put(100 * b"x"), REWIND, get(), CLOSE))
    yield Talk("out of place", (opened(name, label="access first"), HELLO, get(), step("data", dap.data(b"x")),
                                step("ack", dap.message(dap.ACK, b"")), CLOSE))
    yield Talk("a second configuration", (HELLO, Step("config again", HELLO.bodies)))
    too_long = dap.message(dap.ACCESS, b"\1\0\xff" + 255 * b"N" + b"\2\0")
    malformed = {"type 200": b"\xc8\0", "cut short": b"\3\2\x20\1", "flags": b"\3\x40\0", "empty": b"", "name too long": too_long}
    for word, body in malformed.items():
        yield Talk(f"malformed: {word}", (HELLO, step(word, body), opened(name, label="open after")))


def talks(names):
    """All conversations, in their order: later ones need files of the first."""
    return [*sequential(names), *relative(names), *others(names), *odd(names)]


def erasing(name):
    """A conversation that removes a file, which an end may not have."""
    return Talk("erase", (HELLO, step("erase", dap.attributes(), dap.access(Access.ERASE, name, 0))))
