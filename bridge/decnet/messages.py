"""DAP messages, written. They are read by `dapcap`, which is proved."""
import enum
import struct

from decnet import tables
from decnet.nsp import image

# types of messages
CONFIG, ATTRIBUTES, ACCESS, CONTROL, CONTINUE, ACK, COMPLETE, DATA, STATUS = range(1, 10)
HAS_LENGTH, LONG_LENGTH = 2, 4  # FLAGS
SHORT, MORE, BITS = 256, 0x80, 7  # a length of one byte is below SHORT; bytes of an extensible field, and bits in each


class Access(enum.IntEnum):
    """ACCFUNC."""

    OPEN = 1
    CREATE = 2
    RENAME = 3
    ERASE = 4
    DIRECTORY = 6
    NONE = 99


class Control(enum.IntEnum):
    """CTLFUNC."""

    GET, CONNECT, UPDATE, PUT, DELETE, REWIND = range(1, 7)
    FIND = 14


class Rac(enum.IntEnum):
    """RAC."""

    NEXT = 0
    KEY = 1
    WHOLE = 3
    BLOCK = 4


class Complete(enum.IntEnum):
    """CMPFUNC."""

    CLOSE = 1
    RESPONSE = 2
    PURGE = 3
    END_OF_STREAM = 4


def message(kind, operand, has_length=True):
    if not has_length:
        return bytes([kind, 0]) + operand
    if len(operand) < SHORT:
        return bytes([kind, HAS_LENGTH, len(operand)]) + operand
    return bytes([kind, HAS_LENGTH | LONG_LENGTH]) + struct.pack("<H", len(operand)) + operand


def extensible(number):
    """A number in as few bytes as it takes, the lowest bits first."""
    out = b""
    while number >= MORE:
        out += bytes([number % MORE | MORE])
        number >>= BITS
    return out + bytes([number])


def number(value):
    """A record's number as a key has it."""
    return value.to_bytes(4, "little")


def config(bufsiz=1024, ostype=7, filesys=3, version=(5, 6, 0, 0, 0), syscap=0, has_length=True):
    return message(CONFIG, struct.pack("<HBB5B", bufsiz, ostype, filesys, *version) + extensible(syscap), has_length)


def image_of(value):
    return image(value if isinstance(value, bytes) else number(value))


# how a field of an Attributes message is written, by its kind
WRITERS = {"byte": lambda value: bytes([value]), "word": lambda value: struct.pack("<H", value), "extensible": extensible,
           "image": image_of}


def attributes(**given):
    """The message with these fields; of an image, its bytes, or a number."""
    fields = [(1 << bit, name, WRITERS[kind]) for bit, (name, (kind, _)) in enumerate(tables.ATTRIBUTES.items()) if name in given]
    return message(ATTRIBUTES, extensible(sum(bit for bit, _, _ in fields)) + b"".join(write(given[name]) for _, name, write in fields))


def access(function, name, fac):
    """FAC has the bits of `rights`."""
    opt = shr = 0
    return message(ACCESS, bytes([function]) + extensible(opt) + image(name) + extensible(fac) + extensible(shr))


def control(function, rac=None, key=None, rop=None):
    menu, out = 0, b""
    if rac is not None:
        menu, out = menu | 1, out + bytes([rac])
    if key is not None:
        menu, out = menu | 2, out + image(key)
    if rop is not None:
        menu, out = menu | 8, out + extensible(rop)
    return message(CONTROL, bytes([function]) + (extensible(menu) + out if menu else b""))


def complete(function):
    fop = 0
    return message(COMPLETE, bytes([function]) + extensible(fop))


def data(record, recnum=b""):
    return message(DATA, image(recnum) + record)
