"""As much of DAP 5.6.0 as names messages, and says which may change files, and which answer says that a file is closed; and the
fields of an Attributes message."""

import contextlib

from decnet import tables
from decnet.messages import ATTRIBUTES, BITS, MORE

ACCESS, CONTROL, COMPLETE = 3, 4, 7
NAMES = {1: "Configuration", 2: "Attributes", 3: "Access", 4: "Control", 5: "Continue Transfer", 6: "Acknowledge",
         7: "Access Complete", 8: "Data", 9: "Status"}
HARMLESS = frozenset({1, 2, 5, 6, 9, *range(10, 17)})  # types of messages that change no file
OPEN = b"\1"  # ACCFUNC of an Access that makes no file
CREATE = bytes(number for number, word in tables.ACCFUNC.items() if word == "create")
ERASE = bytes(number for number, word in tables.ACCFUNC.items() if word == "erase")
READING = frozenset({b"\1", b"\2", b"\6"})  # CTLFUNC: get, connect, rewind
CLOSE, RESPONSE, END_OF_STREAM = b"\1", b"\2", b"\4"  # CMPFUNC
STREAM_ID, LENGTH, LONG_LENGTH = 1, 2, 4  # FLAGS
MAX_LENGTH = 0xFFFF  # of an operand
ACCOPT, MAX_NAME = 5, 255  # the most bytes of an Access's options and name


class Unread(Exception):
    """The bytes aren't read here: they may be anything."""


def messages(body):
    """The type and the operand of each DAP message of an NSP message."""
    at = 0
    while at < len(body):
        if len(body) < at + 2 or body[at + 1] & ~(STREAM_ID | LENGTH | LONG_LENGTH):
            raise Unread
        kind, flags, at = body[at], body[at + 1], at + 2
        at += bool(flags & STREAM_ID)
        end = len(body)
        if flags & LENGTH:
            size = 2 if flags & LONG_LENGTH else 1
            end = at + size + int.from_bytes(body[at:at + size], "little")
            at += size
        if not at <= end <= len(body):
            raise Unread
        yield kind, body[at:end]
        at = end


def take(data, at, count):
    """Bytes, and the offset after them."""
    if at + count > len(data):
        raise Unread
    return data[at:at + count], at + count


def take_extensible(data, at, most):
    """The number of an extensible field, and the offset after it."""
    number = 0
    for place in range(most):
        (byte,), at = take(data, at, 1)
        number |= byte % MORE << BITS * place
        if byte < MORE:
            return number, at
    raise Unread


def take_field(data, at, kind, size):
    """A field, a number or the bytes of an image, and the offset after it."""
    if kind == "extensible":
        return take_extensible(data, at, size)
    if kind == "image":
        (length,), at = take(data, at, 1)
        if length > size:
            raise Unread
        return take(data, at, length)
    found, at = take(data, at, size)
    return int.from_bytes(found, "little"), at


def read_attributes(operand):
    """The fields of an Attributes message by their names. What is after the last one has no meaning."""
    found = {}
    menu, at = take_extensible(operand, 0, tables.ATTRIBUTES_MENU) if operand else (0, 0)
    if menu >> len(tables.ATTRIBUTES):
        raise Unread
    for bit, (name, (kind, size)) in enumerate(tables.ATTRIBUTES.items()):
        if menu >> bit & 1:
            found[name], at = take_field(operand, at, kind, size)
    return found


def named(body):
    """The messages of an NSP message by their names."""
    try:
        return ", ".join(NAMES.get(kind, f"a message of type {kind}") for kind, _ in messages(body))
    except Unread:
        return "a message that can't be read"


def are_all(test, body):
    """Whether each message in the bytes of a whole NSP message passes the test; not where one can't be read."""
    try:
        return all(test(kind, operand) for kind, operand in messages(body))
    except Unread:
        return False


def may_change(body):
    """Whether the bytes of a whole NSP message may be a request that changes files."""
    return not are_all(is_harmless, body)


def may_store(body):
    """Whether they may be one by which files need more space: each that may change files, but for one that erases a file."""
    return not are_all(lambda kind, operand: is_harmless(kind, operand) or (kind, operand[:1]) == (ACCESS, ERASE), body)


def begun(body):
    """The type and the operand of each DAP message in the bytes with which an NSP message begins; what is missing of the last one is
    taken for zeros."""
    try:
        return list(messages(body))
    except Unread:
        return list(messages(body + bytes(MAX_LENGTH)))


def names_asked(func, body):
    """The names in Accesses with this ACCFUNC, in the bytes with which an NSP message begins, as far as these can be read."""
    names = []
    with contextlib.suppress(Unread):
        for kind, operand in begun(body):
            if kind == ACCESS and operand[:1] == func:
                _, at = take_extensible(operand, 1, ACCOPT)
                names.append(take_field(operand, at, "image", MAX_NAME)[0])
    return names


def names_erased(body):
    """The names of files that requests ask to erase."""
    return names_asked(ERASE, body)


def name_made(body):
    """The name of the file that a request asks to make; None where none does."""
    return next(iter(names_asked(CREATE, body)), None)


def says_opened(body):
    """Whether the bytes of a whole NSP message have the Attributes of a file that is open."""
    try:
        return any(kind == ATTRIBUTES for kind, _ in messages(body))
    except Unread:
        return False


def may_be_kept(body):
    """Whether they may be kept with the next file that is made: Attributes are."""
    return not are_all(lambda kind, operand: kind != ATTRIBUTES, body)


def is_harmless(kind, operand):
    function = operand[:1]
    if kind == ACCESS:
        return function == OPEN
    if kind == CONTROL:
        return function in READING
    if kind == COMPLETE:
        return function in (CLOSE, RESPONSE, END_OF_STREAM)
    return kind in HARMLESS


def says_closed(body):
    """Whether the bytes of a whole NSP message answer an Access Complete."""
    try:
        return any(kind == COMPLETE and operand[:1] == RESPONSE for kind, operand in messages(body))
    except Unread:
        return False
