"""Which packets are one row of a picture, which opens to show them."""
from dataclasses import dataclass

from decnet.tables import CTLFUNC, RAC
from picture.messages import DELETE, GET, NEXT_RECORD, PUT, UPDATE

MIN_ROWS = 4  # this many rows of Data, exchanges alike, or packets without a message are folded
QUIET = ""  # the signature of what goes along in a fold


@dataclass(frozen=True)
class Fold:
    """Packets from the index `first` to `last`. `unit` has the signatures that come `count` times; None where no message is
    whole with any of the packets."""

    first: int
    last: int
    count: int
    unit: tuple | None


def is_quiet(packet):
    """Whether no message is whole with it, and it is no fault."""
    return packet.kind == "ack" or (packet.is_segment and not packet.whole)


def signature(packet):
    """What rows that are alike have in common; QUIET for what goes along; None for a row that is alone."""
    if packet.gaps or packet.is_unfinished:
        return None
    if is_quiet(packet):
        return QUIET
    if not packet.is_segment or packet.retransmits:
        return None
    words = [word_of(one) for one in packet.messages]
    if None in words:
        return None
    if set(words) == {"data"}:
        words = ["data"]
    return (packet.direction, *words)


def word_of(one):
    """A message's part of a signature; None where it keeps its row alone."""
    function = one.number("func")
    if one.word == "data":
        return "data"
    if one.word == "status" and one.words[0] == "1000":
        return "status"
    if one.word == "control" and function in (GET, UPDATE, PUT, DELETE):
        access = one.number("rac")
        return f"control {CTLFUNC[function].upper()} {RAC.get(access, '') if access != NEXT_RECORD else ''}".rstrip()
    return None


def find_folds(packets):
    """The folds of the packets, in order; none has a packet of another."""
    rows = [signature(packet) for packet in packets]
    entries = [index for index, row in enumerate(rows) if row != QUIET]
    folds, at = [], 0
    while at < len(entries):
        count, unit = longest_run([rows[index] for index in entries[at:at + 2]], rows, entries, at)
        if unit is None:
            at += 1
            continue
        last = at + count * len(unit) - 1
        after = folds[-1].last + 1 if folds else 0
        folds.append(widened(packets, rows, Fold(entries[at], entries[last], count, unit), after))
        at = last + 1
    return sorted(folds + quiet_folds(packets, folds), key=lambda fold: fold.first)


def longest_run(following, rows, entries, at):
    """How often the next row of Data, or the next two rows in opposite directions, come without another between them."""
    best = (0, None)
    for size in range(1, len(following) + 1):
        unit = following[:size]
        if None in unit or (size == 1 and unit[0][1:] != ("data",)) or (size == 2 and unit[0][0] == unit[1][0]):
            continue
        count, index = 0, at
        while [rows[entry] for entry in entries[index:index + size]] == unit:
            count, index = count + 1, index + size
        if count >= MIN_ROWS and count * size > best[0] * len(best[1] or ()):
            best = (count, tuple(unit))
    return best


def widened(packets, rows, fold, after):
    """A fold with the segments of its first message before it, and the acknowledgements after it."""
    first, last = fold.first, fold.last
    while first > after and rows[first - 1] == QUIET and packets[first - 1].is_segment \
            and packets[first - 1].direction == packets[fold.first].direction:
        first -= 1
    while last + 1 < len(rows) and rows[last + 1] == QUIET and packets[last + 1].kind == "ack":
        last += 1
    return Fold(first, last, fold.count, fold.unit)


def quiet_folds(packets, folds):
    """Folds of packets with which no message is whole, outside the other folds; a gap begins another one."""
    taken = {index for fold in folds for index in range(fold.first, fold.last + 1)}
    result, at = [], 0
    while at < len(packets):
        after = at
        while after < len(packets) and after not in taken and is_quiet(packets[after]) \
                and (after == at or not packets[after].gaps):
            after += 1
        if after - at >= MIN_ROWS:
            result.append(Fold(at, after - 1, after - at, None))
        at = max(after, at + 1)
    return result
