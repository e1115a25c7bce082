"""What people ask for, as requests of an asking live end: generators that give requests and are sent their reports.

A script that gives None wants one more report of the request before.
"""
from decnet import answers
from decnet.rights import fac_of

MAX_DIGITS = 12 << 20  # of the records in one request; a live end's line has at most 16,777,216 bytes
SEQUENTIAL, RELATIVE = 0, 16  # ORG
FIXED, VARIABLE = 1, 2  # RFM
STOPPED = "stopped by a signal"
NO_REQUEST = "refused bad-line"  # the answer of a live end that doesn't know a request


THERE = "; --append stores after what it has, and it can't be replaced from here"
SEQUENTIAL_ONLY = "; the file is sequential, and --number is for relative files"


class Refused(Exception):
    """A request was refused, here or by the other end."""


class Stop(Exception):
    """Thrown into a script that is to end before it is done."""


def digits(data):
    return data.hex() or "-"


def bytes_in(word):
    return b"" if word == "-" else bytes.fromhex(word)


def asked(request, wanted):
    """A request, and its report, which has to begin so."""
    report = yield request
    return checked(request, report, wanted)


def checked(request, report, wanted):
    refusal = answers.refusal(report) if report.startswith("report ") else answers.not_asked(request, report)
    if refusal or not report.startswith(f"report {wanted}"):
        raise Refused(refusal or report)
    return report


def parts(records):
    """The records in lists that fit a request each."""
    part, size = [], 0
    for record in records:
        more = 2 * len(record) + 2
        if part and size + more > MAX_DIGITS:
            yield part
            part, size = [], 0
        part.append(record)
        size += more
    yield part


def begin(name, shape, is_appended):
    """Opens a file to put records into it; `shape` is how it is made. Its organization."""
    yield from asked("hello", "ready")
    fac = fac_of("put")
    opening = f"open {digits(name)} {fac}" if is_appended else f"create {digits(name)} {shape} {fac}"
    try:
        report = yield from asked(opening, "opened")
    except Refused as refusal:
        is_there = not is_appended and answers.THERE in str(refusal)
        raise Refused(f"{refusal}{THERE if is_there else ''}") from refusal
    return int(report.split(" ")[2])


def fill(name, shape, is_appended, filling):
    """Opens a file, puts records into it by a script, and closes it. Where that is refused, or stopped, a file that was made is
    purged."""
    yield from begin(name, shape, is_appended)
    try:
        yield from asked("connect", "connected")
        yield from filling
        yield from asked("close", "closed")
    except (Refused, Stop) as fault:
        if is_appended:
            raise
        why = str(fault) if isinstance(fault, Refused) else STOPPED
        left = yield from take_back()
        raise Refused(f"{why}; {left}") from fault


def take_back():
    """Purges the file that was made; what became of it, in words."""
    try:
        yield from asked("purge", "closed")
    except Refused as refusal:
        return f"what was stored is there, since it can't be taken back: {refusal}"
    return "what was stored is taken back"


def store(name, records, is_appended=False, size=0):
    """Stores the records of a sequential file, all of them of one size where that isn't 0."""
    return fill(name, f"{SEQUENTIAL} {FIXED if size else VARIABLE} {size} 0", is_appended, transfers(records))


def transfers(records):
    """Stores records, as many in one transfer as fit a request."""
    for at, part in enumerate(parts(records)):
        if at:
            yield from asked("connect", "connected")
        yield from asked(" ".join(["store", *map(digits, part)]), "stored")


def store_numbered(name, numbered, is_appended=False):
    """Stores the records of a relative file under their numbers."""
    return fill(name, f"{RELATIVE} {VARIABLE} 0 0", is_appended, puts(numbered))


def puts(numbered):
    for number, record in numbered:
        yield from asked(f"put key {number} {digits(record)}", "done")


def put(name, record, number=None):
    """Puts a record into a file, under a number or after all others."""
    org = yield from begin(name, "", is_appended=True)
    yield from asked("connect", "connected")
    if number is None:
        yield from asked(f"put {digits(record)}", "done")
    else:
        yield from by_number(org, f"put key {number} {digits(record)}", "done")
    yield from asked("close", "closed")


def by_number(org, request, wanted):
    """A request for the record of a number, which a sequential file may refuse."""
    try:
        return (yield from asked(request, wanted))
    except Refused as refusal:
        raise Refused(f"{refusal}{SEQUENTIAL_ONLY if org == SEQUENTIAL else ''}") from refusal


def begin_reading(name):
    """Opens a file to get records from it; its organization and format."""
    yield from asked("hello", "ready")
    report = yield from asked(f"open {digits(name)} {fac_of('get')}", "opened")
    yield from asked("connect", "connected")
    org, rfm = report.split(" ")[2:4]
    return int(org), int(rfm)


def get(name, number, text):
    """Gets the record of a number."""
    org, _ = yield from begin_reading(name)
    report = yield from by_number(org, f"get key {number}", "found")
    _, _, found, body = report.split(" ")
    text.record(int(found), bytes_in(body))
    yield from asked("close", "closed")


def fetch(name, text):
    """Fetches all records. One that the buffer is too small for is a refusal, when all others are there."""
    org, rfm = yield from begin_reading(name)
    text.opened(org == RELATIVE, rfm == FIXED)
    skipped, request = 0, "fetch each"
    while (yield from batch(request, text)) == "stopped":
        skipped, request = skipped + 1, "continue skip"
    yield from asked("close", "closed")
    if skipped:
        raise Refused(f"{skipped} records are longer than --buffer allows, and were left out")


def batch(request, text):
    """Takes the records of a fetch, one by one where the live end reports them so; how it ended."""
    report = yield request
    if report == NO_REQUEST and request.endswith(" each"):
        request = request.removesuffix(" each")
        report = yield request
    while report.startswith("report record "):
        _, _, number, body = report.split(" ")
        text.record(int(number), bytes_in(body))
        report = yield None
    _, _, _, how, *records = checked(request, report, "batch").split(" ")
    for record in records:
        number, _, body = record.partition(":")
        text.record(int(number), bytes_in(body))
    return how
