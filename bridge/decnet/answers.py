"""What refusals of requests mean, in words."""

REQUESTS = frozenset(
    "hello create open connect get put update delete rewind fetch store continue close purge".split())
# why a request isn't asked
NOT_ASKED = {
    "ask-phase": "it doesn't fit here",
    "ask-busy": "the report of the request before hasn't come",
    "ask-too-large": "it is longer than the buffers of both ends allow (--buffer)",
    "ask-failed": "an answer before it was out of sequence",
    "failed": "the link has failed",
    "no-memory": "the live end has no memory",
}
# STSCODE of a Status: four bits that say what kind of refusal it is, and twelve that say which
MICCODE_BITS = 12
THERE = "a file of that name is there"
MAY_NOT = "this user, or this file, doesn't allow that"
OF_FILES = {4, 5, 6, 7}  # kinds whose other bits are RMS's
KINDS = {0x2: "it isn't supported there", 0x8: "a message that the other end can't read",
         0x9: "a value that the other end doesn't take", 0xA: "a message out of sequence"}
# those of RMS, from memory but for 047 and 062
RMS = {0o31: "there is no current record", 0o40: "no such directory", 0o47: "no more records",
       0o54: "the file isn't open for that", 0o55: THERE, 0o60: "the file is in use",
       0o62: "no such file", 0o63: "no name of a file", 0o65: "the disk is full", 0o72: "the file can't do that",
       0o76: "no such key", 0o111: "the record's number is out of range", 0o125: MAY_NOT,
       0o127: "records aren't had in that way", 0o133: "a record is there", 0o135: "no file has these attributes",
       0o136: "the record is in use", 0o140: "there is no such record",
       0o146: "the record's length isn't one of the file's", 0o147: "the record is too long for the buffer"}
# reasons of an end without RMS's codes, beside 4000 and 5000
REASONS = {
    "1": THERE,
    "2": "the file isn't open for that",  # of a record; an Access is refused by it where a right is missing
    "3": "there is no current record",
    "4": "there is no such record",
    "5": "a record is there",
    "6": "the record's number is out of range",
    "7": "the record's length isn't one of the file's",
    "8": "records aren't had in that way",
    "9": "records of such a file can't be deleted",
    "10": "the record is longer than the other end's buffer",
    "11": "no file has these attributes",
    "12": "that is no record's number",
}
# what answers a request, besides a Status that refuses it
DUE = {
    "hello": "Configuration",
    **dict.fromkeys(("create", "open"), "Attributes, Acknowledge"),
    "connect": "Acknowledge",
    "get": "Data",
    **dict.fromkeys(("put", "update", "delete", "rewind"), "Status"),
    **dict.fromkeys(("fetch", "continue"), "Data or Status"),
    "store": "Access Complete",
    **dict.fromkeys(("close", "purge"), "Access Complete"),
}
NO_RIGHT = ("4000", "2")  # what such an end says to an Access
MAX_SHOWN = 40  # characters of a user's line that are shown


def shown(text):
    """A user's words as they are shown."""
    printable = "".join(one if one.isprintable() else "?" for one in text)
    return printable if len(printable) <= MAX_SHOWN else printable[:MAX_SHOWN] + ".."


def not_asked(request, answer):
    """Why a request wasn't asked, by the answer of the live end."""
    why = answer.removeprefix("refused ")
    if why != "bad-line":
        return f"'{shown(request)}': {NOT_ASKED.get(why, why)}"
    word = request.split(" ")[0]
    if word not in REQUESTS:
        return f"no request '{shown(word)}'"
    return f"'{shown(request)}': wrong words for '{word}'; names and records are hex digits (docs/SCHEDULES.md)"


def unexpected(came, request):
    """Which messages came out of sequence, and which was due to the request, if any was."""
    due = DUE.get(request.split(" ")[0])
    return f"{came} came, and " + (f"{due} was due after '{shown(request)}'" if due else "nothing was due")


def refusal(report):
    """What a report says that was refused, in words; None where nothing was."""
    words = report.split(" ")
    if "refused" not in words:
        return None
    codes = words[words.index("refused") + 1:][:2]
    if len(codes) < 2:
        return "refused"
    return f"refused: {meaning(*codes)} ({', '.join(codes)})"


def meaning(code, reason):
    if (code, reason) == NO_RIGHT:
        return MAY_NOT
    if code in ("4000", "5000"):
        return REASONS.get(reason, "for a reason of the other end")
    kind, micro = divmod(int(code, 16), 1 << MICCODE_BITS)
    found = RMS.get(micro) if kind in OF_FILES else KINDS.get(kind)
    return found or "by the other end"


def is_stopped(report):
    """Whether a report says that a transfer stopped before its end."""
    return "stopped" in report.split(" ")[:4]
