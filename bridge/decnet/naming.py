"""How names are compared where files are kept: what a comment says of it, and what holds where nothing is said or asked for."""
import contextlib
import itertools
import os
import re

from decnet import program
from decnet.locked import ENCODING, KeptFault
from decnet.words import EXACT, KINDS_OF_NAMES, MAX_VERSION, VERSIONS, fault_of_keep

NOTE, FORM = "# --names ", re.compile(r"# --names (\w+)(?: --keep ([1-9][0-9]{0,4}))?")


def line_of(words):
    """The comment that says how names are compared."""
    return f"{NOTE}{words.names or EXACT}" + (f" --keep {words.keep}" if words.keep else "")


def said_in(file):
    """The comment among the first ones of an open file; None where none of them says it."""
    with open(file, **ENCODING) as lines:
        comments = itertools.takewhile(lambda line: line.startswith("#"), lines)
        return next((line.rstrip("\r\n") for line in comments if line.startswith(NOTE)), None)


def settle(words, place, said, default, keep=None):
    """Finds out how names are compared, and tells it to the live end: as the comment of a place says, which isn't changed by other words;
    else as is asked for, else by default."""
    found = FORM.fullmatch(said) if said else None
    if said and (not found or found[1] not in KINDS_OF_NAMES or int(found[2] or 1) > MAX_VERSION):
        raise KeptFault(f"{place}: '{said[:60]}': not how names are compared")
    if said and words.names not in (None, found[1]):
        raise program.Fault(f"--names {words.names}: {place} says --names {found[1]}, which goes on; its files are carried over where its "
                            f"line '{said}' is taken out", program.WORDS)
    names = words.names or (found[1] if found else default)
    if names == VERSIONS:
        words.given.update(names=names, keep=words.keep or (int(found[2]) if found and found[2] else keep))
    elif names != EXACT:
        words.given["names"] = names
    fault = fault_of_keep(words)
    if fault:
        raise program.Fault(fault, program.WORDS)


def settle_by_files(words):
    """The same by the file of --files, where there is one: without a comment names are compared as before there were versions."""
    if words.files is None:
        settle(words, None, None, VERSIONS)
        return
    said = None
    with contextlib.suppress(OSError):  # who reads the files says so
        said = said_in(words.files) if os.path.isfile(words.files) else None
    settle(words, words.files, said, EXACT)
