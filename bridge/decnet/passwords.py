"""The line of a file of users for a user and a password."""
import getpass
import os
import sys

from decnet import answers, nsp
from decnet.client import InputFault
from decnet.locked import KeptFault
from decnet.role import GOOD
from decnet.users import folded, is_name, make_hash
from decnet.words import PASSWORD_LIMIT


def print_user(words, closed):
    """Prints the line for a user, whose password is typed, or comes on standard input; `closed` are standard files that
    are."""
    for file, what in enumerate(("input", "output")):
        if file in closed:
            raise InputFault(f"standard {what}: closed")
    name = os.fsencode(words.user)
    if not is_name(name):
        raise KeptFault(f"{answers.shown(words.user)} is no user's name: 1 to {nsp.IMAGE_LIMIT} bytes, without spaces and NUL")
    password = read_typed() if sys.stdin.isatty() else sys.stdin.buffer.readline(PASSWORD_LIMIT).rstrip(b"\r\n")
    if not 0 < len(password) <= nsp.IMAGE_LIMIT:
        raise KeptFault(f"a password has 1 to {nsp.IMAGE_LIMIT} bytes")
    if b"\0" in password:
        raise KeptFault("a password has no NUL")
    rights = [words.rights] if words.rights is not None else []
    sys.stdout.buffer.write(b" ".join([folded(name), *map(str.encode, [make_hash(password), *rights])]) + b"\n")
    return GOOD


def read_typed():
    """A password that is typed twice, unseen."""
    first, second = (os.fsencode(getpass.getpass(text)) for text in ("Password: ", "Again: "))
    if first != second:
        raise KeptFault("the passwords differ")
    return first
