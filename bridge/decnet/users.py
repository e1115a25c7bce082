"""Who may open a link: the users of a file, with their passwords as salted hashes, and nodes.

A line of the file is `NAME HASH`, as `bridge.py password` prints it, or `- -` where a link without a user is taken
too; after it may come the most that the link may do with files, as `get` or `get,put`. Empty lines, and those that
begin with `#`, say nothing. Small letters and capitals are the same, in names and in passwords. The file is read as
bytes: spaces of ASCII alone are between words, so a name may have any others.
"""
import collections
import contextlib
import hashlib
import hmac
import math
import os
import re
import socket
import stat
import threading
import time
from dataclasses import dataclass

from decnet import log, nsp
from decnet.answers import shown
from decnet.guesses import Guesses
from decnet.locked import KeptFault, fault_of
from decnet.nsp import Reason
from decnet.rights import ALL, are_rights, each_once

COST = {"n": 1 << 14, "r": 8, "p": 1}
SALT_BYTES, HASH_BYTES = 16, 32
HASH = re.compile(rf"scrypt:[0-9a-f]{{{2 * SALT_BYTES}}}:[0-9a-f]{{{2 * HASH_BYTES}}}".encode())
NOBODY = b"-"  # the user of a link without one, and its hash
MARK = b"\xef\xbb\xbf"  # with which some editors begin a file
MAX_BYTES = 1 << 20  # of a file of users
MAX_WAITING = 16  # connect initiates that wait for their check; one more is retransmitted
CHECK_SECONDS = 30  # how long a check may take; where the file can't be read for so long nobody enters until it can
DUMMY = bytes(SALT_BYTES)


def folded(data):
    return data.upper()


def make_hash(password, salt=None):
    """What is in the file for a password."""
    salt = salt or os.urandom(SALT_BYTES)
    return f"scrypt:{salt.hex()}:{hashlib.scrypt(folded(password), salt=salt, dklen=HASH_BYTES, **COST).hex()}"


def is_hash_of(text, password):
    """Whether a hash is that of a password. A NUL is in no password: the hash of one that ends with it is that of the others."""
    is_same = hmac.compare_digest(make_hash(password, bytes.fromhex(text.split(":")[1])), text)
    return is_same and b"\0" not in password


def is_name(name):
    """Whether a user can have this name in the file and in a connect message."""
    return bool(name) and len(name) <= nsp.IMAGE_LIMIT and name.split() == [name] and name != NOBODY \
        and not name.startswith((b"#", MARK)) and b"\0" not in name


def name_shown(name):
    """A user's name as it is shown."""
    return shown(os.fsdecode(folded(name)))


def read_bytes(path):
    """What is in a file of users, which has to be a plain one: it isn't waited for."""
    try:
        file = os.open(path, os.O_RDONLY | os.O_CLOEXEC | os.O_NONBLOCK)
        with open(file, "rb") as opened:
            if not stat.S_ISREG(os.fstat(file).st_mode):
                raise KeptFault(f"{path}: it is no plain file", of_machine=True)
            data = opened.read(MAX_BYTES + 1)
    except OSError as fault:
        raise fault_of(path, fault) from fault
    if len(data) > MAX_BYTES:
        raise KeptFault(f"{path}: more than {MAX_BYTES} bytes")
    return data.removeprefix(MARK)


def read_users(path):
    """The hash and the rights of each user."""
    users = {}
    for number, line in enumerate(read_bytes(path).split(b"\n"), 1):
        words = line.split()
        if not words or words[0].startswith(b"#"):
            continue
        is_user = len(words) in (2, 3) and words[0] != NOBODY and HASH.fullmatch(words[1])
        if not is_user and (words[:2] != [NOBODY, NOBODY] or len(words) > 3):
            raise KeptFault(f"{path}: line {number}: no NAME and HASH, as `bridge.py password` prints them")
        rights = os.fsdecode(words[2]) if len(words) == 3 else ALL
        if not are_rights(rights):
            raise KeptFault(f"{path}: line {number}: '{shown(rights)}' isn't some of get, put, upd and del, with commas between them")
        name = folded(words[0])
        if name in users:
            raise KeptFault(f"{path}: line {number}: {shown(os.fsdecode(words[0]))} is there twice")
        users[name] = (words[1].decode("ascii"), each_once(rights))
    return users


@dataclass(frozen=True)
class Verdict:
    """What is found out about who asks for a link."""

    reason: int = None  # why the link isn't taken; None where it is
    rights: str = None  # what it may do with files
    user: bytes = b""  # as it is folded; none where the link has none, or the message can't be read
    is_wrong: bool = False  # whether that user has another password, or isn't there
    fault: str = ""  # what is wrong with the file of users, or with the check

    @property
    def who(self):
        """The user as the log has it."""
        return f", user {name_shown(self.user)}" if self.user else ""


def user_of(body):
    """The user of a connect message, as it is folded; none where there is none, or it can't be read."""
    session = nsp.read_session(body)
    return folded(session.user) if session else b""


class Users:
    """The users of a file. It is read for each link, so a new user needs no new start."""

    def __init__(self, path):
        """A KeptFault where the file can't be used."""
        self.path = path
        self.names = read_users(path).keys()

    def __str__(self):
        count, is_open = len(self.names - {NOBODY}), NOBODY in self.names
        return f"{count} user{'' if count == 1 else 's'} of {self.path}{' and links without a user' if is_open else ''}"

    def is_seen_by_others(self):
        """Whether others can read the hashes, and try passwords at leisure."""
        return bool(os.stat(self.path).st_mode & (stat.S_IRGRP | stat.S_IROTH))

    def look_up(self, body):
        """Whether a link with this connect message is taken. It takes the same time for a user that is there and one that
        isn't. Nothing is logged, since this runs in a thread."""
        session = nsp.read_session(body)
        if session is None:
            return Verdict(Reason.IMAGE_TOO_LONG)
        user = folded(session.user)
        try:
            users = read_users(self.path)
        except KeptFault as fault:
            return Verdict(Reason.ACCESS_CONTROL, user=user, fault=str(fault))
        if not user:
            _, rights = users.get(NOBODY, (None, None))
            return Verdict(None if rights else Reason.ACCESS_CONTROL, rights)
        text, rights = users.get(user, (None, None)) if user != NOBODY else (None, None)
        if is_hash_of(text or f"scrypt:{DUMMY.hex()}:", session.password):
            return Verdict(rights=rights, user=user)
        return Verdict(Reason.ACCESS_CONTROL, user=user, is_wrong=True)


class Guard:
    """Checks connect messages, one after another, in a thread: other work goes on meanwhile."""

    def __init__(self, users, clock=time.monotonic):
        self.users, self.clock, self.guesses = users, clock, Guesses(clock)
        self.waiting, self.current, self.begun_at = collections.OrderedDict(), None, 0
        self.is_stuck = False  # whether a check takes so long that nobody waits for it any more
        self.checked = lambda peer, packet, verdict: None  # told of each check that is over
        self.found = None  # by the one that is over
        self.reading, self.writing = socket.socketpair()

    def check(self, peer, packet):
        """Checks a connect initiate when those before it are; of each node one waits."""
        if self.current and (peer.node, packet.source) == (self.current[0].node, self.current[1].source):
            return
        if self.shuts_out(peer, packet):
            return
        if self.is_stuck:
            self.refuse_stuck(peer, packet)
        elif peer.node in self.waiting or len(self.waiting) < MAX_WAITING:
            self.waiting[peer.node] = (peer, packet)
            self.begin()

    def shuts_out(self, peer, packet):
        """Refuses a connect initiate without a look at its password where too many of its node for its user were wrong;
        whether it does."""
        user = user_of(packet.body)
        seconds = self.guesses.seconds_left(peer.node, user)
        if seconds:
            why = f"too many passwords were wrong; the next ones aren't looked at for {math.ceil(seconds)} seconds"
            self.checked(peer, packet, Verdict(Reason.ACCESS_CONTROL, user=user, fault=why))
        return seconds > 0

    def begin(self):
        """Begins the next check. What has waited may be shut out by now."""
        while self.current is None and self.waiting:
            _, (peer, packet) = self.waiting.popitem(last=False)
            if not self.shuts_out(peer, packet):
                self.current, self.begun_at = (peer, packet), self.clock()
                threading.Thread(target=self.work, args=(packet.body,), daemon=True).start()

    def work(self, body):
        try:
            self.found = self.users.look_up(body)
        except Exception as fault:  # whatever it is, nobody enters by it
            self.found = Verdict(Reason.ACCESS_CONTROL, user=user_of(body), fault=f"{type(fault).__name__}: {fault}")
        with contextlib.suppress(OSError):  # where it was closed meanwhile
            self.writing.send(b"\0")

    def look(self):
        """A check is over."""
        self.reading.recv(1)
        (peer, packet), self.current = self.current, None
        if self.is_stuck:
            self.is_stuck = False
            log.say(f"{self.users.path}: it can be read again")
        else:
            self.note(peer, self.found)
            self.checked(peer, packet, self.found)
        self.begin()

    def note(self, peer, verdict):
        if verdict.is_wrong:
            self.guesses.wrong(peer.node, verdict.user)
        elif verdict.reason is None:
            self.guesses.right(peer.node, verdict.user)

    def tick(self):
        """Gives a check up that takes too long, and those that wait for it."""
        if self.current and not self.is_stuck and self.clock() >= self.begun_at + CHECK_SECONDS:
            self.is_stuck = True
            log.say(f"{self.users.path}: it can't be read within {CHECK_SECONDS} seconds: nobody enters until it can")
            given_up, self.waiting = [self.current, *self.waiting.values()], collections.OrderedDict()
            for peer, packet in given_up:
                self.refuse_stuck(peer, packet)

    def refuse_stuck(self, peer, packet):
        self.checked(peer, packet, Verdict(Reason.ACCESS_CONTROL, user=user_of(packet.body)))

    def next_at(self):
        """When a check takes too long."""
        return self.begun_at + CHECK_SECONDS if self.current and not self.is_stuck else None

    def files(self):
        return {self.reading: self.look}

    def close(self):
        self.reading.close()
        self.writing.close()
