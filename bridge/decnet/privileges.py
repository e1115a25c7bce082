"""Giving up root when the network is open: from then on all is done as another user, what the live end does too."""
import os
import pwd

from decnet import log
from decnet.locked import KeptFault

NOBODY = "nobody"
ROOT = 0
READ = ("files", "users", "against")  # options with files that are read later on
WRITTEN = ("save", "store", "answers")  # with files that are written, and written anew beside their names
NAMING = (*READ, *WRITTEN, "folder", "log", "pcap")  # options that name a file
SPELLED = {"answers": "keep"}  # of those that have another name on the command line


def find(name):
    """A user of this host; ValueError where there is none."""
    try:
        return pwd.getpwnam(name)
    except KeyError as fault:
        raise ValueError(f"no user {name[:40]} is here") from fault


def give_up(words):
    """Becomes the user of --as. Without it a bridge with a raw socket becomes nobody, where it needs no file as root."""
    if words.as_user is not None:
        become(words.as_user)
        check_files(words)
    elif words.interface is not None and os.geteuid() == ROOT:
        why = why_root(words)
        if why:
            log.say(f"it stays root, {why}: --as USER gives that up")


def become(name):
    """A KeptFault where that can't be."""
    user = find(name)
    if (os.geteuid(), os.getegid()) == (user.pw_uid, user.pw_gid):
        return
    try:
        os.initgroups(name, user.pw_gid)
        os.setgid(user.pw_gid)
        os.setuid(user.pw_uid)
    except OSError as fault:
        raise KeptFault(f"--as {name}: {fault.strerror}: root alone becomes another user", of_machine=True) from fault


def why_root(words):
    """Becomes nobody; or why it doesn't."""
    named = [name for name in NAMING if getattr(words, name) is not None]
    if named:
        return f"since --{SPELLED.get(named[0], named[0])} names a file"
    if words.host not in (None, "-"):
        return f"since {words.host} is a file"
    if not can_run(words.daplive):
        return f"since {NOBODY} can't run {words.daplive}"
    try:
        become(NOBODY)
    except (KeptFault, ValueError) as fault:
        return f"since it can't become {NOBODY} ({fault})"
    return None


def can_run(program):
    """Whether nobody can run a program, by its mode and those of its folders; one that isn't there is told by who starts it."""
    path = os.path.realpath(program)
    while True:
        try:
            if not os.stat(path).st_mode & 0o001:
                return False
        except FileNotFoundError:
            return True
        except OSError:
            return False
        if path == os.path.dirname(path):
            return True
        path = os.path.dirname(path)


def check_files(words):
    """A KeptFault where a file can't be used by who this is now, before any link is there."""
    for name in READ:
        check(words, getattr(words, name), os.R_OK, "read")
    for name in WRITTEN:
        check_written(words, getattr(words, name))
    if words.folder is not None:
        check(words, words.folder, os.R_OK | os.W_OK | os.X_OK, "write")
    check(words, words.log, os.W_OK, "write")


def check_written(words, path):
    """The same for a file that is written anew beside its name."""
    if path is not None:
        if os.path.exists(path):
            check(words, path, os.W_OK, "write")
        check(words, os.path.dirname(os.path.realpath(path)), os.W_OK | os.X_OK, "write")


def check(words, path, mode, what):
    if path is not None and not os.access(path, mode):
        raise KeptFault(f"{path}: {words.as_user} can't {what} it", of_machine=True)
