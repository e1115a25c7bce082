"""The words of the bridge's command line: its roles, their options, and what each may be."""
import argparse
import difflib
import os
import pathlib
import re
import sys
from dataclasses import dataclass

from decnet import completion, dapcap, nsp, options, privileges, program, udp
from decnet.address import node_text
from decnet.answers import shown
from decnet.end import DAPLIVE
from decnet.journal import SYNCS
from decnet.nodes import Names as NodeNames
from decnet.nodes import find, read_names
from decnet.remote import is_meant_remote, is_remote, read_remote
from decnet.rights import are_rights
from decnet.talks import Names, talks
from decnet.texts import MAX_NUMBER, RECORD_LIMIT

KINDS_OF_NAMES = EXACT, FOLDED, VERSIONS = "exact", "folded", "versions"  # how names are compared; with the last one a file has versions
MAX_VERSION = 32767
PASSWORD_LIMIT = 65536
SYSCAP = re.compile(r"[0-9A-Fa-f]{1,21}")
TALKS = [talk.name for talk in talks(Names(""))]
PEOPLE = ("copy", "type", "get", "put")  # the roles that name a file
# what holds where an option isn't given; one that isn't here is None then
DEFAULTS = {"segment": 512, "resend": 1, "tries": 30, "idle": 30, "harm": 0, "seed": 1, "unused": 900, "patience": 120,
            "user": b"", "account": b"", "go_on": False, "sync": SYNCS[0], "growth": 1 << 30, "space": 1 << 28,
            "append": False, "relative": False, "lines": False, "replace": False, "fixed": 0, "quiet": 2, "links": 16}
BUFFERS = {"serve": 8192, "ask": 8192, **dict.fromkeys(PEOPLE, 65535)}  # the same for --buffer; a probe's end has its own
# options of which one alone holds: one of the command line takes the place of another in the file of options
GROUPS = (("interface", "udp", "frames"), ("save", "store", "folder"), ("password", "password_file", "password_env"))


CHANGELOG = pathlib.Path(__file__).resolve().parent.parent.parent / "CHANGELOG.md"
VERSION = re.compile(r"^## ([0-9.]+)", re.MULTILINE)
# commands that people look for, and why there are none
NO_COMMANDS = {**dict.fromkeys(("dir", "directory", "list", "ls"), "a live end has no directories"),
               **dict.fromkeys(("delete", "del", "rm", "erase"), "a live end has no request that erases a file"),
               **dict.fromkeys(("rename", "ren", "mv"), "a live end renames no file")}


class Mistake(Exception):
    """The words are wrong."""

    def __init__(self, parser, what):
        super().__init__(what)
        self.text = f"{parser.prog}: {what}; see {parser.prog} --help"


class Asked(Exception):
    """A text that the words ask for."""


class Parser(argparse.ArgumentParser):
    """A parser that leaves options out that aren't given, and whose mistakes and texts can be caught."""

    def __init__(self, **more):
        super().__init__(**{"allow_abbrev": False, "argument_default": argparse.SUPPRESS, **more})

    def error(self, message):
        raise Mistake(self, message)

    def print_help(self, file=None):
        raise Asked(self.format_help())

    @property
    def actions(self):
        """Its options and other words."""
        return self._actions

    @property
    def names(self):
        """The names of its options."""
        return [name for action in self.actions for name in action.option_strings]


class Version(argparse.Action):
    """The version of this repository, which is the first one of the changelog."""

    def __call__(self, parser, namespace, values, option_string=None):
        try:
            found = VERSION.search(CHANGELOG.read_text(encoding="utf-8"))
        except OSError:
            found = None
        raise Asked(f"{parser.prog} {found[1] if found else 'of no version'}\n")


class Completion(argparse.Action):
    """How bash completes the words."""

    def __call__(self, parser, namespace, values, option_string=None):
        raise Asked(completion.script(*build(), PEOPLE))


# ---- what a word may be


def number(least, most, kind=int):
    """A number of the words, within its range."""
    def read(text):
        try:
            value = kind(text)
        except ValueError:
            value = None
        if value is None or not least <= value <= most:
            raise argparse.ArgumentTypeError(f"{text[:40]} is no number from {least} to {most}")
        return value
    return read


def hex_word(text):
    """Bits in hex."""
    if not SYSCAP.fullmatch(text):
        raise argparse.ArgumentTypeError(f"{text[:40]} is no number of 1 to 21 hex digits")
    return text


def udp_word(text):
    try:
        return udp.read_ports(text)
    except ValueError as fault:
        raise argparse.ArgumentTypeError(str(fault)) from fault


def user_word(text):
    try:
        privileges.find(text)
    except ValueError as fault:
        raise argparse.ArgumentTypeError(str(fault)) from fault
    return text


def rights_word(text):
    if not are_rights(text):
        raise argparse.ArgumentTypeError(f"{text[:40]} isn't some of get, put, upd and del, with commas between them")
    return text


def image_word(text):
    """A user, a password or an account."""
    data = os.fsencode(text)
    if len(data) > nsp.IMAGE_LIMIT:
        raise argparse.ArgumentTypeError(f"more than {nsp.IMAGE_LIMIT} bytes")
    return data


# ---- the options


def add_network(parser):
    network = parser.add_mutually_exclusive_group()
    network.add_argument("--interface", metavar="IF", help="the Ethernet interface; it takes root")
    network.add_argument("--udp", type=udp_word, metavar="LPORT:HOST:RPORT",
                         help="Ethernet frames over UDP, as emulators and bridges send them, in place of an interface")
    network.add_argument("--frames", type=number(3, 65535), metavar="FD",
                         help="for tests: a socket that carries frames, in place of an interface")
    parser.add_argument("--as", dest="as_user", metavar="USER", type=user_word,
                        help="become this user of the host when the network is open, the live end too")
    parser.add_argument("--node", metavar="NODE", help="this node, by its address AREA.NUMBER or its name")
    parser.add_argument("--router", metavar="NODE", help="the router to nodes that nothing came from yet")
    parser.add_argument("--nodes", metavar="FILE", help="names of nodes, in lines `1.10 VAX` (default ~/.config/daplive/nodes)")
    parser.add_argument("--options", metavar="FILE",
                        help="options, a line each; those of the command line come first (default ~/.config/daplive/options)")
    parser.add_argument("--pcap", metavar="FILE", help="write all frames, both ways, after those of this pcap file")


def add_tests(parser):
    parser.add_argument("--harm", type=number(0, 90, float), metavar="PERCENT",
                        help="for tests: lose, repeat and swap this share of the frames that are sent")
    parser.add_argument("--seed", type=int, metavar="N", help="for tests: which frames those are")


def add_link(parser):
    parser.add_argument("--segment", type=number(nsp.MIN_SEGMENT, nsp.MAX_SEGMENT), metavar="BYTES",
                        help="the most bytes of a segment, 64 to 1400 (default 512)")
    parser.add_argument("--window", type=number(1, 2047), metavar="N", help="segments on their way, 1 to 2047")
    parser.add_argument("--buffer", type=number(64, 65535), metavar="BYTES",
                        help="the live end's buffer, 64 to 65535 (default 8192; 65535 for copy, type, get, put)")
    parser.add_argument("--resend", type=number(0.01, 60, float), metavar="SECONDS",
                        help="send a packet again after this many seconds without an answer (default 1)")
    parser.add_argument("--tries", type=number(1, 1000), metavar="N", help="give up after this many tries (default 30)")
    parser.add_argument("--idle", type=number(0.1, 3600, float), metavar="SECONDS",
                        help="probe the other end after this many silent seconds (default 30)")
    parser.add_argument("--daplive", metavar="PROGRAM",
                        help="the live end (default $DAPLIVE, or ./daplive of this repository)")
    parser.add_argument("--log", metavar="FILE", help="write messages to a file, which SIGHUP opens again")


def add_identity(parser):
    """What the live end says of itself. A probe says what its conversations say."""
    parser.add_argument("--ostype", type=number(0, 255), metavar="N", help="the system that this node says it is (default 18)")
    parser.add_argument("--filesys", type=number(0, 255), metavar="N", help="its file system (default 13)")
    parser.add_argument("--syscap", type=hex_word, metavar="HEX",
                        help="what it says that it can do (default 2001c3466: what it can)")


def add_keeping(parser):
    parser.add_argument("--files", metavar="FILE", help="files at the start, as `files` of a live end prints them")
    keeping = parser.add_mutually_exclusive_group()
    keeping.add_argument("--save", metavar="FILE", help="where the files are kept, as soon as a file is closed")
    keeping.add_argument("--store", metavar="FILE",
                         help="where each change is kept before it is answered, and the open link with it")
    keeping.add_argument("--folder", metavar="DIR",
                         help="a folder whose text files are served, and written back when they are closed")
    parser.add_argument("--sync", choices=SYNCS, help="with --store: when the disk has to have it (default answers)")
    parser.add_argument("--growth", type=number(1 << 20, 1 << 40), metavar="BYTES",
                        help="with --store: close a link that lets it grow by more (default 1073741824)")


def add_names(parser):
    parser.add_argument("--names", choices=KINDS_OF_NAMES,
                        help="whether DATA.TXT;1, [DIR]DATA.TXT and data.txt are one name: exact, no; folded, yes; versions, yes, and "
                             "a file that is made anew is its next version (default versions, but what has files goes on as it was made)")
    parser.add_argument("--keep", type=number(1, MAX_VERSION), metavar="N",
                        help="with --names versions: one more than this many of a file replaces the lowest, 1 to 32767 (default 3, with "
                             "--folder 1)")


def add_entry(parser):
    parser.add_argument("--users", metavar="FILE", help="who may enter, with which password; else anybody may")
    parser.add_argument("--allow", metavar="NODE", nargs="+", action="extend", help="only these nodes may enter")


def add_limits(parser):
    parser.add_argument("--unused", type=number(1, 86400, float), metavar="SECONDS",
                        help="close a link after this many seconds without a request (default 900)")
    parser.add_argument("--waiting", type=number(64, 1 << 30), metavar="BYTES",
                        help="of the live end: serve no more while this many bytes of answers wait (default 1048576)")
    parser.add_argument("--space", type=number(1 << 10, 1 << 40), metavar="BYTES",
                        help="close a link that stores more than this, as FILE has it (default 268435456)")
    parser.add_argument("--links", type=number(1, 1023), metavar="N",
                        help="take this many links at once, 1 to 1023 (default 16)")
    parser.add_argument("--stop-after", type=number(1, 1_000_000_000), metavar="N", help="stop after this many links")


def add_patience(parser):
    parser.add_argument("--patience", type=number(0.1, 86400, float), metavar="SECONDS",
                        help="give up after this many seconds without progress of a request (default 120)")


def add_access(parser):
    """What a role that opens a link says of who asks."""
    parser.add_argument("--user", type=image_word, metavar="NAME", help="access control: at most 39 bytes each")
    parser.add_argument("--account", type=image_word, metavar="NAME")
    password = parser.add_mutually_exclusive_group()
    password.add_argument("--password", type=image_word, metavar="WORD",
                          help="which others see in the list of processes")
    password.add_argument("--password-file", metavar="FILE", help="its first line is the password")
    password.add_argument("--password-env", metavar="NAME", help="the environment variable that has the password")


def add_asking(parser):
    parser.add_argument("--to", metavar="NODE", help="the node that has the files")
    parser.add_argument("--go-on", action="store_true", help="go on after a request that was refused")


def add_copying(parser):
    parser.add_argument("--append", action="store_true", help="put the records after those of the other node's file")
    parser.add_argument("--relative", action="store_true", help="a relative file: lines are N<TAB>TEXT")
    parser.add_argument("--fixed", type=number(1, RECORD_LIMIT), metavar="BYTES",
                        help="store records of this many bytes, and no lines")
    parser.add_argument("--lines", action="store_true", help="write a line for each record, also of one length")
    parser.add_argument("--replace", action="store_true", help="write a file of this host anew")


def add_probing(parser):
    parser.add_argument("--to", metavar="NODE", help="the node whose file access listener is tested")
    parser.add_argument("--quiet", type=number(0.01, 60, float), metavar="SECONDS",
                        help="an answer is over when nothing came for this time (default 2)")
    parser.add_argument("--only", metavar="NAME", nargs="+", action="extend", help="only these conversations")
    parser.add_argument("--against", metavar="FILE",
                        help="compare with answers that --keep wrote, in place of those of the proved end")
    parser.add_argument("--dapcap", metavar="PROGRAM", help=dapcap.HELP)


def add_answers(parser):
    parser.add_argument("--keep", dest="answers", metavar="FILE", help="write the answers to a new file")


# ---- what isn't an option


def add_copied(parser):
    parser.add_argument("source", metavar="FROM", help="NODE::NAME, or a file of this host, or - for standard input")
    parser.add_argument("target", metavar="TO", help="NODE::NAME, or a file of this host, or - for standard output")


def add_source(parser):
    parser.add_argument("source", metavar="NODE::NAME")


def add_gotten(parser):
    parser.add_argument("--number", required=True, type=number(1, MAX_NUMBER), metavar="N", help="the record's number")


def add_changed(parser):
    parser.add_argument("target", metavar="NODE::NAME")
    parser.add_argument("record", metavar="TEXT", type=os.fsencode)


def add_put(parser):
    parser.add_argument("--number", type=number(1, MAX_NUMBER), metavar="N",
                        help="the record's number (default after all others)")


def add_password(parser):
    parser.add_argument("user", metavar="NAME", help="whose password is on standard input")
    parser.add_argument("--rights", type=rights_word, metavar="RIGHTS",
                        help="the most that the user may do with files: get, put, upd, del, with commas between them (default all)")


# ---- the roles


@dataclass(frozen=True)
class Kind:
    """What a role does, its words and an example of them; its own options, those of all that open a link, and other words."""

    text: str
    usage: str
    example: str
    own: tuple
    access: tuple = ()
    others: tuple = ()

    @property
    def groups(self):
        """Its options under their titles, its own ones first."""
        if not self.own:
            return ()
        identity = () if add_probing in self.own else (add_identity,)
        return (("options of this command", self.own), *((("access control", self.access),) if self.access else ()),
                ("options of the network", (add_network,)), ("options of the link and of the live end", (add_link, *identity)),
                ("options for tests", (add_tests,)))


WAY = "--udp 4711:localhost:4712 --node"
CLIENT = {"access": (add_access,)}
ROLES = {
    "serve": Kind("take links to object 17 (FAL)", "", f"{WAY} 1.2 --folder DIR",
                  (add_keeping, add_names, add_entry, add_limits)),
    "ask": Kind("ask a node for what standard input says", "<REQUESTS", f"--to 1.2 {WAY} 1.1 <REQUESTS", (add_asking, add_patience),
                **CLIENT),
    "copy": Kind("copy a file from a node, or to one", "FROM TO", f"DATA.TXT 1.2::DATA.TXT {WAY} 1.1", (add_copying, add_patience),
                 others=(add_copied,), **CLIENT),
    "type": Kind("write a node's file as text", "NODE::NAME", f"1.2::DATA.TXT {WAY} 1.1", (add_patience,), others=(add_source,), **CLIENT),
    "get": Kind("write a record of a node's file", "NODE::NAME --number N", f"1.2::REL.DAT --number 3 {WAY} 1.1",
                (add_patience,), others=(add_source, add_gotten), **CLIENT),
    "put": Kind("put a record into a node's file", "NODE::NAME TEXT", f"1.2::DATA.TXT 'one more line' {WAY} 1.1",
                (add_put, add_patience), others=(add_changed,), **CLIENT),
    "probe": Kind("test a node's file access listener beside the proved one", "--to NODE", f"--to 1.2 {WAY} 1.1",
                  (add_probing, add_answers, add_patience), **CLIENT),
    "password": Kind("print the line of --users for a user and the password on standard input", "NAME [--rights RIGHTS]",
                     "SMITH --rights get,put >>users", (), others=(add_password,)),
}


def build():
    """The parser of all words, and that of each role."""
    parser = Parser(prog="bridge.py", usage="bridge.py COMMAND ..", epilog="bridge.py COMMAND --help has the words of a command.",
                    description="One DECnet Phase IV end node before one live end of a DAP file access.")
    parser.add_argument("--version", action=Version, nargs=0, help="the version of this repository")
    parser.add_argument("--completion", action=Completion, nargs=0, help="a script by which bash completes these words")
    roles = parser.add_subparsers(dest="role", required=True, metavar="COMMAND")
    found = {}
    for name, kind in ROLES.items():
        usage = " ".join(filter(None, ("bridge.py", name, kind.usage, "[OPTIONS]" if kind.own else "")))
        found[name] = roles.add_parser(name, prog=f"bridge.py {name}", usage=usage, help=kind.text,
                                       description=f"{kind.text[0].upper()}{kind.text[1:]}.",
                                       epilog=f"example: bridge.py {name} {kind.example}")
        for add in kind.others:
            add(found[name])
        add_groups(found[name], name)
    return parser, found


def add_groups(parser, role, without=()):
    for title, adding in ROLES[role].groups:
        group = parser.add_argument_group(title)
        for add in adding:
            if add not in without:
                add(group)


def options_of(role):
    """A parser of those options of a role that a file of options may have. There --keep is a number of versions."""
    parser = Parser(prog="bridge.py", add_help=False, usage=argparse.SUPPRESS)
    add_groups(parser, role, without=(add_answers,))
    return parser


# ---- what was given


class Words:
    """The words that were given, and for the others what holds then."""

    def __init__(self, given):
        self.given = given

    def __getattr__(self, name):
        return self.given.get(name, BUFFERS.get(self.given["role"]) if name == "buffer" else DEFAULTS.get(name))


def read(words=None):
    """The words, those of the command line by default. Mistake where they are wrong."""
    parser, roles = build()
    words = sys.argv[1:] if words is None else words
    check_command(parser, words)
    given, unknown = parser.parse_known_args(words)
    given = vars(given)
    role = roles[given["role"]]
    if unknown:
        role.error(no_option(role, unknown[0]))
    if given["role"] == "password":
        return Words(given)
    found = Words({**from_file(role, given), **given})
    find_nodes(role, found)
    check(role, found)
    check_copy(role, given, found)
    return found


def check_command(parser, words):
    """Looks whether the first word is a command."""
    word = words[0] if words else ""
    if word in (*ROLES, *parser.names):
        return
    known = f"the commands are {', '.join(ROLES)}"
    if not word or word.startswith("-"):
        parser.error(f"the first word has to be a command: {known}")
    if word.lower() in NO_COMMANDS:
        parser.error(f"no command '{shown(word)}', since {NO_COMMANDS[word.lower()]}; {known}")
    parser.error(f"no command '{shown(word)}'{nearest(word, ROLES)}; {known}")


def no_option(role, word):
    """What to say of a word that a role doesn't know."""
    word = word.partition("=")[0]
    if not word.startswith("-"):
        return f"one word too many: '{shown(word)}'"
    return f"no option {shown(word)}{nearest(word, role.names)}"


def nearest(word, known):
    """Which word may be meant."""
    found = difflib.get_close_matches(word, known, 1)
    return f" (did you mean {found[0]}?)" if found else ""


def config_file(name):
    """A file that is read where it is there."""
    folder = os.environ.get("XDG_CONFIG_HOME") or os.path.expanduser("~/.config")
    path = os.path.join(folder, "daplive", name)
    return path if os.path.exists(path) else None


def from_file(role, given):
    """What the file of options gives to a role, besides what was given."""
    path = given.get("options") or config_file("options")
    if path is None:
        return {}
    parsers = {name: options_of(name) for name in ROLES}
    own, words = parsers[given["role"]], []
    try:
        for line, some in options.read_lines(path):
            words += options.known(some, own, list(parsers.values()), line)
        found = vars(own.parse_args(words))
    except (OSError, ValueError, Mistake) as fault:
        role.error(f"{path}: {getattr(fault, 'strerror', None) or fault}")
    for group in GROUPS:
        if any(name in given for name in group):
            found = {name: value for name, value in found.items() if name not in group}
    return found


def find_nodes(parser, words):
    """Replaces names and addresses by nodes."""
    path = words.nodes or config_file("nodes")
    try:
        names = read_names(path) if path else NodeNames()
    except (OSError, ValueError) as fault:
        parser.error(f"--nodes {path}: {getattr(fault, 'strerror', None) or fault}")
    name = None
    try:
        for name in ("node", "router", "to"):
            if getattr(words, name) is not None:
                words.given[name] = find(getattr(words, name), names)
        name = "allow"
        if words.allow:
            words.given["allow"] = [find(text, names) for text in words.allow]
    except ValueError as fault:
        parser.error(f"--{name}: {fault}")
    if words.role in PEOPLE:
        find_file(parser, words, names)


def find_file(parser, words, names):
    """Which file of which node the words name, as `remote`; the other one, if any, is `host`."""
    named = [text for text in (words.source, words.target) if text is not None]
    remote = [text for text in named if is_remote(text)] or [text for text in named if is_meant_remote(text)] or named
    if len(remote) != 1:
        parser.error(f"{'only one of FROM and TO may' if is_meant_remote(remote[0]) else 'one of FROM and TO has to'} be NODE::NAME")
    try:
        words.given["remote"] = read_remote(remote[0], names)
    except ValueError as fault:
        parser.error(str(fault))
    words.given["to"] = words.remote.node
    words.given["host"] = next((text for text in named if text != remote[0]), None)
    words.given["is_stored"] = words.target == remote[0]


def check(parser, words):
    """Looks whether all is there that the role needs, and reads the password from where the words say."""
    if all(getattr(words, name) is None for name in GROUPS[0]):
        parser.error("one of --interface and --udp is needed")
    if words.node is None:
        parser.error("--node is needed")
    for name in ("sync", "growth"):
        if name in words.given and words.store is None:
            parser.error(f"--{name}: only with --store")
    if words.folder is not None and words.files is not None:
        parser.error("--files: not with --folder, which has the files")
    words.given.setdefault("daplive", os.environ.get("DAPLIVE") or DAPLIVE)
    if words.role == "serve":
        check_names(parser, words)
    else:
        check_other(parser, words)


def check_names(parser, words):
    """The same of versions. Where no names are asked for it is said later, by what keeps the files, whether they have some."""
    if words.names is not None:
        fault = fault_of_keep(words)
        if fault:
            parser.error(fault)


def fault_of_keep(words):
    """What is wrong with how many versions are kept; None where nothing is."""
    return None if words.keep is None or words.names == VERSIONS else f"--keep {words.keep}: goes with --names versions alone"


def check_copy(parser, given, words):
    """Looks whether what was given for a copy, besides the file of options, means something in its direction."""
    for name in ("replace", "lines") if words.is_stored else ("append", "fixed"):
        if given["role"] == "copy" and name in given:
            where = "a file of this host that is written" if words.is_stored else "a file that is stored on the other node"
            parser.error(f"--{name}: only for {where}")


def check_other(parser, words):
    """The same for a role that opens a link."""
    if words.to is None:
        parser.error("--to is needed")
    for name in words.only or ():
        if name not in TALKS:
            parser.error(f"--only: no conversation '{name[:40]}'; there are: {', '.join(TALKS)}")
    if words.to == words.node:
        parser.error(f"node {node_text(words.to)} is this node itself")
    password = read_password(parser, words)
    images = words.remote.images if words.remote else ()
    if images and (words.user or words.account or (password and len(images) > 1)):
        parser.error("a user, a password or an account is given twice")
    images = [*images, b"", b""] if images else [words.user, b"", words.account]
    words.given["images"] = (images[0], images[1] or password, images[2])


def read_password(parser, words):
    """The password from where the words say."""
    try:
        if words.password_file is not None:
            with open(words.password_file, "rb") as file:
                return image_word(os.fsdecode(file.readline(PASSWORD_LIMIT).rstrip(b"\r\n")))
        if words.password_env is not None:
            return image_word(os.environ[words.password_env])
    except (OSError, ValueError) as fault:
        parser.error(f"--password-file {words.password_file}: {getattr(fault, 'strerror', None) or fault}")
    except KeyError:
        parser.error(f"--password-env {words.password_env}: no such variable")
    except argparse.ArgumentTypeError as fault:
        parser.error(f"the password: {fault}")
    return words.password or b""


def read_or_end(closed):
    """The words; wrong ones end the program with a text and status 2, and those that ask for a text with that one."""
    try:
        return read()
    except Mistake as fault:
        print(fault.text, file=sys.stderr)
        sys.exit(program.WORDS)
    except Asked as text:
        if 1 in closed:
            print("bridge.py: standard output: closed", file=sys.stderr)
            sys.exit(program.FAULT)
        print(text, end="", flush=True)
        sys.exit()
