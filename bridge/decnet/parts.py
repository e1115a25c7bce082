"""The parts of a bridge, made by the words of the command line. What is `opened` is closed by who asks for it."""
import dataclasses
import os
import re

from decnet import frames, log, naming, nsp, privileges, program, routing, udp, wire
from decnet.client import InputFault
from decnet.directory import Directory
from decnet.end import Answer, End, EndFault
from decnet.folder import OTHERS, Folder, open_others
from decnet.folds import Folds
from decnet.hostfile import HostFault
from decnet.journal import Journal
from decnet.kept import KeptFile, read_lines
from decnet.link import MAX_PACKET, Settings
from decnet.locked import KeptFault
from decnet.pcap import Pcap
from decnet.role import Signals, finish, run, wait_for
from decnet.server import Entry, load, replay
from decnet.stored import Store, StoredEnd, program_of
from decnet.users import Guard, Users
from decnet.versions import VersionsFolder
from decnet.waiting import MOST, WINDOW
from decnet.words import EXACT, VERSIONS, fault_of_keep

OF_END = ("window", "buffer", "ostype", "filesys", "syscap")  # options of a live end, as it has them
OF_NAMES = ("names", "keep")
OF_SERVER = (*OF_END, "waiting", *OF_NAMES, "links")
COUNTED = ("window", "waiting", "links")  # those that the bridge counts with
NO_OPTION = {"links": 1}  # a live end that isn't told how many has one, whose lines don't name it
OF_LINES = re.compile(r"(daplive: line|bad line) \d+")  # the live end counts lines that the user never saw


def open_signals(words, opened, with_times=False):
    """The log, and the signals that stop the bridge."""
    return opened(Signals(opened(log.start("bridge", words.log, with_times))))


def settings_of(words):
    """What holds for all links."""
    return Settings(words.segment, words.resend, words.tries, words.idle, window=words.window or WINDOW)


def settings_of_server(words):
    """The same where links are served."""
    return dataclasses.replace(settings_of(words), unused=words.unused, waiting=words.waiting or MOST, links=words.links)


def open_node(words, opened):
    """The end node, on what carries its frames. From then on root isn't needed."""
    tap = opened(Pcap(words.pcap)) if words.pcap is not None else None
    harm = routing.Harm(words.harm, words.seed) if words.harm else None
    node = opened(routing.EndNode(open_wire(words), words.node, words.router, harm, tap))
    privileges.give_up(words)
    return node


def open_wire(words):
    if words.frames is not None:
        return wire.given(words.frames)
    if words.udp is not None:
        return udp.Udp(words.udp)
    longest = frames.BEFORE_PACKET + MAX_PACKET - nsp.MAX_SEGMENT + words.segment
    return wire.interface(words.interface, words.node, longest)


def words_of_end(words):
    """The words of the live end."""
    is_server = words.role == "serve"
    return ["serve" if is_server else "ask", *spelled(words, OF_SERVER if is_server else OF_END)]


def spelled(words, names):
    """The options of these names that the live end has to be told, each with its value."""
    held = {name: getattr(words, name) for name in names}
    return [word for name, value in held.items() if value not in (None, NO_OPTION.get(name)) for word in (f"--{name}", str(value))]


def start_end(words, signals):
    """The live end, which answers."""
    has_links = words.role == "serve" and words.links > 1
    kind = End if words.store is None else StoredEnd
    end = kind(words.daplive, words_of_end(words), told=tell_of_end)
    try:
        answers = []
        end.tell("files" if has_links else "new", Answer(answers.append))
        wait_for(lambda: answers, end, signals)
    except BaseException:
        end.close()
        raise
    return end


def tell_of_end(text):
    """What the live end says on standard error; what it says of lines is reported where its answer is read."""
    if not OF_LINES.match(text):
        log.say(text)


def keep_file(words):
    """Where the files are kept that are saved when one is closed; None where they aren't."""
    if words.folder is not None:
        return open_folder(words)
    if words.store is None:
        naming.settle_by_files(words)
    if words.save is None:
        return None
    kept = KeptFile(words.save, words.files, naming.line_of(words) if words.names else None)
    if kept.is_new:
        log.say(f"{words.save}: a new file")
    return kept


def open_folder(words):
    """The folder of --folder, whose names are compared as `.daplive` says. A new one has versions."""
    directory = Directory(words.folder)
    try:
        others = open_others(directory)
        said = None if others is None else naming.said_in(others)
        naming.settle(words, directory.path_to(OTHERS), said, VERSIONS if others is None else EXACT, keep=1)
    except BaseException:
        directory.close()
        raise
    kind = VersionsFolder if words.names == VERSIONS else Folder
    return kind(directory, naming.line_of(words), is_due=said != naming.line_of(words))


def load_files(words, kept, end, space, signals):
    """Gives a live end its files; whether some aren't yet where they are kept."""
    if words.folder is not None:
        if words.names == VERSIONS:
            kept.folds = Folds(End(words.daplive, ["serve", "--names", VERSIONS], told=tell_of_end))
        load(end, words.folder, kept.read_lines(), space, signals, kept)
        for text in kept.said():
            log.say(text)
        return False
    if words.files is None:
        return False
    load(end, words.files, read_lines(words.files), space, signals)
    return kept is not None and not os.path.samefile(words.files, words.save)


def open_journal(words, opened):
    """The file of --store. Options that aren't given may be those that it was made with."""
    journal = opened(Journal(words.store, words.sync))
    if not journal.is_empty:
        go_on_as_made(words, journal)
    if journal.has_no_files:
        naming.settle_by_files(words)
    fault = fault_of_keep(words)
    if fault:
        raise program.Fault(fault, program.WORDS)
    return journal


def go_on_as_made(words, journal):
    """Recalls all options where there are packets. Where the files alone are there it recalls how names are compared."""
    made_with = journal.made_with
    if journal.parsed.told:
        if recall(words, made_with):
            log.say(f"{words.store}: it has packets, and goes on with the options that it was made with: '{made_with}'")
    elif "names" in options_in(made_with) and recall(words, made_with, OF_NAMES) and words.names != EXACT:
        what = "it has versions of files, and" if words.names == VERSIONS else "it"
        log.say(f"{words.store}: {what} goes on with {' '.join(spelled(words, OF_NAMES))}")


def options_in(made_with):
    """The options of a live end, by its words."""
    _, *made = made_with.split(" ")
    return {name[2:]: value for name, value in zip(made[::2], made[1::2])}


def recall(words, made_with, names=OF_SERVER):
    """Those of these options of the live end that aren't given are as in its words; whether that changes any."""
    before, found = words_of_end(words), {name: NO_OPTION.get(name) for name in OF_SERVER} | options_in(made_with)
    try:
        found.update({name: int(found[name]) for name in COUNTED if found[name] is not None})
    except ValueError:  # these are no words of a bridge, and the store isn't taken
        return False
    recalled = {name: found[name] for name in names if name not in words.given}
    if words.given.get("names", found["names"]) != VERSIONS:
        recalled.pop("keep", None)
    words.given.update(recalled)
    return words_of_end(words) != before


def open_store(words, journal, opened, end, space, signals):
    """What it keeps: the live end is again as it was; and the links to continue."""
    journal.begin(f"{program_of(end)} {' '.join(end.words)}")
    is_new, is_good = journal.is_empty, not journal.is_empty and journal.parsed.lines[0] == journal.head()
    if is_new:
        log.say(f"{words.store}: a new store")
        if words.files is not None:
            load(end, words.files, read_lines(words.files), space, signals)
    elif words.files is not None:
        raise KeptFault(f"{words.store}: it has files, and --files would add to them")
    has_packets, left = bool(journal.parsed.told), replay(end, journal, space, signals)
    journal.go_on()
    store = opened(Store(end, journal, words.growth))
    going_on = [link for link in left if link.can_go_on]
    if words.links > 1:
        for link in left:
            if link not in going_on:
                end.tell(f"close {link.local:04x}", Answer(lambda answer: None))
    if not going_on and (has_packets or not is_good):
        renew_now(store, end, signals)
    return store, going_on


def renew_now(store, end, signals):
    """Writes a store anew before any link is taken; a fault where that can't be."""
    faults = []
    store.renew(faults.append)
    wait_for(lambda: faults, end, signals, files=store.files)
    if faults[0]:
        raise faults[0]


def open_entry(words, opened):
    """Who may enter."""
    guard = None
    if words.users is not None:
        users = Users(words.users)
        if users.is_seen_by_others():
            log.say(f"{words.users}: others can read it: chmod 600 {words.users}")
        guard = opened(Guard(users))
    return Entry(frozenset(words.allow) if words.allow else None, guard)


def end_beside(words):
    """A live end that serves nobody, for a probe."""
    end = End(words.daplive, ["serve"], told=tell_of_end)
    end.say("new")
    return end


def carry(role, signals):
    """Runs the role; at a fault the link, and what can still be saved, is seen to."""
    try:
        return run(role, signals)
    except wire.WireFault:
        role.lose_network()
        finish(role, signals)
        raise
    except (EndFault, InputFault, HostFault, BrokenPipeError):
        role.abandon()
        raise
