"""A folder of this host whose text files are served: each is a sequential file, a line a record, and is written back when
it is closed.

A file of the host says nothing of its attributes. It is served with the record attribute CR: a record is a line. Where a link
made it with others, `.daplive` has a comment of it, `# text NAME DIGEST KEPT`, with the digest of its lines and what is kept with
it; that holds as long as its lines are these.

Files that links make and that are no text, or whose names no file here can have, are kept in the folder's file `.daplive`, as
`files` prints them, and stay there. A file of the host is never hidden for long, and never lost: what links have put in its place is
kept in `.daplive`, and is what they see until the host changes its file, or until the next start. Then the host's file is served, and
the kept one beside it as `NAME.put`. A file that somebody else has edited meanwhile is never overwritten: it gets another name.
"""
import functools
import hashlib
import os
import re
from dataclasses import dataclass

from decnet import dap, messages, tables
from decnet.directory import Directory, shown
from decnet.kept import FILE, HEAD, MARK, RECORD, read_lines
from decnet.locked import KeptFault, fault_of
from decnet.texts import TextFault, lines_of, records_of

OTHERS = b".daplive"
TEXT = "seq variable 0 0"  # how the attributes of a text begin
KEPT = " kept="  # before what is kept besides: an Attributes message, in hex
STREAMS = tuple(number for number, word in tables.RFM.items() if word.startswith("stream"))
BIT_OF = {word: bit for bit, word in tables.RAT.items()}
LINE, BLOCKS = 1 << BIT_OF["CR"], 1 << BIT_OF["BLK"]  # RAT: a record is a line; it may not span blocks
OF_HOST = messages.attributes(rat=LINE).hex()  # what is kept with a text of the host
TEXT_NOTE = "# text "
NOTE_FORM = re.compile(r"# text (-|(?:[0-9a-f]{2})+) ([0-9a-f]{64}) (-|(?:[0-9a-f]{2})+)(?: ([1-9][0-9]{0,4}))?")
HIDDEN = b"."
DROP = "drop "  # how a line begins that removes a file
EDITED = b".host"  # after the name of a file that somebody edited meanwhile
PUT = b".put"  # after the name of a kept file where the host has one of that name
MAX_NAME = 200  # bytes of a name here: there has to be room for what is put after it
MAX_TOLD = 5  # files that aren't served, by name
MAX_REMEMBERED = 64  # attributes of which it is remembered whether they are a text's
NAME_TAKEN = "refused 4000 1"  # a live end has a file of that name
NO_FILE = "refused 4032 0"  # a live end refused the file of a record


@dataclass(frozen=True)
class Note:
    """What is known of a text by its lines: their digest, what a link made it with, in hex, and the number of its version."""

    digest: bytes
    kept: str
    number: int = 0  # where there are versions

    def line(self, name):
        """The comment that says so."""
        return f"{TEXT_NOTE}{digits(name)} {self.digest.hex()} {self.kept or '-'}" + (f" {self.number}" if self.number else "")


def digits(data):
    return data.hex() or "-"


def bytes_in(word):
    return b"" if word == "-" else bytes.fromhex(word)


def name_in(line):
    """The name in a line that begins a file."""
    return bytes_in(line.split(" ")[1])


def is_host_name(name):
    """Whether a file here can have this name: it is printable, isn't hidden, and leads to no other folder."""
    text = name.decode("utf-8", "replace")
    is_text = text.isprintable() and "\N{REPLACEMENT CHARACTER}" not in text
    return 0 < len(name) <= MAX_NAME and not name.startswith(HIDDEN) and b"/" not in name and is_text


def kept_of(attributes):
    """What is kept with a file of these attributes besides its shape, in hex; nothing where nothing is."""
    return attributes.partition(KEPT)[2]


def attributes_of(kept):
    """The attributes of a text with which this is kept."""
    return f"{TEXT}{KEPT}{kept}" if kept else TEXT


def names_of(rat):
    """The bits of RAT by their names."""
    return "+".join(tables.RAT.get(bit, f"bit {bit}") for bit in range(rat.bit_length()) if rat >> bit & 1)


@functools.lru_cache(MAX_REMEMBERED)
def why_no_lines(attributes):
    """Why a file of these attributes is no text, whatever its records are; nothing where it may be one."""
    shape, _, kept = attributes.partition(KEPT)
    why = "its records aren't the lines of a text"
    if shape != TEXT:
        return why
    try:
        fields = read_kept(kept)
    except dap.Unread:
        return why
    rat = fields.get("rat", 0)
    if "rfm" in fields and fields["rfm"] not in STREAMS:
        return f"{why} (RFM {tables.RFM.get(fields['rfm'])})"
    if rat & ~BLOCKS not in (0, LINE):
        return f"{why} (RAT {names_of(rat)})"
    return why if "fsz" in fields else ""


def read_kept(kept):
    """The fields of what is kept, by their names; Unread where a live end doesn't print it so."""
    if not kept:
        return {}
    found = [dap.read_attributes(operand) for _, operand in dap.messages(bytes.fromhex(kept))]
    if len(found) != 1 or messages.attributes(**found[0]).hex() != kept:
        raise dap.Unread
    return found[0]


def why_no_text(attributes, records):
    """Why records don't come back as they are when they are read from the lines of a text; nothing where they do."""
    why = why_no_lines(attributes)
    if why:
        return why
    for number, one in enumerate(records, 1):
        if b"\n" in one or one.endswith(b"\r"):
            return f"record {number} has an LF, or a CR at its end, and is no line of a text"
    return ""


def text_of(records):
    return b"".join(one + b"\n" for one in records)


def digest_of(records):
    return hashlib.sha256(text_of(records)).digest()


def lines_of_file(name, attributes, numbered):
    """The lines of a file, as `files` prints it."""
    return [f"{FILE}{digits(name)} {attributes}", *(f"{RECORD}{number} {digits(one)}" for number, one in numbered)]


def files_in(lines):
    """The files in lines, each with its name and its lines."""
    files = []
    for line in lines:
        if line.startswith(FILE):
            files.append((name_in(line), []))
        if files:
            files[-1][1].append(line)
    return files


def open_others(directory):
    """Opens OTHERS; None where there is none, and a KeptFault where it can't be read or is no plain file."""
    if directory.find(OTHERS) is None:
        return None
    kind = directory.kind_of(OTHERS)
    if kind:
        raise KeptFault(f"{directory.path_to(OTHERS)}: it is {kind}, and no plain file")
    try:
        return directory.open(OTHERS)
    except TextFault as fault:
        raise KeptFault(str(fault), of_machine=True) from fault


class Folder:
    """A folder that is served, and what is known of each file in it."""

    AGAIN = b".%d"  # what is after a name that is taken
    TAKEN = "another file has this name"  # why a live end refuses a file

    def __init__(self, place, head=None, is_due=False):
        """`place` is a path, or a folder that is locked already; `head` says in OTHERS how names are compared, if it is still to be
        written where that `is_due`. A KeptFault where it is no folder that can be written, or another bridge serves it."""
        self.directory = place if isinstance(place, Directory) else Directory(place)
        self.path, self.head = self.directory.path, head
        self.known = {}  # by name: the digest of the records that are on the disk, and the state of the file that has them
        self.left = {}  # by name: the state of a file that isn't served as it is now, which was told
        self.made = set()  # names of files that weren't here before a link made them
        self.served = set()  # names of files that a live end was given at first, or had when it listed them last
        self.alike = set()  # of these the ones that a live end refused: another file has the name
        self.kept = {}  # by the name of a file in OTHERS: the state of the file of this host that it stands in for, or None
        self.others, self.is_due = [], is_due  # the lines that are in OTHERS; whether it is still to be written
        self.notes = {}  # by the name of a text, in OTHERS: its Note
        self.unserved = {}  # by the name of a file in OTHERS that a live end refused: its lines
        self.given = ()  # the names of the files that a live end was given last
        self.told = []  # what is to be said

    def path_to(self, name):
        return self.directory.path_to(name)

    # ---- reading

    def read_lines(self):
        """The lines of all files, each with a number, for a live end."""
        try:
            yield from enumerate(self.lines(), 1)
        except OSError as fault:
            raise KeptFault(f"{os.fsdecode(fault.filename or self.path)}: {fault.strerror}", of_machine=True) from fault

    def lines(self):
        """The files of this host, and after them those in OTHERS."""
        others = self.read_others()
        for name in self.names_here():
            yield from self.changes_of(name)
        self.tell_count()
        self.served = set(self.known)
        self.kept = dict.fromkeys(name for name, _ in files_in(others))
        for name in sorted(self.kept.keys() & self.known.keys()):
            _, others = self.stand_beside(others, name)
        self.kept.update((name, self.left[name]) for name in self.kept.keys() & self.left.keys())
        self.try_to_write_others(others)
        yield from others

    def names_here(self):
        """The names of the plain files that may be served."""
        return [name for name in self.directory.names() if is_host_name(name) and not self.directory.kind_of(name)]

    def tell_count(self):
        """Says what is served, and what isn't."""
        names = [name for name in self.directory.names() if not name.startswith(HIDDEN)]
        kinds = [(name, self.directory.kind_of(name)) for name in names if name not in self.known and name not in self.left]
        others = [f"{shown(name)} ({kind or 'its name'})" for name, kind in kinds]
        if others:
            more = [f"{len(others) - MAX_TOLD} more"] if len(others) > MAX_TOLD else []
            self.told.append(f"{self.path}: not served: {', '.join(others[:MAX_TOLD] + more)}")

    def read_others(self):
        """The lines in OTHERS; a KeptFault where they aren't whole, or it is no plain file. What a bridge that was killed had begun
        to write is removed."""
        for name in self.directory.names():
            self.directory.clear(name)
        file = open_others(self.directory)
        if file is not None:
            self.others = [line for _, line in read_lines(self.path_to(OTHERS), file, self.read_note)]
        return self.others

    def read_note(self, number, line):
        """A comment in OTHERS: what is kept with a text, or nothing of that."""
        if not line.startswith(TEXT_NOTE):
            return
        found = NOTE_FORM.fullmatch(line)
        kept = found[3].replace("-", "") if found else ""
        if not found or why_no_lines(attributes_of(kept)):
            raise KeptFault(f"{self.path_to(OTHERS)}: line {number}: not what is kept with a text")
        self.notes[bytes_in(found[1])] = Note(bytes.fromhex(found[2]), kept, int(found[4] or 0))

    def attributes(self, name, digest):
        """The attributes of a text of which the records have this digest."""
        note = self.notes.get(name)
        return attributes_of(note.kept if note and note.digest == digest else OF_HOST)

    def read(self, name):
        """The records of a file, and its state before they were read."""
        data, state = self.directory.read(name)
        try:
            return records_of(data), state
        except TextFault as fault:
            raise TextFault(f"{self.path_to(name)}: {fault}") from fault

    def said(self):
        """What is to be said, once."""
        said, self.told = self.told, []
        return said

    def leaves_out(self, line, answer):
        """A live end refuses a line. Whether it goes on without it, as where another file has the name: that is told, and the
        file is left alone."""
        if not line.startswith(FILE):
            for name in self.given if answer != NO_FILE else ():
                self.leave(name)
            return answer == NO_FILE
        name = self.leave(name_in(line))
        if answer == NAME_TAKEN:
            self.alike.add(name)
            where = "it stays in .daplive, and " if name in self.unserved else ""
            self.told.append(f"{self.path_to(name)}: {self.TAKEN}: {where}it isn't served")
        return answer == NAME_TAKEN

    def leave(self, name):
        """Leaves a file alone that the live end may not have, or not all of: what stands on the disk stays there. Its name here."""
        if self.known.pop(name, None):
            self.left[name] = self.directory.state_of(name)
        elif name in self.kept:
            self.unserved[name] = dict(files_in(self.others)).get(name, [])
        return name

    # ---- what somebody else does

    def changes(self):
        """The lines by which a live end has what somebody did here since: files that are gone or have changed are dropped,
        and those that are new, or have changed, are given."""
        lines = []
        try:
            self.directory.check_there()
            there = self.names_here()
            lines += [self.dropped(name) for name in self.forget(set(there))]
            for name in there:
                lines += self.changes_of(name)
        except OSError as fault:
            self.told.append(f"{os.fsdecode(fault.filename or self.path)}: {fault.strerror}")
        self.given = [name for name, _ in files_in(lines)]
        return lines

    def forget(self, there):
        """Forgets what was told of files that are gone; where one that was served is gone, another may have its name now. The names of
        those that a live end has yet."""
        gone = sorted(self.known.keys() - there)
        if gone:
            self.left = {name: state for name, state in self.left.items() if name not in self.alike}
            self.alike.clear()
        self.left = {name: state for name, state in self.left.items() if name in there}
        self.kept = {name: state if name in there else None for name, state in self.kept.items()}
        return gone

    def dropped(self, name):
        """The line by which a live end forgets a file that is known."""
        del self.known[name]
        return f"{DROP}{digits(name)}"

    def changes_of(self, name):
        """The same of a file that is here."""
        before, state_before = self.known.get(name, (None, None))
        state = self.directory.state_of(name)
        if state in (None, state_before, self.left.get(name), self.stands_for(name)):
            return []
        try:
            records, state = self.read(name)
        except TextFault as fault:
            self.left[name] = state
            is_served = before is not None or name in self.kept
            self.told.append(f"{fault}: it is served as it was" if is_served else f"{fault}: it isn't served")
            return []
        self.left.pop(name, None)
        digest = digest_of(records)
        lines = self.lines_to_give(name, digest, records) if digest != before else []
        self.known[name] = (digest, state)
        return lines

    def stands_for(self, name):
        """The state of a file here for which links see a kept one; None where they don't."""
        return self.kept.get(name)

    def lines_to_give(self, name, digest, records):
        """The lines by which a live end has a file that is new here or has changed."""
        lines = [] if name not in self.known and name not in self.kept else [f"{DROP}{digits(name)}"]
        lines += lines_of_file(name, self.attributes(name, digest), enumerate(records, 1))
        return lines + (self.give_beside(name) if name in self.kept else [])

    # ---- what links put in the place of a file of this host

    def give_beside(self, name):
        """The lines by which a live end has a kept file under another name, since the host's file is served again."""
        put, others = self.stand_beside(self.others, name)
        self.try_to_write_others(others)
        return dict(files_in(others))[put]

    def stand_beside(self, others, name):
        """Gives a file among the others the name NAME.put, or another one that none has: the name, and the others."""
        number, put = 1, name + PUT
        while put in self.kept or self.directory.find(put):
            number += 1
            put = name + PUT + self.AGAIN % number
        del self.kept[name]
        self.kept[put] = None
        self.told.append(f"{self.path_to(name)}: it is served as it is here; what links had put in its place is {shown(put)} now")
        before = f"{FILE}{digits(name)} "
        return put, [f"{FILE}{digits(put)} {line[len(before):]}" if line.startswith(before) else line for line in others]

    def try_to_write_others(self, lines):
        """Writes the others. Where that can't be they are written with the next file that is closed."""
        try:
            self.write_others(lines, self.notes)
        except OSError as fault:
            self.told.append(f"{self.path_to(OTHERS)}: {fault.strerror}")
            self.others, self.is_due = lines, True

    # ---- writing

    def write_text(self, name, records):
        """Writes a text that isn't so on the disk."""
        if self.is_edited(name):
            self.move_away(name, "somebody has edited it meanwhile")
        if not self.directory.find(name):
            self.made.add(name)
        self.known[name] = (digest_of(records), self.directory.write(name, text_of(records)))

    def is_edited(self, name):
        """Whether a file isn't as it was read or written here."""
        before, state = self.known.get(name, (None, None))
        if self.directory.state_of(name) in (None, state):
            return False
        if before is None:
            return True
        try:
            return digest_of(lines_of(self.directory.read(name)[0])) != before
        except TextFault:
            return True

    def move_away(self, name, why):
        """Gives a file another name, which none has."""
        number, other = 1, name + EDITED
        while self.directory.find(other):
            number += 1
            other = name + EDITED + self.AGAIN % number
        self.directory.rename(name, other)
        self.told.append(f"{self.path_to(name)}: {why}: that is {self.path_to(other)} now")

    def write_others(self, lines, notes):
        """Writes the files that are no text, and what is kept with those that are, where it isn't so on the disk."""
        if (lines, notes) == (self.others, self.notes) and not self.is_due:
            return
        count = sum(line.startswith(FILE) for line in lines)
        comments = [HEAD, *([self.head] if self.head else []), *(notes[name].line(name) for name in sorted(notes))]
        text = "\n".join([*comments, *lines, MARK.format(count, len(lines)), ""])
        self.directory.write(OTHERS, text.encode())
        self.others, self.notes, self.is_due = lines, notes, False

    def is_as_known(self, name, attributes, records):
        """Whether links have left the records of a text as they were read, or written, here."""
        return name in self.known and not why_no_text(attributes, records) and digest_of(records) == self.known[name][0]

    def notes_after(self, names, texts):
        """What is kept with each text, by what a live end lists: these names, of which those texts. What was kept with a text of
        the host that isn't served as it is here stays."""
        erased = (self.made | self.served) - names
        stays = {name for name in self.notes.keys() - texts.keys()
                 if name in self.left or self.kept.get(name) or name in self.known and name not in erased}
        notes = {name: self.notes[name] for name in stays}
        return notes | {name: note for name, note in texts.items() if note.kept != OF_HOST}

    def why_kept(self, name, attributes, records):
        """Why a file of a link can't be one of this host; nothing where it can."""
        if not is_host_name(name):
            return "no file here can have this name"
        kind = self.directory.kind_of(name)
        if kind:
            return f"it is {kind} here"
        is_left = name in self.left and name not in self.known
        return "the file of this host isn't served" if is_left else why_no_text(attributes, records)

    def write_back(self, files):
        """Writes all that isn't so on the disk; `files` are names, attributes, and records with their numbers."""
        self.directory.check_there()
        texts, others, why_kept, notes = {}, [line for lines in self.unserved.values() for line in lines], {}, {}
        for name, attributes, numbered in files:
            records = [record for _, record in numbered]
            if self.is_as_known(name, attributes, records):
                notes[name] = Note(self.known[name][0], kept_of(attributes))
                continue
            why = "" if name in self.kept else self.why_kept(name, attributes, records)
            if why:
                why_kept[name] = why
            if why or name in self.kept:
                others += lines_of_file(name, attributes, numbered)
            else:
                texts[name] = records
                notes[name] = Note(digest_of(records), kept_of(attributes))
        for name, records in texts.items():
            self.write_text(name, records)
        self.write_others(others, self.notes_after({name for name, _, _ in files}, notes))
        for name, why in why_kept.items():
            self.keep(name, why)
        self.take_back({name for name, _, _ in files})
        self.directory.sync()

    def keep(self, name, why):
        """A file of a link is among the others now. Where the host has one of that name, that one stays as it was."""
        _, state = self.known.pop(name, (None, self.left.get(name)))
        is_here = state is not None and not self.directory.kind_of(name)
        self.kept[name] = state if is_here else None
        stays = "it stays as it was, and what links see is kept in .daplive" if is_here else "it is kept in .daplive"
        self.told.append(f"{self.path_to(name)}: {why}: {stays}")

    def take_back(self, names):
        """Forgets the files that links have purged or erased, and removes those of them that nobody has edited."""
        self.kept = {name: state for name, state in self.kept.items() if name in names or name in self.unserved}
        for name in sorted((self.made | self.served) - names):
            if name in self.known and self.directory.find(name):
                self.remove(name)
            self.known.pop(name, None)
        self.made &= names
        self.served = names & self.known.keys()

    def remove(self, name):
        """Removes a file that links have no more. One that somebody has edited stays, and is given to the live end again."""
        if not self.is_edited(name):
            self.directory.remove(name)
        elif name not in self.made:
            self.told.append(f"{self.path_to(name)}: a link has erased it, and somebody has edited it meanwhile: it is served as it is here")

    def listing(self, then):
        """What takes the answer to `files`, and writes it back."""
        return FolderListing(self, then)

    def heard(self, links):
        """What links did besides doesn't matter where a file has one version."""
        return False

    def close(self):
        self.directory.close()


class FolderListing:
    """The answer to `files`, gathered; `then` is called with it when it is whole."""

    def __init__(self, folder, then):
        self.folder, self.then, self.fault, self.files = folder, then, None, []

    def heard(self, links):
        return self.folder.heard(links)

    def told(self):
        """What is to be said of it, once."""
        return self.folder.said()

    def take(self, line):
        try:
            if line.startswith(FILE):
                _, name, attributes = line.split(" ", 2)
                self.files.append((bytes_in(name), attributes, []))
            elif line.startswith(RECORD):
                number, body = line.split()
                self.files[-1][2].append((int(number), bytes_in(body)))
            else:
                raise ValueError
        except (ValueError, IndexError):
            self.fault = KeptFault(f"{self.folder.path}: the live end answers '{line[:60]}' in place of the files")

    def end(self):
        self.then(self)

    def finish(self):
        if self.fault:
            return
        try:
            self.folder.write_back(self.files)
        except OSError as fault:
            self.fault = fault_of(self.folder.path, fault)

    def clear(self):
        """Nothing is left where it is given up."""
