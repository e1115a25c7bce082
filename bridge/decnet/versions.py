"""A folder of this host whose files have versions: a file here is the highest version of its fold that a text can be, under the name
that the host gave it, and the others are kept in `.daplive`, with their numbers.

A live end is given each file as `FOLD;N`. What the fold of a name is, the proved end says (`folds`). A file here has the number that it
had when it was written, if `.daplive` says so and its lines are these; else the one above those that `.daplive` has of its fold. A file
that a link makes, of a fold that none here has, is written under the fold in small letters.

What a version that is no text takes the place of stays on the disk as it was, and is served again when the host changes it, or at the
next start. So does what a link has replaced by a version that it took back. Where the host's file is gone, the versions that are kept
stay kept, and the next one that a link makes is written here again.
"""
from dataclasses import dataclass, field

from decnet.directory import shown
from decnet.folder import DROP, OF_HOST, Folder, Note, digest_of, digits, files_in, kept_of, lines_of_file
from decnet.folds import listed_as, version_of


@dataclass
class Plan:
    """What is to be on the disk, by what a live end lists. Names are those here, but where they are `listed`."""

    others: list  # the lines that are to be in OTHERS
    raised: list = field(default_factory=list)  # lines of versions that leave OTHERS
    standing: dict = field(default_factory=dict)  # the name of the file that a version is, by its name as listed
    texts: dict = field(default_factory=dict)  # the records of files that are to be written, by their names
    notes: dict = field(default_factory=dict)  # Notes, by names
    why_kept: dict = field(default_factory=dict)  # why versions that are new can't be files here, by their names as listed
    folds: set = field(default_factory=set)  # those that have a version
    pending: set = field(default_factory=set)  # names, as listed, of versions that links are making
    renewed: set = field(default_factory=set)  # of these the ones that have one that is new
    removed: list = field(default_factory=list)  # files that links have erased
    hidden: list = field(default_factory=list)  # files in the place of which links have put what can't be a file here
    given_back: list = field(default_factory=list)  # files that links have replaced by versions that they took back


def highest_of(names):
    """The highest number of each fold that files with these names have, as listed."""
    found = {}
    for fold, number in map(version_of, names):
        found[fold] = max(number, found.get(fold, 0))
    return found


class VersionsFolder(Folder):
    """A folder that is served with versions."""

    AGAIN = b"-%d"  # after a dot, digits would be a version
    TAKEN = "another file has this version, or there is no such one"

    def __init__(self, place, head=None, is_due=False):
        super().__init__(place, head, is_due)
        self.folds = None  # who is asked for the folds of names, before anything is read
        self.given_as = {}  # by the name of a file here that is known: its fold and its number
        self.hosts = {}  # by its fold: the name of a file here that is known or hidden
        self.hidden = {}  # by the name of a file here in whose place links see a kept one: its state
        self.highest = {}  # by fold: the highest number in OTHERS
        self.pending = set()  # of the names in OTHERS those of files that links are making
        self.erased = set()  # folds of files that links have asked to erase since the live end listed them last
        self.making, self.lost = set(), set()  # folds of files that links are making, and of those that they never closed

    # ---- reading

    def lines(self):
        """The files of this host, and after them those in OTHERS."""
        others = self.read_others()
        self.keep_only(name for name, _ in files_in(others))
        for name in self.names_here():
            yield from self.changes_of(name)
        self.tell_count()
        self.try_to_write_others(others)
        yield from others

    def names_here(self):
        """Those that may be served: of two names of one fold the one comes first of which something is known."""
        names = super().names_here()
        self.folds.ask_all(names)
        return sorted((name for name in names if self.folds.of(name) is not None), key=lambda name: (name not in self.notes, name))

    def keep_only(self, names):
        """These are the files in OTHERS."""
        self.kept = dict.fromkeys(names)
        self.highest = highest_of(self.kept)

    def changes_of(self, name):
        """The lines by which a live end has what somebody has changed. Of two names of one fold one is served."""
        fold, state = self.folds.of(name), self.directory.state_of(name)
        owner = self.hosts.get(fold, name)
        if owner == name:
            return super().changes_of(name)
        if state not in (None, self.left.get(name)):
            self.left[name] = state
            self.alike.add(name)
            self.told.append(f"{self.path_to(name)}: {shown(owner)} is the file of this name: it isn't served")
        return []

    def stands_for(self, name):
        return self.hidden.get(name)

    def number_of(self, name, digest):
        """The number of a file here whose records have this digest."""
        fold, note = self.folds.of(name), self.notes.get(name)
        is_noted = note and note.number and note.digest == digest and listed_as(fold, note.number) not in self.kept
        return note.number if is_noted else self.highest.get(fold, 0) + 1

    def lines_to_give(self, name, digest, records):
        lines = [self.drop(name)] if name in self.known else []
        self.hidden.pop(name, None)
        fold, number = self.folds.of(name), self.number_of(name, digest)
        self.hosts[fold], self.given_as[name] = name, (fold, number)
        return lines + lines_of_file(listed_as(fold, number), self.attributes(name, digest), enumerate(records, 1))

    def forget(self, there):
        if self.hidden.keys() - there:
            self.left = {name: state for name, state in self.left.items() if name not in self.alike}
        self.hidden = {name: state for name, state in self.hidden.items() if name in there}
        self.hosts = {fold: name for fold, name in self.hosts.items() if name in there or name in self.known}
        return super().forget(there)

    def drop(self, name):
        """The line by which a live end forgets a file that is known."""
        return f"{DROP}{digits(listed_as(*self.given_as[name]))}"

    def dropped(self, name):
        line = self.drop(name)
        self.release(name)
        return line

    def release(self, name):
        """A file here isn't known any more: another one may have its name now."""
        self.known.pop(name, None)
        fold, _ = self.given_as.pop(name, (None, 0))
        if self.hosts.get(fold) == name:
            del self.hosts[fold]
            self.left = {one: state for one, state in self.left.items() if one not in self.alike or self.folds.of(one) != fold}

    def leave(self, name):
        here = next((one for one, version in self.given_as.items() if listed_as(*version) == name), None)
        if here is None:
            return super().leave(name)
        self.release(here)
        self.left[here] = self.directory.state_of(here)
        return here

    # ---- what is to be on the disk

    def heard(self, links):
        """Which files links are making, which they have left, and which they may have erased: by their folds, since they stand under
        other names. Whether another save is needed, since some aren't closed."""
        self.folds.ask(links.making + links.lost + links.erased)
        self.erased = set(map(self.folds.of, links.erased))
        self.making, self.lost = set(map(self.folds.of, links.making)), set(map(self.folds.of, links.lost))
        return bool(self.making)

    def plan(self, files):
        """What is to be on the disk where these are the files."""
        plan, folds = Plan([line for lines in self.unserved.values() for line in lines]), {}
        for name, attributes, numbered in files:
            fold, number = version_of(name)
            folds.setdefault(fold, []).append((number, name, attributes, [record for _, record in numbered]))
        plan.folds, left = set(folds), {self.folds.of(name): name for name in sorted(self.left, reverse=True)}
        for fold, versions in folds.items():
            here = self.hosts.get(fold) or left.get(fold, fold.lower())
            self.choose(plan, here, fold, sorted(versions, reverse=True))
        for name, attributes, numbered in files:
            if name not in plan.standing:
                plan.others += lines_of_file(name, attributes, numbered)
            elif name in self.kept:
                plan.raised += lines_of_file(name, attributes, numbered)
        self.sort_lost(plan)
        self.sort_notes(plan)
        return plan

    def choose(self, plan, here, fold, versions):
        """Which version of a fold is the file here: the highest that can be. One that is kept takes the place of a file that a link has
        erased, and of none that somebody else has removed or edited."""
        is_gone = self.given_as.get(here) not in [(fold, number) for number, *_ in versions]
        is_raised, is_below = fold in self.erased and is_gone and self.may_give_way(here), False
        for number, name, attributes, records in versions:
            is_given = self.given_as.get(here) == (fold, number)
            is_kept = name in self.kept and name not in self.pending
            is_as_known = self.is_as_known(here, attributes, records) and (is_given or not self.is_edited(here))
            why = "" if is_given and is_as_known else self.why_kept(here, attributes, records)
            if not is_kept and not is_given:
                why = why or self.why_unfinished(plan, fold, name, here)
            if not is_kept and (why or not is_given):
                plan.renewed.add(fold)
            if not why and (is_given or (is_raised if is_kept else not is_below)):
                plan.standing[name] = here
                digest = self.known[here][0] if is_as_known else digest_of(records)
                plan.notes[here] = Note(digest, kept_of(attributes), number)
                plan.texts.update({} if is_as_known else {here: records})
                return
            plan.why_kept.update({name: why} if why and not is_kept and name not in plan.pending else {})
            is_below = is_below or not why

    def why_unfinished(self, plan, fold, name, here):
        """Why a version that is new isn't a file here, or not yet, where a link hasn't closed it; nothing where it is."""
        if fold in self.making:
            plan.pending.add(name)
            return "it isn't closed"
        return "its link was closed before it was" if fold in self.lost and self.directory.find(here) else ""

    def may_give_way(self, name):
        """Whether the file that is here, which a link has erased, may give way to a version that is kept."""
        return name in self.known and self.directory.find(name) and not self.is_edited(name)

    def is_edited(self, name):
        is_as_hidden = name in self.hidden and self.directory.state_of(name) == self.hidden[name]
        return not is_as_hidden and super().is_edited(name)

    def sort_lost(self, plan):
        """What becomes of the files that were served, and that no version is any more."""
        for name in sorted(self.known.keys() - set(plan.standing.values())):
            fold, _ = self.given_as[name]
            fate = plan.hidden if fold in plan.renewed else plan.removed if fold in self.erased else plan.given_back
            fate.append(name)

    def sort_notes(self, plan):
        """Leaves out what is so without a note, and keeps those of files that links don't see now."""
        disputed = {self.folds.of(name) for name in self.left}
        highest = highest_of(name for name, _ in files_in(plan.others))
        for listed, name in plan.standing.items():
            fold, number = version_of(listed)
            is_usual = plan.notes[name].kept == OF_HOST and number == highest.get(fold, 0) + 1 and fold not in disputed
            if is_usual and name not in plan.texts and plan.notes[name] != self.notes.get(name):
                del plan.notes[name]
        unseen = (self.left.keys() | self.hidden.keys() | self.known.keys()) - set(plan.removed) - set(plan.standing.values())
        for name in unseen:
            if name in self.known:
                digest, _ = self.known[name]
                _, number = self.given_as[name]
                plan.notes[name] = Note(digest, kept_of(self.attributes(name, digest)), number)
            elif name in self.notes:
                plan.notes[name] = self.notes[name]

    # ---- writing

    def write_back(self, files):
        """Writes all that isn't so on the disk. A version is in one place before it leaves the other."""
        self.directory.check_there()
        plan = self.plan(files)
        self.write_others(plan.others + plan.raised, plan.notes)
        for name, records in plan.texts.items():
            self.write_text(name, records)
        self.write_others(plan.others, plan.notes)
        self.tell_kept(plan)
        self.settle(plan)
        self.directory.sync()

    def tell_kept(self, plan):
        for listed, why in plan.why_kept.items():
            here = self.hosts.get(version_of(listed)[0])
            stays = f", and {self.path_to(here)} stays as it was" if here in plan.hidden or here in self.hidden else ""
            self.told.append(f"{self.path_to(listed)}: {why}: it is kept in .daplive{stays}")

    def settle(self, plan):
        """Takes note of what is on the disk, once the versions are."""
        for name in plan.hidden:
            _, self.hidden[name] = self.known.pop(name)
            del self.given_as[name]
        for name in plan.given_back:
            self.told.append(f"{self.path_to(name)}: a link has replaced it, and has taken that back: it is served as it is here")
        for name in plan.removed:
            if self.directory.find(name):
                self.remove(name)
        for name in plan.given_back + plan.removed:
            self.release(name)
        for fold in [fold for fold, name in self.hosts.items() if name in self.hidden and fold not in plan.folds]:
            del self.hidden[self.hosts.pop(fold)]
        for listed, name in plan.standing.items():
            self.given_as[name] = fold, _ = version_of(listed)
            self.hosts[fold] = name
            self.hidden.pop(name, None)
        self.keep_only(name for name, _ in files_in(plan.others))
        self.pending = plan.pending
        self.made &= set(plan.standing.values())

    def close(self):
        if self.folds:
            self.folds.close()
        super().close()
