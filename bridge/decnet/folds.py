"""The folds of names, as the proved end has them: a live end beside the one that serves is given a file of each name, and lists it."""
from decnet.end import Answer
from decnet.kept import FILE

FORMS = (b"%s;", b"%s")  # as which a name is given: the first asks for the next version, unless the name has a version itself


def version_of(listed):
    """The fold and the number of a file, by its name as a live end lists it; a number of 0 where it has none."""
    fold, _, number = listed.rpartition(b";")
    return (fold, int(number)) if number.isdigit() else (listed, 0)


def listed_as(fold, number):
    """The name of a file, as a live end lists it."""
    return fold + b";%d" % number


class Folds:
    """The folds of names. The live end that is asked has no file but the one that it is asked of."""

    def __init__(self, end):
        self.end, self.found = end, {}  # by names: the fold, or None where no file can be made of a name

    def of(self, name):
        """The fold of a name that was asked for."""
        return self.found.get(name)

    def ask_all(self, names):
        """Asks for those of these names that aren't known yet, and forgets all others."""
        self.found = {name: self.found[name] for name in names if name in self.found}
        self.ask(names)

    def ask(self, names):
        """Asks for those of these names that aren't known yet."""
        new = [name for name in names if name not in self.found]
        self.found.update(dict.fromkeys(new))
        for form in FORMS:
            for name in new:
                if self.found[name] is None:
                    self.queue(name, (form % name).hex())
            self.end.write()
            while self.end.is_busy:
                self.end.turn()

    def queue(self, name, given):
        self.end.queue(f"{FILE}{given} seq variable 0 0", Answer(lambda answer: None))
        self.end.queue("files", Answer(lambda lines: self.listed(name, lines)))
        self.end.queue(f"drop {given}", Answer(lambda answer: None))

    def listed(self, name, lines):
        """The live end has one file, of this name, or none."""
        if len(lines) > 1 or not all(line.startswith(FILE) for line in lines):
            raise self.end.strange(" ".join(lines))
        if lines:
            self.found[name] = version_of(bytes.fromhex(lines[0].split(" ")[1]))[0]

    def close(self):
        self.end.close()
